/* What the store and its sessions count, and whose looks hold a publication up. */
#include "check.h"

/* Makes a publication, which is held or goes through. */
static void publish(bool is_held)
{
    RETURNS(is_held ? CAMEL_HELD : CAMEL_OK, camel_publish(&store));
}

static uint64_t holders(void)
{
    uint64_t bits = UINT64_MAX;
    RETURNS(CAMEL_OK, camel_holders(&store, &bits));
    return bits;
}

/* The bit of a session, once a publication has come behind its look, and none before and afterwards. */
static void held_by_one(size_t at)
{
    IS(holders() == 0);
    RETURNS(CAMEL_OK, camel_look(&sessions[at]));
    IS(holders() == 0);
    publish(false);
    IS(holders() == (uint64_t)1 << at);
    publish(true);
    IS(holders() == (uint64_t)1 << at);
    RETURNS(CAMEL_OK, camel_leave(&sessions[at]));
    IS(holders() == 0);
    publish(false);
}

/* Looks of three sessions, of which one after the other is left. A look that begins later holds nothing up yet, and is
 * named once a publication has gone through. A session that is freed leaves its look, which holds nothing up any more.
 * Who is named holds the end up too. */
static void held_by_some(size_t count)
{
    size_t places[] = { 0, count / 2, count - 1 };
    uint64_t bits = 0;

    for (size_t at = 0; at < 3; at++) {
        RETURNS(CAMEL_OK, camel_look(&sessions[places[at]]));
        bits |= (uint64_t)1 << places[at];
    }
    publish(false);
    RETURNS(CAMEL_OK, camel_look(&sessions[1]));
    for (size_t at = 0; at < 3; at++) {
        IS(holders() == bits);
        publish(true);
        RETURNS(CAMEL_OK, camel_leave(&sessions[places[at]]));
        bits &= ~((uint64_t)1 << places[at]);
    }
    IS(holders() == 0);
    publish(false);
    IS(holders() == 2);
    publish(true);
    camel_free(&sessions[1]);
    IS(holders() == 0);
    publish(false);
    publish(false);
    RETURNS(CAMEL_OK, camel_look(&sessions[0]));
    publish(false);
    IS(holders() == 1);
    RETURNS(CAMEL_HELD, camel_close(&store));
}

static void holders_are_named(void)
{
    static const size_t session_counts[] = { 1, 5, CAMEL_MAX_SESSIONS };

    for (size_t of = 0; of < 3; of++) {
        open_store(session_counts[of], 1);
        for (size_t at = 0; at < session_counts[of]; at++)
            held_by_one(at);
        if (session_counts[of] > 1)
            held_by_some(session_counts[of]);
        close_store();
    }
}

/* Subscribers are those of what is published; an update that is rejected is not counted. */
static void updates_are_counted(void)
{
    camel_row row = row_of(2, 100);

    IS(counts_are(0, 0, 0, 0));
    for (unsigned number = 1; number <= 3; number++)
        register_subscriber(number);
    RETURNS(CAMEL_UNIDENTIFIED_SUBSCRIBER, insert(4, ROWS(&row, 1), NO_CSI));
    IS(counts_are(0, 0, 3, 0));
    publish(false);
    IS(counts_are(3, 3, 0, 0));
    register_subscriber(1);
    RETURNS(CAMEL_OK, insert(2, ROWS(&row, 1), NO_CSI));
    RETURNS(CAMEL_OK, submit(CAMEL_UPDATE_CANCEL, 3));
    RETURNS(CAMEL_OK, submit(CAMEL_UPDATE_CANCEL, 3));
    IS(counts_are(3, 3, 4, 0));
    publish(false);
    IS(counts_are(2, 7, 0, 0));
}

/* A publication that is held counts, and leaves the other counts. */
static void held_publications_are_counted(void)
{
    RETURNS(CAMEL_OK, camel_look(sessions));
    publish(false);
    RETURNS(CAMEL_OK, submit(CAMEL_UPDATE_CLEAR_ALL, 1));
    publish(true);
    publish(true);
    IS(counts_are(2, 7, 1, 2));
    RETURNS(CAMEL_OK, camel_leave(sessions));
    IS(counts_are(2, 7, 1, 2));
    publish(false);
    IS(counts_are(0, 8, 0, 2));
    publish(false);
    IS(counts_are(0, 8, 0, 2));
}

/* The data by which each reason comes: 1 has a row at 2, for calls that are not forwarded, and one at 13, for cause 17;
 * 2 has none, and 4 has rows at 4 and 14. */
static void submit_data(void)
{
    camel_row o[] = { row_of(2, 100), row_of(4, 101) }, vt[] = { row_of(13, 103), row_of(14, 104) };
    camel_criteria not_forwarded = { .dp = 2, .has_call_type = true }, cause = { .dp = 13, .causes = { 1, { 17 } } };

    for (unsigned number = 1; number <= 4; number++)
        if (number != 3)
            register_subscriber(number);
    RETURNS(CAMEL_OK, insert(1, CSI(o, 1, &not_forwarded, 1), CSI(vt, 1, &cause, 1)));
    RETURNS(CAMEL_OK, insert(4, ROWS(&o[1], 1), ROWS(&vt[1], 1)));
    publish(false);
}

/* Each reason, at 2 and at 13. */
static const struct { unsigned number; uint8_t reason; } CASES[] = {
    { 1, CAMEL_REASON_NONE }, { 3, CAMEL_REASON_UNKNOWN }, { 2, CAMEL_REASON_NO_CSI },
    { 4, CAMEL_REASON_NOT_ARMED }, { 1, CAMEL_REASON_EMERGENCY }, { 1, CAMEL_REASON_CRITERIA },
};

enum { REASONED = COUNT_OF(CASES), EVENTS = 2 * REASONED };

static camel_event event_at(size_t at)
{
    uint8_t reason = CASES[at % REASONED].reason;
    camel_event event = event_of(CASES[at % REASONED].number, at < REASONED ? 2 : 13);
    if (reason == CAMEL_REASON_EMERGENCY)
        event.basic.code = 0x12;
    if (reason == CAMEL_REASON_CRITERIA)
        event.is_forwarded = true, event.cause = 18;
    return event;
}

enum way { DECIDED, SET_UP, BY_KEPT, WAYS };

/* Decides an event in one of the ways, and tells whether it did: there is no kept record of an unknown subscriber. A
 * kept record is the other session's. */
static bool decide_by(enum way way, const camel_event *event, uint8_t reason)
{
    camel_subscriber kept = CAMEL_EMPTY;
    camel_answer answer = { .reason = 99 };
    bool is_there = true;

    if (way == DECIDED)
        RETURNS(CAMEL_OK, camel_decide(sessions, event, &answer));
    if (way == SET_UP)
        RETURNS(CAMEL_OK, camel_set_up(sessions, event, &answer, &kept, &is_there));
    if (way == BY_KEPT) {
        RETURNS(CAMEL_OK, camel_keep(&sessions[1], &event->imsi, &kept, &is_there));
        if (is_there)
            RETURNS(CAMEL_OK, camel_decide_kept(sessions, &kept, event, &answer));
    }
    camel_free(&kept);
    IS(is_there == (way == DECIDED || reason != CAMEL_REASON_UNKNOWN));
    if (way == BY_KEPT && !is_there)
        return false;
    IS(answer.reason == reason && answer.is_trigger == (reason == CAMEL_REASON_NONE));
    return true;
}

/* Whether a session counts so many decisions. */
static bool decisions_are(const camel_session *session, const camel_decisions *wanted)
{
    camel_decisions decisions;
    memset(&decisions, 0xa5, sizeof decisions);
    RETURNS(CAMEL_OK, camel_decisions_of(session, &decisions));
    return memcmp(&decisions, wanted, sizeof decisions) == 0;
}

static camel_decisions counted; /* what the first session has decided */

/* Each detection point and reason, in each way, another number of times. What is decided counts nowhere else. */
static void decisions_are_counted(void)
{
    static const camel_decisions none;

    submit_data();
    for (enum way way = 0; way < WAYS; way++)
        for (size_t at = 0; at < EVENTS; at++)
            for (size_t time = 0; time <= at + EVENTS * way; time++) {
                camel_event event = event_at(at);
                if (time % 2 == 1)
                    RETURNS(CAMEL_OK, camel_look(sessions));
                if (decide_by(way, &event, CASES[at % REASONED].reason))
                    counted.by[event.dp][CASES[at % REASONED].reason]++;
                RETURNS(CAMEL_OK, camel_leave(sessions));
                IS(decisions_are(sessions, &counted));
            }
    IS(decisions_are(&sessions[1], &none));
    IS(counted.by[CAMEL_DP_COLLECTED_INFO][CAMEL_REASON_UNKNOWN] == 2 * 2 + EVENTS);
    IS(counted.by[CAMEL_DP_T_BUSY][CAMEL_REASON_EMERGENCY] == 3 * 11 + 3 * EVENTS);
}

/* A session keeps its counts beyond the end of the store, and a decision that finds the end is none. One by a kept
 * record is counted then too, by a session of another store as well. */
static void decisions_outlive_the_store(void)
{
    camel_store other = CAMEL_EMPTY;
    camel_session of_other = CAMEL_EMPTY;
    camel_subscriber kept = CAMEL_EMPTY;
    camel_event event = event_of(1, 2);
    camel_answer answer;
    camel_decisions one = { .by = { { 0 } } };
    bool is_there = false;

    RETURNS(CAMEL_OK, camel_keep(sessions, &event.imsi, &kept, &is_there));
    RETURNS(CAMEL_OK, camel_close(&store));
    RETURNS(CAMEL_NO_LOOK, camel_decide(sessions, &event, &answer));
    IS(decisions_are(sessions, &counted) && counted.by[2][CAMEL_REASON_CRITERIA] == 3 * 6 + 3 * EVENTS);
    RETURNS(CAMEL_OK, camel_decide_kept(sessions, &kept, &event, &answer));
    counted.by[2][CAMEL_REASON_NONE]++;
    IS(answer.is_trigger && decisions_are(sessions, &counted));
    RETURNS(CAMEL_OK, camel_open(&other, &of_other, 1, 1, 1, 2));
    RETURNS(CAMEL_OK, camel_decide_kept(&of_other, &kept, &event, &answer));
    one.by[2][CAMEL_REASON_NONE]++;
    IS(decisions_are(&of_other, &one) && decisions_are(sessions, &counted));
    camel_free(&of_other), camel_free(&kept), camel_free(&sessions[0]), camel_free(&sessions[1]);
    RETURNS(CAMEL_OK, camel_close(&other));
}

int main(void)
{
    holders_are_named();
    open_store(2, 20);
    updates_are_counted();
    held_publications_are_counted();
    decisions_are_counted();
    decisions_outlive_the_store();
    return ended("counts");
}
