/* Updates that are published or committed, with sessions that show them from then on, or not shown at all, and updates
 * that are submitted together. Each status, by a call that returns it, and what is pending and shown behind it. Then
 * each request for memory of a commit is refused in turn: nothing of it is shown, and the next commit publishes its own
 * updates only. */
#include "refusing.h"

#include <limits.h>

enum { SESSIONS = 3, SUBSCRIBERS = 4, LIMIT = 20 };

/* All that the store and its first session show. */
static uint64_t shown(void)
{
    return shown_by(&sessions[0], SUBSCRIBERS);
}

/* The Insert of a row of detection point 2 with a service key. */
static camel_update insert_of_row(unsigned number, uint32_t key)
{
    camel_row row = row_of(2, key);
    return update_of(insert_of(number, ROWS(&row, 1), NO_CSI));
}

/* That of criteria without rows. */
static camel_update insert_of_criteria(unsigned number)
{
    camel_criteria criteria = { .dp = 13, .causes = { 1, { 17 } } };
    return update_of(insert_of(number, NO_CSI, CSI(NULL, 0, &criteria, 1)));
}

static camel_update update_of_kind(uint8_t kind, unsigned number)
{
    return update_of(change_of(kind, number));
}

static void free_all(camel_update *updates, size_t count)
{
    for (size_t at = 0; at < count; at++)
        camel_free(&updates[at]);
}

/* Commits or submits, and looks at the index. */
#define NAMES(wanted, wanted_index, call)                                                                           \
    do {                                                                                                            \
        size_t rejected = 99;                                                                                       \
        RETURNS(wanted, call);                                                                                      \
        IS(rejected == (wanted_index));                                                                             \
    } while (0)
#define COMMITS(wanted, wanted_index, updates, count, to, to_count)                                                 \
    NAMES(wanted, wanted_index, camel_commit(&store, updates, count, to, to_count, &rejected))
#define SUBMITS(wanted, wanted_index, updates, count)                                                               \
    NAMES(wanted, wanted_index, camel_submit_all(&store, updates, count, &rejected))

/* A location update of a subscriber, committed to all sessions. */
static void update_location(unsigned number, uint32_t key)
{
    camel_update updates[] = { update_of_kind(CAMEL_UPDATE_REGISTER, number), insert_of_row(number, key) };
    COMMITS(CAMEL_OK, 2, updates, 2, sessions, SESSIONS);
    free_all(updates, 2);
}

/* A store in which subscriber 1 has a row. */
static void open_filled(uint64_t limit)
{
    open_store(SESSIONS, limit);
    update_location(1, 100);
    IS(counts_are(1, 2, 0, 0));
}

static void close_filled(void)
{
    close_store();
    IS(blocks == 0);
}

/* The service key of a call of a subscriber, or 0 if there is none, by a session whose front is this one. */
static uint32_t key_at(camel_session *session, unsigned number, uint64_t front)
{
    camel_answer answer = decided(session, number, 2);
    IS(answer.front == front);
    return answer.is_trigger ? answer.key : 0;
}

/* Publishes updates, by a commit or behind their submission, and tells some sessions. */
static void show(bool is_commit, const camel_update *updates, size_t count, camel_session *first, size_t told)
{
    uint64_t published = counts_of(&store).published;

    if (is_commit)
        COMMITS(CAMEL_OK, count, updates, count, first, told);
    else {
        SUBMITS(CAMEL_OK, count, updates, count);
        IS(counts_of(&store).pending == count);
        RETURNS(CAMEL_OK, camel_publish_to(&store, first, told));
    }
    IS(counts_of(&store).published == published + count && counts_of(&store).pending == 0);
}

/* Each session that is told shows it. The handles keep the updates, which may be submitted and committed again. */
static void told_of(void)
{
    camel_update updates[] = { update_of_kind(CAMEL_UPDATE_REGISTER, 2), insert_of_row(2, 101) };
    uint64_t front = 2;

    open_filled(LIMIT);
    for (unsigned way = 0; way < 2 * (SESSIONS + 1); way++) {
        size_t told = way / 2;
        camel_session *first = &sessions[SESSIONS - told];
        front += 2;
        show(way % 2, updates, 2, first, told);
        IS(counts_are(2, front, 0, 0));
        for (size_t at = 0; at < told; at++)
            IS(key_at(&first[at], 2, front) == 101 && key_at(&first[at], 1, front) == 100);
    }
    show(false, updates, 0, sessions, SESSIONS);
    show(true, updates, 0, sessions, SESSIONS);
    IS(counts_are(2, front, 0, 0));
    free_all(updates, 2);
    close_filled();
}

/* One update by itself may be of any kind. */
static void by_itself(void)
{
    static const struct { uint8_t kind, reason; } cases[] = {
        { CAMEL_UPDATE_DELETE, CAMEL_REASON_NO_CSI }, { CAMEL_UPDATE_CANCEL, CAMEL_REASON_UNKNOWN },
        { CAMEL_UPDATE_CLEAR_ALL, CAMEL_REASON_UNKNOWN },
    };

    open_filled(LIMIT);
    for (size_t at = 0; at < 2 * COUNT_OF(cases); at++) {
        camel_update update = update_of_kind(cases[at / 2].kind, 1);
        show(at % 2, &update, 1, sessions, SESSIONS);
        IS(decided(&sessions[2], 1, 2).reason == cases[at / 2].reason);
        IS(front_of(&sessions[2]) == counts_of(&store).published);
        camel_free(&update);
        update_location(1, 100);
    }
    close_filled();
}

/* Behind a commit that failed nothing is pending, and no publication shows any of it, in either copy. */
static void shows_nothing(uint64_t before)
{
    for (int copy = 0; copy < 3; copy++) {
        IS(shown() == before && counts_of(&store).pending == 0);
        publish_to(SESSIONS);
    }
    IS(shown() == before);
}

/* What is pending as a commit comes, which it drops: a record is removed, and another one comes. */
static void submit_others(void)
{
    RETURNS(CAMEL_OK, submit(CAMEL_UPDATE_CANCEL, 1));
    register_subscriber(4);
}

/* The first update that the store rejects is named: of those from a place of these updates on, so many. */
static const struct { camel_status wanted; size_t index, first, count; } REJECTED[] = {
    { CAMEL_UNIDENTIFIED_SUBSCRIBER, 2, 0, 3 }, { CAMEL_UNIDENTIFIED_SUBSCRIBER, 0, 2, 1 },
    { CAMEL_DATA_MISSING, 1, 3, 2 },            { CAMEL_UNIDENTIFIED_SUBSCRIBER, 0, 5, 2 },
    { CAMEL_UNEXPECTED_DATA_VALUE, 1, 6, 2 },   { CAMEL_UNEXPECTED_DATA_VALUE, 0, 8, 2 },
    { CAMEL_HISTORY_FULL, 3, 9, 4 },            { CAMEL_WRONG_HANDLE, 3, 11, 3 },
};

/* Each is rejected by a commit, whatever is pending, and by itself: all is as before then. */
static void rejected_updates(void)
{
    camel_update updates[] = {
        update_of_kind(CAMEL_UPDATE_REGISTER, 2), insert_of_row(2, 101), insert_of_row(3, 102),
        update_of_kind(CAMEL_UPDATE_REGISTER, 3), insert_of_criteria(3), update_of_kind(CAMEL_UPDATE_DELETE, 4),
        update_of_kind(CAMEL_UPDATE_REGISTER, 3), update_of_kind(CAMEL_UPDATE_CANCEL, 1),
        update_of_kind(CAMEL_UPDATE_CLEAR_ALL, 1), update_of_kind(CAMEL_UPDATE_REGISTER, 2), insert_of_row(2, 103),
        insert_of_row(1, 104), insert_of_row(2, 105), CAMEL_EMPTY,
    };
    uint64_t before;

    open_filled(5);
    before = shown();
    for (size_t at = 0; at < COUNT_OF(REJECTED); at++)
        for (int has_pending = 0; has_pending < 2; has_pending++) {
            const camel_update *first = &updates[REJECTED[at].first];
            bool is_wrong = REJECTED[at].wanted == CAMEL_WRONG_HANDLE;
            SUBMITS(REJECTED[at].wanted, REJECTED[at].index, first, REJECTED[at].count);
            IS(counts_are(1, 2, 0, 0));
            if (has_pending)
                submit_others();
            COMMITS(REJECTED[at].wanted, REJECTED[at].index, first, REJECTED[at].count, sessions, SESSIONS);
            IS(counts_are(1, 2, is_wrong && has_pending ? 2 : 0, 0));
            if (is_wrong)
                RETURNS(CAMEL_OK, camel_drop_pending(&store));
            shows_nothing(before);
        }
    /* What was pending does not count for the limit. */
    submit_others();
    COMMITS(CAMEL_OK, 3, &updates[9], 3, sessions, SESSIONS);
    IS(counts_are(2, 5, 0, 0) && key_at(&sessions[1], 1, 5) == 104 && key_at(&sessions[2], 2, 5) == 103);
    SUBMITS(CAMEL_HISTORY_FULL, 0, &updates[9], 3);
    free_all(updates, COUNT_OF(updates));
    close_filled();
}

/* A look of a session that is not told holds the publication up, which is counted. Of a commit nothing is pending
 * then. */
static void held_by_another(void)
{
    camel_update updates[] = { update_of_kind(CAMEL_UPDATE_REGISTER, 2), insert_of_row(2, 101) };
    uint64_t before;

    open_filled(LIMIT);
    before = shown();
    RETURNS(CAMEL_OK, camel_look(&sessions[2]));
    publish_to(2);
    submit_others();
    RETURNS(CAMEL_HELD, camel_publish_to(&store, sessions, 2));
    IS(counts_are(1, 2, 2, 1));
    for (uint64_t held = 2; held < 5; held++) {
        COMMITS(CAMEL_HELD, 2, updates, 2, sessions, 2);
        IS(counts_are(1, 2, 0, held) && shown() == before);
        if (held < 4)
            submit_others();
    }
    /* Its copies of the updates come first: refused memory for one, it does not tell of the look. */
    refused_from = refused_to = requests + 1;
    is_counting = true;
    COMMITS(CAMEL_OUT_OF_MEMORY, 2, updates, 2, sessions, 2);
    is_counting = false;
    IS(refused == 1);
    refused_from = refused_to = refused = 0;
    IS(counts_are(1, 2, 0, 4) && shown() == before);
    RETURNS(CAMEL_OK, camel_leave(&sessions[2]));
    shows_nothing(before);
    COMMITS(CAMEL_OK, 2, updates, 2, sessions, SESSIONS);
    IS(counts_are(2, 4, 0, 4) && key_at(&sessions[2], 2, 4) == 101 && key_at(&sessions[0], 1, 4) == 100);
    free_all(updates, 2);
    close_filled();
}

/* A session that cannot learn, wherever it is, and too many sessions: all is as before, and what is pending may be
 * published. Behind an empty one no session is looked at. */
static void wrong(void)
{
    static const camel_status statuses[] = { CAMEL_OTHER_STORE, CAMEL_WRONG_HANDLE, CAMEL_HELD };
    camel_store other = CAMEL_EMPTY;
    camel_session of_other = CAMEL_EMPTY, none = CAMEL_EMPTY, many[CAMEL_MAX_SESSIONS + 1] = { CAMEL_EMPTY };
    camel_update updates[] = { update_of_kind(CAMEL_UPDATE_REGISTER, 2), insert_of_row(2, 101) };

    open_filled(LIMIT);
    RETURNS(CAMEL_OK, camel_open(&other, &of_other, 1, LIMIT, 1, 2));
    submit_others();
    for (size_t at = 0; at < SESSIONS * COUNT_OF(statuses); at++) {
        camel_session *place = &sessions[at / COUNT_OF(statuses)], own = *place;
        camel_status wanted = statuses[at % COUNT_OF(statuses)];
        if (wanted == CAMEL_HELD)
            RETURNS(CAMEL_OK, camel_look(place));
        else
            *place = wanted == CAMEL_OTHER_STORE ? of_other : none;
        RETURNS(wanted, camel_publish_to(&store, sessions, SESSIONS));
        COMMITS(wanted, 2, updates, 2, sessions, SESSIONS);
        *place = own;
        RETURNS(CAMEL_OK, camel_leave(place));
        IS(counts_are(1, 2, 2, 0) && key_at(place, 1, 2) == 100);
    }
    RETURNS(CAMEL_MALFORMED, camel_publish_to(&store, many, CAMEL_MAX_SESSIONS + 1));
    COMMITS(CAMEL_MALFORMED, 2, updates, 2, many, CAMEL_MAX_SESSIONS + 1);
    RETURNS(CAMEL_WRONG_HANDLE, camel_publish_to(&store, many, CAMEL_MAX_SESSIONS));
    COMMITS(CAMEL_WRONG_HANDLE, 2, updates, 2, many, CAMEL_MAX_SESSIONS);
    IS(counts_are(1, 2, 2, 0) && counts_of(&other).published == 0);
    publish_to(SESSIONS);
    IS(counts_are(1, 4, 0, 0) && key_at(sessions, 1, 4) == 0 && key_at(sessions, 2, 4) == 0);
    free_all(updates, 2);
    camel_free(&of_other);
    RETURNS(CAMEL_OK, camel_close(&other));
    close_filled();
}

/* Commits that are refused memory: each kind of update by itself, a location update, or nothing, over what is pending:
 * nothing, a record that comes, one that goes, or all that go. */
enum { LOCATION_UPDATE = CAMEL_UPDATE_CLEAR_ALL + 1, NOTHING, COMMITTED };
static const struct { uint8_t kind; unsigned number; } PENDING[] = {
    { 0, 0 }, { CAMEL_UPDATE_REGISTER, 4 }, { CAMEL_UPDATE_CANCEL, 1 }, { CAMEL_UPDATE_CLEAR_ALL, 1 },
};

static size_t make_committed(unsigned what, camel_update *updates)
{
    if (what == NOTHING)
        return 0;
    if (what == LOCATION_UPDATE) {
        updates[0] = update_of_kind(CAMEL_UPDATE_REGISTER, 2);
        updates[1] = insert_of_row(2, 105);
        return 2;
    }
    updates[0] = what == CAMEL_UPDATE_INSERT ? insert_of_row(1, 104) : update_of_kind((uint8_t)what, 1);
    return 1;
}

/* The next commit, of which the data are only its own: those of subscriber 3 beside what was published before. */
static void commit_next(void)
{
    update_location(3, 106);
    for (int copy = 0; copy < 2; copy++) {
        IS(counts_are(2, 4, 0, 0));
        for (size_t at = 0; at < SESSIONS; at++) {
            IS(key_at(&sessions[at], 3, 4) == 106 && key_at(&sessions[at], 1, 4) == 100);
            IS(key_at(&sessions[at], 2, 4) == 0 && key_at(&sessions[at], 4, 4) == 0);
        }
        publish_to(SESSIONS);
    }
}

/* One life of a store: a commit is refused its requests from the first of these numbers to the last. What it has left
 * pending is dropped by itself or by the next commit. Tells whether it met a refusal. It does without if it succeeds
 * all the same. */
static bool refuse_commit(unsigned what, size_t pending, bool is_dropped, unsigned long first, unsigned long last)
{
    camel_update updates[2] = { CAMEL_EMPTY, CAMEL_EMPTY };
    size_t count, rejected = 99;
    uint64_t before;
    camel_status status;
    bool was_met;

    open_filled(LIMIT);
    count = make_committed(what, updates);
    before = shown_of(&sessions[0], SUBSCRIBERS);
    if (PENDING[pending].kind)
        RETURNS(CAMEL_OK, submit(PENDING[pending].kind, PENDING[pending].number));
    requests = 0;
    refused_from = first;
    refused_to = last;
    status = COUNTED(camel_commit(&store, updates, count, sessions, 2, &rejected));
    refused_from = refused_to = 0;
    was_met = refused > 0;
    IS(rejected == count && (status == CAMEL_OK || status == CAMEL_OUT_OF_MEMORY));
    if (has_failed("commit", status)) {
        /* A removal may still be pending, and what was pending as the copies were refused. */
        bool may_be_pending = pending > 0 || what == CAMEL_UPDATE_CANCEL || what == CAMEL_UPDATE_CLEAR_ALL;
        IS(counts_are(1, 2, may_be_pending ? counts_of(&store).pending : 0, 0));
        for (size_t at = 0; at < SESSIONS; at++)
            IS(shown_of(&sessions[at], SUBSCRIBERS) == before);
        if (is_dropped) {
            RETURNS(CAMEL_OK, camel_drop_pending(&store));
            shows_nothing(shown());
        }
        commit_next();
    } else
        IS(counts_of(&store).published == 2 + count && counts_of(&store).pending == 0 && counts_of(&store).held == 0);
    free_all(updates, count);
    close_filled();
    return was_met;
}

/* Refuses each request of each commit in turn, only that one, and with all that follow: then what is pending cannot be
 * dropped either. */
static void refused_commits(void)
{
    for (unsigned what = CAMEL_UPDATE_REGISTER; what < COMMITTED; what++)
        for (size_t pending = 0; pending < COUNT_OF(PENDING); pending++)
            for (unsigned way = 0; way < 4; way++) {
                unsigned long request = 1;
                while (!failed && refuse_commit(what, pending, way / 2, request, way % 2 ? ULONG_MAX : request))
                    request++;
                IS(request > 1 || what == NOTHING);
            }
}

int main(void)
{
    told_of();
    by_itself();
    rejected_updates();
    held_by_another();
    wrong();
    refused_commits();
    return ended("commit");
}
