/* Records: what a call is set up by and keeps, what is listed, and what is encoded of each. */
#include "octets.h"

/* Publishes an O-CSI of detection point 2 with this service key, and tells a session. */
static void publish_key(camel_session *session, uint32_t key)
{
    camel_row row = row_of(2, key);
    RETURNS(CAMEL_OK, insert(1, ROWS(&row, 1), NO_CSI));
    RETURNS(CAMEL_OK, camel_publish_to(&store, session, 1));
}

/* Decision and record are of one front, which later publications do not change. */
static void set_up_over_one_front(void)
{
    camel_subscriber kept = CAMEL_EMPTY, none = CAMEL_EMPTY;
    camel_event event = event_of(1, 2), unknown = event_of(2, 2);
    camel_answer answer = { 0 }, later = { 0 };
    camel_decisions decisions;
    bool is_there = false;

    open_store(2, 10);
    register_subscriber(1);
    publish_key(sessions, 100);
    RETURNS(CAMEL_OK, camel_set_up(sessions, &event, &answer, &kept, &is_there));
    IS(is_there && kept.is_full && answer.is_trigger && answer.key == 100 && answer.front == 2);
    publish_key(sessions, 101);
    RETURNS(CAMEL_OK, camel_decide_kept(sessions, &kept, &event, &later));
    IS(later.key == 100 && later.front == 2);
    camel_free(&kept);
    RETURNS(CAMEL_OK, camel_look(sessions));
    publish_key(sessions + 1, 102);
    RETURNS(CAMEL_OK, camel_set_up(sessions, &event, &answer, &kept, &is_there));
    IS(is_there && answer.key == 101 && answer.front == 3 && front_of(sessions) == 3);
    RETURNS(CAMEL_OK, camel_leave(sessions));
    RETURNS(CAMEL_OK, camel_set_up(sessions, &unknown, &answer, &none, &is_there));
    IS(!is_there && !none.is_full && !answer.is_trigger && answer.reason == CAMEL_REASON_UNKNOWN && answer.front == 4);
    RETURNS(CAMEL_OK, camel_decisions_of(sessions, &decisions));
    IS(decisions.by[2][CAMEL_REASON_NONE] == 4 && decisions.by[2][CAMEL_REASON_UNKNOWN] == 1);
    camel_free(&kept);
    close_store();
}

/* The rows of a copy are those of its record at each detection point, also once the store has ended. What has no row or
 * no criteria there leaves what stands. Without a record there is no copy. */
static void kept_rows(void)
{
    camel_subscriber kept = CAMEL_EMPTY, none = CAMEL_EMPTY;
    camel_row o[] = { row_of(2, 102), row_of(4, 104) }, vt[] = { row_of(12, 112), row_of(14, 114) }, row, of_record;
    camel_criteria sent[] = { { .dp = 4 }, { .dp = 14 } }, criteria;
    camel_imsi imsi = imsi_of(1), other = imsi_of(2);
    bool is_there = true, is_in_record = true;

    open_store(1, 10);
    o[1].handling = 0;
    register_subscriber(1);
    RETURNS(CAMEL_OK, insert(1, CSI(o, 2, &sent[0], 1), CSI(vt, 2, &sent[1], 1)));
    publish_to(1);
    RETURNS(CAMEL_OK, camel_keep(sessions, &imsi, &kept, &is_there));
    RETURNS(CAMEL_OK, camel_look(sessions));
    RETURNS(CAMEL_OK, submit(CAMEL_UPDATE_CANCEL, 1));
    RETURNS(CAMEL_OK, camel_publish(&store));
    RETURNS(CAMEL_HELD, camel_close(&store));
    for (unsigned dp = 0; dp < 256; dp++) {
        row = of_record = (camel_row){ .key = 7 };
        is_there = !is_there;
        RETURNS(CAMEL_OK, camel_kept_row_at(&kept, (uint8_t)dp, &row, &is_there));
        RETURNS(CAMEL_OK, camel_row_at(sessions, &imsi, (uint8_t)dp, &of_record, &is_in_record));
        IS(is_there == is_in_record && is_there == (dp == 2 || dp == 4 || dp == 12 || dp == 14));
        IS(is_there ? is_same_row(&row, &of_record) && row.key == 100 + dp : row.key == 7);
        criteria.dp = 7;
        RETURNS(CAMEL_OK, camel_criteria_at(sessions, &imsi, (uint8_t)dp, &criteria, &is_in_record));
        IS(is_in_record == (dp == 4 || dp == 14) && criteria.dp == (is_in_record ? dp : 7));
    }
    RETURNS(CAMEL_OK, camel_keep(sessions, &other, &none, &is_there));
    IS(!none.is_full && !is_there);
    camel_free(&kept);
    close_store();
}

/* Each IMSI once, of the front of the look, whatever is published then, and also once the store has ended. */
static void listed_records(void)
{
    enum { SUBSCRIBERS = 100 };
    static bool are_listed[SUBSCRIBERS];
    camel_imsis imsis = CAMEL_EMPTY;
    camel_imsi imsi = { 0 };
    bool is_there = true;

    open_store(1, 2 * SUBSCRIBERS);
    for (unsigned number = 0; number < SUBSCRIBERS; number++)
        register_subscriber(number);
    publish_to(1);
    RETURNS(CAMEL_OK, camel_look(sessions));
    RETURNS(CAMEL_OK, submit(CAMEL_UPDATE_CLEAR_ALL, 1));
    RETURNS(CAMEL_OK, camel_publish(&store));
    RETURNS(CAMEL_OK, camel_imsis_of(sessions, &imsis));
    close_store();
    for (unsigned count = 0; count < SUBSCRIBERS; count++) {
        RETURNS(CAMEL_OK, camel_next_imsi(&imsis, &imsi, &is_there));
        unsigned number = (unsigned)(imsi.number - imsi_of(0).number);
        IS(is_there && number < SUBSCRIBERS && !are_listed[number]);
        are_listed[number % SUBSCRIBERS] = true;
    }
    for (int times = 0; times < 2; times++) {
        imsi.number = 7, is_there = true;
        RETURNS(CAMEL_OK, camel_next_imsi(&imsis, &imsi, &is_there));
        IS(!is_there && imsi.number == 7);
    }
    camel_free(&imsis);
    IS(!imsis.is_full);
}

/* Encodes the record of a subscriber, behind which all octets are 0. */
static camel_argument encoded(unsigned number)
{
    static const camel_argument zeros;
    camel_imsi imsi = imsi_of(number);
    camel_argument argument;
    bool is_there = false;

    memset(&argument, 7, sizeof argument);
    RETURNS(CAMEL_OK, camel_encode_record(sessions, &imsi, &argument, &is_there));
    IS(is_there && argument.count <= CAMEL_MAX_ARGUMENT);
    IS(memcmp(argument.octets + argument.count, zeros.octets, CAMEL_MAX_ARGUMENT - argument.count) == 0);
    return argument;
}

/* What is encoded of a record makes it again: octet for octet the argument that brought it, where that is as short as
 * it can be. A record may take more octets than one octet counts, as ten numbers in each of two entries make it. */
static void encoded_records(void)
{
    static const uint8_t number[] = { 0x91, 0x94, 0x71, 0x16, 0x32, 0x54, 0x76, 0x98, 0x10 };
    const struct argument *all = &ARGUMENT[ALL_LISTS];
    camel_imsi imsi = imsi_of(1), empty = imsi_of(2), none = imsi_of(9);
    camel_row rows[] = { row_of(2, 1), row_of(4, 2) };
    camel_criteria entries[] = { { .dp = 2, .has_number = true }, { .dp = 4, .has_number = true } };
    camel_argument argument, before;
    uint64_t place = 99;
    bool is_there = true;

    for (unsigned at = 0; at < 20; at++) {
        entries[at / 10].number.numbers[at % 10] = isdn_of(number, sizeof number);
        entries[at / 10].number.number_count = 10;
    }
    open_store(1, 9);
    for (unsigned at = 1; at <= 3; at++)
        register_subscriber(at);
    RETURNS(CAMEL_OK, camel_submit_map(&store, all->operation, &imsi, all->octets, all->count, &place));
    RETURNS(CAMEL_OK, insert(3, CSI(rows, 2, entries, 2), NO_CSI));
    publish_to(1);
    argument = encoded(1);
    IS(argument.count == all->count && memcmp(argument.octets, all->octets, all->count) == 0);
    IS(encoded(3).count > 255);
    before = argument = encoded(2);
    IS(argument.count < all->count);
    RETURNS(CAMEL_OK, camel_submit_map(&store, all->operation, &empty, argument.octets, argument.count, &place));
    RETURNS(CAMEL_OK, camel_encode_record(sessions, &none, &argument, &is_there));
    IS(!is_there && memcmp(&argument, &before, sizeof argument) == 0);
    close_store();
}

int main(void)
{
    set_up_over_one_front();
    kept_rows();
    listed_records();
    encoded_records();
    return ended("records");
}
