/* The life of a store, in which requests for memory may be refused. The call that one fails returns CAMEL_OUT_OF_MEMORY
 * and has changed nothing; it is made again, or, of a publication, with a word behind a further update. What two of the
 * publications bring is dropped, if they fail, and comes again. Nothing is left allocated, and what it shows in the end
 * is that of a life in which no memory was refused: tests/refused/test_refused.py compares them. */
#include "octets.h"

#include "refusing.h"

#define FREED(handle) (camel_free(handle), CAMEL_OK)

enum { LIMIT = 120, SUBSCRIBERS = 40, SHOWN = 7, COMMITTED = 60, FURTHER = 90, STRANGER = 91 };

static uint64_t accepted;    /* how many updates */
static bool submits_between; /* a further update, between a publication that is refused memory and the next */

/* The calls that are made at several places. */
static const char UPDATE_PLAIN[] = "`camel_update_of`, a register, a delete, a cancel and a clear of all";
static const char PUBLISH_INSERTS[] = "`camel_publish`, of registers and inserts, and the next one";
static const char PUBLISH_NOTHING[] = "`camel_publish`, of nothing behind nothing";
static const char PUBLISH_TO[] = "`camel_publish_to`, of a location update to two sessions, and the next one";

/* All that the store and a session show, in one number. */
static uint64_t shown(void)
{
    return store.is_full ? shown_by(&sessions[1], SHOWN) : 0;
}

/* Criteria of so many numbers, and if they are many, of all other kinds too. */
static camel_criteria o_criteria_of(uint8_t dp, uint8_t numbers)
{
    camel_criteria entry = { .dp = dp, .has_number = true, .number = { .is_enabling = true, .number_count = numbers } };
    for (int at = 0; at < numbers; at++)
        entry.number.numbers[at] = (camel_isdn_address){ 2, { 0x91, 0x34 } };
    if (numbers > 3) {
        entry.number.length_count = 1;
        entry.number.lengths[0] = 6;
        entry.basic = (camel_basic_services){ 1, { { false, 0x11 } } };
        entry.has_call_type = true;
    }
    return entry;
}

static const camel_criteria CAUSES = { .dp = 13, .causes = { 1, { 17 } } };

/* Whether the store has no record of a subscriber: it rejects an Insert of a row. */
static bool is_unknown(unsigned number)
{
    camel_row row = row_of(2, 100);
    return insert(number, ROWS(&row, 1), NO_CSI) == CAMEL_UNIDENTIFIED_SUBSCRIBER;
}

/* Whether the store has no VT-CSI of a subscriber: it rejects an Insert of criteria. */
static bool has_no_vt(unsigned number)
{
    return insert(number, NO_CSI, CSI(NULL, 0, &CAUSES, 1)) == CAMEL_DATA_MISSING;
}

/* Whether the store has the O-CSI of a subscriber: it accepts an Insert of criteria. */
static bool has_o(unsigned number)
{
    camel_criteria entry = o_criteria_of(2, 1);
    bool has = insert(number, CSI(NULL, 0, &entry, 1), NO_CSI) == CAMEL_OK;
    accepted += has;
    return has;
}

static void submit_register(unsigned number)
{
    AGAIN("`camel_submit_change`, a register", submit(CAMEL_UPDATE_REGISTER, number), is_unknown(number));
    accepted++;
}

/* An argument with the IMSI of a subscriber. */
static struct argument argument_of(unsigned of, camel_imsi imsi)
{
    struct argument argument = ARGUMENT[of];
    camel_imsi_tbcd tbcd;
    RETURNS(CAMEL_OK, camel_tbcd_of_imsi(&imsi, &tbcd));
    memcpy(argument.octets + IMSI_AT, tbcd.octets, IMSI_OCTETS);
    return argument;
}

/* Sends a subscriber who has just registered all lists in octets. */
static void submit_octets(unsigned number)
{
    camel_imsi imsi = imsi_of(number);
    struct argument argument = argument_of(ALL_LISTS, imsi);
    uint64_t place = 99;
    AGAIN("`camel_submit_map`, all lists in octets",
          camel_submit_map(&store, argument.operation, &imsi, argument.octets, argument.count, &place),
          place == CAMEL_NO_OCTET && has_no_vt(number));
    IS(place == CAMEL_NO_OCTET);
}

/* Sends a subscriber who has just registered rows, or with them some criteria, or all lists. */
static void send_lists(unsigned number)
{
    camel_row o[] = { row_of(2, 100), row_of(4, 101) }, vt[] = { row_of(12, 102), row_of(13, 103) };
    camel_criteria few = o_criteria_of(2, 3), many[] = { o_criteria_of(2, 10), o_criteria_of(4, 4) };
    camel_criteria causes[] = { CAUSES, { .dp = 12, .basic = { 1, { { true, 0x11 } } } } };
    switch (number % 6) {
    case 0:
        AGAIN("`camel_submit_change`, an insert of rows", insert(number, ROWS(o, 2), NO_CSI),
              has_no_vt(number));
        break;
    case 3:
        submit_octets(number);
        break;
    case 1: case 4:
        AGAIN("`camel_submit_change`, an insert of rows, and criteria of three numbers and of causes",
              insert(number, CSI(o, 1, &few, 1), CSI(vt, 2, causes, 1)), has_no_vt(number));
        break;
    default:
        AGAIN("`camel_submit_change`, an insert of all lists, with criteria of ten numbers and all else",
              insert(number, CSI(o, 2, many, 2), CSI(vt, 2, causes, 2)), has_no_vt(number));
    }
    accepted++;
}

static void come(unsigned first, unsigned last)
{
    for (unsigned number = first; number <= last; number++) {
        submit_register(number);
        send_lists(number);
    }
}

/* Whether an update has so many rows and entries of the O-CSI. */
static bool has_items(const camel_update *update, unsigned rows, unsigned criteria)
{
    camel_update_parts parts = { .kind = 0 };
    NONE(CAMEL_OK, camel_update_parts_of(update, &parts));
    return parts.kind == CAMEL_UPDATE_INSERT && parts.o_rows == rows && parts.o_criteria == criteria;
}

/* What comes of a subscriber in two operations: a row of the O-CSI, and behind it the other lists. */
static void make_parts(unsigned number, camel_update *update, camel_update *next, camel_update *joined)
{
    camel_row vt[] = { row_of(12, 102), row_of(13, 103) };
    camel_criteria many[] = { o_criteria_of(2, 10), o_criteria_of(4, 4) };
    camel_change change = insert_of(number, CSI(NULL, 0, many, 2), CSI(vt, 2, &CAUSES, 1));
    camel_imsi imsi = imsi_of(number);
    struct argument argument = argument_of(O_CSI, imsi);
    uint64_t place = 99;

    AGAIN("`camel_update_of_map`, an O-CSI in octets",
          camel_update_of_map(argument.operation, &imsi, argument.octets, argument.count, update, &place),
          !update->is_full && place == CAMEL_NO_OCTET);
    AGAIN("`camel_update_of`, an insert of three lists, with criteria of ten numbers and all else",
          camel_update_of(&change, next), !next->is_full);
    AGAIN("`camel_update_join`, of these two", camel_update_join(update, next, joined), !joined->is_full);
    IS(has_items(update, 1, 0) && has_items(next, 0, 2) && has_items(joined, 1, 2));
}

static camel_update make_update(uint8_t kind, unsigned number)
{
    camel_change change = change_of(kind, number);
    camel_update update = CAMEL_EMPTY;
    AGAIN(UPDATE_PLAIN, camel_update_of(&change, &update), !update.is_full);
    return update;
}

/* A location update of a subscriber who is unknown: both updates are accepted or none is. The Insert comes twice. */
static void update_location(unsigned number)
{
    camel_change change = change_of(CAMEL_UPDATE_REGISTER, number);
    camel_update updates[2] = { make_update(CAMEL_UPDATE_REGISTER, number), CAMEL_EMPTY };
    camel_update one = CAMEL_EMPTY, next = CAMEL_EMPTY, empty = CAMEL_EMPTY;
    size_t rejected = 99;

    make_parts(number, &one, &next, &updates[1]);
    AGAIN("`camel_submit_all`, of a register and the same", camel_submit_all(&store, updates, 2, &rejected),
          rejected == 2 && is_unknown(number));
    AGAIN("`camel_submit`, of what they are together", camel_submit(&store, &updates[1]),
          has_items(&updates[1], 1, 2));
    accepted += 3;
    NONE(CAMEL_FULL_HANDLE, camel_update_of(&change, &next));
    NONE(CAMEL_WRONG_HANDLE, camel_submit(&store, &empty));
    NONE(CAMEL_NO_INSERT, camel_update_join(&updates[1], &updates[0], &empty));
    change.imsi.number = 0;
    NONE(CAMEL_MALFORMED, camel_update_of(&change, &empty));
    NONE(CAMEL_OK, FREED(&one));
    NONE(CAMEL_OK, FREED(&updates[0]));
    NONE(CAMEL_OK, FREED(&updates[1]));
    NONE(CAMEL_OK, FREED(&next));
}

/* Updates that are made, and not submitted. */
static void make_updates(unsigned number)
{
    for (uint8_t kind = CAMEL_UPDATE_DELETE; kind <= CAMEL_UPDATE_CLEAR_ALL; kind++) {
        camel_update update = make_update(kind, number);
        NONE(CAMEL_OK, FREED(&update));
    }
}

/* Lists all records, and encodes the longest one. Returns a number of its octets. */
static uint64_t list_records(void)
{
    camel_imsis imsis = CAMEL_EMPTY;
    camel_argument argument = { .count = 0 };
    camel_imsi imsi = imsi_of(SHOWN);
    uint64_t count = 0;
    bool is_there = false;

    AGAIN("`camel_encode_record`, all lists", camel_encode_record(&sessions[0], &imsi, &argument, &is_there),
          !is_there && argument.count == 0);
    IS(is_there && argument.count > 0);
    AGAIN("`camel_imsis_of`", camel_imsis_of(&sessions[0], &imsis), !imsis.is_full);
    for (; is_there; count += is_there)
        NONE(CAMEL_OK, camel_next_imsi(&imsis, &imsi, &is_there));
    IS(count == counts_of(&store).subscribers);
    NONE(CAMEL_OK, FREED(&imsis));
    digest = START;
    add_octets(&argument, sizeof argument);
    return digest;
}

static camel_status published(const char *name)
{
    return name == PUBLISH_TO ? camel_publish_to(&store, sessions, 2) : camel_publish(&store);
}

/* Publishes all that is pending. */
static void publish(const char *name)
{
    uint64_t before = shown();
    camel_counts counts;
    camel_status status = COUNTED(published(name));
    if (has_failed(name, status)) {
        IS(shown() == before);
        if (submits_between)
            submit_register(FURTHER);
        status = COUNTED(published(name));
    }
    RETURNS(CAMEL_OK, status);
    counts = counts_of(&store);
    IS(counts.published == accepted && counts.pending == 0);
}

/* Publishes, and once more, which brings the other copy to the same. */
static void publish_to_both(const char *name)
{
    publish(name);
    publish(name);
}

/* Takes back one thing after the other: a CSI, a record, and all of them. */
static void take_back(void)
{
    AGAIN("`camel_submit_change`, a delete", submit(CAMEL_UPDATE_DELETE, 1), has_o(1));
    accepted++;
    publish_to_both("`camel_publish`, of a delete, and the next one");
    AGAIN("`camel_submit_change`, a cancel", submit(CAMEL_UPDATE_CANCEL, 2), has_o(2));
    accepted++;
    publish_to_both("`camel_publish`, of a cancel, and the next one");
    AGAIN("`camel_submit_change`, a clear of all", submit(CAMEL_UPDATE_CLEAR_ALL, 3), has_o(3));
    accepted++;
    publish_to_both("`camel_publish`, of a clear of all, and the next one");
}

/* What drops what is pending, and what commits. */

/* Publishes nothing behind a drop. The first try is refused its first request, the second its second one and so on,
 * until a try makes fewer: each shows what was shown, and the last one goes on where the others stopped. */
static void publish_behind_drop(uint64_t wanted)
{
    unsigned long from = refused_from, to = refused_to, tries = 0;
    camel_status status;
    do {
        refused_from = refused_to = requests + ++tries;
        status = COUNTED(camel_publish(&store));
        IS(status == CAMEL_OK || (status == CAMEL_OUT_OF_MEMORY && refused > 0));
        IS(shown() == wanted);
        if (refused > 0)
            fputs("restoring | made\n", stderr);
        refused = 0;
    } while (status == CAMEL_OUT_OF_MEMORY);
    refused_from = from;
    refused_to = to;
}

/* A subscriber who is known, if it is not 0, loses all CSIs, and others come. */
static void go_and_come(unsigned known, unsigned first, unsigned last)
{
    camel_change change = change_of(CAMEL_UPDATE_DELETE, known);
    change.withdrawal.everything = true;
    if (known != 0) {
        RETURNS(CAMEL_OK, camel_submit_change(&store, &change));
        accepted++;
    }
    come(first, last);
}

/* A publication of these. If it is refused memory, they are dropped without any: neither the store nor a later
 * publication of either copy shows them, and the store rejects further updates of them. Then they come again. */
static void come_or_drop(unsigned known, unsigned first, unsigned last)
{
    uint64_t before = shown(), accepted_before = accepted;
    camel_status status;
    go_and_come(known, first, last);
    status = COUNTED(camel_publish(&store));
    if (has_failed("`camel_publish`, of a delete, registers and inserts, which are dropped if it fails", status)) {
        NONE(CAMEL_OK, camel_drop_pending(&store));
        accepted = accepted_before;
        for (int times = 0; times < 3; times++) {
            IS(shown() == before && is_unknown(first) && is_unknown(last));
            publish_behind_drop(before);
        }
        go_and_come(known, first, last);
        status = camel_publish(&store);
    }
    RETURNS(CAMEL_OK, status);
    IS(counts_of(&store).published == accepted);
}

/* Pending updates that remove records, for which all published records are gone through, are dropped. Behind them a
 * subscriber is known again, whose update is dropped without memory. */
static void drop_removals(void)
{
    uint64_t published = shown();
    RETURNS(CAMEL_OK, submit(CAMEL_UPDATE_CANCEL, 1));
    RETURNS(CAMEL_OK, submit(CAMEL_UPDATE_CLEAR_ALL, 1));
    AGAIN("`camel_drop_pending`, of a cancel and a clear of all", camel_drop_pending(&store),
          is_unknown(1) && is_unknown(SHOWN));
    IS(shown() == published && !is_unknown(1) && !is_unknown(SHOWN));
    NONE(CAMEL_OK, camel_drop_pending(&store));
    IS(shown() == published);
}

/* Commits a location update to both sessions. */
static void commit_location(void)
{
    camel_row row = row_of(2, 100);
    camel_update updates[] = {
        update_of(change_of(CAMEL_UPDATE_REGISTER, COMMITTED)), update_of(insert_of(COMMITTED, ROWS(&row, 1), NO_CSI))
    };
    size_t rejected = 99;

    AGAIN("`camel_commit`, of a location update to two sessions, and the next one",
          camel_commit(&store, updates, 2, sessions, 2, &rejected), rejected == 2);
    accepted += 2;
    IS(rejected == 2 && counts_of(&store).published == accepted && counts_of(&store).pending == 0);
    camel_free(&updates[0]);
    camel_free(&updates[1]);
}

/* What holds up a publication asks for no memory, nor does a receipt that is refused. */
static void hold(void)
{
    camel_receipt forged = receipt_of(&store);
    uint64_t holders = 99;
    size_t rejected = 99;
    NONE(CAMEL_OK, camel_look(&sessions[0]));
    publish(PUBLISH_NOTHING);
    NONE(CAMEL_OK, camel_holders(&store, &holders));
    IS(holders == 1);
    NONE(CAMEL_HELD, camel_publish(&store));
    NONE(CAMEL_HELD, camel_publish_to(&store, sessions, 2));
    NONE(CAMEL_HELD, camel_commit(&store, NULL, 0, sessions, 2, &rejected));
    NONE(CAMEL_OK, camel_drop_pending(&store));
    NONE(CAMEL_OK, camel_leave(&sessions[0]));
    NONE(CAMEL_OK, camel_holders(&store, &holders));
    IS(holders == 0);
    forged.front++;
    NONE(CAMEL_OTHER_STORE, camel_learn(&sessions[0], &forged));
}

/* A call that is set up: refused memory, nothing is decided or counted. */
static void set_up(void)
{
    camel_subscriber kept = CAMEL_EMPTY;
    camel_event event = event_of(5, 2);
    camel_answer answer = { 0 };
    camel_decisions before, after;
    bool is_there = false;
    RETURNS(CAMEL_OK, camel_decisions_of(&sessions[0], &before));
    AGAIN("`camel_set_up`", camel_set_up(&sessions[0], &event, &answer, &kept, &is_there),
          !kept.is_full && !is_there && answer.front == 0);
    RETURNS(CAMEL_OK, camel_decisions_of(&sessions[0], &after));
    IS(is_there && answer.is_trigger && answer.front == accepted);
    IS(after.by[2][CAMEL_REASON_NONE] == before.by[2][CAMEL_REASON_NONE] + 1);
    NONE(CAMEL_OK, FREED(&kept));
}

/* Memory is refused amid data, of lists or of octets: for what comes before a fault, which is told otherwise. */
static void refuse_amid_data(void)
{
    camel_criteria entries[] = { o_criteria_of(2, 3), { .dp = 4, .basic = { .count = 6 } } };
    camel_change change = insert_of(1, CSI(NULL, 0, entries, 2), NO_CSI);
    struct argument sent = ARGUMENT[ALL_LISTS];
    camel_update update = CAMEL_EMPTY;
    uint64_t place = 99;
    sent.octets[sent.count - 3] = 0x05; /* the tag of the last list of causes */
    RETURNS(CAMEL_MALFORMED, camel_update_of(&change, &update));
    RETURNS(CAMEL_MALFORMED, camel_submit_change(&store, &change));
    RETURNS(CAMEL_WRONG_TAG,
            camel_update_of_map(sent.operation, &change.imsi, sent.octets, sent.count, &update, &place));
    IS(place == sent.count - 3);
    for (int call = 0; call < 3; call++) {
        refused_from = refused_to = requests + 1;
        RETURNS(CAMEL_OUT_OF_MEMORY,
                COUNTED(call == 0   ? camel_update_of(&change, &update)
                        : call == 1 ? camel_submit_change(&store, &change)
                                    : camel_update_of_map(sent.operation, &change.imsi, sent.octets, sent.count,
                                                          &update, &place)));
        IS(requests == refused_to && !update.is_full && blocks == 0);
    }
    IS(place == CAMEL_NO_OCTET);
}

/* Submits as many updates as the limit allows, which change nothing: no refused call took a place of theirs. */
static void fill(void)
{
    RETURNS(CAMEL_OK, submit(CAMEL_UPDATE_CANCEL, FURTHER));
    for (accepted++; accepted < LIMIT; accepted++)
        RETURNS(CAMEL_OK, submit(CAMEL_UPDATE_CANCEL, STRANGER));
    NONE(CAMEL_HISTORY_FULL, submit(CAMEL_UPDATE_CANCEL, STRANGER));
}

static void end_store(void)
{
    NONE(CAMEL_OK, camel_look(&sessions[0]));
    NONE(CAMEL_HELD, camel_close(&store));
    NONE(CAMEL_OK, camel_leave(&sessions[0]));
    NONE(CAMEL_OK, camel_close(&store));
    NONE(CAMEL_OK, FREED(NULL));
    NONE(CAMEL_OK, FREED(&sessions[0]));
    NONE(CAMEL_OK, FREED(&sessions[1]));
    IS(blocks == 0);
}

/* The life of a store. Returns what it shows in the end. */
static uint64_t live(void)
{
    camel_subscriber kept = CAMEL_EMPTY;
    camel_imsi imsi = imsi_of(5);
    camel_event failure = event_of(5, 4);
    camel_answer answer = { 0 };
    bool is_there = false;

    AGAIN("`camel_open`, two sessions", camel_open(&store, sessions, 2, LIMIT, 1, 1),
          !store.is_full && !sessions[0].is_full && !sessions[1].is_full && blocks == 0);
    come(1, SUBSCRIBERS / 2);
    publish(PUBLISH_INSERTS);
    come(SUBSCRIBERS / 2 + 1, SUBSCRIBERS);
    publish_to_both(PUBLISH_INSERTS);
    hold();
    AGAIN("`camel_keep`", camel_keep(&sessions[0], &imsi, &kept, &is_there), !kept.is_full && !is_there);
    set_up();
    take_back();
    NONE(CAMEL_OK, camel_decide_kept(&sessions[0], &kept, &failure, &answer));
    IS(is_there && answer.key == 101);
    come_or_drop(0, 1, SHOWN / 2);
    come_or_drop(2, SHOWN / 2 + 1, SHOWN - 1);
    publish(PUBLISH_INSERTS);
    make_updates(SHOWN);
    update_location(SHOWN);
    publish_to_both(PUBLISH_TO);
    uint64_t end = list_records();
    drop_removals();
    commit_location();
    commit_location();
    fill();
    publish(PUBLISH_NOTHING);
    end += shown();
    NONE(CAMEL_OK, FREED(&kept));
    end_store();
    return end;
}

/* Prints what the store shows in the end. Standard error tells of each call that may ask for memory. */
int main(int count, char **words)
{
    uint64_t end;
    (void)words;
    submits_between = count > 1;
    end = live();
    refuse_amid_data();
    printf("%llx\n", (unsigned long long)end);
    return ended("refused");
}
