/* Each status, by a call that returns it, and that the call did nothing then. What a call is passed has each of its
 * faults, and any several of them: it tells the first one in the order of camel.h, and asks for no memory before that,
 * but for the calls that may. */
#include "octets.h"

#include "refusing.h"

#define ONE { 15ULL << 56 | 262010000000001 }
#define TWO { 15ULL << 56 | 262010000000002 }

/* Data that are none. */

enum { NUMBERS = 515, COUNTS = 256 };

static camel_imsi no_imsis[NUMBERS];

static void make_no_imsis(void)
{
    static const uint64_t numbers[] = { 0, 1, UINT64_MAX };
    uint64_t values = 100000; /* how many there are of so many digits */
    size_t at = 0;

    for (; at < 3; at++)
        no_imsis[at].number = numbers[at];
    for (uint64_t count = 0; count < COUNTS; count++) {
        bool is_valid = count >= 5 && count <= 15;
        no_imsis[at++].number = count << 56 | (is_valid ? values : 0);
        no_imsis[at++].number = count << 56 | (is_valid ? UINT64_MAX >> 8 : 26201);
        values *= is_valid ? 10 : 1;
    }
    IS(at == NUMBERS);
}

static const camel_event EVENTS[] = {
    { .imsi = ONE, .destination.length = 4, .dp = 3, .cause = 17 },
    { .imsi = ONE, .destination.length = 21, .dp = 2, .cause = 17 },
    { .imsi = ONE, .destination.length = 4, .dp = 13, .cause = 128 },
    { .imsi = { UINT64_MAX }, .destination.length = 4, .dp = 13, .cause = 17 },
};

#define AT_SCF { sizeof SCF, SCF_OCTETS }
#define ROW(...) (camel_row[]){ { __VA_ARGS__ } }
#define ENTRY(...) (camel_criteria[]){ { __VA_ARGS__ } }
#define OF_NUMBER(...) ENTRY(.dp = 2, .has_number = true, .number = { __VA_ARGS__ })
#define OF_O(...) { .kind = CAMEL_UPDATE_INSERT, .imsi = ONE, .insert.o = { __VA_ARGS__ } }
#define OF_VT(...) { .kind = CAMEL_UPDATE_INSERT, .imsi = ONE, .insert.vt = { __VA_ARGS__ } }

static camel_row o_row[] = { { 2, 100, AT_SCF, 1 } }, vt_row[] = { { 12, 100, AT_SCF, 1 } };
static camel_row ignored[] = { [0 ... 10] = { 3, 100, AT_SCF, 1 }, [11] = { .dp = 3 } }; /* the last has no address */

/* What is not of its kind is not looked at, nor the IMSI of a ClearAll: that is no fault. */
#define LISTS_OF_NONE { .o = { ROW(.dp = 2), 1, NULL, 7 }, .vt = { NULL, SIZE_MAX, NULL, 0 } }

/* The items of a list that is too long are not looked at. Of one item counts, numbers and addresses come before values,
 * and of the VT-CSI a number or a call type before all. */
static const struct { camel_status status; camel_change change; } CHANGES[] = {
    { CAMEL_MALFORMED, { 0, ONE, .withdrawal = { .o = true } } },
    { CAMEL_MALFORMED, { CAMEL_UPDATE_CLEAR_ALL + 1, ONE, .withdrawal = { .o = true } } },
    { CAMEL_MALFORMED, { 255, ONE, .withdrawal = { .o = true } } },
    { CAMEL_MALFORMED, { .kind = CAMEL_UPDATE_REGISTER } },
    { CAMEL_MALFORMED, { .kind = CAMEL_UPDATE_INSERT, .insert.o.rows = o_row } },
    { CAMEL_MALFORMED, { .kind = CAMEL_UPDATE_DELETE, .withdrawal = { .o = true } } },
    { CAMEL_MALFORMED, { .kind = CAMEL_UPDATE_CANCEL } },
    { CAMEL_DATA_MISSING, OF_O(.rows = o_row) },
    { CAMEL_DATA_MISSING, OF_O(.criteria = ENTRY(.dp = 2)) },
    { CAMEL_DATA_MISSING, OF_VT(.rows = vt_row) },
    { CAMEL_DATA_MISSING, OF_VT(.criteria = ENTRY(.dp = 2)) },
    { CAMEL_DATA_MISSING, OF_O(o_row, 1, NULL, 3) },
    { CAMEL_DATA_MISSING, OF_VT(vt_row, 1, NULL, 3) },
    { CAMEL_UNEXPECTED_DATA_VALUE, OF_O(ignored, 11, NULL, 0) },
    { CAMEL_UNEXPECTED_DATA_VALUE, OF_O(ignored + 1, 11, NULL, 0) },
    { CAMEL_MALFORMED, OF_O(ignored + 2, 10, NULL, 0) },
    { CAMEL_MALFORMED, OF_O(ROW(.dp = 2, .key = 1), 1, NULL, 0) },
    { CAMEL_MALFORMED, OF_O(ROW(.dp = 2, .key = 0x80000000u), 1, NULL, 0) },
    { CAMEL_UNEXPECTED_DATA_VALUE, OF_O(ROW(2, 0x80000000u, AT_SCF, 1), 1, NULL, 0) },
    { CAMEL_UNEXPECTED_DATA_VALUE, OF_O(o_row, 1, ENTRY(.dp = 2, .causes = { 1, { 17 } }), 1) },
    { CAMEL_MALFORMED, OF_O(o_row, 1, OF_NUMBER(.number_count = 11), 1) },
    { CAMEL_MALFORMED, OF_O(NULL, 0, OF_NUMBER(false, 1, 1, { 16 }, { { 0 } }), 1) },
    { CAMEL_UNEXPECTED_DATA_VALUE, OF_O(NULL, 0, OF_NUMBER(false, 1, 1, { 16 }, { AT_SCF }), 1) },
    { CAMEL_MALFORMED, OF_VT(NULL, 0, ENTRY(.dp = 13, .basic.count = 6), 1) },
    { CAMEL_UNEXPECTED_DATA_VALUE, OF_VT(NULL, 0, ENTRY(.dp = 13, .basic.count = 6, .has_call_type = true), 1) },
    { CAMEL_MALFORMED, { .kind = CAMEL_UPDATE_INSERT, .imsi = ONE, .insert = LISTS_OF_NONE } },
    { CAMEL_OK, { .kind = CAMEL_UPDATE_REGISTER, .imsi = ONE, .insert = LISTS_OF_NONE } },
    { CAMEL_OK, { .kind = CAMEL_UPDATE_DELETE, .imsi = ONE, .insert = LISTS_OF_NONE } },
    { CAMEL_OK, { .kind = CAMEL_UPDATE_CANCEL, .imsi = ONE, .insert = LISTS_OF_NONE } },
    { CAMEL_OK, { .kind = CAMEL_UPDATE_CLEAR_ALL, .imsi = { 7 }, .insert = LISTS_OF_NONE } },
};

/* Arguments, each with its fault at a place: so many octets more, and one octet in the place of another. */
static const struct {
    camel_status status;
    uint64_t place;
    camel_imsi dialogue;
    unsigned of;
    int more;
    size_t at;
    uint8_t octet;
} FAULTS[] = {
    { CAMEL_MALFORMED_OCTETS, 2, ONE, O_CSI, -1, 0, 0x30 },
    { CAMEL_MALFORMED_OCTETS, 37, ONE, O_CSI, 1, 37, 0x00 },
    { CAMEL_WRONG_LENGTH, 37, ONE, O_CSI, 2, 37, 0x05 },
    { CAMEL_WRONG_LENGTH, 2, ONE, NO_FIELDS, 2, 2, 0x05 },
    { CAMEL_MISSING_FIELD, 0, ONE, CANCELLED, -12, 0, 0xa3 },
    { CAMEL_MISSING_FIELD, 18, ONE, O_CSI, 0, 23, 0x05 },
    { CAMEL_FIELD_TWICE, 34, ONE, O_CSI, 0, 34, 0x80 },
    { CAMEL_WRONG_TAG, 0, ONE, CANCELLED, 0, 0, 0x31 },
    { CAMEL_WRONG_TAG, 2, ONE, EVERYTHING, 0, 2, 0xa0 },
    { CAMEL_NO_IMSI, 0, { 0 }, NO_FIELDS, 0, 0, 0x30 },
    { CAMEL_OTHER_IMSI, 2, TWO, O_CSI, 0, 0, 0x30 },
    { CAMEL_OTHER_IMSI, 2, TWO, CANCELLED, 0, 0, 0xa3 },
    { CAMEL_UNEXPECTED_DATA_VALUE, 23, ONE, O_CSI, 0, 25, 0x80 },
    { CAMEL_UNEXPECTED_DATA_VALUE, 2, ONE, O_CSI, 0, IMSI_AT, 0xa2 },
    { CAMEL_DATA_MISSING, 6, ONE, NO_ROWS, 0, 0, 0x30 },
    { CAMEL_MALFORMED, CAMEL_NO_OCTET, ONE, UNKNOWN_OPERATION, 0, 0, 0x30 },
    { CAMEL_MALFORMED, CAMEL_NO_OCTET, { 1 }, CANCELLED, 0, 0, 0xa3 },
};

/* What a call is passed, and what it writes. */

/* The faults, in the order in which they are told. */
enum {
    IMSI = 1, EVENT = 2, CHANGE = 4, OCTETS = 8, DATA = 15,
    STORE = 16, SESSION = 32, KEPT = 64, UPDATE = 128, NEXT = 256, LIST = 512, HANDLES = 1008,
    TO_KEEP = 1024, TO_MAKE = 2048, TO_LIST = 4096, TO_FILL = 7168,
    LOOK = 8192, OTHER = 16384, END = 32768,
    /* No faults: the call names an update, and asks for memory, also before it tells a fault. */
    NAMES = 65536, ASKS = 131072, FIRST = 262144, ASKS_FIRST = ASKS | FIRST
};

/* Handles, of which the second session of the store that has ended looks; and what is wrong in the place of a store's
 * handle, and of another one. */
static camel_store other_store, ended_store;
static camel_session none, of_other, of_ended[2];
static struct { camel_subscriber kept; camel_update one, next, third; camel_imsis listed; } full, empty;
static camel_receipt receipt, receipt_of_ended;
static void *const WRONG_STORES[] = { &none, sessions, &ended_store }, *const WRONG[] = { &none, &store, &ended_store };
enum { WRONGS = COUNT_OF(WRONG) };

/* What is passed. */
static struct {
    const camel_imsi *imsi, *dialogue;
    const camel_event *event;
    const camel_change *change;
    const struct argument *argument;
    const camel_receipt *receipt;
    camel_store *store;
    camel_session *session;
    camel_subscriber *kept, *to_keep;
    camel_update *update, *next, *to_make;
    camel_imsis *list, *to_list;
} p;

/* What a call writes, of any type, and whether it is there. */
static struct { uint64_t octets[sizeof(camel_argument) / 8 + 1]; bool is_there; } written;
static void *const out = written.octets;

/* What is written whatever the status is. */
static uint64_t place;
static size_t rejected;

/* What has these faults: the data of this number, and handles that are wrong in this way. All else is right. */
static void pass(unsigned faults, size_t data, unsigned wrong)
{
    static const camel_imsi right = ONE;
    static const camel_event event = { .imsi = ONE, .destination.length = 4, .dp = 2 };
    static const camel_change change = { .kind = CAMEL_UPDATE_REGISTER, .imsi = ONE };
    static struct argument argument;
    camel_session *session = faults & END ? &of_ended[(faults & LOOK) != 0] : faults & OTHER ? &of_other : sessions;

    p.imsi = faults & IMSI ? &no_imsis[data] : &right;
    p.event = faults & EVENT ? &EVENTS[data] : &event;
    p.change = faults & CHANGE ? &CHANGES[data].change : &change;
    p.dialogue = faults & OCTETS ? &FAULTS[data].dialogue : &right;
    argument = ARGUMENT[faults & OCTETS ? FAULTS[data].of : O_CSI];
    if (faults & OCTETS) {
        argument.count += (size_t)FAULTS[data].more;
        argument.octets[FAULTS[data].at] = FAULTS[data].octet;
    }
    p.argument = &argument;
    p.receipt = (faults & (OTHER | END)) == END ? &receipt_of_ended : &receipt;
    p.store = faults & STORE ? WRONG_STORES[wrong] : &store;
    p.session = faults & SESSION ? WRONG[wrong] : session;
    p.kept = faults & KEPT ? WRONG[wrong] : &full.kept;
    p.update = faults & UPDATE ? WRONG[wrong] : &full.one;
    p.next = faults & NEXT ? WRONG[wrong] : &full.next;
    p.list = faults & LIST ? WRONG[wrong] : &full.listed;
    p.to_keep = faults & TO_KEEP ? &full.kept : &empty.kept;
    p.to_make = faults & TO_MAKE ? &full.third : &empty.third;
    p.to_list = faults & TO_LIST ? &full.listed : &empty.listed;
}

static camel_status wanted_of(unsigned faults, size_t data)
{
    camel_status of_data = faults & CHANGE ? CHANGES[data].status : faults & OCTETS ? FAULTS[data].status
        : faults & DATA ? CAMEL_MALFORMED : CAMEL_OK;

    if (of_data != CAMEL_OK)
        return of_data;
    return faults & HANDLES ? CAMEL_WRONG_HANDLE : faults & TO_FILL ? CAMEL_FULL_HANDLE : faults & LOOK ? CAMEL_HELD
        : faults & OTHER ? CAMEL_OTHER_STORE : faults & END ? CAMEL_NO_LOOK : CAMEL_OK;
}

/* The calls, with the faults that what each is passed may have. camel_close may be made again. */
#define CALLS(X)                                                                                                    \
    X(imsi_of_tbcd, 0, camel_imsi_of_tbcd(ARGUMENT[O_CSI].octets + IMSI_AT, IMSI_OCTETS, out))                      \
    X(imsi_of_digits, 0, camel_imsi_of_digits((const uint8_t *)"262010000000001", 15, out))                         \
    X(address_of, 0, camel_address_of(DESTINATION, sizeof DESTINATION, out))                                        \
    X(isdn_address_of, 0, camel_isdn_address_of(SCF, sizeof SCF, out))                                              \
    X(digits_of_imsi, IMSI, camel_digits_of_imsi(p.imsi, out))                                                      \
    X(tbcd_of_imsi, IMSI, camel_tbcd_of_imsi(p.imsi, out))                                                          \
    X(submit_change, CHANGE | STORE | ASKS_FIRST, camel_submit_change(p.store, p.change))                           \
    X(submit_map, OCTETS | STORE | ASKS_FIRST,                                                                      \
      camel_submit_map(p.store, p.argument->operation, p.dialogue, p.argument->octets, p.argument->count, &place))  \
    X(update_of, CHANGE | TO_MAKE | ASKS_FIRST, camel_update_of(p.change, p.to_make))                               \
    X(update_of_map, OCTETS | TO_MAKE | ASKS_FIRST,                                                                 \
      camel_update_of_map(p.argument->operation, p.dialogue, p.argument->octets, p.argument->count, p.to_make,      \
                          &place))                                                                                  \
    X(update_join, UPDATE | NEXT | TO_MAKE | ASKS, camel_update_join(p.update, p.next, p.to_make))                  \
    X(update_parts_of, UPDATE, camel_update_parts_of(p.update, out))                                                \
    X(submit, STORE | UPDATE | ASKS_FIRST, camel_submit(p.store, p.update))                                         \
    X(submit_all, STORE | UPDATE | NAMES | ASKS_FIRST, camel_submit_all(p.store, p.update, 1, &rejected))           \
    X(drop_pending, STORE | ASKS, camel_drop_pending(p.store))                                                      \
    X(publish, STORE | ASKS, camel_publish(p.store))                                                                \
    X(publish_to, STORE | SESSION | LOOK | OTHER | ASKS, camel_publish_to(p.store, p.session, 1))                   \
    X(commit, STORE | SESSION | UPDATE | LOOK | OTHER | NAMES | ASKS_FIRST,                                         \
      camel_commit(p.store, p.update, 1, p.session, 1, &rejected))                                                  \
    X(holders, STORE, camel_holders(p.store, out))                                                                  \
    X(counts_of, STORE, camel_counts_of(p.store, out))                                                              \
    X(receipt_of, STORE, camel_receipt_of(p.store, out))                                                            \
    X(learn, SESSION | LOOK | OTHER | END, camel_learn(p.session, p.receipt))                                       \
    X(decide, EVENT | SESSION | END, camel_decide(p.session, p.event, out))                                         \
    X(decisions_of, SESSION, camel_decisions_of(p.session, out))                                                    \
    X(look, SESSION | LOOK | END, camel_look(p.session))                                                            \
    X(leave, SESSION, camel_leave(p.session))                                                                       \
    X(row_at, IMSI | SESSION | END, camel_row_at(p.session, p.imsi, 2, out, &written.is_there))                     \
    X(criteria_at, IMSI | SESSION | END, camel_criteria_at(p.session, p.imsi, 2, out, &written.is_there))           \
    X(t_criteria_at, IMSI | SESSION | END, camel_criteria_at(p.session, p.imsi, 12, out, &written.is_there))        \
    X(keep, IMSI | SESSION | TO_KEEP | END | ASKS, camel_keep(p.session, p.imsi, p.to_keep, &written.is_there))     \
    X(decide_kept, EVENT | SESSION | KEPT, camel_decide_kept(p.session, p.kept, p.event, out))                      \
    X(kept_row_at, KEPT, camel_kept_row_at(p.kept, 2, out, &written.is_there))                                      \
    X(set_up, EVENT | SESSION | TO_KEEP | END | ASKS,                                                               \
      camel_set_up(p.session, p.event, out, p.to_keep, &written.is_there))                                          \
    X(imsis_of, SESSION | TO_LIST | END | ASKS, camel_imsis_of(p.session, p.to_list))                               \
    X(next_imsi, LIST, camel_next_imsi(p.list, out, &written.is_there))                                             \
    X(encode_record, IMSI | SESSION | END | ASKS, camel_encode_record(p.session, p.imsi, out, &written.is_there))

#define DEFINE(name, needs, call) static camel_status make_##name(void) { return call; }
#define LIST_CALL(name, needs, call) { #name, needs, make_##name },
CALLS(DEFINE)
static const struct call { const char *name; unsigned needs; camel_status (*make)(void); } calls[] = {
    CALLS(LIST_CALL)
};

/* What the store and its session count. */
struct counted { camel_counts of_store; camel_decisions of_session; };

static struct counted counted_now(void)
{
    struct counted now = { .of_store = counts_of(&store) };
    RETURNS(CAMEL_OK, camel_decisions_of(sessions, &now.of_session));
    return now;
}

/* Makes a call whose faults are these. If it has any, nothing is done. */
static void make(const struct call *call, unsigned faults, size_t data, unsigned wrong)
{
    static unsigned char before[sizeof written], handles[sizeof full];
    bool looks = (faults & LOOK) && !(faults & (SESSION | END)), is_same;
    camel_status status, wanted = wanted_of(faults, data);
    struct counted counts = counted_now(), after;
    unsigned long asked;

    pass(faults, data, wrong);
    memset(&written, 7, sizeof written);
    memcpy(before, &written, sizeof written);
    memcpy(handles, &full, sizeof full);
    place = rejected = 99;
    if (looks)
        RETURNS(CAMEL_OK, camel_look(p.session));
    asked = requests;
    status = COUNTED(call->make());
    after = counted_now();
    is_same = memcmp(before, &written, sizeof written) == 0 && memcmp(&counts, &after, sizeof counts) == 0
        && memcmp(handles, &full, sizeof full) == 0 && !empty.kept.is_full && !empty.third.is_full
        && !empty.listed.is_full;
    IS(requests == asked || (call->needs & (status == CAMEL_OK ? ASKS : FIRST)));
    if (status != wanted || (wanted != CAMEL_OK && !is_same)) {
        printf("camel_%s with the faults %#x, data %zu and handle %u: %s, and not %s%s\n", call->name, faults, data,
               wrong, camel_status_name(status), camel_status_name(wanted), is_same ? "" : "; it did something");
        failed++;
    }
    IS(!(call->needs & OCTETS) || place == (faults & OCTETS ? FAULTS[data].place : CAMEL_NO_OCTET));
    IS(!(call->needs & NAMES) || rejected == 1);
    if (looks)
        RETURNS(CAMEL_OK, camel_leave(p.session));
    camel_free(&empty.kept), camel_free(&empty.third), camel_free(&empty.listed);
}

/* Makes a call with each set of its faults, and at last with none. */
static void make_with_faults(const struct call *call)
{
    unsigned needs = call->needs, all = needs & (NAMES - 1), faults = all;
    size_t count = needs & IMSI ? NUMBERS : needs & EVENT ? COUNT_OF(EVENTS) : needs & CHANGE ? COUNT_OF(CHANGES)
        : needs & OCTETS ? COUNT_OF(FAULTS) : 1;

    do {
        for (size_t data = 0; data < (faults & DATA ? count : 1); data++)
            for (unsigned wrong = 0; wrong < (faults & HANDLES ? WRONGS : 1); wrong++)
                make(call, faults, data, wrong);
        faults = (faults - 1) & all;
    } while (faults != all);
}

static void make_calls(void)
{
    camel_imsi imsi = ONE;
    bool is_there = false;

    make_no_imsis();
    open_store(1, CAMEL_MAX_UPDATES);
    RETURNS(CAMEL_OK, camel_open(&other_store, &of_other, 1, 1, CAMEL_PROFILE_2, 2));
    RETURNS(CAMEL_OK, camel_open(&ended_store, of_ended, 2, 1, CAMEL_PROFILE_1, 3));
    receipt_of_ended = receipt_of(&ended_store);
    RETURNS(CAMEL_OK, camel_look(&of_ended[1]));
    RETURNS(CAMEL_HELD, camel_close(&ended_store));
    register_subscriber(1);
    publish_to(1);
    RETURNS(CAMEL_OK, camel_keep(sessions, &imsi, &full.kept, &is_there));
    RETURNS(CAMEL_OK, camel_imsis_of(sessions, &full.listed));
    full.one = update_of(insert_of(1, ROWS(o_row, 1), NO_CSI));
    full.next = update_of(insert_of(1, NO_CSI, ROWS(vt_row, 1)));
    full.third = update_of(change_of(CAMEL_UPDATE_CLEAR_ALL, 1));
    receipt = receipt_of(&store);
    for (size_t at = 0; at < COUNT_OF(calls); at++)
        make_with_faults(&calls[at]);
    RETURNS(CAMEL_WRONG_HANDLE, camel_close((camel_store *)sessions));
    RETURNS(CAMEL_WRONG_HANDLE, camel_close((camel_store *)&none));
    RETURNS(CAMEL_HELD, camel_close(&ended_store));
    RETURNS(CAMEL_OK, camel_leave(&of_ended[1]));
    RETURNS(CAMEL_OK, camel_close(&ended_store));
    RETURNS(CAMEL_OK, camel_leave(&of_ended[1]));
    RETURNS(CAMEL_OK, camel_close(&other_store));
    camel_free(&full.kept), camel_free(&full.one), camel_free(&full.next), camel_free(&full.third);
    camel_free(&full.listed), camel_free(&of_other), camel_free(&of_ended[0]), camel_free(&of_ended[1]);
    close_store();
    camel_free(&store);
    camel_free(NULL);
    IS(!store.is_full && !sessions[0].is_full && !ended_store.is_full);
}

/* A store is opened whole, or not at all, and asks for memory behind all faults. A library of another version opens
 * nothing, whatever else is wrong. A full handle is one of five sessions', or the store's. */
static const struct {
    camel_status status;
    uint32_t version;
    size_t sessions;
    uint64_t limit;
    uint8_t profile;
} OPENINGS[] = {
    { CAMEL_OTHER_VERSION, 0, 5, 10, 1 },
    { CAMEL_OTHER_VERSION, 1, 0, 0, 3 },
    { CAMEL_OTHER_VERSION, CAMEL_ABI_VERSION + 1, 5, 10, 1 },
    { CAMEL_OTHER_VERSION, UINT32_MAX, 0, 0, 3 },
    { CAMEL_MALFORMED, CAMEL_ABI_VERSION, 0, 10, 1 },
    { CAMEL_MALFORMED, CAMEL_ABI_VERSION, CAMEL_MAX_SESSIONS + 1, 10, 1 },
    { CAMEL_MALFORMED, CAMEL_ABI_VERSION, 5, 0, 1 },
    { CAMEL_MALFORMED, CAMEL_ABI_VERSION, 5, CAMEL_MAX_UPDATES + 1, 1 },
    { CAMEL_MALFORMED, CAMEL_ABI_VERSION, 5, UINT64_MAX, 1 },
    { CAMEL_MALFORMED, CAMEL_ABI_VERSION, 5, 10, 0 },
    { CAMEL_MALFORMED, CAMEL_ABI_VERSION, 5, 10, 3 },
    { CAMEL_FULL_HANDLE, CAMEL_ABI_VERSION, 5, 10, 1 },
};

static void open_with_faults(void)
{
    camel_session many[CAMEL_MAX_SESSIONS + 1] = { CAMEL_EMPTY };
    camel_store other = CAMEL_EMPTY;

    for (size_t full_at = 0; full_at <= 5; full_at++) {
        RETURNS(CAMEL_OK, camel_open(&store, &many[full_at], 1, CAMEL_MAX_UPDATES, CAMEL_PROFILE_2, 1));
        for (size_t at = 0; at < COUNT_OF(OPENINGS); at++) {
            camel_store *to = full_at < 5 ? &other : &store;
            unsigned long asked = requests;
            unsigned count = 0;
            RETURNS(OPENINGS[at].status,
                    COUNTED(camel_open_version(OPENINGS[at].version, to, many, OPENINGS[at].sessions,
                                               OPENINGS[at].limit, OPENINGS[at].profile, 1)));
            for (size_t session = 0; session < COUNT_OF(many); session++)
                count += many[session].is_full;
            IS(requests == asked && !other.is_full && count == 1);
        }
        camel_free(&many[full_at]);
        close_store();
    }
    IS(blocks == 0);
}

static void malformed_octets(void)
{
    static const uint8_t octets[21] = { 0x91 }, *letter = (const uint8_t *)"26x010000000001";

    memset(&written, 7, sizeof written);
    RETURNS(CAMEL_MALFORMED, camel_imsi_of_tbcd(octets, 0, out));
    RETURNS(CAMEL_MALFORMED, camel_imsi_of_digits(letter, 15, out));
    RETURNS(CAMEL_MALFORMED, camel_imsi_of_digits((const uint8_t *)"2620100000000010", 16, out));
    RETURNS(CAMEL_MALFORMED, camel_address_of(octets, 0, out));
    RETURNS(CAMEL_MALFORMED, camel_address_of(octets, 21, out));
    RETURNS(CAMEL_MALFORMED, camel_isdn_address_of(octets, 10, out));
    IS(written.octets[0] == 0x0707070707070707 && written.octets[1] == written.octets[0]);
}

static camel_status submit_argument(unsigned of)
{
    camel_imsi imsi = ONE;
    camel_status status;

    place = 99;
    status = camel_submit_map(&store, ARGUMENT[of].operation, &imsi, ARGUMENT[of].octets, ARGUMENT[of].count, &place);
    IS(place == CAMEL_NO_OCTET);
    return status;
}

/* What a store rejects: the fault of an argument is at no octet then. The limit counts what it has accepted. */
static void rejected_changes(void)
{
    camel_sent_csi rows = ROWS(o_row, 1), criteria = CSI(NULL, 0, ENTRY(.dp = 2), 1);

    open_store(1, 7);
    RETURNS(CAMEL_UNIDENTIFIED_SUBSCRIBER, submit(CAMEL_UPDATE_DELETE, 1));
    RETURNS(CAMEL_UNIDENTIFIED_SUBSCRIBER, insert(1, rows, NO_CSI));
    RETURNS(CAMEL_UNIDENTIFIED_SUBSCRIBER, submit_argument(O_CSI));
    register_subscriber(1);
    RETURNS(CAMEL_DATA_MISSING, insert(1, criteria, NO_CSI));
    RETURNS(CAMEL_DATA_MISSING, submit_argument(NO_VT_CSI));
    IS(counts_are(0, 0, 1, 0));
    RETURNS(CAMEL_OK, insert(1, rows, NO_CSI));
    for (unsigned of = ALL_LISTS; of <= CANCELLED; of++)
        RETURNS(CAMEL_OK, submit_argument(of));
    RETURNS(CAMEL_OK, submit(CAMEL_UPDATE_CLEAR_ALL, 1));
    RETURNS(CAMEL_HISTORY_FULL, submit(CAMEL_UPDATE_REGISTER, 1));
    RETURNS(CAMEL_HISTORY_FULL, submit_argument(CANCELLED));
    IS(counts_are(0, 0, 7, 0));
    close_store();
}

int main(void)
{
    IS(camel_abi_version() == CAMEL_ABI_VERSION);
    malformed_octets();
    open_with_faults();
    make_calls();
    rejected_changes();
    IS(strcmp(camel_status_name(CAMEL_HELD), "CAMEL_HELD") == 0);
    IS(strcmp(camel_status_name(CAMEL_OTHER_VERSION), "CAMEL_OTHER_VERSION") == 0);
    IS(strcmp(camel_status_name(CAMEL_NO_INSERT), "CAMEL_NO_INSERT") == 0);
    IS(strcmp(camel_status_name(CAMEL_OTHER_SUBSCRIBER), "CAMEL_OTHER_SUBSCRIBER") == 0);
    IS(strcmp(camel_status_name(105), "CAMEL_?") == 0);
    IS(strcmp(camel_reason_name(CAMEL_REASON_NONE), "CAMEL_REASON_NONE") == 0);
    IS(strcmp(camel_reason_name(CAMEL_REASONS), "CAMEL_REASON_?") == 0);
    return ended("statuses");
}
