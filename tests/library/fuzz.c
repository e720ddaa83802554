/* Random fields and octets of any kind through each function of camel.h: as many calls as the first argument says, with
 * the seed of the second. A caller's part is kept: a pointer points to as much as is said, and what is passed does not
 * overlap. All else is any octet, and any handle stands for any other now and then. Each call returns one of its
 * statuses, leaves what it writes and all handles as they were if that is not CAMEL_OK, but for the place of a fault,
 * and reports what was submitted, published, held and decided. Behind the lists and octets that are passed lies memory
 * that may not be touched. The arguments of MAP are those of drawn.h, which test_library_c.py writes. Prints how often
 * each function returned each status. */
#define _DEFAULT_SOURCE
#include "fuzz_updates.h"

/* Data. */

static void f_abi_version(void)
{
    IS(camel_abi_version() == CAMEL_ABI_VERSION);
    counts[0]++;
}

static void f_layouts(void)
{
    uint32_t sizes[64] = { 0 }, *edge;
    uint32_t all = camel_layouts(sizes, 64), room = below(64);
    edge = at_edge(sizes, room * sizeof *sizes);
    memset(edge, 0, room * sizeof *sizes);
    IS(camel_layouts(edge, room) == all && memcmp(edge, sizes, room * sizeof *sizes) == 0);
    counts[0]++;
}

#define READS_OCTETS(name, type)                                                                                    \
    static void f_##name(void)                                                                                      \
    {                                                                                                               \
        uint8_t octets[300];                                                                                        \
        size_t count = any_octets(octets);                                                                          \
        const uint8_t *from = or_null(at_edge(octets, count));                                                      \
        type *made = out(sizeof *made);                                                                             \
        is_ok(from ? OK | MALFORMED : MALFORMED, CALL(name, from, count, made));                                    \
    }

READS_OCTETS(imsi_of_tbcd, camel_imsi)
READS_OCTETS(imsi_of_digits, camel_imsi)
READS_OCTETS(address_of, camel_address)
READS_OCTETS(isdn_address_of, camel_isdn_address)

/* What an IMSI is written as is an IMSI, the same. */
#define WRITES_IMSI(name, type, part, back)                                                                         \
    static void f_##name(void)                                                                                      \
    {                                                                                                               \
        const camel_imsi *imsi = any_imsi(SUBSCRIBERS);                                                             \
        camel_imsi same = { 0 };                                                                                    \
        type *made = out(sizeof *made);                                                                             \
        if (!is_ok(OK | MALFORMED, camel_##name(imsi, made)))                                                       \
            return;                                                                                                 \
        RETURNS(CAMEL_OK, back((const uint8_t *)made->part, made->count, &same));                                   \
        IS(same.number == imsi->number);                                                                            \
    }

WRITES_IMSI(digits_of_imsi, camel_imsi_digits, characters, camel_imsi_of_digits)
WRITES_IMSI(tbcd_of_imsi, camel_imsi_tbcd, octets, camel_imsi_of_tbcd)

/* The store. */

static void f_empty(void)
{
    unsigned slot = below(64) == 0 ? below(SLOTS) : toss() ? KEPT + below(2) : UPDATE + below(SLOTS - UPDATE);
    camel_free(below(8) ? &handles[slot] : NULL);
    camel_free(&handles[slot]);
    IS(!handles[slot].is_full);
    slots[slot].is_looking = false;
    counts[0]++;
}

/* Opens a store for a header of some version. The sessions of one that has ended make room for its own, or not. */
static void f_open(void)
{
    unsigned slot = pick(STORE), count = below(8) ? 4 : below(5);
    uint32_t version = is_inline || below(16) ? CAMEL_ABI_VERSION : below(4);
    uint64_t limit = below(4) ? INT64_MAX : below(3) ? 1 + below(60) : next() >> below(64), seed = next();
    uint8_t profile = mostly(1 + below(2));
    bool makes_room = !handles[STORE].is_full && toss();
    camel_status status;
    if (slot >= SESSION && slot < KEPT)
        return;
    for (unsigned session = SESSION; makes_room && session < KEPT; session++)
        camel_free(&handles[session]);
    memcpy(handles_before, handles, sizeof handles);
    status = is_inline
        ? camel_open(AS(store, slot), AS(session, SESSION), count, limit, profile, seed)
        : camel_open_version(version, AS(store, slot), AS(session, SESSION), count, limit, profile, seed);
    IS((status == CAMEL_OTHER_VERSION) == (version != CAMEL_ABI_VERSION));
    if (!is_ok(OK | OTHER_VERSION | MALFORMED | FULL_HANDLE, status))
        return;
    slots[slot] = (struct slot){ .of = ++opened, .limit = limit };
    for (unsigned session = SESSION; session < SESSION + count; session++)
        slots[session] = (struct slot){ .of = opened };
    *published_of(slot) = *number_of(slot) = 0;
}

/* The sessions of a store whose looks have begun: a bit each. */
static uint64_t looking_of(unsigned slot)
{
    uint64_t bits = 0;
    for (unsigned at = SESSION; at < KEPT; at++)
        if (slots[at].of == slots[slot].of && slots[at].is_looking)
            bits |= (uint64_t)1 << (at - SESSION);
    return bits;
}

static void f_holders(void)
{
    unsigned slot = pick(STORE);
    uint64_t *holders = out(sizeof *holders);
    if (is_ok(OK | WRONG_HANDLE, camel_holders(AS(store, slot), holders)))
        IS((*holders & ~looking_of(slot)) == 0);
}

static void f_counts_of(void)
{
    unsigned slot = pick(STORE);
    camel_counts *of_store = out(sizeof *of_store);
    if (!is_ok(OK | WRONG_HANDLE, camel_counts_of(AS(store, slot), of_store)))
        return;
    IS(of_store->published == *published_of(slot) && of_store->subscribers <= of_store->published);
    IS(of_store->pending == slots[slot].accepted - *published_of(slot) && of_store->held == slots[slot].held);
}

static void f_close(void)
{
    unsigned slot = pick(STORE);
    camel_status status = camel_close(AS(store, slot));
    if (is_ok(OK | HELD | WRONG_HANDLE, status))
        IS(!handles[slot].is_full);
    slots[slot].is_ending = status == CAMEL_HELD;
}

/* Receipts. */

static camel_receipt receipts[RECEIPTS];

static void f_receipt_of(void)
{
    unsigned slot = pick(STORE);
    camel_receipt *receipt = out(sizeof *receipt);
    if (!is_ok(OK | WRONG_HANDLE, camel_receipt_of(AS(store, slot), receipt)))
        return;
    IS(receipt->front == *published_of(slot) && (*number_of(slot) == 0 || *number_of(slot) == receipt->store));
    *number_of(slot) = receipt->store;
    receipts[below(RECEIPTS)] = *receipt;
}

/* One that a store has given, also one that has ended, or now and then one with another front or another store. */
static camel_receipt any_receipt(void)
{
    camel_receipt receipt = receipts[below(RECEIPTS)];
    if (below(8) == 0)
        receipt.front = toss() ? receipt.front + below(3) : next() >> below(64);
    if (below(8) == 0)
        receipt.store = toss() ? receipt.store ^ (uint64_t)1 << below(64) : next();
    return receipt;
}

/* It is learnt only if it is of the session's own store, and no more than is published. The end of the store is found
 * only by one of its own. */
static void f_learn(void)
{
    unsigned slot = pick_session();
    camel_receipt receipt = any_receipt();
    camel_status status = camel_learn(AS(session, slot), PASSED(receipt));
    bool is_own = *number_of(slot) != 0 && *number_of(slot) == receipt.store && receipt.front <= *published_of(slot);
    IS(status != CAMEL_OTHER_STORE || !is_own);
    IS(status != CAMEL_NO_LOOK || *number_of(slot) == receipt.store);
    if (!is_ok(OK | HELD | OTHER_STORE | NO_LOOK | WRONG_HANDLE, status))
        return;
    IS(is_own);
    if (slots[slot].seen < receipt.front)
        slots[slot].seen = receipt.front;
}

/* Looks and decisions. */

static void f_look(void)
{
    unsigned slot = pick_session();
    if (is_ok(OK | HELD | NO_LOOK | WRONG_HANDLE, camel_look(AS(session, slot)))) {
        slots[slot].is_looking = true;
        slots[slot].front = 0;
    }
}

static void f_leave(void)
{
    unsigned slot = pick_session();
    if (is_ok(OK | WRONG_HANDLE, camel_leave(AS(session, slot))))
        slots[slot].is_looking = false;
}

/* Whether an answer has all that belongs to it. */
static bool is_whole(const camel_answer *answer)
{
    bool is_row = answer->scf.length >= 1 && answer->scf.length <= 9 && answer->key <= 0x7fffffff &&
                  memchr(DPS, answer->dp, sizeof DPS) != NULL && answer->reason == 0;
    bool is_none = answer->scf.length == 0 && answer->key == 0 && answer->dp == 0 && !answer->is_release &&
                   answer->reason >= 1 && answer->reason <= 5;
    return answer->is_trigger ? is_row : is_none;
}

/* Notes what a session has decided at a detection point. */
static void note_decided(unsigned at, uint8_t dp, const camel_answer *answer)
{
    struct slot *slot = &slots[at];
    IS(is_whole(answer) && answer->front >= slot->seen && answer->front <= *published_of(at));
    IS(!slot->is_looking || slot->front == 0 || slot->front == answer->front);
    slot->seen = slot->front = answer->front;
    slot->decisions[dp][answer->reason]++;
}

static void f_decide(void)
{
    unsigned at = pick_session();
    camel_event event = any_event(*any_imsi(SUBSCRIBERS));
    camel_answer *answer = out(sizeof *answer);
    if (is_ok(OK | NO_LOOK | MALFORMED | WRONG_HANDLE, camel_decide(AS(session, at), PASSED(event), answer)))
        note_decided(at, event.dp, answer);
}

static void f_decisions_of(void)
{
    unsigned slot = pick_session();
    camel_decisions *decisions = out(sizeof *decisions);
    if (is_ok(OK | WRONG_HANDLE, camel_decisions_of(AS(session, slot), decisions)))
        IS(memcmp(decisions->by, slots[slot].decisions, sizeof decisions->by) == 0);
}

/* Records. */

static bool is_whole_row(const camel_row *row)
{
    return row->handling <= 1 && row->key <= 0x7fffffff && row->scf.length >= 1 && row->scf.length <= 9;
}

/* What a subscriber has at a detection point is written whole, or nothing is. */
#define READS_AT(name, type, is_whole_item, statuses, call)                                                         \
    static void f_##name(void)                                                                                      \
    {                                                                                                               \
        uint8_t dp = mostly(DPS[below(5)]);                                                                         \
        type *item = out(sizeof *item);                                                                             \
        bool *is_there = out(1);                                                                                    \
        if (is_ok(OK | WRONG_HANDLE | (statuses), call))                                                            \
            IS(*is_there ? item->dp == dp && is_whole_item(item) : is_left(item));                                  \
    }

READS_AT(row_at, camel_row, is_whole_row, NO_LOOK | MALFORMED,
         camel_row_at(AS(session, pick_session()), any_imsi(SUBSCRIBERS), dp, item, is_there))
READS_AT(criteria_at, camel_criteria, is_whole_entry, NO_LOOK | MALFORMED,
         camel_criteria_at(AS(session, pick_session()), any_imsi(SUBSCRIBERS), dp, item, is_there))
READS_AT(kept_row_at, camel_row, is_whole_row, 0, camel_kept_row_at(AS(subscriber, pick(KEPT)), dp, item, is_there))

/* Notes a record that is kept, if one is: the handle is filled if there is one. */
static void note_kept(unsigned slot, unsigned to, bool is_there)
{
    IS(!handles_before[to].is_full && handles[to].is_full == is_there);
    slots[to] = (struct slot){ .of = slots[slot].of };
}

static void f_keep(void)
{
    unsigned slot = pick_session(), to = pick(KEPT);
    bool *is_there = out(1);
    if (slot != to && is_ok(OK | NO_LOOK | MALFORMED | WRONG_HANDLE | FULL_HANDLE,
                            camel_keep(AS(session, slot), any_imsi(SUBSCRIBERS), AS(subscriber, to), is_there)))
        note_kept(slot, to, *is_there);
}

static void f_set_up(void)
{
    unsigned slot = pick_session(), to = pick(KEPT);
    camel_event event = any_event(*any_imsi(SUBSCRIBERS));
    camel_answer *answer = out(sizeof *answer);
    bool *is_there = out(1);
    if (slot == to || !is_ok(OK | NO_LOOK | MALFORMED | WRONG_HANDLE | FULL_HANDLE,
                             camel_set_up(AS(session, slot), PASSED(event), answer, AS(subscriber, to), is_there)))
        return;
    note_kept(slot, to, *is_there);
    note_decided(slot, event.dp, answer);
    IS(*is_there == (answer->reason != CAMEL_REASON_UNKNOWN));
}

/* The session that counts it may be of another store than the record. */
static void f_decide_kept(void)
{
    unsigned slot = pick(KEPT), session = pick_session();
    camel_event event = any_event(*any_imsi(SUBSCRIBERS));
    camel_answer *answer = out(sizeof *answer);
    if (slot == session || !is_ok(OK | MALFORMED | WRONG_HANDLE, camel_decide_kept(
            AS(session, session), AS(subscriber, slot), PASSED(event), answer)))
        return;
    IS(is_whole(answer) && answer->front <= *published_of(slot) && answer->reason != CAMEL_REASON_UNKNOWN);
    slots[session].decisions[event.dp][answer->reason]++;
}

static void f_imsis_of(void)
{
    unsigned slot = pick_session(), to = pick_to_fill(IMSIS);
    if (slot != to && is_ok(OK | NO_LOOK | WRONG_HANDLE | FULL_HANDLE,
                            camel_imsis_of(AS(session, slot), AS(imsis, to))))
        note_kept(slot, to, true);
}

/* Each is an IMSI, and there are no more than updates. */
static void f_next_imsi(void)
{
    unsigned slot = pick(IMSIS);
    camel_imsi *imsi = out(sizeof *imsi);
    bool *is_there = out(1);
    camel_imsi_digits digits;
    if (!is_ok(OK | WRONG_HANDLE, camel_next_imsi(AS(imsis, slot), imsi, is_there)))
        return;
    if (*is_there) {
        RETURNS(CAMEL_OK, camel_digits_of_imsi(imsi, &digits));
        IS(!slots[slot].is_through && ++slots[slot].listed <= *published_of(slot));
    } else
        IS(is_left(imsi));
    slots[slot].is_through |= !*is_there;
}

/* Whether octets are an Insert of this subscriber, with 0 behind them. */
static bool is_argument_of(const camel_argument *argument, const camel_imsi *imsi)
{
    static const camel_argument zeros;
    camel_update update = CAMEL_EMPTY;
    camel_update_parts parts = { .kind = 0 };
    camel_imsi none = { 0 };
    uint64_t place = 0;
    size_t count = argument->count;
    if (count > CAMEL_MAX_ARGUMENT || memcmp(argument->octets + count, zeros.octets, CAMEL_MAX_ARGUMENT - count) != 0)
        return false;
    RETURNS(CAMEL_OK,
            camel_update_of_map(CAMEL_INSERT_SUBSCRIBER_DATA, &none, argument->octets, count, &update, &place));
    RETURNS(CAMEL_OK, camel_update_parts_of(&update, &parts));
    camel_free(&update);
    return parts.kind == CAMEL_UPDATE_INSERT && parts.imsi.number == imsi->number;
}

static void f_encode_record(void)
{
    unsigned slot = pick_session();
    const camel_imsi *imsi = any_imsi(SUBSCRIBERS);
    camel_argument *argument = out(sizeof *argument);
    bool *is_there = out(1);
    if (is_ok(OK | NO_LOOK | MALFORMED | WRONG_HANDLE,
              camel_encode_record(AS(session, slot), imsi, argument, is_there)))
        IS(*is_there ? is_argument_of(argument, imsi) : is_left(argument));
}

/* The functions of camel.h, and how often each is called among CALLS calls. */
enum { CALLS = 1459 };
static struct {
    const char *name;
    void (*make)(void);
    bool is_inline;
    unsigned often;
    unsigned long counts[STATUSES];
} exports[] = {
#define EXPORT(name, often) { "camel_" #name, f_##name, false, often, { 0 } }
#define INLINE(name, often, of_nonnull)                                                                             \
    { "camel_" #name, f_##name, true, often, { 0 } }, { "camel_" #name "_nonnull", f_##name, false, of_nonnull, { 0 } }
    { "camel_open_version", f_open, false, 20, { 0 } }, { "camel_open", f_open, true, 10, { 0 } },
    EXPORT(abi_version, 1), EXPORT(layouts, 1), INLINE(imsi_of_tbcd, 8, 7), INLINE(imsi_of_digits, 8, 7),
    INLINE(address_of, 10, 10), INLINE(isdn_address_of, 10, 10), EXPORT(digits_of_imsi, 5), EXPORT(tbcd_of_imsi, 5),
    INLINE(submit_change, 130, 120), INLINE(submit_map, 30, 30), INLINE(update_of, 45, 47),
    INLINE(update_of_map, 25, 20), EXPORT(update_join, 40), EXPORT(update_parts_of, 15), EXPORT(submit, 20),
    INLINE(submit_all, 15, 15), EXPORT(imsis_of, 15), EXPORT(next_imsi, 23), EXPORT(encode_record, 10),
    EXPORT(publish, 60), INLINE(publish_to, 10, 10), INLINE(commit, 25, 25), EXPORT(drop_pending, 10),
    EXPORT(holders, 10), EXPORT(counts_of, 20), EXPORT(receipt_of, 30), EXPORT(learn, 40), EXPORT(decide, 150),
    EXPORT(decisions_of, 10), EXPORT(look, 25), EXPORT(leave, 40), EXPORT(row_at, 30), EXPORT(criteria_at, 30),
    EXPORT(keep, 40), EXPORT(decide_kept, 40), EXPORT(kept_row_at, 10), EXPORT(set_up, 30), EXPORT(close, 2),
    EXPORT(empty, 100),
};

/* Makes a call of one of the functions. A store that is to end does so soon, and soon another is opened. */
static void any_call(void)
{
    void (*soon)(void) = !handles[STORE].is_full ? f_open : slots[STORE].is_ending ? f_close : NULL;
    unsigned at = 0, chosen = below(CALLS);
    if (soon && below(8) == 0)
        while (exports[at].make != soon)
            at++;
    else
        while (chosen >= exports[at].often)
            chosen -= exports[at++].often;
    memcpy(handles_before, handles, sizeof handles);
    edges = outs = 0;
    counts = exports[at].counts;
    is_inline = exports[at].is_inline;
    exports[at].make();
}

int main(int argc, char **argv)
{
    unsigned long calls = argc > 1 ? strtoul(argv[1], NULL, 10) : 100000;
    state = (argc > 2 ? strtoul(argv[2], NULL, 10) : 1) * 0x9e3779b97f4a7c15u + 1;

    for (unsigned long call = 0; call < calls && !failed; call++)
        any_call();
    for (unsigned slot = 0; slot < SLOTS; slot++)
        camel_free(&handles[slot]);
    for (unsigned at = 0; at < COUNT_OF(exports); at++) {
        printf("%s:", exports[at].name);
        for (int status = 0; status < STATUSES; status++)
            if (exports[at].counts[status])
                printf(" %s %lu", camel_status_name(STATUS[status]), exports[at].counts[status]);
        putchar('\n');
    }
    return ended("fuzz");
}
