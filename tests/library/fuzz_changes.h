/* Random octets, IMSIs and changes of subscriber data for the calls of fuzz.c: changes of each kind, with lists that
 * come or not, and any data of the other kinds. */
#ifndef FUZZ_CHANGES_H
#define FUZZ_CHANGES_H

#include "slots.h"

static bool is_inline; /* whether the call is one of the inline ones, which may be passed NULL */

/* What is passed with a count, or now and then NULL, which is to none. */
static void *or_null(void *at)
{
    return !is_inline || below(32) ? at : NULL;
}

/* So many octets: digits in TBCD, characters, or any. */
static size_t any_octets(uint8_t *octets)
{
    size_t count = below(16) ? below(24) : below(300);
    unsigned kind = below(3);
    for (size_t at = 0; at < count; at++) {
        unsigned low = below(10), high = below(10);
        octets[at] = kind == 0 ? mostly(low | high << 4) : kind == 1 ? mostly('0' + low) : octet();
    }
    if (kind == 0 && count > 0 && toss())
        octets[count - 1] |= 0xf0;
    return count;
}

/* One of so many, or now and then any number, or one with a count of digits. */
static const camel_imsi *any_imsi(unsigned count)
{
    camel_imsi any = { next() >> below(64) };
    if (toss())
        any.number = any.number >> 8 | (uint64_t)(4 + below(13)) << 56;
    if (below(16))
        any = imsi_of(below(count));
    return PASSED(any);
}

static camel_row any_row(unsigned dp)
{
    camel_row row;
    fill(&row, sizeof row);
    row.dp = mostly(dp);
    row.scf.length = mostly(1 + below(9));
    row.handling >>= below(32);
    if (below(32))
        row.key &= 0x7fffffff;
    return row;
}

/* Criteria of which each field is any. But for now and then they have no causes at 2 and 12, where no call is released
 * yet, and those of the VT-CSI neither a number nor a call type. */
static camel_criteria any_criteria(unsigned dp, bool is_of_o)
{
    camel_criteria entry;
    bool *of_o[] = { &entry.has_number, &entry.has_call_type };
    fill(&entry, sizeof entry);
    entry.dp = mostly(dp);
    for (int at = 0; at < 2; at++)
        if (is_of_o || below(64) == 0)
            toss_in(of_o[at]);
        else
            *of_o[at] = false;
    toss_in(&entry.is_forwarded);
    toss_in(&entry.number.is_enabling);
    entry.number.number_count = mostly(below(11));
    entry.number.length_count = mostly(1 + below(3));
    for (int at = 0; at < 10; at++)
        entry.number.numbers[at].length = mostly(1 + below(9));
    for (int at = 0; at < 3; at++)
        entry.number.lengths[at] = mostly(1 + below(15));
    entry.basic.count = mostly(below(6));
    entry.causes.count = mostly(dp != 2 && dp != 12 ? below(6) : 0);
    for (int at = 0; at < 5; at++) {
        toss_in(&entry.basic.services[at].is_bearer);
        entry.causes.causes[at] = mostly(octet() & 127);
    }
    return entry;
}

/* Whether criteria that a session gave are within the limits, and of their CSI. */
static bool is_whole_entry(const camel_criteria *entry)
{
    bool is_of_o = entry->dp == 2 || entry->dp == 4;
    return entry->number.number_count <= 10 && entry->number.length_count <= 3 && entry->basic.count <= 5
        && entry->causes.count <= 5 && (is_of_o || (!entry->has_number && !entry->has_call_type));
}

/* Lists of a CSI, of any items. */
static camel_csi_lists any_csi(bool is_of_o)
{
    enum { ITEMS = 12 };
    camel_row rows[ITEMS];
    camel_criteria entries[ITEMS];
    camel_csi_lists lists = { .row_count = below(32) ? 1 + below(2) : below(ITEMS + 1) };
    lists.criteria_count = below(32) ? 1 + below(2) : below(ITEMS + 1);
    for (unsigned at = 0; at < ITEMS; at++) {
        unsigned dp = mostly(is_of_o ? DPS[at % 2] : DPS[2 + at % 3]);
        rows[at] = any_row(dp);
        entries[at] = any_criteria(dp, is_of_o);
    }
    lists.rows = at_edge(rows, lists.row_count * sizeof *rows);
    lists.criteria = at_edge(entries, lists.criteria_count * sizeof *entries);
    toss_in(&lists.has_rows);
    toss_in(&lists.has_criteria);
    return lists;
}

/* C reads no bool that is neither 0 nor 1, so its octet is read. */
static bool is_true(const bool *place)
{
    uint8_t octet;
    memcpy(&octet, place, 1);
    return octet != 0;
}

/* What sends these lists by an inline call, and how many items of each. A list that is not sent is NULL, but now and
 * then has a count: that is a fault of the data, and tells so. */
static camel_sent_csi sent_of(const camel_csi_lists *lists, uint8_t *item_counts, bool *is_faulty)
{
    bool has_rows = is_true(&lists->has_rows), has_criteria = is_true(&lists->has_criteria);
    camel_sent_csi sent = {
        has_rows ? lists->rows : NULL, has_rows || below(24) == 0 ? lists->row_count : 0,
        has_criteria ? lists->criteria : NULL, has_criteria || below(24) == 0 ? lists->criteria_count : 0,
    };
    item_counts[0] = has_rows ? (uint8_t)sent.row_count : 0;
    item_counts[1] = has_criteria ? (uint8_t)sent.criteria_count : 0;
    *is_faulty |= (!has_rows && sent.row_count) || (!has_criteria && sent.criteria_count);
    return sent;
}

struct any_change {
    camel_change change;      /* for the inline calls, */
    camel_lists lists;        /* and the lists for those that they call */
    camel_update_parts parts; /* of the update that it is */
    unsigned statuses;        /* of its data, CAMEL_OK among them if there may be an update */
};

/* By their kind: how often changes come among 200, the statuses of their data, and what a store may return of them, but
 * for its limit and the handles. */
static const struct kind { unsigned often, of_data, of_store; } KINDS[] = {
    { 0, MALFORMED, 0 },
    [CAMEL_UPDATE_REGISTER] = { 56, OK | MALFORMED, 0 },
    [CAMEL_UPDATE_INSERT] = { 110, OK | MALFORMED | MISSING | UNEXPECTED, UNIDENTIFIED | MISSING },
    [CAMEL_UPDATE_DELETE] = { 18, OK | MALFORMED, UNIDENTIFIED },
    [CAMEL_UPDATE_CANCEL] = { 15, OK | MALFORMED, 0 },
    [CAMEL_UPDATE_CLEAR_ALL] = { 1, OK, 0 },
};

static const struct kind *kind_at(uint8_t kind)
{
    return &KINDS[kind < COUNT_OF(KINDS) ? kind : 0];
}

static uint8_t any_kind(void)
{
    unsigned kind = 0, chosen = below(200);
    while (chosen >= KINDS[kind].often)
        chosen -= KINDS[kind++].often;
    return mostly(kind);
}

/* Any change. A short one sends one list at most, so that Inserts may be joined. */
static struct any_change any_change(camel_imsi imsi, bool is_short)
{
    struct any_change any = { .change = { .kind = any_kind(), .imsi = imsi }, .lists.o = any_csi(true) };
    camel_csi_lists *o = &any.lists.o, *vt = &any.lists.vt;
    camel_withdrawal *what = &any.change.withdrawal;
    bool *has[] = { &o->has_rows, &o->has_criteria, &vt->has_rows, &vt->has_criteria }, is_faulty = false;
    unsigned left = below(LISTS);
    uint8_t item_counts[LISTS];
    *vt = any_csi(false);
    for (unsigned at = 0; is_short && at < LISTS; at++)
        if (at != left)
            *has[at] = false;
    any.change.insert.o = sent_of(o, item_counts, &is_faulty);
    any.change.insert.vt = sent_of(vt, item_counts + 2, &is_faulty);
    toss_in(&what->o);
    toss_in(&what->vt);
    if (below(4) == 0)
        toss_in(&what->everything);
    any.statuses = kind_at(any.change.kind)->of_data;
    any.parts.kind = any.change.kind;
    if (any.change.kind != CAMEL_UPDATE_CLEAR_ALL)
        any.parts.imsi = imsi;
    if (any.change.kind == CAMEL_UPDATE_DELETE)
        any.parts.withdrawal = (camel_withdrawal){ is_true(&what->o), is_true(&what->vt), is_true(&what->everything) };
    if (any.change.kind == CAMEL_UPDATE_INSERT) {
        memcpy(counts_in(&any.parts), item_counts, LISTS);
        any.statuses &= is_inline && is_faulty ? ~(unsigned)OK : ~0U;
    }
    return any;
}

#endif
