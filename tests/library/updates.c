/* Updates in handles: what came with each, what two of them are joined to, and what is dropped and submitted again. */
#include "octets.h"

static camel_update_parts parts_of(const camel_update *update)
{
    camel_update_parts parts;
    memset(&parts, 1, sizeof parts);
    RETURNS(CAMEL_OK, camel_update_parts_of(update, &parts));
    return parts;
}

/* The update of octets, in the dialogue of a subscriber. */
static camel_update update_in(unsigned dialogue, uint8_t operation, const uint8_t *octets, size_t count)
{
    camel_update update = CAMEL_EMPTY;
    camel_imsi imsi = imsi_of(dialogue);
    uint64_t place = 99;
    RETURNS(CAMEL_OK, camel_update_of_map(operation, &imsi, octets, count, &update, &place));
    IS(place == CAMEL_NO_OCTET && update.is_full);
    return update;
}

enum { O = 0xa0, VT = 0xa7 };

/* An Insert without its IMSI: a CSI with rows at these detection points, each with a key of its own, and with this
 * camelCapabilityHandling. */
static camel_update rows_in(unsigned dialogue, uint8_t csi, const uint8_t *dps, uint8_t dp_count, uint8_t phase)
{
    const uint8_t capability[] = { 0x80, 0x01, phase }, rows = (uint8_t)(14 * dp_count);
    uint8_t octets[80] = {
        0x30, (uint8_t)(rows + 9), 0xad, (uint8_t)(rows + 7), csi, (uint8_t)(rows + 5), 0x30, rows
    };
    size_t at = 8;

    for (uint8_t row = 0; row < dp_count; row++, at += 14) {
        const uint8_t one[] = { 0x30, 0x0c, 0x0a, 0x01, dps[row], 0x02, 0x01, (uint8_t)(100 + row), 0x80, 0x01, 0x91,
                                0x81, 0x01, 0x00 };
        memcpy(octets + at, one, sizeof one);
    }
    memcpy(octets + at, capability, sizeof capability);
    return update_in(dialogue, CAMEL_INSERT_SUBSCRIBER_DATA, octets, at + sizeof capability);
}

/* An Insert of entries of the O-CSI, with these detection points. */
static camel_update criteria_in(const uint8_t *dps, size_t count)
{
    camel_criteria entries[10] = { { .dp = 0 } };

    for (size_t at = 0; at < count; at++)
        entries[at].dp = dps[at];
    return update_of(insert_of(1, CSI(NULL, 0, entries, count), NO_CSI));
}

/* The join of two updates, which are freed. */
static camel_update joined_of(camel_update one, camel_update next)
{
    camel_update joined = CAMEL_EMPTY;
    RETURNS(CAMEL_OK, camel_update_join(&one, &next, &joined));
    camel_free(&one), camel_free(&next);
    return joined;
}

/* Frees an update with which these parts came, beside its IMSI. */
static void brings(camel_update update, camel_update_parts wanted)
{
    camel_update_parts parts = parts_of(&update);
    if (wanted.kind != CAMEL_UPDATE_CLEAR_ALL)
        wanted.imsi = imsi_of(1);
    IS(is_same_parts(&parts, &wanted));
    camel_free(&update);
}

#define BRINGS(update, ...) brings(update, (camel_update_parts){ __VA_ARGS__ })

static void parts_of_updates(void)
{
    static const uint8_t dps[] = { 2, 3, 3, 4 }, vt[] = { 12, 13, 14 };
    const struct argument *all = &ARGUMENT[ALL_LISTS], *both = &ARGUMENT[BOTH_CSIS];
    camel_row rows[] = { row_of(13, 100), row_of(3, 100) };
    camel_criteria entries[] = { { .dp = 2 }, { .dp = 4 }, { .dp = 12 }, { .dp = 13 }, { .dp = 14 }, { .dp = 3 } };
    camel_update criteria = update_of(insert_of(1, CSI(NULL, 0, entries, 2), CSI(NULL, 0, entries + 2, 4)));

    BRINGS(update_of(change_of(CAMEL_UPDATE_REGISTER, 1)), .kind = CAMEL_UPDATE_REGISTER);
    BRINGS(update_of(change_of(CAMEL_UPDATE_DELETE, 1)), .kind = CAMEL_UPDATE_DELETE, .withdrawal = { .o = true });
    BRINGS(update_of(change_of(CAMEL_UPDATE_CANCEL, 1)), .kind = CAMEL_UPDATE_CANCEL);
    BRINGS(update_of(change_of(CAMEL_UPDATE_CLEAR_ALL, 1)), .kind = CAMEL_UPDATE_CLEAR_ALL);
    BRINGS(update_of(insert_of(1, NO_CSI, ROWS(rows, 2))), .kind = CAMEL_UPDATE_INSERT, .vt_rows = 2);
    BRINGS(update_in(1, all->operation, all->octets, all->count), .kind = CAMEL_UPDATE_INSERT, .o_rows = 2,
           .o_criteria = 1, .vt_rows = 1, .t_criteria = 1);
    BRINGS(update_in(1, both->operation, both->octets, both->count), .kind = CAMEL_UPDATE_DELETE,
           .withdrawal = { .o = true, .vt = true });
    BRINGS(rows_in(1, O, dps, sizeof dps, 3), .kind = CAMEL_UPDATE_INSERT, .o_rows = 4, .has_o_capability = true,
           .o_capability = 3);
    /* Each of these counts and numbers is another one. */
    BRINGS(joined_of(joined_of(rows_in(1, O, dps, 1, 2), criteria), rows_in(1, VT, vt, sizeof vt, 16)),
           .kind = CAMEL_UPDATE_INSERT, .o_rows = 1, .o_criteria = 2, .vt_rows = 3, .t_criteria = 4,
           .has_o_capability = true, .o_capability = 2, .has_vt_capability = true, .vt_capability = 16);
}

/* Updates that are not joined, and stay as they are. What is wrong with a handle is in statuses.c. */
static void refused_joins(void)
{
    static const uint8_t one[] = { 2 }, many[] = { 3, 3, 3, 3, 3, 3, 3, 3, 3, 3 };
    camel_update update = criteria_in(one, 1), twice = criteria_in(one, 1), eleven = criteria_in(many, 10);
    camel_update other = rows_in(2, O, many, 1, 3), cancel = update_of(change_of(CAMEL_UPDATE_CANCEL, 1));
    camel_update joined = CAMEL_EMPTY, full = update_of(change_of(CAMEL_UPDATE_REGISTER, 1));
    const struct { camel_status wanted; const camel_update *one, *next; } cases[] = {
        { CAMEL_NO_INSERT, &update, &cancel },         { CAMEL_NO_INSERT, &cancel, &update },
        { CAMEL_NO_INSERT, &cancel, &other },          { CAMEL_OTHER_SUBSCRIBER, &update, &other },
        { CAMEL_OTHER_SUBSCRIBER, &other, &eleven },   { CAMEL_UNEXPECTED_DATA_VALUE, &update, &twice },
        { CAMEL_UNEXPECTED_DATA_VALUE, &update, &eleven },
    };

    for (size_t at = 0; at < COUNT_OF(cases); at++) {
        camel_update_parts before = parts_of(cases[at].one), after;
        RETURNS(cases[at].wanted, camel_update_join(cases[at].one, cases[at].next, &joined));
        RETURNS(CAMEL_FULL_HANDLE, camel_update_join(cases[at].one, cases[at].next, &full));
        after = parts_of(cases[at].one);
        IS(is_same_parts(&before, &after) && !joined.is_full && parts_of(&full).kind == CAMEL_UPDATE_REGISTER);
    }
    IS(parts_of(&cancel).kind == CAMEL_UPDATE_CANCEL && parts_of(&eleven).o_criteria == 10);
    camel_free(&update), camel_free(&twice), camel_free(&eleven), camel_free(&other), camel_free(&cancel);
    camel_free(&full);
}

/* What a call of the first subscriber is decided to be, once all that is pending is published. */
static camel_answer published(uint8_t dp)
{
    publish_to(1);
    return decided(sessions, 1, dp);
}

/* Whether such a call triggers at only one of these detection points. */
static bool triggers_only(uint8_t dp, uint8_t other)
{
    return published(dp).is_trigger && !published(other).is_trigger;
}

/* Two Inserts are one: the rows of the second stand, and its criteria are behind the first ones. */
static void joined_updates(void)
{
    static const uint8_t first[] = { 2, 3 }, second[] = { 4 };
    camel_update one = rows_in(1, O, first, 2, 2), next = rows_in(1, O, second, 1, 3), rows = CAMEL_EMPTY;
    camel_update criteria = criteria_in(second, 1), more = criteria_in(first, 2), some = CAMEL_EMPTY;
    camel_update update = CAMEL_EMPTY;
    camel_update_parts parts;

    open_store(1, 5);
    RETURNS(CAMEL_OK, camel_update_join(&one, &next, &rows));
    parts = parts_of(&rows);
    IS(parts.o_rows == 1 && parts.has_o_capability && parts.o_capability == 3);
    IS(parts_of(&one).o_rows == 2 && parts_of(&one).o_capability == 2 && parts_of(&next).o_rows == 1);
    RETURNS(CAMEL_OK, camel_update_join(&rows, &criteria, &some));
    RETURNS(CAMEL_OK, camel_update_join(&some, &more, &update));
    parts = parts_of(&update);
    IS(parts.o_rows == 1 && parts.o_criteria == 3 && parts.has_o_capability && parts.o_capability == 3);
    IS(parts_of(&some).o_criteria == 1 && !parts_of(&criteria).has_o_capability);
    RETURNS(CAMEL_UNIDENTIFIED_SUBSCRIBER, camel_submit(&store, &one));
    register_subscriber(1);
    RETURNS(CAMEL_DATA_MISSING, camel_submit(&store, &criteria));
    RETURNS(CAMEL_OK, camel_submit(&store, &one));
    IS(triggers_only(2, 4));
    RETURNS(CAMEL_OK, camel_submit(&store, &update));
    IS(triggers_only(4, 2));
    RETURNS(CAMEL_OK, camel_submit(&store, &one));
    IS(triggers_only(2, 4));
    RETURNS(CAMEL_OK, camel_submit(&store, &update));
    RETURNS(CAMEL_HISTORY_FULL, camel_submit(&store, &one));
    camel_free(&update), camel_free(&one), camel_free(&next), camel_free(&rows);
    camel_free(&criteria), camel_free(&more), camel_free(&some);
    close_store();
}

static void submit_two(const camel_update *updates)
{
    size_t rejected = 99;
    RETURNS(CAMEL_OK, camel_submit_all(&store, updates, 2, &rejected));
    IS(rejected == 2);
}

/* Two updates that take the limit are dropped: the counts, the rejections and what is decided are those of the two that
 * are published, of which the subscriber has a row at detection point 2. */
static void dropped(const camel_update *updates)
{
    camel_row row = row_of(4, 104);

    RETURNS(CAMEL_HISTORY_FULL, camel_submit(&store, &updates[1]));
    RETURNS(CAMEL_OK, camel_drop_pending(&store));
    IS(counts_of(&store).published == 2 && counts_of(&store).pending == 0 && counts_of(&store).subscribers == 1);
    RETURNS(CAMEL_UNIDENTIFIED_SUBSCRIBER, insert(2, ROWS(&row, 1), NO_CSI));
    IS(published(2).is_trigger && published(2).front == 2);
    RETURNS(CAMEL_OK, insert(1, ROWS(&row, 1), NO_CSI));
    RETURNS(CAMEL_OK, camel_drop_pending(&store));
    IS(published(2).is_trigger && published(2).front == 2);
}

/* What is pending is dropped, also behind a publication that was held, and if records are removed by it. Then it is
 * submitted again. */
static void dropped_updates(void)
{
    static const uint8_t dps[] = { 2 }, removals[] = { CAMEL_UPDATE_CANCEL, CAMEL_UPDATE_CLEAR_ALL };
    camel_update first[] = { update_of(change_of(CAMEL_UPDATE_REGISTER, 1)), rows_in(1, O, dps, 1, 3) };
    camel_update then[] = {
        update_of(change_of(CAMEL_UPDATE_DELETE, 1)), update_of(change_of(CAMEL_UPDATE_REGISTER, 2))
    };

    open_store(1, 4);
    RETURNS(CAMEL_OK, camel_drop_pending(&store));
    submit_two(first);
    IS(published(2).is_trigger);
    RETURNS(CAMEL_OK, camel_look(sessions));
    RETURNS(CAMEL_OK, camel_publish(&store));
    submit_two(then);
    RETURNS(CAMEL_HELD, camel_publish(&store));
    RETURNS(CAMEL_OK, camel_leave(sessions));
    dropped(then);
    for (size_t at = 0; at < 2; at++) {
        RETURNS(CAMEL_OK, submit(removals[at], 1));
        register_subscriber(2);
        dropped(then);
    }
    submit_two(then);
    IS(!published(2).is_trigger && published(2).front == 4 && counts_are(2, 4, 0, 1));
    for (size_t at = 0; at < 2; at++)
        camel_free(&first[at]), camel_free(&then[at]);
    close_store();
}

int main(void)
{
    parts_of_updates();
    refused_joins();
    joined_updates();
    dropped_updates();
    return ended("updates");
}
