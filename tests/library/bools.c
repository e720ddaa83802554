/* Each bool of the data that a call is passed is true if it is any octet but 0: with each the calls do what they do
 * with 1, and with 0 something else. */
#include "check.h"

/* What is sent of a subscriber in an Insert and a Delete, and a call. */
struct sent {
    camel_criteria o, vt;
    camel_lists lists;
    camel_withdrawal what;
    camel_event event;
};

/* What becomes of it. Lists are a bit each, in the order of their bools. */
struct shown {
    camel_status status;                 /* of the Insert */
    unsigned came, left;                 /* the lists in its handle, and those of the subscriber in the end */
    camel_withdrawal withdrawn;          /* in the handle of the Delete */
    camel_criteria o, vt;                /* as they come back */
    bool is_trigger;
};

static unsigned lists_came(const camel_lists *lists, camel_status *status)
{
    static const camel_withdrawal nothing;
    camel_imsi imsi = imsi_of(1);
    camel_update update = CAMEL_EMPTY;
    camel_update_parts parts = { .kind = 0 };
    unsigned came = 0;

    *status = camel_submit_change_nonnull(&store, CAMEL_UPDATE_INSERT, &imsi, &nothing, lists);
    if (camel_update_of_nonnull(CAMEL_UPDATE_INSERT, &imsi, &nothing, lists, &update) == CAMEL_OK)
        RETURNS(CAMEL_OK, camel_update_parts_of(&update, &parts));
    for (unsigned list = 0; list < LISTS; list++)
        came |= (unsigned)(counts_in(&parts)[list] == 1) << list;
    camel_free(&update);
    return came;
}

static camel_withdrawal withdrawn(const camel_withdrawal *what)
{
    camel_change change = { .kind = CAMEL_UPDATE_DELETE, .imsi = imsi_of(1) };
    camel_update update;
    camel_update_parts parts;

    memcpy(&change.withdrawal, what, sizeof *what); /* C reads no bool that is neither 0 nor 1 */
    RETURNS(CAMEL_OK, camel_submit_change(&store, &change));
    update = update_of(change);
    RETURNS(CAMEL_OK, camel_update_parts_of(&update, &parts));
    camel_free(&update);
    return parts.withdrawal;
}

/* Sends all to a subscriber who has just registered, with this octet in the place of a bool. */
static void show(struct sent sent, size_t place, uint8_t octet, struct shown *shown)
{
    camel_row rows[] = { row_of(2, 100), row_of(13, 101) }, row;
    camel_imsi imsi = imsi_of(1);
    camel_subscriber kept = CAMEL_EMPTY;
    camel_answer answer, by_kept;
    bool has[LISTS] = { false }, is_there = false;

    ((uint8_t *)&sent)[place] = octet;
    sent.lists.o.rows = &rows[0], sent.lists.vt.rows = &rows[1];
    sent.lists.o.criteria = &sent.o, sent.lists.vt.criteria = &sent.vt;
    memset(shown, 0, sizeof *shown);
    register_subscriber(1);
    shown->came = lists_came(&sent.lists, &shown->status);
    shown->withdrawn = withdrawn(&sent.what);
    publish_to(1);
    RETURNS(CAMEL_OK, camel_row_at(sessions, &imsi, 2, &row, &has[0]));
    RETURNS(CAMEL_OK, camel_criteria_at(sessions, &imsi, 2, &shown->o, &has[1]));
    RETURNS(CAMEL_OK, camel_row_at(sessions, &imsi, 13, &row, &has[2]));
    RETURNS(CAMEL_OK, camel_criteria_at(sessions, &imsi, 13, &shown->vt, &has[3]));
    for (unsigned list = 0; list < LISTS; list++)
        shown->left |= (unsigned)has[list] << list;
    RETURNS(CAMEL_OK, camel_decide(sessions, &sent.event, &answer));
    RETURNS(CAMEL_OK, camel_keep(sessions, &imsi, &kept, &is_there));
    RETURNS(CAMEL_OK, camel_decide_kept(sessions, &kept, &sent.event, &by_kept));
    IS(is_there && by_kept.is_trigger == answer.is_trigger);
    shown->is_trigger = answer.is_trigger;
    camel_free(&kept);
}

/* The bools: whether each is true in what is sent else, and what comes of the other value. Criteria without rows are
 * rejected, and those of the VT-CSI with a number or a call type. */
static const struct {
    size_t place;
    bool is_usual;
    camel_status status;
    unsigned came, left;
    bool is_trigger;
} BOOLS[] = {
#define AT(field) offsetof(struct sent, field)
    { AT(o.has_number), true, CAMEL_OK, 15, 15, true },
    { AT(o.number.is_enabling), true, CAMEL_OK, 15, 15, false },
    { AT(o.basic.services[0].is_bearer), true, CAMEL_OK, 15, 15, false },
    { AT(o.has_call_type), true, CAMEL_OK, 15, 15, true },
    { AT(o.is_forwarded), true, CAMEL_OK, 15, 15, false },
    { AT(vt.basic.services[1].is_bearer), true, CAMEL_OK, 15, 15, true },
    { AT(vt.has_number), false, CAMEL_UNEXPECTED_DATA_VALUE, 0, 0, false },
    { AT(vt.has_call_type), false, CAMEL_UNEXPECTED_DATA_VALUE, 0, 0, false },
    { AT(lists.o.has_rows), true, CAMEL_DATA_MISSING, 14, 0, false },
    { AT(lists.o.has_criteria), true, CAMEL_OK, 13, 13, true },
    { AT(lists.vt.has_rows), true, CAMEL_DATA_MISSING, 11, 0, false },
    { AT(lists.vt.has_criteria), true, CAMEL_OK, 7, 7, true },
    { AT(what.o), false, CAMEL_OK, 15, 12, false },
    { AT(what.vt), false, CAMEL_OK, 15, 3, true },
    { AT(what.everything), false, CAMEL_OK, 15, 0, false },
    { AT(event.is_forwarded), true, CAMEL_OK, 15, 15, false },
    { AT(event.basic.is_bearer), true, CAMEL_OK, 15, 15, false },
};

int main(void)
{
    static const uint8_t listed[] = { 0x91, 0x34 }, octets[] = { 2, 128, 255 };
    static const camel_criteria not_t = { .dp = 3, .has_call_type = true };
    struct sent sent = {
        .o = { .dp = 2, .has_number = true, .number = { .is_enabling = true, .number_count = 1 },
               .basic = { 1, { { true, 0x18 } } }, .has_call_type = true, .is_forwarded = true },
        .vt = { .dp = 13, .basic = { 2, { { false, 0x60 }, { true, 0x18 } } } },
        .lists = { { .row_count = 1, .criteria_count = 1, .has_rows = true, .has_criteria = true },
                   { .row_count = 1, .criteria_count = 1, .has_rows = true, .has_criteria = true } },
        .event = event_of(1, 2),
    };
    camel_criteria vt = sent.vt;
    camel_row row = row_of(13, 100);
    struct shown usual, yes, no, by_octet;

    sent.o.number.numbers[0] = isdn_of(listed, sizeof listed);
    sent.event.is_forwarded = true;
    sent.event.basic = (camel_basic_service){ true, 0x18 };
    sent.vt.number = (camel_number_criterion){ .length_count = 1, .lengths = { 4 } }; /* has no effect, nor has this: */
    open_store(1, CAMEL_MAX_UPDATES);
    show(sent, AT(vt.is_forwarded), 255, &usual);
    IS(usual.status == CAMEL_OK && usual.came == 15 && usual.left == 15 && usual.is_trigger);
    IS(memcmp(&usual.o, &sent.o, sizeof sent.o) == 0 && memcmp(&usual.vt, &vt, sizeof vt) == 0);
    for (size_t at = 0; at < COUNT_OF(BOOLS); at++) {
        const struct shown *other = BOOLS[at].is_usual ? &no : &yes;
        size_t place = BOOLS[at].place;
        camel_withdrawal named = { false };
        show(sent, place, 0, &no);
        show(sent, place, 1, &yes);
        IS(memcmp(BOOLS[at].is_usual ? &yes : &no, &usual, sizeof usual) == 0);
        IS(memcmp(other, &usual, sizeof usual) != 0 && other->status == BOOLS[at].status);
        IS(other->came == BOOLS[at].came && other->left == BOOLS[at].left && other->is_trigger == BOOLS[at].is_trigger);
        if (place >= AT(what) && place < AT(what) + sizeof named)
            ((bool *)&named)[place - AT(what)] = true;
        IS(memcmp(&other->withdrawn, &named, sizeof named) == 0);
        for (size_t octet = 0; octet < COUNT_OF(octets); octet++) {
            show(sent, place, octets[octet], &by_octet);
            IS(memcmp(&by_octet, &yes, sizeof yes) == 0);
        }
    }
    /* Whichever detection point it is of. */
    RETURNS(CAMEL_UNEXPECTED_DATA_VALUE, insert(1, NO_CSI, CSI(&row, 1, &not_t, 1)));
    close_store();
    return ended("bools");
}
