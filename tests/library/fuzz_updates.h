/* The calls of fuzz.c by which updates come: as changes, as octets, in handles, several together, and committed. What
 * each update in a handle is, is known by its parts. */
#ifndef FUZZ_UPDATES_H
#define FUZZ_UPDATES_H

#include "fuzz_changes.h"

/* The arguments of MAP that were drawn. */
struct drawn {
    uint8_t operation;
    camel_imsi dialogue;
    const void *octets;
    size_t count;
};

#include "drawn.h"

/* An inline call, or the one that it calls. */
#define CALL(name, ...) (is_inline ? camel_##name(__VA_ARGS__) : camel_##name##_nonnull(__VA_ARGS__))

/* Counts an update if it is accepted. */
static void note_update(unsigned slot, unsigned allowed, camel_status status)
{
    IS(status != CAMEL_HISTORY_FULL || slots[slot].accepted == slots[slot].limit);
    if (is_ok(allowed, status))
        slots[slot].accepted++;
}

/* Notes the update that a handle has got, if it has. */
static bool note_made(unsigned to, camel_update_parts parts, unsigned allowed, camel_status status)
{
    if (!is_ok(allowed, status))
        return false;
    IS(!handles_before[to].is_full && handles[to].is_full);
    slots[to] = (struct slot){ .parts = parts };
    return true;
}

static void f_submit_change(void)
{
    unsigned slot = pick(STORE);
    struct any_change any = any_change(*any_imsi(SUBSCRIBERS), false);
    unsigned of_store = any.statuses & OK ? FULL | WRONG_HANDLE | kind_at(any.change.kind)->of_store : 0;
    camel_status status = is_inline
        ? camel_submit_change(AS(store, slot), PASSED(any.change))
        : camel_submit_change_nonnull(AS(store, slot), any.change.kind, PASSED(any.change.imsi),
                                      PASSED(any.change.withdrawal), PASSED(any.lists));
    note_update(slot, any.statuses | of_store, status);
}

/* Updates are of a few subscribers. */
static void f_update_of(void)
{
    unsigned to = pick_to_fill(UPDATE + below(4));
    struct any_change any = any_change(*any_imsi(2), toss());
    camel_status status = is_inline
        ? camel_update_of(PASSED(any.change), AS(update, to))
        : camel_update_of_nonnull(any.change.kind, PASSED(any.change.imsi), PASSED(any.change.withdrawal),
                                  PASSED(any.lists), AS(update, to));
    note_made(to, any.parts, any.statuses & OK ? any.statuses | FULL_HANDLE : any.statuses, status);
}

/* An argument that was drawn, in its own dialogue or now and then in another one or none; or any octets. */
static struct drawn any_drawn(void)
{
    struct drawn drawn = DRAWN[below(COUNT_OF(DRAWN))];
    uint8_t octets[300];
    drawn.operation = mostly(below(16) ? drawn.operation : DRAWN[below(COUNT_OF(DRAWN))].operation);
    if (below(8) == 0)
        drawn.dialogue = toss() ? *any_imsi(SUBSCRIBERS) : (camel_imsi){ 0 };
    if (below(16) == 0)
        drawn.octets = octets, drawn.count = any_octets(octets);
    drawn.octets = or_null(at_edge(drawn.octets, drawn.count));
    return drawn;
}

/* What a call may return of the octets of an argument, beside CAMEL_OK. */
enum {
    OF_OCTETS = MALFORMED | MISSING | UNEXPECTED | MALFORMED_OCTETS | MISSING_FIELD | FIELD_TWICE | WRONG_TAG |
                WRONG_LENGTH | NO_IMSI | OTHER_IMSI
};

/* The faults of an argument have a place in it, and all other statuses none; 35 and 36 may be either. */
static bool is_placed(camel_status status, const struct drawn *drawn, uint64_t place)
{
    uint64_t count = drawn->octets ? drawn->count : 0;
    if (status >= CAMEL_MALFORMED_OCTETS && status <= CAMEL_OTHER_IMSI)
        return place <= count;
    if (status == CAMEL_DATA_MISSING || status == CAMEL_UNEXPECTED_DATA_VALUE)
        return place <= count || place == CAMEL_NO_OCTET;
    return place == CAMEL_NO_OCTET;
}

static void f_submit_map(void)
{
    unsigned slot = pick(STORE);
    struct drawn drawn = any_drawn();
    uint64_t any = next(), *place = PASSED(any);
    camel_status status =
        CALL(submit_map, AS(store, slot), drawn.operation, PASSED(drawn.dialogue), drawn.octets, drawn.count, place);
    note_update(slot, OK | FULL | UNIDENTIFIED | WRONG_HANDLE | OF_OCTETS, status);
    IS(is_placed(status, &drawn, *place));
}

/* What came is what the library says of it, of the kind of the operation. */
static void f_update_of_map(void)
{
    static const uint8_t kinds[256] = {
        [CAMEL_INSERT_SUBSCRIBER_DATA] = CAMEL_UPDATE_INSERT, [CAMEL_DELETE_SUBSCRIBER_DATA] = CAMEL_UPDATE_DELETE,
        [CAMEL_CANCEL_LOCATION] = CAMEL_UPDATE_CANCEL,
    };
    unsigned to = pick_to_fill(UPDATE + below(4));
    struct drawn drawn = any_drawn();
    uint64_t any = next(), *place = PASSED(any);
    camel_update_parts parts = { .kind = kinds[drawn.operation] };
    camel_status status =
        CALL(update_of_map, drawn.operation, PASSED(drawn.dialogue), drawn.octets, drawn.count, AS(update, to), place);
    IS(is_placed(status, &drawn, *place));
    if (!note_made(to, parts, OK | FULL_HANDLE | OF_OCTETS, status))
        return;
    RETURNS(CAMEL_OK, camel_update_parts_of(AS(update, to), &slots[to].parts));
    IS(slots[to].parts.kind == parts.kind);
    IS(drawn.dialogue.number == 0 || slots[to].parts.imsi.number == drawn.dialogue.number);
}

static void f_update_parts_of(void)
{
    unsigned slot = pick_update();
    camel_update_parts *parts = out(sizeof *parts);
    bool are_written = is_ok(OK | WRONG_HANDLE, camel_update_parts_of(AS(update, slot), parts));
    IS(are_written == holds_update(slot) && (!are_written || is_same_parts(parts, &slots[slot].parts)));
}

/* The status of a join, but that two entries may be of one detection point. */
static camel_status status_of_join(unsigned first, unsigned from, unsigned to)
{
    camel_update_parts *one = &slots[first].parts, *other = &slots[from].parts;
    if (!holds_update(first) || !holds_update(from))
        return CAMEL_WRONG_HANDLE;
    if (handles_before[to].is_full)
        return CAMEL_FULL_HANDLE;
    if (one->kind != CAMEL_UPDATE_INSERT || other->kind != CAMEL_UPDATE_INSERT)
        return CAMEL_NO_INSERT;
    if (one->imsi.number != other->imsi.number)
        return CAMEL_OTHER_SUBSCRIBER;
    for (unsigned criteria = 1; criteria < LISTS; criteria += 2)
        if (counts_in(one)[criteria] + counts_in(other)[criteria] > 10)
            return CAMEL_UNEXPECTED_DATA_VALUE;
    return CAMEL_OK;
}

/* Rows that came later stand, and criteria are behind the earlier ones. */
static void join_parts(camel_update_parts *one, camel_update_parts *other)
{
    for (unsigned rows = 0; rows < LISTS; rows += 2) {
        if (counts_in(other)[rows])
            counts_in(one)[rows] = counts_in(other)[rows];
        counts_in(one)[rows + 1] += counts_in(other)[rows + 1];
    }
    if (other->has_o_capability)
        one->has_o_capability = true, one->o_capability = other->o_capability;
    if (other->has_vt_capability)
        one->has_vt_capability = true, one->vt_capability = other->vt_capability;
}

static void f_update_join(void)
{
    unsigned one = pick_update(), from = pick_update(), to = pick_to_fill(UPDATE + below(4));
    if (one == from || one == to || from == to)
        return;
    camel_status wanted = status_of_join(one, from, to);
    camel_status status = camel_update_join(AS(update, one), AS(update, from), AS(update, to));
    camel_update_parts parts = slots[one].parts;
    IS(status == wanted || (wanted == CAMEL_OK && status == CAMEL_UNEXPECTED_DATA_VALUE));
    join_parts(&parts, &slots[from].parts);
    note_made(to, parts, OK | WRONG_HANDLE | FULL_HANDLE | NO_INSERT | OTHER_SUBSCRIBER | UNEXPECTED, status);
}

static void f_submit(void)
{
    unsigned slot = pick(STORE), from = pick_update();
    unsigned allowed = holds_update(from) ? OK | FULL | kind_at(slots[from].parts.kind)->of_store : 0;
    if (slot != from)
        note_update(slot, allowed | WRONG_HANDLE, camel_submit(AS(store, slot), AS(update, from)));
}

/* The accepted updates are the published ones again. */
static void f_drop_pending(void)
{
    unsigned slot = pick(STORE);
    if (is_ok(OK | WRONG_HANDLE, camel_drop_pending(AS(store, slot))))
        slots[slot].accepted = *published_of(slot);
}

/* Several at once. */

/* A call that submits several updates, publishes all that is pending and tells a few sessions, or commits: it does both
 * with these updates only. The updates are in handles side by side, or now and then these are other handles. */
enum { SUBMITS = 1, PUBLISHES = 2, COMMITS = SUBMITS | PUBLISHES };
struct together {
    unsigned what, slot, update, count, session, told;
    bool is_store, are_updates, is_many; /* more sessions than may be */
    size_t ending, *rejected;            /* the first of several that leaves no record */
    camel_counts before;
    uint64_t holders;
};

/* Chooses what is passed, and tells whether it does not overlap. */
static bool begin(struct together *t, unsigned what)
{
    size_t any = (size_t)next();
    *t = (struct together){ .what = what, .slot = pick(STORE), .session = SESSION + below(4), .are_updates = true };
    if (what & SUBMITS)
        t->ending = t->count = below(5);
    if (what & PUBLISHES)
        t->told = below(3), t->is_many = below(64) == 0;
    t->update = below(16) ? UPDATE + below(5 - t->count) : below(SLOTS + 1 - t->count);
    t->rejected = PASSED(any);
    for (unsigned at = t->count; at > 0; at--) {
        unsigned slot = t->update + at - 1;
        t->are_updates &= holds_update(slot);
        if (t->count > 1 && slots[slot].parts.kind >= CAMEL_UPDATE_CANCEL)
            t->ending = at - 1;
        if (is_among(slot, t->session, t->told))
            return false;
    }
    t->is_store = camel_counts_of(AS(store, t->slot), &t->before) == CAMEL_OK
        && camel_holders(AS(store, t->slot), &t->holders) == CAMEL_OK;
    return !is_among(t->slot, t->update, t->count) && !is_among(t->slot, t->session, t->told);
}

/* The index is that of an update which may be rejected so, and of none before one that surely is. */
static void note_rejected(const struct together *t, camel_status status)
{
    uint64_t accepted = t->before.published + (t->what == COMMITS ? 0 : t->before.pending);
    unsigned of_store = kind_at(slots[t->update + *t->rejected].parts.kind)->of_store;
    if (status == CAMEL_UNEXPECTED_DATA_VALUE)
        IS(*t->rejected == t->ending);
    else if (status == CAMEL_HISTORY_FULL)
        IS(accepted + *t->rejected == slots[t->slot].limit);
    else
        IS(of_store & (status == CAMEL_DATA_MISSING ? MISSING : UNIDENTIFIED));
    IS(*t->rejected <= t->ending);
}

/* What the store counts then: all is as before, or updates are pending, published or dropped. A look of a session that
 * is not told holds a publication up, and each that is told has seen what is published. */
static void note_counts(const struct together *t, camel_status status)
{
    camel_counts wanted = t->before, after = { 0 };
    bool is_held = status == CAMEL_HELD, is_done = status == CAMEL_OK;
    for (unsigned at = t->session; at < t->session + t->told; at++) {
        is_held &= !slots[at].is_looking;
        IS(!is_done || (slots[at].of == slots[t->slot].of && !slots[at].is_looking));
    }
    if (t->what == SUBMITS)
        wanted.pending += is_done ? t->count : 0;
    else if (is_done)
        wanted.published += t->what == COMMITS ? t->count : wanted.pending;
    if ((t->what & PUBLISHES) && (is_done || (t->what == COMMITS && (is_held || status < CAMEL_OUT_OF_MEMORY))))
        wanted.pending = 0;
    wanted.held += is_held;
    IS(!is_held || t->holders != 0);
    IS(!is_done || t->what == SUBMITS || t->holders == 0);
    RETURNS(CAMEL_OK, camel_counts_of(AS(store, t->slot), &after));
    if (is_done)
        wanted.subscribers = after.subscribers;
    IS(memcmp(&wanted, &after, sizeof wanted) == 0);
    *published_of(t->slot) = wanted.published;
    slots[t->slot].accepted = wanted.published + wanted.pending;
    slots[t->slot].held = wanted.held;
    for (unsigned at = t->session; is_done && at < t->session + t->told; at++)
        slots[at].seen = wanted.published;
}

static void end(const struct together *t, camel_status status)
{
    bool is_rejected = status != CAMEL_OK && status < CAMEL_OUT_OF_MEMORY, are_right = t->is_store && t->are_updates;
    unsigned allowed = t->told > 0 || !are_right ? WRONG_HANDLE : 0;
    if (are_right)
        allowed |= (t->ending < t->count ? UNEXPECTED : OK) | (t->what & PUBLISHES ? HELD : 0)
            | (t->what & SUBMITS ? FULL | UNIDENTIFIED | MISSING : 0) | (t->told > 0 ? OTHER_STORE : 0);
    is_ok(t->is_many ? MALFORMED : allowed, status);
    if (t->what & SUBMITS)
        IS(is_rejected ? *t->rejected < t->count : *t->rejected == t->count);
    if (t->is_store && is_rejected)
        note_rejected(t, status);
    if (t->is_store)
        note_counts(t, status);
}

static camel_session many[CAMEL_MAX_SESSIONS + 1];
#define TOLD(t) (t).is_many ? many : AS(session, (t).session), (t).is_many ? COUNT_OF(many) : (t).told

static void f_submit_all(void)
{
    struct together t;
    if (begin(&t, SUBMITS))
        end(&t, CALL(submit_all, AS(store, t.slot), AS(update, t.update), t.count, t.rejected));
}

static void f_publish(void)
{
    struct together t;
    if (begin(&t, PUBLISHES)) {
        t.told = t.is_many = 0;
        end(&t, camel_publish(AS(store, t.slot)));
    }
}

static void f_publish_to(void)
{
    struct together t;
    if (begin(&t, PUBLISHES))
        end(&t, CALL(publish_to, AS(store, t.slot), TOLD(t)));
}

static void f_commit(void)
{
    struct together t;
    if (begin(&t, COMMITS))
        end(&t, CALL(commit, AS(store, t.slot), AS(update, t.update), t.count, TOLD(t), t.rejected));
}

#endif
