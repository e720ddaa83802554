/* What a test of random calls knows of each handle and of its store, the statuses that a call may return, and what it
 * is passed: each at an edge of memory that may not be touched. */
#ifndef SLOTS_H
#define SLOTS_H

#include "random.h"

#include <sys/mman.h>

/* Handles. */

enum { STORE, SESSION, KEPT = SESSION + 4, SPARE, UPDATE, IMSIS = UPDATE + 4, SLOTS, RECEIPTS = 4, SUBSCRIBERS = 40 };

static struct slot {
    unsigned of;              /* the store that it is of, or is */
    uint64_t seen;            /* of a session: the longest front that it saw or learnt */
    bool is_looking;
    uint64_t front;           /* of the look, once something was decided over it; else 0 */
    uint64_t decisions[CAMEL_DP_T_NO_ANSWER + 1][CAMEL_REASONS]; /* of a session: how many by each */
    uint64_t accepted;        /* of a store: how many updates */
    uint64_t held;            /* of a store: how many publications */
    uint64_t limit;           /* of a store */
    bool is_ending;           /* of a store: a look holds its end up */
    camel_update_parts parts; /* of an update: what came with it; else its kind is 0 */
    uint64_t listed;          /* of IMSIs: how many were given */
    bool is_through;          /* of IMSIs: whether all were */
} slots[SLOTS];
static camel_session handles[SLOTS], handles_before[SLOTS];
static uint64_t published[1 << 16]; /* by store: how many updates */
static uint64_t numbers[1 << 16];   /* by store: that of its receipts, or 0 */
static unsigned opened;

#define AS(kind, slot) ((camel_##kind *)&handles[slot])

static uint64_t *published_of(unsigned slot)
{
    return &published[slots[slot].of & 0xffff];
}

static uint64_t *number_of(unsigned slot)
{
    return &numbers[slots[slot].of & 0xffff];
}

/* The handle that is meant, or now and then another one. */
static unsigned pick(unsigned meant)
{
    return below(24) ? meant : below(SLOTS);
}

static unsigned pick_session(void)
{
    return pick(SESSION + below(4));
}

static unsigned pick_update(void)
{
    return pick(UPDATE + below(4));
}

/* A handle to fill, or now and then another one, but no empty one of a store or a session. */
static unsigned pick_to_fill(unsigned meant)
{
    unsigned slot = pick(meant);
    return slot < KEPT && !handles[slot].is_full ? meant : slot;
}

static bool holds_update(unsigned slot)
{
    return handles[slot].is_full && slots[slot].parts.kind != 0;
}

static bool is_among(unsigned slot, unsigned first, unsigned count)
{
    return first <= slot && slot < first + count;
}

/* What is passed. */

enum { EDGES = 12, ROOM = 1 << 16, OUTS = 2 };

static unsigned edges, outs; /* how many the call has */
static struct { void *at; size_t size; uint8_t before[sizeof(camel_argument)]; } written[OUTS];

/* A copy of what is passed, whose end no call may go beyond. */
static void *at_edge(const void *from, size_t size)
{
    static uint8_t *rooms[EDGES];
    uint8_t **room = &rooms[edges++];
    if (!*room) {
        *room = mmap(NULL, 2 * ROOM, PROT_READ | PROT_WRITE, MAP_PRIVATE | MAP_ANONYMOUS, -1, 0);
        if (*room == MAP_FAILED || mprotect(*room + ROOM, ROOM, PROT_NONE) != 0)
            abort();
    }
    return memcpy(*room + ROOM - size, from, size);
}

#define PASSED(data) at_edge(&(data), sizeof (data))

/* Random octets that a call may write to, which are as before unless it returns CAMEL_OK. */
static void *out(size_t size)
{
    fill(written[outs].before, size);
    written[outs].size = size;
    written[outs].at = at_edge(written[outs].before, size);
    return written[outs++].at;
}

static bool is_left(const void *at)
{
    for (unsigned of = 0; of < outs; of++)
        if (written[of].at == at)
            return memcmp(at, written[of].before, written[of].size) == 0;
    return false;
}

/* Statuses. */

enum {
    OK = 1, UNIDENTIFIED = 2, MISSING = 4, UNEXPECTED = 8, FULL = 16, NO_LOOK = 32, HELD = 64, MALFORMED = 128,
    WRONG_HANDLE = 256, FULL_HANDLE = 512, MALFORMED_OCTETS = 1024, MISSING_FIELD = 2048, FIELD_TWICE = 4096,
    WRONG_TAG = 8192, WRONG_LENGTH = 16384, NO_IMSI = 32768, OTHER_IMSI = 65536, OTHER_STORE = 131072,
    OTHER_VERSION = 262144, NO_INSERT = 524288, OTHER_SUBSCRIBER = 1048576, STATUSES = 21
};

/* In the order of their bits. Memory and places are never refused. */
static const camel_status STATUS[STATUSES] = {
    CAMEL_OK, CAMEL_UNIDENTIFIED_SUBSCRIBER, CAMEL_DATA_MISSING, CAMEL_UNEXPECTED_DATA_VALUE, CAMEL_HISTORY_FULL,
    CAMEL_NO_LOOK, CAMEL_HELD, CAMEL_MALFORMED, CAMEL_WRONG_HANDLE, CAMEL_FULL_HANDLE, CAMEL_MALFORMED_OCTETS,
    CAMEL_MISSING_FIELD, CAMEL_FIELD_TWICE, CAMEL_WRONG_TAG, CAMEL_WRONG_LENGTH, CAMEL_NO_IMSI, CAMEL_OTHER_IMSI,
    CAMEL_OTHER_STORE, CAMEL_OTHER_VERSION, CAMEL_NO_INSERT, CAMEL_OTHER_SUBSCRIBER
};

static unsigned long *counts; /* of the function that is called, by these */

/* Whether a call returned CAMEL_OK, which is one of its statuses. Any other has left what it may write, and all
 * handles. */
static bool is_ok(unsigned allowed, camel_status status)
{
    for (unsigned of = 0; of < outs && status != CAMEL_OK; of++)
        IS(is_left(written[of].at));
    IS(status == CAMEL_OK || memcmp(handles, handles_before, sizeof handles) == 0);
    for (int at = 0; at < STATUSES; at++)
        if (STATUS[at] == status && (allowed >> at & 1)) {
            counts[at]++;
            return at == 0;
        }
    printf("%s is none of its statuses\n", camel_status_name(status));
    failed++;
    return false;
}

#endif
