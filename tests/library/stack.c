/* stack.c CALL OPEN: with the longest data each call takes at most CALL octets of its thread's stack, and camel_open of
 * 64 sessions OPEN. Each is made in a thread whose stack is painted: it has taken what has lost the paint. */
#define _GNU_SOURCE
#include "check.h"

#include <pthread.h>

enum { ROOM = 1 << 20, PAINT = 0xc3, SESSIONS = CAMEL_MAX_SESSIONS, ITEMS = 10, DEPTH = 16 };

static camel_update whole, originating, terminating, joined, decoded;
static camel_subscriber kept;
static camel_imsis listed;
static camel_change registered, inserted, of_o, of_vt, cleared;
static camel_argument argument;
static uint8_t nested[DEPTH * 5 - 1];
static camel_receipt receipt;
static camel_event event;

/* What the calls write, and nothing looks at: what is of the greatest size has room for all. */
static camel_decisions written;
static void *const out = &written;
static uint64_t place;
static size_t rejected;
static bool is_there;

/* An entry with all criteria that one of its CSI may have. */
static camel_criteria longest_entry(bool is_of_o, uint8_t dp)
{
    camel_criteria entry = { .dp = dp, .basic.count = 5, .has_number = is_of_o, .has_call_type = is_of_o };

    entry.causes.count = dp == 2 || dp == 12 ? 0 : 5;
    if (!is_of_o)
        return entry;
    entry.number = (camel_number_criterion){ .number_count = ITEMS, .length_count = 3, .lengths = { 5, 6, 7 } };
    for (size_t at = 0; at < ITEMS; at++)
        entry.number.numbers[at].length = 9;
    return entry;
}

/* An Insert with ten items in each list, of which those at detection point 3 are ignored, and its halves. */
static void make_longest(void)
{
    static camel_row rows[2][ITEMS];
    static camel_criteria entries[2][ITEMS];
    static const uint8_t points[2][ITEMS] = { { 2, 4, 3, 3, 3, 3, 3, 3, 3, 3 }, { 12, 13, 14, 3, 3, 3, 3, 3, 3, 3 } };

    for (size_t csi = 0; csi < 2; csi++)
        for (size_t at = 0; at < ITEMS; at++) {
            rows[csi][at] = (camel_row){ .dp = points[csi][at], .key = 2147483647, .scf.length = 9 };
            entries[csi][at] = longest_entry(csi == 0, points[csi][at]);
        }
    registered = change_of(CAMEL_UPDATE_REGISTER, 1);
    inserted = insert_of(1, CSI(rows[0], ITEMS, entries[0], ITEMS), CSI(rows[1], ITEMS, entries[1], ITEMS));
    of_o = insert_of(1, inserted.insert.o, NO_CSI);
    of_vt = insert_of(1, NO_CSI, inserted.insert.vt);
    cleared = change_of(CAMEL_UPDATE_CLEAR_ALL, 1);
    event = event_of(1, 12);
}

/* An Insert of one unknown field, in as many elements of indefinite length within one another as may be. */
static void make_nested(void)
{
    nested[0] = 0x30;
    nested[1] = 0x80;
    for (size_t at = 1; at < DEPTH; at++)
        memcpy(&nested[3 * at - 1], "\xbf\x64\x80", 3);
}

/* The calls, in the order of the life of a store. */
#define CALLS(X)                                                                                                    \
    X(nothing, 0)                                                                                                   \
    X(camel_abi_version, camel_abi_version() != CAMEL_ABI_VERSION)                                                  \
    X(camel_layouts, camel_layouts(out, 32) == 0)                                                                   \
    X(camel_imsi_of_tbcd, camel_imsi_of_tbcd((const uint8_t *)"\x62\x02\x11\x11\x11\x11\x11\xf1", 8, out))          \
    X(camel_imsi_of_digits, camel_imsi_of_digits((const uint8_t *)"262010000000001", 15, out))                      \
    X(camel_address_of, camel_address_of(DESTINATION, sizeof DESTINATION, out))                                     \
    X(camel_isdn_address_of, camel_isdn_address_of(SCF, sizeof SCF, out))                                           \
    X(camel_open, camel_open(&store, sessions, SESSIONS, CAMEL_MAX_UPDATES, 1, 5))                                  \
    X(camel_submit_change_of_register, camel_submit_change(&store, &registered))                                    \
    X(camel_submit_change, camel_submit_change(&store, &inserted))                                                  \
    X(camel_publish_to, camel_publish_to(&store, sessions, SESSIONS))                                               \
    X(camel_update_of, camel_update_of(&inserted, &whole))                                                          \
    X(camel_update_of_o, camel_update_of(&of_o, &originating))                                                      \
    X(camel_update_of_vt, camel_update_of(&of_vt, &terminating))                                                    \
    X(camel_update_join, camel_update_join(&originating, &terminating, &joined))                                    \
    X(camel_update_parts_of, camel_update_parts_of(&joined, out))                                                   \
    X(camel_commit, camel_commit(&store, &joined, 1, sessions, SESSIONS, &rejected))                                \
    X(camel_submit_all, camel_submit_all(&store, &whole, 1, &rejected))                                             \
    X(camel_drop_pending, camel_drop_pending(&store))                                                               \
    X(camel_submit_change_of_clear_all, camel_submit_change(&store, &cleared))                                      \
    X(camel_drop_pending_of_clear_all, camel_drop_pending(&store))                                                  \
    X(camel_encode_record, camel_encode_record(&sessions[0], &event.imsi, &argument, &is_there))                    \
    X(camel_submit_map, camel_submit_map(&store, 7, &event.imsi, argument.octets, argument.count, &place))          \
    X(camel_submit_map_of_nested, camel_submit_map(&store, 7, &event.imsi, nested, sizeof nested, &place))          \
    X(camel_update_of_map, camel_update_of_map(7, &event.imsi, argument.octets, argument.count, &decoded, &place))  \
    X(camel_publish, camel_publish(&store))                                                                         \
    X(camel_holders, camel_holders(&store, out))                                                                    \
    X(camel_counts_of, camel_counts_of(&store, out))                                                                \
    X(camel_receipt_of, camel_receipt_of(&store, &receipt))                                                         \
    X(camel_learn, camel_learn(&sessions[0], &receipt))                                                             \
    X(camel_look, camel_look(&sessions[0]))                                                                         \
    X(camel_decide_in_a_look, camel_decide(&sessions[0], &event, out))                                              \
    X(camel_leave, camel_leave(&sessions[0]))                                                                       \
    X(camel_decide, camel_decide(&sessions[0], &event, out))                                                        \
    X(camel_decisions_of, camel_decisions_of(&sessions[0], out))                                                    \
    X(camel_row_at, camel_row_at(&sessions[0], &event.imsi, 2, out, &is_there))                                     \
    X(camel_criteria_at, camel_criteria_at(&sessions[0], &event.imsi, 4, out, &is_there))                           \
    X(camel_keep, camel_keep(&sessions[0], &event.imsi, &kept, &is_there))                                          \
    X(camel_decide_kept, camel_decide_kept(&sessions[0], &kept, &event, out))                                       \
    X(camel_kept_row_at, camel_kept_row_at(&kept, 2, out, &is_there))                                               \
    X(camel_empty, (camel_free(&kept), 0))                                                                          \
    X(camel_set_up, camel_set_up(&sessions[0], &event, out, &kept, &is_there))                                      \
    X(camel_imsis_of, camel_imsis_of(&sessions[0], &listed))                                                        \
    X(camel_next_imsi, camel_next_imsi(&listed, out, &is_there))                                                    \
    X(camel_close, camel_close(&store))

#define DEFINE(name, call) static camel_status of_##name(void) { return (camel_status)(call); }
#define LIST(name, call) { #name, of_##name },
CALLS(DEFINE)
static const struct step { const char *name; camel_status (*make)(void); } steps[] = { CALLS(LIST) };

static camel_status returned;

static void *make_step(void *step)
{
    returned = ((const struct step *)step)->make();
    return NULL;
}

/* How many octets of a stack a thread takes that makes this call. The first one takes those of any thread. */
static size_t taken_by(const struct step *step, unsigned char *stack)
{
    pthread_attr_t attributes;
    pthread_t thread;
    size_t untouched = 0;

    memset(stack, PAINT, ROOM);
    if (pthread_attr_init(&attributes) || pthread_attr_setstack(&attributes, stack, ROOM) ||
        pthread_create(&thread, &attributes, make_step, (void *)step) || pthread_join(thread, NULL))
        exit(2);
    pthread_attr_destroy(&attributes);
    while (stack[untouched] == PAINT)
        untouched++;
    return ROOM - untouched;
}

int main(int count, char **words)
{
    unsigned char *stack = aligned_alloc(4096, ROOM);
    size_t of_thread = taken_by(&steps[0], stack), most = 0;
    const char *name = "";

    if (count != 3)
        return 2;
    make_longest();
    make_nested();
    for (size_t at = 1; at < COUNT_OF(steps); at++) {
        bool is_open = strcmp(steps[at].name, "camel_open") == 0;
        size_t taken = taken_by(&steps[at], stack) - of_thread, limit = strtoul(words[is_open ? 2 : 1], NULL, 10);
        RETURNS(CAMEL_OK, returned);
        if (taken > limit || is_open)
            printf("%s: %zu octets of a stack\n", steps[at].name, taken);
        failed += taken > limit;
        if (!is_open && taken > most) {
            most = taken;
            name = steps[at].name;
        }
    }
    printf("%s: %zu octets of a stack, the most of the other calls\n", name, most);
    IS(argument.count == 582); /* of the longest record */
    camel_update *updates[] = { &whole, &originating, &terminating, &joined, &decoded };
    for (size_t at = 0; at < COUNT_OF(updates); at++)
        camel_free(updates[at]);
    for (size_t at = 0; at < SESSIONS; at++)
        camel_free(&sessions[at]);
    camel_free(&kept);
    camel_free(&listed);
    free(stack);
    return ended("stack");
}
