/* What the tests of the library share: a check of a status, and of a condition, a store with its sessions, and what is
 * sent to it. */
#ifndef CHECK_H
#define CHECK_H

#include "camel.h"

#include <stdio.h>
#include <stdlib.h>
#include <string.h>

static _Atomic int failed;

/* Counts a call that does not return this status. */
#define RETURNS(wanted, call)                                                                                       \
    do {                                                                                                            \
        camel_status status_ = (call);                                                                              \
        if (status_ != (wanted)) {                                                                                  \
            printf("%s:%d: %s, and not %s: %s\n", __FILE__, __LINE__, camel_status_name(status_),                   \
                   camel_status_name(wanted), #call);                                                               \
            failed++;                                                                                               \
        }                                                                                                           \
    } while (0)

#define IS(condition)                                                                                               \
    do {                                                                                                            \
        if (!(condition)) {                                                                                         \
            printf("%s:%d: %s\n", __FILE__, __LINE__, #condition);                                                  \
            failed++;                                                                                               \
        }                                                                                                           \
    } while (0)

#define COUNT_OF(list) (sizeof (list) / sizeof *(list))

/* Data. */

#define SCF_OCTETS { 0x91, 0x94, 0x71, 0x16, 0x00, 0x00 }
static const uint8_t SCF[] = SCF_OCTETS;
static const uint8_t DESTINATION[] = { 0x91, 0x34, 0x61, 0x05 };

static inline camel_imsi imsi_of(unsigned number)
{
    char digits[16];
    camel_imsi imsi = { 0 };
    snprintf(digits, sizeof digits, "26201%010u", number);
    RETURNS(CAMEL_OK, camel_imsi_of_digits((const uint8_t *)digits, 15, &imsi));
    return imsi;
}

static inline camel_isdn_address isdn_of(const uint8_t *octets, size_t count)
{
    camel_isdn_address address = { 0 };
    RETURNS(CAMEL_OK, camel_isdn_address_of(octets, count, &address));
    return address;
}

static inline bool is_same_isdn(const camel_isdn_address *one, const camel_isdn_address *other)
{
    return one->length == other->length && memcmp(one->octets, other->octets, one->length) == 0;
}

static inline camel_row row_of(uint8_t dp, uint32_t key)
{
    camel_row row = { .dp = dp, .key = key, .scf = isdn_of(SCF, sizeof SCF), .handling = 1 };
    return row;
}

/* Whether two rows are the same, one of them as it comes back. */
static inline bool is_same_row(const camel_row *one, const camel_row *other)
{
    return one->key == other->key && one->handling == other->handling && one->dp == other->dp
        && is_same_isdn(&one->scf, &other->scf);
}

static inline camel_event event_of(unsigned number, uint8_t dp)
{
    camel_event event = { .imsi = imsi_of(number), .basic = { .is_bearer = false, .code = 0x11 }, .dp = dp };
    RETURNS(CAMEL_OK, camel_address_of(DESTINATION, sizeof DESTINATION, &event.destination));
    event.cause = 17;
    return event;
}

/* Changes. */

/* What is sent of a CSI: rows and criteria, each with its count. A list that is NULL is not sent. */
#define CSI(...) ((camel_sent_csi){ __VA_ARGS__ })
#define ROWS(rows, count) CSI(rows, count, NULL, 0)
#define NO_CSI ROWS(NULL, 0)

/* A change that is no Insert. A Delete is of the O-CSI. */
static inline camel_change change_of(uint8_t kind, unsigned number)
{
    return (camel_change){ .kind = kind, .imsi = imsi_of(number), .withdrawal = { .o = true } };
}

static inline camel_change insert_of(unsigned number, camel_sent_csi o, camel_sent_csi vt)
{
    return (camel_change){ .kind = CAMEL_UPDATE_INSERT, .imsi = imsi_of(number), .insert = { o, vt } };
}

static inline camel_update update_of(camel_change change)
{
    camel_update update = CAMEL_EMPTY;
    RETURNS(CAMEL_OK, camel_update_of(&change, &update));
    return update;
}

/* The store. */

static camel_store store;
static camel_session sessions[CAMEL_MAX_SESSIONS];

static inline void open_store(size_t session_count, uint64_t limit)
{
    RETURNS(CAMEL_OK, camel_open(&store, sessions, session_count, limit, CAMEL_PROFILE_1, 1));
}

static inline void close_store(void)
{
    for (size_t at = 0; at < CAMEL_MAX_SESSIONS; at++)
        camel_free(&sessions[at]);
    RETURNS(CAMEL_OK, camel_close(&store));
}

static inline camel_status submit_to(camel_store *to, uint8_t kind, unsigned number)
{
    camel_change change = change_of(kind, number);
    return camel_submit_change(to, &change);
}

static inline camel_status submit(uint8_t kind, unsigned number)
{
    return submit_to(&store, kind, number);
}

static inline void register_subscriber(unsigned number)
{
    RETURNS(CAMEL_OK, submit(CAMEL_UPDATE_REGISTER, number));
}

static inline camel_status insert(unsigned number, camel_sent_csi o, camel_sent_csi vt)
{
    camel_change change = insert_of(number, o, vt);
    return camel_submit_change(&store, &change);
}

/* Publishes all that is pending, and has so many sessions see it. */
static inline void publish_to(size_t session_count)
{
    RETURNS(CAMEL_OK, camel_publish_to(&store, sessions, session_count));
}

static inline camel_counts counts_of(const camel_store *of)
{
    camel_counts counts = { 0 };
    RETURNS(CAMEL_OK, camel_counts_of(of, &counts));
    return counts;
}

/* Whether the store counts so many subscribers, and updates published and pending, and publications that were held. */
static inline bool counts_are(uint64_t subscribers, uint64_t published, uint64_t pending, uint64_t held)
{
    camel_counts counts = counts_of(&store);
    return counts.subscribers == subscribers && counts.published == published && counts.pending == pending
        && counts.held == held;
}

static inline camel_receipt receipt_of(const camel_store *of)
{
    camel_receipt receipt = { 0 };
    RETURNS(CAMEL_OK, camel_receipt_of(of, &receipt));
    return receipt;
}

/* What a session decides of a call of a subscriber, over the look that has begun or by a look of its own. */
static inline camel_answer decided(camel_session *session, unsigned number, uint8_t dp)
{
    camel_event event = event_of(number, dp);
    camel_answer answer = { .front = UINT64_MAX, .reason = 99 };
    RETURNS(CAMEL_OK, camel_decide(session, &event, &answer));
    return answer;
}

static inline uint64_t front_of(camel_session *session)
{
    return decided(session, 1, 2).front;
}

/* What came with an update. */

/* How many items came in each list, side by side: the rows and the criteria of each CSI. */
enum { LISTS = 4 };
static inline uint8_t *counts_in(camel_update_parts *parts)
{
    return (uint8_t *)parts + offsetof(camel_update_parts, o_rows);
}

/* Whether what came with two updates is the same: all octets but those between has_vt_capability and the numbers, and
 * those behind the withdrawal. */
static inline bool is_same_parts(const camel_update_parts *one, const camel_update_parts *other)
{
    size_t front = offsetof(camel_update_parts, has_vt_capability) + 1;
    size_t back = offsetof(camel_update_parts, withdrawal) + sizeof one->withdrawal;
    size_t numbers = offsetof(camel_update_parts, o_capability);
    return memcmp(one, other, front) == 0
        && memcmp((const char *)one + numbers, (const char *)other + numbers, back - numbers) == 0;
}

/* Ends a test: the status of the program. */
static inline int ended(const char *name)
{
    printf("%s: %s\n", name, failed ? "failed" : "ok");
    return failed != 0;
}

#endif
