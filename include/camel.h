/* camel.h: when a VMSC/VLR hands a telephone call to an intelligent network service (3GPP TS 23.078, CAMEL phase 3).
 *
 * A store has the O-CSI and VT-CSI of each subscriber, with their criteria, as the HLR sends them. One writer submits
 * updates and publishes them; each call-control thread has a session, and asks at trigger detection points 2, 4, 12, 13
 * and 14. C11 and C++17, and later. The library is libwenqolo.a, or libwenqolo.so.0 as a shared one, for Linux on
 * x86-64-v2, and needs the C library only.
 *
 * Words. A call is one of a function below; that of a subscriber is a telephone call. An accepted update is pending
 * until a publication publishes all pending ones at once. A front is the first so many accepted updates, over whose
 * data an event is decided; a session never goes back to an earlier one. A look is the time in which a session reads
 * one front: during one call, or from camel_look to camel_leave. A receipt says up to which update a store has
 * published. A row is what is invoked at a detection point, an entry the criteria there, a record all that a store has
 * of a subscriber.
 *
 * Handles. A handle is some words of the caller's memory, empty if its fields are 0 (CAMEL_EMPTY). The library fills
 * it, and camel_free or camel_close empties it. Never write its fields, and never copy a full one: camel_move moves it,
 * and so may realloc with an array of them, since nothing points to a handle. Each full one is freed by itself, a
 * session's also after the end of its store. All else is plain data, which may be copied.
 *
 * Statuses. A call that fails has done nothing, but what is said of it. It tells the first fault, in this order:
 *   1. the version, of camel_open only (CAMEL_OTHER_VERSION);
 *   2. data, field by field and item by item in their order; of one item counts, numbers and addresses come before
 *      values, and of the VT-CSI a number or a call type before all (CAMEL_MALFORMED, and what else it says of them);
 *   3. the handle that it is made of (CAMEL_WRONG_HANDLE);
 *   4. the handle that it is to fill (CAMEL_FULL_HANDLE);
 *   5. whether a look has begun (CAMEL_HELD);
 *   6. all else.
 * Of several sessions it tells what is wrong with the first that has a fault.
 * CAMEL_OUT_OF_MEMORY may come amid 2, and before 3 and 4, of a call that reads the lists of an Insert or the octets of
 * a MAP argument, and before the store's handle of camel_submit and camel_submit_all, which copy updates.
 *
 * Threads. The store's handle is the writer's, and each session's handle that of one thread. A handle moves to another
 * thread by a lock, by a thread's start or join, or by an atomic that one stores with release and the other loads with
 * acquire, a session's also while it looks. It is in one call at a time, but a handle that a call takes as const may be
 * in several such calls; different handles may be in calls at the same time. No call takes a lock of its own, waits or
 * yields, but malloc may take one, and camel_random_seed may wait early in boot.
 *
 * Memory. The library calls malloc, realloc and free. A call that is refused memory returns CAMEL_OUT_OF_MEMORY, and
 * may be made again. It has changed nothing, but camel_commit says what it leaves. A session that looks in such a call
 * may have seen a later front. Only camel_open, camel_update_of, camel_update_of_map and camel_update_join,
 * camel_submit and camel_submit_*, camel_publish, camel_publish_to, camel_commit, camel_drop_pending, camel_keep,
 * camel_set_up, camel_imsis_of and camel_encode_record ask for any. camel_publish and camel_publish_to ask for none if
 * they return CAMEL_HELD; camel_commit does, and if it is refused returns CAMEL_OUT_OF_MEMORY and not CAMEL_HELD.
 * Nothing else is asked of the system, but getrandom by camel_random_seed: the library has no descriptor, timer,
 * thread, callback, signal handler or exit handler, and prints nothing. errno is as these functions leave it.
 *
 * Octets and lists. What is passed is read during the call, and nothing of it is kept: octets, lists and structures may
 * be freed once it returns. A pointer that is passed with a count may be NULL with a count of 0. With another count
 * nothing is read of NULL, which is
 *   - of octets and digits: none;
 *   - of a list of an Insert: one without items (CAMEL_DATA_MISSING);
 *   - of updates and sessions: CAMEL_WRONG_HANDLE, but CAMEL_MALFORMED of camel_open.
 *
 * What nothing checks. A handle is empty or as the library left it; a pointer without a count is not null, and one with
 * a count points to as many; what is passed does not overlap; stores whose receipts are told apart have different
 * seeds; no call is made from a signal handler, or from the forked child of a process with threads; malloc, realloc and
 * free are of one allocator. */
#ifndef CAMEL_H
#define CAMEL_H

#include <stdbool.h>
#include <stddef.h>
#include <stdint.h>
#include <sys/random.h>

#ifdef __cplusplus
extern "C" {
#endif

/* The version of this header, and that of the layouts and of the functions below. camel_open compares the latter with
 * that of the library, which camel_abi_version returns. */
#define CAMEL_VERSION "0.7.0"
#define CAMEL_VERSION_NUMBER 0x000700 /* an octet for each of its numbers */
#define CAMEL_ABI_VERSION 4

/* The most sessions that a store has, the most updates that it takes in its life, and the room of a MAP argument, of
 * which the longest record takes 582 octets. */
#define CAMEL_MAX_SESSIONS 64
#define CAMEL_MAX_UPDATES UINT64_C(0x7fffffffffffffff)
#define CAMEL_MAX_ARGUMENT 1198

/* What is written as the place of a fault where no octet of the MAP argument is at fault. */
#define CAMEL_NO_OCTET UINT64_MAX

/* What a call returns is to be looked at. Pass no NULL to a call marked CAMEL_CALL: a compiler takes its pointers as
 * not null, also after the call. Of one marked CAMEL_RESULT a pointer with a count may be NULL, and no other. */
#if defined(__GNUC__)
#define CAMEL_RESULT __attribute__((warn_unused_result))
#define CAMEL_CALL __attribute__((warn_unused_result, nonnull))
#else
#define CAMEL_RESULT
#define CAMEL_CALL
#endif

/* What this header has in itself. Of C++ each shared object has its own: a name that several have in common would keep
 * one loaded, and be that of another version of this header. */
#ifndef __cplusplus
#define CAMEL_INLINE static inline
#elif defined(__GNUC__)
#define CAMEL_INLINE __attribute__((visibility("hidden"))) inline
#else
#define CAMEL_INLINE inline
#endif

/* What a call returns: CAMEL_OK, or why it did nothing. */
typedef uint32_t camel_status;
enum {
    CAMEL_OK = 0,
    CAMEL_UNIDENTIFIED_SUBSCRIBER = 5, /* TS 29.002: the IMSI has no record */
    CAMEL_DATA_MISSING = 35,           /* TS 29.002 */
    CAMEL_UNEXPECTED_DATA_VALUE = 36,  /* TS 29.002 */
    CAMEL_HISTORY_FULL = 101,          /* the store has accepted as many updates as its limit */
    CAMEL_OUT_OF_MEMORY = 102,
    CAMEL_NO_PLACE = 103,              /* not expected, but no proof excludes it: no store was made; open again */
    CAMEL_NO_LOOK = 104,               /* of a session's call: its store has ended */
    CAMEL_MALFORMED_OCTETS = 401,      /* from here to 407 of a MAP argument: octets are no elements (ITU-T X.690) */
    CAMEL_MISSING_FIELD = 402,         /* a field that must be there is missing */
    CAMEL_FIELD_TWICE = 403,           /* a field comes twice */
    CAMEL_WRONG_TAG = 404,             /* an element is none of the type that must be there */
    CAMEL_WRONG_LENGTH = 405,          /* contents have a wrong length for their type, or octets follow the argument */
    CAMEL_NO_IMSI = 406,               /* neither the MAP argument nor the dialogue has an IMSI */
    CAMEL_OTHER_IMSI = 407,            /* the MAP argument has another IMSI than the dialogue */
    CAMEL_NO_INSERT = 408,             /* an update that is to be joined is no Insert */
    CAMEL_OTHER_SUBSCRIBER = 409,      /* the updates that are to be joined are of different subscribers */
    CAMEL_HELD = 501,                  /* the session's own look: leave it first; or another look: try again later */
    CAMEL_MALFORMED = 502,             /* no valid IMSI, address, event or operation, too long a list, out of range */
    CAMEL_WRONG_HANDLE = 503,          /* the handle is empty or of another kind, or the writer's store has ended */
    CAMEL_FULL_HANDLE = 504,           /* the handle that is to be filled is not empty */
    CAMEL_OTHER_STORE = 505,           /* receipt or session of another store, or receipt of more than is published */
    CAMEL_OTHER_VERSION = 506          /* the library has another CAMEL_ABI_VERSION than this header */
};

/* Handles. They have one layout, and each has a type of its own so that a compiler tells them apart. */
typedef struct camel_store { void *at; bool is_full; } camel_store;
typedef struct camel_session { void *at; bool is_full; } camel_session;
typedef struct camel_subscriber { void *at; bool is_full; } camel_subscriber;
typedef struct camel_update { void *at; bool is_full; } camel_update;
typedef struct camel_imsis { void *at; bool is_full; } camel_imsis;
#define CAMEL_EMPTY { NULL, false }

/* Which updates a store has published: its number, and how many they are. The number is the store's secret seed: never
 * send or log a receipt. */
typedef struct camel_receipt { uint64_t store; uint64_t front; } camel_receipt;

/* An IMSI as one number: how many digits it has, 5 to 15, in the highest octet, and below it their decimal value, as in
 * 15ULL << 56 | 262010000000001. Two are equal if their numbers are. The number 0 is none. */
typedef struct camel_imsi { uint64_t number; } camel_imsi;

/* An AddressString of TS 29.002, as the destination of a telephone call: the first `length` octets, 1 to 20. Octet 1
 * has nature and numbering plan, and those behind it two digits each, the first in the low bits. */
typedef struct camel_address { uint8_t length; uint8_t octets[20]; } camel_address;

/* An ISDN-AddressString, as a gsmSCF address or a number of a criterion: the first `length` octets, 1 to 9. What is
 * behind these of an address is not looked at, and may be any octets when the library writes one. So compare the first
 * `length` octets only: memcmp of two structures is wrong. */
typedef struct camel_isdn_address { uint8_t length; uint8_t octets[9]; } camel_isdn_address;

/* In all data a bool is false if it is 0, and true if it is any other octet. */

/* A basic service: the first octet of its code, which is that of a bearer service, or else of a teleservice. Telephony
 * is the teleservice 0x11. */
typedef struct camel_basic_service { bool is_bearer; uint8_t code; } camel_basic_service;

/* A row of a CSI. Service keys are at most 2147483647. The default call handling is given as it was received: 0 and 2
 * to 31 are continue, 1 and all others release (TS 29.002). */
typedef struct camel_row {
    uint8_t dp;
    uint32_t key;
    camel_isdn_address scf;
    uint32_t handling;
} camel_row;

/* The criteria of an entry. A list of none is absent. */
typedef struct camel_basic_services { uint8_t count; camel_basic_service services[5]; } camel_basic_services;
typedef struct camel_causes { uint8_t count; uint8_t causes[5]; } camel_causes;

/* The destination number criterion: up to 10 numbers, up to 3 lengths of 1 to 15 digits, and one of either at least. */
typedef struct camel_number_criterion {
    bool is_enabling; /* else the criterion is met by a destination that is not listed */
    uint8_t number_count;
    uint8_t length_count;
    uint8_t lengths[3];
    camel_isdn_address numbers[10];
} camel_number_criterion;

/* The criteria of a detection point. Those of the VT-CSI have neither a number nor a call type:
 * CAMEL_UNEXPECTED_DATA_VALUE if an Insert sends one. */
typedef struct camel_criteria {
    uint8_t dp;
    bool has_number;
    camel_number_criterion number;
    camel_basic_services basic;
    bool has_call_type;
    bool is_forwarded; /* the call type criterion asks for forwarded calls; else for those that are not */
    camel_causes causes;
} camel_criteria;

/* What an Insert sends of each CSI. A list is sent if its pointer is not NULL, and has 1 to 10 items then.
 * CAMEL_DATA_MISSING: its count is 0, or its pointer is NULL and its count is not. CAMEL_UNEXPECTED_DATA_VALUE: its
 * count is over 10, whatever the items are, or two are of one detection point of the CSI. */
typedef struct camel_sent_csi {
    const camel_row *rows;
    size_t row_count;
    const camel_criteria *criteria;
    size_t criteria_count;
} camel_sent_csi;
typedef struct camel_insert { camel_sent_csi o; camel_sent_csi vt; } camel_insert;

/* The local codes of the operations of MAP by which an HLR changes subscriber data (TS 29.002). */
enum { CAMEL_CANCEL_LOCATION = 3, CAMEL_INSERT_SUBSCRIBER_DATA = 7, CAMEL_DELETE_SUBSCRIBER_DATA = 8 };

/* What a Delete removes, each with its criteria. */
typedef struct camel_withdrawal { bool o; bool vt; bool everything; } camel_withdrawal;

/* What an update is: a Register makes an empty record, also of one that is there, an Insert and a Delete change one, a
 * Cancel removes one, and a ClearAll all. */
enum {
    CAMEL_UPDATE_REGISTER = 1,
    CAMEL_UPDATE_INSERT = 2,
    CAMEL_UPDATE_DELETE = 3,
    CAMEL_UPDATE_CANCEL = 4,
    CAMEL_UPDATE_CLEAR_ALL = 5
};

/* A change of subscriber data, as `{ .kind = CAMEL_UPDATE_REGISTER, .imsi = imsi }`, which sets all else to 0. What is
 * not of its kind has no effect, but each call reads the pointers and counts of the lists: never leave them unset. */
typedef struct camel_change {
    uint8_t kind;                /* CAMEL_UPDATE_REGISTER to CAMEL_UPDATE_CLEAR_ALL */
    camel_imsi imsi;             /* of all but a ClearAll */
    camel_withdrawal withdrawal; /* of a Delete */
    camel_insert insert;         /* of an Insert */
} camel_change;

/* An event of a telephone call. The destination and is_forwarded are read at detection points 2 and 4, the cause (0 to
 * 127) at 4, 13 and 14. */
typedef struct camel_event {
    camel_imsi imsi;
    camel_address destination;
    camel_basic_service basic;
    uint8_t dp;
    bool is_forwarded;
    uint8_t cause;
} camel_event;

/* The detection points at which a session is asked (TS 23.078). */
enum {
    CAMEL_DP_COLLECTED_INFO = 2,
    CAMEL_DP_ROUTE_SELECT_FAILURE = 4,
    CAMEL_DP_TERM_ATTEMPT_AUTHORIZED = 12,
    CAMEL_DP_T_BUSY = 13,
    CAMEL_DP_T_NO_ANSWER = 14
};

/* Take profile 1, unless your text of TS 23.078 compares the numbering plans of listed numbers and destinations:
 * profile 2 does. */
enum { CAMEL_PROFILE_1 = 1, CAMEL_PROFILE_2 = 2 };

/* Why no service is invoked. */
enum {
    CAMEL_REASON_NONE = 0,      /* one is */
    CAMEL_REASON_UNKNOWN = 1,   /* there is no record of the IMSI */
    CAMEL_REASON_NO_CSI = 2,    /* the CSI is not stored */
    CAMEL_REASON_NOT_ARMED = 3, /* the CSI has no row of the detection point */
    CAMEL_REASON_EMERGENCY = 4, /* it is an emergency call */
    CAMEL_REASON_CRITERIA = 5,  /* the criteria are not met */
    CAMEL_REASONS = 6
};

/* An answer. If a service is invoked, key, scf, dp and is_release are those of the row, and reason is 0; else those
 * four are 0, with no octets of an address. */
typedef struct camel_answer {
    uint64_t front; /* how many updates the data have by which it was decided */
    uint32_t key;
    camel_isdn_address scf;
    uint8_t dp;
    bool is_release; /* default call handling: release, if the dialogue fails while instructions are awaited */
    bool is_trigger;
    uint8_t reason;
} camel_answer;

/* Counts of a store. */
typedef struct camel_counts {
    uint64_t subscribers; /* who have a record in what is published */
    uint64_t published;   /* updates */
    uint64_t pending;     /* updates */
    uint64_t held;        /* publications that a look held up, modulo 2^64; one of a session to tell does not count */
} camel_counts;

/* How many events a session has decided, by camel_decide, camel_set_up and camel_decide_kept, at each detection point
 * with each reason, modulo 2^64: by[CAMEL_DP_T_BUSY][CAMEL_REASON_NONE] is how often a service was invoked at busy. */
typedef struct camel_decisions { uint64_t by[CAMEL_DP_T_NO_ANSWER + 1][CAMEL_REASONS]; } camel_decisions;

/* What came with an update. Of an Insert: how many items came in each list, ignored ones among them, 1 to 10, or 0 if
 * the list did not come; and the camelCapabilityHandling of each CSI, by which a switch chooses the version of CAP: the
 * phase of CAMEL, 1 to 16 by TS 29.002. The withdrawal is what a Delete names. What the update does not have is 0. */
typedef struct camel_update_parts {
    camel_imsi imsi; /* its number is 0 of a ClearAll */
    uint8_t kind;    /* CAMEL_UPDATE_REGISTER to CAMEL_UPDATE_CLEAR_ALL */
    uint8_t o_rows;
    uint8_t o_criteria;
    uint8_t vt_rows;
    uint8_t t_criteria;
    bool has_o_capability; /* whether camelCapabilityHandling came */
    bool has_vt_capability;
    uint32_t o_capability;
    uint32_t vt_capability;
    camel_withdrawal withdrawal;
} camel_update_parts;

/* An argument of MAP: the first `count` octets, and 0 behind them. */
typedef struct camel_argument { uint16_t count; uint8_t octets[CAMEL_MAX_ARGUMENT]; } camel_argument;

uint32_t camel_abi_version(void);

/* The sizes with which the library was built, of camel_receipt, camel_imsi, camel_address, camel_isdn_address,
 * camel_basic_service, camel_row, camel_basic_services, camel_causes, camel_number_criterion, camel_criteria,
 * camel_csi_lists, camel_lists, camel_withdrawal, camel_event, camel_answer, camel_counts, camel_decisions,
 * camel_update_parts, camel_argument and a handle: writes as many as there is room for, and returns how many there
 * are. */
uint32_t camel_layouts(uint32_t *sizes, size_t size_count);

/* What the inline calls below make of NULL, and what they call then: whether each list of an Insert is sent, and
 * pointers that are not null. Nothing else calls these. */
typedef struct camel_csi_lists {
    const camel_row *rows;
    size_t row_count;
    const camel_criteria *criteria;
    size_t criteria_count;
    bool has_rows;
    bool has_criteria;
} camel_csi_lists;
typedef struct camel_lists { camel_csi_lists o; camel_csi_lists vt; } camel_lists;

CAMEL_CALL
camel_status camel_imsi_of_tbcd_nonnull(const uint8_t *octets, size_t octet_count, camel_imsi *imsi);
CAMEL_CALL
camel_status camel_imsi_of_digits_nonnull(const uint8_t *digits, size_t digit_count, camel_imsi *imsi);
CAMEL_CALL
camel_status camel_address_of_nonnull(const uint8_t *octets, size_t octet_count, camel_address *address);
CAMEL_CALL
camel_status camel_isdn_address_of_nonnull(const uint8_t *octets, size_t octet_count, camel_isdn_address *address);
CAMEL_CALL
camel_status camel_open_version(uint32_t abi_version, camel_store *store, camel_session *sessions, size_t session_count,
                                uint64_t limit, uint8_t profile, uint64_t seed);
CAMEL_CALL
camel_status camel_submit_change_nonnull(camel_store *store, uint8_t kind, const camel_imsi *imsi,
                                         const camel_withdrawal *withdrawal, const camel_lists *lists);
CAMEL_CALL
camel_status camel_submit_map_nonnull(camel_store *store, uint8_t operation, const camel_imsi *imsi,
                                      const uint8_t *argument, size_t argument_octet_count, uint64_t *place);
CAMEL_CALL
camel_status camel_update_of_nonnull(uint8_t kind, const camel_imsi *imsi, const camel_withdrawal *withdrawal,
                                     const camel_lists *lists, camel_update *update);
CAMEL_CALL
camel_status camel_update_of_map_nonnull(uint8_t operation, const camel_imsi *imsi, const uint8_t *argument,
                                         size_t argument_octet_count, camel_update *update, uint64_t *place);
CAMEL_CALL
camel_status camel_submit_all_nonnull(camel_store *store, const camel_update *updates, size_t update_count,
                                      size_t *rejected);
CAMEL_CALL
camel_status camel_publish_to_nonnull(camel_store *store, camel_session *sessions, size_t session_count);
CAMEL_CALL
camel_status camel_commit_nonnull(camel_store *store, const camel_update *updates, size_t update_count,
                                  camel_session *sessions, size_t session_count, size_t *rejected);

CAMEL_INLINE camel_csi_lists camel_csi_lists_of(const camel_sent_csi *sent)
{
    static camel_row row;
    static camel_criteria criteria;
    camel_csi_lists lists = { &row, 0, &criteria, 0, sent->rows || sent->row_count > 0,
                              sent->criteria || sent->criteria_count > 0 };
    if (sent->rows) {
        lists.rows = sent->rows;
        lists.row_count = sent->row_count;
    }
    if (sent->criteria) {
        lists.criteria = sent->criteria;
        lists.criteria_count = sent->criteria_count;
    }
    return lists;
}

CAMEL_INLINE camel_lists camel_lists_of(const camel_insert *sent)
{
    camel_lists lists = { camel_csi_lists_of(&sent->o), camel_csi_lists_of(&sent->vt) };
    return lists;
}

/* Returns `octets`; for NULL, a pointer to nothing, with the count set to 0. */
CAMEL_INLINE const uint8_t *camel_octets_at(const uint8_t *octets, size_t *octet_count)
{
    static const uint8_t none = 0;
    if (octets)
        return octets;
    *octet_count = 0;
    return &none;
}

/* Returns `updates`; for NULL, one empty handle, which the call refuses unless the count is 0. */
CAMEL_INLINE const camel_update *camel_updates_at(const camel_update *updates, size_t *update_count)
{
    static const camel_update none = CAMEL_EMPTY;
    if (updates)
        return updates;
    *update_count = *update_count > 0;
    return &none;
}

/* Data, which are made once for each telephone call. CAMEL_MALFORMED: the octets or digits are not valid ones, and
 * nothing is written. */
CAMEL_RESULT
CAMEL_INLINE camel_status camel_imsi_of_tbcd(const uint8_t *octets, size_t octet_count, camel_imsi *imsi)
{
    const uint8_t *at = camel_octets_at(octets, &octet_count);
    return camel_imsi_of_tbcd_nonnull(at, octet_count, imsi);
}

CAMEL_RESULT /* characters 0 to 9 */
CAMEL_INLINE camel_status camel_imsi_of_digits(const uint8_t *digits, size_t digit_count, camel_imsi *imsi)
{
    const uint8_t *at = camel_octets_at(digits, &digit_count);
    return camel_imsi_of_digits_nonnull(at, digit_count, imsi);
}

CAMEL_RESULT
CAMEL_INLINE camel_status camel_address_of(const uint8_t *octets, size_t octet_count, camel_address *address)
{
    const uint8_t *at = camel_octets_at(octets, &octet_count);
    return camel_address_of_nonnull(at, octet_count, address);
}

CAMEL_RESULT
CAMEL_INLINE camel_status camel_isdn_address_of(const uint8_t *octets, size_t octet_count, camel_isdn_address *address)
{
    const uint8_t *at = camel_octets_at(octets, &octet_count);
    return camel_isdn_address_of_nonnull(at, octet_count, address);
}

/* The digits of an IMSI: as characters 0 to 9 with 0 octets behind them, and as the first `count` of TBCD octets.
 * CAMEL_MALFORMED: not a valid IMSI, and nothing is written. */
typedef struct camel_imsi_digits { uint8_t count; char characters[16]; } camel_imsi_digits;
typedef struct camel_imsi_tbcd { uint8_t count; uint8_t octets[8]; } camel_imsi_tbcd; /* 0xff behind these */

CAMEL_CALL
CAMEL_INLINE camel_status camel_digits_of_imsi(const camel_imsi *imsi, camel_imsi_digits *digits)
{
    camel_imsi_digits made = { 0, { 0 } };
    uint64_t value = imsi->number & 0xffffffffffffff;
    if (imsi->number >> 56 < 5 || imsi->number >> 56 > 15)
        return CAMEL_MALFORMED;
    made.count = imsi->number >> 56 & 15;
    for (unsigned at = made.count; at > 0; at--) {
        made.characters[at - 1] = "0123456789"[value % 10];
        value /= 10;
    }
    if (value > 0)
        return CAMEL_MALFORMED;
    *digits = made;
    return CAMEL_OK;
}

CAMEL_CALL
CAMEL_INLINE camel_status camel_tbcd_of_imsi(const camel_imsi *imsi, camel_imsi_tbcd *tbcd)
{
    camel_imsi_digits digits;
    uint64_t nibbles = UINT64_MAX; /* the first digit lowest, and fillers */
    if (camel_digits_of_imsi(imsi, &digits) != CAMEL_OK)
        return CAMEL_MALFORMED;
    for (uint64_t value = imsi->number & 0xffffffffffffff, left = digits.count; left > 0; left--) {
        nibbles = nibbles << 4 | value % 10;
        value /= 10;
    }
    tbcd->count = (digits.count + 1U) / 2 & 15;
    for (unsigned at = 0; at < 8; at++)
        tbcd->octets[at] = nibbles >> 8 * at & 255;
    return CAMEL_OK;
}

/* Writes a seed for camel_open, of the system's random source, for which it may wait early in boot. Returns false if
 * there is none, or a signal ends the wait, and writes nothing. */
CAMEL_CALL
CAMEL_INLINE bool camel_random_seed(uint64_t *seed)
{
    uint64_t random;

    if (getrandom(&random, sizeof random, 0) != (ssize_t)sizeof random)
        return false;
    *seed = random;
    return true;
}

/* Opens a store that takes at most `limit` updates in its life (1 to 2^63 - 1; a great limit takes no memory), with 1
 * to 64 sessions, which decide under profile 1 or 2: one for each thread that is to decide, since none is added later,
 * also not for one that is freed. The seed is secret and random. All handles are filled, or none is:
 * CAMEL_OTHER_VERSION, CAMEL_MALFORMED, CAMEL_FULL_HANDLE, CAMEL_OUT_OF_MEMORY, CAMEL_NO_PLACE. */
CAMEL_RESULT
CAMEL_INLINE camel_status camel_open(camel_store *store, camel_session *sessions, size_t session_count, uint64_t limit,
                                      uint8_t profile, uint64_t seed)
{
    camel_session none = CAMEL_EMPTY;
    if (!sessions)
        session_count = 0;
    return camel_open_version(CAMEL_ABI_VERSION, store, sessions ? sessions : &none, session_count, limit, profile,
                              seed);
}

/* The writer. No session shows an update before it is published. */

/* Submits a change; its lists are copied. CAMEL_MALFORMED, CAMEL_UNEXPECTED_DATA_VALUE or CAMEL_DATA_MISSING: of its
 * data, which are looked at first. CAMEL_UNIDENTIFIED_SUBSCRIBER, CAMEL_DATA_MISSING, CAMEL_HISTORY_FULL or
 * CAMEL_OUT_OF_MEMORY: the store rejects it. */
CAMEL_CALL
CAMEL_INLINE camel_status camel_submit_change(camel_store *store, const camel_change *change)
{
    camel_lists lists = camel_lists_of(&change->insert);
    return camel_submit_change_nonnull(store, change->kind, &change->imsi, &change->withdrawal, &lists);
}

/* Submits what an operation of MAP brings, by the octets of its argument: the parameter of the TCAP invoke, in BER. A
 * length is definite, in up to four octets, or indefinite, at most 16 deep, and no string that is read is in pieces.
 * The IMSI is that of the dialogue, and its number is 0 if the dialogue has none. If the argument is not taken, the
 * call returns CAMEL_MALFORMED_OCTETS to CAMEL_OTHER_IMSI, CAMEL_DATA_MISSING or CAMEL_UNEXPECTED_DATA_VALUE, and place
 * is the octet, from 0, at which its first fault is. Else place is CAMEL_NO_OCTET, and it is always written.
 * CAMEL_MALFORMED is of the operation or the IMSI, and a store rejects an update as above. */
CAMEL_RESULT
CAMEL_INLINE camel_status camel_submit_map(camel_store *store, uint8_t operation, const camel_imsi *imsi,
                                           const uint8_t *argument, size_t argument_octet_count, uint64_t *place)
{
    const uint8_t *at = camel_octets_at(argument, &argument_octet_count);
    return camel_submit_map_nonnull(store, operation, imsi, at, argument_octet_count, place);
}

/* Updates in handles, which are of no store: fills an empty handle with the update that camel_submit_change or
 * camel_submit_map submits, a copy of what is passed. Returns the same statuses for its data, then CAMEL_FULL_HANDLE or
 * CAMEL_OUT_OF_MEMORY. After a status other than CAMEL_OK the handle is as before. The place is that of
 * camel_submit_map. */
CAMEL_CALL
CAMEL_INLINE camel_status camel_update_of(const camel_change *change, camel_update *update)
{
    camel_lists lists = camel_lists_of(&change->insert);
    return camel_update_of_nonnull(change->kind, &change->imsi, &change->withdrawal, &lists, update);
}

CAMEL_RESULT
CAMEL_INLINE camel_status camel_update_of_map(uint8_t operation, const camel_imsi *imsi, const uint8_t *argument,
                                              size_t argument_octet_count, camel_update *update, uint64_t *place)
{
    const uint8_t *at = camel_octets_at(argument, &argument_octet_count);
    return camel_update_of_map_nonnull(operation, imsi, at, argument_octet_count, update, place);
}

/* Fills an empty handle with the join of two Inserts of one dialogue, over which an HLR has split the data of a
 * subscriber: what one operation brings that has the lists of both. Of the rows of a CSI in both, those of `next`
 * stand; the criteria of `next` are behind those of `one`. Of a camelCapabilityHandling in both, that of `next` stands.
 * The two are different handles, and stay as they are.
 * CAMEL_WRONG_HANDLE: one of them holds no update. CAMEL_FULL_HANDLE. CAMEL_NO_INSERT, CAMEL_OTHER_SUBSCRIBER.
 * CAMEL_UNEXPECTED_DATA_VALUE: criteria have more than 10 entries then, or two of a detection point of the CSI.
 * CAMEL_OUT_OF_MEMORY. */
CAMEL_CALL
camel_status camel_update_join(const camel_update *one, const camel_update *next, camel_update *joined);

/* Writes what came with an update. CAMEL_WRONG_HANDLE: the handle holds none, and the parts are as before. */
CAMEL_CALL
camel_status camel_update_parts_of(const camel_update *update, camel_update_parts *parts);

/* Submits copies of updates in their order, as those of a location update: all are accepted, or none is. The handles
 * keep the updates, which may be submitted again. CAMEL_UNIDENTIFIED_SUBSCRIBER, CAMEL_DATA_MISSING or
 * CAMEL_HISTORY_FULL: the store rejects one, as if those before it were accepted. CAMEL_UNEXPECTED_DATA_VALUE: of
 * several one is a Cancel or a ClearAll, which leaves no record. CAMEL_OUT_OF_MEMORY. CAMEL_WRONG_HANDLE: the store's
 * handle holds none, or one of these no update. `rejected` is the index of the first update that the store rejects, and
 * update_count if it rejects none, as when memory is refused or a handle is wrong. It is always written. */
CAMEL_RESULT
CAMEL_INLINE camel_status camel_submit_all(camel_store *store, const camel_update *updates, size_t update_count,
                                           size_t *rejected)
{
    size_t count = update_count;
    const camel_update *at = camel_updates_at(updates, &count);
    camel_status status = camel_submit_all_nonnull(store, at, count, rejected);
    if (!updates)
        *rejected = update_count;
    return status;
}

/* The same of one update, which may be of any kind. */
CAMEL_CALL
CAMEL_INLINE camel_status camel_submit(camel_store *store, const camel_update *update)
{
    size_t rejected;
    return camel_submit_all_nonnull(store, update, 1, &rejected);
}

/* Publishes all that is pending, also if nothing is, and has these sessions of the store learn it, as camel_learn does:
 * from then on each shows it. The sessions are in no other call meanwhile: those of other threads learn a receipt.
 *   CAMEL_MALFORMED: there are more than CAMEL_MAX_SESSIONS.
 *   CAMEL_WRONG_HANDLE: `store` is no live store, or the first of `sessions` that cannot learn is no session.
 *   CAMEL_HELD: that session has begun a look, or a look that began before the last publication is held.
 *   CAMEL_OTHER_STORE: that session is of another store.
 *   CAMEL_OUT_OF_MEMORY.
 * After each of these all is pending as before. CAMEL_NO_LOOK, and CAMEL_OTHER_STORE though each session is of the
 * store, are not expected, but no proof excludes them. Then all is published, `published` of camel_counts has grown if
 * anything was pending, and a session does not show it. */
CAMEL_RESULT
CAMEL_INLINE camel_status camel_publish_to(camel_store *store, camel_session *sessions, size_t session_count)
{
    camel_session none = CAMEL_EMPTY;
    if (!sessions)
        session_count = session_count > 0;
    return camel_publish_to_nonnull(store, sessions ? sessions : &none, session_count);
}

/* The same without a session to tell. */
CAMEL_CALL
CAMEL_INLINE camel_status camel_publish(camel_store *store)
{
    camel_session none = CAMEL_EMPTY;
    return camel_publish_to_nonnull(store, &none, 0);
}

/* What a switch with one event loop does with the updates of an operation: submits copies of them, as camel_submit_all
 * does, publishes them, and has these sessions learn it, as camel_publish_to does. After each status below but the
 * last, none of it is shown, so the HLR may be answered with an error. What was pending before the call is dropped: a
 * switch that commits submits nothing else. `rejected` is that of camel_submit_all. The updates are looked at last,
 * behind the sessions and the looks that hold the publication up.
 *   CAMEL_MALFORMED, CAMEL_WRONG_HANDLE, CAMEL_OTHER_STORE: as of both calls. All is as before.
 *   CAMEL_HELD: the first session that cannot learn has begun a look, and all is as before; or a look holds the
 *     publication up, and nothing is pending. Only then `held` of camel_counts is more than before the call.
 *   CAMEL_UNIDENTIFIED_SUBSCRIBER, CAMEL_DATA_MISSING, CAMEL_UNEXPECTED_DATA_VALUE, CAMEL_HISTORY_FULL: of an update,
 *     which `rejected` names. Nothing is pending.
 *   CAMEL_OUT_OF_MEMORY: some may be pending, which camel_publish would show. The next camel_commit drops it, and so
 *     does camel_drop_pending: call one of these first.
 *   CAMEL_NO_LOOK, or CAMEL_OTHER_STORE with more updates published than before: not expected, as of camel_publish_to.
 *     All of it is published, and a session does not show it. */
CAMEL_RESULT
CAMEL_INLINE camel_status camel_commit(camel_store *store, const camel_update *updates, size_t update_count,
                                       camel_session *sessions, size_t session_count, size_t *rejected)
{
    size_t count = update_count;
    const camel_update *at = camel_updates_at(updates, &count);
    camel_session none = CAMEL_EMPTY;
    camel_status status;
    if (!sessions)
        session_count = session_count > 0;
    status = camel_commit_nonnull(store, at, count, sessions ? sessions : &none, session_count, rejected);
    if (!updates)
        *rejected = update_count;
    return status;
}

/* Drops all that is pending, as if it had not been submitted: the accepted updates are the published ones again, which
 * also count for the limit. So a switch that answers the HLR with an error, after camel_publish has returned
 * CAMEL_OUT_OF_MEMORY or CAMEL_HELD, does not show the data later. If a Cancel or a ClearAll is pending, it goes
 * through all published records, and asks for memory, else for none. CAMEL_OUT_OF_MEMORY: all is pending as before. */
CAMEL_CALL
camel_status camel_drop_pending(camel_store *store);

/* Whose looks hold the next publication up: bit i is that of session i, from 0, in the order of camel_open. */
CAMEL_CALL
camel_status camel_holders(camel_store *store, uint64_t *sessions);

/* Writes the counts. While the writer is in another call no other thread may ask: the writer hands copies over. */
CAMEL_CALL
camel_status camel_counts_of(const camel_store *store, camel_counts *counts);

/* Writes a receipt of all that is published. */
CAMEL_CALL
camel_status camel_receipt_of(const camel_store *store, camel_receipt *receipt);

/* Has a session learn a receipt: it makes a look of its own, and sees at least as many updates from then on.
 *   CAMEL_HELD: its look has begun. Nothing is changed.
 *   CAMEL_NO_LOOK: its store has ended. Nothing is changed.
 *   CAMEL_OTHER_STORE: the receipt is of another store, also if the session's own has ended. Nothing is changed. Or it
 *     is of more updates than the session's store has published, and the session has made its look. */
CAMEL_CALL
camel_status camel_learn(camel_session *session, const camel_receipt *receipt);

/* Decides an event, over the look that has begun, or else by a look of its own. CAMEL_MALFORMED: not a valid event, as
 * at a detection point that is none of the five. CAMEL_NO_LOOK: the store has ended; so it is with the other calls that
 * look. */
CAMEL_CALL
camel_status camel_decide(camel_session *session, const camel_event *event, camel_answer *answer);

/* What the session has decided. */
CAMEL_CALL
camel_status camel_decisions_of(const camel_session *session, camel_decisions *decisions);

/* Begins a look, so that all calls until camel_leave are over one front. It lets the next publication go through, and
 * holds up the one after it. CAMEL_HELD: a look has begun already, and goes on. camel_leave of a session without a look
 * returns CAMEL_OK. The call that leaves the last look of a store that was freed also frees its data, in its thread. */
CAMEL_CALL
camel_status camel_look(camel_session *session);
camel_status camel_leave(camel_session *session);

/* The row of a subscriber at a detection point, over the look that has begun, or else by a look of its own. is_there
 * tells whether there is one; if not, as at a detection point of neither CSI, the row is as before. Its default call
 * handling is 0, continue, or 1, release. */
CAMEL_CALL
camel_status camel_row_at(camel_session *session, const camel_imsi *imsi, uint8_t dp, camel_row *row, bool *is_there);

/* The criteria of a subscriber at a detection point, as camel_row_at. They are there even if there is no row, and have
 * no effect then. What is behind the items of a list, and what is absent, is 0. */
CAMEL_CALL
camel_status camel_criteria_at(camel_session *session, const camel_imsi *imsi, uint8_t dp, camel_criteria *criteria,
                               bool *is_there);

/* Fills a handle with a copy of the record of a subscriber, which a switch keeps from the set-up of a telephone call to
 * its later detection points; is_there tells whether there is a record, and if there is none, the handle stays empty.
 * What is decided by it has the front of the copy. The IMSI of an event is not compared: events are those of the same
 * subscriber. If memory is refused, the session may have seen a later front. */
CAMEL_CALL
camel_status camel_keep(camel_session *session, const camel_imsi *imsi, camel_subscriber *subscriber, bool *is_there);

/* Decides by the copy, under the profile of the store that it is from. `session` is the calling thread's, and counts
 * the decision; it may be of another store, or of one that has ended. */
CAMEL_CALL
camel_status camel_decide_kept(camel_session *session, const camel_subscriber *subscriber, const camel_event *event,
                               camel_answer *answer);

/* The row of the copy at a detection point, as camel_row_at. */
CAMEL_CALL
camel_status camel_kept_row_at(const camel_subscriber *subscriber, uint8_t dp, camel_row *row, bool *is_there);

/* The set-up of a telephone call: decides the event, as camel_decide does, and keeps the record of its subscriber, as
 * camel_keep does, over one front. Set-ups are at detection points 2 and 12; an event of another one is decided and
 * kept likewise. If memory is refused, nothing is decided, and the session may have seen a later front. */
CAMEL_CALL
camel_status camel_set_up(camel_session *session, const camel_event *event, camel_answer *answer,
                          camel_subscriber *subscriber, bool *is_there);

/* Fills a handle with the IMSIs that have a record, over the look that has begun, or else by a look of its own: they
 * are those of one front, whatever is published later, and also once the store has ended. They take memory of their
 * own, and hold nobody up. */
CAMEL_CALL
camel_status camel_imsis_of(camel_session *session, camel_imsis *imsis);

/* The next of these IMSIs, each once, in no order that is promised. Behind the last one is_there is false, and the IMSI
 * is as before. */
CAMEL_CALL
camel_status camel_next_imsi(camel_imsis *imsis, camel_imsi *imsi, bool *is_there);

/* Writes the argument of the InsertSubscriberData that makes the record of a subscriber where the subscriber has just
 * registered, over the look that has begun, or else by a look of its own: what camel_submit_map or camel_update_of_map
 * makes the record of again, as after a restart. is_there tells whether there is a record; if not, the argument is as
 * before. It has the IMSI in itself. A CSI without rows is written as one row of a detection point of the other CSI, 12
 * in the O-CSI and 2 in the VT-CSI, which is ignored; a decoder that takes no values but those listed refuses it.
 * Without a CSI, vlrCamelSubscriptionInfo has no fields. */
CAMEL_CALL
camel_status camel_encode_record(camel_session *session, const camel_imsi *imsi, camel_argument *argument,
                                 bool *is_there);

/* Ends the store and empties its handle; what is pending is dropped. Each look that is held goes on until it is left,
 * and no session begins another: CAMEL_NO_LOOK. CAMEL_HELD: a look is held. Then the store has ended all the same, but
 * its handle stays full: it is to be closed again, or freed, and the writer's other calls return CAMEL_WRONG_HANDLE.
 * Before it camel_holders tells whose looks would hold the end up, once camel_drop_pending and then camel_publish have
 * returned CAMEL_OK: of the looks that began before that publication all, and none that has begun since. A switch that
 * need not know whether a look is held calls camel_free instead. */
CAMEL_CALL
camel_status camel_close(camel_store *store);

/* What camel_free does for a handle of any kind that is not NULL: call that. */
void camel_empty(void *handle);

/* What an HLR is answered about an update of this status (TS 29.002, ITU-T Q.773): 0, that it is done, or 5, 35 or 36,
 * a user error of MAP, or else CAMEL_MAP_REJECT with the problem of an invoke. CAMEL_MAP_RESOURCE_LIMITATION, of each
 * status that says nothing of what the HLR has sent, is the switch's own trouble: after CAMEL_OUT_OF_MEMORY or
 * CAMEL_HELD try the update again, and answer so once that takes too long. After any other, as CAMEL_WRONG_HANDLE, the
 * same call fails again. A status by which the switch itself is wrong, as of an operation that is none, is not told
 * apart. */
enum {
    CAMEL_MAP_REJECT = 0x100,
    CAMEL_MAP_MISTYPED_PARAMETER = CAMEL_MAP_REJECT | 2,
    CAMEL_MAP_RESOURCE_LIMITATION = CAMEL_MAP_REJECT | 3
};
CAMEL_INLINE uint16_t camel_map_error_of(camel_status status)
{
    switch (status) {
    case CAMEL_OK: return 0;
    case CAMEL_UNIDENTIFIED_SUBSCRIBER: return 5;
    case CAMEL_DATA_MISSING: return 35;
    case CAMEL_UNEXPECTED_DATA_VALUE:
    case CAMEL_OTHER_IMSI:
    case CAMEL_OTHER_SUBSCRIBER:
    case CAMEL_MALFORMED: return 36;
    case CAMEL_MALFORMED_OCTETS:
    case CAMEL_MISSING_FIELD:
    case CAMEL_FIELD_TWICE:
    case CAMEL_WRONG_TAG:
    case CAMEL_WRONG_LENGTH:
    case CAMEL_NO_IMSI: return CAMEL_MAP_MISTYPED_PARAMETER;
    default: return CAMEL_MAP_RESOURCE_LIMITATION;
    }
}

/* The basic service of a telephone call, by the contents of its bearer capability from octet 3 on (TS 24.008 10.5.4.5).
 * With none, as with one of speech, it is telephony. */
CAMEL_INLINE camel_basic_service camel_basic_service_of(const uint8_t *octets, size_t octet_count)
{
    camel_basic_service service = { false, 0x11 };
    size_t count = octets ? octet_count : 0, at = 0;
    unsigned capability = count > 0 ? octets[0] & 7U : 0;

    if (capability == 3)
        service.code = 0x62; /* facsimile group 3 */
    if (capability != 1 && capability != 2 && capability != 5)
        return service;
    /* Octets 3, 4 and 5, each with those that extend it: the last one has bit 8. */
    for (unsigned octet = 3; octet < 6 && at < count; at++)
        octet += octets[at] >> 7;
    service.is_bearer = true;
    service.code = at < count && (octets[at] & 1) ? 0x17 : 0x1f; /* asynchronous, or synchronous */
    return service;
}

/* The same with two bearer capabilities: facsimile group 3 and alternate speech, or else that of the first. */
CAMEL_INLINE camel_basic_service camel_basic_service_of_two(const uint8_t *octets, size_t octet_count,
                                                            const uint8_t *other, size_t other_octet_count)
{
    camel_basic_service service = camel_basic_service_of(octets, octet_count);
    size_t count = octets ? octet_count : 0, other_count = other ? other_octet_count : 0;
    unsigned one = count > 0 ? octets[0] & 7U : 0;
    unsigned two = other_count > 0 ? other[0] & 7U : 0;

    if (count > 0 && other_count > 0 && one + two == 3 && (one == 3 || two == 3))
        service.code = 0x61;
    return service;
}

/* The name of a status, as in this file; "CAMEL_?" of no status. */
CAMEL_INLINE const char *camel_status_name(camel_status status)
{
    switch (status) {
    case CAMEL_OK: return "CAMEL_OK";
    case CAMEL_UNIDENTIFIED_SUBSCRIBER: return "CAMEL_UNIDENTIFIED_SUBSCRIBER";
    case CAMEL_DATA_MISSING: return "CAMEL_DATA_MISSING";
    case CAMEL_UNEXPECTED_DATA_VALUE: return "CAMEL_UNEXPECTED_DATA_VALUE";
    case CAMEL_HISTORY_FULL: return "CAMEL_HISTORY_FULL";
    case CAMEL_OUT_OF_MEMORY: return "CAMEL_OUT_OF_MEMORY";
    case CAMEL_NO_PLACE: return "CAMEL_NO_PLACE";
    case CAMEL_NO_LOOK: return "CAMEL_NO_LOOK";
    case CAMEL_MALFORMED_OCTETS: return "CAMEL_MALFORMED_OCTETS";
    case CAMEL_MISSING_FIELD: return "CAMEL_MISSING_FIELD";
    case CAMEL_FIELD_TWICE: return "CAMEL_FIELD_TWICE";
    case CAMEL_WRONG_TAG: return "CAMEL_WRONG_TAG";
    case CAMEL_WRONG_LENGTH: return "CAMEL_WRONG_LENGTH";
    case CAMEL_NO_IMSI: return "CAMEL_NO_IMSI";
    case CAMEL_OTHER_IMSI: return "CAMEL_OTHER_IMSI";
    case CAMEL_NO_INSERT: return "CAMEL_NO_INSERT";
    case CAMEL_OTHER_SUBSCRIBER: return "CAMEL_OTHER_SUBSCRIBER";
    case CAMEL_HELD: return "CAMEL_HELD";
    case CAMEL_MALFORMED: return "CAMEL_MALFORMED";
    case CAMEL_WRONG_HANDLE: return "CAMEL_WRONG_HANDLE";
    case CAMEL_FULL_HANDLE: return "CAMEL_FULL_HANDLE";
    case CAMEL_OTHER_STORE: return "CAMEL_OTHER_STORE";
    case CAMEL_OTHER_VERSION: return "CAMEL_OTHER_VERSION";
    default: return "CAMEL_?";
    }
}

/* The name of a reason, as in this file; "CAMEL_REASON_?" of no reason. */
CAMEL_INLINE const char *camel_reason_name(uint8_t reason)
{
    switch (reason) {
    case CAMEL_REASON_NONE: return "CAMEL_REASON_NONE";
    case CAMEL_REASON_UNKNOWN: return "CAMEL_REASON_UNKNOWN";
    case CAMEL_REASON_NO_CSI: return "CAMEL_REASON_NO_CSI";
    case CAMEL_REASON_NOT_ARMED: return "CAMEL_REASON_NOT_ARMED";
    case CAMEL_REASON_EMERGENCY: return "CAMEL_REASON_EMERGENCY";
    case CAMEL_REASON_CRITERIA: return "CAMEL_REASON_CRITERIA";
    default: return "CAMEL_REASON_?";
    }
}

#ifdef __cplusplus
}
#define CAMEL_OF(call, kind) call
#else
#define CAMEL_OF(call, kind) call##_##kind
#endif

/* camel_free(handle) frees what a handle holds, and empties it; an empty one stays so, and so does NULL (in C++
 * nullptr). A session leaves its look, and no other takes its place. A store ends as by camel_close, but nothing says
 * whether a look is held: its data are freed when the last one is left.
 *
 * camel_move(to, from) moves what a handle holds into another one of its kind, and empties it. CAMEL_FULL_HANDLE: the
 * other one is not empty, and both are as before. */
#define CAMEL_OF_EACH_HANDLE(kind)                                                                                  \
    CAMEL_INLINE void CAMEL_OF(camel_free, kind)(camel_##kind * handle)                                             \
    {                                                                                                               \
        if (handle)                                                                                                 \
            camel_empty(handle);                                                                                    \
    }                                                                                                               \
    CAMEL_CALL CAMEL_INLINE camel_status CAMEL_OF(camel_move, kind)(camel_##kind * to, camel_##kind * from)         \
    {                                                                                                               \
        if (to->is_full)                                                                                            \
            return CAMEL_FULL_HANDLE;                                                                               \
        *to = *from;                                                                                                \
        from->at = NULL;                                                                                            \
        from->is_full = false;                                                                                      \
        return CAMEL_OK;                                                                                            \
    }
CAMEL_OF_EACH_HANDLE(store)
CAMEL_OF_EACH_HANDLE(session)
CAMEL_OF_EACH_HANDLE(subscriber)
CAMEL_OF_EACH_HANDLE(update)
CAMEL_OF_EACH_HANDLE(imsis)
#undef CAMEL_OF_EACH_HANDLE
#undef CAMEL_OF

#ifdef __cplusplus
CAMEL_INLINE void camel_free(decltype(nullptr)) {}
#else
/* Another pointer does not compile, such as a void pointer, which may be to anything. NULL is told from one by the type
 * that a conditional expression has with it. */
struct camel_no_handle;
CAMEL_INLINE void camel_free_null(struct camel_no_handle *handle)
{
    (void)handle;
}
#define CAMEL_BY_KIND(call)                                                                                 \
    camel_store *: call##_store, camel_session *: call##_session, camel_subscriber *: call##_subscriber,            \
        camel_update *: call##_update, camel_imsis *: call##_imsis
#define camel_free(handle)                                                                                          \
    _Generic((handle), CAMEL_BY_KIND(camel_free),                                                           \
             void *: _Generic(1 ? (struct camel_no_handle *)0 : _Generic((handle), void *: (handle), default: NULL), \
             struct camel_no_handle *: camel_free_null))(handle)
#define camel_move(to, from) _Generic((to), CAMEL_BY_KIND(camel_move))(to, from)
#endif

#endif
