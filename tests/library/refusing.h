/* Refuses requests for memory, tells which call one failed, and what a store shows then. */
#ifndef REFUSING_H
#define REFUSING_H

#include "check.h"

static bool is_counting; /* whether a call whose requests are counted is being made */

#define IS_COUNTING is_counting
#include "../refused/refuse_memory.c"

/* Whether a call was refused memory, and is to be made again. A line tells what became of the call, behind one that
 * tells of the request. */
static inline bool has_failed(const char *name, camel_status status)
{
    bool has = status == CAMEL_OUT_OF_MEMORY;
    IS(!has || refused > 0);
    fprintf(stderr, "%s%s | %s\n", refused ? "REFUSED\n" : "", name, has ? "failed" : refused ? "without" : "made");
    refused = 0;
    return has;
}

static camel_status counted(camel_status status)
{
    is_counting = false;
    return status;
}

/* Makes a call whose requests are counted. */
#define COUNTED(call) (is_counting = true, counted(call))

/* Makes a call, and makes it again if memory is refused; nothing has changed then. */
#define AGAIN(name, call, is_unchanged)                                                                             \
    do {                                                                                                            \
        uint64_t shown_ = shown();                                                                                  \
        camel_status made_ = COUNTED(call);                                                                         \
        if (has_failed(name, made_)) {                                                                              \
            IS(shown() == shown_ && (is_unchanged));                                                                \
            made_ = COUNTED(call);                                                                                  \
        }                                                                                                           \
        RETURNS(CAMEL_OK, made_);                                                                                   \
    } while (0)

/* Makes a call that asks for no memory. */
#define NONE(wanted, call)                                                                                          \
    do {                                                                                                            \
        unsigned long before_ = requests;                                                                           \
        RETURNS(wanted, COUNTED(call));                                                                             \
        IS(requests == before_);                                                                                    \
    } while (0)

/* All that a store and a session show, in one number, by calls that ask for no memory. */

static const uint8_t DPS[] = { 2, 4, 12, 13, 14 };

static const uint64_t START = 0xcbf29ce484222325u;
static uint64_t digest;

static inline void add(uint64_t value)
{
    digest = (digest ^ value) * 0x100000001b3u;
}

static inline void add_address(const camel_isdn_address *address)
{
    add(address->length);
    for (int at = 0; at < 9; at++)
        add(at < address->length ? address->octets[at] : 0);
}

static inline void add_octets(const void *at, size_t size)
{
    for (size_t i = 0; i < size; i++)
        add(((const uint8_t *)at)[i]);
}

/* All that a session shows of so many subscribers, at each detection point: what a call is decided to be, the row, and
 * the criteria, of which what they have none of is 0. */
static inline uint64_t shown_of(camel_session *session, unsigned subscribers)
{
    digest = START;
    for (unsigned at = 0; at < subscribers * COUNT_OF(DPS); at++) {
        unsigned number = 1 + at / COUNT_OF(DPS);
        uint8_t dp = DPS[at % COUNT_OF(DPS)];
        camel_imsi imsi = imsi_of(number);
        camel_event event = event_of(number, dp);
        camel_answer answer = { 0 };
        camel_row row = { 0 };
        camel_criteria criteria = { 0 };
        bool is_there[2] = { false, false };
        NONE(CAMEL_OK, camel_decide(session, &event, &answer));
        NONE(CAMEL_OK, camel_row_at(session, &imsi, dp, &row, &is_there[0]));
        NONE(CAMEL_OK, camel_criteria_at(session, &imsi, dp, &criteria, &is_there[1]));
        add(answer.front), add(answer.key), add(answer.dp), add(answer.is_release), add(answer.is_trigger);
        add(answer.reason), add_address(&answer.scf);
        add(is_there[0]), add(row.key), add(row.handling), add(row.dp), add_address(&row.scf);
        add(is_there[1]), add_octets(&criteria, sizeof criteria);
    }
    return digest;
}

/* The same, and the counts of the store, but that of publications that were held. */
static inline uint64_t shown_by(camel_session *session, unsigned subscribers)
{
    camel_counts counts = { 0 };
    shown_of(session, subscribers);
    NONE(CAMEL_OK, camel_counts_of(&store, &counts));
    add(counts.subscribers), add(counts.published), add(counts.pending);
    return digest;
}

#endif
