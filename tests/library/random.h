/* Random numbers, and events whose fields are each any octet now and then, a bool too. */
#ifndef RANDOM_H
#define RANDOM_H

#include "check.h"

static _Thread_local uint64_t state;

static inline uint64_t next(void)
{
    state ^= state << 13;
    state ^= state >> 7;
    state ^= state << 17;
    return state;
}

static inline unsigned below(unsigned limit)
{
    return (unsigned)(next() >> 33) % limit;
}

static inline bool toss(void)
{
    return below(2) == 1;
}

static inline uint8_t octet(void)
{
    return (uint8_t)(next() >> 40);
}

/* Has a bool be 0, 1 or any octet. C reads no such bool, so it is copied only. */
static inline void toss_in(bool *place)
{
    uint8_t any = below(4) ? toss() : octet();
    memcpy(place, &any, 1);
}

/* This octet, or now and then any other. */
static inline uint8_t mostly(unsigned usual)
{
    return below(48) ? (uint8_t)usual : octet();
}

static inline void fill(void *at, size_t size)
{
    for (size_t i = 0; i < size; i++)
        ((uint8_t *)at)[i] = octet();
}

static const uint8_t DPS[] = { 2, 4, 12, 13, 14 };

static inline camel_event any_event(camel_imsi imsi)
{
    camel_event event;
    fill(&event, sizeof event);
    event.imsi = imsi;
    event.destination.length = mostly(1 + below(20));
    toss_in(&event.basic.is_bearer);
    toss_in(&event.is_forwarded);
    event.dp = mostly(DPS[below(5)]);
    event.cause = mostly(octet() & 127);
    return event;
}

#endif
