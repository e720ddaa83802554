/* Times a decoder of the argument that ARGUMENT has the octets of: prints the nanoseconds in which it is decoded, and
 * what is made of it is freed. By the library, which makes an update of it, or else by what asn1c makes of
 * MapSubset.asn. */
#include <stdbool.h>
#include <stdint.h>
#include <stdio.h>
#include <time.h>

static const uint8_t argument[] = { ARGUMENT };

#ifdef ASN1C
#include "InsertSubscriberDataArg.h"

static bool decode(void)
{
    InsertSubscriberDataArg_t *made = NULL;
    asn_dec_rval_t decoded =
        ber_decode(NULL, &asn_DEF_InsertSubscriberDataArg, (void **)&made, argument, sizeof argument);
    ASN_STRUCT_FREE(asn_DEF_InsertSubscriberDataArg, made);
    return decoded.code == RC_OK && decoded.consumed == sizeof argument;
}
#else
#include "camel.h"

static bool decode(void)
{
    static const camel_imsi imsi = { 15ULL << 56 | 262010000000001 };
    camel_update made = CAMEL_EMPTY;
    uint64_t place;
    camel_status status =
        camel_update_of_map(CAMEL_INSERT_SUBSCRIBER_DATA, &imsi, argument, sizeof argument, &made, &place);
    camel_free(&made);
    return status == CAMEL_OK;
}
#endif

static double now(void)
{
    struct timespec time;
    clock_gettime(CLOCK_MONOTONIC, &time);
    return (double)time.tv_sec * 1e9 + (double)time.tv_nsec;
}

int main(void)
{
    enum { DECODES = 200000 };
    double start = now();
    for (int made = 0; made < DECODES; made++)
        if (!decode())
            return 1;
    printf("%.0f\n", (now() - start) / DECODES);
    return 0;
}
