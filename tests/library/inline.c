/* inline.c: what camel.h computes by itself: what the HLR is answered, the basic service of a bearer capability, and
 * moves. */
#include "check.h"

/* What the table of docs/MAP.md has for a status, if it is not the switch's own trouble, as of all others. */
static const struct {
    camel_status status;
    uint16_t answer;
} ANSWERS[] = {
    { CAMEL_OK, 0 },
    { CAMEL_UNIDENTIFIED_SUBSCRIBER, 5 },
    { CAMEL_DATA_MISSING, 35 },
    { CAMEL_UNEXPECTED_DATA_VALUE, 36 },
    { CAMEL_MALFORMED_OCTETS, 0x102 },
    { CAMEL_MISSING_FIELD, 0x102 },
    { CAMEL_FIELD_TWICE, 0x102 },
    { CAMEL_WRONG_TAG, 0x102 },
    { CAMEL_WRONG_LENGTH, 0x102 },
    { CAMEL_NO_IMSI, 0x102 },
    { CAMEL_OTHER_IMSI, 36 },
    { CAMEL_OTHER_SUBSCRIBER, 36 },
    { CAMEL_MALFORMED, 36 },
};

static void answer_hlr(void)
{
    size_t at = 0;

    for (camel_status status = 0; status <= CAMEL_OTHER_VERSION; status++) {
        bool is_listed = at < COUNT_OF(ANSWERS) && ANSWERS[at].status == status;
        IS(camel_map_error_of(status) == (is_listed ? ANSWERS[at].answer : 0x103));
        at += is_listed;
    }
    IS(at == COUNT_OF(ANSWERS));
}

/* Bearer capabilities of TS 24.008 from octet 3 on, and the codes of TS 29.002. */
static const struct {
    uint8_t octets[8];
    size_t count;
    bool is_bearer;
    uint8_t code;
} CAPABILITIES[] = {
    { { 0 }, 0, false, 0x11 },
    { { 0xa0 }, 1, false, 0x11 },                                           /* full rate speech */
    { { 0x60, 0x04, 0x02, 0x05, 0x81 }, 5, false, 0x11 },                   /* speech, with its versions */
    { { 0xa7 }, 1, false, 0x11 },                                           /* a reserved value */
    { { 0xa3, 0xb8, 0x81, 0x20, 0x13, 0x63, 0x80 }, 7, false, 0x62 },       /* facsimile group 3 */
    { { 0xa1, 0xb8, 0x89, 0x21, 0x15, 0x63, 0x80 }, 7, true, 0x17 },        /* UDI, asynchronous */
    { { 0xa1, 0xb8, 0x89, 0x20, 0x15, 0x63, 0x80 }, 7, true, 0x1f },        /* UDI, synchronous */
    { { 0xa2, 0xb8, 0x81, 0x21, 0x13, 0x43, 0xbb }, 7, true, 0x17 },        /* 3.1 kHz, asynchronous */
    { { 0xa5, 0xb8, 0x09, 0xa0, 0x21, 0x15, 0x63, 0x80 }, 8, true, 0x17 },  /* RDI by octet 5a, asynchronous */
    { { 0xa5, 0xb8, 0x09, 0xa1, 0x20, 0x15, 0x63, 0x80 }, 8, true, 0x1f },  /* RDI by octet 5a, synchronous */
    { { 0x21, 0x81, 0xb8, 0x89, 0x21, 0x15, 0x63, 0x80 }, 8, true, 0x17 },  /* with octet 3a */
    { { 0xa1, 0xb8, 0x89 }, 3, true, 0x1f },                                /* without octet 6 */
    { { 0xa1 }, 1, true, 0x1f },
};

static bool is_service(camel_basic_service service, bool is_bearer, uint8_t code)
{
    return service.is_bearer == is_bearer && service.code == code;
}

static void tell_services(void)
{
    static const uint8_t speech[] = { 0xa0 }, fax[] = { 0xa3 }, data[] = { 0xa1 };

    for (size_t at = 0; at < COUNT_OF(CAPABILITIES); at++) {
        const uint8_t *octets = CAPABILITIES[at].octets;
        size_t count = CAPABILITIES[at].count;
        bool is_bearer = CAPABILITIES[at].is_bearer;
        uint8_t code = CAPABILITIES[at].code;
        IS(is_service(camel_basic_service_of(count > 0 ? octets : NULL, count), is_bearer, code));
        IS(is_service(camel_basic_service_of_two(octets, count, NULL, 0), is_bearer, code));
    }
    IS(is_service(camel_basic_service_of_two(speech, 1, fax, 1), false, 0x61));
    IS(is_service(camel_basic_service_of_two(fax, 1, speech, 1), false, 0x61));
    IS(is_service(camel_basic_service_of_two(speech, 1, data, 1), false, 0x11));
    IS(is_service(camel_basic_service_of_two(data, 1, fax, 1), true, 0x1f));
}

/* A session that was moved goes on with its look, and its old handle is empty. */
static void move(void)
{
    camel_store other = CAMEL_EMPTY;
    camel_session moved = CAMEL_EMPTY;

    open_store(1, 10);
    RETURNS(CAMEL_OK, camel_look(sessions));
    RETURNS(CAMEL_OK, camel_move(&moved, sessions));
    IS(!sessions[0].is_full && !sessions[0].at && moved.is_full);
    RETURNS(CAMEL_HELD, camel_look(&moved));
    RETURNS(CAMEL_WRONG_HANDLE, camel_look(sessions));
    RETURNS(CAMEL_OK, camel_move(&other, &store));
    RETURNS(CAMEL_OK, camel_move(sessions, &moved));
    RETURNS(CAMEL_FULL_HANDLE, camel_move(sessions, &moved));
    IS(sessions[0].is_full && !moved.is_full);
    RETURNS(CAMEL_OK, camel_move(&moved, &(camel_session)CAMEL_EMPTY));
    IS(!moved.is_full);
    RETURNS(CAMEL_OK, camel_move(&store, &other));
    camel_free(&other);
    camel_free(NULL);
    close_store();
}

int main(void)
{
    answer_hlr();
    tell_services();
    move();
    return ended("inline");
}
