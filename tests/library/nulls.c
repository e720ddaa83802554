/* A pointer that comes with a count of 0 may be NULL. With another count nothing is read of it: it is no octets, and of
 * handles one that is empty. And no compiler takes it as not null from the call on, by which the caller's own
 * `if (!pointer)` behind the call would be gone. Compiled at -O2 by each compiler that there is. */
#include "check.h"

static const size_t COUNTS[] = { 0, 1, 7, CAMEL_MAX_SESSIONS + 1, SIZE_MAX };

/* No compiler knows what these are. */
static const uint8_t *volatile no_octets;
static camel_session *volatile no_sessions;
static const camel_update *volatile no_updates;
static const camel_row *volatile no_rows;
static const camel_criteria *volatile no_criteria;

/* What the calls write, or are passed beside. */
static camel_imsi imsi;
static camel_address address;
static camel_isdn_address isdn;
static camel_store opened;
static camel_update update;
static uint64_t place;
static size_t rejected;

/* Of handles: CAMEL_WRONG_HANDLE, but of none. */
static camel_status unless_none(size_t count)
{
    return count == 0 ? CAMEL_OK : CAMEL_WRONG_HANDLE;
}

/* Makes a call with a pointer and a count, and then asks the pointer: whether it is NULL. Each is a function of its
 * own, in which nothing else is known of it. */
#if defined(__GNUC__)
#define APART __attribute__((noinline))
#else
#define APART
#endif
#define ASKS(name, pointer, wanted, is_right, ...)                                                                  \
    static APART bool asks_##name(pointer, size_t count)                                                            \
    {                                                                                                               \
        imsi = imsi_of(1), place = rejected = 99;                                                                   \
        RETURNS(wanted, __VA_ARGS__);                                                                               \
        IS(is_right);                                                                                               \
        return !at;                                                                                                 \
    }
#define OCTETS const uint8_t *at

ASKS(imsi_of_tbcd, OCTETS, CAMEL_MALFORMED, true, camel_imsi_of_tbcd(at, count, &imsi))
ASKS(imsi_of_digits, OCTETS, CAMEL_MALFORMED, true, camel_imsi_of_digits(at, count, &imsi))
ASKS(address_of, OCTETS, CAMEL_MALFORMED, true, camel_address_of(at, count, &address))
ASKS(isdn_address_of, OCTETS, CAMEL_MALFORMED, true, camel_isdn_address_of(at, count, &isdn))
ASKS(open, camel_session *at, CAMEL_MALFORMED, !opened.is_full, camel_open(&opened, at, count, 10, 1, 1))
/* Of an argument without octets a field is missing, at its end. */
ASKS(submit_map, OCTETS, CAMEL_MISSING_FIELD, place == 0,
     camel_submit_map(&store, CAMEL_CANCEL_LOCATION, &imsi, at, count, &place))
ASKS(update_of_map, OCTETS, CAMEL_MISSING_FIELD, place == 0 && !update.is_full,
     camel_update_of_map(CAMEL_INSERT_SUBSCRIBER_DATA, &imsi, at, count, &update, &place))
ASKS(submit_all, const camel_update *at, unless_none(count), rejected == count && counts_of(&store).pending == 0,
     camel_submit_all(&store, at, count, &rejected))
ASKS(publish_to, camel_session *at, unless_none(count), true, camel_publish_to(&store, at, count))

static APART bool asks_commit(const camel_update *updates, size_t count, camel_session *at, size_t session_count)
{
    rejected = 99;
    RETURNS(count == 0 && session_count == 0 ? CAMEL_OK : CAMEL_WRONG_HANDLE,
            camel_commit(&store, updates, count, at, session_count, &rejected));
    IS(rejected == count && counts_of(&store).pending == 0);
    return !updates && !at;
}

/* The services of no octets are telephony. */
static APART bool asks_basic_service(const uint8_t *octets, size_t count)
{
    static const uint8_t data[] = { 0xa1 };
    camel_basic_service services[] = {
        camel_basic_service_of(octets, count), camel_basic_service_of_two(octets, count, octets, count),
        camel_basic_service_of_two(data, sizeof data, octets, count),
    };
    IS(!services[0].is_bearer && services[0].code == 0x11 && !services[1].is_bearer && services[1].code == 0x11);
    IS(services[2].is_bearer && services[2].code == 0x1f);
    return !octets;
}

/* A list without a pointer is not sent if its count is 0, and else a list of no items. */
static APART bool asks_lists(const camel_row *rows, const camel_criteria *criteria, unsigned list, size_t count)
{
    camel_change change = { .kind = CAMEL_UPDATE_INSERT, .imsi = imsi_of(1) };
    camel_sent_csi *csi = list < 2 ? &change.insert.o : &change.insert.vt;
    camel_update_parts parts, none = { .imsi = imsi_of(1), .kind = CAMEL_UPDATE_INSERT };
    camel_status wanted = count == 0 ? CAMEL_OK : CAMEL_DATA_MISSING;

    csi->rows = rows;
    csi->criteria = criteria;
    *(list % 2 == 0 ? &csi->row_count : &csi->criteria_count) = count;
    RETURNS(wanted, camel_submit_change(&store, &change));
    RETURNS(wanted, camel_update_of(&change, &update));
    IS(update.is_full == (wanted == CAMEL_OK));
    if (update.is_full) {
        RETURNS(CAMEL_OK, camel_update_parts_of(&update, &parts));
        IS(is_same_parts(&parts, &none));
    }
    camel_free(&update);
    return !csi->rows && !csi->criteria && !rows && !criteria;
}

/* NULL with a count beside a pointer that is one. */
static void beside_others(size_t count)
{
    camel_status wanted = unless_none(count);
    uint64_t published = counts_of(&store).published;

    update = update_of(change_of(CAMEL_UPDATE_REGISTER, 1));
    RETURNS(wanted, camel_commit(&store, &update, 1, no_sessions, count, &rejected));
    published += wanted == CAMEL_OK;
    IS(rejected == 1 && counts_of(&store).published == published);
    RETURNS(wanted, camel_commit(&store, no_updates, count, sessions, 1, &rejected));
    IS(rejected == count && counts_of(&store).published == published && front_of(sessions) == published);
    camel_free(&update);
}

int main(void)
{
    open_store(1, 1000);
    register_subscriber(1);
    publish_to(1);
    for (size_t at = 0; at < COUNT_OF(COUNTS); at++) {
        size_t count = COUNTS[at];
        IS(asks_imsi_of_tbcd(no_octets, count) && asks_imsi_of_digits(no_octets, count));
        IS(asks_address_of(no_octets, count) && asks_isdn_address_of(no_octets, count));
        IS(asks_open(no_sessions, count) && asks_submit_map(no_octets, count) && asks_update_of_map(no_octets, count));
        IS(asks_submit_all(no_updates, count) && asks_publish_to(no_sessions, count));
        for (size_t other = 0; other < COUNT_OF(COUNTS); other++)
            IS(asks_commit(no_updates, count, no_sessions, COUNTS[other]));
        IS(asks_basic_service(no_octets, count));
        for (unsigned list = 0; list < LISTS; list++) {
            IS(asks_lists(no_rows, no_criteria, list, count));
            RETURNS(CAMEL_OK, camel_drop_pending(&store));
        }
        beside_others(count);
    }
    close_store();
    return ended("nulls");
}
