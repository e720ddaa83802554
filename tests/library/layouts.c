/* The layouts: what the header says, what the library was built with, and that no field of data has moved. Those of
 * events and answers are used by conformance/run.c. */
#include "check.h"

/* In the order of camel_layouts, a handle last. */
#define TYPES(X)                                                                                                    \
    X(receipt, 16) X(imsi, 8) X(address, 21) X(isdn_address, 10) X(basic_service, 2) X(row, 24)                     \
    X(basic_services, 11) X(causes, 6) X(number_criterion, 106) X(criteria, 127) X(csi_lists, 40) X(lists, 80)      \
    X(withdrawal, 3) X(event, 40) X(answer, 32) X(counts, 32) X(decisions, 720) X(update_parts, 32)                 \
    X(argument, 2 + CAMEL_MAX_ARGUMENT) X(store, 2 * sizeof(void *))

#define FIELDS(X)                                                                                                   \
    X(receipt, front, 8) X(row, key, 4) X(row, scf, 8) X(row, handling, 20) X(number_criterion, numbers, 6)         \
    X(criteria, number, 2) X(criteria, basic, 108) X(criteria, causes, 121) X(csi_lists, row_count, 8)              \
    X(csi_lists, criteria, 16) X(csi_lists, has_rows, 32) X(csi_lists, has_criteria, 33) X(lists, vt, 40)           \
    X(event, basic, 29) X(event, cause, 33) X(answer, scf, 12) X(answer, reason, 25) X(counts, held, 24)            \
    X(decisions, by[CAMEL_DP_T_NO_ANSWER], 672) X(update_parts, kind, 8) X(update_parts, has_o_capability, 13)      \
    X(update_parts, o_capability, 16) X(update_parts, withdrawal, 24) X(argument, octets, 2)

/* So that a compiler with another layout is found when it compiles this. */
#define HAS_SIZE(type, size) _Static_assert(sizeof(camel_##type) == (size), #type);
#define HAS_PLACE(type, field, place) _Static_assert(offsetof(camel_##type, field) == (place), #type);
TYPES(HAS_SIZE)
FIELDS(HAS_PLACE)

static void sizes_of_library(void)
{
#define SIZE_OF(type, size) sizeof(camel_##type),
    static const uint32_t sizes[] = { TYPES(SIZE_OF) };
    uint32_t of_library[32] = { 0 };

    IS(camel_layouts(of_library, 32) == COUNT_OF(sizes) && COUNT_OF(sizes) == 20);
    IS(memcmp(of_library, sizes, sizeof sizes) == 0);
}

/* An entry of the O-CSI with each field. */
static camel_criteria o_criteria_of(uint8_t dp, bool is_enabling)
{
    static const uint8_t numbers[2][3] = { { 0x91, 0x34, 0x61 }, { 0xa1, 0x21, 0xf3 } };
    return (camel_criteria){
        .dp = dp,
        .has_number = true,
        .number = { is_enabling, 2, 2, { 11, 4 }, { isdn_of(numbers[0], 3), isdn_of(numbers[1], 3) } },
        .basic = { 2, { { false, 0x11 }, { true, 0x18 } } },
        .has_call_type = true,
        .is_forwarded = !is_enabling,
        .causes = dp == 4 ? (camel_causes){ 2, { 17, 3 } } : (camel_causes){ 0, { 0 } },
    };
}

/* Each row and each entry comes back with each field, an entry octet by octet in place of octets that are all 1. */
static void comes_back(unsigned number, camel_sent_csi o, camel_sent_csi vt)
{
    const camel_sent_csi *csis[] = { &o, &vt };
    camel_imsi imsi = imsi_of(number);
    bool is_there;

    register_subscriber(number);
    RETURNS(CAMEL_OK, insert(number, o, vt));
    publish_to(1);
    for (size_t csi = 0; csi < 2; csi++) {
        for (size_t at = 0; at < csis[csi]->row_count; at++) {
            camel_row row = { 0 };
            is_there = false;
            RETURNS(CAMEL_OK, camel_row_at(sessions, &imsi, csis[csi]->rows[at].dp, &row, &is_there));
            IS(is_there && is_same_row(&row, &csis[csi]->rows[at]));
        }
        for (size_t at = 0; at < csis[csi]->criteria_count; at++) {
            camel_criteria found;
            memset(&found, 1, sizeof found);
            is_there = false;
            RETURNS(CAMEL_OK, camel_criteria_at(sessions, &imsi, csis[csi]->criteria[at].dp, &found, &is_there));
            IS(is_there && memcmp(&found, &csis[csi]->criteria[at], sizeof found) == 0);
        }
    }
}

/* Entries with each field, those with one criterion, and those with none. */
static void fields_come_back(void)
{
    camel_row o[] = { row_of(2, 100), row_of(4, 101) }, vt[] = { row_of(12, 102), row_of(13, 103), row_of(14, 104) };
    camel_basic_services basic = { 1, { { true, 0x18 } } };
    camel_criteria entries[] = {
        o_criteria_of(2, true),
        o_criteria_of(4, false),
        { .dp = 13, .basic = { 1, { { true, 0x20 } } }, .causes = { 1, { 17 } } },
        { .dp = 14, .causes = { 2, { 19, 18 } } },
    };
    camel_criteria bare[] = { { .dp = 2, .basic = basic }, { .dp = 4 }, { .dp = 12, .basic = basic }, { .dp = 13 } };

    o[1].handling = 0;
    comes_back(1, CSI(o, 2, entries, 2), CSI(vt, 3, entries + 2, 2));
    comes_back(3, CSI(o, 1, bare, 2), CSI(vt, 1, bare + 2, 2));
}

/* The default call handling is sent as it was received, and comes back as what it stands for. By TS 29.002 0 and 2 to
 * 31 are continue, and 1 and all above 31 are release. */
static void received_handlings(void)
{
    static const uint32_t received[] = { 0, 1, 2, 3, 30, 31, 32, 33, 255, 256, 257, 0x80000000u, UINT32_MAX };
    camel_imsi imsi = imsi_of(3);

    register_subscriber(3);
    for (size_t at = 0; at < COUNT_OF(received); at++) {
        camel_row sent = row_of(2, 105), row = { .handling = 7 };
        camel_answer answer;
        bool is_there = false, is_release = received[at] == 1 || received[at] > 31;

        sent.handling = received[at];
        RETURNS(CAMEL_OK, insert(3, ROWS(&sent, 1), NO_CSI));
        publish_to(1);
        RETURNS(CAMEL_OK, camel_row_at(sessions, &imsi, 2, &row, &is_there));
        answer = decided(sessions, 3, 2);
        IS(is_there && answer.is_trigger);
        if (row.handling != is_release || answer.is_release != is_release) {
            printf("handling %u: %u, %d\n", sent.handling, row.handling, answer.is_release);
            failed++;
        }
    }
}

int main(void)
{
    sizes_of_library();
    open_store(1, 100);
    fields_come_back();
    received_handlings();
    close_store();
    return ended("layouts");
}
