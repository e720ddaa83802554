/* An IMSI is the count of its digits and their decimal value: it is made of digits or TBCD octets, and both come back
 * from it. Numbers that no IMSI has have no digits. */
#include "check.h"

static const char *const DIGITS[] = { "262010000000001", "000000000000000", "999999999999999", "012345678901234" };

/* The digits in TBCD, with the filler behind an odd count of them, and fillers behind these octets. */
static camel_imsi_tbcd tbcd_of(const char *digits, unsigned count)
{
    camel_imsi_tbcd tbcd = { .count = (uint8_t)((count + 1) / 2) };
    memset(tbcd.octets, 0xff, sizeof tbcd.octets);
    for (unsigned at = 0; at < count; at++) {
        unsigned shift = at % 2 * 4, digit = (unsigned)(digits[at] - '0');
        tbcd.octets[at / 2] = (uint8_t)((tbcd.octets[at / 2] & ~(15U << shift)) | digit << shift);
    }
    return tbcd;
}

static void comes_back(const char *digits, unsigned count)
{
    camel_imsi imsi = { 0 }, same = { 0 };
    camel_imsi_digits characters, wanted = { .count = (uint8_t)count };
    camel_imsi_tbcd tbcd, wanted_tbcd = tbcd_of(digits, count);

    memcpy(wanted.characters, digits, count);
    memset(&characters, 0xa5, sizeof characters);
    memset(&tbcd, 0xa5, sizeof tbcd);
    RETURNS(CAMEL_OK, camel_imsi_of_digits((const uint8_t *)digits, count, &imsi));
    RETURNS(CAMEL_OK, camel_imsi_of_tbcd(wanted_tbcd.octets, wanted_tbcd.count, &same));
    IS(imsi.number == ((uint64_t)count << 56 | strtoull(wanted.characters, NULL, 10)) && same.number == imsi.number);
    RETURNS(CAMEL_OK, camel_digits_of_imsi(&imsi, &characters));
    IS(memcmp(&characters, &wanted, sizeof wanted) == 0);
    RETURNS(CAMEL_OK, camel_tbcd_of_imsi(&imsi, &tbcd));
    IS(memcmp(&tbcd, &wanted_tbcd, sizeof tbcd) == 0);
}

/* That each call refuses such a number is in statuses.c. */
static void has_no_digits(uint64_t number)
{
    camel_imsi imsi = { number };
    camel_imsi_digits characters;
    camel_imsi_tbcd tbcd;

    RETURNS(CAMEL_MALFORMED, camel_digits_of_imsi(&imsi, &characters));
    RETURNS(CAMEL_MALFORMED, camel_tbcd_of_imsi(&imsi, &tbcd));
}

int main(void)
{
    uint64_t values = 1; /* how many there are of so many digits */

    for (size_t at = 0; at < COUNT_OF(DIGITS); at++)
        for (unsigned count = 5; count <= 15; count++)
            comes_back(DIGITS[at], count);
    for (uint64_t count = 0; count < 256; count++, values *= count <= 16 ? 10 : 1)
        has_no_digits(count << 56 | (count < 5 || count > 15 ? 0 : values));
    return ended("imsis");
}
