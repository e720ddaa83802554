/* A restart: the records of a store go into a file, a line each, IMSI,HEX, and a new store that is made of the lines
 * decides as the first one, which is made of such lines from standard input. EVENTS random events of each subscriber,
 * SEED, and DUMP and AGAIN, the files that get the records of both. A line that is none is refused with its number, and
 * nothing of it is stored. What dumps and restores is there to be copied. Prints counts and times. */
#define _DEFAULT_SOURCE
#include "random.h"

#include <time.h>

enum { DIGITS = 15, LINE = DIGITS + 1 + 2 * CAMEL_MAX_ARGUMENT + 2, LINES_OF_A_PART = 10000 };

/* What dumps. */

/* Writes the record of a subscriber as a line. */
static camel_status dump_record(camel_session *session, const camel_imsi *imsi, FILE *file)
{
    static const char digits[] = "0123456789abcdef";
    camel_imsi_digits of_imsi;
    camel_argument argument;
    char line[LINE + 1];
    bool is_there = false;
    size_t at;
    camel_status status = camel_digits_of_imsi(imsi, &of_imsi);
    if (status == CAMEL_OK)
        status = camel_encode_record(session, imsi, &argument, &is_there);
    if (status != CAMEL_OK || !is_there)
        return status;
    at = (size_t)snprintf(line, sizeof line, "%s,", of_imsi.characters);
    for (size_t octet = 0; octet < argument.count; octet++) {
        line[at++] = digits[argument.octets[octet] >> 4];
        line[at++] = digits[argument.octets[octet] & 15];
    }
    line[at++] = '\n';
    if (fwrite(line, 1, at, file) != at)
        perror("a record is not written");
    return CAMEL_OK;
}

/* Writes all records of one front. A look holds the second publication up, so it is left at the end. */
static camel_status dump(camel_session *session, FILE *file, unsigned long *count)
{
    camel_imsis imsis = CAMEL_EMPTY;
    camel_imsi imsi;
    bool is_there = true;
    camel_status status = camel_look(session);
    if (status != CAMEL_OK)
        return status;
    status = camel_imsis_of(session, &imsis);
    for (*count = 0; status == CAMEL_OK; ++*count) {
        status = camel_next_imsi(&imsis, &imsi, &is_there);
        if (status != CAMEL_OK || !is_there)
            break;
        status = dump_record(session, &imsi, file);
    }
    camel_free(&imsis);
    (void)camel_leave(session);
    return status;
}

/* What restores. */

static int digit_of(char character)
{
    if (character >= '0' && character <= '9')
        return character - '0';
    return character >= 'a' && character <= 'f' ? character - 'a' + 10 : -1;
}

/* The octets that are written from here to the end of the line. */
static camel_status read_octets(const char *text, camel_argument *argument)
{
    for (argument->count = 0; *text != '\n'; text += 2, argument->count++) {
        int high = digit_of(text[0]), low = high < 0 ? -1 : digit_of(text[1]);
        if (low < 0 || argument->count == CAMEL_MAX_ARGUMENT)
            return CAMEL_MALFORMED;
        argument->octets[argument->count] = (uint8_t)(high << 4 | low);
    }
    return CAMEL_OK;
}

/* Submits a Register and the Insert of a line: both are accepted, or neither is. */
static camel_status restore_line(camel_store *store, const char *line)
{
    camel_update updates[2] = { CAMEL_EMPTY, CAMEL_EMPTY };
    const char *comma = strchr(line, ',');
    camel_argument argument;
    camel_imsi imsi;
    uint64_t place;
    size_t rejected;
    camel_status status = CAMEL_MALFORMED;
    if (comma)
        status = camel_imsi_of_digits((const uint8_t *)line, (size_t)(comma - line), &imsi);
    if (status == CAMEL_OK)
        status = read_octets(comma + 1, &argument);
    if (status == CAMEL_OK)
        status = camel_update_of(&(camel_change){ .kind = CAMEL_UPDATE_REGISTER, .imsi = imsi }, &updates[0]);
    if (status == CAMEL_OK)
        status = camel_update_of_map(CAMEL_INSERT_SUBSCRIBER_DATA, &imsi, argument.octets, argument.count,
                                     &updates[1], &place);
    if (status == CAMEL_OK)
        status = camel_submit_all(store, updates, 2, &rejected);
    camel_free(&updates[0]);
    camel_free(&updates[1]);
    return status;
}

/* Submits the lines of a file, and publishes them in parts. Tells how many lines are refused, and prints which. No look
 * holds a publication up meanwhile. */
static unsigned long restore(camel_store *to, FILE *file)
{
    char line[LINE + 1];
    unsigned long count = 0, refused = 0;
    while (fgets(line, sizeof line, file)) {
        camel_status status = strchr(line, '\n') ? restore_line(to, line) : CAMEL_MALFORMED;
        count++;
        if (status != CAMEL_OK) {
            printf("line %lu is refused: %s\n", count, camel_status_name(status));
            refused++;
        }
        if (count % LINES_OF_A_PART == 0)
            RETURNS(CAMEL_OK, camel_publish(to));
    }
    RETURNS(CAMEL_OK, camel_publish(to));
    return refused;
}

/* The test. */

static camel_store restored;
static camel_session of_restored;

static double seconds(void)
{
    struct timespec now;
    clock_gettime(CLOCK_MONOTONIC, &now);
    return (double)now.tv_sec + (double)now.tv_nsec / 1e9;
}

static void see_all(camel_store *of, camel_session *session)
{
    camel_receipt receipt = receipt_of(of);
    RETURNS(CAMEL_OK, camel_learn(session, &receipt));
}

/* Whether two answers are the same but for the front. */
static bool is_same_answer(const camel_answer *one, const camel_answer *other)
{
    return one->key == other->key && one->dp == other->dp && one->is_release == other->is_release
        && one->is_trigger == other->is_trigger && one->reason == other->reason && is_same_isdn(&one->scf, &other->scf);
}

/* Decides so many random events of each subscriber in both stores, now and then of an IMSI without a record. */
static unsigned long compare(unsigned long events)
{
    camel_imsis imsis = CAMEL_EMPTY;
    camel_imsi imsi;
    unsigned long by_reason[CAMEL_REASONS] = { 0 }, count = 0;
    bool is_there = true;
    RETURNS(CAMEL_OK, camel_imsis_of(sessions, &imsis));
    while (camel_next_imsi(&imsis, &imsi, &is_there) == CAMEL_OK && is_there && !failed)
        for (unsigned long event = 0; event < events; event++) {
            camel_imsi none = { 15ULL << 56 | next() % 1000000000000000 };
            camel_event any = any_event(below(11) ? imsi : none);
            camel_answer answer = { .front = 0 }, other = { .front = 0 };
            camel_status status = camel_decide(sessions, &any, &answer);
            RETURNS(status, camel_decide(&of_restored, &any, &other));
            if (status != CAMEL_OK)
                continue;
            IS(is_same_answer(&answer, &other));
            by_reason[answer.reason]++;
            count++;
        }
    camel_free(&imsis);
    for (uint8_t reason = 0; reason < CAMEL_REASONS; reason++) {
        IS(by_reason[reason] > 0);
        printf("%s: %lu\n", camel_reason_name(reason), by_reason[reason]);
    }
    return count;
}

int main(int argc, char **argv)
{
    unsigned long events = argc > 1 ? strtoul(argv[1], NULL, 10) : 0, count = 0;
    FILE *file = argc > 3 ? fopen(argv[3], "w+") : NULL, *again = argc > 4 ? fopen(argv[4], "w") : NULL;
    double start, dumped, ended_at;

    if (!file || !again)
        return 2;
    state = strtoul(argv[2], NULL, 10) * 0x9e3779b97f4a7c15u + 1;
    RETURNS(CAMEL_OK, camel_open(&store, sessions, 1, CAMEL_MAX_UPDATES, CAMEL_PROFILE_2, 1));
    RETURNS(CAMEL_OK, camel_open(&restored, &of_restored, 1, CAMEL_MAX_UPDATES, CAMEL_PROFILE_2, 2));
    restore(&store, stdin);
    see_all(&store, sessions);
    start = seconds();
    RETURNS(CAMEL_OK, dump(sessions, file, &count));
    dumped = seconds();
    rewind(file);
    IS(restore(&restored, file) == 0);
    ended_at = seconds();
    see_all(&restored, &of_restored);
    printf("%lu records: dumped in %.2f s, restored in %.2f s\n", count, dumped - start, ended_at - dumped);
    IS(counts_of(&store).subscribers == count && counts_of(&store).pending == 0);
    IS(counts_of(&restored).subscribers == count && counts_of(&restored).published == 2 * count);
    start = seconds();
    count = compare(events);
    printf("%lu events: decided in both stores in %.2f s\n", count, seconds() - start);
    RETURNS(CAMEL_OK, dump(&of_restored, again, &count));
    fclose(file);
    fclose(again);
    camel_free(&of_restored);
    RETURNS(CAMEL_OK, camel_close(&restored));
    close_store();
    return ended("restart");
}
