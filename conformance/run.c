/* Answers vectors over the library: `run PROFILE FILE..` prints the place of each step that holds under the profile,
 * and its answer. README.md has the format of the files. Whoever has another switch puts its calls in the place of
 * `submit`, `join` and `decide`. */
#include "camel.h"

#include <stdio.h>
#include <stdlib.h>
#include <string.h>

#define MOST_OCTETS 4096
#define MOST_WORDS 1024

/* One store for each vector, the last InsertSubscriberData that it took, and whether updates wait for their
 * publication. A vector of the other profile is not run. */
typedef struct switch_state {
    camel_store store;
    camel_session session;
    camel_update dialogue;
    bool is_pending;
    bool is_run;
} switch_state;

static void end_with(const char *what, const char *where)
{
    fprintf(stderr, "run: %s: %s\n", what, where);
    exit(2);
}

static void need(camel_status status, const char *what)
{
    if (status != CAMEL_OK)
        end_with(what, camel_status_name(status));
}

static void end_vector(switch_state *state)
{
    camel_free(&state->dialogue);
    camel_free(&state->session);
    camel_free(&state->store);
}

static void begin_vector(switch_state *state, uint8_t profile)
{
    end_vector(state);
    need(camel_open(&state->store, &state->session, 1, 1000, profile, 1), "no store");
    state->is_pending = false;
    state->is_run = true;
}

/* The octets of words in hexadecimal. A word `-` has none. */
static size_t octets_of(char **words, size_t word_count, uint8_t *octets)
{
    size_t count = 0;
    for (size_t word = 0; word < word_count; word++)
        for (const char *at = words[word]; at[0] && at[1] && count < MOST_OCTETS; at += 2) {
            const char pair[3] = { at[0], at[1], 0 };
            octets[count++] = (uint8_t)strtoul(pair, NULL, 16);
        }
    return count;
}

/* The IMSI of a word; of `-`, as of a dialogue without one, its number is 0. */
static camel_imsi imsi_of(const char *word)
{
    camel_imsi imsi = { 0 };
    if (*word != '-')
        need(camel_imsi_of_digits((const uint8_t *)word, strlen(word), &imsi), word);
    return imsi;
}

static camel_status submit(switch_state *state, uint8_t operation, camel_imsi imsi, const uint8_t *octets, size_t count)
{
    uint64_t place;
    camel_status status = camel_submit_map(&state->store, operation, &imsi, octets, count, &place);
    if (status == CAMEL_OK && operation == CAMEL_INSERT_SUBSCRIBER_DATA) {
        camel_free(&state->dialogue);
        need(camel_update_of_map(operation, &imsi, octets, count, &state->dialogue, &place), "no update");
    }
    return status;
}

/* A further InsertSubscriberData of a dialogue: what it brings together with those before it is submitted. */
static camel_status join(switch_state *state, camel_imsi imsi, const uint8_t *octets, size_t count)
{
    uint64_t place;
    camel_update next = CAMEL_EMPTY, joined = CAMEL_EMPTY;
    camel_status status =
        camel_update_of_map(CAMEL_INSERT_SUBSCRIBER_DATA, &imsi, octets, count, &next, &place);
    if (status == CAMEL_OK)
        status = camel_update_join(&state->dialogue, &next, &joined);
    if (status == CAMEL_OK)
        status = camel_submit(&state->store, &joined);
    if (status == CAMEL_OK) {
        camel_free(&state->dialogue);
        need(camel_move(&state->dialogue, &joined), "no dialogue");
    }
    camel_free(&next);
    camel_free(&joined);
    return status;
}

/* What has no octets: a Register, and a ClearAll. */
static camel_status change(switch_state *state, uint8_t kind, camel_imsi imsi)
{
    camel_change one = { .kind = kind, .imsi = imsi };
    return camel_submit_change(&state->store, &one);
}

static camel_status update(switch_state *state, char **words, size_t word_count)
{
    static uint8_t octets[MOST_OCTETS];
    camel_imsi imsi = { 0 };
    size_t count = 0;
    if (word_count > 1) {
        imsi = imsi_of(words[1]);
        count = octets_of(words + 2, word_count - 2, octets);
    }
    state->is_pending = true;
    if (!strcmp(words[0], "register"))
        return change(state, CAMEL_UPDATE_REGISTER, imsi);
    if (!strcmp(words[0], "clear"))
        return change(state, CAMEL_UPDATE_CLEAR_ALL, imsi);
    if (!strcmp(words[0], "further"))
        return join(state, imsi, octets, count);
    if (!strcmp(words[0], "insert"))
        return submit(state, CAMEL_INSERT_SUBSCRIBER_DATA, imsi, octets, count);
    if (!strcmp(words[0], "delete"))
        return submit(state, CAMEL_DELETE_SUBSCRIBER_DATA, imsi, octets, count);
    if (strcmp(words[0], "cancel"))
        end_with("no step", words[0]);
    return submit(state, CAMEL_CANCEL_LOCATION, imsi, octets, count);
}

/* A call's words: its detection point, IMSI, basic service, destination, `f` or `n`, and cause. What has no value is
 * `-`. */
static camel_status decide(switch_state *state, char **words, camel_answer *answer)
{
    uint8_t octets[MOST_OCTETS];
    unsigned long cause = strtoul(words[6], NULL, 10);
    camel_event event = { .imsi = imsi_of(words[2]), .dp = (uint8_t)strtoul(words[1], NULL, 10),
                          .is_forwarded = words[5][0] == 'f', .cause = (uint8_t)cause };
    if (state->is_pending)
        need(camel_publish_to(&state->store, &state->session, 1), "nothing is published");
    state->is_pending = false;
    event.basic.is_bearer = words[3][0] == 'b';
    event.basic.code = (uint8_t)strtoul(words[3] + 1, NULL, 16);
    if ((event.dp == CAMEL_DP_COLLECTED_INFO || event.dp == CAMEL_DP_ROUTE_SELECT_FAILURE)
        && camel_address_of(octets, octets_of(words + 4, 1, octets), &event.destination) != CAMEL_OK)
        return CAMEL_MALFORMED;
    return camel_decide(&state->session, &event, answer);
}

static void print_answer(const camel_answer *answer)
{
    static const char *const reasons[CAMEL_REASONS] = { "", "unknown", "no-csi", "not-armed", "emergency", "criteria" };
    if (!answer->is_trigger) {
        printf("none %s\n", reasons[answer->reason]);
        return;
    }
    printf("trigger %u %lu ", answer->dp, (unsigned long)answer->key);
    for (unsigned at = 0; at < answer->scf.length; at++)
        printf("%02x", answer->scf.octets[at]);
    printf(" %s\n", answer->is_release ? "release" : "continue");
}

static void answer_step(switch_state *state, char **words, size_t word_count)
{
    camel_answer answer = { 0 };
    bool is_call = !strcmp(words[0], "call");
    camel_status status;
    if (is_call && word_count != 7)
        end_with("no call", words[0]);
    status = is_call ? decide(state, words, &answer) : update(state, words, word_count);
    if (status != CAMEL_OK)
        printf("refused %u\n", status == CAMEL_MALFORMED ? CAMEL_UNEXPECTED_DATA_VALUE : status);
    else if (is_call)
        print_answer(&answer);
    else
        puts("accepted");
}

/* Takes a line, whose place is printed before its answer if it is a step. */
static void take(switch_state *state, uint8_t profile, char *line, const char *file, unsigned number)
{
    char *words[MOST_WORDS], *expected = strstr(line, "=>");
    size_t count = 0;
    if (!strncmp(line, "vector ", 7))
        begin_vector(state, profile);
    else if (!strncmp(line, "profile ", 8))
        state->is_run = strtoul(line + 8, NULL, 10) == profile;
    if (*line == '#' || *line == '=' || !expected || !state->is_run)
        return;
    *expected = 0;
    for (char *word = strtok(line, " \n"); word && count < MOST_WORDS; word = strtok(NULL, " \n"))
        words[count++] = word;
    printf("%s:%u ", file, number);
    answer_step(state, words, count);
}

/* A line ends before one that does not begin with a space: the others go on with it. */
static void take_file(switch_state *state, uint8_t profile, const char *name)
{
    static char text[1 << 20];
    FILE *file = fopen(name, "r");
    size_t length = file ? fread(text, 1, sizeof text - 1, file) : 0;
    unsigned number = 1;
    if (!file || length == sizeof text - 1 || fclose(file))
        end_with("this file is not read", name);
    text[length] = 0;
    for (char *line = text, *end; *line; line = end) {
        unsigned first = number;
        for (end = line; *end; end++)
            if (*end == '\n') {
                number++;
                if (end[1] != ' ')
                    break;
                *end = ' ';
            }
        if (*end)
            *end++ = 0;
        take(state, profile, line, name, first);
    }
}

int main(int word_count, char **words)
{
    switch_state state = { CAMEL_EMPTY, CAMEL_EMPTY, CAMEL_EMPTY, false, false };
    if (word_count < 3)
        end_with("it is given a profile and files", "run PROFILE FILE..");
    for (int word = 2; word < word_count; word++)
        take_file(&state, (uint8_t)strtoul(words[1], NULL, 10), words[word]);
    end_vector(&state);
    return 0;
}
