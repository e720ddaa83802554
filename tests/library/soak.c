/* A soak: a writer and four call-control threads, the callers, over one store of PROFILE, by calls that SEED chooses.
 * Standard input has plans of what is submitted and asked. By each plan the threads make calls until each caller has
 * decided as many events as it says. If that is none, one caller asks for all events over one look. Then log.0 has what
 * the writer was given, and log.1 to log.4 what the callers were. At the end of the input the store ends. Nothing is
 * compared here: tests/support/soaking draws the plans, and audits and empties the logs. */
#define _GNU_SOURCE
#include "random.h"

#include <malloc.h>
#include <pthread.h>
#include <sched.h>
#include <stdatomic.h>
#include <sys/prctl.h>
#include <unistd.h>

enum { CALLERS = 4, COPIES = 8, LONG = 400 };

_Static_assert(sizeof(camel_row) == 24 && sizeof(camel_criteria) == 127 && sizeof(camel_event) == 40, "as in plan.py");

/* An update of a plan: octets of MAP, or, without an operation, a change with so many items in its lists: rows of the
 * O-CSI and of the VT-CSI, and then their criteria. */
struct update {
    uint32_t octet_count;
    uint8_t operation;
    uint8_t kind;
    uint8_t counts[LISTS];
    _Alignas(8) uint8_t octets[];
};

/* Behind the steps of a plan come the events, and then the updates. A step submits an update, whose dialogue has this
 * IMSI, or, if it has no place, publishes. */
static struct plan {
    uint64_t decisions, step_count, event_count;
    struct step {
        camel_imsi imsi;
        uint64_t place; /* of the update, in octets from the beginning of the plan */
    } steps[];
} *plan;

/* What an entry of a log is of, as in tests/support/soaking/audit.py. */
enum { SENT, PUBLISHED, ASKED, AGAIN, ROW, CRITERIA, COPIED, BY_COPY, ROW_OF_COPY, LEARNT, COUNTED };

/* An entry, behind which so many octets stand. */
struct entry {
    uint64_t front;
    uint64_t least;   /* the front that had been published when the look began */
    uint32_t subject; /* the number of a step or of an event */
    uint32_t number;  /* a status, or the place of a copy */
    uint32_t what;
    uint32_t octet_count;
};

static struct caller {
    camel_session *session;
    FILE *log;
    uint64_t random, asked, goal;
    uint64_t next_event;
    _Atomic uint64_t receipt; /* the front of one that is to be learnt, or 0 */
    camel_subscriber copies[COPIES];
    camel_imsi copied[COPIES]; /* whose record each is */
} callers[CALLERS];

static uint64_t number_of_store; /* in its receipts */
static uint32_t next_step;
static FILE *writer_log;
static atomic_uint at_work;
static _Atomic uint64_t published;

static bool read_plan(void)
{
    uint64_t octet_count;
    if (fread(&octet_count, sizeof octet_count, 1, stdin) != 1)
        return false;
    plan = realloc(plan, octet_count);
    if (!plan || fread(plan, octet_count, 1, stdin) != 1)
        abort();
    next_step = 0;
    return true;
}

static void note(FILE *log, struct entry entry, const void *octets, size_t octet_count)
{
    entry.octet_count = (uint32_t)octet_count;
    fwrite_unlocked(&entry, sizeof entry, 1, log);
    fwrite_unlocked(octets, 1, octet_count, log);
}

/* Callers. */

static void clear_rest(camel_isdn_address *address)
{
    for (int at = address->length; at < 9; at++)
        address->octets[at] = 0;
}

static void note_answer(FILE *log, struct entry entry, camel_answer *answer)
{
    entry.front = answer->front;
    clear_rest(&answer->scf);
    note(log, entry, &answer->key, offsetof(camel_answer, reason) + 1 - offsetof(camel_answer, key));
}

/* Notes a row as the answer to an event that triggers. That has a reason if the handling is neither 0 nor 1. */
static void note_row(FILE *log, struct entry entry, const camel_row *row, bool is_there)
{
    camel_answer answer = { .front = entry.front };
    if (is_there)
        answer = (camel_answer){ entry.front, row->key, row->scf, row->dp, row->handling == 1, true,
                                 row->handling > 1 };
    note_answer(log, entry, &answer);
}

/* The next event of the plan, whose number is written. */
static camel_event next_event(struct caller *caller, uint32_t *number)
{
    *number = (uint32_t)(caller->next_event++ % plan->event_count);
    return ((const camel_event *)(plan->steps + plan->step_count))[*number];
}

/* Has an event decided, and returns the front. Over a look it may also read what is stored for the detection point. */
static uint64_t ask(struct caller *caller, uint32_t what, uint64_t least, bool reads)
{
    struct entry entry = { .least = least, .what = what };
    camel_event event = next_event(caller, &entry.subject);
    camel_answer answer = { 0 };
    camel_row row;
    camel_criteria criteria;
    bool is_there = false;
    RETURNS(CAMEL_OK, camel_decide(caller->session, &event, &answer));
    caller->asked++;
    note_answer(caller->log, entry, &answer);
    if (!reads)
        return answer.front;
    entry = (struct entry){ .front = answer.front, .subject = entry.subject, .what = ROW };
    RETURNS(CAMEL_OK, camel_row_at(caller->session, &event.imsi, event.dp, &row, &is_there));
    note_row(caller->log, entry, &row, is_there);
    entry.what = CRITERIA;
    RETURNS(CAMEL_OK, camel_criteria_at(caller->session, &event.imsi, event.dp, &criteria, &is_there));
    for (int at = 0; is_there && at < 10; at++)
        clear_rest(&criteria.number.numbers[at]);
    note(caller->log, entry, &criteria, is_there ? sizeof criteria : 0);
    return answer.front;
}

/* Copies the record of the next event's subscriber, over a look. */
static void copy(struct caller *caller, uint64_t front)
{
    struct entry entry = { .front = front, .number = below(COPIES), .what = COPIED };
    camel_imsi imsi = next_event(caller, &entry.subject).imsi;
    bool is_there = false;
    camel_free(&caller->copies[entry.number]);
    RETURNS(CAMEL_OK, camel_keep(caller->session, &imsi, &caller->copies[entry.number], &is_there));
    caller->copied[entry.number] = imsi;
    note(caller->log, entry, &is_there, sizeof is_there);
}

/* Has an event decided by a copy, and reads its row. */
static void ask_copy(struct caller *caller)
{
    struct entry entry = { .number = below(COPIES), .what = BY_COPY };
    const camel_subscriber *at = &caller->copies[entry.number];
    camel_event event = next_event(caller, &entry.subject);
    camel_answer answer = { 0 };
    camel_row row;
    bool is_there = false;
    if (!at->is_full)
        return;
    event.imsi = caller->copied[entry.number];
    RETURNS(CAMEL_OK, camel_decide_kept(caller->session, at, &event, &answer));
    caller->asked++;
    note_answer(caller->log, entry, &answer);
    entry.front = answer.front;
    entry.what = ROW_OF_COPY;
    RETURNS(CAMEL_OK, camel_kept_row_at(at, event.dp, &row, &is_there));
    note_row(caller->log, entry, &row, is_there);
}

/* Asks for so many events over one look. */
static void look(struct caller *caller, uint64_t count, bool reads_all)
{
    uint64_t least = atomic_load(&published), front;
    RETURNS(CAMEL_OK, camel_look(caller->session));
    front = ask(caller, ASKED, least, reads_all || below(4) == 0);
    for (uint64_t left = count; left > 1; left--) {
        ask(caller, AGAIN, 0, reads_all || below(4) == 0);
        if (below(4) == 0)
            sched_yield();
    }
    copy(caller, front);
    RETURNS(CAMEL_OK, camel_leave(caller->session));
}

/* Learns a receipt that the writer has handed over. */
static void learn(struct caller *caller)
{
    camel_receipt receipt = { number_of_store, atomic_exchange(&caller->receipt, 0) };
    RETURNS(CAMEL_OK, camel_learn(caller->session, &receipt));
    note(caller->log, (struct entry){ .front = receipt.front, .what = LEARNT }, NULL, 0);
}

/* Makes the calls of a caller. A look in 200 is held for long, so that it holds publications up. */
static void *call(void *at)
{
    struct caller *caller = at;
    state = caller->random;
    while (caller->asked < caller->goal && !failed) {
        unsigned drawn = below(10);
        if (atomic_load_explicit(&caller->receipt, memory_order_relaxed) > 0)
            learn(caller);
        if (drawn == 0)
            look(caller, below(200) ? 1 + below(6) : LONG, false);
        else if (drawn == 1)
            ask_copy(caller);
        else
            ask(caller, ASKED, atomic_load(&published), false);
        if (below(64) == 0)
            usleep(below(200));
    }
    caller->random = state;
    at_work--;
    return NULL;
}

/* The writer. */

static camel_status submit_step(const struct step *step)
{
    const struct update *sent = (const void *)((const uint8_t *)plan + step->place);
    const uint8_t *counts = sent->counts;
    const camel_row *rows = (const void *)sent->octets;
    const camel_criteria *criteria = (const void *)(rows + counts[0] + counts[1]);
    camel_change change = { .kind = sent->kind, .imsi = step->imsi };
    uint64_t place;
    if (sent->operation > 0)
        return camel_submit_map(&store, sent->operation, &step->imsi, sent->octets, sent->octet_count, &place);
    change.insert.o = CSI(counts[0] ? rows : NULL, counts[0], counts[2] ? criteria : NULL, counts[2]);
    rows += counts[0];
    criteria += counts[2];
    change.insert.vt = CSI(counts[1] ? rows : NULL, counts[1], counts[3] ? criteria : NULL, counts[3]);
    return camel_submit_change(&store, &change);
}

/* Submits all up to the next step that publishes. At the end of the steps it goes on with the first one. */
static void submit_some(void)
{
    for (;;) {
        struct entry entry = { .subject = next_step++ % (uint32_t)plan->step_count, .what = SENT };
        if (plan->steps[entry.subject].place == 0)
            return;
        entry.number = submit_step(&plan->steps[entry.subject]);
        note(writer_log, entry, NULL, 0);
    }
}

/* How many pages of the program are in memory. */
static uint64_t resident(void)
{
    uint64_t pages = 0;
    FILE *file = fopen("/proc/self/statm", "r");
    IS(file && fscanf(file, "%*s %lu", &pages) == 1 && fclose(file) == 0);
    return pages;
}

/* Publishes all that is pending, and hands the receipt to some callers. If a look holds it up, it is tried again, at
 * times with further updates, but ever less often. */
static void publish(void)
{
    struct entry entry = { .number = CAMEL_HELD, .what = PUBLISHED };
    struct { camel_counts counts; uint64_t pages; } found;
    for (unsigned tries = 1; entry.number == CAMEL_HELD; tries++) {
        usleep(below(100));
        entry.number = camel_publish(&store);
        entry.front = receipt_of(&store).front;
        if (entry.number == CAMEL_OK)
            atomic_store(&published, entry.front);
        found.counts = counts_of(&store);
        found.pages = resident();
        note(writer_log, entry, &found, sizeof found);
        if (entry.number == CAMEL_HELD && below(3 * tries) == 0)
            submit_some();
    }
    for (int at = 0; at < CALLERS; at++)
        if (below(3) == 0)
            atomic_store(&callers[at].receipt, entry.front);
}

/* Makes the calls of a plan. */
static void soak(void)
{
    pthread_t threads[CALLERS];
    camel_decisions decisions;
    for (int at = 0; at < CALLERS && plan->decisions > 0; at++, at_work++) {
        callers[at].goal += plan->decisions;
        IS(pthread_create(&threads[at], NULL, call, &callers[at]) == 0);
    }
    while (at_work > 0) {
        submit_some();
        publish();
    }
    if (plan->decisions == 0)
        look(&callers[0], plan->event_count, true);
    for (int at = 0; at < CALLERS; at++) {
        IS(plan->decisions == 0 || pthread_join(threads[at], NULL) == 0);
        RETURNS(CAMEL_OK, camel_decisions_of(callers[at].session, &decisions));
        note(callers[at].log, (struct entry){ .what = COUNTED }, &decisions, sizeof decisions);
    }
    IS(fflush(NULL) == 0);
}

/* Ends the store, as each session finds. */
static void end(void)
{
    RETURNS(CAMEL_OK, camel_close(&store));
    for (int at = 0; at < CALLERS; at++) {
        RETURNS(CAMEL_NO_LOOK, camel_look(callers[at].session));
        camel_free(callers[at].session);
        for (int copy = 0; copy < COPIES; copy++)
            camel_free(&callers[at].copies[copy]);
    }
}

int main(int argc, char **argv)
{
    static camel_session sessions[CALLERS];
    /* By itself the C library comes to keep larger and larger pieces of memory that are freed, which would count as
     * memory that the store takes. So would huge pages. */
    IS(argc == 3 && mallopt(M_MMAP_THRESHOLD, 1 << 17) == 1 && prctl(PR_SET_THP_DISABLE, 1, 0, 0, 0) == 0);
    state = strtoull(argv[2], NULL, 10) * 0x9e3779b97f4a7c15u + 1;
    RETURNS(CAMEL_OK, camel_open(&store, sessions, CALLERS, CAMEL_MAX_UPDATES, (uint8_t)atoi(argv[1]), next()));
    number_of_store = receipt_of(&store).store;
    writer_log = fopen("log.0", "ab");
    for (int at = 0; at < CALLERS; at++) {
        char path[] = "log.1";
        path[4] = (char)(path[4] + at);
        callers[at] = (struct caller){ .session = &sessions[at], .log = fopen(path, "ab"), .random = next() };
        callers[at].next_event = below(1000000);
        IS(writer_log && callers[at].log);
    }
    while (!failed && read_plan()) {
        soak();
        printf("done\n");
        fflush(stdout);
    }
    end();
    return ended("soak");
}
