/* What a switch with one event loop waits for: the longest location update, publication and set-up of a call, at so
 * many subscribers as are named. Each subscriber has a row and a listed number at detection point 2. An update is a
 * decoded InsertSubscriberData behind a Register, submitted as one, published, and seen by the one session, as
 * camel_commit does it in examples/event_loop.c of a dialogue with one operation. The subscribers are updated in no
 * order, and each tenth one is new. Times are by the clock of the thread's processor time, so that other programs do
 * not count. */
#define _GNU_SOURCE
#include "camel.h"

#include <stdio.h>
#include <stdlib.h>
#include <sys/resource.h>
#include <time.h>

enum { UPDATES = 200000, AT_ONCE = 10000, NEW = 10 };

#define OK(call)                                                                                                    \
    do {                                                                                                            \
        camel_status status_ = (call);                                                                              \
        if (status_) {                                                                                              \
            fprintf(stderr, "%s: %s\n", #call, camel_status_name(status_));                                         \
            exit(1);                                                                                                \
        }                                                                                                           \
    } while (0)

/* InsertSubscriberDataArg: the O-CSI with a row and a listed number at detection point 2. */
static const uint8_t ARGUMENT[] = {
    0x30, 0x2c, 0xad, 0x2a, 0xa0, 0x15, 0x30, 0x13, 0x30, 0x11, 0x0a, 0x01, 0x02, 0x02, 0x01, 0x64,
    0x80, 0x06, 0x91, 0x94, 0x71, 0x16, 0x00, 0x00, 0x81, 0x01, 0x00,
    0xa4, 0x11, 0x30, 0x0f, 0x0a, 0x01, 0x02, 0xa0, 0x0a, 0x80, 0x01, 0x01, 0xa1, 0x05, 0x04, 0x03, 0x91, 0x34, 0x61
};

struct loop {
    camel_store store;
    camel_session session;
};

/* How long the steps of one kind took, in nanoseconds. */
struct steps {
    const char *name;
    size_t count;
    double sum, longest;
};

static double now(void)
{
    struct timespec time;
    clock_gettime(CLOCK_THREAD_CPUTIME_ID, &time);
    return (double)time.tv_sec * 1e9 + (double)time.tv_nsec;
}

static void note(struct steps *steps, double took)
{
    steps->count++;
    steps->sum += took;
    if (took > steps->longest)
        steps->longest = took;
}

/* The IMSI of a subscriber: 15 digits in the highest octet, and their value below. */
static camel_imsi imsi_of(uint64_t subscriber)
{
    camel_imsi imsi = { (uint64_t)15 << 56 | (262010000000000 + subscriber) };
    return imsi;
}

/* A Register and the Insert that is decoded, submitted as one. */
static void submit(struct loop *loop, camel_imsi imsi)
{
    camel_change change = { .kind = CAMEL_UPDATE_REGISTER, .imsi = imsi };
    camel_update updates[2] = { CAMEL_EMPTY, CAMEL_EMPTY };
    uint64_t place;
    size_t rejected;

    OK(camel_update_of(&change, &updates[0]));
    OK(camel_update_of_map(CAMEL_INSERT_SUBSCRIBER_DATA, &imsi, ARGUMENT, sizeof ARGUMENT, &updates[1], &place));
    OK(camel_submit_all(&loop->store, updates, 2, &rejected));
    camel_free(&updates[0]);
    camel_free(&updates[1]);
}

/* The last publications bring both copies up, which the first update would wait for else. */
static void fill(struct loop *loop, uint64_t subscribers)
{
    for (uint64_t at = 0; at < subscribers; at++) {
        submit(loop, imsi_of(at));
        if (at % AT_ONCE == AT_ONCE - 1)
            OK(camel_publish_to(&loop->store, &loop->session, 1));
    }
    for (int copy = 0; copy < 2; copy++)
        OK(camel_publish_to(&loop->store, &loop->session, 1));
}

/* One location update, and the set-up of one call behind it. */
static void step(struct loop *loop, uint64_t subscriber, camel_event *event, struct steps *steps)
{
    camel_subscriber kept = CAMEL_EMPTY;
    camel_answer answer;
    bool is_there;
    double begun = now(), submitted, published, decided;

    event->imsi = imsi_of(subscriber);
    submit(loop, event->imsi);
    submitted = now();
    OK(camel_publish_to(&loop->store, &loop->session, 1));
    published = now();
    OK(camel_set_up(&loop->session, event, &answer, &kept, &is_there));
    camel_free(&kept);
    decided = now();
    if (!answer.is_trigger || !is_there) {
        fprintf(stderr, "the call triggers nothing\n");
        exit(1);
    }
    note(&steps[0], published - begun);
    note(&steps[1], published - submitted);
    note(&steps[2], decided - published);
}

static void measure(uint64_t subscribers)
{
    static const uint8_t called[] = { 0x91, 0x34, 0x61, 0x05 };
    struct loop loop = { CAMEL_EMPTY, CAMEL_EMPTY };
    struct steps steps[] = { { "location update", 0, 0, 0 }, { "its publication", 0, 0, 0 }, { "set-up", 0, 0, 0 } };
    camel_event event = { .dp = CAMEL_DP_COLLECTED_INFO, .basic = { .code = 0x11 } };
    uint64_t subscriber = 0, added = subscribers;
    struct rusage usage;

    OK(camel_address_of(called, sizeof called, &event.destination));
    OK(camel_open(&loop.store, &loop.session, 1, CAMEL_MAX_UPDATES, CAMEL_PROFILE_1, 1));
    fill(&loop, subscribers);
    for (int update = 0; update < UPDATES; update++) {
        subscriber = (subscriber + 7919) % subscribers;
        step(&loop, update % NEW ? subscriber : added++, &event, steps);
    }
    for (int at = 0; at < 3; at++)
        printf("%lu subscribers, %s: mean %.2f us, longest %.0f us\n", (unsigned long)subscribers, steps[at].name,
               steps[at].sum / (double)steps[at].count / 1e3, steps[at].longest / 1e3);
    getrusage(RUSAGE_SELF, &usage);
    printf("%lu subscribers, memory of the process: at most %ld MB\n", (unsigned long)subscribers,
           usage.ru_maxrss / 1024);
    camel_free(&loop.session);
    OK(camel_close(&loop.store));
}

int main(int count, char **words)
{
    for (int at = 1; at < count; at++)
        measure(strtoull(words[at], NULL, 10));
    return 0;
}
