/* A switch to begin with, over libwenqolo.a: a writer, two call-control threads, receipts over a queue of the switch's
 * own, a location update of which the HLR splits the data, a publication that is held and tried again, a restart, the
 * data of a call kept from detection point 2 to 4, and the end. It prints what it does, and exits with 1 at the first
 * call that does not do what is expected of it. */
#include "camel.h"

#include <pthread.h>
#include <stdio.h>
#include <stdlib.h>

enum { THREADS = 2, CALLS = 10000, ROOM = 8 };

/* Exits if a call does not return this status. */
static void expect(const char *what, camel_status status, camel_status wanted)
{
    if (status == wanted)
        return;
    fprintf(stderr, "%s: %s, and not %s\n", what, camel_status_name(status), camel_status_name(wanted));
    exit(1);
}

#define OK(call) expect(#call, call, CAMEL_OK)

/* A seed for a store. It is secret: whoever knows it could choose IMSIs that make look-ups slow. */
static uint64_t random_seed(void)
{
    uint64_t seed;
    if (!camel_random_seed(&seed)) {
        perror("camel_random_seed");
        exit(1);
    }
    return seed;
}

/* One receipt on its way to a thread: the writer puts it there, and the thread takes it. A later one says more. */
struct queue {
    pthread_mutex_t lock;
    camel_receipt receipt;
    bool is_full;
};

static void put(struct queue *queue, camel_receipt receipt)
{
    pthread_mutex_lock(&queue->lock);
    queue->receipt = receipt;
    queue->is_full = true;
    pthread_mutex_unlock(&queue->lock);
}

static bool take(struct queue *queue, camel_receipt *receipt)
{
    pthread_mutex_lock(&queue->lock);
    bool is_there = queue->is_full;
    *receipt = queue->receipt;
    queue->is_full = false;
    pthread_mutex_unlock(&queue->lock);
    return is_there;
}

/* A call-control thread: its session, the queue from the writer, the call that it decides, and how many triggered. */
struct caller {
    camel_session session;
    struct queue queue;
    camel_event event;
    unsigned long triggered;
};

static void *decide_calls(void *of)
{
    struct caller *caller = of;
    uint64_t front = 0;
    for (int call = 0; call < CALLS; call++) {
        camel_receipt receipt;
        camel_answer answer;
        if (take(&caller->queue, &receipt))
            OK(camel_learn(&caller->session, &receipt));
        OK(camel_decide(&caller->session, &caller->event, &answer));
        if (answer.front < front) {
            fprintf(stderr, "a session went back\n");
            exit(1);
        }
        front = answer.front;
        caller->triggered += answer.is_trigger;
    }
    return NULL;
}

static camel_event event_of(const camel_imsi *imsi, uint8_t dp)
{
    static const uint8_t destination[] = { 0x91, 0x34, 0x61, 0x05 };
    camel_event event = { .imsi = *imsi, .basic = { .is_bearer = false, .code = 0x11 }, .dp = dp, .cause = 1 };
    OK(camel_address_of(destination, sizeof destination, &event.destination));
    return event;
}

static void say(const char *what, const camel_answer *answer)
{
    printf("%s: front %lu, ", what, (unsigned long)answer->front);
    if (!answer->is_trigger) {
        printf("no trigger, reason %u\n", answer->reason);
        return;
    }
    printf("DP %u, service key %u, gsmSCF ", answer->dp, answer->key);
    for (int at = 0; at < answer->scf.length; at++)
        printf("%02x", answer->scf.octets[at]);
    printf(", %s\n", answer->is_release ? "release" : "continue");
}

/* The IMSIs 262010000000001 and 262010000000002, in TBCD octets as the dialogues with the HLR have them. */
static const uint8_t IMSI[] = { 0x62, 0x02, 0x01, 0x00, 0x00, 0x00, 0x00, 0xf1 };
static const uint8_t OTHER[] = { 0x62, 0x02, 0x01, 0x00, 0x00, 0x00, 0x00, 0xf2 };

/* What the HLR sends of a subscriber, in two operations of one dialogue, each as it comes in a TCAP invoke: rows at 2
 * and 4, and at 4 only for a destination that begins with 4316. */
static const uint8_t ROWS[] = {
    0x30, 0x2f, 0xad, 0x2d,                         /* InsertSubscriberDataArg, vlrCamelSubscriptionInfo [13] */
    0xa0, 0x2b, 0x30, 0x26,                         /* o-CSI [0], its o-BcsmCamelTDPDataList */
    0x30, 0x11, 0x0a, 0x01, 0x02, 0x02, 0x01, 0x64, /* a row: detection point 2, serviceKey 100, */
    0x80, 0x06, 0x91, 0x94, 0x71, 0x16, 0x00, 0x00, /* gsmSCF-Address [0], */
    0x81, 0x01, 0x00,                               /* defaultCallHandling [1] continueCall */
    0x30, 0x11, 0x0a, 0x01, 0x04, 0x02, 0x01, 0x65, /* a row: detection point 4, serviceKey 101, */
    0x80, 0x06, 0x91, 0x94, 0x71, 0x16, 0x00, 0x00, /* gsmSCF-Address [0], */
    0x81, 0x01, 0x01,                               /* defaultCallHandling [1] releaseCall */
    0x80, 0x01, 0x03                                /* camelCapabilityHandling [0]: phase 3 */
};
static const uint8_t CRITERIA[] = {
    0x30, 0x15, 0xad, 0x13,                         /* InsertSubscriberDataArg, vlrCamelSubscriptionInfo [13] */
    0xa4, 0x11, 0x30, 0x0f, 0x0a, 0x01, 0x04,       /* o-BcsmCamelTDP-CriteriaList [4]: detection point 4, */
    0xa0, 0x0a, 0x80, 0x01, 0x01,                   /* destinationNumberCriteria [0], matchType [0] enabling, */
    0xa1, 0x05, 0x04, 0x03, 0x91, 0x34, 0x61        /* destinationNumberList [1] */
};

/* A location update: a Register, which empties the record, and behind it what the HLR sends in the dialogue, as one
 * Insert. Both are accepted, or neither is. The HLR is answered by the first status that is not 0, or once both are
 * published. Here both operations have come in one TCAP message; event_loop.c also takes one after the other. */
static void update_location(camel_store *store, const camel_imsi *imsi)
{
    camel_change change = { .kind = CAMEL_UPDATE_REGISTER, .imsi = *imsi };
    camel_update updates[2] = { CAMEL_EMPTY, CAMEL_EMPTY }, rows = CAMEL_EMPTY, criteria = CAMEL_EMPTY;
    camel_update_parts parts;
    uint64_t place;
    size_t rejected;

    OK(camel_update_of(&change, &updates[0]));
    OK(camel_update_of_map(CAMEL_INSERT_SUBSCRIBER_DATA, imsi, ROWS, sizeof ROWS, &rows, &place));
    OK(camel_update_of_map(CAMEL_INSERT_SUBSCRIBER_DATA, imsi, CRITERIA, sizeof CRITERIA, &criteria, &place));
    OK(camel_update_join(&rows, &criteria, &updates[1]));
    OK(camel_submit_all(store, updates, 2, &rejected));
    OK(camel_publish(store));
    OK(camel_update_parts_of(&updates[1], &parts));
    printf("a location update: rows %u, criteria %u, CAMEL phase %u\n", parts.o_rows, parts.o_criteria,
           parts.o_capability);
    camel_free(&updates[0]);
    camel_free(&updates[1]);
    camel_free(&rows);
    camel_free(&criteria);
}

/* Publishes, and hands each thread the receipt. */
static void publish_to(camel_store *store, struct caller *callers)
{
    camel_receipt receipt;
    OK(camel_publish(store));
    OK(camel_receipt_of(store, &receipt));
    for (int thread = 0; thread < THREADS; thread++)
        put(&callers[thread].queue, receipt);
}

/* A look lets the first publication through, and holds up the second one. */
static void hold_publications(camel_store *store, camel_session *session, const camel_imsi *other)
{
    camel_change change = { .kind = CAMEL_UPDATE_REGISTER, .imsi = *other };
    uint64_t holders = 0;
    OK(camel_look(session));
    OK(camel_submit_change(store, &change));
    OK(camel_publish(store));
    change.kind = CAMEL_UPDATE_CANCEL;
    OK(camel_submit_change(store, &change));
    expect("a publication behind a look", camel_publish(store), CAMEL_HELD);
    OK(camel_holders(store, &holders));
    if (holders != (uint64_t)1 << THREADS) {
        fprintf(stderr, "another session holds the publication up\n");
        exit(1);
    }
    OK(camel_leave(session));
    OK(camel_publish(store));
    printf("a publication was held, and made again\n");
}

/* What goes through a restart: of each record the IMSI, and the argument that makes it. A switch has them in a file. */
struct record {
    camel_imsi imsi;
    camel_argument argument;
};

/* Writes the records of one front, and tells how many they are. */
static size_t dump(camel_session *session, struct record *records)
{
    camel_imsis imsis = CAMEL_EMPTY;
    bool is_there = true;
    size_t count = 0;

    OK(camel_look(session));
    OK(camel_imsis_of(session, &imsis));
    while (count < ROOM) {
        OK(camel_next_imsi(&imsis, &records[count].imsi, &is_there));
        if (!is_there)
            break;
        OK(camel_encode_record(session, &records[count].imsi, &records[count].argument, &is_there));
        count++;
    }
    OK(camel_leave(session));
    camel_free(&imsis);
    return count;
}

/* Submits a Register and the Insert of a record. */
static void restore(camel_store *store, const struct record *record)
{
    camel_change change = { .kind = CAMEL_UPDATE_REGISTER, .imsi = record->imsi };
    camel_update updates[2] = { CAMEL_EMPTY, CAMEL_EMPTY };
    uint64_t place;
    size_t rejected;

    OK(camel_update_of(&change, &updates[0]));
    OK(camel_update_of_map(CAMEL_INSERT_SUBSCRIBER_DATA, &record->imsi, record->argument.octets,
                           record->argument.count, &updates[1], &place));
    OK(camel_submit_all(store, updates, 2, &rejected));
    camel_free(&updates[0]);
    camel_free(&updates[1]);
}

/* A store opens empty. Restored from the records of the one before, it knows each subscriber. */
static void restart(camel_session *session, const camel_imsi *imsi)
{
    static struct record records[ROOM];
    camel_store restored = CAMEL_EMPTY;
    camel_session own = CAMEL_EMPTY;
    camel_event set_up = event_of(imsi, 2);
    camel_answer answer;
    size_t count = dump(session, records);

    OK(camel_open(&restored, &own, 1, CAMEL_MAX_UPDATES, CAMEL_PROFILE_1, random_seed()));
    for (size_t at = 0; at < count; at++)
        restore(&restored, &records[at]);
    OK(camel_publish(&restored));
    OK(camel_decide(&own, &set_up, &answer));
    printf("records that go through a restart: %lu\n", (unsigned long)count);
    say("set-up after the restart", &answer);
    camel_free(&own);
    OK(camel_close(&restored));
}

/* A call keeps the record of its set-up, whatever the HLR sends meanwhile. */
static void keep_data(camel_store *store, camel_session *session, const camel_imsi *imsi)
{
    camel_event set_up = event_of(imsi, 2), failure = event_of(imsi, 4);
    camel_subscriber kept = CAMEL_EMPTY;
    camel_change change = { .kind = CAMEL_UPDATE_DELETE, .imsi = *imsi, .withdrawal = { .everything = true } };
    camel_answer answer;
    bool is_there = false;

    OK(camel_set_up(session, &set_up, &answer, &kept, &is_there));
    say("set-up", &answer);
    OK(camel_submit_change(store, &change));
    OK(camel_publish(store));
    OK(camel_decide_kept(session, &kept, &failure, &answer));
    say("route select failure, by the data of the set-up", &answer);
    OK(camel_decide(session, &failure, &answer));
    say("the same by a new look", &answer);
    camel_free(&kept);
}

int main(void)
{
    camel_store store = CAMEL_EMPTY;
    camel_session sessions[THREADS + 1] = { CAMEL_EMPTY };
    static struct caller callers[THREADS];
    pthread_t threads[THREADS];
    camel_imsi imsi, other;
    uint64_t place;

    OK(camel_open(&store, sessions, THREADS + 1, CAMEL_MAX_UPDATES, CAMEL_PROFILE_1, random_seed()));
    OK(camel_imsi_of_tbcd(IMSI, sizeof IMSI, &imsi));
    OK(camel_imsi_of_tbcd(OTHER, sizeof OTHER, &other));
    update_location(&store, &imsi);
    expect("data of a subscriber who is not registered",
           camel_submit_map(&store, CAMEL_INSERT_SUBSCRIBER_DATA, &other, ROWS, sizeof ROWS, &place),
           CAMEL_UNIDENTIFIED_SUBSCRIBER);
    for (int thread = 0; thread < THREADS; thread++) {
        OK(camel_move(&callers[thread].session, &sessions[thread]));
        pthread_mutex_init(&callers[thread].queue.lock, NULL);
        callers[thread].event = event_of(&imsi, 2);
    }
    publish_to(&store, callers);
    for (int thread = 0; thread < THREADS; thread++)
        if (pthread_create(&threads[thread], NULL, decide_calls, &callers[thread]) != 0)
            return 1;
    for (int thread = 0; thread < THREADS; thread++) {
        pthread_join(threads[thread], NULL);
        printf("thread %d: %d calls, %lu triggered\n", thread, CALLS, callers[thread].triggered);
    }
    hold_publications(&store, &sessions[THREADS], &other);
    restart(&sessions[THREADS], &imsi);
    keep_data(&store, &sessions[THREADS], &imsi);

    OK(camel_look(&sessions[THREADS]));
    expect("an end behind a look", camel_close(&store), CAMEL_HELD);
    OK(camel_leave(&sessions[THREADS]));
    OK(camel_close(&store));
    expect("a look behind the end", camel_look(&sessions[THREADS]), CAMEL_NO_LOOK);
    camel_free(&sessions[THREADS]);
    for (int thread = 0; thread < THREADS; thread++)
        camel_free(&callers[thread].session);
    printf("the store has ended\n");
    return 0;
}
