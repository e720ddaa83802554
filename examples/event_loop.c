/* A switch with one event loop, over libwenqolo.a: writer and session are in one thread, and each handler leaves the
 * store published. It takes the data of a subscriber from one dialogue with the HLR at a time; what comes in another
 * one waits for its end, and so do calls. event_loop.cpp and bindings/rust/examples/event_loop.rs are the same switch.
 *
 * It reads events of one subscriber from standard input, a line each, and prints each line, and indented what it does
 * then. Indented lines are not read: of tests/library/event_loop.txt, which shows all events, it makes the same text.
 * It exits with 1 at the first line that is no event, and at the first call that does not do what is expected of it. */
#include "camel.h"

#include <limits.h>
#include <stdio.h>
#include <stdlib.h>
#include <string.h>

enum { LOCATION_UPDATE = 0, CALLS = 10, LONGEST = 20 /* octets of a called number that count */ };
#define NONE UINT_MAX

struct loop {
    camel_store store;
    camel_session session;
};

/* A call: its event, and the record of its set-up, which decides its later detection points. */
struct call {
    camel_event event;
    camel_subscriber kept;
};

/* What may have to wait: an operation of the HLR, or a SETUP. */
struct event {
    uint8_t operation; /* its local code, or 0 */
    unsigned number;   /* of the dialogue, or of the call */
    size_t count;
    uint8_t octets[64]; /* the argument, or the called number: in a switch the whole message */
    struct event *next;
};
static const char *const NAMES[] = { [0] = "set-up",
                                     [CAMEL_CANCEL_LOCATION] = "cancel",
                                     [CAMEL_INSERT_SUBSCRIBER_DATA] = "insert",
                                     [CAMEL_DELETE_SUBSCRIBER_DATA] = "delete" };
enum { OPERATIONS = sizeof NAMES / sizeof *NAMES };

/* What the switch has of a subscriber beside the store. */
struct subscriber {
    camel_imsi imsi;
    bool is_unconfirmed; /* the next access sends updateLocation (TS 23.007) */
    bool wants_update;   /* updateLocation is to be sent once no dialogue is current */
    unsigned current;    /* the dialogue whose data are taken, or NONE: the location update, which may be a restoreData,
                          * or one that the HLR began and that has published something. Of it: */
    bool registers;      /* a Register goes before its next operation */
    bool has_come;       /* an InsertSubscriberData, also if it was refused */
    camel_update insert; /* the operations that are published, as one Insert */
    struct event *waiting; /* events, in their order */
    struct call calls[CALLS];
};

/* How a dialogue ends: well; by an error which says that there is no subscription; by any other one, or an abort. */
enum end { WELL, GONE, BROKEN };

static void expect(const char *what, bool is_so)
{
    if (is_so)
        return;
    fprintf(stderr, "not so: %s\n", what);
    exit(1);
}

#define EXPECT(condition) expect(#condition, condition)

static void say_answer(const char *what, unsigned number, const camel_answer *answer)
{
    printf("    %s %u: front %lu, ", what, number, (unsigned long)answer->front);
    if (answer->is_trigger)
        printf("DP %u, service key %u\n", answer->dp, answer->key);
    else
        printf("no trigger, reason %u\n", answer->reason);
}

/* What the HLR is answered: that it is done, a user error of MAP, or a reject with the problem of an invoke. */
static void say_status(const struct event *event, camel_status status)
{
    unsigned error = camel_map_error_of(status);
    printf("    %s %u: ", NAMES[event->operation], event->number);
    if (error)
        printf("%s %u\n", error < CAMEL_MAP_REJECT ? "refused" : "rejected", error & 0xff);
    else
        puts("done");
}

/* Publishes updates, and the session shows them from here on. What the HLR is answered as refused is never shown. */
static camel_status commit(struct loop *loop, const camel_update *updates, size_t count)
{
    size_t rejected;
    return camel_commit(&loop->store, updates, count, &loop->session, 1, &rejected);
}

/* Publishes an update by itself, if the status of its data is CAMEL_OK, and frees it. */
static camel_status commit_one(struct loop *loop, camel_update *update, camel_status status)
{
    if (!status)
        status = commit(loop, update, 1);
    camel_free(update);
    return status;
}

/* The update of an operation: of an InsertSubscriberData one Insert, with what the dialogue has brought before. */
static camel_status update_of(const struct subscriber *subscriber, const struct event *event, camel_update *update)
{
    camel_update next = CAMEL_EMPTY;
    uint64_t place;
    camel_status status =
        camel_update_of_map(event->operation, &subscriber->imsi, event->octets, event->count, &next, &place);
    if (status)
        return status;
    if (event->operation != CAMEL_INSERT_SUBSCRIBER_DATA || !subscriber->insert.is_full)
        return camel_move(update, &next);
    status = camel_update_join(&subscriber->insert, &next, update);
    camel_free(&next);
    return status;
}

/* Publishes an operation, the first one of a location update behind a Register. What comes behind a
 * DeleteSubscriberData is not joined to what came before. */
static camel_status publish(struct loop *loop, struct subscriber *subscriber, const struct event *event)
{
    camel_change change = { .kind = CAMEL_UPDATE_REGISTER, .imsi = subscriber->imsi };
    camel_update updates[2] = { CAMEL_EMPTY, CAMEL_EMPTY };
    size_t first = subscriber->registers ? 0 : 1;
    camel_status status = camel_update_of(&change, &updates[0]);
    if (!status)
        status = update_of(subscriber, event, &updates[1]);
    if (!status)
        status = commit(loop, &updates[first], 2 - first);
    if (!status) {
        subscriber->registers = false;
        camel_free(&subscriber->insert);
        if (event->operation == CAMEL_INSERT_SUBSCRIBER_DATA)
            status = camel_move(&subscriber->insert, &updates[1]);
    }
    camel_free(&updates[0]);
    camel_free(&updates[1]);
    return status;
}

/* Takes an operation, and answers the HLR. If memory is refused, nothing of it is shown, and it is tried once more: a
 * switch does so by a timer, and answers the HLR if that fails too. CAMEL_HELD does not come here, since each handler
 * leaves its look. */
static void take(struct loop *loop, struct subscriber *subscriber, const struct event *event)
{
    camel_status status = publish(loop, subscriber, event);
    if (status == CAMEL_OUT_OF_MEMORY)
        status = publish(loop, subscriber, event);
    if (!status)
        subscriber->current = event->number;
    subscriber->has_come |= event->operation == CAMEL_INSERT_SUBSCRIBER_DATA;
    say_status(event, status);
}

/* Takes a CancelLocation. What a location update still brings is refused then: it has no record. */
static void cancel(struct loop *loop, struct subscriber *subscriber, const struct event *event)
{
    camel_update update = CAMEL_EMPTY;
    camel_status status = commit_one(loop, &update, update_of(subscriber, event, &update));
    if (!status) {
        subscriber->is_unconfirmed = true;
        subscriber->registers = false;
    }
    say_status(event, status);
}

/* Decides a set-up, and keeps the record for the later detection points. Without memory for it these are not asked. */
static camel_status set_up(struct loop *loop, const camel_imsi *imsi, const struct event *event, struct call *call,
                           camel_answer *answer)
{
    size_t count = event->count < LONGEST ? event->count : LONGEST;
    bool is_kept;
    camel_status status;
    camel_free(&call->kept);
    call->event = (camel_event){ .imsi = *imsi, .basic = { .code = 0x11 }, .dp = CAMEL_DP_COLLECTED_INFO };
    status = camel_address_of(event->octets, count, &call->event.destination);
    if (!status)
        status = camel_set_up(&loop->session, &call->event, answer, &call->kept, &is_kept);
    if (status == CAMEL_OUT_OF_MEMORY)
        status = camel_decide(&loop->session, &call->event, answer);
    return status;
}

/* Takes a SETUP. No call is set up by unconfirmed data, since the record may have only a part of what the HLR sends, or
 * without a record, as there is none if all data of the first location update were refused. */
static void decide(struct loop *loop, struct subscriber *subscriber, const struct event *event)
{
    struct call *call = &subscriber->calls[event->number];
    camel_answer answer;
    camel_status status = CAMEL_OK;
    if (!subscriber->is_unconfirmed) {
        status = set_up(loop, &subscriber->imsi, event, call, &answer);
        subscriber->is_unconfirmed = !status && answer.reason == CAMEL_REASON_UNKNOWN;
    }
    if (subscriber->is_unconfirmed)
        printf("    set-up %u: released with cause 41\n", event->number); /* temporary failure (Q.850) */
    else if (status)
        printf("    set-up %u: refused %u\n", event->number, status);
    else
        say_answer("set-up", event->number, &answer);
}

static void handle(struct loop *loop, struct subscriber *subscriber, const struct event *event)
{
    if (!event->operation)
        decide(loop, subscriber, event);
    else if (event->operation == CAMEL_CANCEL_LOCATION)
        cancel(loop, subscriber, event);
    else
        take(loop, subscriber, event);
}

/* The current dialogue is from now on the one of this number, or none. */
static void turn_to(struct subscriber *subscriber, unsigned number)
{
    camel_free(&subscriber->insert);
    subscriber->registers = number == LOCATION_UPDATE;
    subscriber->has_come = false;
    subscriber->current = number;
}

/* The switch sends updateLocation. Its end does not confirm the data if anything makes them unconfirmed from here. */
static void begin_update(struct subscriber *subscriber)
{
    turn_to(subscriber, LOCATION_UPDATE);
    subscriber->is_unconfirmed = subscriber->wants_update = false;
    puts("    updateLocation");
}

/* Whether an event waits for the end of the current dialogue, all of whose operations are one Insert: it would undo
 * another operation, and before its last one a call may meet rows without their criteria. */
static bool waits(const struct subscriber *subscriber, const struct event *event)
{
    bool is_of_current = event->operation && event->number == subscriber->current;
    return subscriber->current != NONE && !is_of_current && event->operation != CAMEL_CANCEL_LOCATION;
}

/* Takes up what does not wait any more. */
static void take_up(struct loop *loop, struct subscriber *subscriber)
{
    struct event **place = &subscriber->waiting;
    if (subscriber->wants_update && subscriber->current == NONE)
        begin_update(subscriber);
    while (*place) {
        struct event *event = *place;
        if (waits(subscriber, event)) {
            place = &event->next;
            continue;
        }
        *place = event->next;
        handle(loop, subscriber, event);
        free(event);
    }
}

/* An operation, or a SETUP or a call for a roaming number. If the data are unconfirmed, a call waits for a location
 * update. */
static void on_event(struct loop *loop, struct subscriber *subscriber, const struct event *event)
{
    struct event **place = &subscriber->waiting;
    if (!event->operation && subscriber->is_unconfirmed && subscriber->current == NONE)
        begin_update(subscriber);
    if (!waits(subscriber, event)) {
        handle(loop, subscriber, event);
        return;
    }
    while (*place)
        place = &(*place)->next;
    *place = malloc(sizeof *event);
    if (!*place) {
        say_status(event, CAMEL_OUT_OF_MEMORY);
        return;
    }
    **place = *event;
    printf("    %s %u: waits\n", NAMES[event->operation], event->number);
}

/* Drops what waits of a dialogue or of a call. Returns whether there was any. */
static bool drop(struct subscriber *subscriber, bool is_call, unsigned number)
{
    struct event **place = &subscriber->waiting;
    bool is_any = false;
    while (*place) {
        struct event *event = *place;
        if (event->number != number || is_call != !event->operation) {
            place = &event->next;
            continue;
        }
        *place = event->next;
        free(event);
        is_any = true;
    }
    return is_any;
}

/* The subscriber asks for a location update. */
static void on_update(struct loop *loop, struct subscriber *subscriber)
{
    subscriber->wants_update = true;
    take_up(loop, subscriber);
}

/* Without a subscription there is no record. If all went well and nothing came, the subscriber has no CSI. If an
 * InsertSubscriberData was refused, the record that was there stays. */
static camel_status end_update(struct loop *loop, const struct subscriber *subscriber, enum end end)
{
    uint8_t kind = end == GONE ? CAMEL_UPDATE_CANCEL : CAMEL_UPDATE_REGISTER;
    camel_change change = { .kind = kind, .imsi = subscriber->imsi };
    camel_update update = CAMEL_EMPTY;
    if (end == BROKEN || (end == WELL && (subscriber->has_come || !subscriber->registers)))
        return CAMEL_OK;
    return commit_one(loop, &update, camel_update_of(&change, &update));
}

/* The end of a dialogue. Unless it is a good one, the data are unconfirmed, but not by a dialogue that brought nothing.
 * A location update has failed if they are at its end. */
static void on_end(struct loop *loop, struct subscriber *subscriber, unsigned number, enum end end)
{
    bool is_current = number == subscriber->current, is_update = is_current && number == LOCATION_UPDATE;
    camel_status status = is_update ? end_update(loop, subscriber, end) : CAMEL_OK;
    if (drop(subscriber, false, number) || status || (is_current && end != WELL))
        subscriber->is_unconfirmed = true;
    if (is_update)
        printf("    location update: %s\n", subscriber->is_unconfirmed ? "failed" : "done");
    if (is_current)
        turn_to(subscriber, NONE);
    take_up(loop, subscriber);
}

/* How a dialogue ends by an error (TS 29.002). By any other one, as systemFailure (34), there may be a subscription. */
static enum end end_of(unsigned long error)
{
    enum { UNKNOWN_SUBSCRIBER = 1, UNKNOWN_EQUIPMENT = 7, ROAMING_NOT_ALLOWED = 8 };
    return error == UNKNOWN_SUBSCRIBER || error == UNKNOWN_EQUIPMENT || error == ROAMING_NOT_ALLOWED ? GONE : BROKEN;
}

/* A call that finds no way before it is answered, or ends busy or not answered, by what happened. */
static void on_failure(struct loop *loop, struct subscriber *subscriber, unsigned number, uint8_t dp, uint8_t cause)
{
    struct call *call = &subscriber->calls[number];
    camel_answer answer;
    call->event.dp = dp;
    call->event.cause = cause & 0x7f; /* bit 8 is an extension bit */
    if (call->kept.is_full) {
        EXPECT(camel_decide_kept(&loop->session, &call->kept, &call->event, &answer) == CAMEL_OK);
        say_answer("failure", number, &answer);
    }
    camel_free(&call->kept);
}

/* Either side clears a call, which may wait. */
static void on_clear(struct subscriber *subscriber, unsigned number)
{
    (void)drop(subscriber, true, number);
    camel_free(&subscriber->calls[number].kept);
}

static void begin_switch(struct loop *loop, struct subscriber *subscriber)
{
    uint64_t seed;
    *subscriber = (struct subscriber){ .is_unconfirmed = true, .current = NONE };
    EXPECT(camel_random_seed(&seed));
    EXPECT(camel_open(&loop->store, &loop->session, 1, CAMEL_MAX_UPDATES, CAMEL_PROFILE_1, seed) == CAMEL_OK);
    EXPECT(camel_imsi_of_digits((const uint8_t *)"262010000000001", 15, &subscriber->imsi) == CAMEL_OK);
}

static void end_switch(struct loop *loop, struct subscriber *subscriber)
{
    while (subscriber->waiting)
        (void)drop(subscriber, !subscriber->waiting->operation, subscriber->waiting->number);
    for (unsigned number = 0; number < CALLS; number++)
        camel_free(&subscriber->calls[number].kept);
    camel_free(&subscriber->insert);
    camel_free(&loop->session);
    EXPECT(camel_close(&loop->store) == CAMEL_OK);
}

static bool is(const char *word, const char *other)
{
    return strcmp(word, other) == 0;
}

static struct event event_of(uint8_t operation, unsigned number, const char *digits)
{
    struct event event = { .operation = operation, .number = number };
    uint8_t *octet = event.octets;
    while (event.count < sizeof event.octets && sscanf(digits + 2 * event.count, "%2hhx", octet++) == 1)
        event.count++;
    EXPECT(strlen(digits) == 2 * event.count);
    return event;
}

/* A line: an event, and the number of its dialogue or call. A word says what the octets, the cause or the error is that
 * comes last. At the guard timer of a dialogue the switch aborts it. */
static void on_line(struct loop *loop, struct subscriber *subscriber, const char *line)
{
    char word[12] = "", what[130] = "";
    unsigned number = 0;
    uint8_t operation = 0;
    EXPECT(sscanf(line, "%11s %u %*s %129s", word, &number, what) > 0 && number < CALLS);
    while (operation < OPERATIONS && !(NAMES[operation] && is(word, NAMES[operation])))
        operation++;
    if (operation < OPERATIONS) {
        struct event event = event_of(operation, number, what);
        on_event(loop, subscriber, &event);
    } else if (is(word, "update"))
        on_update(loop, subscriber);
    else if (is(word, "end"))
        on_end(loop, subscriber, number, WELL);
    else if (is(word, "error"))
        on_end(loop, subscriber, number, end_of(strtoul(what, NULL, 10)));
    else if (is(word, "abort") || is(word, "timer"))
        on_end(loop, subscriber, number, BROKEN);
    else if (is(word, "reset"))
        subscriber->is_unconfirmed = true;
    else if (is(word, "failure"))
        on_failure(loop, subscriber, number, CAMEL_DP_ROUTE_SELECT_FAILURE, (uint8_t)strtoul(what, NULL, 10));
    else if (is(word, "clear"))
        on_clear(subscriber, number);
    else {
        EXPECT(is(word, "restart"));
        end_switch(loop, subscriber);
        begin_switch(loop, subscriber);
    }
}

int main(void)
{
    struct loop loop = { CAMEL_EMPTY, CAMEL_EMPTY };
    struct subscriber subscriber;
    char line[160];
    begin_switch(&loop, &subscriber);
    while (fgets(line, sizeof line, stdin)) {
        if (line[0] == ' ')
            continue;
        fputs(line, stdout);
        if (line[0] != '#' && line[0] != '\n')
            on_line(&loop, &subscriber, line);
    }
    end_switch(&loop, &subscriber);
    return 0;
}
