/* A switch with one event loop, over camel.hpp: event_loop.c in C++, which says what it reads and prints. Writer and
 * session are in one thread, and each handler leaves the store published. It takes the data of a subscriber from one
 * dialogue with the HLR at a time; what comes in another one waits for its end, and so do calls. */
#include "camel.hpp"

#include <algorithm>
#include <cstdio>
#include <iostream>
#include <map>
#include <random>
#include <sstream>
#include <stdexcept>
#include <string>

using camel::Operation;
using camel::Update;
using Status = camel::Result<void>;

/* A call: its event, and the record of its set-up, which decides its later detection points. */
struct Call {
    camel_event event;
    camel::Optional<camel::Subscriber> kept;
};

/* What may have to wait: an operation of the HLR, or a SETUP. */
struct Event {
    std::optional<Operation> operation;
    unsigned number;             /* of the dialogue, or of the call */
    std::vector<uint8_t> octets; /* the argument, or the called number */
};

constexpr unsigned LOCATION_UPDATE = 0;
constexpr size_t LONGEST = 20; /* so many octets of a called number count */

/* What the switch has of a subscriber beside the store. */
struct Subscriber {
    camel_imsi imsi;
    bool is_unconfirmed = true;           /* the next access sends updateLocation (TS 23.007) */
    bool wants_update = false;            /* updateLocation is to be sent once no dialogue is current */
    std::optional<unsigned> current = {}; /* the dialogue whose data are taken: the location update, which may be a
                                           * restoreData, or one that the HLR began and that has published something.
                                           * Of it: */
    bool registers = false;               /* a Register goes before its next operation */
    bool has_come = false;                /* an InsertSubscriberData, also if it was refused */
    std::optional<Update> insert = {};    /* the operations that are published, as one Insert */
    std::vector<Event> waiting = {};      /* in their order */
    std::map<unsigned, Call> calls = {};
};

/* How a dialogue ends: well; by an error which says that there is no subscription; by any other one, or an abort. */
enum class End { Well, Gone, Broken };

static void say(const char *what, unsigned number, const camel_answer &answer)
{
    std::printf("    %s %u: front %lu, ", what, number, (unsigned long)answer.front);
    if (answer.is_trigger)
        std::printf("DP %u, service key %u\n", answer.dp, answer.key);
    else
        std::printf("no trigger, reason %u\n", answer.reason);
}

static const char *name_of(const Event &event)
{
    if (!event.operation)
        return "set-up";
    switch (*event.operation) {
    case Operation::InsertSubscriberData: return "insert";
    case Operation::DeleteSubscriberData: return "delete";
    default: return "cancel";
    }
}

/* What the HLR is answered: that it is done, a user error of MAP, or a reject with the problem of an invoke. */
static void say(const Event &event, Status status)
{
    unsigned error = camel_map_error_of(status.status());
    std::printf("    %s %u: ", name_of(event), event.number);
    if (error)
        std::printf("%s %u\n", error < CAMEL_MAP_REJECT ? "refused" : "rejected", error & 0xff);
    else
        std::puts("done");
}

/* The update of an operation: of an InsertSubscriberData one Insert, with what the dialogue has brought before. */
static camel::Result<Update> update_of(const Subscriber &subscriber, const Event &event)
{
    camel::Result<Update> next =
        Update::of_map(*event.operation, subscriber.imsi, { event.octets.data(), event.octets.size() });
    if (!next || *event.operation != Operation::InsertSubscriberData || !subscriber.insert)
        return next;
    return subscriber.insert->join(*next);
}

/* The current dialogue is from now on the one of this number, or none. */
static void turn_to(Subscriber &subscriber, std::optional<unsigned> number)
{
    subscriber.insert.reset();
    subscriber.registers = number == LOCATION_UPDATE;
    subscriber.has_come = false;
    subscriber.current = number;
}

/* The switch sends updateLocation. Its end does not confirm the data if anything makes them unconfirmed from here. */
static void begin_update(Subscriber &subscriber)
{
    turn_to(subscriber, LOCATION_UPDATE);
    subscriber.is_unconfirmed = subscriber.wants_update = false;
    std::puts("    updateLocation");
}

/* Whether an event waits for the end of the current dialogue, all of whose operations are one Insert: it would undo
 * another operation, and before its last one a call may meet rows without their criteria. */
static bool waits(const Subscriber &subscriber, const Event &event)
{
    bool is_of_current = event.operation && event.number == subscriber.current;
    return subscriber.current && !is_of_current && event.operation != Operation::CancelLocation;
}

/* Drops what waits of a dialogue or of a call. Returns whether there was any. */
static bool drop(Subscriber &subscriber, bool is_call, unsigned number)
{
    std::vector<Event> &waiting = subscriber.waiting;
    auto is_of = [=](const Event &event) { return event.number == number && is_call == !event.operation; };
    auto end = std::remove_if(waiting.begin(), waiting.end(), is_of);
    bool is_any = end != waiting.end();
    waiting.erase(end, waiting.end());
    return is_any;
}

/* Either side clears a call, which may wait. */
static void on_clear(Subscriber &subscriber, unsigned number)
{
    drop(subscriber, true, number);
    subscriber.calls.erase(number);
}

class Loop {
public:
    explicit Loop(camel::Store::Opened opened)
        : store_(std::move(opened.store)), session_(std::move(opened.sessions.front()))
    {
    }

    /* An operation, or a SETUP or a call for a roaming number. If the data are unconfirmed, a call waits for a location
     * update. */
    void on_event(Subscriber &subscriber, Event event)
    {
        if (!event.operation && subscriber.is_unconfirmed && !subscriber.current)
            begin_update(subscriber);
        if (!waits(subscriber, event)) {
            handle(subscriber, event);
            return;
        }
        std::printf("    %s %u: waits\n", name_of(event), event.number);
        subscriber.waiting.push_back(std::move(event));
    }

    /* The subscriber asks for a location update. */
    void on_update(Subscriber &subscriber)
    {
        subscriber.wants_update = true;
        take_up(subscriber);
    }

    /* The end of a dialogue. Unless it is a good one, the data are unconfirmed, but not by a dialogue that brought
     * nothing. A location update has failed if they are at its end. */
    void on_end(Subscriber &subscriber, unsigned number, End end)
    {
        bool is_current = subscriber.current == number, is_update = is_current && number == LOCATION_UPDATE;
        Status status = is_update ? end_update(subscriber, end) : Status();
        if (drop(subscriber, false, number) || !status || (is_current && end != End::Well))
            subscriber.is_unconfirmed = true;
        if (is_update)
            std::printf("    location update: %s\n", subscriber.is_unconfirmed ? "failed" : "done");
        if (is_current)
            turn_to(subscriber, std::nullopt);
        take_up(subscriber);
    }

    /* A call that finds no way before it is answered, or ends busy or not answered, by what happened. */
    void on_failure(Subscriber &subscriber, unsigned number, uint8_t dp, uint8_t cause)
    {
        auto call = subscriber.calls.find(number);
        if (call == subscriber.calls.end())
            return;
        call->second.event.dp = dp;
        call->second.event.cause = cause & 0x7f; /* bit 8 is an extension bit */
        if (call->second.kept)
            say("failure", number, *call->second.kept->decide(session_, call->second.event));
        subscriber.calls.erase(call);
    }

private:
    /* Publishes an update, and the session shows it from here on. What the HLR is answered as refused is never
     * shown. */
    Status commit(const camel::Result<Update> &update)
    {
        if (!update)
            return camel::Failure{ update.status() };
        return store_.commit({ &update.value(), 1 }, { &session_, 1 });
    }

    /* Publishes an operation, the first one of a location update behind a Register. What comes behind a
     * DeleteSubscriberData is not joined to what came before. */
    Status publish(Subscriber &subscriber, const Event &event)
    {
        camel::Result<Update> anew = Update::of_register(subscriber.imsi), update = update_of(subscriber, event);
        if (!anew || !update)
            return camel::Failure{ anew ? update.status() : anew.status() };
        Update updates[] = { *std::move(anew), *std::move(update) };
        size_t first = subscriber.registers ? 0 : 1;
        Status status = store_.commit({ updates + first, 2 - first }, { &session_, 1 });
        if (!status)
            return status;
        subscriber.registers = false;
        subscriber.insert.reset();
        if (*event.operation == Operation::InsertSubscriberData)
            subscriber.insert = std::move(updates[1]);
        return status;
    }

    /* Takes an operation, and answers the HLR. If memory is refused, nothing of it is shown, and it is tried once more:
     * a switch does so by a timer, and answers the HLR if that fails too. CAMEL_HELD does not come here, since each
     * handler leaves its look. */
    void take(Subscriber &subscriber, const Event &event)
    {
        Status status = publish(subscriber, event);
        if (status.status() == CAMEL_OUT_OF_MEMORY)
            status = publish(subscriber, event);
        if (status)
            subscriber.current = event.number;
        subscriber.has_come |= *event.operation == Operation::InsertSubscriberData;
        say(event, status);
    }

    /* Takes a CancelLocation. What a location update still brings is refused then: it has no record. */
    void cancel(Subscriber &subscriber, const Event &event)
    {
        Status status = commit(update_of(subscriber, event));
        if (status) {
            subscriber.is_unconfirmed = true;
            subscriber.registers = false;
        }
        say(event, status);
    }

    /* Decides a set-up, and keeps the record for the later detection points. Without memory for it these are not
     * asked. */
    camel::Result<camel_answer> set_up(camel_imsi imsi, const Event &event, Call &call)
    {
        auto called = camel::address_of(event.octets.data(), std::min(event.octets.size(), LONGEST));
        if (!called)
            return camel::Failure{ called.status() };
        call.event = { imsi, *called, { false, 0x11 }, CAMEL_DP_COLLECTED_INFO, false, 0 };
        camel::Result<camel::SetUp> set_up = session_.set_up(call.event);
        if (set_up.status() == CAMEL_OUT_OF_MEMORY)
            return session_.decide(call.event);
        if (!set_up)
            return camel::Failure{ set_up.status() };
        call.kept = std::move(set_up->kept);
        return set_up->answer;
    }

    /* Takes a SETUP. No call is set up by unconfirmed data, since the record may have only a part of what the HLR
     * sends, or without a record, as there is none if all data of the first location update were refused. */
    void decide(Subscriber &subscriber, const Event &event)
    {
        camel::Result<camel_answer> answer = camel::Failure{ CAMEL_OK };
        if (!subscriber.is_unconfirmed) {
            answer = set_up(subscriber.imsi, event, subscriber.calls[event.number]);
            subscriber.is_unconfirmed = answer && camel::reason_of(*answer) == camel::Reason::Unknown;
        }
        if (subscriber.is_unconfirmed)
            std::printf("    set-up %u: released with cause 41\n", event.number); /* temporary failure (Q.850) */
        else if (answer)
            say("set-up", event.number, *answer);
        else
            std::printf("    set-up %u: refused %u\n", event.number, answer.status());
    }

    void handle(Subscriber &subscriber, const Event &event)
    {
        if (!event.operation)
            decide(subscriber, event);
        else if (*event.operation == Operation::CancelLocation)
            cancel(subscriber, event);
        else
            take(subscriber, event);
    }

    /* Takes up what does not wait any more. */
    void take_up(Subscriber &subscriber)
    {
        if (subscriber.wants_update && !subscriber.current)
            begin_update(subscriber);
        for (Event &event : std::exchange(subscriber.waiting, {})) {
            if (waits(subscriber, event))
                subscriber.waiting.push_back(std::move(event));
            else
                handle(subscriber, event);
        }
    }

    /* Without a subscription there is no record. If all went well and nothing came, the subscriber has no CSI. If an
     * InsertSubscriberData was refused, the record that was there stays. */
    Status end_update(const Subscriber &subscriber, End end)
    {
        if (end == End::Broken || (end == End::Well && (subscriber.has_come || !subscriber.registers)))
            return {};
        return commit(end == End::Gone ? Update::of_cancel(subscriber.imsi) : Update::of_register(subscriber.imsi));
    }

    camel::Store store_;
    camel::Session session_;
};

static Loop begin_switch()
{
    std::random_device random;
    return Loop(*camel::Store::open(1, camel::MAX_UPDATES, camel::Profile::One, uint64_t(random()) << 32 | random()));
}

static Subscriber begin_subscriber()
{
    return { *camel::imsi_of_digits("262010000000001") };
}

static unsigned number_of(const std::string &digits, int base)
{
    size_t end = 0;
    unsigned long number = std::stoul(digits, &end, base);
    if (end != digits.size())
        throw std::invalid_argument(digits);
    return static_cast<unsigned>(number);
}

static Event event_of(std::optional<Operation> operation, unsigned number, const std::string &digits)
{
    Event event = { operation, number, {} };
    for (size_t at = 0; at < digits.size(); at += 2)
        event.octets.push_back(static_cast<uint8_t>(number_of(digits.substr(at, 2), 16)));
    return event;
}

/* How a dialogue ends by an error (TS 29.002). By any other one, as systemFailure (34), there may be a subscription. */
static End end_of(unsigned error)
{
    constexpr unsigned UNKNOWN_SUBSCRIBER = 1, UNKNOWN_EQUIPMENT = 7, ROAMING_NOT_ALLOWED = 8;
    bool is_gone = error == UNKNOWN_SUBSCRIBER || error == UNKNOWN_EQUIPMENT || error == ROAMING_NOT_ALLOWED;
    return is_gone ? End::Gone : End::Broken;
}

/* A line: an event, and the number of its dialogue or call. A word says what the octets, the cause or the error is that
 * comes last. At the guard timer of a dialogue the switch aborts it. */
static void on_line(Loop &loop, Subscriber &subscriber, const std::string &line)
{
    std::string word, name, what;
    unsigned number = 0;
    std::istringstream(line) >> word >> number >> name >> what;
    if (word == "set-up")
        loop.on_event(subscriber, event_of({}, number, what));
    else if (word == "insert")
        loop.on_event(subscriber, event_of(Operation::InsertSubscriberData, number, what));
    else if (word == "delete")
        loop.on_event(subscriber, event_of(Operation::DeleteSubscriberData, number, what));
    else if (word == "cancel")
        loop.on_event(subscriber, event_of(Operation::CancelLocation, number, what));
    else if (word == "update")
        loop.on_update(subscriber);
    else if (word == "end")
        loop.on_end(subscriber, number, End::Well);
    else if (word == "error")
        loop.on_end(subscriber, number, end_of(number_of(what, 10)));
    else if (word == "abort" || word == "timer")
        loop.on_end(subscriber, number, End::Broken);
    else if (word == "reset")
        subscriber.is_unconfirmed = true;
    else if (word == "failure")
        loop.on_failure(subscriber, number, CAMEL_DP_ROUTE_SELECT_FAILURE, static_cast<uint8_t>(number_of(what, 10)));
    else if (word == "clear")
        on_clear(subscriber, number);
    else if (word == "restart") {
        subscriber = begin_subscriber();
        loop = begin_switch();
    } else
        throw std::invalid_argument(line);
}

int main()
{
    Loop loop = begin_switch();
    Subscriber subscriber = begin_subscriber();
    for (std::string line; std::getline(std::cin, line);) {
        if (line.compare(0, 1, " ") == 0)
            continue;
        std::puts(line.c_str());
        if (!line.empty() && line.front() != '#')
            on_line(loop, subscriber, line);
    }
}
