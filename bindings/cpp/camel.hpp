/* camel.hpp: classes of C++17 over camel.h, for its library libwenqolo.a.
 *
 * A Store is the writer's, and each Session is of one call-control thread. Store, Session, Look, Subscriber, Update and
 * Imsis move, are not copied, and free what they hold at their end, and when another is assigned to them. One that was
 * made by its default constructor, or moved from, holds nothing: its calls return CAMEL_WRONG_HANDLE when their
 * arguments are valid; leaving such a Look is allowed. An object is in one call at a time, but may be in several const
 * ones; different objects may be in calls at the same time. All else is plain data, the structs of camel.h.
 *
 * A call returns a Result: its value, or the status that says why it did nothing, with what camel.h says of it. Nothing
 * throws but the vector of open. Beside what camel.h leaves unchecked, one thing is left to the caller: a session is
 * neither moved nor ended while a Look of it lives. */
#ifndef CAMEL_HPP
#define CAMEL_HPP

#include "camel.h"

#include <array>
#include <exception>
#include <optional>
#include <string_view>
#include <type_traits>
#include <utility>
#include <vector>

namespace camel {

inline constexpr size_t MAX_SESSIONS = CAMEL_MAX_SESSIONS;
inline constexpr uint64_t MAX_UPDATES = CAMEL_MAX_UPDATES;
inline constexpr size_t MAX_ARGUMENT = CAMEL_MAX_ARGUMENT;

/* A status that is not CAMEL_OK, on its way into a Result. */
struct Failure {
    camel_status status;
};

/* A value that may not be there. Reading a value that is absent calls std::terminate, in release builds too. */
template <class T>
class Optional {
public:
    Optional() = default;
    Optional(T value) noexcept : value_(std::move(value)) {}

    explicit operator bool() const noexcept { return value_.has_value(); }
    T &value() & noexcept { return *there(value_); }
    T &&value() && noexcept { return *std::move(there(value_)); }
    const T &value() const & noexcept { return *there(value_); }
    T &operator*() & noexcept { return value(); }
    T &&operator*() && noexcept { return std::move(*this).value(); }
    const T &operator*() const & noexcept { return value(); }
    T *operator->() noexcept { return &value(); }
    const T *operator->() const noexcept { return &value(); }

private:
    template <class Value>
    static Value &there(Value &value) noexcept
    {
        if (!value)
            std::terminate();
        return value;
    }

    std::optional<T> value_;
};

/* A value, or the status that says why there is none. */
template <class T>
class [[nodiscard]] Result : public Optional<T> {
public:
    Result(T value) noexcept : Optional<T>(std::move(value)) {}
    Result(Failure failure) noexcept : status_(failure.status) {}

    camel_status status() const noexcept { return status_; }

private:
    camel_status status_ = CAMEL_OK;
};

/* What a call found, nothing, or the status that says why it failed. It does not convert to bool, which could mean two
 * things. ok(): the call succeeded. is_there(): it found a value. Check both before you read it. */
template <class T>
class [[nodiscard]] Maybe : private Optional<T> {
public:
    Maybe(Optional<T> found) noexcept : Optional<T>(std::move(found)) {}
    Maybe(Failure failure) noexcept : status_(failure.status) {}

    using Optional<T>::value;
    using Optional<T>::operator*;
    using Optional<T>::operator->;
    bool ok() const noexcept { return status_ == CAMEL_OK; }
    bool is_there() const noexcept { return Optional<T>::operator bool(); }
    camel_status status() const noexcept { return status_; }

private:
    camel_status status_ = CAMEL_OK;
};

/* Whether a call without a value did what it is for. */
template <>
class [[nodiscard]] Result<void> {
public:
    Result() = default;
    Result(Failure failure) noexcept : status_(failure.status) {}

    explicit operator bool() const noexcept { return status_ == CAMEL_OK; }
    camel_status status() const noexcept { return status_; }

private:
    camel_status status_ = CAMEL_OK;
};

/* Octets of the caller's. */
struct Octets {
    const uint8_t *data;
    size_t count;
};

/* An operation of MAP by which the HLR changes subscriber data: its local code (TS 29.002). */
enum class Operation : uint8_t {
    CancelLocation = CAMEL_CANCEL_LOCATION,
    InsertSubscriberData = CAMEL_INSERT_SUBSCRIBER_DATA,
    DeleteSubscriberData = CAMEL_DELETE_SUBSCRIBER_DATA
};

/* The profiles under which a store decides, the detection points at which calls are asked (TS 23.078), and why no
 * service is invoked. */
enum class Profile : uint8_t { One = CAMEL_PROFILE_1, Two = CAMEL_PROFILE_2 };
enum class DetectionPoint : uint8_t {
    CollectedInfo = CAMEL_DP_COLLECTED_INFO,
    RouteSelectFailure = CAMEL_DP_ROUTE_SELECT_FAILURE,
    TermAttemptAuthorized = CAMEL_DP_TERM_ATTEMPT_AUTHORIZED,
    TBusy = CAMEL_DP_T_BUSY,
    TNoAnswer = CAMEL_DP_T_NO_ANSWER
};
enum class Reason : uint8_t {
    None = CAMEL_REASON_NONE, /* one is */
    Unknown = CAMEL_REASON_UNKNOWN,
    NoCsi = CAMEL_REASON_NO_CSI,
    NotArmed = CAMEL_REASON_NOT_ARMED,
    Emergency = CAMEL_REASON_EMERGENCY,
    Criteria = CAMEL_REASON_CRITERIA
};
inline Reason reason_of(const camel_answer &answer) noexcept { return static_cast<Reason>(answer.reason); }

/* What is made of the octets of an argument. If nothing is, `place` is the octet of the argument, from 0, at which its
 * first fault is, or empty if the fault is none of the argument. */
template <class T>
class [[nodiscard]] Decoded : public Result<T> {
public:
    using Result<T>::Result;
    Decoded() = default;
    Decoded(camel_status status, std::optional<uint64_t> place) noexcept : Result<T>(Failure{ status }), place_(place)
    {
    }

    std::optional<uint64_t> place() const noexcept { return place_; }

private:
    std::optional<uint64_t> place_;
};

/* Whether octets were submitted. */
using MapResult = Decoded<void>;

/* Whether updates were submitted, or committed. `rejected` is the index of the one that the store rejects, if it
 * rejects one, and not when memory is refused. */
class [[nodiscard]] AllResult : public Result<void> {
public:
    AllResult(camel_status status, std::optional<size_t> rejected) noexcept
        : Result(Failure{ status }), rejected_(rejected)
    {
    }

    std::optional<size_t> rejected() const noexcept { return rejected_; }

private:
    std::optional<size_t> rejected_;
};

namespace detail {

inline Result<void> done(camel_status status) noexcept
{
    if (status == CAMEL_OK)
        return {};
    return Failure{ status };
}

/* The value that a call of the library writes last. */
template <class T, class Call, class... Given>
Result<T> read(Call call, Given... given) noexcept
{
    T value{};
    if (camel_status status = call(given..., &value))
        return Failure{ status };
    return value;
}

/* Makes a call of the library by the octets of an argument, the operation and the IMSI of the dialogue. */
template <class Call>
MapResult by_argument(Operation operation, std::optional<camel_imsi> imsi, Octets argument, Call call) noexcept
{
    if (imsi && imsi->number == 0) /* to the library, this number says that the dialogue has no IMSI */
        return MapResult(CAMEL_MALFORMED, {});
    camel_imsi given = imsi.value_or(camel_imsi{ 0 });
    uint64_t place = CAMEL_NO_OCTET;
    camel_status status = call(static_cast<uint8_t>(operation), &given, argument.data, argument.count, &place);
    if (status == CAMEL_OK)
        return MapResult();
    return MapResult(status, place == CAMEL_NO_OCTET ? std::nullopt : std::optional(place));
}

/* What a call of the library writes if it is there. */
template <class T, class Call, class... Given>
Maybe<T> find(Call call, Given... given) noexcept
{
    T value{};
    bool is_there = false;
    if (camel_status status = call(given..., &value, &is_there))
        return Failure{ status };
    return is_there ? Optional<T>(value) : Optional<T>();
}

/* A handle that one object has: a move copies its bytes, and empties the old ones. */
template <class Raw>
class Owned {
public:
    Owned() = default;
    explicit Owned(Raw &raw) noexcept : raw_(std::exchange(raw, Raw{})) {}
    Owned(Owned &&other) noexcept : raw_(std::exchange(other.raw_, Raw{})) {}
    Owned &operator=(Owned &&other) noexcept
    {
        Owned taken(std::move(other)); /* before what is here is freed, which may be the same */
        std::swap(raw_, taken.raw_);
        return *this;
    }
    ~Owned()
    {
        if (raw_.is_full)
            camel_free(&raw_);
    }
    Raw *at() noexcept { return &raw_; }
    const Raw *at() const noexcept { return &raw_; }

private:
    Raw raw_{};
};

/* Where a list lies, or null if it did not come. A vector of none may lie nowhere, and comes all the same. */
template <class Item>
CAMEL_INLINE const Item *items_of(const std::optional<std::vector<Item>> &list) noexcept
{
    static constexpr Item none{};
    if (!list)
        return nullptr;
    return list->empty() ? &none : list->data();
}

/* The lists that came of a CSI, where they lie. */
inline camel_sent_csi sent_of(const std::optional<std::vector<camel_row>> &rows,
                              const std::optional<std::vector<camel_criteria>> &criteria) noexcept
{
    return { items_of(rows), rows ? rows->size() : 0, items_of(criteria), criteria ? criteria->size() : 0 };
}

} // namespace detail

/* Data, made once per call: CAMEL_MALFORMED if they are none. */
inline Result<camel_imsi> imsi_of_tbcd(const uint8_t *octets, size_t count) noexcept
{
    return detail::read<camel_imsi>(camel_imsi_of_tbcd, octets, count);
}

inline Result<camel_imsi> imsi_of_digits(std::string_view digits) noexcept
{
    auto characters = reinterpret_cast<const uint8_t *>(digits.data());
    return detail::read<camel_imsi>(camel_imsi_of_digits, characters, digits.size());
}

inline Result<camel_address> address_of(const uint8_t *octets, size_t count) noexcept
{
    return detail::read<camel_address>(camel_address_of, octets, count);
}

inline Result<camel_isdn_address> isdn_address_of(const uint8_t *octets, size_t count) noexcept
{
    return detail::read<camel_isdn_address>(camel_isdn_address_of, octets, count);
}

/* The digits of an IMSI: as characters with a 0 behind them, and as TBCD octets. CAMEL_MALFORMED if it is none. */
inline Result<camel_imsi_digits> digits_of_imsi(camel_imsi imsi) noexcept
{
    return detail::read<camel_imsi_digits>(camel_digits_of_imsi, &imsi);
}

inline Result<camel_imsi_tbcd> tbcd_of_imsi(camel_imsi imsi) noexcept
{
    return detail::read<camel_imsi_tbcd>(camel_tbcd_of_imsi, &imsi);
}

/* The lists of an Insert. One that is not there did not come, and one that came has 1 to 10 items. Those of t_criteria
 * have neither a number nor a call type. */
struct Csis {
    std::optional<std::vector<camel_row>> o;
    std::optional<std::vector<camel_criteria>> o_criteria;
    std::optional<std::vector<camel_row>> vt;
    std::optional<std::vector<camel_criteria>> t_criteria;
};

namespace detail {

/* What an Insert sends, where its lists lie. */
inline camel_insert insert_of(const Csis &csis) noexcept
{
    return { sent_of(csis.o, csis.o_criteria), sent_of(csis.vt, csis.t_criteria) };
}

} // namespace detail

/* An update as a value, which is of no store: it is submitted by itself or with others, and Inserts are joined. The
 * calls that make one return the statuses that a submission has of the same data, and CAMEL_OUT_OF_MEMORY. */
class Update {
public:
    Update() = default;

    static Result<Update> of_register(camel_imsi imsi) noexcept { return of({ CAMEL_UPDATE_REGISTER, imsi, {}, {} }); }
    static Result<Update> of_insert(camel_imsi imsi, const Csis &csis) noexcept
    {
        return of({ CAMEL_UPDATE_INSERT, imsi, {}, detail::insert_of(csis) });
    }
    static Result<Update> of_delete(camel_imsi imsi, camel_withdrawal what) noexcept
    {
        return of({ CAMEL_UPDATE_DELETE, imsi, what, {} });
    }
    static Result<Update> of_cancel(camel_imsi imsi) noexcept { return of({ CAMEL_UPDATE_CANCEL, imsi, {}, {} }); }
    static Result<Update> of_clear_all() noexcept { return of({ CAMEL_UPDATE_CLEAR_ALL, {}, {}, {} }); }

    /* The update that an operation of MAP brings, by the octets of its argument, as Store::submit_map. */
    static Decoded<Update> of_map(Operation operation, std::optional<camel_imsi> imsi, Octets argument) noexcept
    {
        Update update;
        MapResult result = detail::by_argument(
            operation, imsi, argument,
            [&update](uint8_t code, const camel_imsi *dialogue, const uint8_t *octets, size_t count, uint64_t *place) {
                return camel_update_of_map(code, dialogue, octets, count, update.handle_.at(), place);
            });
        if (!result)
            return Decoded<Update>(result.status(), result.place());
        return Decoded<Update>(std::move(update));
    }

    /* The join of this Insert and the next one of its dialogue, which is another object: what one operation brings
     * that has the lists of both. Of rows in both, those of the next one stand; its criteria are behind those of this
     * one. CAMEL_NO_INSERT, CAMEL_OTHER_SUBSCRIBER, CAMEL_UNEXPECTED_DATA_VALUE, CAMEL_OUT_OF_MEMORY. */
    Result<Update> join(const Update &next) const noexcept
    {
        return made(camel_update_join, handle_.at(), next.handle_.at());
    }

    /* What came with it: which lists, and the camelCapabilityHandling of each CSI. */
    Result<camel_update_parts> parts() const noexcept
    {
        return detail::read<camel_update_parts>(camel_update_parts_of, handle_.at());
    }

private:
    friend class Store;

    static Result<Update> of(const camel_change &change) noexcept { return made(camel_update_of, &change); }

    template <class Call, class... Given>
    static Result<Update> made(Call call, Given... given) noexcept
    {
        Update update;
        if (camel_status status = call(given..., update.handle_.at()))
            return Failure{ status };
        return Result<Update>(std::move(update));
    }

    detail::Owned<camel_update> handle_;
};

/* Updates of the caller's, in the order in which they are submitted. */
struct Updates {
    const Update *data;
    size_t count;
};

/* Which updates a store has published, as plain data. */
using Receipt = camel_receipt;

class Session;

/* The record of a subscriber, which a call keeps from its set-up to its later detection points. */
class Subscriber {
public:
    Subscriber() = default;

    /* Decides an event of the record's own subscriber, whose IMSI is not compared, over the front of the look in which
     * it was kept. The session counts it, which is that of the calling thread, of whichever store, also of one that has
     * ended. */
    Result<camel_answer> decide(Session &session, const camel_event &event) const noexcept;

    /* The row of the record at a detection point, as Session::row_at. */
    Maybe<camel_row> row_at(DetectionPoint dp) const noexcept
    {
        return detail::find<camel_row>(camel_kept_row_at, handle_.at(), static_cast<uint8_t>(dp));
    }

private:
    friend class Session;

    detail::Owned<camel_subscriber> handle_;
};

/* What is decided at the set-up of a call, and the record that it keeps, if there is one. */
struct SetUp {
    camel_answer answer;
    Optional<Subscriber> kept;
};

/* The IMSIs that have a record, of one front: a list of its own, which holds nobody up, and outlives the store. */
class Imsis {
public:
    Imsis() = default;

    /* The next one, and nothing behind the last one: each once, in no order that is promised. */
    Maybe<camel_imsi> next() noexcept { return detail::find<camel_imsi>(camel_next_imsi, handle_.at()); }

private:
    friend class Session;

    detail::Owned<camel_imsis> handle_;
};

class Look;

/* What one call-control thread decides its calls by. Each call goes by the Look that lives, which has several over one
 * front, or else has a look of its own. CAMEL_NO_LOOK: the store has ended. */
class Session {
public:
    Session() = default;

    Result<camel_answer> decide(const camel_event &event) noexcept
    {
        return detail::read<camel_answer>(camel_decide, handle_.at(), &event);
    }

    /* From then on the session sees at least what the receipt is of. CAMEL_HELD: a look has begun. CAMEL_OTHER_STORE:
     * the receipt is of another store, or of more updates than the session's store has published. CAMEL_NO_LOOK: the
     * session's own store has ended. */
    Result<void> learn(const Receipt &receipt) noexcept { return detail::done(camel_learn(handle_.at(), &receipt)); }

    /* How many events the session has decided by `decide`, `set_up` and Subscriber::decide, also by looks, at each
     * detection point with each reason: by[dp][reason]. */
    Result<camel_decisions> decisions() const noexcept
    {
        return detail::read<camel_decisions>(camel_decisions_of, handle_.at());
    }

    /* Begins a look, which lasts until the Look ends. It lets the next publication go through, and holds up the one
     * after it. CAMEL_HELD: a look has begun. */
    Result<Look> look() noexcept;

    /* The row of a subscriber at a detection point, if there is one. Its handling is 0, continue, or 1, release. */
    Maybe<camel_row> row_at(camel_imsi imsi, DetectionPoint dp) noexcept
    {
        return detail::find<camel_row>(camel_row_at, handle_.at(), &imsi, static_cast<uint8_t>(dp));
    }

    /* The criteria of a subscriber at a detection point, if there are any. */
    Maybe<camel_criteria> criteria_at(camel_imsi imsi, DetectionPoint dp) noexcept
    {
        return detail::find<camel_criteria>(camel_criteria_at, handle_.at(), &imsi, static_cast<uint8_t>(dp));
    }

    /* Keeps the record of a subscriber, if there is one. If memory is refused, the session may have seen a later
     * front. */
    Maybe<Subscriber> keep(camel_imsi imsi) noexcept
    {
        Subscriber subscriber;
        bool is_there = false;
        if (camel_status status = camel_keep(handle_.at(), &imsi, subscriber.handle_.at(), &is_there))
            return Failure{ status };
        return is_there ? Optional<Subscriber>(std::move(subscriber)) : Optional<Subscriber>();
    }

    /* Decides the event of a call's set-up, and keeps the record of its subscriber, over one front. If memory is
     * refused, nothing is decided, and the session may have seen a later front. */
    Result<SetUp> set_up(const camel_event &event) noexcept
    {
        camel_answer answer{};
        Subscriber kept;
        bool is_there = false;
        if (camel_status status = camel_set_up(handle_.at(), &event, &answer, kept.handle_.at(), &is_there))
            return Failure{ status };
        return SetUp{ answer, is_there ? Optional<Subscriber>(std::move(kept)) : Optional<Subscriber>() };
    }

    /* The IMSIs that have a record. If memory is refused, here and of the next call, the session may have seen a later
     * front. */
    Result<Imsis> imsis() noexcept
    {
        Imsis imsis;
        if (camel_status status = camel_imsis_of(handle_.at(), imsis.handle_.at()))
            return Failure{ status };
        return Result<Imsis>(std::move(imsis));
    }

    /* The argument of the InsertSubscriberData that makes the record of a subscriber where the subscriber has just
     * registered, if there is a record. */
    Maybe<camel_argument> encode_record(camel_imsi imsi) noexcept
    {
        return detail::find<camel_argument>(camel_encode_record, handle_.at(), &imsi);
    }

private:
    friend class Store;
    friend class Look;
    friend class Subscriber;
    explicit Session(camel_session &raw) noexcept : handle_(raw) {}

    detail::Owned<camel_session> handle_;
};

inline Result<camel_answer> Subscriber::decide(Session &session, const camel_event &event) const noexcept
{
    return detail::read<camel_answer>(camel_decide_kept, session.handle_.at(), handle_.at(), &event);
}

/* A look of a session: all that it returns is of one front. It is left at its end, or before by `leave`; what is asked
 * of it afterwards is CAMEL_WRONG_HANDLE. */
class Look {
public:
    Look() = default;
    Look(Look &&other) noexcept : session_(std::exchange(other.session_, nullptr)) {}
    Look &operator=(Look &&other) noexcept
    {
        Look taken(std::move(other)); /* before the look that is here is left, which may be the same */
        std::swap(session_, taken.session_);
        return *this;
    }
    ~Look() { (void)leave(); }

    Result<void> leave() noexcept
    {
        Session *session = std::exchange(session_, nullptr);
        return session ? detail::done(camel_leave(session->handle_.at())) : Result<void>();
    }

    Result<camel_answer> decide(const camel_event &event) noexcept { return ask(&Session::decide, event); }
    Maybe<camel_row> row_at(camel_imsi imsi, DetectionPoint dp) noexcept { return ask(&Session::row_at, imsi, dp); }
    Maybe<camel_criteria> criteria_at(camel_imsi imsi, DetectionPoint dp) noexcept
    {
        return ask(&Session::criteria_at, imsi, dp);
    }
    Maybe<Subscriber> keep(camel_imsi imsi) noexcept { return ask(&Session::keep, imsi); }
    Result<SetUp> set_up(const camel_event &event) noexcept { return ask(&Session::set_up, event); }
    Result<Imsis> imsis() noexcept { return ask(&Session::imsis); }
    Maybe<camel_argument> encode_record(camel_imsi imsi) noexcept { return ask(&Session::encode_record, imsi); }

private:
    friend class Session;
    explicit Look(Session &session) noexcept : session_(&session) {}

    template <class R, class... Asked, class... Given>
    R ask(R (Session::*call)(Asked...) noexcept, const Given &...given) noexcept
    {
        Session none;
        return ((session_ ? *session_ : none).*call)(given...);
    }

    Session *session_ = nullptr;
};

/* Sessions of the caller's. */
struct Sessions {
    Session *data;
    size_t count;
};

inline Result<Look> Session::look() noexcept
{
    if (camel_status status = camel_look(handle_.at()))
        return Failure{ status };
    return Look(*this);
}

/* The writer. A store that ends with its object leaves what looks hold to them. */
class Store {
public:
    struct Opened;

    Store() = default;

    /* Opens a store of 1 to MAX_SESSIONS sessions, which takes 1 to MAX_UPDATES updates and decides under profile 1 or
     * 2. The seed is secret and random. */
    static Result<Opened> open(size_t session_count, uint64_t limit, Profile profile, uint64_t seed);

    Result<void> submit_register(camel_imsi imsi) noexcept
    {
        return submit_of({ CAMEL_UPDATE_REGISTER, imsi, {}, {} });
    }
    Result<void> submit_insert(camel_imsi imsi, const Csis &csis) noexcept
    {
        return submit_of({ CAMEL_UPDATE_INSERT, imsi, {}, detail::insert_of(csis) });
    }
    Result<void> submit_delete(camel_imsi imsi, camel_withdrawal what) noexcept
    {
        return submit_of({ CAMEL_UPDATE_DELETE, imsi, what, {} });
    }
    Result<void> submit_cancel(camel_imsi imsi) noexcept { return submit_of({ CAMEL_UPDATE_CANCEL, imsi, {}, {} }); }
    Result<void> submit_clear_all() noexcept { return submit_of({ CAMEL_UPDATE_CLEAR_ALL, {}, {}, {} }); }

    /* Submits what an operation of MAP brings, by the octets of its argument: the parameter of the TCAP invoke. The
     * IMSI is that of the dialogue, if the dialogue has one. */
    MapResult submit_map(Operation operation, std::optional<camel_imsi> imsi, Octets argument) noexcept
    {
        return detail::by_argument(operation, imsi, argument,
                                   [this](auto... given) { return camel_submit_map(handle_.at(), given...); });
    }

    /* Submits a copy of an update, which may be submitted again. */
    Result<void> submit(const Update &update) noexcept
    {
        return detail::done(camel_submit(handle_.at(), update.handle_.at()));
    }

    /* Submits copies of updates in their order, as those of a location update: all are accepted, or none is. A
     * single one may be of any kind; of several, none is a Cancel or a ClearAll. */
    AllResult submit_all(Updates updates) noexcept
    {
        return over(updates, [this](auto... given) { return camel_submit_all(handle_.at(), given...); });
    }

    /* Publishes all that is pending, also if nothing is, and gives a receipt of all that is published. */
    Result<Receipt> publish() noexcept
    {
        camel_status status = camel_publish(handle_.at());
        return status == CAMEL_OK ? receipt() : Failure{ status };
    }

    /* Publishes all that is pending, and has these sessions of the store, at most MAX_SESSIONS, learn it: from then on
     * each shows it. CAMEL_HELD also if a session has begun a look, and CAMEL_OTHER_STORE if it is of another store:
     * then nothing is published. */
    Result<void> publish_to(Sessions sessions) noexcept
    {
        return detail::done(camel_publish_to(handle_.at(), handles_of(sessions), sessions.count));
    }

    /* Submits copies of updates as submit_all, publishes them, and has these sessions learn it as publish_to. What was
     * pending before is dropped: a switch that commits submits nothing else. After any status but CAMEL_OK none of the
     * updates is shown, so the HLR may be answered with an error. After one of the updates, or CAMEL_HELD of the
     * publication, nothing is pending. After one of the sessions, CAMEL_MALFORMED or CAMEL_WRONG_HANDLE, all is as
     * before. After CAMEL_OUT_OF_MEMORY some may be pending, which the next commit drops. */
    AllResult commit(Updates updates, Sessions sessions) noexcept
    {
        return over(updates, [this, sessions](const camel_update *at, size_t count, size_t *rejected) {
            return camel_commit(handle_.at(), at, count, handles_of(sessions), sessions.count, rejected);
        });
    }

    /* Drops all that is pending, as if it had not been submitted, so that it is not shown later. It returns
     * CAMEL_OUT_OF_MEMORY only if a Cancel or a ClearAll is pending, and all is pending as before then. */
    Result<void> drop_pending() noexcept { return detail::done(camel_drop_pending(handle_.at())); }

    /* A receipt of all that is published, without a publication. */
    Result<Receipt> receipt() const noexcept { return detail::read<Receipt>(camel_receipt_of, handle_.at()); }

    /* Whose looks hold the next publication up: bit i is that of the session at i. */
    Result<uint64_t> holders() noexcept { return detail::read<uint64_t>(camel_holders, handle_.at()); }

    Result<camel_counts> counts() const noexcept { return detail::read<camel_counts>(camel_counts_of, handle_.at()); }

    /* Ends the store; what is pending is dropped. CAMEL_HELD: a look is held. Then the store has ended all the same: it
     * is to be closed again or to go away, and all other calls of it return CAMEL_WRONG_HANDLE. */
    Result<void> close() noexcept { return detail::done(camel_close(handle_.at())); }

private:
    explicit Store(camel_store &raw) noexcept : handle_(raw) {}

    Result<void> submit_of(const camel_change &change) noexcept
    {
        return detail::done(camel_submit_change(handle_.at(), &change));
    }

    /* A Session is its handle and nothing else, so sessions lie as the handles do. So it is with Updates. */
    static camel_session *handles_of(Sessions sessions) noexcept
    {
        static_assert(std::is_standard_layout_v<Session> && sizeof(Session) == sizeof(camel_session));
        return reinterpret_cast<camel_session *>(sessions.data);
    }

    /* Makes a call over updates, which writes the index of the one that the store rejects, or else their count. */
    template <class Call>
    static AllResult over(Updates updates, Call call) noexcept
    {
        static_assert(std::is_standard_layout_v<Update> && sizeof(Update) == sizeof(camel_update));
        auto first = reinterpret_cast<const camel_update *>(updates.data);
        size_t rejected = updates.count;
        camel_status status = call(first, updates.count, &rejected);
        return AllResult(status, rejected == updates.count ? std::nullopt : std::optional(rejected));
    }

    detail::Owned<camel_store> handle_;
};

/* A store with its sessions. */
struct Store::Opened {
    Store store;
    std::vector<Session> sessions;
};

inline Result<Store::Opened> Store::open(size_t session_count, uint64_t limit, Profile profile, uint64_t seed)
{
    if (session_count < 1 || session_count > MAX_SESSIONS)
        return Failure{ CAMEL_MALFORMED };
    std::vector<Session> sessions;
    sessions.reserve(session_count);
    camel_store raw{};
    std::array<camel_session, MAX_SESSIONS> places{};
    uint8_t number = static_cast<uint8_t>(profile);
    if (camel_status status = camel_open(&raw, places.data(), session_count, limit, number, seed))
        return Failure{ status };
    Store store(raw);
    for (size_t at = 0; at < session_count; at++)
        sessions.push_back(Session(places[at]));
    return Opened{ std::move(store), std::move(sessions) };
}

} // namespace camel

#endif
