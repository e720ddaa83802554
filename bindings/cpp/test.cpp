/* A test of camel.hpp: each class does what it is for, and each call reaches that of camel.h.
 *
 *     g++ -std=c++17 -I include -I bindings/cpp bindings/cpp/test.cpp libwenqolo.a -o test && ./test */
#include "camel.hpp"

#include <cstdio>
#include <cstdlib>
#include <cstring>
#include <malloc.h>
#include <sys/wait.h>
#include <thread>
#include <tuple>
#include <unistd.h>

using namespace camel;
using Dp = DetectionPoint;

/* An object moves and is not copied, may be declared before it is made, and is taken over by one that was made. */
template <class T>
constexpr bool only_moves = std::is_nothrow_move_constructible_v<T> && !std::is_copy_constructible_v<T>
    && std::is_nothrow_default_constructible_v<T> && std::is_nothrow_move_assignable_v<T>;
static_assert(only_moves<Store> && only_moves<Session> && only_moves<Look>);
static_assert(only_moves<Subscriber> && only_moves<Update> && only_moves<Imsis>);
static_assert(std::is_trivially_copyable_v<Receipt> && !std::is_constructible_v<bool, Maybe<camel_row>>);

/* No call throws, and what only reads may be asked of a const object. */
template <class T>
T any() noexcept;
static_assert(noexcept(any<Session &>().decide(any<camel_event>())) && noexcept(any<Look &>().leave()));
static_assert(noexcept(any<Store &>().publish()) && noexcept(any<Store &>().drop_pending()));
static_assert(noexcept(any<Store &>().commit(any<Updates>(), any<Sessions>())));
static_assert(noexcept(any<Store &>().submit_all(any<Updates>())));
static_assert(noexcept(digits_of_imsi(camel_imsi{})) && noexcept(tbcd_of_imsi(camel_imsi{})));
static_assert(noexcept(any<const Store &>().receipt()) && noexcept(any<const Store &>().counts()));
static_assert(noexcept(any<const Session &>().decisions()) && noexcept(any<const Update &>().parts()));
static_assert(noexcept(any<const Subscriber &>().decide(any<Session &>(), any<camel_event>())));
static_assert(noexcept(any<const Subscriber &>().row_at(Dp::TBusy)));

static void check(bool is_so, const char *what, int line)
{
    if (!is_so) {
        std::fprintf(stderr, "test.cpp:%d: %s\n", line, what);
        std::exit(1);
    }
}

/* Whether each of these calls returned a status. */
template <class... Results>
static bool all(camel_status wanted, const Results &...results)
{
    return (... && (results.status() == wanted));
}

#define CHECK(what) check(what, #what, __LINE__)
#define RETURN(wanted, ...) check(all(wanted, __VA_ARGS__), #wanted " of " #__VA_ARGS__, __LINE__)

/* The value of a result that has one. */
template <class T>
static T get(Result<T> result)
{
    CHECK(bool(result));
    return *std::move(result);
}

/* What is there, or nothing, where that is known. */
template <class T>
static Optional<T> get(Maybe<T> found)
{
    CHECK(found.ok());
    return found.is_there() ? Optional<T>(*std::move(found)) : Optional<T>();
}

static camel_imsi imsi() { return get(imsi_of_digits("262010000000001")); }
static camel_imsi other_imsi() { return get(imsi_of_digits("262010000000002")); }

static camel_event event_at(uint8_t dp, bool is_forwarded = false)
{
    const uint8_t destination[] = { 0x91, 0x21, 0x43 };
    return { imsi(), get(address_of(destination, sizeof destination)), { false, 0x11 }, dp, is_forwarded, 17 };
}

static Csis csis_of(uint32_t key)
{
    const uint8_t octets[] = { 0x91, 0x94, 0x71 };
    const camel_isdn_address scf = get(isdn_address_of(octets, sizeof octets));
    camel_criteria o{}, vt{};
    o.dp = 2;
    o.has_call_type = true;
    vt.dp = 13;
    vt.causes = { 1, { 17 } };
    Csis csis;
    csis.o.emplace({ camel_row{ 2, key, scf, 0 } });
    csis.o_criteria.emplace({ o });
    csis.vt.emplace({ camel_row{ 13, key, scf, 0 } });
    csis.t_criteria.emplace({ vt });
    return csis;
}

/* A store of which two updates are published, and whose two sessions learnt it. */
static Store::Opened open(uint64_t seed = 0x5eed)
{
    Store::Opened opened = get(Store::open(2, MAX_UPDATES, Profile::One, seed));
    CHECK(opened.store.submit_register(imsi()) && opened.store.submit_insert(imsi(), csis_of(7)));
    Receipt receipt = get(opened.store.publish());
    for (Session &session : opened.sessions)
        RETURN(CAMEL_OK, session.learn(receipt));
    return opened;
}

/* What an HLR sends in two operations of a dialogue: the O-CSI with service key 9 and a camelCapabilityHandling of 3,
 * and the criteria of detection point 2, which ask for forwarded calls. Then a Delete of all CSIs, and a Cancel. */
static const uint8_t OF_ROWS[] = {
    0x30, 0x19, 0xad, 0x17, 0xa0, 0x15, 0x30, 0x10, 0x30, 0x0e, 0x0a, 0x01, 0x02, 0x02, 0x01, 0x09, 0x80, 0x03, 0x91,
    0x94, 0x71, 0x81, 0x01, 0x00, 0x80, 0x01, 0x03
};
static const uint8_t OF_CRITERIA[] = {
    0x30, 0x0c, 0xad, 0x0a, 0xa4, 0x08, 0x30, 0x06, 0x0a, 0x01, 0x02, 0x82, 0x01, 0x00
};
static const uint8_t OF_DELETE[] = {
    0x30, 0x0c, 0x80, 0x08, 0x62, 0x02, 0x01, 0x00, 0x00, 0x00, 0x00, 0xf1, 0x89, 0x00
};
static const uint8_t OF_CANCEL[] = { 0xa3, 0x0a, 0x04, 0x08, 0x62, 0x02, 0x01, 0x00, 0x00, 0x00, 0x00, 0xf1 };
constexpr Octets ROWS{ OF_ROWS, sizeof OF_ROWS }, CRITERIA{ OF_CRITERIA, sizeof OF_CRITERIA };
constexpr Octets DELETE{ OF_DELETE, sizeof OF_DELETE }, CANCEL{ OF_CANCEL, sizeof OF_CANCEL };

static Update inserted(camel_imsi of, Octets argument)
{
    return get<Update>(Update::of_map(Operation::InsertSubscriberData, of, argument));
}

static void layouts_are_those_of_the_library()
{
    const uint32_t sizes[] = {
        sizeof(camel_receipt), sizeof(camel_imsi), sizeof(camel_address), sizeof(camel_isdn_address),
        sizeof(camel_basic_service), sizeof(camel_row), sizeof(camel_basic_services), sizeof(camel_causes),
        sizeof(camel_number_criterion), sizeof(camel_criteria), sizeof(camel_csi_lists), sizeof(camel_lists),
        sizeof(camel_withdrawal), sizeof(camel_event), sizeof(camel_answer), sizeof(camel_counts),
        sizeof(camel_decisions), sizeof(camel_update_parts), sizeof(camel_argument), sizeof(camel_store)
    };
    uint32_t of_library[32];
    CHECK(camel_layouts(of_library, 32) == std::size(sizes) && std::memcmp(of_library, sizes, sizeof sizes) == 0);
}

static void data_are_made_or_refused()
{
    const uint8_t octets[21] = { 0x91 };
    const camel_imsi_tbcd tbcd = get(tbcd_of_imsi(imsi()));
    CHECK(imsi().number == (15ULL << 56 | 262010000000001));
    CHECK(get(imsi_of_tbcd(tbcd.octets, tbcd.count)).number == imsi().number);
    CHECK(get(digits_of_imsi(imsi())).characters == std::string_view("262010000000001"));
    CHECK(get(address_of(octets, 20)).length == 20 && get(isdn_address_of(octets, 9)).length == 9);
    RETURN(CAMEL_MALFORMED, imsi_of_digits("2620a"), address_of(octets, 21), isdn_address_of(octets, 10));
    RETURN(CAMEL_MALFORMED, digits_of_imsi(camel_imsi{ 0 }), tbcd_of_imsi(camel_imsi{ 0 }), imsi_of_digits({}));
    RETURN(CAMEL_MALFORMED, imsi_of_tbcd(nullptr, 0), address_of(nullptr, 0), isdn_address_of(nullptr, 3));
    RETURN(CAMEL_MALFORMED, Store::open(0, 1, Profile::One, 1), Store::open(SIZE_MAX, 1, Profile::One, 1));
    RETURN(CAMEL_MALFORMED, Store::open(1, 0, Profile::One, 1), Store::open(1, 1, Profile(3), 1));
}

/* The rows and criteria of both CSIs come back as they came. */
static void lists_come_back()
{
    auto [store, sessions] = open();
    Session &session = sessions[0];
    const Subscriber kept = *get(session.keep(imsi()));
    const Csis came = csis_of(7);
    for (Dp dp : { Dp::CollectedInfo, Dp::TBusy }) {
        const camel_row row = *get(session.row_at(imsi(), dp)), of_kept = *get(kept.row_at(dp));
        const camel_criteria found = *get(session.criteria_at(imsi(), dp));
        const camel_criteria &entry = (dp == Dp::TBusy ? came.t_criteria : came.o_criteria)->front();
        CHECK(row.key == 7 && row.dp == static_cast<uint8_t>(dp) && row.scf.length == 3 && of_kept.dp == row.dp);
        CHECK(std::memcmp(&found, &entry, sizeof found) == 0);
    }
    CHECK(!get(session.row_at(imsi(), Dp::RouteSelectFailure)) && !get(kept.row_at(Dp::RouteSelectFailure)));
    CHECK(!get(session.criteria_at(imsi(), Dp::RouteSelectFailure)) && !get(session.keep(other_imsi())));
}

/* A session counts what it decides by each of the calls, where it was asked and how it was answered. */
static void decisions_are_counted()
{
    auto [store, sessions] = open();
    Session &session = sessions[0];
    Result<SetUp> set_up = session.set_up(event_at(2));
    CHECK(set_up && set_up->kept && set_up->answer.is_trigger && set_up->answer.front == 2);
    CHECK(get(session.decide(event_at(2))).key == 7 && get(set_up->kept->decide(session, event_at(13))).key == 7);
    CHECK(reason_of(get(session.decide(event_at(2, true)))) == Reason::Criteria);
    CHECK(reason_of(get(get(session.look()).decide(event_at(4)))) == Reason::NotArmed);
    CHECK(reason_of(get(session.decide(event_at(2)))) == Reason::None);
    RETURN(CAMEL_MALFORMED, session.decide(event_at(3)));
    camel_decisions wanted{}, decisions = get(session.decisions());
    wanted.by[CAMEL_DP_COLLECTED_INFO][CAMEL_REASON_NONE] = 3;
    wanted.by[CAMEL_DP_COLLECTED_INFO][CAMEL_REASON_CRITERIA] = 1;
    wanted.by[CAMEL_DP_T_BUSY][CAMEL_REASON_NONE] = 1;
    wanted.by[CAMEL_DP_ROUTE_SELECT_FAILURE][CAMEL_REASON_NOT_ARMED] = 1;
    CHECK(std::memcmp(&decisions, &wanted, sizeof wanted) == 0);
    CHECK(!get(session.set_up({ other_imsi(), {}, {}, 12, false, 0 })).kept);
}

/* Each call of a look is over its front, until it is left. */
static void a_look_is_of_one_front()
{
    auto [store, sessions] = open();
    Look look = get(sessions[0].look());
    RETURN(CAMEL_HELD, sessions[0].look(), sessions[0].learn(get(store.receipt())));
    CHECK(store.submit_delete(imsi(), { true, false, false }) && get(store.holders()) == 0);
    CHECK(store.publish() && get(store.holders()) == 1);
    CHECK(reason_of(get(sessions[1].decide(event_at(2)))) == Reason::NoCsi);
    RETURN(CAMEL_OK, store.submit_cancel(imsi()));
    RETURN(CAMEL_HELD, store.publish());
    const camel_counts counts = get(store.counts());
    CHECK(counts.published == 3 && counts.pending == 1 && counts.subscribers == 1 && counts.held == 1);
    CHECK(get(look.decide(event_at(2))).front == 2 && get(look.set_up(event_at(2))).answer.front == 2);
    CHECK(get(look.row_at(imsi(), Dp::CollectedInfo)) && get(look.criteria_at(imsi(), Dp::CollectedInfo)));
    const Subscriber kept = *get(look.keep(imsi()));
    CHECK(look.leave() && get(store.holders()) == 0);
    RETURN(CAMEL_WRONG_HANDLE, look.decide(event_at(2)));
    RETURN(CAMEL_OK, store.publish_to({ &sessions[0], 1 }));
    CHECK(reason_of(get(sessions[0].decide(event_at(2)))) == Reason::Unknown);
    CHECK(get(kept.decide(sessions[1], event_at(2))).front == 2);
}

/* Each update says what it is. */
static void updates_are_what_was_made()
{
    Csis csis = csis_of(7);
    csis.o_criteria.emplace(2);
    csis.vt.emplace(3, csis.o->front());
    csis.t_criteria.reset();
    camel_update_parts parts = get(get(Update::of_insert(imsi(), csis)).parts());
    CHECK(parts.kind == CAMEL_UPDATE_INSERT && parts.o_rows == 1 && parts.o_criteria == 2);
    CHECK(parts.vt_rows == 3 && parts.t_criteria == 0 && !parts.has_o_capability);
    parts = get(get(Update::of_register(imsi())).parts());
    CHECK(parts.kind == CAMEL_UPDATE_REGISTER && parts.imsi.number == imsi().number);
    parts = get(get(Update::of_delete(imsi(), camel_withdrawal{ false, true, false })).parts());
    CHECK(parts.kind == CAMEL_UPDATE_DELETE && parts.withdrawal.vt && !parts.withdrawal.o);
    CHECK(get(get(Update::of_cancel(imsi())).parts()).kind == CAMEL_UPDATE_CANCEL);
    CHECK(get(get(Update::of_clear_all()).parts()).kind == CAMEL_UPDATE_CLEAR_ALL);

    Csis lists[4]; /* with one list each, which came without items */
    lists[0].o.emplace();
    lists[1].o_criteria.emplace();
    lists[2].vt.emplace();
    lists[3].t_criteria.emplace();
    for (const Csis &empty : lists)
        RETURN(CAMEL_DATA_MISSING, Store().submit_insert(imsi(), empty), Update::of_insert(imsi(), empty));
}

/* Octets are submitted as what they bring, or have a fault at their place. */
static void octets_are_submitted()
{
    auto [store, sessions] = open();
    CHECK(store.submit_map(Operation::InsertSubscriberData, imsi(), ROWS) && store.publish_to({ &sessions[0], 1 }));
    CHECK(get(sessions[0].decide(event_at(2))).key == 9);
    CHECK(store.submit_map(Operation::DeleteSubscriberData, imsi(), DELETE) && store.publish_to({ &sessions[0], 1 }));
    CHECK(reason_of(get(sessions[0].decide(event_at(2)))) == Reason::NoCsi);
    RETURN(CAMEL_OK, store.submit_map(Operation::CancelLocation, std::nullopt, CANCEL));
    const MapResult gone = store.submit_map(Operation::InsertSubscriberData, imsi(), ROWS);
    CHECK(gone.status() == CAMEL_UNIDENTIFIED_SUBSCRIBER && !gone.place());

    const Octets cut{ ROWS.data, ROWS.count - 1 }, none{ nullptr, 0 };
    const std::tuple<std::optional<camel_imsi>, Octets, camel_status, std::optional<uint64_t>> faults[] = {
        { imsi(), cut, CAMEL_MALFORMED_OCTETS, 2 }, { imsi(), none, CAMEL_MISSING_FIELD, 0 },
        { {}, ROWS, CAMEL_NO_IMSI, 0 }, { camel_imsi{ 0 }, ROWS, CAMEL_MALFORMED, {} },
    };
    for (const auto &[of, octets, status, place] : faults) {
        const MapResult submitted = store.submit_map(Operation::InsertSubscriberData, of, octets);
        const Decoded<Update> made = Update::of_map(Operation::InsertSubscriberData, of, octets);
        RETURN(status, submitted, made);
        CHECK(submitted.place() == place && made.place() == place);
    }
}

/* What the HLR splits over two operations is one Insert, and the rows of the next one stand. */
static void inserts_are_joined()
{
    auto [store, sessions] = open();
    const Update insert = get(get(Update::of_insert(imsi(), csis_of(7))).join(inserted(imsi(), ROWS)));
    const Update rows = inserted(imsi(), ROWS), criteria = inserted(imsi(), CRITERIA);
    const Update update = get(rows.join(criteria));
    const camel_update_parts parts = get(update.parts());
    CHECK(parts.o_rows == 1 && parts.o_criteria == 1 && parts.has_o_capability && parts.o_capability == 3);
    RETURN(CAMEL_NO_INSERT, update.join(get(Update::of_cancel(imsi()))));
    CHECK(store.submit(insert) && store.publish_to({ &sessions[0], 1 }));
    CHECK(get(sessions[0].decide(event_at(2))).key == 9 && get(sessions[0].decide(event_at(13))).key == 7);
    CHECK(store.submit(update) && store.publish_to({ &sessions[0], 1 }));
    CHECK(reason_of(get(sessions[0].decide(event_at(2)))) == Reason::Criteria);
    CHECK(get(sessions[0].decide(event_at(2, true))).key == 9);
}

/* Updates are submitted or committed together or not at all, and the one that is rejected is named. */
static void updates_are_all_taken_or_none()
{
    auto [store, sessions] = open();
    const Sessions both{ sessions.data(), sessions.size() };
    Update updates[] = { get(Update::of_register(imsi())), inserted(imsi(), ROWS),
                         inserted(other_imsi(), ROWS) };
    const AllResult submitted = store.submit_all({ updates, 2 });
    CHECK(submitted && !submitted.rejected());
    AllResult rejected = store.submit_all({ updates, 3 });
    CHECK(rejected.status() == CAMEL_UNIDENTIFIED_SUBSCRIBER && rejected.rejected() == 2);
    CHECK(get(store.counts()).pending == 2 && store.submit_all({ nullptr, 0 }));
    CHECK(store.drop_pending() && get(store.counts()).pending == 0);

    RETURN(CAMEL_OK, store.submit_clear_all());
    const AllResult committed = store.commit({ updates, 2 }, both);
    CHECK(committed && !committed.rejected());
    for (Session &session : sessions)
        CHECK(get(session.decide(event_at(2))).key == 9 && get(session.decide(event_at(2))).front == 4);
    rejected = store.commit({ updates, 3 }, both);
    CHECK(rejected.status() == CAMEL_UNIDENTIFIED_SUBSCRIBER && rejected.rejected() == 2);
    CHECK(bool(store.commit({ nullptr, 0 }, { nullptr, 0 })) && get(store.counts()).published == 4);
    updates[2] = Update();
    for (const AllResult &wrong : { store.submit_all({ updates, 3 }), store.submit_all({ nullptr, 7 }),
                                    store.commit({ updates, 3 }, both), store.commit({ nullptr, 7 }, both),
                                    store.commit({ updates, 2 }, { nullptr, 7 }) })
        CHECK(wrong.status() == CAMEL_WRONG_HANDLE && !wrong.rejected());
}

/* Sessions are told of a publication, or cannot learn it, and nothing is published then. */
static void sessions_are_told()
{
    auto [store, sessions] = open();
    auto [other, of_other] = open(0xfeed);
    std::vector<Session> many(MAX_SESSIONS + 1);
    const Update update = get(Update::of_cancel(imsi()));
    Look look = get(sessions[1].look());
    RETURN(CAMEL_OK, store.submit_cancel(imsi()));
    const struct { Sessions sessions; camel_status status; } cases[] = {
        { { sessions.data(), 2 }, CAMEL_HELD }, { { of_other.data(), 2 }, CAMEL_OTHER_STORE },
        { { many.data(), 1 }, CAMEL_WRONG_HANDLE }, { { many.data(), many.size() }, CAMEL_MALFORMED },
        { { nullptr, 1 }, CAMEL_WRONG_HANDLE },
    };
    for (const auto &[told, status] : cases)
        RETURN(status, store.publish_to(told), store.commit({ &update, 1 }, told));
    RETURN(CAMEL_OTHER_STORE, sessions[0].learn(get(other.receipt())));
    CHECK(get(store.counts()).pending == 1);
    RETURN(CAMEL_OK, store.publish_to({ sessions.data(), 1 }));
    CHECK(get(sessions[0].decide(event_at(2))).front == 3 && get(look.decide(event_at(2))).front == 2);
    RETURN(CAMEL_HELD, store.commit({ &update, 1 }, { sessions.data(), 1 }));
    CHECK(look.leave() && store.publish_to({ sessions.data(), 2 }));
    CHECK(get(sessions[1].decide(event_at(2))).front == 3);
}

/* The records of a look go into another store, which shows them alike. */
static void records_are_restored()
{
    auto [store, sessions] = open();
    auto [restored, of_restored] = get(Store::open(1, MAX_UPDATES, Profile::One, 7));
    Look look = get(sessions[0].look());
    Imsis imsis = get(look.imsis());
    CHECK(store.submit_cancel(imsi()) && store.publish());
    CHECK(get(imsis.next())->number == imsi().number && !get(imsis.next()) && !get(imsis.next()));
    const camel_argument argument = *get(look.encode_record(imsi()));
    Update updates[] = { get(Update::of_register(imsi())), inserted(imsi(), { argument.octets, argument.count }) };
    RETURN(CAMEL_OK, restored.commit({ updates, 2 }, { of_restored.data(), 1 }));
    const camel_argument again = *get(of_restored[0].encode_record(imsi()));
    CHECK(std::memcmp(&argument, &again, sizeof again) == 0 && get(of_restored[0].decide(event_at(13))).key == 7);
    RETURN(CAMEL_OK, look.leave());
    CHECK(!get(get(sessions[1].imsis()).next()) && !get(sessions[1].encode_record(imsi())));
    RETURN(CAMEL_OK, restored.close());
    RETURN(CAMEL_NO_LOOK, of_restored[0].imsis(), of_restored[0].encode_record(imsi()));
}

static void what_holds_nothing_is_refused()
{
    auto [full, sessions] = open();
    const Subscriber kept = *get(sessions[0].keep(imsi()));
    const Update update = get(Update::of_register(imsi()));
    Store store;
    Session session;
    RETURN(CAMEL_WRONG_HANDLE, store.submit_clear_all(), store.submit(update), store.submit_all({ nullptr, 0 }),
           store.publish(), store.commit({ nullptr, 0 }, { nullptr, 0 }), store.drop_pending());
    RETURN(CAMEL_WRONG_HANDLE, store.receipt(), store.counts(), store.holders(), store.close());
    RETURN(CAMEL_WRONG_HANDLE, session.decide(event_at(2)), session.learn(Receipt{}), session.decisions());
    RETURN(CAMEL_WRONG_HANDLE, kept.decide(session, event_at(2)), Subscriber().decide(sessions[0], event_at(2)),
           Subscriber().row_at(Dp::TBusy), Imsis().next());
    RETURN(CAMEL_WRONG_HANDLE, full.submit(Update()), update.join(Update()), Update().join(update), Update().parts());
    RETURN(CAMEL_WRONG_HANDLE, Look().decide(event_at(2)), Look().row_at(imsi(), Dp::TBusy), Look().imsis());
    RETURN(CAMEL_MALFORMED, Look().decide(event_at(3)), session.decide(event_at(3)));
    RETURN(CAMEL_OK, Look().leave());
}

/* An object that is moved from holds nothing, and what was held where it is moved to is freed. */
static void an_assignment_frees_what_was_held()
{
    auto [store, sessions] = open();
    auto [other, others] = open(7);
    store = std::move(other);
    RETURN(CAMEL_OK, store.counts());
    RETURN(CAMEL_WRONG_HANDLE, other.counts());
    RETURN(CAMEL_NO_LOOK, sessions[0].decide(event_at(2)));
    sessions[0] = std::move(others[0]);
    RETURN(CAMEL_WRONG_HANDLE, others[0].decide(event_at(2)));
    Look look = get(sessions[0].look());
    look = get(others[1].look());
    RETURN(CAMEL_OK, sessions[0].learn(get(store.receipt())));
    RETURN(CAMEL_HELD, others[1].look());
}

/* Whether a function ends the program. */
template <class Asks>
static bool ends_the_program(Asks asks)
{
    pid_t child = fork();
    if (child == 0) {
        std::set_terminate([] { _exit(3); });
        asks();
        _exit(0);
    }
    int status = 0;
    CHECK(child > 0 && waitpid(child, &status, 0) == child);
    return WIFEXITED(status) && WEXITSTATUS(status) == 3;
}

/* A value that is not there ends the program, also where asserts are left out. */
static void no_value_is_none()
{
    auto [store, sessions] = open();
    Session &session = sessions[0];
    const Maybe<camel_row> none = session.row_at(other_imsi(), Dp::TBusy), failed = Subscriber().row_at(Dp::TBusy);
    CHECK(none.ok() && !none.is_there() && !failed.ok() && !failed.is_there());
    CHECK(ends_the_program([] { (void)*imsi_of_digits(""); }));
    CHECK(ends_the_program([] { (void)imsi_of_digits("").value(); }));
    CHECK(ends_the_program([&] { (void)none->key; }));
    CHECK(ends_the_program([&] { (void)*session.keep(other_imsi()); }));
    CHECK(!ends_the_program([&] { (void)session.row_at(imsi(), Dp::TBusy)->key; }));
}

/* A store ends, whether it is closed or goes away, and a look goes on. */
static void a_store_ends()
{
    for (bool is_closed : { true, false }) {
        auto [store, sessions] = open();
        std::optional<Look> look(get(sessions[0].look()));
        CHECK(store.submit_cancel(imsi()) && store.publish());
        if (is_closed)
            RETURN(CAMEL_HELD, store.close());
        else
            store = Store();
        RETURN(CAMEL_NO_LOOK, sessions[1].decide(event_at(2)));
        CHECK(get(look->decide(event_at(2))).is_trigger);
        look.reset();
        RETURN(CAMEL_NO_LOOK, sessions[0].look());
        RETURN(is_closed ? CAMEL_OK : CAMEL_WRONG_HANDLE, store.close());
        RETURN(CAMEL_WRONG_HANDLE, store.submit_clear_all());
    }
}

/* The life of a store, whose data a look holds to the end. */
static void live()
{
    auto [store, sessions] = open();
    const Update updates[] = { get(Update::of_register(imsi())), inserted(imsi(), ROWS) };
    RETURN(CAMEL_OK, store.commit({ updates, 2 }, { sessions.data(), 2 }));
    Look look = get(sessions[0].look());
    Optional<Subscriber> kept = get(look.keep(imsi()));
    const SetUp set_up = get(look.set_up(event_at(2)));
    Imsis imsis = get(look.imsis());
    CHECK(store.submit_clear_all() && store.publish());
    store = Store();
}

static void what_ends_is_freed()
{
    size_t before = 0;
    for (int times = 0; times < 1100; times++) {
        if (times == 100) /* malloc has what it keeps for itself */
            before = mallinfo2().uordblks;
        live();
    }
    CHECK(mallinfo2().uordblks < before + 1000); /* an octet for each life */
}

/* A session goes to its thread, and threads decide by one kept record at the same time. */
static void threads_decide()
{
    auto [store, sessions] = open();
    const Subscriber kept = *get(sessions[0].keep(imsi()));
    std::vector<std::thread> threads;
    for (Session &own : sessions)
        threads.emplace_back([&kept, session = std::move(own)]() mutable {
            CHECK(get(session.decide(event_at(2))).is_trigger && get(kept.decide(session, event_at(13))).is_trigger);
        });
    for (std::thread &thread : threads)
        thread.join();
}

int main()
{
    static void (*const tests[])() = {
        layouts_are_those_of_the_library, data_are_made_or_refused, lists_come_back, decisions_are_counted,
        a_look_is_of_one_front, updates_are_what_was_made, octets_are_submitted, inserts_are_joined,
        updates_are_all_taken_or_none, sessions_are_told, records_are_restored, what_holds_nothing_is_refused,
        an_assignment_frees_what_was_held, no_value_is_none, a_store_ends, what_ends_is_freed, threads_decide
    };
    for (auto test : tests)
        test();
    std::puts("camel.hpp: all is as it should be");
    return 0;
}
