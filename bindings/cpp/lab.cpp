// Tests a lab of labrun.hpp: c++ -std=c++17 -I include bindings/cpp/lab.cpp -L FOLDER -llabrun -pthread
#include "labrun/lab.hpp"
#include "checks.hpp"
#include <csignal>
#include <sys/wait.h>

using labrun::asking;
using labrun::lab;

static const names BAY = {"scope", "supply", "load-1", "load-2"};
static const std::vector<names> EITHER = {{"load-1"}, {"load-2"}};
static const auto NOW = asking().timeout(0s);
static const auto LONG = asking().timeout(300s); // for whoever is to come to hold

static labrun::lab_options with_stations(std::uint32_t overtakes = labrun::OVERTAKES) {
    labrun::lab_options options;
    options.stations = {{"board", {"scope", "supply"}}, {"radio", {"scope"}}};
    options.overtakes = overtakes;
    return options;
}

static std::size_t waiting(const lab &in) {
    std::size_t count = 0;
    for (const labrun::standing &it : in.sessions()) count += !it.holds;
    return count;
}
static void until_spinning(const std::function<bool()> &is_so) {
    while (!is_so()) std::this_thread::yield();
}
static void until_waits(const lab &in, std::size_t count) {
    until([&] { return waiting(in) == count; });
}

static void what_is_free() {
    lab bay(BAY);
    auto held = bay.hold({"supply", "scope", "supply"});
    same("its instruments, in the lab's order", text(held.instruments()), "scope supply");
    expect("it holds", held.is_held() && held.station().empty() && held.number() == 1);
    held.finish();
    expect("it has let go", !held.is_held() && bay.sessions().empty());
    expect("the next number", bay.hold({"scope"}, NOW).number() == 2);
    expect("at once", bay.hold({"scope"}, NOW).is_held());
}

static void who_waits_is_woken() {
    lab bay(BAY);
    auto first = bay.hold({"scope"});
    std::atomic<bool> came{false};
    auto second = later([&] {
        auto held = bay.hold({"scope", "supply"});
        came = true;
    });
    until_waits(bay, 1);
    expect("it waits", !came);
    expect("what it waits for is free for others", bay.hold({"supply"}, NOW).is_held());
    first.finish();
    second.get();
    expect("it is woken", came);
}

static void a_time_limit() {
    lab bay(BAY, with_stations());
    auto held = bay.station("board").hold({"scope", "supply"});
    const std::string wanted = "still waits: scope has been held by board (session 1) for _ s";
    for (const auto span : {0ms, 30ms}) {
        const auto begun = std::chrono::steady_clock::now();
        same("who holds", why<labrun::timed_out>([&] { return bay.hold({"scope", "load-1"}, asking().timeout(span)); }), wanted);
        expect("not before", std::chrono::steady_clock::now() - begun >= span);
    }
    try {
        const auto none = bay.any_of({{"scope"}, {"supply"}}, NOW);
    } catch (const labrun::timed_out &late) {
        expect("both", late.keepers.size() == 2 && late.keepers[1].instrument == "supply");
        expect("by whom", late.keepers[1].holds && late.keepers[1].session == held.number() && late.keepers[1].job == "board");
    }
    expect("it waits no more", bay.sessions().size() == 1);
    expect("what it wanted is free", bay.hold({"load-1"}, NOW).is_held());
    held.finish();
    expect("nothing is left of it", bay.hold({"scope"}, NOW).is_held());
    expect("a time limit that never comes", bay.hold({"scope"}, asking().timeout(std::chrono::hours(2000000))).is_held());
}

// With overtakes 0 whoever came first keeps what it waits for.
static void who_comes_first() {
    labrun::lab_options options = with_stations(0);
    lab bay(BAY, options);
    auto held = bay.hold({"scope"});
    auto board = later([&] { bay.station("board").hold({"scope", "supply"}, LONG).finish(); });
    until_waits(bay, 1);
    same("a chain", why<labrun::timed_out>([&] { return bay.hold({"supply"}, NOW); }),
         "still waits for a guest (session 1), at scope for _ s: supply is kept for board (session 2), which waits for scope, held by a "
         "guest (session 1) for _ s");
    try {
        const auto none = bay.hold({"supply"}, NOW);
    } catch (const labrun::timed_out &late) {
        expect("one", late.keepers.size() == 1);
        const labrun::keeper &first = late.keepers.at(0), &end = first.end();
        expect("who waits", first.instrument == "supply" && !first.holds && first.session == 2 && first.job == "board");
        expect("is behind", &end == first.behind.get() && first.held_for == 0s);
        expect("who holds", end.instrument == "scope" && end.holds && end.session == held.number() && end.job == "a guest");
    }
    held.finish();
    board.get();
    expect("it is free", bay.hold({"supply"}, NOW).is_held());
}

static void any_of() {
    lab bay(BAY);
    const names busy = {"supply", "load-1", "load-2"}, wanted = {"load-1", "load-2", "load-1"};
    for (std::size_t at = 0; at < 3; at++) {
        auto held = bay.hold({busy[at]});
        same("the first that is free", text(bay.any_of(EITHER).instruments()), wanted[at]);
    }
    same("sets", text(bay.any_of({{"scope", "load-2"}, {"load-1"}}).instruments()), "scope load-2");
    same("one choice of two", text(bay.any_of({{"scope", "supply"}}).instruments()), "scope supply");
    auto one = bay.hold({"load-1"}), two = bay.hold({"load-2"});
    same("late", why<labrun::timed_out>([&] { return bay.any_of(EITHER, NOW); }),
         "still waits: load-1 has been held by a guest (session 9) for _ s, load-2 has been held by a guest (session 10) for _ s");
    auto waits = later([&] { return text(bay.any_of(EITHER, LONG).instruments()); });
    until_waits(bay, 1);
    two.finish();
    same("the one that comes free", waits.get(), "load-2");
}

// A limit is kept though whoever waits would take another set: once no set of it is free, and not before.
static void a_limit() {
    lab bay(BAY);
    auto limited = bay.hold({"load-1"}, asking().limit(20ms));
    std::this_thread::sleep_for(40ms);
    expect("nobody wants it", limited.is_held());
    {
        auto other = bay.any_of(EITHER, LONG);
        same("what is free is taken first", text(other.instruments()), "load-2");
        expect("and nothing taken away", limited.is_held());
        same("then the limit is kept", text(bay.any_of(EITHER, LONG).instruments()), "load-1");
        expect("of nobody else", other.is_held());
    }
    expect("it is told", throws<labrun::taken_away>([&] { limited.finish(); }));
    const auto begun = std::chrono::steady_clock::now();
    auto later_over = bay.hold({"scope"}, asking().limit(100ms));
    bay.hold({"scope"}, LONG).finish();
    expect("not before its time", std::chrono::steady_clock::now() - begun >= 90ms && !later_over.is_held());
}

static void taken_away() {
    lab bay(BAY, with_stations());
    auto hangs = bay.station("radio").hold({"scope"});
    auto board = later([&] { return bay.station("board").hold({"scope"}, LONG).number(); });
    until_waits(bay, 1);
    expect("one that waits holds nothing", !bay.take_away(2));
    expect("no such session", !bay.take_away(0) && !bay.take_away(77));
    expect("taken", bay.take_away(hangs.number()) && !hangs.is_held());
    expect("whoever waited has it", board.get() == 2);
    expect("nothing more", !bay.take_away(hangs.number()));
    expect("note", throws<labrun::taken_away>([&] { hangs.note("4.998 V"); }));
    for (int times = 0; times < 2; times++) expect("finish", throws<labrun::taken_away>([&] { hangs.finish(); }));
    {
        auto told = bay.station("radio").hold({"scope"}, NOW);
        expect("its station may hold again", told.is_held() && bay.take_away(told.number()));
        auto next = bay.hold({"scope"}, NOW);
        { const auto goes = std::move(told); }
        expect("one that goes takes nothing from the next", next.is_held());
    }
}

static void an_exception_lets_go() {
    lab bay(BAY);
    try {
        auto held = bay.hold({"scope"});
        throw std::runtime_error("the scope caught fire");
    } catch (const std::runtime_error &) {
    }
    expect("it has let go", bay.sessions().empty() && bay.hold({"scope"}, NOW).is_held());
}

static void it_is_moved() {
    lab bay(BAY);
    auto first = bay.hold({"scope"});
    auto second = std::move(first);
    expect("one holds", second.is_held() && !first.is_held() && bay.sessions().size() == 1);
    expect("nothing is left", throws<labrun::not_held>([&] { first.finish(); }));
    second = bay.hold({"supply"});
    expect("what it had is let go", bay.hold({"scope"}, NOW).is_held() && text(second.instruments()) == "supply");
    second.finish();
    same("twice", why<labrun::not_held>([&] { second.finish(); }), "session 2 has let go");
    expect("nor noted", throws<labrun::not_held>([&] { second.note("4.998 V"); }));
    lab other = std::move(bay);
    expect("so is a lab", other.hold({"scope"}, NOW).is_held());
}

static void who_asked_first_goes_first() {
    lab bay(BAY);
    auto held = bay.hold({"scope"});
    std::vector<std::future<void>> all;
    std::vector<int> order;
    for (int at = 0; at < 6; at++) {
        all.push_back(later([&, at] {
            auto mine = bay.hold({"scope"}, LONG);
            order.push_back(at); // (one at a time)
        }));
        until_waits(bay, static_cast<std::size_t>(at) + 1);
    }
    held.finish();
    for (auto &it : all) it.get();
    expect("in the order of asking", order == std::vector<int>{0, 1, 2, 3, 4, 5});
}

// Two pass the one that waits for both; the third doesn't.
static void passed_so_often_and_no_more() {
    labrun::lab_options options = with_stations(2);
    lab bay(BAY, options);
    auto before = bay.hold({"scope"});
    auto board = later([&] { bay.station("board").hold({"scope", "supply"}, LONG).finish(); });
    until_waits(bay, 1);
    auto first = bay.hold({"supply"}, NOW);
    before.finish();
    auto second = bay.hold({"scope"}, NOW);
    first.finish();
    expect("the third waits", throws<labrun::timed_out>([&] { return bay.hold({"supply"}, asking().timeout(20ms)); }));
    expect("what it doesn't need is free", bay.hold({"load-1"}, NOW).is_held());
    second.finish();
    board.get();
    expect("then it may", bay.hold({"supply"}, NOW).is_held());
}

static void a_station_has_one_session_at_a_time() {
    lab bay(BAY, with_stations());
    const labrun::station board = bay.station("board");
    auto first = board.hold({"scope"});
    same("its name", first.station(), "board");
    same("a second one waits", why<labrun::timed_out>([&] { return board.hold({"supply"}, NOW); }),
         "still waits: scope has been held by board (session 1) for _ s");
    expect("guests don't", bay.hold({"supply"}, NOW).is_held());
    first.finish();
    std::atomic<int> inside{0}, meetings{0};
    std::vector<std::future<void>> threads;
    for (int thread = 0; thread < 2; thread++)
        threads.push_back(later([&, thread] {
            for (int times = 0; times < 500; times++) {
                auto held = board.hold({thread ? "scope" : "supply"}, LONG);
                meetings += inside++ != 0;
                std::this_thread::yield();
                inside--;
            }
        }));
    for (auto &it : threads) it.get();
    expect("two threads never meet at it", meetings == 0);
}

static void places() {
    labrun::lab_options options;
    options.places = 2;
    lab bay(BAY, options);
    auto one = bay.hold({"scope"}), two = bay.hold({"supply"});
    same("the third waits", why<labrun::timed_out>([&] { return bay.hold({"load-1"}, NOW); }),
         "still waits: scope has been held by a guest (session 1) for _ s, supply has been held by a guest (session 2) for _ s");
    one.finish();
    expect("then it may", bay.hold({"load-1"}, NOW).is_held());
}

static void stop() {
    lab bay(BAY);
    auto held = bay.hold({"scope"});
    auto waits = later([&] { return why<labrun::stopped>([&] { return bay.hold({"scope"}, LONG); }); });
    until_waits(bay, 1);
    bay.stop();
    bay.stop();
    same("who waits is told", waits.get(), "the lab was stopped");
    expect("nobody asks", throws<labrun::stopped>([&] { return bay.hold({"supply"}); }));
    held.note("4.998 V");
    held.finish();
    expect("who holds goes on", !held.is_held() && bay.sessions().empty());
}

static void close() {
    std::optional<labrun::held> outlives;
    {
        lab bay(BAY);
        auto held = bay.hold({"scope"});
        outlives = bay.hold({"supply"});
        auto waits = later([&] { return throws<labrun::closed>([&] { return bay.hold({"scope"}, LONG); }); });
        until_waits(bay, 1);
        bay.close();
        expect("who waits is told", waits.get());
        bay.close();
        expect("nobody asks", throws<labrun::closed>([&] { return bay.hold({"load-1"}); }) && throws<labrun::closed>([&] { bay.stop(); }));
        expect("nor looks", throws<labrun::closed>([&] { bay.sessions(); }) && throws<labrun::closed>([&] { bay.take_away(1); }));
        expect("nor holds",
               !held.is_held() && throws<labrun::closed>([&] { held.finish(); }) && throws<labrun::closed>([&] { held.note("4.998 V"); }));
    }
    expect("one that outlives it", !outlives->is_held() && text(outlives->instruments()) == "supply");
}

static void who_is_there() {
    lab bay(BAY, with_stations());
    auto held = bay.station("board").hold({"scope", "supply"}, asking().note("ripple"));
    auto waits = later([&] { bay.any_of({{"scope"}, {"load-2", "supply"}}, LONG).finish(); });
    until_waits(bay, 1);
    std::this_thread::sleep_for(20ms);
    const auto now = std::chrono::system_clock::now();
    const std::vector<labrun::standing> all = bay.sessions();
    expect("in the order of asking", all.size() == 2 && all[0].number == 1 && all[1].number == 2);
    expect("who holds", all[0].holds && all[0].station == "board" && text(all[0].instruments) == "scope supply" && all[0].note == "ripple");
    expect("who waits",
           !all[1].holds && all[1].station.empty() && text(all[1].instruments) == "scope supply load-2" && all[1].note.empty());
    for (const labrun::standing &it : all) expect("since when", now - it.since >= 18ms && now - it.since < 100s);
    held.note("3.3 V");
    same("the last note", bay.sessions()[0].note, "3.3 V");
    held.note(std::string(500, 'x'));
    for (const std::string &wrong : {std::string(501, 'x'), std::string("two\nlines"), std::string("two\rlines")})
        same("no note", why<labrun::invalid>([&] { held.note(wrong); }),
             "a note has at most 500 bytes, and no line feed or carriage return");
    held.finish();
    waits.get();
    expect("no note, no session",
           throws<labrun::invalid>([&] { return bay.hold({"scope"}, asking().note("two\nlines")); }) && bay.sessions().empty());
}

static void what_makes_no_sense() {
    lab bay(BAY, with_stations());
    same("no such instrument", why<labrun::invalid>([&] { return bay.hold({"scope", "lamp"}); }), "there is no instrument lamp");
    same("no instrument", why<labrun::invalid>([&] { return bay.hold({}); }), "a session needs an instrument");
    same("no set", why<labrun::invalid>([&] { return bay.any_of({}); }), "a session needs an instrument");
    same("an empty set", why<labrun::invalid>([&] { return bay.any_of({{"scope"}, {}}); }), "a session needs an instrument");
    same("no such station", why<labrun::invalid>([&] { bay.station("rodeo"); }), "there is no station rodeo");
    same("may not", why<labrun::may_not_use>([&] {
             return bay.station("board").hold({"scope", "load-1"});
         }),
         "board may not use load-1: it may use scope, supply");
    expect("nor choose", throws<labrun::may_not_use>([&] { return bay.station("radio").any_of({{"scope"}, {"supply"}}); }));
    expect("nothing is left of these", bay.sessions().empty());
    labrun::lab_options options;
    options.guests = {"scope"};
    same("guests", why<labrun::may_not_use>([&] { return lab(BAY, options).hold({"supply"}); }),
         "a guest may not use supply: it may use scope");
    options.guests = names();
    same("guests", why<labrun::may_not_use>([&] { return lab(BAY, options).hold({"scope"}); }),
         "a guest may not use scope: it may use nothing");
    options = with_stations();
    options.stations.push_back({"board", {"scope"}});
    same("a station twice", why<labrun::invalid>([&] { lab(BAY, options); }), "station board is there twice");
    same("an instrument twice", why<labrun::invalid>([&] { lab({"scope", "scope"}); }), "instrument scope is there twice");
    options.stations = {{"board", {"lamp"}}};
    same("no such instrument", why<labrun::invalid>([&] { lab(BAY, options); }), "there is no instrument lamp");
    names many;
    for (int at = 0; at < 64; at++) many.push_back("i-" + std::to_string(at));
    expect("64 instruments", lab(many).hold({"i-0", "i-63"}).instruments() == names{"i-0", "i-63"});
    many.push_back("i-64");
    same("65", why<labrun::invalid>([&] { lab{many}; }), "a lab has at most 64 instruments");
    options.stations.clear();
    for (int at = 0; at < 32; at++) options.stations.push_back({"s-" + std::to_string(at), {"scope"}});
    same("32 stations", why<labrun::invalid>([&] { lab(BAY, options); }), "a lab has at most 31 stations");
    options.stations.pop_back();
    expect("31", lab(BAY, options).station("s-30").hold({"scope"}).station() == "s-30");
}

static void the_line_is_full() {
    labrun::lab_options options;
    options.line = 2;
    lab bay(BAY, options);
    auto held = bay.hold({"load-1", "load-2"});
    auto waits = later([&] { bay.any_of(EITHER, LONG).finish(); });
    until_waits(bay, 1);
    same("full", why<labrun::full>([&] { return bay.hold({"load-1"}); }), "the line is full");
    held.finish();
    waits.get();
    expect("then there is room", bay.any_of(EITHER).is_held());
}

static void a_fork() {
    lab bay(BAY, with_stations());
    auto held = bay.hold({"scope"});
    expect("with the timer's thread", throws<labrun::timed_out>([&] { return bay.hold({"scope"}, asking().timeout(1ms)); }));
    const pid_t parent = getpid(), child = fork();
    if (!child) {
        std::vector<std::function<void()>> calls = {[&] { return bay.hold({"supply"}); },
                                                    [&] { return bay.station("board").hold({"supply"}); },
                                                    [&] { bay.sessions(); },
                                                    [&] { bay.take_away(held.number()); },
                                                    [&] { bay.stop(); },
                                                    [&] { bay.close(); },
                                                    [&] { (void)bay.resumed(); },
                                                    [&] { held.note("4.998 V"); },
                                                    [&] { held.finish(); }};
        int refused = 0;
        for (const auto &it : calls) refused += why<labrun::other_process>(it) == "this belongs to process " + std::to_string(parent);
        refused += !held.is_held();
        {
            const lab goes = std::move(bay);
            const labrun::held too = std::move(held);
        }
        _exit(refused == static_cast<int>(calls.size()) + 1 ? 77 : refused);
    }
    int status = 0;
    waitpid(child, &status, 0);
    expect("the child is refused", WIFEXITED(status) && WEXITSTATUS(status) == 77);
    expect("the parent goes on", held.is_held() && bay.hold({"supply"}, NOW).is_held());
    held.finish();
    expect("to its end", bay.hold({"scope"}, NOW).is_held());
}

// The threads of a lab take no signals, which are the program's.
static std::atomic<int> signals_elsewhere{0};
static std::thread::id main_thread;
static void signals() {
    main_thread = std::this_thread::get_id();
    std::signal(SIGUSR1, [](int) { signals_elsewhere += std::this_thread::get_id() != main_thread; });
    lab bay(BAY);
    auto held = bay.hold({"scope"});
    expect("the timer is there", throws<labrun::timed_out>([&] { return bay.hold({"scope"}, asking().timeout(1ms)); }));
    for (int times = 0; times < 100; times++) kill(getpid(), SIGUSR1);
    expect("in the program's thread", signals_elsewhere == 0);
}

// Whoever waits is woken by signals, and waits on: no sooner than its time it is told, and it holds once it can.
static void signals_to_one_that_waits() {
    struct sigaction action {}, before {};
    action.sa_handler = [](int) { signals_elsewhere++; };
    sigaction(SIGUSR1, &action, &before); // (without SA_RESTART)
    signals_elsewhere = 0;
    lab bay(BAY);
    auto held = bay.hold({"scope"});
    std::atomic<bool> came{false}, is_over{false};
    std::atomic<int> waits_at{0};
    pthread_t threads[2];
    auto waits = later([&] {
        threads[0] = pthread_self();
        waits_at++;
        auto next = bay.hold({"scope"});
        came = true;
        until([&] { return is_over.load(); });
    });
    auto is_late = later([&] {
        threads[1] = pthread_self();
        waits_at++;
        const auto begun = std::chrono::steady_clock::now();
        const bool told = throws<labrun::timed_out>([&] { return bay.hold({"scope"}, asking().timeout(200ms)); });
        expect("not before its time", told && std::chrono::steady_clock::now() - begun >= 200ms);
        until([&] { return is_over.load(); });
    });
    until([&] { return waits_at == 2 && bay.sessions().size() == 3; });
    for (int times = 0; times < 100; times++, usleep(500))
        for (const pthread_t it : threads) pthread_kill(it, SIGUSR1);
    until([&] { return bay.sessions().size() == 2; });
    expect("the signals came, and it waits", signals_elsewhere > 0 && !came);
    held.finish();
    until([&] { return came.load(); });
    is_over = true;
    waits.get();
    is_late.get();
    sigaction(SIGUSR1, &before, nullptr);
}

// Two threads end the same session: it lets go once, and whoever comes second is told so.
static void two_let_go() {
    for (int times = 0; times < 100; times++) {
        lab bay(BAY);
        auto held = bay.hold({"scope"});
        std::atomic<int> told{0}, at{0};
        const auto ends = [&] {
            at++;
            until_spinning([&] { return at == 2; });
            told += throws<labrun::not_held>([&] { held.finish(); });
        };
        auto other = later(ends);
        ends();
        other.get();
        expect("one of two", told == 1 && bay.sessions().empty());
    }
}

int main() {
    for (const auto &test : {what_is_free,
                             who_waits_is_woken,
                             a_time_limit,
                             who_comes_first,
                             any_of,
                             a_limit,
                             taken_away,
                             an_exception_lets_go,
                             it_is_moved,
                             who_asked_first_goes_first,
                             passed_so_often_and_no_more,
                             a_station_has_one_session_at_a_time,
                             places,
                             stop,
                             close,
                             who_is_there,
                             what_makes_no_sense,
                             the_line_is_full,
                             a_fork,
                             signals,
                             signals_to_one_that_waits,
                             two_let_go})
        test();
    return ended();
}
