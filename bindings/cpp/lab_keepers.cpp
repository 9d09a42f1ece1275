// Tests who is named to a session of a lab that comes too late: c++ -std=c++17 -I include bindings/cpp/lab_keepers.cpp -L FOLDER -llabrun
// -pthread
#include "labrun/lab.hpp"
#include "checks.hpp"

using labrun::asking;
using labrun::lab;

static const names BAY = {"scope", "supply", "load-1", "load-2"};
static const auto NOW = asking().timeout(0s);
static const auto LONG = asking().timeout(300s); // for whoever is to come to hold

static labrun::lab_options passed_by(std::uint32_t overtakes) {
    labrun::lab_options options;
    options.stations = {{"board", {"scope", "supply"}}};
    options.overtakes = overtakes;
    return options;
}

static void until_waits(const lab &in, std::size_t count) {
    until([&] {
        std::size_t waiting = 0;
        for (const labrun::standing &it : in.sessions()) waiting += !it.holds;
        return waiting == count;
    });
}

// Who keeps a guest from these, if he takes what is free and doesn't wait: as text.
static std::string who_keeps(const lab &in, const names &wanted) {
    return why<labrun::timed_out>([&] { return in.hold(wanted, NOW); });
}

// For each instrument that is wanted, in their order.
static void each_instrument() {
    lab bay(BAY, passed_by(0));
    auto held = bay.hold({"scope"});
    auto board = later([&] { bay.station("board").hold({"scope", "supply"}, LONG).finish(); });
    until_waits(bay, 1);
    const std::string end = "still waits for a guest (session 1), at scope for _ s: ", scope = "held by a guest (session 1) for _ s";
    const std::string supply = "supply is kept for board (session 2), which waits for scope, " + scope;
    same("kept", who_keeps(bay, {"supply"}), end + supply);
    same("held", who_keeps(bay, {"scope"}), "still waits: scope has been " + scope);
    same("held, and kept", who_keeps(bay, {"supply", "scope"}), end + "scope has been " + scope + ", " + supply);
    same("kept, and free", who_keeps(bay, {"supply", "load-1"}), end + supply);
    held.finish();
    board.get();
}

static void a_longer_chain() {
    lab bay(BAY, passed_by(0));
    auto held = bay.hold({"scope"});
    auto board = later([&] { bay.station("board").hold({"scope", "supply"}, LONG).finish(); });
    until_waits(bay, 1);
    auto guest = later([&] { bay.hold({"supply", "load-1"}, LONG).finish(); });
    until_waits(bay, 2);
    same("to its end", who_keeps(bay, {"load-1"}),
         "still waits for a guest (session 1), at scope for _ s: load-1 is kept for a guest (session 3), which waits for supply, kept for "
         "board (session 2), which waits for scope, held by a guest (session 1) for _ s");
    held.finish();
    board.get();
    guest.get();
}

// One that may yet be passed keeps nothing, though it came before.
static void who_may_be_passed() {
    lab bay(BAY, passed_by(1));
    auto held = bay.hold({"scope"});
    auto board = later([&] { bay.station("board").hold({"scope", "supply"}, LONG).finish(); });
    until_waits(bay, 1);
    auto guest = later([&] { bay.hold({"scope", "load-1"}, LONG).finish(); });
    until_waits(bay, 2);
    bay.hold({"supply"}, NOW).finish(); // (passes the board's, and not the guest's)
    same("one of both", who_keeps(bay, {"supply", "load-1"}),
         "still waits for a guest (session 1), at scope for _ s: supply is kept for board (session 2), which waits for scope, held by a "
         "guest (session 1) for _ s");
    held.finish();
    board.get();
    guest.get();
}

static void all_sets_of_a_keeper() {
    lab bay(BAY, passed_by(0));
    auto one = bay.hold({"scope"}), two = bay.hold({"load-2"});
    auto waits = later([&] { bay.any_of({{"load-1", "load-2"}, {"scope", "load-1"}}, LONG).finish(); });
    until_waits(bay, 1);
    same("by its second set", who_keeps(bay, {"load-1"}),
         "still waits for a guest (session 1), at scope for _ s: load-1 is kept for a guest (session 3), which waits for scope, held by a "
         "guest (session 1) for _ s");
    two.finish();
    waits.get();
}

// Of those that keep what a keeper lacks, one that holds is named rather than one that waits and asked before.
static void rather_who_holds() {
    lab bay(BAY, passed_by(0));
    auto one = bay.hold({"scope"});
    auto first = later([&] { bay.hold({"scope", "load-1"}, LONG).finish(); });
    until_waits(bay, 1);
    auto two = bay.hold({"load-2"}, NOW);
    auto second = later([&] { bay.hold({"supply", "load-1", "load-2"}, LONG).finish(); });
    until_waits(bay, 2);
    same("load-2, and not load-1", who_keeps(bay, {"supply"}),
         "still waits for a guest (session 3), at load-2 for _ s: supply is kept for a guest (session 4), which waits for load-2, held by "
         "a guest (session 3) for _ s");
    one.finish();
    two.finish();
    first.get();
    second.get();
}

// If none of them holds, it is whoever asked first.
static void the_first_of_several() {
    lab bay(BAY, passed_by(0));
    auto held = bay.hold({"load-2"});
    std::vector<std::future<void>> waiting;
    for (const names &wanted : {names{"supply", "load-2"}, names{"scope", "load-2"}, names{"scope", "supply", "load-1"}}) {
        waiting.push_back(later([&bay, wanted] { bay.hold(wanted, LONG).finish(); }));
        until_waits(bay, waiting.size());
    }
    same("supply, and not scope", who_keeps(bay, {"load-1"}),
         "still waits for a guest (session 1), at load-2 for _ s: load-1 is kept for a guest (session 4), which waits for supply, kept for "
         "a guest (session 2), which waits for load-2, held by a guest (session 1) for _ s");
    held.finish();
    for (auto &it : waiting) it.get();
}

// Whoever has a station's place is named only if nobody keeps an instrument.
static void a_place() {
    lab bay(BAY, passed_by(0));
    const auto who = [&] { return why<labrun::timed_out>([&] { return bay.station("board").hold({"supply"}, NOW); }); };
    auto held = bay.station("board").hold({"scope"});
    same("the place", who(), "still waits: scope has been held by board (session 1) for _ s");
    auto guest = later([&] { bay.hold({"scope", "supply"}, LONG).finish(); });
    until_waits(bay, 1);
    same("the instrument", who(),
         "still waits for board (session 1), at scope for _ s: supply is kept for a guest (session 3), which waits for scope, held by "
         "board (session 1) for _ s");
    held.finish();
    guest.get();
}

int main() {
    each_instrument();
    a_longer_chain();
    who_may_be_passed();
    all_sets_of_a_keeper();
    rather_who_holds();
    the_first_of_several();
    a_place();
    return ended();
}
