// Tests what a lab does if a call answers what it never should: c++ -std=c++17 -I include bindings/cpp/lab_statuses.cpp -L FOLDER -llabrun
// -pthread -ldl
#include "labrun/lab.hpp"
#include "checks.hpp"
#include "disk.hpp"
#include "strange.hpp"

using labrun::asking;
using labrun::lab;

static std::string path;

extern "C" {
CALL4(lab_bay_open, const lab_class *, std::size_t, const lab_terms *, lab_bay *)
CALL9(lab_bay_resume, const lab_class *, std::size_t, const lab_terms *, bytes, std::size_t, large, lab_bay *, std::size_t *, large *)
CALL5(lab_bay_ask, lab_bay *, const lab_asked *, const large *, std::size_t, large)
CALL3(lab_bay_let_go, lab_bay *, large, large)
CALL3(lab_bay_leave, lab_bay *, large, large)
CALL3(lab_bay_take_away, lab_bay *, large, large)
CALL6(lab_bay_back, lab_bay *, large, large, large, large, large *)
CALL3(lab_bay_time, lab_bay *, large, large *)
CALL2(lab_bay_stop, lab_bay *, large)
CALL5(lab_bay_note, lab_bay *, large, bytes, std::size_t, large *)
CALL5(lab_bay_journal, lab_bay *, out, std::size_t, std::size_t *, large *)
CALL2(lab_bay_durable, lab_bay *, large)
CALL1(lab_bay_failed, lab_bay *)
CALL3(lab_bay_tell, lab_bay *, large, lab_outcome *)
CALL4(lab_bay_look, lab_bay *, std::size_t, lab_standing *, large *)
CALL4(lab_bay_keeper, lab_bay *, large, number, lab_standing *)
CALL5(lab_bay_waits, lab_bay *, large, std::size_t, large *, number *)
}

// Longer than anybody waits in what follows, unless something strange keeps others from letting go.
static const auto ENOUGH = asking().timeout(1s);

static labrun::lab_options options(const std::string &journal = "") {
    labrun::lab_options it;
    it.stations = {{"b", {"x", "y"}}};
    it.journal = journal;
    it.sync = labrun::sync::none;
    return it;
}

static void who_holds_and_who_waits(const std::string &journal) {
    std::remove(journal.c_str());
    const lab bay({"x", "y"}, options(journal));
    auto held = bay.hold({"x"}, asking().note("4.998 V"));
    is_so("late", throws<labrun::timed_out>([&] { return bay.hold({"x"}, asking().timeout(1ms)); }));
    bay.station("b").any_of({{"x"}, {"y"}}, ENOUGH).finish();
    {
        const auto goes = bay.hold({"y"}, ENOUGH);
        is_so("who is there", bay.sessions().size() == 2);
    }
    {
        auto limited = bay.hold({"y"}, asking().limit(1ms));
        bay.hold({"y"}, ENOUGH).finish();
        is_so("told", throws<labrun::taken_away>([&] { limited.finish(); }));
    }
    is_so("taken", bay.take_away(held.number()) && throws<labrun::taken_away>([&] { held.finish(); }));
    bay.hold({"x"}, ENOUGH).finish();
    bay.stop();
    is_so("stopped", throws<labrun::stopped>([&] { return bay.hold({"x"}, ENOUGH); }));
    bay.close();
}

// Who asks has the mutex until it waits, so the calls are in one order.
static void who_comes_first() {
    labrun::lab_options none_passes = options();
    none_passes.overtakes = 0;
    const lab bay({"x", "y"}, none_passes);
    std::future<void> waits; // (goes after what it waits for, whatever is thrown)
    auto held = bay.hold({"x"});
    const long before = made;
    waits = later([&] { bay.hold({"x", "y"}).finish(); });
    until([&] { return made > before; });
    const bool is_kept = throws<labrun::timed_out>([&] { return bay.hold({"y"}, asking().timeout(0s)); });
    held.finish();
    waits.get();
    is_so("kept", is_kept);
    bay.close();
}

static void comes_back() {
    disk_is_well();
    std::remove(path.c_str());
    {
        const lab bay({"x", "y"}, options(path));
        auto held = bay.hold({"x"});
        disk_is_full();
        const bool is_told = throws<labrun::journal_error>([&] { held.note("4.998 V"); });
        disk_is_well();
        is_so("not written", is_told);
        // (a write that was under way may fail yet)
        while (throws<labrun::journal_error>([&] { bay.close(); })) {
        }
    }
    const lab bay({"x", "y"}, options(path));
    std::vector<labrun::held> back = bay.resumed();
    is_so("it is back", back.size() == 1);
    back[0].finish();
    bay.hold({"x"}, ENOUGH).finish();
    bay.close();
}

int main(int, char **words) {
    path = std::string(words[1]) + "/lab_statuses.journal";
    each_is_told("without a journal", [] { who_holds_and_who_waits(""); });
    each_is_told("with a journal", [] { who_holds_and_who_waits(path); });
    each_is_told("who comes first", who_comes_first);
    each_is_told("comes back", comes_back);
    return ended();
}
