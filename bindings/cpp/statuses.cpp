// Tests what a bench of a script does if a call answers what it never should:
// c++ -std=c++17 -I include bindings/cpp/statuses.cpp -L FOLDER -llabrun -pthread -ldl
#include "labrun.hpp"
#include "checks.hpp"
#include "strange.hpp"

using labrun::bench;
using labrun::desk;

extern "C" {
CALL6(lab_rounds, bytes, std::size_t, number, out, std::size_t, lab_told *)
CALL5(lab_replay, bytes, std::size_t, out, std::size_t, lab_told *)
CALL5(lab_check, bytes, std::size_t, out, std::size_t, lab_told *)
CALL5(lab_upgrade, bytes, std::size_t, out, std::size_t, lab_told *)
CALL4(lab_bench_open, bytes, std::size_t, lab_bench *, lab_told *)
CALL2(lab_bench_size, lab_bench *, lab_size *)
CALL5(lab_job_name, lab_bench *, number, out, std::size_t, std::size_t *)
CALL5(lab_instrument_name, lab_bench *, number, out, std::size_t, std::size_t *)
CALL4(lab_session_of, lab_bench *, number, number, lab_session *)
CALL3(lab_state, lab_bench *, number, struct lab_state *)
CALL3(lab_settle, lab_bench *, number, lab_came *)
CALL3(lab_command, lab_bench *, number, lab_entry *)
CALL3(lab_end, lab_bench *, number, lab_turned *)
CALL2(lab_withdraw, lab_bench *, number)
CALL4(lab_retire, lab_bench *, number, number, lab_turned *)
CALL4(lab_bench_close, lab_bench *, out, std::size_t, lab_told *)
}

static const std::string script =
    "lab 2\njob a\nsession\nx set 3\nend\nsession\nx read\nend\njob b\nsession patience 999999\nx read\nend\nsession patience 1\nx read\n"
    "end\nsession\nx read\ny add 1\nend\n";

static void runs() {
    labrun::run(script);
    labrun::replay(script + "steps\n");
    labrun::check(script);
    labrun::upgrade(script);
}

static std::future<bool> begins(desk &of) {
    return later([&of] { return of.begin().has_value(); });
}

// Whoever waits is told as well, or this would never come to its end.
static void threads() {
    bench of(script);
    desk &a = of.desks()[0], &b = of.desks()[1];
    {
        std::future<bool> waits; // (goes after what it waits for, whatever is thrown)
        auto held = a.begin();
        held->command();
        waits = begins(b);
        until([&] { return b.give_up(); });
        is_so("withdrawn", throws<labrun::withdrawn>([&] { waits.get(); }));
        is_so("its patience runs out", throws<labrun::withdrawn>([&] { b.begin(); }));
        waits = begins(b);
        held->finish();
        is_so("it came", waits.get());
    }
    // (who goes can't tell it: whoever calls next does)
    is_so("the second", a.begin().has_value());
    is_so("none left", !a.begin() && !b.begin());
    is_so("finished", of.close().finished);
}

int main() {
    each_is_told("runs", runs);
    each_is_told("threads", threads);
    return ended();
}
