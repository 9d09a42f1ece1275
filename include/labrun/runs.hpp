// Whole runs on one thread, as the program does them.
#pragma once
#include "parts/calls.hpp"

namespace labrun {

// A report: whether every job is retired, and the text as labrun prints it.
struct report {
    bool finished;
    std::string text;
};

namespace detail {

// As done(), of a call that reads a script.
inline std::uint32_t done_reading(std::uint32_t status, const lab_told &told, std::initializer_list<std::uint32_t> those = {}) {
    if (status == LAB_REFUSED) throw refused(told.line, told.cause);
    if (status == LAB_TOO_LONG) throw error("script longer than 16777216 bytes");
    return done(status, those);
}

// What a call writes, which is called with ever more room until that fits.
template <class Call, class... Given> report told_by(Call call, Given... given) {
    std::string room(16384, 0);
    for (;;) {
        lab_told told{};
        const std::uint32_t status = done_reading(call(given..., reinterpret_cast<std::uint8_t *>(room.data()), room.size(), &told), told,
                                                  {LAB_UNFINISHED, LAB_NO_ROOM});
        room.resize(told.written);
        if (status != LAB_NO_ROOM) return {status == LAB_DONE, std::move(room)};
    }
}

template <class Call, class... More> report of(Call call, std::string_view script, More... more) {
    return told_by(call, bytes(script), script.size(), more...);
}

// Of a call that ends no run.
inline std::string text_of(report all) { return done(all.finished ? LAB_DONE : LAB_UNFINISHED), std::move(all.text); }

} // namespace detail

// Runs a script in turns of one step for each job, with at most so many rounds; goes on from a journal (a script with `steps`); checks a
// script; and writes it as one of the newest version. refused: the script is.
inline report run(std::string_view script, std::uint32_t limit = 10000) { return detail::of(lab_rounds, script, limit); }
inline report replay(std::string_view script) { return detail::of(lab_replay, script); }
inline std::string check(std::string_view script) { return detail::text_of(detail::of(lab_check, script)); }
inline std::string upgrade(std::string_view script) { return detail::text_of(detail::of(lab_upgrade, script)); }

} // namespace labrun
