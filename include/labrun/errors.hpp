// What labrun throws, and what says who keeps somebody waiting.
#pragma once
#include <algorithm>
#include <chrono>
#include <cstdint>
#include <cstdio>
#include <memory>
#include <optional>
#include <stdexcept>
#include <string>
#include <utility>
#include <vector>

namespace labrun {

namespace detail {

inline std::string joined(const std::vector<std::string> &all, const std::string &between) {
    std::string text;
    for (const std::string &it : all) text += (text.empty() ? "" : between) + it;
    return text;
}

} // namespace detail

// What went wrong; also a status of the library that its call doesn't have.
struct error : std::runtime_error {
    using std::runtime_error::runtime_error;
};

// What was asked for makes no sense: a name that nobody has, a session without an instrument, a note of two lines. The text says what.
struct invalid : error {
    using error::error;
};

// It may not be now: the job is in a session already.
struct not_now : error {
    using error::error;
};

// The session holds nothing any more: it let go.
struct not_held : error {
    explicit not_held(std::uint64_t number) : error("session " + std::to_string(number) + " has let go") {}
};

// The session was ended for its owner: by take_away(), or because it held for longer than its limit and somebody wanted what it had. Its
// instruments may be somebody else's by now.
struct taken_away : error {
    taken_away() : error("the session was taken away") {}
};

// Somebody asked for an instrument that he may not use.
struct may_not_use : error {
    using error::error;
};

// So many sets of instruments are asked for that the line has no room for these.
struct full : error {
    full() : error("the line is full") {}
};

// The lab was stopped, and lets nobody in.
struct stopped : error {
    stopped() : error("the lab was stopped") {}
};

// The lab, or the bench, is closed.
struct closed : error {
    closed() : error("it is closed") {}
};

// This is the child of a fork, and what it has is a copy: what it would hold, its parent may hold, too.
struct other_process : error {
    explicit other_process(long number) : error("this belongs to process " + std::to_string(number)), process(number) {}
    long process;
};

// The journal can't be used: another process has it open; it is another's; a line of it was changed (`line`, else 0); or a write failed.
struct journal_error : error {
    journal_error(const std::string &path, const std::string &why, std::size_t at = 0) : error(path + ": " + why), line(at) {}
    std::size_t line;
};

// A script or a step is refused: its line, from 1, and 1 to 14 for S1 to S14, or 0 for a step that isn't legal.
struct refused : error {
    refused(std::size_t at, std::uint32_t why)
        : error("line " + std::to_string(at) + (why ? ": S" + std::to_string(why) : ": step is not legal")), line(at), cause(why) {}
    std::size_t line;
    std::uint32_t cause;
};

// The session of a script was given up, by its patience or by give_up(). The next begin() is about the one after it.
struct withdrawn : error {
    withdrawn() : error("the session was withdrawn") {}
};

// Who keeps an instrument from a session that waits: whoever holds it, and `held_for` says for how long; or whoever waits and comes first,
// and `behind` says what that one waits for itself, and so on to one that holds. `job` is a station, or a guest; `session` is the number
// that lab::take_away takes.
struct keeper {
    std::string instrument, job;
    std::uint64_t session = 0;
    bool holds = false;
    std::chrono::duration<double> held_for{};
    std::shared_ptr<const keeper> behind{};

    // The end of the chain: who holds.
    const keeper &end() const { return behind ? behind->end() : *this; }

    // board (session 7)
    std::string who() const { return job + " (session " + std::to_string(session) + ")"; }

    // supply is kept for board (session 7), which waits for scope, held by radio (session 5) for 125 s
    std::string text() const { return instrument + (holds ? " has been " : " is ") + chain(); }
    std::string chain() const {
        const std::string rest = behind ? ", which waits for " + behind->instrument + ", " + behind->chain() : "";
        return (holds ? "held by " : "kept for ") + who() + for_long() + rest;
    }

    // As ` for 125 s`, of one that holds; with one decimal below ten seconds.
    std::string for_long() const {
        char told[40] = "";
        if (holds) std::snprintf(told, sizeof told, " for %.*f s", held_for.count() < 10 ? 1 : 0, held_for.count());
        return told;
    }
};

// The time limit passed, and the session is over; `keepers` says who kept it waiting at that moment. The text names first who is at the end
// of a chain.
struct timed_out : error {
    explicit timed_out(std::vector<keeper> by) : error("still waits" + because(by)), keepers(std::move(by)) {}
    std::vector<keeper> keepers;

  private:
    static std::string because(const std::vector<keeper> &by) {
        std::vector<std::string> all, ends;
        bool is_chain = false;
        for (const keeper &it : by) {
            all.push_back(it.text());
            is_chain = is_chain || it.behind;
            const std::string end = it.end().who() + ", at " + it.end().instrument + it.end().for_long();
            if (std::find(ends.begin(), ends.end(), end) == ends.end()) ends.push_back(end);
        }
        return (is_chain ? " for " + detail::joined(ends, " and ") : "") + (by.empty() ? "" : ": ") + detail::joined(all, ", ");
    }
};

} // namespace labrun
