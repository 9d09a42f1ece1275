// What a lab is opened with, how somebody asks, and who is there.
#pragma once
#include "parts/calls.hpp"

namespace labrun {

// Where a journal is before a call returns: on the disk, or in the system's memory, which outlives the process and not the machine.
enum class sync { data, none };

// By how many sessions one that came before them is passed at most, unless said otherwise.
inline constexpr std::uint32_t OVERTAKES = 64;

// What holds of a lab for as long as it is open.
struct lab_options {
    // Stations, at most 31, by their names, each with the instruments that it may use. A station has one session at a time: a second one
    // waits.
    std::vector<std::pair<std::string, std::vector<std::string>>> stations;
    // What all others may use, who are guests (all instruments, unless said otherwise); and how many of them hold at once.
    std::optional<std::vector<std::string>> guests;
    std::uint32_t places = UINT32_MAX;
    // By how many that came later and need one of its instruments a session is passed at most. 0: by nobody. A large number: whoever finds
    // all its instruments free goes first.
    std::uint32_t overtakes = OVERTAKES;
    // The path of a file, or none. With a journal, what a call told is in the file when it returns: a process that is killed comes back
    // with the sessions that held (lab::resumed). The file belongs to the instruments and stations by their names and order, and grows for
    // as long as it is used.
    std::string journal;
    labrun::sync sync = labrun::sync::data;
    // How long a session with a time limit that came to hold waits for the disk, and always until that limit: then it is over, by
    // journal_error. (One without waits for the disk as it does for instruments.)
    std::chrono::milliseconds disk{10000};
    // How many sets of instruments are waited for at most, by all that wait; then `full` is thrown.
    std::size_t line = 4096;
};

// How somebody asks: `asking().timeout(2s).limit(30s).note("ripple")`. Times are counted in milliseconds, and broken ones are rounded up.
class asking {
  public:
    // How long it waits: then timed_out says who held what it wanted. 0: it takes what is free, and doesn't wait.
    asking &timeout(std::chrono::nanoseconds most) { return timeout_ = detail::milliseconds(most), *this; }
    // How long it may hold while somebody waits for what it has: then it is taken away. (What nobody wants is held for longer.)
    asking &limit(std::chrono::nanoseconds most) { return limit_ = detail::milliseconds(most), *this; }
    // What it is for: see held::note. It is in the journal before the session begins.
    asking &note(std::string text) { return note_ = std::move(text), *this; }

  private:
    friend class detail::lab_core;
    std::uint64_t timeout_ = LAB_NEVER, limit_ = LAB_NEVER;
    std::string note_;
};

// A session that holds, or waits, as lab::sessions() tells it.
struct standing {
    std::uint64_t number;
    std::string station;                  // nothing, of a guest
    std::vector<std::string> instruments; // that it holds; or that are in one of the sets that it waits for
    bool holds;
    std::chrono::system_clock::time_point since; // when it asked, or came to hold
    std::string note;                            // the last one, of this process
};

} // namespace labrun
