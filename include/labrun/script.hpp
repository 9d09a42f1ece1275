// A bench: of a script, which says which jobs there are, their sessions, and the commands of each. In C++17, over labrun.h:
//
//     labrun::bench bench = labrun::bench::open("bay.lab");
//     std::vector<std::thread> threads;
//     for (labrun::desk &desk : bench.desks())
//         threads.emplace_back([&desk] {
//             while (auto session = desk.begin())              // blocks until all its instruments are held
//                 for (const std::string &name : session->instruments()) measure(name);
//         });                                                  // a session that goes lets go, also by an exception that is caught
//     for (std::thread &thread : threads) thread.join();
//     std::cout << bench.close().text;
//
// What is proved ends at the calls of the library: that no two sessions hold an instrument at once, that each log is whole sessions, and
// that whoever waits, waits in the end for somebody who holds. This file is tested. A bench outlives its desks and sessions, and the
// threads in its calls. Time limits, a journal, sessions that come, and taking something away are a lab's: lab.hpp.
#pragma once
#include "parts/bench_core.hpp"
#include <fstream>
#include <iterator>

namespace labrun {

// A session that holds all its instruments. When it goes, it logs the commands that are left and lets go.
class session {
  public:
    session(detail::bench_core *core, std::uint32_t job, std::uint32_t number, std::uint64_t needs)
        : core_(core), job_(job), number_(number), needs_(needs) {}
    session(session &&other) noexcept
        : core_(other.core_), job_(other.job_), number_(other.number_), needs_(other.needs_), holds_(std::exchange(other.holds_, false)) {}
    // (nobody can be told here that the library did what it never should: whoever calls next is)
    ~session() {
        detail::quietly([&] { finish(); });
    }

    // Counted from 1, as the script has them.
    std::uint32_t number() const { return number_; }
    std::vector<std::string> instruments() const { return detail::those_in(needs_, core_->instruments); }

    // Does its next command, and gives its entry in the log; nothing if no command is left, or it has let go.
    std::optional<lab_entry> command() { return holds_ ? core_->command(job_) : std::nullopt; }

    // Lets go now.
    void finish() {
        if (holds_) core_->end(job_);
        holds_ = false;
    }

  private:
    detail::bench_core *core_;
    std::uint32_t job_, number_;
    std::uint64_t needs_;
    bool holds_ = true;
};

// What the owner of a job calls, from whatever thread it is on.
class desk {
  public:
    desk(detail::bench_core *core, std::uint32_t job) : core_(core), job_(job) {}

    const std::string &job() const { return core_->jobs[job_]; }

    // Begins the next session, and blocks until it holds all its instruments; nothing if no session is left. withdrawn: it was given up,
    // because its patience ran out, which the script counts in turns (a thread that waits takes ten a second), or by give_up().
    // not_now: another thread has the session, or waits for it. closed, other_process.
    std::optional<session> begin() {
        const auto [number, what] = core_->begin(job_);
        if (!number) return std::nullopt;
        return session(core_, job_, number, what.needs);
    }

    // Gives up the session that a thread waits for in begin(), from any other: it logs nothing. No: nobody waits, or the session has no
    // patience in the script, and so can't leave the line.
    bool give_up() { return core_->give_up(job_); }

  private:
    detail::bench_core *core_;
    std::uint32_t job_;
};

class bench {
  public:
    // The bench of the script in a file. refused: the script is.
    static bench open(const std::string &path) {
        std::ifstream file(path, std::ios::binary);
        if (!file) throw error("can't read " + path);
        return bench(std::string(std::istreambuf_iterator<char>(file), std::istreambuf_iterator<char>()));
    }
    // The bench of a script in memory.
    explicit bench(std::string_view script) : core_(new detail::bench_core(script)) {
        for (std::uint32_t job = 0; job < jobs().size(); job++) desks_.emplace_back(core_.get(), job);
    }

    // A desk for each job, in the order of the script.
    std::vector<desk> &desks() { return desks_; }
    const std::vector<std::string> &jobs() const { return core_->jobs; }
    const std::vector<std::string> &instruments() const { return core_->instruments; }

    // Closes the bench, and gives its report; a second call gives it again. Whoever waits at a desk, or calls one afterwards, gets closed;
    // a session that is held stays unfinished in the report.
    report close() { return core_->close(); }

  private:
    std::unique_ptr<detail::bench_core, detail::where_opened> core_;
    std::vector<desk> desks_;
};

} // namespace labrun
