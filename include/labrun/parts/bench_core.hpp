// A bench of a script, behind one mutex: who sleeps, and who is woken.
#pragma once
#include "../runs.hpp"
#include "shared.hpp"

namespace labrun::detail {

// What the thread of a job is at, or what came of its ask.
enum class stage { outside, waits, holds, withdrawn, none_left };

struct seat {
    stage is = stage::outside;
    std::condition_variable woken;
};

// The library takes one call at a time, and none of them waits. So whoever waits sleeps, and whoever lets go or gives up calls
// `lab_settle`, which says who has come to something.
class bench_core final : public shared {
  public:
    explicit bench_core(std::string_view script) {
        lab_told told{};
        lab_size size{};
        done_reading(lab_bench_open(bytes(script), script.size(), &bench_, &told), told);
        done(lab_bench_size(&bench_, &size));
        for (std::uint32_t job = 0; job < size.jobs; job++) jobs.push_back(name(lab_job_name, job));
        for (std::uint32_t at = 0; at < size.instruments; at++) instruments.push_back(name(lab_instrument_name, at));
        seats_ = std::vector<seat>(size.jobs);
    }

    // Waits until the next session of a job is held: its number, or 0 if none is left, and what it is.
    std::pair<std::uint32_t, lab_session> begin(std::uint32_t job) {
        lock guard = open();
        seat &me = seats_[job];
        if (me.is != stage::outside) throw not_now(jobs[job] + " is in a session, or waits for one");
        me.is = stage::waits;
        waiting_ |= 1u << job;
        settle();
        const bool is_patient = me.is == stage::waits && session_of(job).second.has_patience;
        while (me.is == stage::waits && !is_over()) {
            // (a patience runs out by the calls of `lab_settle`, so one of those that wait makes one now and then)
            if (!is_patient) me.woken.wait(guard);
            else if (me.woken.wait_for(guard, TICK) == std::cv_status::timeout && clock::now() - ticked_ >= TICK / 2) {
                ticked_ = clock::now();
                settle();
            }
        }
        if (is_over()) throw_over();
        if (me.is == stage::holds) return session_of(job);
        if (std::exchange(me.is, stage::outside) == stage::withdrawn) throw withdrawn();
        return {};
    }

    // No if the job doesn't wait, or its session has no patience.
    bool give_up(std::uint32_t job) {
        const lock guard = open();
        if (answered(lab_withdraw(&bench_, job), {LAB_NOT_YET})) return false;
        tell(1u << job, stage::withdrawn);
        settle();
        return true;
    }

    std::optional<lab_entry> command(std::uint32_t job) {
        const lock guard = open();
        lab_entry entry{};
        if (answered(lab_command(&bench_, job, &entry), {LAB_NOT_YET})) return std::nullopt;
        return entry;
    }

    void end(std::uint32_t job) {
        const lock guard = open();
        lab_turned turned{};
        answered(lab_end(&bench_, job, &turned));
        seats_[job].is = stage::outside;
        if (waiting_) settle();
    }

    report close() {
        belongs_here();
        const lock guard(mutex_);
        lab_turned turned{};
        // Jobs that have no session left retire. (One may owe a meal, for which it needs forks that others give as they retire.)
        for (std::size_t times = 0; times < seats_.size() && !is_over(); times++)
            for (std::uint32_t job = 0; job < seats_.size(); job++)
                answered(lab_retire(&bench_, job, 1, &turned), {LAB_NOT_YET, LAB_SESSIONS_LEFT});
        is_closed_ = true;
        wake_all();
        if (fault_) throw_over();
        return told_by(lab_bench_close, &bench_);
    }

    std::vector<std::string> jobs, instruments;

  private:
    static constexpr std::chrono::milliseconds TICK{100};

    template <class Call> std::string name(Call call, std::uint32_t at) {
        std::uint8_t room[16];
        std::size_t written = 0;
        done(call(&bench_, at, room, sizeof room, &written));
        return std::string(room, room + written);
    }

    // The session that a job is in, by its number, and what it is. (`struct` and `::`, because a call and a structure have this name)
    std::pair<std::uint32_t, lab_session> session_of(std::uint32_t job) {
        struct lab_state now {};
        lab_session what{};
        answered(::lab_state(&bench_, job, &now));
        answered(lab_session_of(&bench_, job, now.session, &what));
        return {now.session, what};
    }

    // All that can be done is done, and those that it concerns are told.
    void settle() {
        lab_came came{};
        answered(lab_settle(&bench_, waiting_, &came));
        tell(came.given_up, stage::withdrawn);
        tell(came.holds, stage::holds);
        tell(came.none_left, stage::none_left);
    }
    void tell(std::uint32_t those, stage is) {
        each(those & waiting_, [&](std::uint32_t job) {
            seats_[job].is = is;
            seats_[job].woken.notify_one();
        });
        waiting_ &= ~those;
    }

    void wake_all() noexcept override {
        for (seat &it : seats_) it.woken.notify_all();
    }

    using clock = std::chrono::steady_clock;
    owned<lab_bench, lab_bench_free> bench_;
    std::vector<seat> seats_;
    std::uint32_t waiting_ = 0; // the jobs whose threads wait: bit k for job k
    clock::time_point ticked_;
};

} // namespace labrun::detail
