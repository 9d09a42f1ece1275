// What follows from a call of the bay: who is told, what is written, and when it is to be called again.
#pragma once
#include "in_the_way.hpp"
#include "writing.hpp"
#include <csignal>
#include <thread>
#include <unordered_map>

namespace labrun::detail {

inline constexpr std::uint32_t NOTHING_YET = UINT32_MAX; // beside what an ask is told

// What is kept of a session until its owner has no more to do with it.
struct session_state {
    std::uint64_t number = 0;
    std::uint32_t kind = 0, what = NOTHING_YET; // its class, and what it was told last
    std::uint64_t wants = 0, needs = 0;         // the instruments of all sets that it asked for; and those that it came to hold
    std::uint64_t token = 0;                    // from when it came to hold on
    bool lets_go = false, has_let_go = false;
    bool sleeps = false; // its thread does, and may be woken to write
    std::string note{};
    std::optional<timed_out> late{}; // of one whose time limit passed
    std::condition_variable told{};  // its thread sleeps there
};

// All that stands here is used with the mutex held, but for the file.
class shell : public shared {
  public:
    const lab_names names;

  protected:
    shell(const std::vector<std::string> &instruments, const lab_options &options) : names(instruments, options) {}
    ~shell() { ends(); }

    // Milliseconds. With a journal those of the clock on the wall, as it was at the open: they stand in the file, and go on after a
    // restart. From then on a clock counts that nobody sets.
    std::uint64_t now() const {
        return began_ + static_cast<std::uint64_t>((std::chrono::steady_clock::now() - opened_) / std::chrono::milliseconds(1));
    }

    // What a call of the bay answered; what follows from it is told, and whoever has to do something is woken.
    std::uint32_t pump(std::uint32_t status = LAB_DONE, std::initializer_list<std::uint32_t> those = {}) {
        changes(status, those);
        calls_on();
        return status;
    }
    // The same for one who waits then.
    std::uint32_t changes(std::uint32_t status, std::initializer_list<std::uint32_t> those = {}) {
        std::uint64_t next = LAB_NEVER;
        answered(status, those);
        disk_.has_more = disk_.is_urgent = true;
        if (timer_.joinable()) answered(lab_bay_time(&bay_, now(), &next));
        if (next < timer_wakes_) {
            timer_wakes_ = next;
            timer_looks_.notify_one();
        }
        tells();
        return status;
    }

    // Waits until all that the bay has to say by now is written; with `syncs` on the disk.
    void is_written(lock &guard, bool syncs = true) {
        if (!file_) return;
        const std::uint64_t within = disk_.within(), before = failures_;
        const auto is_there = [&] { return (syncs ? disk_.durable : disk_.written) >= within; };
        if (syncs) disk_.waited_for.push_back(within);
        works(guard, nullptr, true, syncs, [&] { return is_there() || failures_ != before; });
        if (!is_there()) throw_unwritten();
    }

    // Returns once it is so, or all is over. Meanwhile it does what nobody does, or sleeps. A session with a time limit, which `may` not,
    // only sleeps, so that it is told in time by a disk that hangs, too; and no letting go waits for a sync.
    template <class So> void works(lock &guard, session_state *mine, bool may, bool syncs, So is_so) {
        for (;;) {
            bool is_through = is_so() || is_over();
            std::optional<job> it;
            if (file_ && may && !is_through) it = takes(mine ? mine->number : 0, syncs, false);
            if (!it) is_through = is_so() || is_over(); // (there may have been nothing to write)
            calls_on();                                 // (what it leaves somebody else does)
            if (is_through) return;
            if (it) does(guard, *it);
            else if (mine) {
                mine->sleeps = may;
                mine->told.wait(guard);
                mine->sleeps = false;
            } else {
                lines_++;
                written_.wait(guard);
                lines_--;
            }
        }
    }
    [[noreturn]] void throw_unwritten() const {
        if (is_over()) throw_over();
        throw why_ ? file_->not_written(why_) : journal_error(file_->path(), "the disk took too long");
    }

    // A thread writes for whoever has a time limit, and what nobody waits for, from the open on if there is a journal; and another one looks
    // at the clock, once anybody has a time limit: so times pass, and are told, while the disk hangs.
    void begins_writer() { begins(writer_, &shell::writes); }
    void begins_timer() { begins(timer_, &shell::waits); }

    // They end, whatever isn't written.
    void ends() noexcept {
        lock guard(mutex_);
        is_closed_ = true;
        wake_all();
        guard.unlock();
        for (std::thread *it : {&writer_, &timer_})
            if (it->joinable()) it->join();
        guard.lock();
        written_.wait(guard, [&] { return !disk_.is_writing && !disk_.is_syncing; });
    }

    // What is to be written; the journal is so long behind it.
    std::string_view takes(std::uint64_t &position) {
        std::size_t length = 0;
        while (answered(lab_bay_journal(&bay_, room_.data(), room_.size(), &length, &position), {LAB_NO_ROOM})) room_.resize(2 * length);
        return {reinterpret_cast<const char *>(room_.data()), length};
    }

    owned<lab_bay, lab_bay_free> bay_;
    std::unordered_map<std::uint64_t, session_state> sessions_;
    std::uint64_t began_ = 0;
    std::optional<file> file_; // of the journal, if there is one
    std::uint64_t base_ = 0;   // how long those before it were
    writing disk_;

  private:
    void tell(session_state &of, const lab_outcome &it) {
        if (it.what == LAB_HOLDS) of.needs = it.needs, of.token = it.token;
        if (it.what == LAB_LAPSED) try {
                of.late.emplace(in_the_way{&bay_, names, now()}.of(it.number, of.wants, of.kind));
            } catch (const std::bad_alloc &) {
                // (then it isn't said who was in the way)
            }
        of.what = it.what;
        of.told.notify_one();
    }

    void begins(std::thread &thread, void (shell::*step)(lock &)) {
        if (thread.joinable()) return;
        // (a signal is the program's, and one of its threads takes it)
        sigset_t all, before;
        sigfillset(&all);
        pthread_sigmask(SIG_SETMASK, &all, &before);
        const auto back = [](sigset_t *it) { pthread_sigmask(SIG_SETMASK, it, nullptr); };
        const std::unique_ptr<sigset_t, decltype(back)> at_the_end(&before, back);
        thread = std::thread([this, step] {
            lock guard(mutex_);
            while (!is_over()) try {
                    (this->*step)(guard);
                } catch (const std::exception &) {
                    breaks(std::current_exception());
                }
        });
    }

    void tells() {
        lab_outcome it{};
        // (the serial number is given back with the next one, when the session has what it was told: so nothing is lost between the two)
        for (; !answered(lab_bay_tell(&bay_, last_serial_, &it), {LAB_NOT_YET}); last_serial_ = it.serial)
            if (const auto at = sessions_.find(it.number); at != sessions_.end()) tell(at->second, it);
    }

    // What nobody does yet. The writer, which is no session and `is_last`, also does what is due, and what failed before.
    std::optional<job> takes(std::uint64_t number, bool syncs, bool is_last) {
        const bool anyway = is_last && disk_.is_due();
        if ((disk_.is_torn || disk_.is_bad) && (!is_last || (disk_.is_torn && !mends()))) return std::nullopt;
        std::optional<job> it;
        // (what it wants itself comes first)
        if (const auto at = disk_.comes.find(number); at != disk_.comes.end() && at->second <= disk_.written) it = disk_.syncs(anyway);
        if (!it && disk_.has_more && !disk_.is_writing && (!is_last || anyway || disk_.is_urgent)) it = text();
        if (!it && syncs) it = disk_.syncs(anyway);
        return it;
    }

    bool mends() {
        if (disk_.is_writing || disk_.is_syncing) return false;
        answered(lab_bay_failed(&bay_));
        disk_.is_torn = false;
        disk_.has_more = disk_.is_urgent = true;
        disk_.written = disk_.durable;
        return true;
    }

    std::optional<job> text() try {
        std::uint64_t position = 0;
        std::string text(takes(position));
        disk_.has_more = disk_.is_urgent = false;
        disk_.handed++;
        if (!text.empty()) {
            disk_.notes_who_comes(text);
            disk_.is_writing = true;
            return job{std::move(text), position, disk_.handed};
        }
        // (then it was all written before)
        if (disk_.durable == disk_.written) disk_.durable = disk_.handed, disk_.is_bad = false;
        disk_.written = disk_.handed;
        written_.notify_all();
        return std::nullopt;
    } catch (const std::bad_alloc &) {
        disk_.is_torn = disk_.is_bad = true; // (it is asked for again)
        return std::nullopt;
    }

    // Does it, without the mutex: those that ask while the disk is busy share the next sync.
    void does(lock &guard, const job &it) {
        guard.unlock();
        const bool is_good = it.text.empty() ? file_->sync() : file_->put(it.text, it.position - it.text.size() - base_);
        const int why = is_good ? 0 : errno;
        guard.lock();
        (it.text.empty() ? disk_.is_syncing : disk_.is_writing) = false;
        if (is_over()) return written_.notify_all();
        if (why) {
            failures_++;
            why_ = why;
            disk_.is_torn = disk_.is_bad = true;
            return wake_all();
        }
        if (!it.text.empty()) disk_.written = it.handed, disk_.position = it.position;
        if (it.text.empty() || !file_->syncs()) {
            answered(lab_bay_durable(&bay_, it.position));
            disk_.reaches(it);
            if (!disk_.is_torn) disk_.is_bad = false, why_ = 0;
            tells();
        }
        if (lines_) written_.notify_all();
    }

    // Whoever may do what there is to do is woken.
    void calls_on() {
        if (!file_) return;
        if (disk_.is_torn || disk_.is_bad) return writer_looks_.notify_one();
        if (disk_.has_more && !disk_.is_writing) {
            const session_state *one = nullptr;
            for (const auto &it : sessions_)
                if (!lines_ && it.second.sleeps && (!one || it.first < one->number)) one = &it.second;
            wakes(one);
        }
        if (disk_.written > disk_.durable && !disk_.is_syncing) {
            if (!disk_.wants_sync()) {
                if (!disk_.due) writer_looks_.notify_one();
                return;
            }
            for (const auto &it : disk_.comes)
                if (const auto at = sessions_.find(it.first); it.second <= disk_.written && at != sessions_.end() && at->second.sleeps)
                    return wakes(&at->second);
            wakes(nullptr);
        }
    }
    void wakes(const session_state *one) {
        if (one) const_cast<session_state *>(one)->told.notify_one();
        else (lines_ ? written_ : writer_looks_).notify_one();
    }

    void writes(lock &guard) {
        if (disk_.is_bad) pauses(guard);
        if (is_over()) return;
        if (const std::optional<job> it = takes(0, true, true)) return does(guard, *it);
        if (disk_.is_bad) return;
        if (const auto span = disk_.rests()) writer_looks_.wait_for(guard, *span);
        else writer_looks_.wait(guard);
    }
    void pauses(lock &guard) {
        writer_looks_.wait_for(guard, std::chrono::milliseconds(20), [&] { return is_over(); });
    }

    void waits(lock &guard) {
        timer_wakes_ = LAB_NEVER;
        pump();
        // (an hour at most, because no clock counts for ever)
        const std::uint64_t left = timer_wakes_ - std::min(timer_wakes_, now());
        timer_looks_.wait_for(guard, std::chrono::milliseconds(std::min<std::uint64_t>(left, 3600000)));
    }

    void wake_all() noexcept override {
        for (auto &it : sessions_) it.second.told.notify_one();
        for (std::condition_variable *it : {&writer_looks_, &timer_looks_, &written_}) it->notify_all();
    }

    const std::chrono::steady_clock::time_point opened_ = std::chrono::steady_clock::now();
    std::uint64_t last_serial_ = 0, timer_wakes_ = LAB_NEVER;
    std::thread writer_, timer_;
    std::condition_variable writer_looks_, timer_looks_, written_;
    int why_ = 0; // the number of the fault, if the last write failed
    std::uint64_t failures_ = 0; // how many writes failed
    unsigned lines_ = 0;         // how many sleep until something is written
    std::vector<std::uint8_t> room_ = std::vector<std::uint8_t>(4096);
};

} // namespace labrun::detail
