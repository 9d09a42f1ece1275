// What threads share: who may still call it. A child of a fork has a copy, and nobody who keeps it whole.
#pragma once
#include "calls.hpp"
#include <atomic>
#include <condition_variable>
#include <exception>
#include <mutex>
#include <pthread.h>
#include <unistd.h>

namespace labrun::detail {

// How many forks lie between the first process and this one: what was opened before the last of them is another's.
inline std::atomic<unsigned> forks{0};

// The files of journals, each plus 1; a child of a fork closes its copies, so that it keeps nobody from them.
inline std::atomic<int> files[64];
inline const int at_forks = pthread_atfork(nullptr, nullptr, [] {
    forks.fetch_add(1, std::memory_order_relaxed);
    for (std::atomic<int> &it : files)
        if (const int file = it.exchange(0)) ::close(file - 1);
});

// A mutex, and what stands behind it, until that is closed or the library did what it never should.
class shared {
  public:
    bool is_here() const noexcept { return forks_ == forks.load(std::memory_order_relaxed); }

  protected:
    using lock = std::unique_lock<std::mutex>;

    // (before the mutex is taken: in a child nobody may be there to let it go)
    void belongs_here() const {
        if (!is_here()) throw other_process(process_);
    }

    // The mutex, as long as somebody may call.
    lock open() {
        belongs_here();
        lock guard(mutex_);
        if (is_over()) throw_over();
        return guard;
    }

    // Nobody waits for anything any more.
    bool is_over() const { return is_closed_ || fault_; }
    [[noreturn]] void throw_over() const {
        if (fault_) std::rethrow_exception(fault_);
        throw closed();
    }

    // What a call answered: that it is done, or one of these. If it is what it never should, everybody is told that from now on.
    std::uint32_t answered(std::uint32_t status, std::initializer_list<std::uint32_t> those = {}) try {
        return done(status, those);
    } catch (const error &) {
        breaks(std::current_exception());
        throw;
    }
    void breaks(std::exception_ptr fault) noexcept {
        if (!fault_) fault_ = std::move(fault);
        wake_all();
    }

    virtual void wake_all() noexcept = 0;

    std::mutex mutex_;
    std::exception_ptr fault_;
    bool is_closed_ = false;

  private:
    const unsigned forks_ = forks.load(std::memory_order_relaxed);
    const long process_ = static_cast<long>(getpid());
};

// Who frees it. In a child of a fork it is left as it is: its threads aren't there, and its mutex may be held for ever.
struct where_opened {
    template <class It> void operator()(It *it) const {
        if (it->is_here()) delete it;
    }
};

} // namespace labrun::detail
