// A lab: threads that share instruments, in C++17, over labrun_bay.h.
//
//     labrun::lab lab({"scope", "supply", "load-1", "load-2"});
//     {
//         auto held = lab.hold({"scope", "supply"}, labrun::asking().timeout(5s));    // waits until both are free at once
//         measure(held.instruments());
//     }                                                                               // lets go, also by an exception that is caught
//     auto load = lab.any_of({{"load-1"}, {"load-2"}});                               // the first that is free
//
// Who is let in, and in which order, is decided by one proved machine, the bay (docs/BAY.md): no two sessions hold an instrument, whoever
// asked first for the same goes first, and nobody is passed for ever. This file is tested: it has the mutex, the threads and the file.
// Any thread may call a lab. A session may be used by one thread at a time, and by another than the one that asked for it. A lab outlives
// the threads in its calls.
#pragma once
#include "parts/lab_core.hpp"
#include <iterator>

namespace labrun {

// A session that holds its instruments. When it goes it lets go, and with a journal waits until that is in the file, or a write has failed;
// then it is written as soon as one succeeds, and only then somebody else is let in. On the disk it is a tenth of a second later, or before
// somebody else is let in. To learn of that, call finish().
class [[nodiscard]] held {
  public:
    explicit held(detail::owner mine) : mine_(std::move(mine)) {}

    // Its number, by which take_away() takes it. No other session of the lab has it, also after a restart.
    std::uint64_t number() const { return mine_ ? mine_->number : 0; }
    // Its token: larger than that of each session that was told before that it holds; with a journal also after a restart. So a server before an
    // instrument can refuse whoever comes with a smaller one than it has seen: a session that was taken away, and doesn't know it yet.
    std::uint64_t token() const { return mine_ ? mine_->token : 0; }
    // The instruments that it came to hold, in the order of the lab's; of any_of() the ones of the choice that was free.
    std::vector<std::string> instruments() const { return mine_ ? core().names.names(mine_->needs) : std::vector<std::string>(); }
    // Its station; nothing, of a guest.
    std::string station() const { return mine_ ? core().names.station(mine_->kind) : std::string(); }
    // Whether it holds yet. No: it let go or was taken away, or this is a child of a fork.
    bool is_held() const { return mine_ && core().is_held(*mine_); }

    // What it is at: sessions() shows it, and with a journal it is in the file when this returns. At most 500 bytes, no line feed or
    // carriage return, else invalid. journal_error: a write failed; the note stands in the file as soon as one succeeds, so don't write it
    // again.
    void note(const std::string &text) { core().note(*mine_, text); }

    // Lets go; with a journal that is on the disk when this returns. journal_error: a write failed, and it holds until one succeeds, but
    // may do nothing more than finish: call it again to wait for that. taken_away: it holds no longer, and finish() says so whenever it is
    // called.
    void finish() { core().finish(*mine_); }

  private:
    // (none of one that was moved away)
    detail::lab_core &core() const { return mine_ ? *mine_.get_deleter().core : throw not_held(0); }

    detail::owner mine_;
};

// A station of a lab.
class station {
  public:
    station(std::shared_ptr<detail::lab_core> core, std::uint32_t kind) : core_(std::move(core)), kind_(kind) {}

    // As those of the lab, but one session at a time: a second one waits for its end.
    held hold(const std::vector<std::string> &instruments, const asking &how = asking()) const { return any_of({instruments}, how); }
    held any_of(const std::vector<std::vector<std::string>> &choices, const asking &how = asking()) const {
        return held(core_->hold(kind_, choices, how));
    }

  private:
    std::shared_ptr<detail::lab_core> core_;
    std::uint32_t kind_;
};

// The instruments, who asks for them, and who holds them. After a fork each call in the child throws other_process.
class lab {
  public:
    // At most 64 instruments. invalid: the names or stations make no sense. journal_error: see there; the file is as it was.
    explicit lab(const std::vector<std::string> &instruments, const lab_options &options = lab_options())
        : core_(new detail::lab_core(instruments, options), detail::where_opened()) {}
    lab(lab &&other) noexcept = default;
    // Closes, if that wasn't done. What can't be written isn't waited for: see close().
    ~lab() {
        if (core_) detail::quietly([&] { close(); });
    }

    // A guest's session: waits until all these are free at once, and holds them. (One that is named twice counts once.)
    // timed_out, taken_away, may_not_use, full, stopped, closed, journal_error, other_process; invalid: no instrument, or one that isn't
    // there.
    held hold(const std::vector<std::string> &instruments, const asking &how = asking()) const { return any_of({instruments}, how); }
    // The same of several sets: whichever is free first, and of several that are free the first of them.
    held any_of(const std::vector<std::vector<std::string>> &choices, const asking &how = asking()) const {
        return held(core_->hold(core_->names.guests(), choices, how));
    }
    // A station by its name; invalid: there is none.
    labrun::station station(const std::string &name) const { return {core_, core_->names.station(name)}; }

    // The sessions that held when the process before this one ended: they hold yet, and nobody else is let in until they let go. It gives
    // each once. One that nobody takes from here stays held, and comes back the next time.
    [[nodiscard]] std::vector<held> resumed() const {
        std::vector<detail::owner> all = core_->resumed();
        return {std::make_move_iterator(all.begin()), std::make_move_iterator(all.end())};
    }

    // Who holds and who waits, in the order of asking.
    std::vector<standing> sessions() const { return core_->sessions(); }

    // Ends a session that holds, for its owner, from any thread: for one that hangs. The owner's next call throws taken_away; see to it
    // that he stays away from the instruments until then. No: it holds nothing. journal_error: it is so, and will be written once a write
    // succeeds.
    bool take_away(std::uint64_t number) const { return core_->take_away(number); }

    // Nobody is let in any more: whoever waits or asks gets `stopped`. Who holds goes on to hold.
    void stop() const { core_->stop(); }
    // The same, by `closed`; then the journal is written to its end and free for another process. Whoever holds comes back from it, and may
    // call nothing more. journal_error: a write failed, and the lab isn't closed yet; call it again.
    void close() const { core_->close(); }

  private:
    std::shared_ptr<detail::lab_core> core_;
};

} // namespace labrun
