// What the calls of a lab do: one call of the bay each, and then what follows from it.
#pragma once
#include "shell.hpp"

namespace labrun::detail {

// Who has a session lets go of it when he goes.
struct lets_go {
    std::shared_ptr<lab_core> core;
    inline void operator()(session_state *it) const noexcept;
};
using owner = std::unique_ptr<session_state, lets_go>;

class lab_core final : public shell, public std::enable_shared_from_this<lab_core> {
  public:
    lab_core(const std::vector<std::string> &instruments, const lab_options &options) : shell(instruments, options) {
        lab_terms terms{{}, options.line, LAB_NEVER, milliseconds(options.disk), options.overtakes, !options.journal.empty()};
        names.hashes(terms.bay);
        if (options.journal.empty()) opens(terms, "");
        else comes_back(options, terms);
    }

    // Waits until one of the choices is held. Whatever is thrown, it has left.
    owner hold(std::uint32_t kind, const std::vector<std::vector<std::string>> &choices, const asking &how) {
        std::vector<std::uint64_t> sets;
        sets.reserve(choices.size() + 1); // (a call wants a pointer, also to none)
        for (const std::vector<std::string> &it : choices) sets.push_back(names.bits(it));
        owner mine; // (goes without the mutex)
        lock guard = open();
        const std::uint64_t number = next_number_++, moment = now(), wait = how.timeout_;
        mine = begun(number, kind);
        for (const std::uint64_t it : sets) mine->wants |= it;
        // (nothing waits for a time limit of 0: it is over within the call)
        if ((wait && wait != LAB_NEVER) || how.limit_ != LAB_NEVER) begins_timer();
        // (its owner is its number, so that it can be taken back after a restart)
        const lab_asked asked{number, {1, number}, wait < LAB_NEVER - moment ? moment + wait : LAB_NEVER, how.limit_, kind, 0};
        if (const std::uint32_t why = changes(lab_bay_ask(&bay_, &asked, sets.data(), sets.size(), moment),
                                           {LAB_BAY_STOPPED, LAB_BAY_EMPTY, LAB_BAY_MAY_NOT, LAB_BAY_LINE_FULL}))
            throw_why(why, *mine);
        works(guard, mine.get(), wait == LAB_NEVER, true, [&] { return mine->what != NOTHING_YET; });
        if (mine->what != LAB_HOLDS) throw_why(mine->what, *mine);
        guard.unlock();
        if (!how.note_.empty()) note(*mine, how.note_);
        return mine;
    }

    bool is_held(const session_state &mine) {
        if (!is_here()) return false;
        const lock guard(mutex_);
        return !is_over() && mine.what == LAB_HOLDS && !mine.lets_go;
    }

    void note(session_state &mine, const std::string &text) {
        lock guard = open();
        if (mine.lets_go) throw not_held(mine.number);
        if (mine.what != LAB_HOLDS) throw taken_away();
        std::uint64_t position = 0;
        if (changes(lab_bay_note(&bay_, mine.number, bytes(text), text.size(), &position), {LAB_BAY_MAY_NOT}))
            throw invalid("a note has at most 500 bytes, and no line feed or carriage return");
        mine.note = text;
        if (file_) return is_written(guard);
        // (nobody writes it: it is done as it is)
        takes(position);
        pump(lab_bay_durable(&bay_, position));
    }

    void finish(session_state &mine) { lets_it_go(open(), mine); }

    // Nobody comes for the session any more, and nobody can be told here. While a write fails, it lets go once that can be written.
    void forgets(session_state &mine) noexcept {
        if (!is_here()) return;
        lock guard(mutex_);
        quietly([&] {
            if (is_over() || mine.has_let_go) return;
            if (mine.what == LAB_HOLDS) lets_it_go(std::move(guard), mine, false);
            else pump(lab_bay_leave(&bay_, mine.number, now()));
        });
        sessions_.erase(mine.number);
    }

    // Those that came back from the journal, hold yet, and were given to nobody.
    std::vector<owner> resumed() {
        std::vector<owner> found; // (goes without the mutex)
        const lock guard = open();
        found.reserve(gone_.size());
        for (const lab_standing &it : std::exchange(gone_, {})) {
            std::uint64_t needs = 0;
            // (somebody may have taken it away)
            if (pump(lab_bay_back(&bay_, it.number, it.owner[0], it.owner[1], now(), &needs), {LAB_BAY_OVER})) continue;
            found.push_back(begun(it.number, it.kind));
            found.back()->what = LAB_HOLDS;
            found.back()->needs = needs;
            found.back()->token = it.token;
        }
        return found;
    }

    std::vector<standing> sessions() {
        const lock guard = open();
        std::vector<standing> all;
        const auto zero = std::chrono::system_clock::now() - std::chrono::milliseconds(now());
        for (const lab_standing &it : standings(&bay_)) {
            const auto at = sessions_.find(it.number);
            const bool holds = it.what == LAB_HOLDS, is_known = at != sessions_.end();
            all.push_back({it.number, names.station(it.kind), names.names(is_known && !holds ? at->second.wants : it.needs), holds,
                           zero + std::chrono::milliseconds(it.since), is_known ? at->second.note : ""});
        }
        return all;
    }

    bool take_away(std::uint64_t number) {
        lock guard = open();
        if (changes(lab_bay_take_away(&bay_, number, now()), {LAB_NOT_YET, LAB_BAY_OVER})) return false;
        is_written(guard);
        return true;
    }

    void stop() {
        const lock guard = open();
        pump(lab_bay_stop(&bay_, now()));
    }

    void close() {
        belongs_here();
        const std::lock_guard<std::mutex> one_closes(closes_);
        lock guard(mutex_);
        if (is_closed_) return;
        is_closing_ = true;
        if (!fault_) {
            pump(lab_bay_stop(&bay_, now()));
            is_written(guard);
        }
        guard.unlock();
        ends();
        file_.reset();
        if (fault_) std::rethrow_exception(fault_);
    }

  private:
    // The lab is as its file has it, or new: how many bytes have whole lines. (A process that was killed in its first write left a file
    // without a whole line, in which nobody was told anything.)
    std::size_t opens(const lab_terms &terms, const std::string &text) {
        std::size_t used = 0;
        std::uint64_t fault = 0;
        const auto wrong = [&](const std::string &why, std::size_t line = 0) { return journal_error(file_->path(), why, line); };
        if (text.find('\n') == std::string::npos) return done(lab_bay_open(names.classes.data(), names.classes.size(), &terms, &bay_));
        switch (
            done(lab_bay_resume(names.classes.data(), names.classes.size(), &terms, bytes(text), text.size(), began_, &bay_, &used, &fault),
                 {LAB_BAY_MAY_NOT, LAB_BAY_ANOTHER, LAB_BAY_UNSOUND})) {
        case LAB_BAY_MAY_NOT: throw wrong("session " + std::to_string(fault) + " held, and in this lab it may not");
        case LAB_BAY_ANOTHER: throw wrong("it is the journal of another lab");
        case LAB_BAY_UNSOUND: throw wrong("line " + std::to_string(fault) + " was changed, or isn't in its place", fault);
        }
        return used;
    }

    void comes_back(const lab_options &options, const lab_terms &terms) {
        began_ = milliseconds(std::chrono::system_clock::now().time_since_epoch());
        file_.emplace(options.journal, options.sync == labrun::sync::data);
        const std::string text = file_->text();
        const std::size_t used = opens(terms, text);
        // (by the first line of a file: docs/BAY.md)
        if (used) base_ = std::stoull(text.substr(86, 16), nullptr, 16);
        gone_ = standings(&bay_);
        for (const lab_standing &it : gone_) began_ = std::max(began_, it.since);
        lab_standing none{};
        is_there(lab_bay_look(&bay_, 0, &none, &next_number_));
        next_number_ = std::max<std::uint64_t>(next_number_, 1);
        // What a process wrote just before it was killed may be in memory alone, and a power cut would take it after somebody was told: so
        // it is on the disk first. And what hangs over isn't left in front of the next line.
        file_->counts(used);
        const lock guard(mutex_);
        begins_writer();
        begins_timer();
    }

    owner begun(std::uint64_t number, std::uint32_t kind) {
        session_state &mine = sessions_[number];
        mine.number = number;
        mine.kind = kind;
        return owner(&mine, {shared_from_this()});
    }

    // Why it doesn't hold, by what its ask was answered, or what it was told.
    [[noreturn]] void throw_why(std::uint32_t why, const session_state &mine) const {
        if (is_over()) throw_over();
        switch (why) {
        case LAB_BAY_EMPTY: throw invalid("a session needs an instrument");
        case LAB_BAY_MAY_NOT: throw names.may_not(mine.kind, mine.wants);
        case LAB_BAY_LINE_FULL: throw full();
        case LAB_BAY_STOPPED:
        case LAB_STOPPED: is_closing_ ? throw closed() : throw stopped();
        case LAB_LAPSED: throw mine.late.value_or(timed_out({}));
        case LAB_NOT_WRITTEN: throw_unwritten();
        default: throw taken_away();
        }
    }

    void lets_it_go(lock &&guard, session_state &mine, bool syncs = true) {
        if (mine.has_let_go) throw not_held(mine.number);
        if (!mine.lets_go) {
            if (mine.what != LAB_HOLDS) throw taken_away();
            changes(lab_bay_let_go(&bay_, mine.number, now()));
            mine.lets_go = true;
        }
        // (it doesn't hold if that was written by now)
        if (mine.what == LAB_HOLDS) is_written(guard, syncs);
        mine.has_let_go = true;
    }

    std::mutex closes_;              // one thread at a time closes
    bool is_closing_ = false;        // nobody may ask any more
    std::vector<lab_standing> gone_; // came back from the journal
    std::uint64_t next_number_ = 1;
};

void lets_go::operator()(session_state *it) const noexcept { core->forgets(*it); }

} // namespace labrun::detail
