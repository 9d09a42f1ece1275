// The text of a bay on its way to the disk: what is written, by whom, and who waits for it.
#pragma once
#include "file.hpp"
#include <chrono>
#include <map>
#include <optional>
#include <vector>

namespace labrun::detail {

// What somebody does without the mutex: a text to be written; or none, and a sync. It is this hand-out, up to this position of the journal.
struct job {
    std::string text;
    std::uint64_t position, handed;
};

// Whoever waits for the journal writes and syncs it, unless somebody does: then he waits, and shares what comes next. One may write while
// another syncs what was written before. After a call that failed the rest is written again, from what is durable on: the bay hands out the
// same bytes again, and each text has its place. All is used with the mutex held.
struct writing {
    bool has_more = true, is_urgent = true; // there may be text that wasn't handed out; and somebody waits for it
    // how often text was handed out, and up to which of these it is written, and durable; how long the journal is that is written
    std::uint64_t handed = 0, written = 0, durable = 0, position = 0;
    bool is_writing = false, is_syncing = false;
    std::map<std::uint64_t, std::uint64_t> comes{}; // whose hold isn't durable yet, and which hand-out has it
    std::vector<std::uint64_t> waited_for{};        // up to which hand-outs others wait for the disk
    // what isn't durable has to be written again; and the last call failed, so that the writer alone tries, after a pause
    bool is_torn = false, is_bad = false;
    // what the writer saw when it looked last, and when that has to be synced
    std::optional<std::pair<std::uint64_t, std::chrono::steady_clock::time_point>> due{};

    // The hand-out that has all that was given by now.
    std::uint64_t within() const { return handed + has_more; }

    bool wants_sync() const {
        if (is_bad) return true;
        for (const auto &it : comes)
            if (it.second <= written) return true;
        for (const std::uint64_t it : waited_for)
            if (it > durable && it <= written) return true;
        return false;
    }
    bool is_due() const { return due && durable < due->first && due->second <= std::chrono::steady_clock::now(); }

    std::optional<job> syncs(bool anyway) {
        if (is_syncing || written == durable || !(anyway || wants_sync())) return std::nullopt;
        is_syncing = true;
        return job{{}, position, written};
    }

    // For how long the writer sleeps; nothing: until it is woken. What nobody waits for is on the disk within twice that.
    std::optional<std::chrono::steady_clock::duration> rests() {
        constexpr std::chrono::milliseconds SOON(50);
        if (!has_more && written == durable) {
            due.reset();
            return std::nullopt;
        }
        const auto now = std::chrono::steady_clock::now();
        if (!due || durable >= due->first) due.emplace(within(), now + SOON);
        // (if it is due, somebody else is just at it)
        return due->second > now ? due->second - now : SOON;
    }

    // The asks that come to hold by these lines, whose words are behind a sum.
    void notes_who_comes(std::string_view text) {
        for (std::size_t at = 0; at < text.size(); at = text.find('\n', at) + 1)
            if (text.compare(at + 16, 6, " hold ") == 0) comes[std::stoull(std::string(text.substr(at + 22, 16)), nullptr, 16)] = handed;
    }

    // It is durable up to there.
    void reaches(const job &it) {
        durable = it.handed;
        for (auto at = comes.begin(); at != comes.end();) at = at->second <= durable ? comes.erase(at) : std::next(at);
        const auto is_done = [&](std::uint64_t one) { return one <= durable; };
        waited_for.erase(std::remove_if(waited_for.begin(), waited_for.end(), is_done), waited_for.end());
    }
};

} // namespace labrun::detail
