// The calls of the library, and what they answer.
#pragma once
// (in C++ some calls hide the constructor of a structure that has their name)
#pragma GCC diagnostic push
#pragma GCC diagnostic ignored "-Wshadow"
#include "../../labrun_bay.h"
#pragma GCC diagnostic pop
#include "../errors.hpp"
#include <initializer_list>
#include <new>
#include <string_view>

namespace labrun::detail {

class lab_core;

// The status, if it says that the call is done, or is one of these: what a user can bring about. Every other one is thrown.
inline std::uint32_t done(std::uint32_t status, std::initializer_list<std::uint32_t> those = {}) {
    if (!status || std::find(those.begin(), those.end(), status) != those.end()) return status;
    if (status == LAB_NO_MEMORY) throw std::bad_alloc();
    throw error("the library answered status " + std::to_string(status));
}

// Whether the call had something to answer.
inline bool is_there(std::uint32_t status) { return !done(status, {LAB_NOT_YET}); }

// (a view may have no bytes and no pointer; a call wants one)
inline const std::uint8_t *bytes(std::string_view text) { return reinterpret_cast<const std::uint8_t *>(text.empty() ? "" : text.data()); }

// Does this for each number in a set.
template <class Act> void each(std::uint64_t set, Act act) {
    for (; set; set &= set - 1) act(static_cast<std::uint32_t>(__builtin_ctzll(set)));
}

// Those of these that are in a set.
inline std::vector<std::string> those_in(std::uint64_t set, const std::vector<std::string> &all) {
    std::vector<std::string> found;
    each(set, [&](std::uint32_t at) { found.push_back(all[at]); });
    return found;
}

// Never less than the span: a moment is cut to whole milliseconds, and so is this one's end.
inline std::uint64_t milliseconds(std::chrono::nanoseconds span) {
    return span.count() <= 0 ? 0 : static_cast<std::uint64_t>(std::chrono::ceil<std::chrono::milliseconds>(span).count()) + 1;
}

// Does this where nobody can be told of what it throws.
template <class Act> void quietly(Act act) noexcept try {
    act();
} catch (const std::exception &) {
}

// What C keeps of something that was opened. It is freed when it goes.
template <class Handle, std::uint32_t (*FREE)(Handle *)> struct owned : Handle {
    owned() : Handle{} {}
    owned(const owned &) = delete;
    owned &operator=(const owned &) = delete;
    ~owned() { FREE(this); }
};

} // namespace labrun::detail
