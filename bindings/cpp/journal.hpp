// What the tests of a journal have in common.
#include "labrun/lab.hpp"
#include "checks.hpp"
#include "disk.hpp"
#include <fstream>
#include <map>

using labrun::asking;
using labrun::journal_error;
using labrun::lab;

inline const names BAY = {"scope", "supply", "load-1", "load-2"};
inline const auto NOW = asking().timeout(0s);
inline const auto LONG = asking().timeout(300s);
inline std::string path;

inline labrun::lab_options options(labrun::sync how = labrun::sync::none) {
    labrun::lab_options it;
    it.stations = {{"board", {"scope", "supply"}}};
    it.journal = path;
    it.sync = how;
    return it;
}
inline lab opened() { return lab(BAY, options()); }

// With so little patience for the disk that nobody waits for long.
inline lab impatient() {
    labrun::lab_options it = options();
    it.disk = 50ms;
    return lab(BAY, it);
}

inline std::string written() {
    std::ifstream file(path, std::ios::binary);
    return {std::istreambuf_iterator<char>(file), std::istreambuf_iterator<char>()};
}
inline void put(const std::string &text) { std::ofstream(path, std::ios::binary | std::ios::trunc) << text; }
inline void anew() { std::remove(path.c_str()); }

inline std::size_t count(const std::string &text, const std::string &what) {
    std::size_t found = 0;
    for (std::size_t at = text.find(what); at != std::string::npos; at = text.find(what, at + 1)) found++;
    return found;
}

// Does this until it doesn't fail. (When the disk is well again, a write that was under way may fail yet.)
inline void until_done(const std::function<void()> &call) {
    while (throws<journal_error>(call)) {
    }
}

// Which sessions hold by the lines of a file, as the words of its lines say it; and whether two ever held one instrument.
struct by_lines {
    std::map<std::uint64_t, std::uint64_t> held;
    std::size_t holds = 0;
    bool meets = false;

    explicit by_lines(const std::string &text) {
        std::istringstream lines(text.substr(0, text.rfind('\n') + 1));
        for (std::string sum, word, line; std::getline(lines, line);) {
            std::istringstream words(line);
            std::uint64_t ask = 0, kind = 0, needs = 0;
            words >> sum >> word >> std::hex >> ask;
            if (word == "end") held.erase(ask);
            if (word != "hold") continue;
            words >> kind >> needs;
            for (const auto &it : held) meets = meets || (it.second & needs);
            held[ask] = needs;
            holds++;
        }
    }
};
