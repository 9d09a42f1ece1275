// What the tests of the C++ package have in common.
#include <atomic>
#include <cstdio>
#include <cstdlib>
#include <functional>
#include <future>
#include <iostream>
#include <sstream>
#include <string>
#include <thread>
#include <vector>

using namespace std::chrono_literals;
using names = std::vector<std::string>;

inline std::atomic<int> passed{0}, failed{0};

inline void expect(const std::string &what, bool is_so) {
    (is_so ? passed : failed)++;
    if (!is_so) std::cout << "WRONG " + what + "\n" << std::flush;
}

inline void same(const std::string &what, const std::string &found, const std::string &wanted) {
    expect(what + ": " + found + " IS NOT " + wanted, found == wanted);
}

// What a call throws, with each number of seconds left out; nothing if it throws no such fault.
template <class Fault = labrun::error, class Call> std::string why(Call call) {
    std::string text;
    try {
        static_cast<void>(call());
    } catch (const Fault &fault) {
        std::istringstream words(fault.what());
        for (std::string word; words >> word;) {
            const bool is_number = word.find_first_not_of("0123456789.") == std::string::npos && word.find('.') != std::string::npos;
            text += (text.empty() ? "" : " ") + (is_number ? "_" : word);
        }
    }
    return text;
}
template <class Fault, class Call> bool throws(Call call) { return !why<Fault>(call).empty(); }

inline std::string text(const names &all) {
    std::string text;
    for (const std::string &it : all) text += (text.empty() ? "" : " ") + it;
    return text;
}

// Sleeps until this is so.
inline void until(const std::function<bool()> &is_so) {
    while (!is_so()) std::this_thread::sleep_for(1ms);
}

// A thread that calls this; what it gives comes later.
template <class Call> auto later(Call call) { return std::async(std::launch::async, call); }

inline int ended() {
    std::cout << passed << " passed, " << failed << " failed\n";
    return failed != 0;
}
