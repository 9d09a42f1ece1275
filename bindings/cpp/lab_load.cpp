// Loads a lab, with as many sessions as LABRUN_SESSIONS says (20000): c++ -std=c++17 -I include bindings/cpp/lab_load.cpp -L FOLDER
// -llabrun -pthread
#include "labrun/lab.hpp"
#include "checks.hpp"
#include <random>

using labrun::asking;
using labrun::lab;

// Simulated instruments, each of which refuses a second client. 8 threads want random sets of them, some with a time limit, some one of
// several. Some hang, away from their instruments, until an operator takes these away.
static void load(std::uint32_t overtakes, int sessions) {
    constexpr unsigned INSTRUMENTS = 12, THREADS = 8;
    labrun::lab_options options;
    options.overtakes = overtakes;
    names all;
    for (unsigned at = 0; at < INSTRUMENTS; at++) all.push_back("i-" + std::to_string(at));
    lab bay(all, options);
    std::vector<std::atomic<int>> clients(INSTRUMENTS);
    std::vector<std::atomic<std::uint64_t>> hanging(THREADS);
    std::atomic<int> refused{0}, done{0}, late{0}, taken{0};
    std::atomic<bool> is_over{false};
    auto an_operator = later([&] {
        for (; !is_over; std::this_thread::sleep_for(50us))
            for (std::atomic<std::uint64_t> &it : hanging)
                if (const std::uint64_t number = it.exchange(0)) taken += bay.take_away(number);
    });
    std::vector<std::future<void>> threads;
    const auto index = [](const std::string &name) { return static_cast<std::size_t>(std::stoul(name.substr(2))); };
    for (unsigned thread = 0; thread < THREADS; thread++)
        threads.push_back(later([&, thread] {
            std::mt19937 chance(thread);
            const auto some = [&] {
                names it;
                for (unsigned left = 1 + static_cast<unsigned>(chance() % 3); left; left--) it.push_back(all[chance() % INSTRUMENTS]);
                return it;
            };
            int told = 0;
            while (done < sessions) try {
                    asking how;
                    if (chance() % 4 == 0) how.timeout(std::chrono::milliseconds(chance() % 3));
                    auto held = chance() % 3 ? bay.hold(some(), how) : bay.any_of({some(), some()}, how);
                    for (const std::string &it : held.instruments()) refused += clients[index(it)]++ != 0;
                    if (chance() % 8 == 0) std::this_thread::sleep_for(20us);
                    for (const std::string &it : held.instruments()) clients[index(it)]--;
                    done++;
                    if (chance() % 128) continue;
                    hanging[thread] = held.number();
                    until([&] { return !held.is_held(); });
                    told--;
                    held.finish();
                } catch (const labrun::timed_out &) {
                    late++;
                } catch (const labrun::taken_away &) {
                    told++;
                }
            expect("who hangs is told", told == 0);
        }));
    for (auto &it : threads) it.get();
    is_over = true;
    an_operator.get();
    expect("no instrument has two clients", refused == 0);
    expect("nobody is left", done >= sessions && bay.sessions().empty());
    std::cout << "overtakes " << overtakes << ": " << done << " sessions, " << late << " given up, " << taken << " taken away, " << refused
              << " refused\n";
}

int main() {
    const char *const given = std::getenv("LABRUN_SESSIONS");
    for (const std::uint32_t overtakes : {0u, 3u, 64u}) load(overtakes, given ? std::atoi(given) : 20000);
    return ended();
}
