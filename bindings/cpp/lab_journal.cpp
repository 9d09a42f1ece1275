// Tests a lab with a journal: c++ -std=c++17 -I include bindings/cpp/lab_journal.cpp -L FOLDER -llabrun -pthread
#include "journal.hpp"
#include <csignal>
#include <random>
#include <sys/wait.h>

// By how much the clock on the wall goes wrong, in seconds; and the one that nobody sets.
static std::atomic<long> clock_is_wrong_by{0}, steady_is_ahead_by{0};
extern "C" int clock_gettime(clockid_t which, timespec *it) noexcept {
    const long status = syscall(SYS_clock_gettime, which, it);
    if (which == CLOCK_REALTIME) it->tv_sec += clock_is_wrong_by;
    if (which == CLOCK_MONOTONIC) it->tv_sec += steady_is_ahead_by;
    return static_cast<int>(status);
}

// A process that does this and is killed, at the moment when it says so.
static void killed(const std::function<void(const std::function<void()> &)> &does) {
    int ends[2];
    if (pipe(ends)) std::abort();
    const pid_t child = fork();
    if (!child) {
        does([&] {
            if (::write(ends[1], "!", 1) != 1) _exit(1);
            pause();
        });
        _exit(1);
    }
    char told;
    expect("the process came so far", read(ends[0], &told, 1) == 1);
    kill(child, SIGKILL);
    waitpid(child, nullptr, 0);
    ::close(ends[0]);
    ::close(ends[1]);
}

static void who_held_comes_back() {
    anew();
    killed([](const auto &now) {
        const lab bay(BAY, options(labrun::sync::data));
        bay.hold({"load-2"}).finish();
        auto board = bay.station("board").hold({"scope"}, asking().note("ripple"));
        auto guest = bay.any_of({{"scope"}, {"load-1"}});
        auto waits = later([&] { return bay.hold({"scope", "load-2"}, LONG).number(); });
        until([&] { return bay.sessions().size() == 3; });
        now();
    });
    const std::string before = written();
    {
        const lab bay = opened();
        std::vector<labrun::standing> all = bay.sessions();
        expect("whoever was told, and nobody else",
               all.size() == 2 && all[0].number == 2 && all[1].number == 3 && all[0].holds && all[1].holds);
        same("they hold", why<labrun::timed_out>([&] { return bay.hold({"scope"}, NOW); }),
             "still waits: scope has been held by board (session 2) for _ s");
        const auto next = bay.hold({"load-2"}, NOW);
        expect("what is over is free", next.number() == 5);
        expect("a larger token than the three before", next.token() == 4);
    }
    expect("who isn't taken up is there the next time", by_lines(written()).held.size() == 2);
    lab bay = opened();
    std::vector<labrun::held> back = bay.resumed();
    expect("each once", back.size() == 2 && bay.resumed().empty());
    expect("as it was",
           back[0].number() == 2 && back[0].station() == "board" && text(back[0].instruments()) == "scope" && back[0].is_held());
    expect("as it was", back[1].number() == 3 && back[1].station().empty() && text(back[1].instruments()) == "load-1");
    expect("with their tokens", back[0].token() == 2 && back[1].token() == 3);
    back[0].note("brought to rest");
    back[0].finish();
    expect("it has let go", bay.hold({"scope"}, NOW).is_held());
    expect("an operator may take it away", bay.take_away(3) && throws<labrun::taken_away>([&] { back[1].finish(); }));
    back.clear();
    expect("nobody holds", bay.sessions().empty() && by_lines(written()).held.empty());
    expect("notes are in the file", count(before, " note 0000000000000002 ripple\n") == 1);
    expect("of both", count(written(), " note 0000000000000002 brought to rest\n") == 1);
    bay.close();
    put(before);
    const lab again = opened();
    expect("nor is one given that was taken away before", again.take_away(2) && again.resumed().size() == 1);
}

// Killed at random moments while threads work: whoever was told that it holds, and nothing of having let go, comes back.
static void killed_at_any_moment() {
    anew();
    for (int round = 0; round < 12; round++) {
        killed([&](const auto &now) {
            const lab bay = opened();
            for (const labrun::held &it : bay.resumed()) expect("held", it.is_held());
            std::atomic<int> done{0};
            std::vector<std::future<void>> threads;
            for (int thread = 0; thread < 4; thread++)
                threads.push_back(later([&, thread] {
                    for (std::size_t at = static_cast<std::size_t>(thread);; at++) {
                        bay.hold({BAY[at % 4], BAY[(at + at / 4) % 4]}).finish();
                        done++;
                    }
                }));
            until([&] { return done > round; });
            std::this_thread::sleep_for(std::chrono::microseconds(100 * round));
            now();
        });
        const by_lines found(written());
        const lab bay = opened();
        std::map<std::uint64_t, std::uint64_t> held;
        for (const labrun::standing &it : bay.sessions()) held[it.number] = it.instruments.size();
        bool is_same = held.size() == found.held.size();
        for (const auto &it : found.held) is_same = is_same && held.count(it.first);
        expect("those of the lines", is_same && !found.meets && found.holds > 0);
    }
}

static void cuts() {
    anew();
    {
        const lab bay = opened();
        auto one = bay.hold({"scope"}, asking().note("ripple"));
        auto two = bay.station("board").hold({"supply"});
        one.finish();
        auto three = bay.hold({"load-1", "scope"});
        bay.close();
    }
    const std::string all = written();
    bool is_good = true;
    for (std::size_t length = 0; length <= all.size(); length++) {
        const std::string left = all.substr(0, length);
        put(left);
        const lab bay = opened();
        const by_lines wanted(left);
        std::vector<labrun::held> back = bay.resumed();
        is_good = is_good && back.size() == wanted.held.size();
        for (const labrun::held &it : back) is_good = is_good && wanted.held.count(it.number());
        back.clear();
        is_good = is_good && bay.hold(BAY, NOW).number() > 0;
        bay.close();
        is_good =
            is_good && by_lines(written()).held.empty() && written().compare(0, left.rfind('\n') + 1, left, 0, left.rfind('\n') + 1) == 0;
    }
    expect("each cut", is_good);
}

static void changes() {
    anew();
    {
        const lab bay = opened();
        auto one = bay.hold({"scope"}, asking().note("ripple"));
        auto two = bay.hold({"supply"});
        one.finish();
        bay.close();
    }
    const std::string all = written();
    std::size_t line = 1;
    bool is_good = true;
    for (std::size_t place = 0; place + 1 < all.size(); place++) {
        std::string changed = all;
        changed[place] = static_cast<char>(changed[place] ^ 1);
        put(changed);
        try {
            opened();
            is_good = false;
        } catch (const journal_error &fault) {
            is_good = is_good && fault.line == line && written() == changed;
        }
        line += all[place] == '\n';
    }
    expect("each byte, by its line, and the file is as it was", is_good);
}

static void of_others() {
    anew();
    std::optional<lab> first = opened();
    auto held = first->hold({"load-2"});
    same("another lab of this process", why<journal_error>(opened), path + ": another process has it open");
    int ends[2];
    if (pipe(ends)) std::abort();
    const pid_t child = fork();
    if (!child) {
        // (its copies of the parent's are closed, so that it keeps nobody from the file)
        const char is_refused = throws<journal_error>(opened) ? 'y' : 'n';
        if (::write(ends[1], &is_refused, 1) == 1) pause();
        _exit(1);
    }
    char is_refused = 0;
    expect("another process", read(ends[0], &is_refused, 1) == 1 && is_refused == 'y');
    for (const int it : ends) ::close(it);
    first->close();
    lab second = opened();
    expect("a child keeps nobody from it", second.resumed().size() == 1);
    kill(child, SIGKILL);
    waitpid(child, nullptr, 0);
    second.close();
    const std::string before = written();
    same("other instruments", why<journal_error>([] {
             return lab({"scope", "supply"}, options());
         }),
         path + ": it is the journal of another lab");
    labrun::lab_options other = options();
    other.stations = {{"radio", {"scope"}}};
    same("other stations", why<journal_error>([&] { return lab(BAY, other); }), path + ": it is the journal of another lab");
    expect("it is as it was", written() == before);
    other.stations = {{"board", {"load-1"}}};
    auto board = lab(BAY, options()).station("board").hold({"scope"});
    same("one that held and may not", why<journal_error>([&] { return lab(BAY, other); }),
         path + ": session 2 held, and in this lab it may not");
    other.journal = path + "-nowhere/journal";
    expect("no such folder", throws<journal_error>([&] { return lab(BAY, other); }));
}

// The clock on the wall was an hour ahead, and then isn't: moments of the file go on, and times pass as they should.
static void a_clock_that_is_set() {
    anew();
    clock_is_wrong_by = 3600;
    killed([](const auto &now) {
        const lab bay = opened();
        auto held = bay.hold({"scope"}), limited = bay.hold({"load-1"}, asking().limit(50ms));
        now();
    });
    clock_is_wrong_by = 0;
    const lab bay = opened();
    const auto since = bay.sessions()[0].since;
    expect("not before its time", since <= std::chrono::system_clock::now());
    const auto begun = std::chrono::steady_clock::now();
    expect("late", throws<labrun::timed_out>([&] { return bay.hold({"scope"}, asking().timeout(50ms)); }));
    const auto took = std::chrono::steady_clock::now() - begun;
    expect("in time", took >= 50ms && took < 60s);
    expect("a limit goes on", bay.hold({"load-1"}, asking().timeout(30s)).is_held());
    auto held = bay.hold({"supply"}, asking().limit(50ms));
    clock_is_wrong_by = -3600;
    expect("nor while it runs", bay.hold({"supply"}, asking().timeout(30s)).is_held() && !held.is_held());
    clock_is_wrong_by = 0;
}

// Without a limit one waits for ever, and holds for ever: also if the clock says that a hundred years are over.
static void a_clock_that_runs_ahead() {
    anew();
    {
        const lab bay = opened();
        auto held = bay.hold({"scope"}), limited = bay.hold({"supply"}, asking().limit(1h));
        std::atomic<bool> came{false};
        auto waits = later([&] {
            auto next = bay.hold({"scope"});
            came = true;
        });
        until([&] { return bay.sessions().size() == 3; });
        steady_is_ahead_by = 100L * 365 * 86400;
        expect("time goes by", bay.hold({"supply"}).is_held() && !limited.is_held());
        expect("one holds, and one waits", held.is_held() && !came && bay.sessions().size() == 2);
        held.finish();
        waits.get();
        expect("and holds", came);
    }
    steady_is_ahead_by = 0;
}

// Threads hold, note and let go while writes fail now and then: nobody meets, and each is in the file, once.
static void load(bool has_room) {
    anew();
    std::atomic<int> done{0}, refused{0};
    std::atomic<bool> is_over{false};
    std::vector<std::atomic<int>> clients(BAY.size());
    {
        const lab bay = impatient();
        std::thread full([&] {
            for (; !is_over && !has_room; std::this_thread::sleep_for(2ms)) {
                disk_is_full();
                std::this_thread::sleep_for(1ms);
                disk_is_well();
            }
        });
        std::vector<std::future<void>> threads;
        for (unsigned thread = 0; thread < 8; thread++)
            threads.push_back(later([&, thread] {
                std::mt19937 chance(thread);
                for (int mine = 0; mine < 60;) try {
                        const std::size_t one = chance() % 4, two = chance() % 4;
                        auto held = bay.hold({BAY[one], BAY[two]}, asking().timeout(std::chrono::milliseconds(chance() % 20)));
                        for (const std::size_t it : {one, two}) refused += it != one && clients[it]++ != 0;
                        refused += clients[one]++ != 0;
                        std::this_thread::yield();
                        clients[one]--;
                        if (two != one) clients[two]--;
                        mine++;
                        done++;
                        until_done([&] { held.finish(); });
                    } catch (const labrun::timed_out &) {
                    } catch (const journal_error &) {
                    }
            }));
        for (auto &it : threads) it.get();
        is_over = true;
        full.join();
        disk_is_well();
    }
    const by_lines found(written());
    expect("nobody meets", refused == 0 && !found.meets);
    expect("each is in the file: " + std::to_string(found.holds),
           found.held.empty() && found.holds >= static_cast<std::size_t>(done) && done == 480);
    expect("its lines are sound", opened().sessions().empty());
}

int main(int, char **words) {
    path = std::string(words[1]) + "/bay.journal";
    for (const auto &test : {who_held_comes_back, killed_at_any_moment, cuts, changes, of_others, a_clock_that_is_set,
                             a_clock_that_runs_ahead})
        test();
    for (const bool has_room : {true, false}) load(has_room);
    return ended();
}
