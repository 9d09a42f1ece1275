// Tests a bench of a script, and whole runs: c++ -std=c++17 -I include bindings/cpp/threads.cpp -L FOLDER -llabrun -pthread
#include "labrun.hpp"
#include "checks.hpp"
#include <random>
#include <sys/wait.h>

using labrun::bench;
using labrun::desk;

static const std::string two = "lab 1\njob a\nsession\nscale add 5\nend\nsession\nscale add 5\nend\njob b\nsession\nscale read\nend\n";
// the first session of b has a patience that lasts, the second one of two turns, and the third has none
static const std::string patient = "lab 2\njob a\nsession\nscale add 5\nend\nsession\nscale add 5\nend\njob b\nsession patience 999999\n"
                                   "scale read\nend\nsession patience 2\nscale read\nend\nsession\nscale read\nend\n";

// A thread that begins the next session of a desk, and ends it: its number, or 0 if none is left.
static std::future<std::uint32_t> begins(desk &of) {
    return later([&of] {
        auto session = of.begin();
        return session ? session->number() : 0;
    });
}

static bool is_waiting(std::future<std::uint32_t> &it) { return it.wait_for(50ms) == std::future_status::timeout; }

static void what_a_script_says() {
    bench of(two);
    expect("names", of.jobs() == names{"a", "b"} && of.instruments() == names{"scale"} && of.desks()[1].job() == "b");
    auto first = of.desks()[0].begin();
    expect("holds", first && first->number() == 1 && first->instruments() == names{"scale"});
    const auto entry = first->command();
    expect("a command", entry && entry->session == 1 && entry->verb == 1 && entry->number == 5 && entry->value == 5);
    expect("no command is left", !first->command());
    first->finish();
    first->finish();
    expect("none after the end", !first->command());
    {
        auto second = of.desks()[0].begin();
        auto moved = std::move(*second);
        second.reset();
        expect("what was moved holds on", moved.number() == 2 && moved.command()->value == 10);
    }
    expect("b reads what they left", of.desks()[1].begin()->command()->value == 10);
    expect("none left", !of.desks()[0].begin() && !of.desks()[1].begin() && !of.desks()[1].begin());
    const labrun::report report = of.close();
    const std::string log = "instrument scale 3\na 1 1/1 add 5 = 5\na 2 1/1 add 5 = 10\nb 1 1/1 read = 10\n";
    expect("finished", report.finished && of.close().text == report.text && report.text.find(log) != std::string::npos);
    expect("closed", throws<labrun::closed>([&] { of.desks()[0].begin(); }) && throws<labrun::closed>([&] { of.desks()[0].give_up(); }));
}

// What nobody did of a session is logged as it goes, also by an exception.
static void an_exception_lets_go() {
    bench of(two);
    expect("it goes through", throws<std::runtime_error>([&] {
               auto session = of.desks()[0].begin();
               throw std::runtime_error("the scope caught fire");
           }));
    expect("the other goes on", of.desks()[1].begin()->command()->value == 5);
    expect("unfinished", !of.close().finished);
}

static void who_waits_is_woken() {
    bench of(two);
    auto held = of.desks()[0].begin();
    auto waits = begins(of.desks()[1]);
    expect("it waits", is_waiting(waits));
    held.reset();
    expect("it is woken", waits.get() == 1);
}

// Threads that wait for each other's instruments in a ring come to their ends.
static void a_ring() {
    std::string script = "lab 1\n";
    for (const std::string job : {"a", "b", "c"}) {
        const std::string next = job == "a" ? "b" : job == "b" ? "c" : "a";
        script += "job " + job + "\n";
        for (int session = 0; session < 200; session++) script += "session\nx-" + job + " add 1\nx-" + next + " add 1\nend\n";
    }
    bench of(script);
    std::vector<std::future<std::uint32_t>> threads;
    for (desk &it : of.desks())
        threads.push_back(later([&it] {
            std::uint32_t last = 0;
            while (auto session = it.begin()) last = session->number();
            return last;
        }));
    for (auto &it : threads) expect("to its end", it.get() == 200);
    expect("finished", of.close().finished);
}

static void one_thread_at_a_desk() {
    bench of(two);
    auto held = of.desks()[0].begin();
    same("it holds", why<labrun::not_now>([&] { return of.desks()[0].begin(); }), "a is in a session, or waits for one");
    std::atomic<int> refused{0};
    const auto one_of_two = [&] {
        std::uint32_t number = 0;
        const auto begin = [&] { return number = of.desks()[1].begin()->number(); };
        refused += why<labrun::not_now>(begin) == "b is in a session, or waits for one";
        return number;
    };
    auto one = later(one_of_two), other = later(one_of_two);
    until([&] { return refused == 1; });
    held.reset();
    expect("the other one waits, and comes to hold", one.get() + other.get() == 1 && refused == 1);
}

// A session with a patience can be given up while a thread waits for it, and no other.
static void given_up() {
    bench of(patient);
    desk &a = of.desks()[0], &b = of.desks()[1];
    expect("nobody waits", !b.give_up());
    auto held = a.begin();
    expect("one that holds can't be given up", !a.give_up());
    auto first = begins(b);
    until([&] { return b.give_up(); });
    expect("it is told", throws<labrun::withdrawn>([&] { first.get(); }));
    expect("nobody waits any more", !b.give_up());
    const auto begun = std::chrono::steady_clock::now();
    expect("a patience runs out, though nobody calls", throws<labrun::withdrawn>([&] { b.begin(); }));
    const auto took = std::chrono::steady_clock::now() - begun;
    expect("by the turns that one takes who waits", took >= 90ms && took < 60s);
    auto third = begins(b);
    expect("it waits", is_waiting(third));
    expect("without a patience it can't leave the line", !b.give_up() && is_waiting(third));
    held.reset();
    expect("and comes to hold", third.get() == 3);
    expect("the rest", a.begin().has_value());
    expect("none left", !a.begin() && !b.begin());
    const labrun::report report = of.close();
    expect("nothing is logged of what was given up",
           report.finished && report.text.find("withdrawn 2") != std::string::npos && report.text.find("b 1 ") == std::string::npos);
}

// The holder lets go just before another gives up the session that waits: it holds by then, or was given up before; never both.
static void given_up_as_it_comes() {
    std::string script = "lab 2\njob a\n";
    for (int times = 0; times < 100; times++) script += "session\nscale add 1\nend\n";
    script += "job b\n";
    for (int times = 0; times < 100; times++) script += "session patience 999999\nscale read\nend\n";
    bench of(script);
    desk &a = of.desks()[0], &b = of.desks()[1];
    int given_up = 0, wrong = 0;
    for (int times = 0; times < 100; times++) {
        auto held = a.begin();
        std::atomic<bool> is_told{false}, came{false};
        auto waits = later([&] {
            is_told = throws<labrun::withdrawn>([&] { came = b.begin().has_value(); });
        });
        std::this_thread::sleep_for(std::chrono::microseconds(times * 20));
        bool is_given_up = false;
        if (times % 2) is_given_up = b.give_up();
        held.reset();
        is_given_up = is_given_up || b.give_up();
        waits.get();
        wrong += is_given_up != is_told || is_given_up == came;
        given_up += is_given_up;
    }
    expect("whoever is told that it was given up didn't hold", wrong == 0);
    const labrun::report report = of.close();
    const std::string log = "instrument scale " + std::to_string(200 - given_up) + "\n";
    expect("the log is of those that held", report.finished && report.text.find(log) != std::string::npos);
}

// Without a patience no count of turns ends the waiting: others have a thousand sessions meanwhile.
static void others_take_turns() {
    std::string script = "lab 2\njob a\nsession\nscale add 1\nend\njob b\nsession\nscale read\nend\njob c\n";
    for (int times = 0; times < 1000; times++) script += "session\nlamp read\nend\n";
    bench of(script);
    auto held = of.desks()[0].begin();
    auto waits = begins(of.desks()[1]);
    while (of.desks()[2].begin()) {
    }
    expect("it waits", is_waiting(waits));
    held.reset();
    expect("and holds", waits.get() == 1 && of.close().finished);
}

// Whoever waits behind one that is given up is woken by that, though the first one holds on.
static void behind_one_that_is_given_up() {
    bench of("lab 2\njob radio\nsession\nscope read\nend\njob board\nsession patience 999999\nscope read\nsupply read\nend\n"
             "job drive\nsession\nsupply read\nend\n");
    auto held = of.desks()[0].begin();
    auto board = begins(of.desks()[1]);
    expect("board waits", is_waiting(board));
    auto drive = begins(of.desks()[2]);
    expect("drive waits behind it", is_waiting(drive));
    expect("given up", of.desks()[1].give_up() && throws<labrun::withdrawn>([&] { board.get(); }));
    expect("drive is woken", drive.wait_for(60s) == std::future_status::ready);
    held.reset();
    expect("its session", drive.get() == 1);
}

static void close() {
    bench of(two);
    auto held = of.desks()[0].begin();
    auto waits = begins(of.desks()[1]);
    expect("it waits", is_waiting(waits));
    const labrun::report report = of.close();
    expect("who waits is told", throws<labrun::closed>([&] { waits.get(); }));
    expect("nor goes on", throws<labrun::closed>([&] { held->command(); }) && throws<labrun::closed>([&] { held->finish(); }));
    held.reset();
    expect("a session that is held stays unfinished", !report.finished && of.close().text == report.text);
}

static void a_fork() {
    bench of(two);
    auto held = of.desks()[0].begin();
    auto waits = begins(of.desks()[1]);
    expect("it waits", is_waiting(waits));
    const pid_t parent = getpid(), child = fork();
    if (!child) {
        const std::vector<std::function<void()>> calls = {[&] { held->command(); }, [&] { held->finish(); }, [&] { of.desks()[1].begin(); },
                                                          [&] { of.desks()[1].give_up(); }, [&] { of.close(); }};
        int refused = 0;
        for (const auto &it : calls)
            refused += why<labrun::other_process>([&] { return it(), 0; }) == "this belongs to process " + std::to_string(parent);
        {
            const bench goes = std::move(of);
            held.reset();
        }
        _exit(refused == static_cast<int>(calls.size()) ? 77 : refused);
    }
    int status = 0;
    waitpid(child, &status, 0);
    expect("the child is refused", WIFEXITED(status) && WEXITSTATUS(status) == 77);
    held.reset();
    expect("the parent goes on", waits.get() == 1);
}

static void whole_runs() {
    expect("run", labrun::run(two).finished && !labrun::run(two, 0).finished);
    expect("check", labrun::check(two) == "ok jobs 2 instruments 1 edges 1 sessions 3 commands 3\n");
    expect("upgrade", labrun::upgrade(two) == "lab 2" + two.substr(5));
    expect("replay", labrun::replay("lab 1\njob a\nsteps\nretire a\n").finished);
    std::string long_one = "lab 1\n";
    for (int job = 0; job < 30; job++) {
        long_one += "job j-" + std::to_string(job) + "\n";
        for (int session = 0; session < 40; session++) long_one += "session\nx-" + std::to_string(job) + " add 1\nend\n";
    }
    expect("one that needs more room", labrun::run(long_one).finished && labrun::upgrade(long_one).size() == long_one.size());
    try {
        bench of("lab 1\njob A\n");
        expect("refused", false);
    } catch (const labrun::refused &fault) {
        expect("its line and cause", fault.line == 2 && fault.cause == 3 && std::string(fault.what()) == "line 2: S3");
    }
    for (const auto &call : {labrun::check, labrun::upgrade})
        expect("refused",
               throws<labrun::refused>([&] { return call("lab 1\njob A\n"); }) && throws<labrun::refused>([&] { return call(""); }));
    expect("refused", throws<labrun::refused>([] { return labrun::run(""); }));
    same("too long", why([] { return labrun::check(std::string(16777217, '\n')); }), "script longer than 16777216 bytes");
    same("no file", why([] {
             bench::open("/nowhere");
             return 0;
         }),
         "can't read /nowhere");
}

static std::string load_script(int jobs, int sessions, int instruments, unsigned seed) {
    std::mt19937 chance(seed);
    std::string text = "lab 1\n";
    for (int job = 0; job < jobs; job++) {
        text += "job job-" + std::to_string(job) + "\n";
        for (int number = 0; number < sessions; number++) {
            text += "session\n";
            for (unsigned left = 1 + static_cast<unsigned>(chance() % 3); left; left--)
                text += "i-" + std::to_string(chance() % static_cast<unsigned>(instruments)) + " add 1\n";
            text += "end\n";
        }
    }
    return text;
}

// Simulated instruments, each of which refuses a second client.
static void load(int wanted) {
    int done = 0, refused = 0;
    for (unsigned seed = 0; done < wanted; seed++) {
        bench of(load_script(32, std::min(1000, std::max(1, (wanted - done) / 32)), 20, seed));
        std::vector<std::atomic<int>> clients(of.instruments().size());
        std::atomic<int> clashes{0}, sessions{0};
        std::vector<std::thread> threads;
        for (desk &it : of.desks())
            threads.emplace_back([&] {
                while (auto session = it.begin()) {
                    std::vector<std::size_t> held;
                    for (std::size_t at = 0; at < clients.size(); at++)
                        for (const std::string &name : session->instruments())
                            if (name == of.instruments()[at]) held.push_back(at);
                    for (std::size_t at : held) clashes += clients[at]++ != 0;
                    std::this_thread::yield();
                    for (std::size_t at : held) clients[at]--;
                    sessions++;
                }
            });
        for (std::thread &thread : threads) thread.join();
        expect("finished", of.close().finished);
        done += sessions;
        refused += clashes;
    }
    expect("no instrument has two clients", refused == 0);
    std::cout << "by a script: " << done << " sessions, " << refused << " refused\n";
}

int main(int count, char **words) {
    for (const auto &test : {what_a_script_says, an_exception_lets_go, who_waits_is_woken, a_ring, one_thread_at_a_desk, given_up,
                             given_up_as_it_comes, others_take_turns, behind_one_that_is_given_up, close, a_fork, whole_runs})
        test();
    load(count > 1 ? std::stoi(words[1]) : 20000);
    return ended();
}
