// Tests a lab with a journal at a disk that fails, hangs or is slow: c++ -std=c++17 -I include bindings/cpp/lab_disk.cpp -L FOLDER -llabrun
// -pthread
#include "journal.hpp"

// A hold that can't be written in time is over, and holds nothing.
static void no_hold() {
    anew();
    const lab bay = impatient();
    disk_is_full();
    same("it isn't written", why<journal_error>([&] { return bay.hold({"scope"}, NOW); }),
         path + ": a write failed (No space left on device)");
    expect("it holds nothing", bay.sessions().empty());
    auto waits = later([&] { return bay.hold({"supply"}, LONG).number(); });
    std::this_thread::sleep_for(100ms);
    expect("until its time limit it waits for the disk", waits.wait_for(0s) == std::future_status::timeout);
    disk_is_well();
    expect("and holds once it can", waits.get() == 2);
    expect("so does another", bay.hold({"scope"}, LONG).number() == 3);
    until_done([&] { bay.close(); });
    const by_lines found(written());
    expect("nobody holds by the lines", found.held.empty() && !found.meets);
}

// Whoever can't let go holds, also against those that wait, until that is written.
static void no_end() {
    anew();
    const lab bay = opened();
    auto held = bay.hold({"scope"});
    std::atomic<bool> came{false};
    auto waits = later([&] {
        auto next = bay.hold({"scope"}, LONG);
        came = true;
    });
    until([&] { return bay.sessions().size() == 2; });
    disk_is_full();
    for (int times = 0; times < 3; times++)
        same("it isn't written", why<journal_error>([&] { held.finish(); }), path + ": a write failed (No space left on device)");
    expect("it may do nothing more", throws<labrun::not_held>([&] { held.note("4.998 V"); }) && !held.is_held());
    std::this_thread::sleep_for(100ms);
    expect("nobody else is let in", !came);
    disk_is_well();
    until_done([&] { held.finish(); });
    waits.get();
    expect("then it is", came);
    auto goes = std::make_unique<labrun::held>(bay.hold({"scope"}));
    disk_is_full();
    goes.reset();
    auto late = later([&] { return bay.hold({"scope"}, LONG).number(); });
    std::this_thread::sleep_for(50ms);
    expect("one that goes holds, too", late.wait_for(0s) == std::future_status::timeout);
    disk_is_well();
    expect("until it is written", late.get() == 4);
}

// Whoever couldn't let go, and comes back to that when it was written meanwhile, has let go.
static void an_end_that_was_written_meanwhile() {
    anew();
    const lab bay = opened();
    auto held = bay.hold({"scope"});
    disk_is_full();
    expect("it isn't written", throws<journal_error>([&] { held.finish(); }));
    disk_is_well();
    expect("others come to hold once it is", bay.hold({"scope"}, LONG).is_held());
    held.finish();
    same("it has let go", why<labrun::not_held>([&] { held.finish(); }), "session 1 has let go");
}

static void no_note() {
    anew();
    const lab bay = opened();
    auto held = bay.hold({"scope"});
    disk_is_full();
    expect("it isn't written", throws<journal_error>([&] { held.note("4.998 V"); }));
    expect("it holds", held.is_held());
    expect("not taken for good", throws<journal_error>([&] { bay.take_away(held.number()); }));
    expect("but told", throws<labrun::taken_away>([&] { held.finish(); }));
    expect("nor closed", throws<journal_error>([&] { bay.close(); }));
    disk_is_well();
    until_done([&] { bay.close(); });
    const std::string all = written();
    expect("once the disk is well, each is there once",
           count(all, " note 0000000000000001 4.998 V\n") == 1 && count(all, " end 0000000000000001 taken_away ") == 1);
}

// The disk hangs: times pass, and are told.
static void a_disk_that_hangs() {
    anew();
    labrun::lab_options it = options(labrun::sync::data);
    it.disk = 50ms;
    const lab bay(BAY, it);
    auto held = bay.hold({"scope"});
    is_hanging = true;
    same("a time limit", why<labrun::timed_out>([&] { return bay.hold({"scope"}, asking().timeout(30ms)); }),
         "still waits: scope has been held by a guest (session 1) for _ s");
    same("the disk's", why<journal_error>([&] { return bay.hold({"supply"}, asking().timeout(10ms)); }), path + ": the disk took too long");
    is_hanging = false;
    expect("it goes on", bay.hold({"supply"}, LONG).is_held());
}

// Each call that changes a file as a lab is opened fails in turn: that is told, or told later, and the next open sees to the name again.
static void the_name_is_on_the_disk(labrun::sync how) {
    const int wanted = how == labrun::sync::data;
    long bad = 1;
    for (bool is_through = false; !is_through; bad++) {
        anew();
        const auto opens = [&] {
            folder_syncs = 0;
            const lab bay(BAY, options(how));
            // (the rest of the calls are the writer's, and those of the close)
            if (bay.hold({"scope"}, LONG).number() == 1) return disk_is_well();
        };
        disk(bad, bad);
        const bool is_told = throws<journal_error>(opens);
        is_through = !is_told;
        disk_is_well();
        expect("it is begun, or that is told", folder_syncs == (is_told ? 0 : wanted));
        if (!is_told) break;
        opens();
        expect("its name", folder_syncs == wanted);
    }
    // (the file is cut, and synced, and then its folder)
    expect("points of an open: " + std::to_string(bad - 1), bad - 1 == (how == labrun::sync::none ? 1 : 3));
}

// What is read at the open is on the disk before anybody is told of it; with sync none nothing is synced.
static void what_is_synced() {
    for (const auto how : {labrun::sync::data, labrun::sync::none}) {
        anew();
        const bool does = how == labrun::sync::data;
        {
            const lab bay(BAY, options(how));
            syncs = 0;
            auto held = bay.hold({"scope"});
            expect("a hold", (syncs > 0) == does);
            syncs = 0;
            held.note("4.998 V");
            expect("a note", (syncs > 0) == does);
            syncs = 0;
            held.finish();
            expect("an end", (syncs > 0) == does);
        }
        const std::size_t found = written().size();
        syncs = folder_syncs = 0;
        bytes_written = 0;
        const lab bay(BAY, options(how));
        expect("what was read, and the name", (syncs > 0) == does && (folder_syncs > 0) == does);
        expect("what was read is written again", bytes_written == (does ? found : 0));
    }
}

// Those who ask while the disk is busy share the next write.
static void threads_go_together() {
    anew();
    const lab bay(BAY, options(labrun::sync::data));
    sync_takes = 2000;
    syncs = 0;
    std::vector<std::future<void>> threads;
    for (std::size_t thread = 0; thread < 4; thread++)
        threads.push_back(later([&, thread] {
            for (int times = 0; times < 25; times++) bay.hold({BAY[thread]}).finish();
        }));
    for (auto &it : threads) it.get();
    sync_takes = 0;
    expect("200 lines by few syncs: " + std::to_string(syncs), syncs < 150);
}

// A session that goes is one sync: that it let go is in the file by then, and on the disk with the next one, or soon if there is none. (Now
// and then one more is due, on a busy machine.)
static void one_sync_a_session() {
    anew();
    const lab bay(BAY, options(labrun::sync::data));
    syncs = 0;
    for (int times = 0; times < 40; times++) {
        const auto held = bay.hold({"scope"});
    }
    expect("the last is in the file", count(written(), " let_go ") == 40);
    const int made = syncs;
    expect("40 sessions by few syncs: " + std::to_string(made), made >= 40 && made < 60);
    for (int times = 0; syncs == made && times < 3000; times++) usleep(1000);
    expect("and it is synced though nobody calls", syncs > made);
}

// A signal that comes in the midst of any call ends none: it is made again, and nobody is told.
static void signals_at_the_disk() {
    anew();
    for (int times = 0; times < 3; times++) {
        interruptions = 7;
        const lab bay(BAY, options(labrun::sync::data));
        for (const long more : {1, 2, 3}) {
            interruptions = more;
            auto held = bay.hold({"scope"});
            interruptions = more;
            held.note("4.998 V");
            interruptions = more;
            held.finish();
        }
        bay.close();
    }
    const by_lines found(written());
    expect("each is there once", found.holds == 9 && found.held.empty() && count(written(), " note ") == 9);
}

int main(int, char **words) {
    path = std::string(words[1]) + "/lab_disk.journal";
    for (const auto &test : {no_hold, no_end, an_end_that_was_written_meanwhile, no_note, a_disk_that_hangs}) test();
    for (const auto how : {labrun::sync::none, labrun::sync::data}) the_name_is_on_the_disk(how);
    for (const auto &test : {what_is_synced, threads_go_together, one_sync_a_session, signals_at_the_disk}) test();
    return ended();
}
