/* Each script driven by 2, 4 and 32 pthreads and by one for each job, in three ways:

     in turn     the threads take the jobs in the order of the script, again and again, each time by one call, on a bench with a journal: the
                 report is that of `lab_replay` of the journal, byte for byte, and the journal is the same by each number of threads;
     freely      each thread begins, works, does commands and ends. A watcher outside the library counts the holders of each instrument;
     anyhow      any call, true or senseless.

   What `lab_rounds` reports is that beside the script, FILE.out, if there is one. The reports of the last two ways go to FOLDER/NAME.WAY.THREADS.STATUS.out, with the scripts; checks/door/reports.py then looks at them. With
   -s SECONDS the same 32 threads drive the scripts again and again, for so long.

   A program says how its bench is opened, looked at, driven and closed, by the functions that are declared here without a body. It has one
   bench at a time. */
#ifndef DRIVE_H
#define DRIVE_H
#include "scripts.h"
#include <pthread.h>
#include <sched.h>
#include <stdatomic.h>
#include <time.h>

#define MOST_THREADS 32
#define MOST_INSTRUMENTS 56
#define PATIENCE_SECONDS 120 /* without any change: then a thread waits in vain, however busy the machine is */

struct shop {
    struct lab_size size;
    pthread_mutex_t mutex;
    uint32_t threads, limit;
    int has_patience, stop;
    const char *name;
    /* in turn: whose turn it is */
    uint32_t next, round;
    pthread_cond_t yours[MOST_THREADS];
    /* at once: how many hold each instrument, counted by the holders */
    atomic_int holders[MOST_INSTRUMENTS];
    atomic_long sessions, clashes;
    /* anyhow: how many calls a thread makes */
    long calls;
};

struct worker {
    uint32_t number, seed;
    pthread_t thread;
};

static struct shop shop;

/* Whether a bench takes the script; nothing stays open. */
static uint32_t try_open(struct text script, struct lab_told *told);
/* The shop's bench, with its size and whether a session has patience; with a journal if `keeps`. */
static uint32_t open_bench(struct text script, int keeps, struct lab_told *told);
/* The bench's journal so far. */
static struct text journal_of(void);
/* Everything is given back, and the bench is closed and freed. */
static uint32_t close_all(struct text *report);
/* What is next of a job, by one call, with the journal taken after it. */
static uint32_t one_turn(uint32_t job);
static uint32_t state_of(uint32_t job, struct lab_state *state);
static void *go_freely(void *worker);
static void *go_anyhow(void *worker);

static inline uint32_t chance(struct worker *worker, uint32_t below) {
    worker->seed = worker->seed * 1664525u + 1013904223u;
    return (worker->seed >> 8) % below;
}

static inline double now(void) {
    struct timespec time;
    clock_gettime(CLOCK_MONOTONIC, &time);
    return (double)time.tv_sec + (double)time.tv_nsec * 1e-9;
}

static inline void sleep_for(long microseconds) {
    struct timespec time = {0, microseconds * 1000};
    nanosleep(&time, NULL);
}

static inline void raise_counts(uint64_t needs) {
    for (uint32_t instrument = 0; instrument < shop.size.instruments; instrument++)
        if (needs >> instrument & 1 && atomic_fetch_add(&shop.holders[instrument], 1) != 0) atomic_fetch_add(&shop.clashes, 1);
}

static inline void lower_counts(uint64_t needs) {
    for (uint32_t instrument = 0; instrument < shop.size.instruments; instrument++)
        if (needs >> instrument & 1 && atomic_fetch_sub(&shop.holders[instrument], 1) != 1) atomic_fetch_add(&shop.clashes, 1);
}

/* ---- in turn */

static inline int all_retired(void) {
    struct lab_state state;
    for (uint32_t job = 0; job < shop.size.jobs; job++)
        if (state_of(job, &state) != LAB_DONE || state.drinking != 4) return 0;
    return 1;
}

static inline void *take_turns(void *given) {
    struct worker *me = given;
    pthread_mutex_lock(&shop.mutex);
    while (!shop.stop) {
        if (shop.next % shop.threads != me->number) {
            pthread_cond_wait(&shop.yours[me->number], &shop.mutex);
            continue;
        }
        expect(one_turn(shop.next) == LAB_DONE, "%s: a turn of job %u", shop.name, shop.next);
        if (++shop.next == shop.size.jobs) {
            shop.next = 0;
            shop.round++;
            if (shop.round == shop.limit || all_retired()) shop.stop = 1;
        }
        if (shop.stop)
            for (uint32_t thread = 0; thread < shop.threads; thread++) pthread_cond_signal(&shop.yours[thread]);
        else
            pthread_cond_signal(&shop.yours[shop.next % shop.threads]);
    }
    pthread_mutex_unlock(&shop.mutex);
    return NULL;
}

/* ---- a run */

static inline void drive(void *(*way)(void *), uint32_t seed) {
    struct worker workers[MOST_THREADS];
    pthread_mutex_init(&shop.mutex, NULL);
    for (uint32_t thread = 0; thread < MOST_THREADS; thread++) pthread_cond_init(&shop.yours[thread], NULL);
    for (uint32_t thread = 0; thread < shop.threads; thread++) {
        workers[thread] = (struct worker){.number = thread, .seed = seed * 7919u + thread * 104729u + 1u};
        if (pthread_create(&workers[thread].thread, NULL, way, &workers[thread])) {
            perror("pthread_create");
            exit(70);
        }
    }
    for (uint32_t thread = 0; thread < shop.threads; thread++) pthread_join(workers[thread].thread, NULL);
    pthread_mutex_destroy(&shop.mutex);
    for (uint32_t thread = 0; thread < MOST_THREADS; thread++) pthread_cond_destroy(&shop.yours[thread]);
}

/* The shop with its bench open. With no threads said, it gets one for each job; a script without jobs is closed at once. */
static inline int opened(const char *name, struct text script, uint32_t threads, int keeps) {
    struct lab_told told = {0, 0, 0};
    struct text report;
    memset(&shop, 0, sizeof shop);
    shop.name = name;
    uint32_t status = open_bench(script, keeps, &told);
    if (!expect(status == LAB_DONE, "%s: open: status %u, line %zu", name, status, told.line)) return 0;
    shop.threads = threads ? threads : (uint32_t)shop.size.jobs;
    if (shop.size.jobs > 0) return 1;
    close_all(&report);
    free(report.bytes);
    if (keeps) free(journal_of().bytes);
    return 0;
}

/* In at most `limit` rounds. `first` gets the journal of the first run. */
static inline void run_in_turn(const char *name, struct text script, uint32_t threads, uint32_t limit, struct text *first) {
    struct text report, again, journal;
    if (!opened(name, script, threads, 1)) return;
    shop.limit = limit;
    drive(take_turns, 0);
    uint32_t wanted = all_retired() ? LAB_DONE : LAB_UNFINISHED;
    expect(wanted == LAB_DONE || limit < ROUNDS, "%s in turn by %u threads: not done in %u rounds", name, shop.threads, shop.round);
    journal = journal_of();
    uint32_t status = close_all(&report), status_again = replayed(journal, &again);
    expect(status == wanted && status_again == wanted && same_text(report, again), "%s in turn by %u threads: status %u, replayed %u, %zu and %zu bytes",
           name, shop.threads, status, status_again, report.length, again.length);
    free(report.bytes);
    free(again.bytes);
    if (first->bytes) {
        expect(same_text(journal, *first), "%s in turn by %u threads: another journal", name, shop.threads);
        free(journal.bytes);
    } else {
        *first = journal;
    }
}

/* Where the reports go, if anywhere, and what their files are called. */
struct place {
    const char *folder, *program;
};

static inline void keep(struct place place, const char *name, const char *way, uint32_t status, struct text report) {
    char path[1000];
    if (!place.folder) return;
    snprintf(path, sizeof path, "%s/%s.%s-%s.%u.%u.out", place.folder, name, place.program, way, shop.threads, status);
    expect(write_file(path, report), "%s can't be written", path);
}

/* Freely, or anyhow if there are so many calls. The number of sessions is the answer. */
static inline long run_at_once(struct place place, const char *name, struct text script, uint32_t threads, uint32_t seed, long calls) {
    const char *way = calls ? "anyhow" : "freely";
    struct text report;
    if (!opened(name, script, threads, 0)) return 0;
    shop.calls = calls / shop.threads;
    drive(calls ? go_anyhow : go_freely, seed);
    uint32_t status = close_all(&report);
    expect(status == LAB_DONE || (calls && status == LAB_UNFINISHED), "%s %s by %u threads: status %u", name, way, shop.threads, status);
    expect(shop.clashes == 0, "%s %s by %u threads: %ld times two held one instrument", name, way, shop.threads, (long)shop.clashes);
    keep(place, name, way, status, report);
    free(report.bytes);
    return shop.sessions;
}

/* ---- the scripts */

/* Whether a bench takes the script. If not, the fault has to be that of lab_rounds. */
static inline int accepted(const char *name, struct text script) {
    struct lab_told told = {0, 0, 0}, wanted = {0, 0, 0};
    struct text report;
    uint32_t should = in_rounds(script, 0, &report, &wanted);
    uint32_t status = try_open(script, &told);
    free(report.bytes);
    if (should == LAB_REFUSED)
        expect(status == LAB_REFUSED && told.line == wanted.line && told.cause == wanted.cause, "%s: status %u, line %zu, cause %u", name,
               status, told.line, told.cause);
    else
        expect(status == LAB_DONE, "%s: status %u", name, status);
    return status == LAB_DONE;
}

/* The script, without its steps if a bench takes it only so. Its length is 0 if no bench takes it. */
static inline struct text taken(const char *name, struct text script) {
    if (accepted(name, script)) return script;
    struct text cut = without_steps(script);
    if (cut.length == script.length) cut.length = 0;
    return cut;
}

/* In all three ways, by each number of threads. */
static inline long run_each_way(struct place place, const char *path, const char *name, struct text script) {
    static const uint32_t threads[] = {2, 4, 32, 0};
    char file[1200];
    struct lab_told told = {0, 0, 0};
    struct text out, first = {NULL, 0};
    long sessions = 0;
    uint32_t limit = limit_of(script);
    in_rounds(script, limit, &out, &told);
    snprintf(file, sizeof file, "%.*s.out", (int)(strlen(path) - 4), path);
    struct text stored = read_file(file);
    if (is_stored_run(script)) expect(same_text(stored, out), "%s: %s differs", name, file);
    snprintf(file, sizeof file, "%s/%s.lab", place.folder, name);
    expect(write_file(file, script), "%s can't be written", file);
    for (uint32_t row = 0; row < 4; row++) {
        run_in_turn(name, script, threads[row], limit, &first);
        sessions += run_at_once(place, name, script, threads[row], row + 1, 0);
        run_at_once(place, name, script, threads[row], row + 1, 2000);
    }
    free(out.bytes);
    free(stored.bytes);
    free(first.bytes);
    return sessions;
}

/* The scripts that the words name, and what the program ends with. */
static inline int drive_scripts(int count, char **words, const char *program) {
    double seconds = 0;
    int at = 1;
    if (count > 2 && strcmp(words[1], "-s") == 0) seconds = atof(words[2]), at = 3;
    if (count < at + 2) return fprintf(stderr, "%s [-s SECONDS] FOLDER SCRIPT ..\n", program), 2;
    struct place place = {words[at++], program}, nowhere = {NULL, program};
    double end = now() + seconds;
    uint32_t pass = 0;
    long sessions = 0;
    do {
        pass++;
        for (int which = at; which < count; which++) {
            char name[200];
            struct text whole = read_file(words[which]);
            if (!expect(whole.bytes != NULL, "%s can't be read", words[which])) continue;
            base_name(words[which], name, sizeof name);
            struct text script = taken(name, whole);
            if (script.length > 0 && seconds > 0) {
                sessions += run_at_once(nowhere, name, script, 32, pass, 0);
                run_at_once(nowhere, name, script, 32, pass, 20000);
            } else if (script.length > 0) {
                sessions += run_each_way(place, words[which], name, script);
            }
            free(whole.bytes);
        }
    } while (now() < end && !failed);
    printf("sessions %ld\n", sessions);
    return summary();
}
#endif
