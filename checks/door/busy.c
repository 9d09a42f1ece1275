/* busy.c: calls that come while another call on the same handle runs, against the rule of the header. Each answers 13 and does nothing; no
   call is lost, none is counted twice, and the report is a legal one.
   cc -pthread -I include checks/door/busy.c FOLDER/liblabrun.a */
#define _DEFAULT_SOURCE
#include "tests.h"
#include <pthread.h>
#include <sched.h>
#include <signal.h>
#include <stdatomic.h>
#include <sys/time.h>
#include <time.h>

#define JOBS 32u
#define THREADS 8
#define CALLS 20000
#define SECONDS 20

static struct lab_bench bench;
static char script[4096];
static pthread_mutex_t mutex = PTHREAD_MUTEX_INITIALIZER;
static atomic_long took, waited, ended, kept;
static atomic_int others;

#define IS(what) is((what), #what, __LINE__)

static void is(int so, const char *what, int line) {
    pthread_mutex_lock(&mutex);
    expect(so, "line %d: %s", line, what);
    pthread_mutex_unlock(&mutex);
}

/* A ring of jobs, each with the instruments of two places. */
static size_t ring(void) {
    size_t length = (size_t)sprintf(script, "lab 2\n");
    for (unsigned job = 0; job < JOBS; job++)
        length += (size_t)sprintf(script + length, "job j%u\nsession\ni%u add 1\ni%u add 1\nend\n", job, job, (job + 1) % JOBS);
    return length;
}

static void spawn(void *(*body)(void *), pthread_t *threads, int count) {
    for (int n = 0; n < count; n++)
        if (pthread_create(&threads[n], NULL, body, (void *)(size_t)n) != 0) exit(70);
}

static void join(pthread_t *threads, int count) {
    for (int n = 0; n < count; n++) pthread_join(threads[n], NULL);
}

static double now(void) {
    struct timespec time;
    clock_gettime(CLOCK_MONOTONIC, &time);
    return (double)time.tv_sec + (double)time.tv_nsec * 1e-9;
}

/* ---- threads that share a bench and no mutex */

static const struct lab_came untold = {77, 77, 77, 77};

static int is_untold(const struct lab_came *came) { return memcmp(came, &untold, sizeof untold) == 0; }

/* Settles for all jobs, and now and then lets one go that holds (another thread may have done so by then). */
static void *settles(void *number) {
    struct lab_turned turned;
    (void)number;
    for (int call = 0; call < CALLS; call++) {
        struct lab_came came = untold;
        uint32_t status = lab_settle(&bench, 0xffffffffu, &came);
        if (status == LAB_DONE) atomic_fetch_add(&took, 1);
        else if (status == LAB_BUSY && is_untold(&came)) atomic_fetch_add(&waited, 1);
        else IS(!"a settle without a mutex");
        if (status != LAB_DONE || call % 16 || !came.holds) continue;
        turned.what = turned.count = 77;
        status = lab_end(&bench, (uint32_t)__builtin_ctz(came.holds), &turned);
        if (status == LAB_DONE) atomic_fetch_add(&ended, 1);
        else if (turned.what != 77 || turned.count != 77) IS(!"an end without a mutex");
        else if (status == LAB_BUSY) atomic_fetch_add(&kept, 1);
        else IS(status == LAB_NOT_YET);
    }
    return NULL;
}

/* A settle that names a job counts once for it; and so many sessions were done. */
static void all_counted(void) {
    uint32_t sessions = 0;
    struct lab_state state;
    for (uint32_t job = 0; job < JOBS; job++) {
        IS(lab_state(&bench, job, &state) == LAB_DONE);
        IS(state.turns == (uint64_t)took);
        sessions += state.sessions_done;
    }
    IS(sessions == (uint32_t)ended);
}

static void closes(void) {
    static uint8_t report[65536];
    struct lab_told told;
    uint32_t status = lab_bench_close(&bench, report, sizeof report, &told);
    IS((status == LAB_DONE || status == LAB_UNFINISHED) && told.written > 0);
    IS(lab_bench_free(&bench) == LAB_DONE);
}

static void without_a_mutex(size_t length) {
    struct lab_told told;
    pthread_t threads[THREADS];
    took = waited = ended = kept = 0;
    IS(lab_bench_open((const uint8_t *)script, length, &bench, &told) == LAB_DONE);
    spawn(settles, threads, THREADS);
    join(threads, THREADS);
    IS(took > 0 && ended > 0 && took + waited == (long)THREADS * CALLS);
    all_counted();
    printf("without a mutex: %ld settles and %ld ends were done, %ld calls answered 13\n", (long)took, (long)ended, (long)(waited + kept));
    closes();
}

/* ---- a free while others call */

static void *until_it_is_gone(void *number) {
    struct lab_came came;
    uint32_t status;
    atomic_fetch_add(&others, 1);
    do status = lab_settle(&bench, (uint32_t)1 << (size_t)number, &came);
    while (status == LAB_DONE || status == LAB_BUSY);
    IS(status == LAB_NOT_OPEN);
    return NULL;
}

static void freed_meanwhile(size_t length) {
    struct lab_told told;
    pthread_t threads[THREADS];
    others = 0;
    IS(lab_bench_open((const uint8_t *)script, length, &bench, &told) == LAB_DONE);
    spawn(until_it_is_gone, threads, THREADS);
    while (others < THREADS) sched_yield();
    uint32_t status;
    while ((status = lab_bench_free(&bench)) == LAB_BUSY) sched_yield();
    IS(status == LAB_DONE);
    join(threads, THREADS);
    IS(bench.live == 0 && lab_bench_free(&bench) == LAB_NOT_OPEN);
}

/* ---- opens at once: one of them opens */

static void *opens(void *length) {
    struct lab_told told;
    uint32_t status = lab_bench_open((const uint8_t *)script, (size_t)length, &bench, &told);
    if (status == LAB_DONE) atomic_fetch_add(&took, 1);
    else IS(status == LAB_BUSY || status == LAB_IN_USE);
    return NULL;
}

static void opened_at_once(size_t length) {
    for (int times = 0; times < 50; times++) {
        pthread_t threads[THREADS];
        took = 0;
        for (int n = 0; n < THREADS; n++)
            if (pthread_create(&threads[n], NULL, opens, (void *)length) != 0) exit(70);
        join(threads, THREADS);
        IS(took == 1 && lab_bench_free(&bench) == LAB_DONE);
    }
}

/* ---- a signal handler */

static volatile sig_atomic_t handled, refused, wrong;

static void handler(int number) {
    struct lab_came came = untold;
    (void)number;
    uint32_t status = lab_settle(&bench, 1, &came);
    if (status == LAB_DONE) handled++;
    else if (status == LAB_BUSY && is_untold(&came)) refused++;
    else wrong++;
}

static void in_a_handler(size_t length) {
    struct lab_told told;
    struct lab_came came;
    struct sigaction action = {0};
    struct itimerval every = {{0, 50}, {0, 50}}, never = {{0, 0}, {0, 0}};
    uint64_t settled = 0;
    IS(lab_bench_open((const uint8_t *)script, length, &bench, &told) == LAB_DONE);
    action.sa_handler = handler;
    sigaction(SIGALRM, &action, NULL);
    setitimer(ITIMER_REAL, &every, NULL);
    for (double end = now() + SECONDS; (refused < 20 || settled < 1000) && now() < end; settled++) {
        /* (a handler ends before this goes on: so this call never meets a busy handle) */
        IS(lab_settle(&bench, 0xffffffffu, &came) == LAB_DONE);
    }
    setitimer(ITIMER_REAL, &never, NULL);
    signal(SIGALRM, SIG_IGN);
    IS(refused > 0 && wrong == 0);
    printf("in a handler: %ld settles were done, %ld calls answered 13\n", (long)handled, (long)refused);
    closes();
}

int main(void) {
    size_t length = ring();
    without_a_mutex(length);
    freed_meanwhile(length);
    opened_at_once(length);
    in_a_handler(length);
    return summary();
}
