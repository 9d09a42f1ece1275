/* Sessions a second: a bay and one handle of the library, each under a mutex, beside what one writes by hand, in one run.

     cc -O2 -pthread -I include checks/broker/speed.c FOLDER/liblabrun.a -lm -o speed
     ./speed [--best N] [--work MICROSECONDS] [--sessions N] [--benches N] [--only THREADS]

   Stations on 2, 8 and 32 threads do sessions without a pause (or with so many microseconds of work, asleep): each on an instrument of its
   own (`disjoint`); each on its own and the next one's (`ring`); each on two by chance (`random`); all on the same one (`all one`). They do
   them by

     bay         one `struct lab_bay` without a journal, a mutex, and a condition variable for each station: lab_bay_ask, lab_bay_let_go, and
                 lab_bay_tell until nothing is left to tell
     handle      one `struct lab_bench`, a mutex, and a condition variable for each station: lab_settle, lab_end, and lab_settle if others wait
     condition   one mutex and one condition variable over a set of the instruments that are taken
     mutexes     a mutex for each instrument, all taken in one order

   Each number is the best of N runs (5), which are taken in turn; a run is so many benches (10), one after another, as a script has a
   thousand sessions of a job at most; what is timed are the sessions alone. Beside them stands the bay beside the condition variable, and below
   the geometric mean and the worst of these. The last columns are of one bench more, which isn't timed: how long a session waits from
   asking to holding, in milliseconds, 99 of 100 and the longest. */
#define _POSIX_C_SOURCE 200809L
#include "labrun_bay.h"
#include <math.h>
#include <pthread.h>
#include <stdio.h>
#include <stdlib.h>
#include <string.h>
#include <time.h>

#define MOST 32
enum way { BAY, HANDLE, CONDITION, MUTEXES, WAYS };
static const char *const names[] = {"bay", "handle", "condition", "mutexes"};
enum { DISJOINT, RING, RANDOM, ALL_ONE, SHAPES };
static const char *const shapes[] = {"disjoint", "ring", "random", "all one"};
static const uint32_t counts[] = {2, 8, 32};

static struct lab_bench bench;
static struct lab_bay bay;
static uint64_t bay_number, serial; /* of the last ask, and of what was told last */
static pthread_mutex_t mutex = PTHREAD_MUTEX_INITIALIZER, locks[MOST];
static pthread_cond_t came[MOST], freed = PTHREAD_COND_INITIALIZER;
static pthread_barrier_t start;
static uint32_t waiting, threads;
static uint64_t taken;
static enum way way;
static int shape;
static long sessions = 1000, microseconds;

static void stop(const char *why, uint32_t status) {
    fprintf(stderr, "%s: status %u\n", why, status);
    exit(70);
}

static int by_size(const void *one, const void *other) {
    double a = *(const double *)one, b = *(const double *)other;
    return (a > b) - (a < b);
}

static double now(void) {
    struct timespec time;
    clock_gettime(CLOCK_MONOTONIC, &time);
    return (double)time.tv_sec + (double)time.tv_nsec * 1e-9;
}

/* How long each session of each station waited, if that is noted. */
static double waits[MOST * 1000];
static int notes;

static double asks(void) { return notes ? now() : 0; }

static void holds_since(double asked, uint32_t me, long left) {
    if (notes) waits[(long)me * sessions + left - 1] = now() - asked;
}

static void work(void) {
    struct timespec time = {0, microseconds * 1000};
    if (microseconds) nanosleep(&time, NULL);
}

/* (two of twice as many instruments as there are stations, but 32 at most: the same ones in each run) */
static uint64_t two_by_chance(uint32_t at) {
    uint32_t count = 2 * threads < MOST ? 2 * threads : MOST, first = at * 2654435761u >> 16, second = (at + 77) * 2246822519u >> 16;
    return (uint64_t)1 << first % count | (uint64_t)1 << (first + 1 + second % (count - 1)) % count;
}

static uint64_t needs(uint32_t at) {
    uint64_t own = (uint64_t)1 << at;
    return shape == DISJOINT ? own : shape == RING ? own | (uint64_t)1 << (at + 1) % threads : shape == RANDOM ? two_by_chance(at) : 1;
}

/* Which of those that wait hold now; the mutex is held. They are woken when it isn't any more. */
static uint32_t settle(uint32_t *holds) {
    struct lab_came told;
    uint32_t status = lab_settle(&bench, waiting, &told);
    if (status != LAB_DONE) stop("lab_settle", status);
    uint32_t woken = waiting & told.holds;
    waiting &= ~woken;
    *holds = told.holds;
    return woken;
}

static void wake(uint32_t woken) {
    for (; woken; woken &= woken - 1) pthread_cond_signal(&came[__builtin_ctz(woken)]);
}

static void by_handle(uint32_t me) {
    uint32_t bit = (uint32_t)1 << me, holds;
    struct lab_turned turned;
    for (long left = sessions; left; left--) {
        double asked = asks();
        pthread_mutex_lock(&mutex);
        waiting |= bit;
        uint32_t woken = settle(&holds) & ~bit;
        if (woken) wake(woken);
        while (waiting & bit) pthread_cond_wait(&came[me], &mutex);
        pthread_mutex_unlock(&mutex);
        holds_since(asked, me, left);
        work();
        pthread_mutex_lock(&mutex);
        uint32_t status = lab_end(&bench, me, &turned);
        if (status != LAB_DONE) stop("lab_end", status);
        woken = waiting ? settle(&holds) : 0;
        pthread_mutex_unlock(&mutex);
        wake(woken);
    }
}

/* What is told at the bay; the mutex is held. A number has its station in its low bits. */
static void pump(uint32_t me) {
    struct lab_outcome told;
    for (; lab_bay_tell(&bay, serial, &told) == LAB_DONE; serial = told.serial) {
        uint32_t station = (uint32_t)(told.number % MOST);
        if (told.what != LAB_HOLDS) continue;
        waiting &= ~((uint32_t)1 << station);
        if (station != me) pthread_cond_signal(&came[station]);
    }
}

static void by_bay(uint32_t me) {
    uint32_t bit = (uint32_t)1 << me, status;
    uint64_t mine = needs(me);
    for (long left = sessions; left; left--) {
        double asked_at = asks();
        pthread_mutex_lock(&mutex);
        waiting |= bit;
        bay_number = bay_number - bay_number % MOST + MOST + me;
        struct lab_asked asked = {.number = bay_number, .deadline = LAB_NEVER, .limit = LAB_NEVER};
        uint64_t number = bay_number;
        if ((status = lab_bay_ask(&bay, &asked, &mine, 1, 0)) != LAB_DONE) stop("lab_bay_ask", status);
        pump(me);
        while (waiting & bit) pthread_cond_wait(&came[me], &mutex);
        pthread_mutex_unlock(&mutex);
        holds_since(asked_at, me, left);
        work();
        pthread_mutex_lock(&mutex);
        if ((status = lab_bay_let_go(&bay, number, 0)) != LAB_DONE) stop("lab_bay_let_go", status);
        pump(me);
        pthread_mutex_unlock(&mutex);
    }
}

static void by_condition(uint32_t me) {
    uint64_t mine = needs(me);
    for (long left = sessions; left; left--) {
        double asked = asks();
        pthread_mutex_lock(&mutex);
        while (taken & mine) pthread_cond_wait(&freed, &mutex);
        taken |= mine;
        pthread_mutex_unlock(&mutex);
        holds_since(asked, me, left);
        work();
        pthread_mutex_lock(&mutex);
        taken &= ~mine;
        pthread_cond_broadcast(&freed);
        pthread_mutex_unlock(&mutex);
    }
}

static void by_mutexes(uint32_t me) {
    uint64_t mine = needs(me);
    for (long left = sessions; left; left--) {
        double asked = asks();
        for (uint32_t at = 0; at < MOST; at++)
            if (mine >> at & 1) pthread_mutex_lock(&locks[at]);
        holds_since(asked, me, left);
        work();
        for (uint32_t at = 0; at < MOST; at++)
            if (mine >> at & 1) pthread_mutex_unlock(&locks[at]);
    }
}

static void (*const by[])(uint32_t) = {by_bay, by_handle, by_condition, by_mutexes};
static double begun[MOST], ended[MOST];

static void *station(void *given) {
    uint32_t me = *(uint32_t *)given;
    pthread_barrier_wait(&start);
    begun[me] = now();
    by[way](me);
    ended[me] = now();
    return NULL;
}

static void open_bench(void) {
    size_t room = (size_t)threads * ((size_t)sessions * 60 + 40) + 40, length = 0;
    char *script = malloc(room);
    struct lab_told told;
    if (!script) exit(70);
    length += (size_t)sprintf(script, "lab 1\n");
    for (uint32_t job = 0; job < threads; job++) {
        length += (size_t)sprintf(script + length, "job station-%u\n", job);
        for (long session = 0; session < sessions; session++) {
            length += (size_t)sprintf(script + length, "session\n");
            for (uint32_t at = 0; at < MOST; at++)
                if (needs(job) >> at & 1) length += (size_t)sprintf(script + length, "i-%u add 1\n", at);
            length += (size_t)sprintf(script + length, "end\n");
        }
    }
    uint32_t status = lab_bench_open((const uint8_t *)script, length, &bench, &told);
    if (status != LAB_DONE) stop("open", status);
    free(script);
}

static void open_bay(void) {
    struct lab_class all = {UINT64_MAX, threads, 0};
    struct lab_terms terms = {.line = MOST, .grace = LAB_NEVER, .disk = LAB_NEVER, .overtakes = 64};
    uint32_t status = lab_bay_open(&all, 1, &terms, &bay);
    if (status != LAB_DONE) stop("lab_bay_open", status);
    bay_number = serial = 0;
}

/* The report has to say that all is done. */
static void close_bench(void) {
    struct lab_told told;
    struct lab_turned turned;
    uint8_t none[1];
    for (uint32_t job = 0; job < threads; job++) lab_retire(&bench, job, 1, &turned);
    uint32_t status = lab_bench_close(&bench, none, 0, &told);
    uint8_t *report = malloc(told.written + 1);
    if (status != LAB_NO_ROOM || !report || (status = lab_bench_close(&bench, report, told.written, &told)) != LAB_DONE) stop("close", status);
    free(report);
    lab_bench_free(&bench);
}

/* The seconds from the first station's first session to the last one's last. */
static double timed(void) {
    pthread_t each[MOST];
    uint32_t numbers[MOST];
    waiting = 0, taken = 0;
    if (way == BAY) open_bay();
    if (way == HANDLE) open_bench();
    pthread_barrier_init(&start, NULL, threads);
    for (uint32_t at = 0; at < threads; at++) {
        numbers[at] = at;
        if (pthread_create(&each[at], NULL, station, &numbers[at])) exit(70);
    }
    double first = 0, last = 0;
    for (uint32_t at = 0; at < threads; at++) {
        pthread_join(each[at], NULL);
        if (at == 0 || begun[at] < first) first = begun[at];
        if (at == 0 || ended[at] > last) last = ended[at];
    }
    pthread_barrier_destroy(&start);
    if (way == BAY) lab_bay_free(&bay);
    if (way == HANDLE) close_bench();
    return last - first;
}

/* Prints the waits of one bench: 99 of 100, and the longest. */
static void tell_waits(void) {
    size_t all = (size_t)threads * (size_t)sessions;
    notes = 1;
    timed();
    notes = 0;
    qsort(waits, all, sizeof waits[0], by_size);
    printf(" %.2g; %.2g |", waits[all * 99 / 100] * 1e3, waits[all - 1] * 1e3);
}

/* Of the rows: the sum of the logarithms, and the worst. */
struct share {
    double sum, worst;
    int rows;
};

static double add_share(struct share *all, double one) {
    all->sum += log(one);
    all->rows++;
    if (one < all->worst) all->worst = one;
    return one;
}

static void tell_share(const char *what, const struct share *all) {
    if (all->rows) printf("%s: geometric mean %.3f, worst %.3f\n", what, exp(all->sum / all->rows), all->worst);
}

int main(int count, char **words) {
    long runs = 5, only = 0, benches = 10;
    for (int at = 1; at + 1 < count; at += 2) {
        long number = atol(words[at + 1]);
        if (strcmp(words[at], "--best") == 0) runs = number;
        else if (strcmp(words[at], "--work") == 0) microseconds = number;
        else if (strcmp(words[at], "--sessions") == 0) sessions = number;
        else if (strcmp(words[at], "--only") == 0) only = number;
        else if (strcmp(words[at], "--benches") == 0) benches = number;
        else return fputs("speed [--best N] [--work MICROSECONDS] [--sessions N] [--benches N] [--only THREADS]\n", stderr), 2;
    }
    if (sessions < 1 || sessions > 1000 || microseconds < 0 || microseconds > 999999) return 2;
    for (uint32_t at = 0; at < MOST; at++) {
        pthread_cond_init(&came[at], NULL);
        pthread_mutex_init(&locks[at], NULL);
    }
    printf("sessions a second, best of %ld, %ld us of work each\n| shape | threads |", runs, microseconds);
    for (way = 0; way < WAYS; way++) printf(" %s |", names[way]);
    printf(" bay / condition |");
    for (way = 0; way < WAYS; way++) printf(" %s: waits |", names[way]);
    printf("\n|%s\n", "---|---|---|---|---|---|---|---|---|---|---|");
    struct share bays = {0, 1e9, 0};
    for (shape = 0; shape < SHAPES; shape++)
        for (int row = 0; row < 3; row++) {
            double best[WAYS] = {0};
            threads = counts[row];
            if (only && threads != (uint32_t)only) continue;
            for (long run = 0; run < runs; run++)
                for (way = 0; way < WAYS; way++) {
                    double took = 0;
                    for (long bench_number = 0; bench_number < benches; bench_number++) took += timed();
                    double speed = (double)benches * (double)threads * (double)sessions / took;
                    if (speed > best[way]) best[way] = speed;
                }
            printf("| %s | %u |", shapes[shape], threads);
            for (way = 0; way < WAYS; way++) printf(" %.0f |", best[way]);
            printf(" %.3f |", add_share(&bays, best[BAY] / best[CONDITION]));
            for (way = 0; way < WAYS; way++) tell_waits();
            printf("\n");
            fflush(stdout);
        }
    tell_share("the bay beside the condition variable", &bays);
    return 0;
}
