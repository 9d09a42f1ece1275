/* Many sessions, at instruments that count a second client, and many opens.

     cc -O2 -pthread -I include checks/broker/soak.c FOLDER/liblabrun.a -o soak
     ./soak SESSIONS [THREADS [OVERTAKES]]
                                   by so many threads (32) on 20 instruments, each session of one to three of them, bench after bench until
                                   so many are done; OVERTAKES (64) is for lab_overtakes. Whoever holds goes to its instruments one by one, and
                                   each refuses whoever comes while another is there. The status is 0 if nobody was refused and each bench
                                   came to its end
     ./soak opens TIMES            a bench is opened, used and freed so often, with 64 MiB of memory to spare after the first */
#define _GNU_SOURCE
#include "labrun.h"
#include <pthread.h>
#include <sched.h>
#include <stdatomic.h>
#include <stdio.h>
#include <stdlib.h>
#include <string.h>
#include <sys/resource.h>
#include <time.h>

#define MOST 32
#define INSTRUMENTS 20

static struct lab_bench bench;
static pthread_mutex_t mutex = PTHREAD_MUTEX_INITIALIZER;
static pthread_cond_t came[MOST];
static uint32_t waiting, overtakes = 64;
static atomic_int clients[INSTRUMENTS]; /* at each instrument now */
static atomic_long refused, talks, done;

static void stop(const char *why, uint32_t status) {
    fprintf(stderr, "%s: status %u\n", why, status);
    exit(70);
}

static uint32_t chance(uint32_t *seed, uint32_t below) {
    *seed = *seed * 1664525u + 1013904223u;
    return (*seed >> 8) % below;
}

/* All that can be done is done, and those are woken whom that concerns; the mutex is held. The jobs that hold, and those of the waiting ones
   that have no session left. */
static struct lab_came settle(void) {
    struct lab_came told;
    uint32_t status = lab_settle(&bench, waiting, &told);
    if (status != LAB_DONE) stop("lab_settle", status);
    uint32_t woken = waiting & (told.holds | told.none_left);
    waiting &= ~woken;
    for (; woken; woken &= woken - 1) pthread_cond_signal(&came[__builtin_ctz(woken)]);
    return told;
}

static void *station(void *given) {
    uint32_t me = *(uint32_t *)given, bit = (uint32_t)1 << me, seed = me + 1;
    struct lab_turned turned;
    struct lab_state state;
    struct lab_session session;
    for (;;) {
        pthread_mutex_lock(&mutex);
        waiting |= bit;
        settle();
        while (waiting & bit) pthread_cond_wait(&came[me], &mutex);
        lab_state(&bench, me, &state);
        lab_session_of(&bench, me, state.session, &session);
        pthread_mutex_unlock(&mutex);
        if (state.drinking != 2) return NULL;
        for (uint32_t at = 0; at < INSTRUMENTS; at++)
            if (session.needs >> at & 1 && atomic_fetch_add(&clients[at], 1) != 0) atomic_fetch_add(&refused, 1);
        if (chance(&seed, 4) == 0) sched_yield();
        for (uint32_t at = 0; at < INSTRUMENTS; at++)
            if (session.needs >> at & 1) {
                if (atomic_fetch_sub(&clients[at], 1) != 1) atomic_fetch_add(&refused, 1);
                atomic_fetch_add(&talks, 1);
            }
        pthread_mutex_lock(&mutex);
        uint32_t status = lab_end(&bench, me, &turned);
        if (status != LAB_DONE) stop("lab_end", status);
        if (waiting) settle();
        pthread_mutex_unlock(&mutex);
        atomic_fetch_add(&done, 1);
    }
}

static size_t script_for(char **script, uint32_t threads, long sessions, uint32_t seed) {
    size_t length = 0;
    *script = malloc((size_t)threads * ((size_t)sessions * 70 + 40) + 400);
    if (!*script) exit(70);
    length += (size_t)sprintf(*script, "lab 1\njob all\n");
    /* (so that each instrument has its own number; this job's one session is the first of all) */
    length += (size_t)sprintf(*script + length, "session\n");
    for (uint32_t at = 0; at < INSTRUMENTS; at++) length += (size_t)sprintf(*script + length, "i-%u read\n", at);
    length += (size_t)sprintf(*script + length, "end\n");
    for (uint32_t job = 1; job < threads; job++) {
        length += (size_t)sprintf(*script + length, "job station-%u\n", job);
        for (long session = 0; session < sessions; session++) {
            length += (size_t)sprintf(*script + length, "session\n");
            for (uint32_t left = 1 + chance(&seed, 3); left; left--) length += (size_t)sprintf(*script + length, "i-%u add 1\n", chance(&seed, INSTRUMENTS));
            length += (size_t)sprintf(*script + length, "end\n");
        }
    }
    return length;
}

static void open_bench(const char *script, size_t length) {
    struct lab_told told;
    uint32_t status = lab_bench_open((const uint8_t *)script, length, &bench, &told);
    if (status != LAB_DONE) stop("lab_bench_open", status);
    if ((status = lab_overtakes(&bench, overtakes)) != LAB_DONE) stop("lab_overtakes", status);
}

/* The status of the report. */
static uint32_t close_bench(uint32_t jobs) {
    struct lab_told told;
    struct lab_turned turned;
    uint8_t none[1];
    for (uint32_t job = 0; job < jobs; job++) lab_retire(&bench, job, 1, &turned);
    uint32_t status = lab_bench_close(&bench, none, 0, &told);
    uint8_t *report = malloc(told.written + 1);
    if (status != LAB_NO_ROOM || !report) stop("lab_bench_close", status);
    status = lab_bench_close(&bench, report, told.written, &told);
    free(report);
    lab_bench_free(&bench);
    return status;
}

static int soak(long wanted, uint32_t threads) {
    struct timespec begun, ended;
    uint32_t numbers[MOST], unfinished = 0, benches = 0;
    pthread_t each[MOST];
    clock_gettime(CLOCK_MONOTONIC, &begun);
    for (uint32_t at = 0; at < MOST; at++) pthread_cond_init(&came[at], NULL);
    while (atomic_load(&done) < wanted) {
        long left = (wanted - atomic_load(&done)) / (threads - 1) + 1;
        char *script;
        size_t length = script_for(&script, threads, left < 1000 ? left : 1000, ++benches);
        open_bench(script, length);
        free(script);
        waiting = 0;
        for (uint32_t at = 0; at < threads; at++) {
            numbers[at] = at;
            if (pthread_create(&each[at], NULL, station, &numbers[at])) exit(70);
        }
        for (uint32_t at = 0; at < threads; at++) pthread_join(each[at], NULL);
        unfinished += close_bench(threads) != LAB_DONE;
    }
    clock_gettime(CLOCK_MONOTONIC, &ended);
    double took = (double)(ended.tv_sec - begun.tv_sec) + (double)(ended.tv_nsec - begun.tv_nsec) * 1e-9;
    printf("%ld sessions by %u threads, %u benches, in %.1f s; %ld talks with %d instruments, %ld refused; %u benches unfinished\n", (long)done, threads,
           benches, took, (long)talks, INSTRUMENTS, (long)refused, unfinished);
    return refused || unfinished;
}

static int opens(long times) {
    char *script;
    size_t length = script_for(&script, 4, 5, 1);
    struct lab_came told;
    struct lab_turned turned;
    for (long left = times; left; left--) {
        open_bench(script, length);
        if (lab_settle(&bench, 0xffffffffu, &told) != LAB_DONE || !told.holds) stop("lab_settle", told.holds);
        uint32_t status = lab_end(&bench, (uint32_t)__builtin_ctz(told.holds), &turned);
        if (status != LAB_DONE) stop("lab_end", status);
        if (left % 2) lab_bench_free(&bench);
        else close_bench(4);
        if (left == times) {
            /* (what is mapped now, in pages) */
            long pages = 0;
            FILE *file = fopen("/proc/self/statm", "r");
            if (!file || fscanf(file, "%ld", &pages) != 1) exit(70);
            fclose(file);
            struct rlimit limit = {(rlim_t)pages * 4096 + (64u << 20), (rlim_t)pages * 4096 + (64u << 20)};
            if (setrlimit(RLIMIT_AS, &limit)) exit(70);
        }
    }
    free(script);
    printf("%ld opens and frees, with 64 MiB to spare\n", times);
    return 0;
}

int main(int count, char **words) {
    if (count == 3 && strcmp(words[1], "opens") == 0 && atol(words[2]) > 0) return opens(atol(words[2]));
    long sessions = count > 1 ? atol(words[1]) : 0, threads = count > 2 ? atol(words[2]) : MOST;
    if (count > 3) overtakes = (uint32_t)atol(words[3]);
    if (sessions < 1 || threads < 2 || threads > MOST) return fputs("soak SESSIONS [THREADS [OVERTAKES]] | soak opens TIMES\n", stderr), 2;
    return soak(sessions, (uint32_t)threads);
}
