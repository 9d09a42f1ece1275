/* Sessions a second in C, with a journal (examples/broker/journal.h) and without.

     cc -O2 -pthread -I include checks/journal/speed.c FOLDER/liblabrun.a -o speed
     ./speed THREADS SESSIONS                   without one: so many sessions a thread, each on an instrument of its own
     ./speed THREADS SESSIONS FILE none|data    with one */
#define _DEFAULT_SOURCE
#include "../../examples/broker/journal.h"

#define MOST 32

static struct lab_bench bench;
static struct journal journal;
static int has_journal;
static pthread_mutex_t mutex = PTHREAD_MUTEX_INITIALIZER;
static pthread_cond_t came[MOST];
static uint32_t waiting;

static uint64_t took(void) { return has_journal ? journal_took(&journal, &bench) : 0; }

static struct lab_came settle(void) {
    struct lab_came told;
    if (lab_settle(&bench, waiting, &told) != LAB_DONE) exit(70);
    took();
    uint32_t woken = waiting & (told.holds | told.none_left);
    waiting &= ~woken;
    for (; woken; woken &= woken - 1) pthread_cond_signal(&came[__builtin_ctz(woken)]);
    return told;
}

static void *station(void *given) {
    uint32_t job = *(uint32_t *)given, bit = (uint32_t)1 << job;
    struct lab_turned turned;
    struct lab_state state;
    for (;;) {
        pthread_mutex_lock(&mutex);
        waiting |= bit;
        settle();
        while (waiting & bit) pthread_cond_wait(&came[job], &mutex);
        lab_state(&bench, job, &state);
        uint64_t number = took();
        pthread_mutex_unlock(&mutex);
        if (has_journal) journal_commit(&journal, number);
        if (state.drinking != 2) return NULL;
        pthread_mutex_lock(&mutex);
        if (lab_end(&bench, job, &turned) != LAB_DONE) exit(70);
        number = took();
        if (waiting) settle(), number = took();
        pthread_mutex_unlock(&mutex);
        if (has_journal) journal_commit(&journal, number);
    }
}

int main(int count, char **words) {
    uint32_t threads = count > 2 ? (uint32_t)atoi(words[1]) : 0, jobs[MOST];
    long sessions = count > 2 ? atol(words[2]) : 0;
    if (threads < 1 || threads > MOST || sessions < 1 || sessions > 1000) return fputs("speed THREADS SESSIONS [FILE none|data]\n", stderr), 2;
    char *script = malloc(threads * ((size_t)sessions * 40 + 40) + 40);
    if (!script) return 70;
    size_t length = (size_t)sprintf(script, "lab 1\n");
    for (uint32_t job = 0; job < threads; job++) {
        length += (size_t)sprintf(script + length, "job station-%u\n", job);
        for (long at = 0; at < sessions; at++) length += (size_t)sprintf(script + length, "session\ni-%u add 1\nend\n", job);
    }
    struct lab_told told;
    has_journal = count > 4;
    if (has_journal) journal_open(&journal, words[3], strcmp(words[4], "data") == 0, script, &bench);
    else if (lab_bench_open((const uint8_t *)script, length, &bench, &told) != LAB_DONE) return 70;
    pthread_t each[MOST];
    struct timespec begun, ended;
    clock_gettime(CLOCK_MONOTONIC, &begun);
    for (uint32_t job = 0; job < threads; job++) {
        jobs[job] = job;
        pthread_cond_init(&came[job], NULL);
        if (pthread_create(&each[job], NULL, station, &jobs[job])) return 70;
    }
    for (uint32_t job = 0; job < threads; job++) pthread_join(each[job], NULL);
    clock_gettime(CLOCK_MONOTONIC, &ended);
    double seconds = (double)(ended.tv_sec - begun.tv_sec) + (double)(ended.tv_nsec - begun.tv_nsec) * 1e-9;
    printf("%.0f\n", (double)threads * (double)sessions / seconds);
    free(script);
    return 0;
}
