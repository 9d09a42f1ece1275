/* Two threads share a scale.  cc -I include examples/broker/two_threads.c FOLDER/liblabrun.a -pthread */
#include "labrun.h"
#include <pthread.h>
#include <stdio.h>
#include <stdlib.h>
#include <string.h>

static const char script[] = "lab 1\n"
                             "job north\nsession\nscale add 5\nend\nsession\nscale add 5\nend\n"
                             "job south\nsession\nscale read\nend\n";

static struct lab_bench bench; /* all zero, as it has to be */
static pthread_mutex_t mutex = PTHREAD_MUTEX_INITIALIZER;
static pthread_cond_t changed = PTHREAD_COND_INITIALIZER;
static uint32_t waiting;     /* the jobs whose threads wait: bit k for job k. This and the next are under the mutex, as the bench is */
static struct lab_came came; /* what lab_settle told last */

/* All that can be done is done, and those who wait look whether they hold by now. */
static void settle(void) {
    lab_settle(&bench, waiting, &came);
    if (waiting) pthread_cond_broadcast(&changed);
}

/* Waits until the job holds its instruments. No if it has no session left. */
static int begin(uint32_t job) {
    uint32_t bit = (uint32_t)1 << job;
    pthread_mutex_lock(&mutex);
    waiting |= bit;
    settle();
    while (!((came.holds | came.none_left) & bit)) pthread_cond_wait(&changed, &mutex);
    waiting &= ~bit;
    int holds = (came.holds & bit) != 0;
    pthread_mutex_unlock(&mutex);
    return holds;
}

/* Enters the session's commands in the logs, and lets go. */
static void end(uint32_t job) {
    struct lab_turned turned;
    pthread_mutex_lock(&mutex);
    lab_end(&bench, job, &turned);
    settle();
    pthread_mutex_unlock(&mutex);
}

static void *station(void *given) {
    uint32_t job = *(uint32_t *)given;
    while (begin(job)) {
        /* here nobody else holds the scale, and no mutex is held: talk to the real one */
        end(job);
    }
    return NULL;
}

int main(void) {
    struct lab_told told;
    uint32_t status = lab_bench_open((const uint8_t *)script, strlen(script), &bench, &told);
    if (status != LAB_DONE) return fprintf(stderr, "status %u, line %zu\n", status, told.line), 1;

    uint32_t jobs[] = {0, 1};
    pthread_t threads[2];
    for (int at = 0; at < 2; at++)
        if (pthread_create(&threads[at], NULL, station, &jobs[at])) return 1;
    for (int at = 0; at < 2; at++) pthread_join(threads[at], NULL);

    struct lab_turned turned;
    for (int at = 0; at < 2; at++) lab_retire(&bench, jobs[at], 1, &turned);
    static uint8_t report[10000];
    status = lab_bench_close(&bench, report, sizeof report, &told);
    if (status == LAB_DONE || status == LAB_UNFINISHED) fwrite(report, 1, told.written, stdout);
    lab_bench_free(&bench);
    return (int)status;
}
