/* stops.c: what becomes of the others when a thread stops or dies in the midst of its session.
   cc -pthread -I include checks/door/stops.c FOLDER/liblabrun.a */
#define _POSIX_C_SOURCE 200809L
#include "tests.h"
#include <errno.h>
#include <pthread.h>
#include <time.h>

/* Jobs 0 and 1 share the scale; job 2 shares nothing with them. */
static const char script[] = "lab 1\njob gone\nsession\nscale set 1\nscale add 1\nend\n"
                             "job waits\nsession\nscale add 10\nend\n"
                             "job apart\nsession\nlamp set 3\nend\n";

#define GONE 0u
#define WAITS 1u
#define APART 2u

static struct lab_bench bench;
static pthread_mutex_t mutex;
static pthread_cond_t changed;
static int dies_with_mutex;

/* Whether the mutex's last owner died with it. The bench is whole between any two calls, so there is nothing to mend. */
static int lock(void) {
    int died = pthread_mutex_lock(&mutex) == EOWNERDEAD;
    if (died) pthread_mutex_consistent(&mutex);
    return died;
}

/* Waits until the job holds, at most for this many milliseconds. `LAB_NOT_THERE` if it has no session left. */
static uint32_t begin(uint32_t job, long milliseconds) {
    struct lab_came came;
    struct timespec until;
    clock_gettime(CLOCK_REALTIME, &until);
    until.tv_nsec += milliseconds * 1000000;
    until.tv_sec += until.tv_nsec / 1000000000;
    until.tv_nsec %= 1000000000;
    lock();
    uint32_t status = lab_settle(&bench, 1u << job, &came);
    while (status == LAB_DONE && !((came.holds | came.none_left) >> job & 1) && pthread_cond_timedwait(&changed, &mutex, &until) != ETIMEDOUT)
        status = lab_settle(&bench, 1u << job, &came);
    pthread_mutex_unlock(&mutex);
    return status != LAB_DONE ? status : came.holds >> job & 1 ? LAB_DONE : came.none_left >> job & 1 ? LAB_NOT_THERE : LAB_NOT_YET;
}

/* The jobs that keep the scale from the one that waits, and those of them that hold it. */
static void is_kept(uint32_t jobs, uint32_t holding) {
    struct lab_keepers keepers;
    expect(lab_keepers(&bench, WAITS, 0, &keepers) == LAB_DONE && keepers.jobs == jobs && keepers.holding == holding, "who keeps the scale");
}

/* Holds, does one command of two, and is never seen again. */
static void *leave_in_the_midst(void *nothing) {
    struct lab_entry entry;
    if (begin(GONE, 1000) != LAB_DONE) return nothing;
    lock();
    lab_command(&bench, GONE, &entry);
    if (!dies_with_mutex) pthread_mutex_unlock(&mutex);
    return nothing;
}

static void start(int with_mutex) {
    struct lab_told told;
    pthread_mutexattr_t robust;
    pthread_t thread;
    pthread_mutexattr_init(&robust);
    pthread_mutexattr_setrobust(&robust, PTHREAD_MUTEX_ROBUST);
    pthread_mutex_init(&mutex, &robust);
    pthread_mutexattr_destroy(&robust);
    pthread_cond_init(&changed, NULL);
    dies_with_mutex = with_mutex;
    expect(lab_bench_open((const uint8_t *)script, sizeof script - 1, &bench, &told) == LAB_DONE, "open");
    if (pthread_create(&thread, NULL, leave_in_the_midst, NULL)) exit(70);
    pthread_join(thread, NULL);
    if (with_mutex) {
        expect(lock(), "the mutex doesn't tell that its owner died");
        pthread_mutex_unlock(&mutex);
    }
}

static void whole(uint32_t job, uint32_t milliseconds) {
    struct lab_turned turned;
    expect(begin(job, milliseconds) == LAB_DONE, "job %u doesn't come to hold", job);
    expect(lab_end(&bench, job, &turned) == LAB_DONE, "job %u doesn't end", job);
}

static void retire_all(void) {
    struct lab_turned turned;
    for (uint32_t job = 0; job < 3; job++) {
        uint32_t status = lab_retire(&bench, job, 1, &turned);
        expect(status == LAB_DONE, "job %u doesn't retire: status %u", job, status);
    }
}

static void closes(uint32_t wanted, const char *front) {
    struct text report;
    uint32_t status = close_bench(&bench, &report);
    expect(status == wanted && report.length > strlen(front) && memcmp(report.bytes, front, strlen(front)) == 0,
           "the close: status %u, wanted %u", status, wanted);
    free(report.bytes);
    lab_bench_free(&bench);
    pthread_mutex_destroy(&mutex);
    pthread_cond_destroy(&changed);
}

int main(void) {
    struct lab_state state;
    struct lab_turned turned;
    for (int with_mutex = 0; with_mutex < 2; with_mutex++) {
        /* the one that needs the scale waits, sees who holds, and finishes the other's session */
        start(with_mutex);
        expect(begin(WAITS, 50) == LAB_NOT_YET, "two hold the scale");
        expect(lab_state(&bench, WAITS, &state) == LAB_DONE && state.drinking == 1, "the one that waits is thirsty");
        expect(lab_state(&bench, GONE, &state) == LAB_DONE && state.drinking == 2, "the other holds");
        is_kept(1u << GONE, 1u << GONE);
        whole(APART, 50);
        expect(lab_state(&bench, GONE, &state) == LAB_DONE && state.position == 1, "how far the other came");
        expect(lab_end(&bench, GONE, &turned) == LAB_DONE, "the other's session is ended");
        whole(WAITS, 50);
        retire_all();
        closes(LAB_DONE, "lab 1\ninstrument scale 3\ngone 1 1/2 set 1 = 1\ngone 1 2/2 add 1 = 2\nwaits 1 1/1 add 10 = 12\n"
                         "instrument lamp 1\napart 1 1/1 set 3 = 3\njob gone sessions 1 of 1 ");

        /* nobody finishes it: those that share nothing with it go on, and the report says where it stopped */
        start(with_mutex);
        expect(begin(WAITS, 50) == LAB_NOT_YET, "two hold the scale");
        whole(APART, 50);
        closes(LAB_UNFINISHED, "lab 1\ninstrument scale 1\ngone 1 1/2 set 1 = 1\ninstrument lamp 1\napart 1 1/1 set 3 = 3\n"
                               "job gone sessions 0 of 1 ");
    }
    return summary();
}
