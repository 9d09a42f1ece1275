/* How long a run takes alone, without starting, reading, opening, closing and printing. Preloaded into labrun (LD_PRELOAD), it notes when
   the main thread takes or gives back memory between the end of the input and the first byte of the output, and when threads begin and end.
   labrun takes memory before the first turn and after the last, and none between. So without threads the run is the longest time without
   such a call; with them it lasts from the last call before the first start to the first one after the last join. At the end of the
   program four numbers are told on standard error, in microseconds: the run; from the first start until the last one has returned; from
   the first start until the last thread's first instruction; from the last thread's end until it is joined. checks/alone.py asks. */
#define _GNU_SOURCE
#include <dlfcn.h>
#include <pthread.h>
#include <stdio.h>
#include <stdlib.h>
#include <time.h>
#include <unistd.h>

enum { MOST_CALLS = 1 << 20, MOST_THREADS = 64 };
struct thread { void *(*body)(void *); void *given; double called, returned, begun, ended; };

static struct thread threads[MOST_THREADS];
static double calls[MOST_CALLS], joined;
static int made, noted, is_noting;
static pthread_t main_thread;

extern void *__libc_malloc(size_t);
extern void *__libc_realloc(void *, size_t);
extern void __libc_free(void *);

static double now(void) {
    struct timespec t;
    clock_gettime(CLOCK_MONOTONIC, &t);
    return t.tv_sec * 1e6 + t.tv_nsec / 1e3;
}

static void note(void) {
    if (is_noting && noted < MOST_CALLS && pthread_self() == main_thread) calls[noted++] = now();
}

__attribute__((constructor)) static void begin(void) { main_thread = pthread_self(); }

void *malloc(size_t size) { void *made = __libc_malloc(size); note(); return made; }
void *realloc(void *old, size_t size) { void *made = __libc_realloc(old, size); note(); return made; }
void free(void *old) { note(); __libc_free(old); }

static void *run(void *given) {
    struct thread *own = given;
    own->begun = now();
    void *answer = own->body(own->given);
    own->ended = now();
    return answer;
}

int pthread_create(pthread_t *id, const pthread_attr_t *how, void *(*body)(void *), void *given) {
    int (*real)(pthread_t *, const pthread_attr_t *, void *(*)(void *), void *) = dlsym(RTLD_NEXT, "pthread_create");
    if (made == MOST_THREADS) return real(id, how, body, given);
    struct thread *own = &threads[made++];
    own->body = body, own->given = given, own->called = now();
    int status = real(id, how, run, own);
    own->returned = now();
    return status;
}

int pthread_join(pthread_t id, void **answer) {
    int (*real)(pthread_t, void **) = dlsym(RTLD_NEXT, "pthread_join");
    int status = real(id, answer);
    joined = now();
    return status;
}

ssize_t read(int file, void *to, size_t size) {
    ssize_t (*real)(int, void *, size_t) = dlsym(RTLD_NEXT, "read");
    ssize_t count = real(file, to, size);
    if (count == 0) is_noting = 1;
    return count;
}

ssize_t write(int file, const void *from, size_t size) {
    ssize_t (*real)(int, const void *, size_t) = dlsym(RTLD_NEXT, "write");
    if (file == 1) is_noting = 0;
    return real(file, from, size);
}

void _exit(int status) {
    void (*real)(int) = (void (*)(int))dlsym(RTLD_NEXT, "_exit");
    double first = 0, last = 0, begun = 0, ended = 0;
    for (int i = 0; i < made; i++) {
        if (threads[i].begun > begun) begun = threads[i].begun;
        if (threads[i].ended > ended) ended = threads[i].ended;
    }
    for (int i = 0; i + 1 < noted; i++)
        if (made ? calls[i] <= threads[0].called : calls[i + 1] - calls[i] > last - first) first = calls[i], last = calls[i + 1];
    for (int i = noted; made && i-- > 0 && calls[i] >= joined;) last = calls[i];
    double start = made ? threads[0].called : 0, starts = made ? threads[made - 1].returned - start : 0;
    fprintf(stderr, "%.0f %.0f %.0f %.0f\n", last - first, starts, made ? begun - start : 0, made ? joined - ended : 0);
    real(status);
    __builtin_unreachable();
}
