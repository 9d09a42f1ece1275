// Refuses allocations and starts of threads of a program that is run with this library before the others:
//   cc -shared -fPIC -O1 -o refuse.so refuse.c -ldl -pthread
//   REFUSE_ALLOCATION=N REFUSE_START=N REFUSE_TOLD=FILE LD_PRELOAD=./refuse.so PROGRAM ..
// The allocation and the start of these numbers are refused (from 1 on; 0: none; -1: all of them). At the end FILE has two numbers: how many
// allocations and how many starts the program asked for.
#define _GNU_SOURCE
#include <dlfcn.h>
#include <errno.h>
#include <pthread.h>
#include <stdatomic.h>
#include <stdio.h>
#include <stdlib.h>
#include <sys/syscall.h>
#include <unistd.h>

extern void *__libc_malloc(size_t);
extern void *__libc_calloc(size_t, size_t);
extern void *__libc_realloc(void *, size_t);

static atomic_long allocations, starts;
static long refused_allocation, refused_start;
static int counting;

static long number_of(const char *name) {
    const char *text = getenv(name);
    return text ? atol(text) : 0;
}

__attribute__((constructor)) static void begin(void) {
    refused_allocation = number_of("REFUSE_ALLOCATION");
    refused_start = number_of("REFUSE_START");
    counting = 1;
}

static void tell(void) {
    const char *name = getenv("REFUSE_TOLD");
    counting = 0;
    FILE *told = name ? fopen(name, "w") : NULL;
    if (told) {
        fprintf(told, "%ld %ld\n", (long)allocations, (long)starts);
        fclose(told);
    }
}

__attribute__((destructor)) static void end(void) { tell(); }

void _exit(int status) {
    tell();
    syscall(SYS_exit_group, status);
    abort();
}

static int is_refused(atomic_long *count, long refused) {
    if (!counting)
        return 0;
    long number = atomic_fetch_add(count, 1) + 1;
    return refused == -1 || number == refused;
}

static void *none(void) {
    errno = ENOMEM;
    return NULL;
}

void *malloc(size_t size) { return is_refused(&allocations, refused_allocation) ? none() : __libc_malloc(size); }

void *calloc(size_t count, size_t size) { return is_refused(&allocations, refused_allocation) ? none() : __libc_calloc(count, size); }

void *realloc(void *old, size_t size) { return is_refused(&allocations, refused_allocation) ? none() : __libc_realloc(old, size); }

int pthread_create(pthread_t *thread, const pthread_attr_t *with, void *(*run)(void *), void *data) {
    static int (*real)(pthread_t *, const pthread_attr_t *, void *(*)(void *), void *);
    if (is_refused(&starts, refused_start))
        return EAGAIN;
    if (!real)
        real = (int (*)(pthread_t *, const pthread_attr_t *, void *(*)(void *), void *))dlsym(RTLD_NEXT, "pthread_create");
    return real(thread, with, run, data);
}
