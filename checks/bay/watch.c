/* watch.c: stands between a shell of the bay and the library, and tells what the shell does that no shell may. checks/bay/watched uses it.

     cc -O2 -shared -fPIC -pthread -I include checks/bay/watch.c -Wl,--no-as-needed -L FOLDER -llabrun -ldl -o watch.so
     LD_PRELOAD=watch.so WATCH_REAL=FOLDER/liblabrun.so WATCH_TO=FILE program       (for ctypes also LABRUN_LIBRARY=watch.so)

   It forwards each call, and adds a line to the file for

     at once    two threads call one bay at once
     told       a serial number is given back that wasn't told
     left       another thread's call finds something to tell: whoever called before let the others wait for it
     durable    it is said that the journal is durable up to where no write and sync of the same bytes reached

   and at the end one with how many calls there were. Writes and syncs are those of libc, of whatever file has these bytes. With WATCH_SYNC=0 a
   write counts as a sync, as a lab with sync="none" takes it. With WATCH_SLOW each call takes a while longer, so that more of them meet. */
#define _GNU_SOURCE
#include "labrun_bay.h"
#include <dlfcn.h>
#include <fcntl.h>
#include <pthread.h>
#include <stdarg.h>
#include <stdatomic.h>
#include <stdio.h>
#include <stdlib.h>
#include <string.h>
#include <sys/uio.h>
#include <unistd.h>

#define MOST 64       /* bays at once */
#define STREAM 262144 /* bytes handed out and not durable yet; what is more isn't looked at */

struct watched {
    void *at; /* of the handle */
    atomic_int busy;
    pthread_t last;
    uint64_t told; /* the serial number told last */
    uint64_t done; /* the one given back last */
    /* the journal: `text` has what was handed out from `durable` on; of it `written` bytes were written to `file`, and `synced` are on the disk */
    uint64_t durable;
    size_t length, written, synced;
    int file, is_known;
    char text[STREAM];
};

static struct watched bays[MOST];
static pthread_mutex_t all = PTHREAD_MUTEX_INITIALIZER; /* of the table, and of what writes and syncs change */
static atomic_ulong calls;
static __thread int inside;

static void *real(const char *name) {
    static void *library;
    if (!library) {
        const char *path = getenv("WATCH_REAL");
        if (!path || !(library = dlopen(path, RTLD_NOW | RTLD_LOCAL))) fprintf(stderr, "watch: WATCH_REAL: %s\n", path ? dlerror() : "isn't set"), abort();
    }
    void *found = dlsym(library, name);
    if (!found) fprintf(stderr, "watch: the library has no %s\n", name), abort();
    return found;
}

static void tell(const char *form, ...) {
    char line[200];
    va_list more;
    va_start(more, form);
    int length = vsnprintf(line, sizeof line - 1, form, more);
    va_end(more);
    line[length++] = '\n';
    const char *path = getenv("WATCH_TO");
    inside++;
    int file = path ? open(path, O_WRONLY | O_APPEND | O_CREAT | O_CLOEXEC, 0666) : 2;
    if (file >= 0 && write(file, line, (size_t)length) < 0) abort();
    if (file > 2) close(file);
    inside--;
}

/* What is watched of the bay; a new one if its handle isn't known. NULL for an empty handle. */
static struct watched *of(const struct lab_bay *bay) {
    struct watched *found = NULL;
    if (!bay->live) return NULL;
    pthread_mutex_lock(&all);
    for (int at = 0; at < MOST && !found; at++)
        if (bays[at].at == bay->at) found = &bays[at];
    for (int at = 0; at < MOST && !found; at++)
        if (!bays[at].at) found = &bays[at], found->at = bay->at;
    pthread_mutex_unlock(&all);
    return found;
}

static void forget(struct watched *it) {
    pthread_mutex_lock(&all);
    memset(it, 0, sizeof *it);
    pthread_mutex_unlock(&all);
}

typedef uint32_t tells(struct lab_bay *, uint64_t, struct lab_outcome *);

static struct watched *enter(struct lab_bay *bay, const char *call) {
    struct watched *it = of(bay);
    atomic_fetch_add(&calls, 1);
    if (!it) return NULL;
    if (atomic_exchange(&it->busy, 1)) tell("at once: %s while another call runs", call);
    /* (else a call is so short that two hardly ever meet) */
    if (getenv("WATCH_SLOW")) usleep(200);
    /* (what is told is told again until its number is given back, so to ask for it here changes nothing) */
    struct lab_outcome outcome;
    if (it->last && !pthread_equal(it->last, pthread_self()) && ((tells *)real("lab_bay_tell"))(bay, it->done, &outcome) == LAB_DONE)
        tell("left: %s finds that ask %llu is still to be told %u", call, (unsigned long long)outcome.number, outcome.what);
    it->last = pthread_self();
    return it;
}

static void leave(struct watched *it) {
    if (it) atomic_store(&it->busy, 0);
}

/* A call that is only forwarded. */
#define FORWARDS(name, given, ...)                                                                                                                   \
    uint32_t name(struct lab_bay *bay, __VA_ARGS__) {                                                                                                \
        struct watched *it = enter(bay, #name);                                                                                                      \
        uint32_t status = ((uint32_t(*)(struct lab_bay *, __VA_ARGS__))real(#name)) given;                                                           \
        leave(it);                                                                                                                                   \
        return status;                                                                                                                               \
    }

FORWARDS(lab_bay_ask, (bay, asked, sets, count, now), const struct lab_asked *asked, const uint64_t *sets, size_t count, uint64_t now)
FORWARDS(lab_bay_let_go, (bay, number, now), uint64_t number, uint64_t now)
FORWARDS(lab_bay_leave, (bay, number, now), uint64_t number, uint64_t now)
FORWARDS(lab_bay_take_away, (bay, number, now), uint64_t number, uint64_t now)
FORWARDS(lab_bay_gone, (bay, number, now), uint64_t number, uint64_t now)
FORWARDS(lab_bay_back, (bay, number, high, low, now, needs), uint64_t number, uint64_t high, uint64_t low, uint64_t now, uint64_t *needs)
FORWARDS(lab_bay_time, (bay, now, next), uint64_t now, uint64_t *next)
FORWARDS(lab_bay_stop, (bay, now), uint64_t now)
FORWARDS(lab_bay_note, (bay, number, text, length, position), uint64_t number, const uint8_t *text, size_t length, uint64_t *position)
FORWARDS(lab_bay_look, (bay, place, standing, next), size_t place, struct lab_standing *standing, uint64_t *next)
FORWARDS(lab_bay_keeper, (bay, number, instrument, keeper), uint64_t number, uint32_t instrument, struct lab_standing *keeper)
FORWARDS(lab_bay_waits, (bay, number, set, needs, passed), uint64_t number, size_t set, uint64_t *needs, uint32_t *passed)

uint32_t lab_bay_tell(struct lab_bay *bay, uint64_t done, struct lab_outcome *outcome) {
    struct watched *it = of(bay);
    atomic_fetch_add(&calls, 1);
    if (it && atomic_exchange(&it->busy, 1)) tell("at once: lab_bay_tell while another call runs");
    if (it && done > it->told) tell("told: %llu is given back, and %llu was told last", (unsigned long long)done, (unsigned long long)it->told);
    uint32_t status = ((tells *)real("lab_bay_tell"))(bay, done, outcome);
    if (it) {
        it->last = pthread_self();
        it->done = done;
        if (status == LAB_DONE) it->told = outcome->serial;
    }
    leave(it);
    return status;
}

uint32_t lab_bay_journal(struct lab_bay *bay, uint8_t *text, size_t room, size_t *written, uint64_t *position) {
    struct watched *it = enter(bay, "lab_bay_journal");
    uint32_t status =
        ((uint32_t(*)(struct lab_bay *, uint8_t *, size_t, size_t *, uint64_t *))real("lab_bay_journal"))(bay, text, room, written, position);
    if (it && status == LAB_DONE) {
        pthread_mutex_lock(&all);
        if (!it->is_known) it->durable = *position - *written, it->is_known = 1;
        size_t from = (size_t)(*position - *written - it->durable);
        if (from + *written <= STREAM) memcpy(it->text + from, text, *written), it->length = from + *written;
        pthread_mutex_unlock(&all);
    }
    leave(it);
    return status;
}

uint32_t lab_bay_durable(struct lab_bay *bay, uint64_t position) {
    struct watched *it = enter(bay, "lab_bay_durable");
    if (it && it->is_known && position > it->durable) {
        pthread_mutex_lock(&all);
        size_t more = (size_t)(position - it->durable), taken = more < it->length ? more : it->length;
        if (taken > it->synced) tell("durable: up to %llu, but only up to %llu is synced", (unsigned long long)position, (unsigned long long)(it->durable + it->synced));
        memmove(it->text, it->text + taken, it->length - taken);
        it->length -= taken;
        it->written -= taken < it->written ? taken : it->written;
        it->synced -= taken < it->synced ? taken : it->synced;
        it->durable += taken;
        pthread_mutex_unlock(&all);
    }
    uint32_t status = ((uint32_t(*)(struct lab_bay *, uint64_t))real("lab_bay_durable"))(bay, position);
    leave(it);
    return status;
}

/* All before the text of a new file is durable, so it is the next that has to be written and synced. */
uint32_t lab_bay_turn(struct lab_bay *bay, const struct lab_class *classes, size_t count, uint64_t now, uint8_t *text, size_t room, size_t *written,
                      uint64_t *fault) {
    struct watched *it = enter(bay, "lab_bay_turn");
    uint32_t status = ((uint32_t(*)(struct lab_bay *, const struct lab_class *, size_t, uint64_t, uint8_t *, size_t, size_t *, uint64_t *))real(
        "lab_bay_turn"))(bay, classes, count, now, text, room, written, fault);
    if (it && it->is_known && status == LAB_DONE) {
        pthread_mutex_lock(&all);
        if (*written <= STREAM) memcpy(it->text, text, *written), it->length = *written, it->written = it->synced = 0;
        pthread_mutex_unlock(&all);
    }
    leave(it);
    return status;
}

uint32_t lab_bay_failed(struct lab_bay *bay) {
    struct watched *it = enter(bay, "lab_bay_failed");
    if (it) {
        pthread_mutex_lock(&all);
        it->length = it->written = it->synced = 0;
        pthread_mutex_unlock(&all);
    }
    uint32_t status = ((uint32_t(*)(struct lab_bay *))real("lab_bay_failed"))(bay);
    leave(it);
    return status;
}

uint32_t lab_bay_free(struct lab_bay *bay) {
    struct watched *it = enter(bay, "lab_bay_free");
    uint32_t status = ((uint32_t(*)(struct lab_bay *))real("lab_bay_free"))(bay);
    if (it && status == LAB_DONE) forget(it);
    else leave(it);
    return status;
}

uint32_t lab_bay_open(const struct lab_class *classes, size_t count, const struct lab_terms *terms, struct lab_bay *bay) {
    return ((uint32_t(*)(const struct lab_class *, size_t, const struct lab_terms *, struct lab_bay *))real("lab_bay_open"))(classes, count, terms, bay);
}

uint32_t lab_bay_resume(const struct lab_class *classes, size_t count, const struct lab_terms *terms, const uint8_t *journal, size_t length, uint64_t now,
                        struct lab_bay *bay, size_t *used, uint64_t *fault) {
    return ((uint32_t(*)(const struct lab_class *, size_t, const struct lab_terms *, const uint8_t *, size_t, uint64_t, struct lab_bay *, size_t *,
                         uint64_t *))real("lab_bay_resume"))(classes, count, terms, journal, length, now, bay, used, fault);
}

/* ---- libc: what was written, and what is on the disk. */

/* These bytes were written to the file. They are the next of a bay's journal, or none of its business. */
static void wrote(int file, const char *bytes, ssize_t count) {
    if (count <= 0 || inside) return;
    pthread_mutex_lock(&all);
    for (int at = 0; at < MOST; at++) {
        struct watched *it = &bays[at];
        size_t more = (size_t)count;
        if (!it->at || !it->is_known || more > it->length) continue;
        /* (a text that is written again after a cut begins where the durable ends) */
        for (int again = 0; again < 2; again++) {
            size_t from = again ? 0 : it->written;
            if (from + more <= it->length && !memcmp(it->text + from, bytes, more)) {
                it->written = from + more, it->file = file;
                if (getenv("WATCH_SYNC")) it->synced = it->written;
                break;
            }
        }
    }
    pthread_mutex_unlock(&all);
}

static int synced(int file, int status) {
    if (status || inside) return status;
    pthread_mutex_lock(&all);
    for (int at = 0; at < MOST; at++)
        if (bays[at].at && bays[at].written && bays[at].file == file) bays[at].synced = bays[at].written;
    pthread_mutex_unlock(&all);
    return status;
}

#define NEXT(name) dlsym(RTLD_NEXT, name)

ssize_t write(int file, const void *bytes, size_t count) {
    ssize_t status = ((ssize_t(*)(int, const void *, size_t))NEXT("write"))(file, bytes, count);
    wrote(file, bytes, status);
    return status;
}

ssize_t pwrite(int file, const void *bytes, size_t count, off_t at) {
    ssize_t status = ((ssize_t(*)(int, const void *, size_t, off_t))NEXT("pwrite"))(file, bytes, count, at);
    wrote(file, bytes, status);
    return status;
}

ssize_t pwrite64(int file, const void *bytes, size_t count, off64_t at) {
    ssize_t status = ((ssize_t(*)(int, const void *, size_t, off64_t))NEXT("pwrite64"))(file, bytes, count, at);
    wrote(file, bytes, status);
    return status;
}

int fsync(int file) {
    return synced(file, ((int (*)(int))NEXT("fsync"))(file));
}

int fdatasync(int file) {
    return synced(file, ((int (*)(int))NEXT("fdatasync"))(file));
}

__attribute__((destructor)) static void ends(void) {
    if (calls) tell("calls: %lu", calls);
}
