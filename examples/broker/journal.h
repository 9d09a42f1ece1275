/* A bench's journal in C: a file with the script, a line `steps`, and what each call did. A program that is killed goes on with it.

     journal_open     a new one, or the bench as the file has it
     journal_took     with the bench's mutex held, after each call that does something: what it did is added. It gives a number
     journal_commit   without the mutex, before anybody acts on what that call told: returns once all up to that number is on the disk

   Whoever comes first to journal_commit writes all that is there, and the others find it written: so threads that let go at once pay for
   one write together. If a write fails the program ends; opened again, it goes on from what the file has. */
#include "labrun.h"
#include <errno.h>
#include <fcntl.h>
#include <pthread.h>
#include <stdio.h>
#include <stdlib.h>
#include <string.h>
#include <sys/file.h>
#include <sys/stat.h>
#include <time.h>
#include <unistd.h>

struct journal {
    int file, syncs;
    char *added; /* what isn't written */
    size_t length, room;
    uint64_t given, written; /* how many bytes of the file were added, and how many are on the disk */
    long steps; /* how many lines of these are no comments: with more than a million of them it isn't read again */
    int is_writing;
    pthread_mutex_t lock; /* of what stands above */
    pthread_cond_t changed;
};

static void journal_fails(const char *why) {
    fprintf(stderr, "journal: %s: %s\n", why, strerror(errno));
    exit(74);
}

static void journal_add(struct journal *it, const char *text, size_t length) {
    pthread_mutex_lock(&it->lock);
    if (it->length + length >= it->room) {
        it->room = 2 * (it->length + length) + 1;
        it->added = realloc(it->added, it->room);
        if (!it->added) journal_fails("memory");
    }
    memcpy(it->added + it->length, text, length);
    it->length += length;
    it->added[it->length] = 0;
    it->given += length;
    pthread_mutex_unlock(&it->lock);
}

static uint64_t journal_took(struct journal *it, struct lab_bench *bench) {
    static uint8_t *text; /* (used with the bench's mutex held) */
    static size_t room;
    size_t length = 0;
    while (lab_journal(bench, text ? text : (uint8_t *)"", room, &length) == LAB_NO_ROOM) {
        room = 2 * length;
        text = realloc(text, room);
        if (!text) journal_fails("memory");
    }
    if (length) {
        char when[40];
        time_t now = time(NULL);
        struct tm parts;
        journal_add(it, when, strftime(when, sizeof when, "# %Y-%m-%dT%H:%M:%SZ\n", gmtime_r(&now, &parts)));
        journal_add(it, (const char *)text, length);
    }
    pthread_mutex_lock(&it->lock);
    uint64_t number = it->given;
    pthread_mutex_unlock(&it->lock);
    return number;
}

static void journal_commit(struct journal *it, uint64_t number) {
    pthread_mutex_lock(&it->lock);
    while (it->written < number) {
        if (it->is_writing) {
            pthread_cond_wait(&it->changed, &it->lock);
            continue;
        }
        char *text = it->added;
        size_t length = it->length, at = 0;
        uint64_t end = it->written;
        it->is_writing = 1;
        it->added = NULL;
        it->length = it->room = 0;
        pthread_mutex_unlock(&it->lock);
        for (size_t line = 0; end && line < length; line += strcspn(text + line, "\n") + 1) it->steps += text[line] != '#';
        if (it->steps > 1000000 || end + length > 16777216) {
            errno = EFBIG;
            journal_fails("it is full");
        }
        while (at < length) {
            ssize_t wrote = pwrite(it->file, text + at, length - at, (off_t)(end + at));
            if (wrote < 0 && errno != EINTR) journal_fails("a write failed");
            if (wrote > 0) at += (size_t)wrote;
        }
        if (it->syncs && fdatasync(it->file)) journal_fails("a write failed");
        free(text);
        pthread_mutex_lock(&it->lock);
        it->written += length;
        it->is_writing = 0;
        pthread_cond_broadcast(&it->changed);
    }
    pthread_mutex_unlock(&it->lock);
}

/* A new file's name is on the disk too, before anything that it tells is acted on. */
static void journal_name_stays(const char *path) {
    char *folder = strdup(path);
    if (!folder) journal_fails("memory");
    char *last = strrchr(folder, '/');
    if (last) last[last == folder] = 0;
    int at = open(last ? folder : ".", O_RDONLY | O_DIRECTORY | O_CLOEXEC);
    if (at < 0 || fsync(at) || close(at)) journal_fails(path);
    free(folder);
}

/* Opens the bench of the script with its journal. Whether the file had one; the program ends if it can't be used. */
static int journal_open(struct journal *it, const char *path, int syncs, const char *script, struct lab_bench *bench) {
    struct lab_told told = {0, 0, 0};
    struct stat found;
    size_t length = strlen(script), head = length + 6 + (script[length ? length - 1 : 0] != '\n');
    memset(it, 0, sizeof *it);
    it->syncs = syncs;
    pthread_mutex_init(&it->lock, NULL);
    pthread_cond_init(&it->changed, NULL);
    it->file = open(path, O_RDWR | O_CREAT | O_CLOEXEC, 0666);
    if (it->file < 0 || fstat(it->file, &found)) journal_fails(path);
    if (flock(it->file, LOCK_EX | LOCK_NB)) journal_fails("another process has it open");
    size_t there = (size_t)found.st_size;
    char *text = malloc(there > head ? there + 1 : head + 1), *begins = malloc(head + 1);
    if (!text || !begins) journal_fails("memory");
    snprintf(begins, head + 1, "%s%ssteps\n", script, head > length + 6 ? "\n" : "");
    for (size_t at = 0; at < there;) {
        ssize_t more = pread(it->file, text + at, there - at, (off_t)at);
        if (more <= 0) journal_fails(path);
        at += (size_t)more;
    }
    if (memcmp(text, begins, there < head ? there : head) != 0) {
        fprintf(stderr, "journal: %s is of another script\n", path);
        exit(1);
    }
    int is_there = there >= head;
    uint32_t status = is_there ? lab_bench_resume((const uint8_t *)text, there, bench, &told)
                               : lab_bench_open_kept((const uint8_t *)script, length, bench, &told);
    if (status != LAB_DONE) {
        fprintf(stderr, "%s: status %u, line %zu, cause %u\n", is_there ? path : "the script", status, told.line, told.cause);
        exit(1);
    }
    it->given = it->written = is_there ? told.written : 0;
    for (size_t at = head; at < it->written; at++) it->steps += text[at] != '#' && text[at - 1] == '\n';
    if (ftruncate(it->file, (off_t)it->written)) journal_fails(path); /* what hangs over */
    if (!is_there) journal_add(it, begins, head);
    if (!is_there && syncs) journal_name_stays(path);
    journal_commit(it, journal_took(it, bench));
    free(text);
    free(begins);
    return is_there;
}
