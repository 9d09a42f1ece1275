/* A disk for a program that is to die: it is linked in front of the program's pwrite, fsync and ftruncate (kills).

     cc .. checks/bay/dies.c -Wl,--wrap=pwrite -Wl,--wrap=fsync -Wl,--wrap=ftruncate

     DIES="CALL N HOW; .."   at the Nth call of this kind (write, sync, cut): it kills itself `before`; in the `middle` (of a write, when half
                             of the bytes are in the file; of a sync, as a power cut that leaves half of what wasn't synced); or `behind`. Or
                             the call `fails`: of a write half of the bytes go in, and then the disk is full for two more calls. Or a sync
                             `hangs` for ever
     SYNCED=FILE             what a power cut would leave: how many bytes of the file were synced, and whether its folder was; and which bytes
                             a sync that failed has lost (from one more than there, 0 for none; to there): no later sync brings them to the
                             disk, unless they are written again, by this process or the next; 8 bytes each
     SLOW=N                  a sync takes up to so many microseconds */
#define _DEFAULT_SOURCE
#include <errno.h>
#include <fcntl.h>
#include <signal.h>
#include <stdint.h>
#include <stdio.h>
#include <stdlib.h>
#include <string.h>
#include <sys/stat.h>
#include <unistd.h>

ssize_t __real_pwrite(int file, const void *bytes, size_t length, off_t at);
int __real_fsync(int file);
int __real_ftruncate(int file, off_t length);
ssize_t __wrap_pwrite(int file, const void *bytes, size_t length, off_t at);
int __wrap_fsync(int file);
int __wrap_ftruncate(int file, off_t length);

static long writes, syncs, cuts;
static int is_full;

/* How the call ends that is the one of this number; an empty text if nothing is said of it. */
static const char *how_ends(const char *call, long number) {
    static char how[16];
    char name[16];
    long its;
    for (const char *at = getenv("DIES"); at && *at; at += strcspn(at, ";"), at += *at == ';')
        if (sscanf(at, "%15s %ld %15[a-z]", name, &its, how) == 3 && strcmp(name, call) == 0 && its == number) return how;
    return "";
}

static void dies_if(int is_so) {
    if (!is_so) return;
    kill(getpid(), SIGKILL);
    for (;;) pause();
}

static int refuses(int why) {
    errno = why;
    return -1;
}

static uint64_t synced(off_t at) {
    uint64_t found = 0;
    int file = open(getenv("SYNCED"), O_RDONLY | O_CLOEXEC);
    if (file >= 0 && pread(file, &found, sizeof found, at) < 0) abort();
    if (file >= 0) close(file);
    return found;
}

static void is_synced(off_t at, uint64_t what) {
    int file = open(getenv("SYNCED"), O_WRONLY | O_CREAT | O_CLOEXEC, 0666);
    if (file < 0 || __real_pwrite(file, &what, sizeof what, at) != sizeof what || close(file)) abort();
}

/* These bytes were written, or cut off. (What is cut off behind the first that are lost is lost no more.) */
static void are_anew(off_t from, off_t to) {
    uint64_t first = synced(16);
    if (first && to == INT64_MAX && (uint64_t)from < synced(24)) is_synced(24, (uint64_t)from);
    if (first && (uint64_t)from < first && synced(24) <= (uint64_t)to) is_synced(16, 0);
}

ssize_t __wrap_pwrite(int file, const void *bytes, size_t length, off_t at) {
    const char *how = how_ends("write", ++writes);
    if (is_full > 0) return is_full--, refuses(ENOSPC);
    dies_if(strcmp(how, "before") == 0);
    int by_half = strcmp(how, "middle") == 0, fails = strcmp(how, "fails") == 0;
    ssize_t wrote = __real_pwrite(file, bytes, by_half || fails ? (length + 1) / 2 : length, at);
    if (wrote > 0) are_anew(at, at + wrote);
    dies_if(by_half || strcmp(how, "behind") == 0);
    if (fails) is_full = 2;
    return wrote;
}

int __wrap_fsync(int file) {
    const char *how = how_ends("sync", ++syncs), *slow = getenv("SLOW");
    struct stat found;
    if (fstat(file, &found)) abort();
    dies_if(strcmp(how, "before") == 0);
    if (slow) usleep((useconds_t)(rand() % (atoi(slow) + 1)));
    while (strcmp(how, "hangs") == 0) pause();
    if (strcmp(how, "fails") == 0) {
        if (S_ISREG(found.st_mode) && synced(0) < (uint64_t)found.st_size) is_synced(24, (uint64_t)found.st_size), is_synced(16, synced(0) + 1);
        return refuses(EIO);
    }
    if (strcmp(how, "middle") == 0) {
        off_t stays = (off_t)synced(0);
        if (S_ISREG(found.st_mode) && stays < found.st_size && __real_ftruncate(file, stays + (found.st_size - stays) / 2)) abort();
        dies_if(1);
    }
    int status = __real_fsync(file);
    if (S_ISREG(found.st_mode)) is_synced(0, synced(16) ? synced(16) - 1 : (uint64_t)found.st_size);
    else is_synced(8, 1);
    dies_if(strcmp(how, "behind") == 0);
    return status;
}

int __wrap_ftruncate(int file, off_t length) {
    const char *how = how_ends("cut", ++cuts);
    dies_if(strcmp(how, "before") == 0);
    if (strcmp(how, "fails") == 0) return refuses(EIO);
    int status = __real_ftruncate(file, length);
    are_anew(length, INT64_MAX);
    dies_if(strcmp(how, "behind") == 0 || strcmp(how, "middle") == 0);
    return status;
}
