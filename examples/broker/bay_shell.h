/* What a shell of the bay in C (bay.c) has of the world: a clock, and the file of the journal. The calls on the file but `file_open` answer
   whether it was done. */
#include <errno.h>
#include <fcntl.h>
#include <stdint.h>
#include <stdio.h>
#include <stdlib.h>
#include <string.h>
#include <sys/file.h>
#include <sys/stat.h>
#include <time.h>
#include <unistd.h>

struct shell_file {
    int file;
    int is_torn;     /* there is more in it than `length`, and it has to be cut off */
    uint64_t length; /* how much of it is on the disk for good */
};

static void fails(const char *what, const char *why) {
    fprintf(stderr, "%s: %s\n", what, why);
    exit(74);
}

/* Milliseconds by the clock on the wall: the journal has moments, and whoever reads it after a restart counts on from there. (If somebody
   sets the clock back the bay's time stands, as the bay takes no moment that is before the last one.) */
static uint64_t now(void) {
    struct timespec it;
    clock_gettime(CLOCK_REALTIME, &it);
    return (uint64_t)it.tv_sec * 1000 + (uint64_t)it.tv_nsec / 1000000;
}

static void pause_for(uint64_t milliseconds) {
    struct timespec it = {(time_t)(milliseconds / 1000), (long)(milliseconds % 1000) * 1000000};
    nanosleep(&it, NULL);
}

/* What the file has, with a zero behind it; a new file has nothing. The program ends if it can't be read, or is another's. */
static char *file_open(struct shell_file *it, const char *path, size_t *length) {
    struct stat found;
    *it = (struct shell_file){.file = open(path, O_RDWR | O_CREAT | O_CLOEXEC, 0666)};
    if (it->file < 0) fails(path, strerror(errno));
    /* (two shells of one file would each let somebody in; the lock goes with the process, however that ends) */
    if (flock(it->file, LOCK_EX | LOCK_NB)) fails(path, "another process has it");
    if (fstat(it->file, &found)) fails(path, strerror(errno));
    *length = (size_t)found.st_size;
    char *text = calloc(*length + 1, 1);
    if (!text) fails(path, "no memory");
    for (size_t at = 0; at < *length;) {
        ssize_t more = pread(it->file, text + at, *length - at, (off_t)at);
        if (more <= 0) fails(path, more ? strerror(errno) : "it became shorter");
        at += (size_t)more;
    }
    return text;
}

static int file_cut(struct shell_file *it, uint64_t length) {
    it->length = length;
    it->is_torn = ftruncate(it->file, (off_t)length) != 0;
    return !it->is_torn;
}

/* What the file has is on the disk. */
static int file_sync(struct shell_file *it) {
    return fsync(it->file) == 0;
}

/* Its name is, too: a file that was begun can be gone after a power cut as long as its folder isn't on the disk. */
static int file_sync_name(const char *path) {
    char *folder = strdup(path);
    if (!folder) return 0;
    char *last = strrchr(folder, '/');
    if (last) last[last == folder] = 0;
    int at = open(last ? folder : ".", O_RDONLY | O_DIRECTORY | O_CLOEXEC);
    int is_done = at >= 0 && fsync(at) == 0;
    if (at >= 0) close(at);
    free(folder);
    return is_done;
}

/* The text stands there, if not on the disk yet. */
static int file_put(const struct shell_file *it, const uint8_t *text, size_t length, uint64_t place) {
    for (size_t at = 0; at < length;) {
        ssize_t wrote = pwrite(it->file, text + at, length - at, (off_t)(place + at));
        if (wrote < 0 && errno == EINTR) continue;
        if (wrote <= 0) return 0;
        at += (size_t)wrote;
    }
    return 1;
}

/* The text is behind the others, and on the disk. If that fails, the file is cut back to what it had: whoever reads it finds nothing that
   was refused, and nothing new is written behind half a line. (If the cut fails too, it comes before the next text.) */
static int file_add(struct shell_file *it, const uint8_t *text, size_t length) {
    if (it->is_torn && !file_cut(it, it->length)) return 0;
    /* (after an fsync that fails nobody knows what is on the disk, and a second one would say that all is well: so the same text is written
       again) */
    if (!file_put(it, text, length, it->length) || !file_sync(it)) {
        file_cut(it, it->length);
        return 0;
    }
    it->length += length;
    return 1;
}
