// The calls that change files, in place of the system's: any of them can fail, or hang.
#include <cerrno>
#include <fcntl.h>
#include <sys/stat.h>
#include <sys/syscall.h>
#include <unistd.h>

// Of those calls that are made from now on, the ones from the first to the last of these fail.
inline std::atomic<long> disk_calls{0}, first_bad{0}, last_bad{0};
inline std::function<void()> meanwhile;            // what happens before one fails, or nothing
inline std::atomic<bool> is_hanging{false};        // a sync doesn't come back as long as this is so
inline std::atomic<int> syncs{0}, folder_syncs{0}; // how many there were
inline std::atomic<int> sync_takes{0};             // microseconds
inline std::atomic<long> interruptions{0};         // so many calls from now on are interrupted by a signal
inline std::atomic<std::size_t> bytes_written{0};

inline void disk(long first, long last) {
    last_bad = 0;
    first_bad = first;
    disk_calls = 0;
    last_bad = last;
}
inline void disk_is_full() { disk(1, 1L << 40); }
inline void disk_is_well() { disk(0, 0); }

inline bool is_interrupted() {
    if (interruptions <= 0 || interruptions-- <= 0) return false;
    errno = EINTR;
    return true;
}

inline bool is_bad() {
    const long at = ++disk_calls;
    if (at < first_bad || at > last_bad) return false;
    if (meanwhile) meanwhile();
    errno = ENOSPC;
    return true;
}

inline void takes_its_time() {
    while (is_hanging) usleep(1000);
    if (sync_takes) usleep(static_cast<unsigned>(sync_takes));
}

extern "C" {
// (half of it is written before the disk is full)
ssize_t pwrite(int file, const void *text, std::size_t length, off_t place) {
    if (is_interrupted()) return -1;
    const bool bad = is_bad();
    const ssize_t wrote = syscall(SYS_pwrite64, file, text, bad ? length / 2 : length, place);
    if (bad) errno = ENOSPC;
    else bytes_written += length;
    return bad ? -1 : wrote;
}
int ftruncate(int file, off_t length) noexcept {
    return is_interrupted() || is_bad() ? -1 : static_cast<int>(syscall(SYS_ftruncate, file, length));
}
int fdatasync(int file) {
    if (is_interrupted()) return -1;
    takes_its_time();
    syncs++;
    return is_bad() ? -1 : static_cast<int>(syscall(SYS_fdatasync, file));
}
int fsync(int file) {
    if (is_interrupted() || is_bad()) return -1;
    struct stat it {};
    folder_syncs += !fstat(file, &it) && S_ISDIR(it.st_mode);
    return static_cast<int>(syscall(SYS_fsync, file));
}
}
