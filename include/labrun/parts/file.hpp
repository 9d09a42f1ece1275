// The file of a journal.
#pragma once
#include "shared.hpp"
#include <algorithm>
#include <cerrno>
#include <cstring>
#include <fcntl.h>
#include <sys/file.h>

namespace labrun::detail {

// Does this again, as long as a signal comes between.
template <class Call> auto unless_interrupted(Call call) {
    auto done = call();
    while (done < 0 && errno == EINTR) done = call();
    return done;
}

// A file that one process has at a time. `syncs`: what was written is on the disk when a call returns, and so is the file's name.
class file {
  public:
    file(const std::string &path, bool syncs) : path_(path), syncs_(syncs) {
        number_ = unless_interrupted([&] { return ::open(path.c_str(), O_RDWR | O_CREAT | O_CLOEXEC, 0666); });
        // (the lock goes with the process, however that ends)
        if (number_ < 0 || flock(number_, LOCK_EX | LOCK_NB)) {
            const int why = errno;
            ::close(number_);
            throw journal_error(path_, why == EWOULDBLOCK ? "another process has it open" : std::strerror(why));
        }
        becomes(0, number_ + 1);
    }
    file(const file &) = delete;
    ~file() {
        becomes(number_ + 1, 0);
        ::close(number_);
    }

    const std::string &path() const { return path_; }

    // All that stands in it.
    std::string text() const {
        std::string all, part(1 << 16, 0);
        for (;;) {
            const ssize_t more = unless_interrupted([&] { return pread(number_, part.data(), part.size(), static_cast<off_t>(all.size())); });
            if (more == 0) return all;
            if (more < 0) throw journal_error(path_, std::strerror(errno));
            all.append(part, 0, static_cast<std::size_t>(more));
        }
    }

    // So much of it counts. That is on the disk, and so is its name (whoever began it may have died before that), and the rest is cut off.
    void counts(std::size_t length) {
        if (syncs_ && !writes_again(length) && errno != ENOSPC) throw not_written(errno);
        whole_ = length;
        if (!cut() || !sync() || !syncs_name()) throw not_written(errno);
    }

    // This stands at its place. No leaves the file as it was, and `errno` says why: it is written again then, to the same place. One thread
    // at a time may call it.
    bool put(std::string_view more, std::size_t place) {
        const bool is_good = writes(more, place);
        const int why = errno;
        if (is_good) whole_ = std::max(whole_, place + more.size());
        else cut();
        errno = why;
        return is_good;
    }

    // What was put there is on the disk. (After one that failed all has to be written again: nobody knows what is on the disk, and a second
    // sync alone would say that all is well.)
    bool sync() const { return !syncs_ || !unless_interrupted([&] { return fdatasync(number_); }); }
    bool syncs() const { return syncs_; }

    journal_error not_written(int why) const { return {path_, "a write failed (" + std::string(std::strerror(why)) + ")"}; }

  private:
    void becomes(int old, int now) const {
        for (std::atomic<int> &it : files)
            if (int found = old; it.compare_exchange_strong(found, now)) return;
    }

    bool cut() const {
        return !unless_interrupted([&] { return ftruncate(number_, static_cast<off_t>(whole_)); });
    }

    bool writes(std::string_view more, std::size_t place) const {
        for (std::size_t at = 0; at < more.size();) {
            const ssize_t wrote =
                unless_interrupted([&] { return pwrite(number_, &more[at], more.size() - at, static_cast<off_t>(place + at)); });
            if (wrote <= 0) return false;
            at += static_cast<std::size_t>(wrote);
        }
        return true;
    }

    // What was found. (If a sync failed before its process was killed, the system may take for written what isn't on the disk: then a sync
    // alone would say that all is well. Where a full disk doesn't take even the same bytes, there is the sync alone.)
    bool writes_again(std::size_t length) const { return writes(text().substr(0, length), 0); }

    bool syncs_name() const {
        if (!syncs_) return true;
        const std::size_t slash = path_.rfind('/');
        const std::string name = slash == std::string::npos ? "." : path_.substr(0, slash + 1);
        const int folder = unless_interrupted([&] { return ::open(name.c_str(), O_RDONLY | O_CLOEXEC); });
        const bool is_good = folder >= 0 && !unless_interrupted([&] { return fsync(folder); });
        if (folder >= 0) ::close(folder);
        return is_good;
    }

    const std::string path_;
    const bool syncs_;
    int number_;
    std::size_t whole_ = 0; // so much of it is whole lines
};

} // namespace labrun::detail
