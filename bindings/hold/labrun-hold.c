/* labrun-hold: waits for instruments of a labrun-broker of this machine, runs a command while it holds them, and lets go.

       cc -O2 -o labrun-hold labrun-hold.c -lm

   It does as `labrun-broker hold` does, without Python: it asks by HTTP at a Unix socket (labrun-broker serve --http), and has the same
   statuses. One loop waits for everything: signals, the broker's answers, and time. */
#define _GNU_SOURCE
#include <ctype.h>
#include <dirent.h>
#include <errno.h>
#include <fcntl.h>
#include <inttypes.h>
#include <limits.h>
#include <math.h>
#include <poll.h>
#include <pwd.h>
#include <signal.h>
#include <stdarg.h>
#include <stdbool.h>
#include <stdio.h>
#include <stdlib.h>
#include <string.h>
#include <sys/prctl.h>
#include <sys/random.h>
#include <sys/signalfd.h>
#include <sys/socket.h>
#include <sys/stat.h>
#include <sys/un.h>
#include <sys/wait.h>
#include <time.h>
#include <unistd.h>

enum { USAGE = 2, NO_FILE = 66, UNREACHABLE = 69, NOT_WRITTEN = 74, TIMED_OUT = 75, TAKEN = 76, MAY_NOT = 77, CANT_RUN = 126, NOT_FOUND = 127 };
/* seconds: that a broker may take to begin; that one which was there may be away; between two tries; that an answer may be late; after which it
   is said that the broker isn't told, or what still runs; between two looks at what still runs; that a broker which is there may say nothing to
   a new client; since an ask, after which its answer may be an old one */
static const double STARTING = 5, AWAY = 60, PAUSE = 0.3, LATE = 10, LATE_END = 2, UNTOLD = 1.5, TELLING = 1, LOOK = 0.02;
static const double FIRST = 30, FIRST_WORD = 0.3, AGAIN = 60, LONG = 30, SILENCE = 8, FRESH = 1;
/* seconds that a line is waited for to be taken by standard error */
static const double MOMENT = 0.1;
/* what is said of a session whose client waited, and gave up at a broker that is there and says nothing */
static const char NOTHING_HELD[] = "nothing is held: should it go on, it finds that nobody waits any more";
static const char DEFAULT[] = "unix:/run/labrun/bay.sock";
static const char HELP[] =
    "usage: labrun-hold INSTRUMENT .. [options] -- COMMAND [ARGUMENT ..]\n\n"
    "waits for instruments, runs a command while it holds them, and lets go\n\n"
    "  --any              one of these is enough; with a comma, as in load-1,load-2, a choice has several\n"
    "  --timeout SECONDS  how long to wait for them at most\n"
    "  -n, --no-wait      take what is free, as with --timeout 0\n"
    "  --urgent           once it waits, nobody who asks later goes before it, nor before anybody who waits with it\n"
    "  --station NAME     as which station; a guest without\n"
    "  --by TEXT          who holds, for people to read; user, machine and command without\n"
    "  --quiet            don't say for whom it waits\n"
    "  --token-file FILE  your token, for a broker that asks who you are; without, LABRUN_BROKER_TOKEN_FILE says where it is\n"
    "  --broker ADDR      unix:PATH; without, LABRUN_BROKER says it, or it is unix:/run/labrun/bay.sock. If there is a socket\n"
    "                     PATH.http, it is asked there: labrun-broker serve BAY --listen unix:PATH --http unix:PATH.http\n\n"
    "statuses: that of the command, or 128 and the number of the signal that ended it; 1 the broker said no, or this can't be written; 2\n"
    "the words aren't right; 66 the token's file can't be read, or no token is in it; 69 the broker can't be reached; 74 it couldn't\n"
    "write; 75 the time limit passed; 76 the session was taken away, and if the command ran already, it got SIGTERM; 77 the station, a\n"
    "guest or you may not use one of the instruments; 126 and 127 the command can't be run, or isn't there; 130 Ctrl-C\n";

/* Seconds, by a clock that goes on while the machine sleeps. */
static double now(void) {
    struct timespec it;
    clock_gettime(CLOCK_BOOTTIME, &it);
    return (double)it.tv_sec + (double)it.tv_nsec / 1e9;
}

/* ---- standard error: whoever reads it, or doesn't, changes nothing of what is done */

/* the signals that a write may send, and what the command is to do with them */
static const int of_writes[] = {SIGPIPE, SIGXFSZ};
enum { OF_WRITES = sizeof of_writes / sizeof *of_writes };
static struct sigaction for_command[OF_WRITES];
static int errors = STDERR_FILENO;
static bool is_full, has_no_end; /* whether it took nothing, when last it was asked; whether it took the beginning of a line, and not its end */

/* The numbers of closed streams are taken: else a socket would get one, and what is said would go to the broker. */
static void open_streams(void) {
    for (int at = 0; at <= STDERR_FILENO; at++)
        if (fcntl(at, F_GETFD) < 0 && open("/dev/null", at == STDOUT_FILENO ? O_RDONLY : O_RDWR) < 0)
            return;
}

/* Of a pipe or a terminal this program has an end of its own, which never waits: the command may fill it just before a write. */
static void open_errors(void) {
    struct stat is;
    bool may_wait = fstat(STDERR_FILENO, &is) == 0 && (S_ISFIFO(is.st_mode) || isatty(STDERR_FILENO));
    bool is_written = (fcntl(STDERR_FILENO, F_GETFL) & O_ACCMODE) != O_RDONLY;
    int own = may_wait && is_written ? open("/proc/self/fd/2", O_WRONLY | O_NONBLOCK | O_NOCTTY | O_CLOEXEC) : -1;
    if (own >= 0)
        errors = own;
}

static void ignore_writes(void) {
    for (int n = 0; n < OF_WRITES; n++)
        sigaction(of_writes[n], &(struct sigaction){.sa_handler = SIG_IGN}, &for_command[n]);
}

/* As much as a pipe has room for if it has any. */
static ssize_t write_some(const char *from, size_t length) {
    size_t some = length < PIPE_BUF ? length : PIPE_BUF;
    ssize_t count = send(errors, from, some, MSG_DONTWAIT | MSG_NOSIGNAL);
    return count < 0 && errno == ENOTSOCK ? write(errors, from, some) : count;
}

/* What isn't taken within a moment is lost; where the line before was, too, there is no wait. */
static void write_line(const char *line, size_t length) {
    double end = is_full ? 0 : now() + MOMENT;
    size_t written = 0;
    for (is_full = false; written < length && !is_full;) {
        struct pollfd it = {.fd = errors, .events = POLLOUT};
        ssize_t count = -1;
        errno = EAGAIN;
        if (poll(&it, 1, (int)ceil(fmax(0, end - now()) * 1000)) > 0)
            count = write_some(line + written, length - written);
        if (count < 0 && errno != EAGAIN && errno != EINTR)
            break;
        written += count > 0 ? (size_t)count : 0;
        is_full = count <= 0 && now() >= end;
    }
    if (written > 0)
        has_no_end = written < length;
}

/* ---- texts */

struct text {
    char *at;
    size_t length, room;
};

static void *whole(void *it) {
    static const char none[] = "labrun-hold: there is no memory\n";
    if (it == NULL) {
        write_line(none, sizeof none - 1);
        exit(1);
    }
    return it;
}

static void put(struct text *to, const char *from, size_t length) {
    if (to->length + length + 1 > to->room) {
        to->room = 2 * (to->length + length) + 64;
        to->at = whole(realloc(to->at, to->room));
    }
    memcpy(to->at + to->length, from, length);
    to->length += length;
    to->at[to->length] = 0;
}

__attribute__((format(printf, 2, 3))) static void putf(struct text *to, const char *format, ...) {
    va_list given;
    char *made = NULL;
    va_start(given, format);
    int length = vasprintf(&made, format, given);
    va_end(given);
    if (length < 0)
        whole(NULL);
    put(to, made, (size_t)length);
    free(made);
}

/* The character that begins there, and how many bytes it has; of what is no UTF-8, one byte and -1. */
static long character(const char *at, size_t *length) {
    const unsigned char *it = (const unsigned char *)at;
    size_t more = it[0] < 0x80 ? 0 : it[0] >= 0xc2 && it[0] < 0xe0 ? 1 : it[0] >= 0xe0 && it[0] < 0xf0 ? 2 : it[0] >= 0xf0 && it[0] < 0xf5 ? 3 : 9;
    long found = more == 0 ? it[0] : more == 9 ? -1 : it[0] & (0x3f >> more);
    *length = 1;
    for (size_t n = 1; found >= 0 && more < 9 && n <= more; n++) {
        if ((it[n] & 0xc0) != 0x80)
            return -1;
        found = found << 6 | (it[n] & 0x3f);
    }
    if (found < 0 || found > 0x10ffff || (found >= 0xd800 && found < 0xe000) || (more == 2 && found < 0x800) || (more == 3 && found < 0x10000))
        return -1;
    *length = 1 + more;
    return found;
}

/* A text as JSON has it. */
static void put_json(struct text *to, const char *from) {
    put(to, "\"", 1);
    for (size_t length; *from; from += length) {
        long it = character(from, &length);
        if (it < 0)
            put(to, "?", 1);
        else if (it < 0x20 || it == '"' || it == '\\')
            putf(to, "\\u%04lx", it);
        else
            put(to, from, length);
    }
    put(to, "\"", 1);
}

/* A text of somebody else, for a terminal: nothing in it moves the cursor, or turns what follows. */
static void put_plain(struct text *to, const char *from) {
    for (size_t length; *from; from += length) {
        long it = character(from, &length);
        bool is_odd = it < 0x20 || (it >= 0x7f && it < 0xa0) || (it >= 0x200b && it < 0x2010) || (it >= 0x2028 && it < 0x2030) ||
                      (it >= 0x2060 && it < 0x2070) || it == 0xad || it == 0xfeff || it >= 0xe0000;
        if (is_odd)
            putf(to, it < 0 ? "\\x%02lx" : it < 0x100 ? "\\x%02lx" : "\\u%04lx", it < 0 ? (long)(unsigned char)*from : it);
        else
            put(to, from, length);
    }
}

__attribute__((format(printf, 1, 2))) static void say(const char *format, ...) {
    va_list given;
    char *made = NULL;
    struct text line = {0};
    va_start(given, format);
    if (vasprintf(&made, format, given) < 0)
        whole(NULL);
    va_end(given);
    putf(&line, "%slabrun-hold: ", has_no_end ? "\n" : "");
    put_plain(&line, made);
    put(&line, "\n", 1);
    write_line(line.at, line.length);
    free(made);
    free(line.at);
}

/* ---- JSON that comes */

static const char *over_space(const char *at) {
    return at + strspn(at, " \t\r\n");
}

/* Behind a value; NULL: there is none. */
static const char *over_value(const char *at, int depth) {
    at = over_space(at);
    if (*at == '"') {
        for (at++; *at && *at != '"'; at++)
            if (*at == '\\' && at[1])
                at++;
        return *at ? at + 1 : NULL;
    }
    if (*at != '{' && *at != '[') {
        size_t length = strcspn(at, ",]} \t\r\n");
        return length ? at + length : NULL;
    }
    char end = *at == '{' ? '}' : ']';
    at = over_space(at + 1);
    while (*at && *at != end) {
        if (depth == 0 || (at = over_value(at, depth - 1)) == NULL)
            return NULL;
        at = over_space(at);
        if (*at == ',' || *at == ':')
            at = over_space(at + 1);
    }
    return *at ? at + 1 : NULL;
}

/* The value of a key of an object; NULL: it has none. */
static const char *value_of(const char *object, const char *key) {
    const char *at = over_space(object);
    if (*at != '{')
        return NULL;
    for (at = over_space(at + 1); *at == '"';) {
        const char *behind = over_value(at, 1);
        if (behind == NULL)
            return NULL;
        bool is_it = (size_t)(behind - at - 2) == strlen(key) && strncmp(at + 1, key, strlen(key)) == 0;
        at = over_space(behind);
        if (*at != ':')
            return NULL;
        if (is_it)
            return over_space(at + 1);
        if ((at = over_value(at + 1, 20)) == NULL)
            return NULL;
        at = over_space(at);
        if (*at == ',')
            at = over_space(at + 1);
    }
    return NULL;
}

static void put_character(struct text *to, unsigned long it) {
    static const unsigned char heads[] = {0, 0xc0, 0xe0, 0xf0};
    char made[4];
    size_t more = it < 0x80 ? 0 : it < 0x800 ? 1 : it < 0x10000 ? 2 : 3;
    for (size_t n = more; n > 0; n--, it >>= 6)
        made[n] = (char)(0x80 | (it & 0x3f));
    made[0] = (char)(heads[more] | it);
    put(to, made, more + 1);
}

static unsigned long of_hex(const char *at) {
    char digits[5] = {0};
    strncpy(digits, at, 4);
    return strtoul(digits, NULL, 16);
}

/* A text; nothing, if the value is none. Whoever asks frees it. */
static char *text_of(const char *value) {
    struct text found = {0};
    put(&found, "", 0);
    if (value == NULL || *value != '"')
        return found.at;
    for (const char *at = value + 1; *at && *at != '"'; at++) {
        if (*at != '\\') {
            put(&found, at, 1);
            continue;
        }
        const char *known = at[1] ? strchr("b\bf\fn\nr\rt\t\"\"\\\\//", at[1]) : NULL;
        if (at[1] == 'u' && strlen(at) >= 6) {
            unsigned long it = of_hex(at + 2);
            at += 5;
            if (it >= 0xd800 && it < 0xdc00 && at[1] == '\\' && at[2] == 'u' && strlen(at) >= 7) {
                it = 0x10000 + ((it - 0xd800) << 10) + (of_hex(at + 3) & 0x3ff);
                at += 6;
            }
            put_character(&found, it ? it : 0xfffd);
        } else if (known != NULL && *++at)
            put(&found, known + 1, 1);
    }
    return found.at;
}

/* A number; NAN if the value is none. */
static double number_of(const char *value) {
    return value != NULL && (isdigit((unsigned char)*value) || *value == '-') ? strtod(value, NULL) : (double)NAN;
}

/* ---- what is asked for, and what goes on */

static struct {
    char **instruments, **command, *station, *by, *broker, *token_file;
    int count;
    bool any, urgent, quiet;
    double timeout; /* NAN: none */
} wish = {.timeout = NAN};

/* Where labrun-broker asks, too, that is told no address. */
static const char *usual_broker(void) {
    const char *given = getenv("LABRUN_BROKER");
    return given != NULL && *given ? given : DEFAULT;
}

static char ticket[65], own_token[8192], path[sizeof((struct sockaddr_un){0}.sun_path)];
static sigset_t before; /* the signals that were blocked */
static int signals = -1;
/* what came before there was a command; the command, and its status (-1: it runs); when it began, as /proc says it */
static int came;
static pid_t command;
static int status = -1;
static unsigned long long since;
static bool were_sent, is_taken, is_let_in = true, is_telling, is_untold;
static double says_at = INFINITY; /* when it is said that the command goes on after a signal */
static int why_none; /* why the command couldn't be run, as long as that isn't said */

/* ---- the command, and all processes that come of it */

struct process {
    pid_t number, parent;
    unsigned long long begun;
    bool has_ended, is_own;
    char name[16];
};

static bool read_process(const char *number, struct process *it) {
    char where[64], line[1024];
    snprintf(where, sizeof where, "/proc/%.20s/stat", number);
    int file = open(where, O_RDONLY | O_CLOEXEC);
    if (file < 0)
        return false;
    ssize_t length = read(file, line, sizeof line - 1);
    close(file);
    line[length < 0 ? 0 : length] = 0;
    char *begin = strchr(line, '('), *end = strrchr(line, ')'), state = 0;
    int parent = 0;
    if (begin == NULL || end == NULL ||
        sscanf(end + 1, " %c %d %*s %*s %*s %*s %*s %*s %*s %*s %*s %*s %*s %*s %*s %*s %*s %*s %*s %llu", &state, &parent, &it->begun) != 3)
        return false;
    *end = 0;
    snprintf(it->name, sizeof it->name, "%s", begin + 1);
    it->number = (pid_t)strtol(number, NULL, 10);
    it->parent = parent;
    it->has_ended = state == 'Z' || state == 'X';
    it->is_own = false;
    return true;
}

/* All processes that go on and come of the command. (This process may have other children: what became it began them.) */
static size_t family(struct process **found) {
    struct process *all = NULL, it;
    size_t count = 0, own = 0;
    DIR *folder = opendir("/proc");
    for (struct dirent *entry; folder != NULL && (entry = readdir(folder)) != NULL;)
        if (isdigit((unsigned char)entry->d_name[0]) && read_process(entry->d_name, &it)) {
            if (count % 256 == 0)
                all = whole(realloc(all, (count + 256) * sizeof *all));
            all[count++] = it;
        }
    if (folder != NULL)
        closedir(folder);
    for (bool has_more = true; has_more;) {
        has_more = false;
        for (size_t at = 0; at < count; at++) {
            bool is_one = all[at].parent == getpid() && all[at].begun >= since;
            for (size_t n = 0; n < count && !is_one; n++)
                is_one = all[n].is_own && all[n].number == all[at].parent;
            has_more |= is_one && !all[at].is_own;
            all[at].is_own |= is_one;
        }
    }
    for (size_t at = 0; at < count; at++)
        if (all[at].is_own && !all[at].has_ended)
            all[own++] = all[at];
    *found = all;
    return own;
}

static void is_sent(void) {
    were_sent = true;
    if (isinf(says_at))
        says_at = now() + TELLING;
}

static void send_all(int number) {
    struct process *its;
    is_sent();
    for (size_t count = family(&its), at = 0; at < count; at++)
        kill(its[at].number, number);
    free(its);
}

/* `what` is said of them, if it isn't NULL. */
static bool still_run(const char *what) {
    struct process *its;
    struct text names = {0};
    size_t count = family(&its);
    for (size_t at = 0; at < count && what != NULL; at++)
        putf(&names, "%s%d %s", at ? ", " : "", (int)its[at].number, its[at].name);
    if (count > 0 && what != NULL)
        say("waits until %s: %s", what, names.at);
    free(names.at);
    free(its);
    return count > 0;
}

static void reap(void) {
    int how;
    for (pid_t one; (one = waitpid(-1, &how, WNOHANG)) > 0;)
        if (one == command && status < 0)
            status = WIFSIGNALED(how) ? 128 + WTERMSIG(how) : WEXITSTATUS(how);
}

static void is_sent_on(int number) {
    if (status < 0 && number == SIGINT && isatty(0) && tcgetpgrp(0) == getpgrp())
        is_sent(); /* a terminal sends it to all of its foreground */
    else /* (a shell lets what it starts in the background ignore Ctrl-C) */
        send_all(status >= 0 && (number == SIGINT || number == SIGQUIT) ? SIGTERM : number);
}

/* What has come. Before there is a command, and while the broker is told of its end, it is kept in `came`. */
static void take_signals(void) {
    struct signalfd_siginfo it;
    while (read(signals, &it, sizeof it) == (ssize_t)sizeof it) {
        int number = (int)it.ssi_signo;
        if (number == SIGCHLD)
            reap();
        else if (command > 0 && !is_telling)
            is_sent_on(number);
        else
            came = number;
    }
}

/* ---- one request */

struct talk {
    int socket;
    struct text sent, heard;
    size_t written;
    double at, until; /* when it was sent, and how long its answer may take */
    bool is_cut;      /* its connection ended before the answer */
    bool is_at_once;  /* it wants its answer without a wait */
};

enum outcome { PENDING, ANSWERED, LOST, ABSENT };
static int why_not; /* of the last call that couldn't be made */

static void hang_up(struct talk *it) {
    if (it->socket >= 0)
        close(it->socket);
    free(it->sent.at);
    free(it->heard.at);
    *it = (struct talk){.socket = -1};
}

/* ABSENT: nobody listens there. */
static enum outcome call(struct talk *it, const char *method, const char *rest, const char *body, double span) {
    struct sockaddr_un to = {.sun_family = AF_UNIX};
    hang_up(it);
    memcpy(to.sun_path, path, sizeof path);
    it->at = now();
    it->until = it->at + span;
    putf(&it->sent, "%s /v1/sessions%s HTTP/1.1\r\nHost: localhost\r\nConnection: close\r\n", method, rest);
    if (*own_token)
        putf(&it->sent, "Authorization: Bearer %s\r\n", own_token);
    putf(&it->sent, "Content-Type: application/json\r\nContent-Length: %zu\r\n\r\n%s", strlen(body), body);
    it->socket = socket(AF_UNIX, SOCK_STREAM | SOCK_CLOEXEC | SOCK_NONBLOCK, 0);
    if (it->socket >= 0 && connect(it->socket, (struct sockaddr *)&to, sizeof to) == 0)
        return PENDING;
    why_not = errno;
    hang_up(it);
    return why_not == ENOENT || why_not == ECONNREFUSED ? ABSENT : LOST;
}

static bool is_whole(const struct talk *it) {
    const char *end = it->heard.at ? strstr(it->heard.at, "\r\n\r\n") : NULL, *length = it->heard.at ? strcasestr(it->heard.at, "\r\ncontent-length:") : NULL;
    return end != NULL && length != NULL && length < end && (size_t)(end + 4 - it->heard.at) + strtoul(length + 17, NULL, 10) <= it->heard.length;
}

/* As much of it as goes without waiting. */
static void send_some(struct talk *it) {
    ssize_t count;
    while (it->written < it->sent.length && (count = send(it->socket, it->sent.at + it->written, it->sent.length - it->written, MSG_NOSIGNAL)) > 0)
        it->written += (size_t)count;
}

/* The same, and then what there is of its answer. */
static enum outcome goes_on(struct talk *it) {
    char some[4096];
    ssize_t count;
    send_some(it);
    while ((count = recv(it->socket, some, sizeof some, 0)) > 0 && it->heard.length < 1 << 20)
        put(&it->heard, some, (size_t)count);
    if (is_whole(it))
        return ANSWERED;
    it->is_cut = count == 0 || (count < 0 && errno != EAGAIN && errno != EINTR) || it->heard.length >= 1 << 20;
    return it->is_cut || now() > it->until ? LOST : PENDING;
}

static int status_of(const struct talk *it) {
    return strncmp(it->heard.at, "HTTP/1.", 7) == 0 ? atoi(it->heard.at + 9) : 0;
}

static const char *body_of(const struct talk *it) {
    return strstr(it->heard.at, "\r\n\r\n") + 4;
}

/* Whether an answer is surely of now. One that was waited for may have lain there while this program stood still: that is asked again, at once. */
static bool is_fresh(const struct talk *it) {
    return now() < (it->is_at_once ? it->until : it->at + FRESH);
}

/* Waits for signals, for a request if there is one, and no longer than until a moment. */
static void wait_until(struct talk *it, double moment) {
    bool asks = it != NULL && it->socket >= 0;
    struct pollfd all[2] = {{.fd = signals, .events = POLLIN}, {.fd = asks ? it->socket : -1, .events = POLLIN}};
    if (asks && it->written < it->sent.length)
        all[1].events = POLLIN | POLLOUT;
    if (asks && it->until < moment)
        moment = it->until;
    double left = moment - now();
    poll(all, 2, left <= 0 ? 0 : left > 3600 ? 3600000 : (int)ceil(left * 1000));
    take_signals();
}

/* What the broker says no to: it is said, and this is the status. */
static int refused(const struct talk *it) {
    static const struct {
        const char *kind;
        int status;
    } known[] = {{"TimeoutError", TIMED_OUT}, {"TakenAway", TAKEN}, {"MayNotUse", MAY_NOT}, {"NotAllowed", MAY_NOT},
                 {"Unreachable", UNREACHABLE}, {"JournalError", NOT_WRITTEN}, {"NoInstrument", USAGE}};
    char *kind = text_of(value_of(body_of(it), "kind")), *why = text_of(value_of(body_of(it), "text"));
    int found = 1;
    for (size_t n = 0; n < sizeof known / sizeof *known; n++)
        if (strcmp(kind, known[n].kind) == 0)
            found = known[n].status;
    say("%s", *why ? why : "the broker's answer can't be read");
    free(kind);
    free(why);
    return found;
}

/* ---- the holds around this one */

/* Those at this broker that go on: as whom, and all that they have. */
static struct {
    char *line, **stations, **names;
    int stations_count, count;
    bool was_said;
} within;

static bool is_among(const char *name, char **its, int count) {
    for (int at = 0; at < count; at++)
        if (strcmp(name, its[at]) == 0)
            return true;
    return false;
}

/* Whether each choice has an instrument that a hold around this one has. */
static bool all_meet(void) {
    bool has_met = false;
    for (int at = 0; at < wish.count; at++) {
        bool meets = false;
        char *copy = whole(strdup(wish.instruments[at])), *rest = copy;
        for (char *one; (one = strsep(&rest, wish.any ? "," : "")) != NULL;)
            meets |= is_among(one, within.names, within.count);
        free(copy);
        if (wish.any && !meets)
            return false;
        has_met |= meets;
    }
    return has_met;
}

static void put_all(struct text *to, char **its, int count, const char *between) {
    put(to, "", 0);
    for (int at = 0; at < count; at++)
        putf(to, "%s%s", at ? between : "", its[at]);
}

static int would_wait_for_itself(void) {
    struct text its = {0}, who = {0};
    put_all(&its, within.names, within.count, " ");
    put_all(&who, within.stations, within.stations_count, " and ");
    say("within a hold of %s by %s, which waits for this command: it would wait for itself. Name all in one hold", its.at, who.at);
    free(its.at);
    free(who.at);
    return USAGE;
}

/* 0, or the status to end with. A line of LABRUN_AROUND is of each: process, broker, station, instruments. */
static int looks_around(void) {
    char *rest = within.line = whole(strdup(getenv("LABRUN_AROUND") ? getenv("LABRUN_AROUND") : ""));
    size_t room = strlen(rest) + 1;
    within.stations = whole(calloc(room, sizeof *within.stations));
    within.names = whole(calloc(room, sizeof *within.names));
    for (char *line; (line = strsep(&rest, "\n")) != NULL;) {
        char *process = strsep(&line, "\t"), *broker = strsep(&line, "\t"), *station = strsep(&line, "\t"), *name, where[64];
        snprintf(where, sizeof where, "/proc/%.20s", process);
        if (line == NULL || strcmp(broker, wish.broker) != 0 || access(where, F_OK) != 0)
            continue;
        within.stations[within.stations_count++] = station;
        while ((name = strsep(&line, "\t")) != NULL)
            within.names[within.count++] = name;
    }
    return is_among(wish.station, within.stations, within.stations_count) || all_meet() ? would_wait_for_itself() : 0;
}

/* It has to wait, as the broker says in this body: only the broker knows what a pattern or a tag stands for. 0, or the status to end with. */
static int lacks(const char *body) {
    const char *at = value_of(body, "waits_for");
    struct text others = {0}, its = {0};
    bool has_own = false;
    if (within.stations_count == 0)
        return 0;
    for (at = at != NULL && *at == '[' ? over_space(at + 1) : ""; *at == '{';) {
        char *name = text_of(value_of(at, "instrument"));
        if (is_among(name, within.names, within.count))
            has_own = true;
        else
            putf(&others, "%s%s", others.length ? " or " : "", name);
        free(name);
        at = over_value(at, 20);
        at = at ? over_space(at) : "";
        at = *at == ',' ? over_space(at + 1) : at;
    }
    int found = has_own && others.length == 0 ? would_wait_for_itself() : 0;
    if (found == 0 && !within.was_said && isnan(wish.timeout)) {
        put_all(&its, within.names, within.count, " ");
        say("this hold is within one of %s: if another hold has %s and waits for %s, both wait for ever; name all in one hold", its.at,
            others.length ? others.at : "what this wants", its.at);
        within.was_said = true;
    }
    free(others.at);
    free(its.at);
    return found;
}

/* ---- waiting until it holds */

static struct {
    char *station;
    struct text names; /* of the instruments, each behind a tab */
    double lease, beat, until, token, number;
    bool is_warned, asks_again; /* whether its limit was told of; whether that is to be asked again, as the answer may be old */
} held;

static void put_names(struct text *to, char *names, bool is_list) {
    put(to, "[", 1);
    for (char *rest = names, *one; is_list && (one = strsep(&rest, ",")) != NULL;) {
        if (one != names)
            put(to, ", ", 2);
        put_json(to, one);
    }
    for (int at = 0; !is_list && at < wish.count; at++) {
        if (at > 0)
            put(to, ", ", 2);
        put_json(to, wish.instruments[at]);
    }
    put(to, "]", 1);
}

static void put_wish(struct text *to, double left) {
    putf(to, "{\"ticket\": \"%s\", \"by\": ", ticket);
    put_json(to, wish.by);
    put(to, ", \"station\": ", 13);
    put_json(to, wish.station);
    put(to, wish.any ? ", \"any_of\": [" : ", \"instruments\": ", wish.any ? 13 : 17);
    for (int at = 0; wish.any && at < wish.count; at++) {
        char *copy = whole(strdup(wish.instruments[at]));
        if (at > 0)
            put(to, ", ", 2);
        put_names(to, copy, true);
        free(copy);
    }
    if (wish.any)
        put(to, "]", 1);
    else
        put_names(to, NULL, false);
    if (!isnan(left))
        putf(to, ", \"timeout\": %.3f", left);
    putf(to, "%s}", wish.urgent ? ", \"urgent\": true" : "");
}

/* Where the broker takes HTTP: at the socket itself, or at the one beside it. */
static void find_path(void) {
    static const char beside[] = ".http";
    const char *own = wish.broker + strlen("unix:");
    size_t length = strlen(own);
    struct stat is;
    memset(path, 0, sizeof path);
    memcpy(path, own, length);
    if (length + sizeof beside <= sizeof path) {
        memcpy(path + length, beside, sizeof beside);
        if (stat(path, &is) != 0 || !S_ISSOCK(is.st_mode))
            path[length] = 0;
    }
}

/* `waits_so`: it is answered once it waits for somebody else; `most`: it may take no longer. */
static enum outcome asks(struct talk *it, bool is_new, bool waits_so, double wait, double left, double most) {
    struct text rest = {0}, body = {0};
    double late = isnan(left) ? LATE : left + LATE_END - wait < LATE ? fmax(LATE_END, left + LATE_END - wait) : LATE;
    put(&body, "", 0);
    if (is_new) {
        find_path();
        put_wish(&body, left);
    } else
        putf(&rest, "/%s", ticket);
    putf(&rest, "?wait=%.3f%s", wait, waits_so ? "&while=unchanged" : "");
    enum outcome how = call(it, is_new ? "POST" : "GET", rest.at, body.at, fmin(wait + late, fmax(LATE_END, most)));
    it->is_at_once = wait == 0;
    free(rest.at);
    free(body.at);
    return how;
}

/* A word as a shell wants it. */
static void put_word(struct text *to, const char *word) {
    bool is_plain = *word != 0;
    for (const char *at = word; *at; at++)
        is_plain = is_plain && (isalnum((unsigned char)*at) || strchr("_@%+=:,./-", *at) != NULL);
    if (!is_plain)
        put(to, "'", 1);
    for (const char *at = word; *at; at++)
        if (*at == '\'')
            put(to, "'\"'\"'", 5);
        else
            put(to, at, 1);
    if (!is_plain)
        put(to, "'", 1);
}

/* A command of labrun-broker that asks the broker of this one: it names that, unless it asks there anyway. (Where curl and the like ask, it
   doesn't.) `number`: of the session, or NAN. Whoever asks frees it. */
static char *typed(const char *word, const char *name, double number) {
    static const char beside[] = ".http";
    struct text found = {0};
    size_t length = strlen(wish.broker), end = strlen(beside);
    char *at = whole(strdup(wish.broker));
    bool is_of_http = length > strlen("unix:") + end && strcmp(at + length - end, beside) == 0 && strcmp(path, wish.broker + strlen("unix:")) == 0;
    if (is_of_http)
        at[length - end] = 0;
    putf(&found, "`labrun-broker %s", word);
    if (name != NULL) {
        put(&found, " ", 1);
        put_word(&found, name);
    }
    if (!isnan(number))
        putf(&found, " --session %.0f", number);
    if (strcmp(at, usual_broker()) != 0) {
        put(&found, " --broker ", 10);
        put_word(&found, at);
    }
    /* (where this token isn't let in any more somebody else's is wanted) */
    if (is_let_in && wish.token_file != NULL && *wish.token_file) {
        put(&found, " --token-file ", strlen(" --token-file "));
        put_word(&found, wish.token_file);
    }
    put(&found, "`", 1);
    free(at);
    return found.at;
}

/* A broker that died may have written down that this holds; one that goes on finds the connection closed, and then nothing is held. `may_hold`:
   whether one died that this had asked; `name` is as whom, if that is known. */
static char *what_is_held(bool may_hold, const char *name) {
    struct text found = {0};
    bool has_name = name != NULL && *name;
    if (!may_hold) {
        putf(&found, "%s", NOTHING_HELD);
        return found.at;
    }
    char *looks = typed("status", NULL, (double)NAN), *ends = typed("release", has_name ? name : "NAME", (double)NAN);
    putf(&found, "the session may hold all the same: if %s shows %s as gone, end it by %s%s", looks, has_name ? name : "it", ends,
         has_name ? "" : ", with the name that stands there");
    free(looks);
    free(ends);
    return found.at;
}

/* Whether the broker ended, or is gone, while this asked. */
static bool has_died(const struct talk *it, enum outcome how) {
    return how == ABSENT || (how == LOST && it->is_cut) || (how == ANSWERED && status_of(it) == 503);
}

/* The broker is told until it answers, or another signal comes, and no longer than so many seconds. A wish that is still on its way is to be
   answered before: else the broker, which has much to do, might read it later, and hold for nobody. Whether it was told. */
static bool gives_up(struct talk *wish_sent, double span, bool *may_hold, const char *name) {
    struct talk it = {.socket = -1};
    struct text rest = {0};
    int first = came;
    double end = now() + span, says = now() + UNTOLD;
    bool is_told = false;
    putf(&rest, "/%s", ticket);
    for (came = 0; !is_told && !came && now() < end;) {
        struct talk *open = wish_sent->socket >= 0 ? wish_sent : &it;
        enum outcome how = open->socket >= 0 ? goes_on(open) : call(&it, "DELETE", rest.at, "", end - now());
        int answer = how == ANSWERED ? status_of(open) : 0;
        *may_hold |= has_died(open, how);
        if (open == &it)
            is_told = answer != 0 && answer != 429 && answer != 503;
        else /* (what was refused isn't asked for) */
            is_told = answer >= 400 && answer != 503;
        if (how != PENDING)
            hang_up(open);
        if (!is_told)
            wait_until(how == PENDING ? open : NULL, fmin(fmin(end, says), how == PENDING ? end : open == &it ? now() + PAUSE : now()));
        if (!is_told && now() > says) {
            say("the broker doesn't answer, and is told for some seconds that this waits no longer, unless another signal comes");
            says = INFINITY;
        }
    }
    char *its = what_is_held(*may_hold, name);
    if (!is_told && span >= LATE)
        say("the broker wasn't told, as far as is known here; %s", its);
    free(its);
    came = first;
    hang_up(&it);
    free(rest.at);
    return is_told;
}

/* For whom it waits is said once, again if that changes, and now and then if it doesn't. False: it isn't, as this may be old. */
static bool tell(const struct talk *it, struct text *said, double *said_at) {
    struct text who = {0};
    const char *at = value_of(body_of(it), "waits_for");
    char *why = text_of(value_of(body_of(it), "text"));
    /* (of a place, or a disk, nobody is named: there the text says it, up to the first span; and whose client is gone is named as before) */
    const char *span = strstr(why, " for ");
    putf(&who, "%.*s", (int)(span != NULL ? span - why : (long)strlen(why)), why);
    for (const char *gone = why; (gone = strstr(gone, "gone for ")) != NULL; gone++)
        put(&who, "gone,", 5);
    if (at != NULL && *at == '[')
        for (at = over_space(at + 1); *at == '{'; at = over_space(at + 1)) {
            char *name = text_of(value_of(at, "instrument"));
            putf(&who, "%s %.0f,", name, number_of(value_of(at, "session")));
            free(name);
            if ((at = over_value(at, 20)) == NULL || *(at = over_space(at)) != ',')
                break;
        }
    bool is_due = said->at == NULL || strcmp(said->at, who.at) != 0 || now() > *said_at + AGAIN, is_told = !is_due || is_fresh(it);
    if (is_due && is_told) {
        say("waits: %s", why);
        *said_at = now();
        free(said->at);
        *said = who;
    } else
        free(who.at);
    free(why);
    return is_told;
}

/* That the limit is over soon is said once. */
static void looks_for_warning(const struct talk *it) {
    char *why = text_of(value_of(body_of(it), "warning"));
    bool is_due = *why && !held.is_warned;
    held.asks_again = is_due && !is_fresh(it);
    if (is_due && !held.asks_again) {
        say("%s", why);
        held.is_warned = true;
    }
    free(why);
}

/* It holds, by this answer. Whether that is still new enough. */
static bool is_held(const struct talk *it) {
    const char *body = body_of(it), *at = value_of(body, "instruments");
    held.lease = number_of(value_of(body, "lease"));
    held.token = number_of(value_of(body, "token"));
    held.number = number_of(value_of(body, "session"));
    held.beat = number_of(value_of(body, "ping"));
    held.until = isnan(held.lease) ? (double)INFINITY : it->at + held.lease;
    free(held.station);
    held.station = text_of(value_of(body, "station"));
    held.names.length = 0;
    put(&held.names, "", 0);
    for (at = at != NULL && *at == '[' ? over_space(at + 1) : ""; *at == '"';) {
        char *name = text_of(at);
        putf(&held.names, "\t%s", name);
        free(name);
        at = over_value(at, 1);
        at = at ? over_space(at) : "";
        at = *at == ',' ? over_space(at + 1) : at;
    }
    bool is_new = isnan(held.lease) || now() < it->at + held.lease / 6;
    looks_for_warning(it);
    return is_new;
}

/* How it goes on to wait: whether its wish is to be sent, or it asks on by its ticket; whether some of it was sent; whether the broker was there,
   and has said something; since when it is away; whether it would wait for itself; whether it was said that no word comes, and none has come;
   whether a broker died that may have written down that it holds; whether one is of before `while=unchanged`; and as whom it waits. */
struct line {
    bool is_new, has_asked, was_there, has_heard, is_told, is_itself, is_missed, may_hold, is_older;
    char *name;
    double end, lost, wait, said_at, silent_at; /* and when it is said that no word comes */
    double first; /* until when the first word may take */
    struct text said;
};

/* A broker that is stopped says nothing, and who waits is to know that. */
static void is_silent(struct line *its) {
    if (now() < its->silent_at)
        return;
    if (its->has_heard)
        say("there is no word from the broker at unix:%s; labrun-hold keeps trying for a while, and Ctrl-C ends that", path);
    else
        say("there is no word from the broker at unix:%s; labrun-hold keeps trying for %g s in all, and Ctrl-C ends that", path,
            isnan(wish.timeout) ? FIRST : fmin(FIRST, wish.timeout));
    its->silent_at = INFINITY;
    its->is_missed = true;
}

/* It waits, and was told that no word came. */
static void is_back(const struct line *its) {
    if (its->is_missed && its->has_heard)
        say("the broker at unix:%s answers again%s", path, its->is_new ? "; the place in line is lost, and this waits at its end" : ", and the place in line is kept");
}

/* -1: it waits on; else as `holds`. */
static int hears(struct line *its, const struct talk *it) {
    int answer = status_of(it), found = -1;
    bool is_told = true;
    its->may_hold = false;
    if (answer == 200)
        found = is_held(it) ? 0 : -1;
    else if (answer == 400 && !its->is_new && !its->is_older) {
        its->is_older = true;
        return -1;
    } else if (answer == 202) {
        is_back(its);
        free(its->name);
        its->name = text_of(value_of(body_of(it), "station"));
        its->is_itself = lacks(body_of(it)) != 0;
        found = its->is_itself ? USAGE : -1;
        if (!its->is_itself && !wish.quiet)
            is_told = tell(it, &its->said, &its->said_at);
    } else if (answer != 404 || its->is_new)
        found = refused(it);
    its->is_new = answer == 404;
    its->is_missed = its->is_missed && its->is_new;
    its->was_there = its->has_heard = true;
    its->silent_at = wish.quiet ? (double)INFINITY : now() + SILENCE;
    its->lost = NAN;
    its->wait = answer == 200 || !is_told ? 0 : its->is_new ? FIRST_WORD : 5;
    return found;
}

/* Nobody answers: it may be just being started, or come back. (If a wish was lost, it may be known all the same.) -1: it is tried again. */
static int hears_nothing(struct line *its, const struct talk *it, enum outcome how) {
    struct talk none = {.socket = -1};
    double time = now();
    bool is_first = how == ABSENT && !its->was_there;
    if (how == LOST && it->heard.length > 0 && strncmp(it->heard.at, "HTTP/", 5) != 0) {
        const char *own = wish.broker + strlen("unix:");
        say("unix:%s takes no HTTP: labrun-broker serve BAY --listen unix:%s --http unix:%s.http", path, own, own);
        return UNREACHABLE;
    }
    if (how == LOST && it->socket < 0 && why_not == EACCES) {
        say("the broker at unix:%s can't be reached: permission denied", path);
        return UNREACHABLE;
    }
    its->was_there |= how == LOST || how == ANSWERED;
    its->has_heard |= how == ANSWERED;
    its->may_hold |= its->has_asked && has_died(it, how);
    bool is_silent = how == LOST && !its->has_heard && time >= its->first;
    its->is_new = its->is_new && how == ABSENT;
    its->lost = isnan(its->lost) ? time : its->lost;
    if (!its->is_told && is_first && !(time >= its->end)) {
        say("waits for the broker: it doesn't listen yet at unix:%s", path);
        its->is_told = true;
    }
    if (is_silent || time > its->lost + (its->was_there ? AWAY : STARTING) || time > its->end + LATE_END || (is_first && time >= its->end)) {
        bool is_told = !its->has_asked || gives_up(&none, 0.5, &its->may_hold, its->name);
        char *its_end = what_is_held(its->may_hold, its->name);
        say("the broker at unix:%s %s%s%s", path, how == ABSENT ? "can't be reached: nobody listens there" : "doesn't answer", is_told ? "" : "; ", is_told ? "" : its_end);
        free(its_end);
        return UNREACHABLE;
    }
    wait_until(NULL, time + (is_first ? 0.1 : PAUSE));
    return -1;
}

/* 0 once it holds; else the status to end with. */
static int holds(void) {
    struct talk it = {.socket = -1};
    struct line its = {.is_new = true, .is_told = wish.quiet, .end = now() + wish.timeout, .lost = NAN, .wait = FIRST_WORD, .first = now() + FIRST};
    int found = -1;
    its.silent_at = wish.quiet ? (double)INFINITY : now() + SILENCE;
    its.name = whole(strdup(wish.station));
    while (found < 0 && !came) {
        /* (0 says that it never wanted to wait) */
        double left = isnan(wish.timeout) ? (double)NAN : fmax(wish.timeout > 0 ? 0.001 : 0, its.end - now());
        enum outcome how = asks(&it, its.is_new, !its.is_new && !its.is_older && its.wait > 0, its.wait, left, its.has_heard ? (double)INFINITY : its.first - now());
        while (how == PENDING && !came) {
            wait_until(&it, fmin(its.silent_at, now() + 3600));
            how = goes_on(&it);
            its.has_asked |= it.written > 0;
            if (how == PENDING && !came)
                is_silent(&its);
        }
        if (how != ANSWERED && !came)
            is_silent(&its);
        if (!came)
            found = how == ANSWERED && status_of(&it) != 503 ? hears(&its, &it) : hears_nothing(&its, &it, how);
    }
    free(its.said.at);
    bool is_cut = found < 0 || (found == 0 && came), is_over = is_cut || its.is_itself;
    if (!is_over || !its.is_new)
        hang_up(&it);
    if (is_over && its.has_asked) /* (else nobody need be told) */
        gives_up(&it, LATE, &its.may_hold, its.name);
    hang_up(&it);
    free(its.name);
    return is_cut ? 128 + came : found;
}

/* ---- while it holds */

static void begin_command(void) {
    struct text around = {0};
    char *names = whole(strdup(held.names.at)), *outer = getenv("LABRUN_AROUND");
    if (outer != NULL && *outer)
        putf(&around, "%s\n", outer);
    putf(&around, "%d\t%s\t%s%s", (int)getppid(), wish.broker, held.station, names);
    for (char *at = names; (at = strchr(at, '\t')) != NULL;)
        *at = ' ';
    setenv("LABRUN_HELD", names[0] ? names + 1 : names, 1);
    setenv("LABRUN_STATION", held.station, 1);
    struct text token = {0};
    putf(&token, "%.0f", isnan(held.token) ? 0 : held.token);
    setenv("LABRUN_TOKEN", token.at, 1);
    setenv("LABRUN_AROUND", around.at, 1);
    execvp(wish.command[0], wish.command);
}

/* 0, or the status to end with. Where a session may be released for a client that is gone, the command ends with this process. */
static int starts(void) {
    int line[2], why = 0;
    pid_t this = getpid();
    if (pipe2(line, O_CLOEXEC) != 0 || (command = fork()) < 0) {
        why_none = errno;
        command = 0;
        return CANT_RUN;
    }
    if (command == 0) {
        close(line[0]);
        if (!isnan(held.lease)) {
            prctl(PR_SET_PDEATHSIG, SIGTERM, 0, 0, 0);
            if (getppid() != this)
                kill(getpid(), SIGTERM);
        }
        for (int n = 0; n < OF_WRITES; n++)
            sigaction(of_writes[n], &for_command[n], NULL);
        sigprocmask(SIG_SETMASK, &before, NULL);
        begin_command();
        why = errno;
        if (write(line[1], &why, sizeof why) < 0)
            _exit(CANT_RUN);
        _exit(NOT_FOUND);
    }
    close(line[1]);
    char number[24];
    struct process its = {0};
    snprintf(number, sizeof number, "%d", (int)command);
    since = read_process(number, &its) ? its.begun : 0;
    ssize_t failed = read(line[0], &why, sizeof why);
    close(line[0]);
    if (failed == (ssize_t)sizeof why) {
        waitpid(command, NULL, 0);
        command = 0;
        why_none = why;
        return why == ENOENT ? NOT_FOUND : CANT_RUN;
    }
    if (came)
        is_sent_on(came);
    return 0;
}

static void taken(const char *why) {
    is_taken = true;
    send_all(SIGTERM);
    say("%s; the command is being ended", why);
}

static void is_answered(struct talk *it, double *next) {
    int answer = status_of(it);
    *next = now() + PAUSE;
    if (answer == 200) {
        held.until = isnan(held.lease) ? (double)INFINITY : fmax(held.until, it->at + held.lease);
        *next = it->at + 0.1;
        looks_for_warning(it);
    } else if (answer == 404 || answer == 410 || answer == 401) { /* (401: this client isn't let in any more) */
        char *why = text_of(value_of(body_of(it), "text"));
        is_let_in = answer != 401;
        taken(why);
        free(why);
    }
}

static void is_late(void) {
    struct text why = {0}, names = {0};
    for (const char *at = held.names.at; *at; at++)
        put(&names, *at == '\t' ? ", " : at, *at == '\t' ? 2 : 1);
    putf(&why, "%s: nothing was heard from the broker for more than %g s, so the session is over, and others may hold these by now: %s", held.station, held.lease,
         names.length ? names.at + 2 : "");
    taken(why.at);
    free(why.at);
    free(names.at);
}

/* Whether something still runs that the command started; after a moment that is said, once. */
static bool others_run(double *tells) {
    double time = now();
    bool is_time = time > *tells;
    if (isinf(*tells))
        *tells = time + TELLING;
    if (is_time)
        *tells = 1e300;
    return still_run(is_time ? "what the command started has ended" : NULL);
}

/* Until the command has ended, and after a signal all that it started: who holds next would meet it at the instruments. */
static void works(void) {
    struct talk it = {.socket = -1};
    struct text rest = {0}, at_once = {0};
    double next = 0, tells = INFINITY;
    double span = isnan(held.beat) ? LONG : held.beat, late = isnan(held.lease) ? LATE : fmin(LATE, held.lease / 2);
    putf(&rest, "/%s?while=holding&wait=%.3f", ticket, span);
    putf(&at_once, "/%s", ticket);
    while (status < 0 || (were_sent && others_run(&tells))) {
        double time = now();
        if (!is_taken && time >= held.until)
            is_late();
        if (status < 0 && time > says_at) {
            still_run("the command has ended, which goes on after the signal");
            says_at = 1e300;
        }
        if (!is_taken && it.socket < 0 && time >= next) {
            bool again = held.asks_again;
            next = call(&it, "GET", (again ? at_once : rest).at, "", (again ? 0 : span) + late) == PENDING ? next : time + PAUSE;
            it.is_at_once = again;
        }
        double moment = status >= 0 ? time + LOOK : is_taken ? time + 3600 : fmin(held.until, it.socket < 0 ? next : time + 3600);
        wait_until(is_taken ? NULL : &it, status < 0 ? fmin(moment, says_at) : moment);
        enum outcome how = it.socket < 0 || is_taken ? PENDING : goes_on(&it);
        if (how == ANSWERED)
            is_answered(&it, &next);
        else if (how == LOST)
            next = now() + PAUSE;
        if (how != PENDING)
            hang_up(&it);
    }
    hang_up(&it);
    free(rest.at);
    free(at_once.at);
}

/* Says of the session that it couldn't be told that it lets go. */
static void may_go_on(const char *why) {
    bool is_kept = isnan(held.lease);
    char *looks = typed("status", NULL, (double)NAN), *ends = typed("release", held.station, held.number);
    say("%sthe session may go on holding, as %s says, until %s%s%s", why, looks,
        is_kept ? "it is released by " : "the broker releases it (gone = \"release\"), or ", ends, is_kept ? "" : " does");
    free(looks);
    free(ends);
}

/* The status to end with, where the broker lets this client in no more and keeps what it holds. */
static int kept(int ended) {
    say("the command ran, and ended with status %d, but:", ended);
    may_go_on("");
    return UNREACHABLE;
}

/* The status to end with. The broker is told for a minute, and no signal keeps it from that unless it is late. */
static int lets_go(int ended) {
    struct talk it = {.socket = -1};
    struct text rest = {0};
    double began = now();
    int found = -1;
    putf(&rest, "/%s", ticket);
    if (ended != 0)
        putf(&rest, "?failed=status%%20%d", ended);
    is_telling = true;
    came = 0;
    while (found < 0) {
        enum outcome how = call(&it, "DELETE", rest.at, "", LATE);
        if (how == PENDING)
            send_some(&it);
        if (why_none != 0)
            say("%s: %s", wish.command[0], strerror(why_none));
        why_none = 0;
        for (double again = now() + PAUSE; found < 0 && (how == PENDING || now() < again);) {
            double until = how == PENDING ? again + LATE : again;
            wait_until(how == PENDING ? &it : NULL, is_untold ? until : fmin(began + UNTOLD, until));
            if (how == PENDING)
                how = goes_on(&it);
            int answer = how == ANSWERED ? status_of(&it) : 0;
            if (answer == 200)
                found = ended;
            else if (answer != 0 && answer != 503) {
                say("the command ran, and ended with status %d, but:", ended);
                found = refused(&it);
                if (answer == 404) /* the broker has forgotten it: others may have held meanwhile */
                    found = TAKEN;
            } else if (!is_untold && now() > began + UNTOLD) {
                say("the command has ended with status %d; the broker hasn't answered yet; labrun-hold keeps trying to tell it, and Ctrl-C ends that", ended);
                is_untold = true;
            }
            if (found < 0 && is_untold && came) {
                may_go_on("the broker wasn't told, as far as is known here: ");
                found = ended;
            }
        }
        if (found < 0 && now() > began + AWAY) {
            say("the command ran, and ended with status %d, but:", ended);
            say("the broker at unix:%s %s", path, how == ABSENT ? "can't be reached: nobody listens there" : "doesn't answer any more");
            may_go_on("");
            found = UNREACHABLE;
        }
    }
    hang_up(&it);
    free(rest.at);
    return found;
}

/* ---- words */

static int wrong(const char *why, const char *what) {
    say("%s%s%s; labrun-hold --help", why, *what ? ": " : "", what);
    return USAGE;
}

static char *who_asks(void) {
    static const char *const names[] = {"LOGNAME", "USER", "LNAME", "USERNAME"};
    const char *user = NULL, *what = strrchr(wish.command[0], '/');
    char host[65] = {0};
    struct text found = {0};
    size_t length, end = 0;
    for (size_t n = 0; n < 4 && (user == NULL || !*user); n++)
        user = getenv(names[n]);
    struct passwd *known = user != NULL && *user ? NULL : getpwuid(getuid());
    gethostname(host, sizeof host - 1);
    putf(&found, "%s@%s %d %s", known ? known->pw_name : user && *user ? user : "somebody", host, (int)getpid(), what ? what + 1 : wish.command[0]);
    for (int count = 0; count < 64 && end < found.length; count++, end += length)
        character(found.at + end, &length);
    found.at[end] = 0;
    return found.at;
}

/* What is wrong with a file that is read before anything is asked: as `labrun-broker hold` says it. */
static int no_file(const char *by, const char *name, const char *why) {
    say("%s %s: %s", by, name, why);
    return NO_FILE;
}

/* 0, or the status to end with. */
static int read_token(void) {
    static const char variable[] = "LABRUN_BROKER_TOKEN_FILE";
    bool is_named = wish.token_file != NULL && *wish.token_file;
    const char *name = is_named ? wish.token_file : getenv(variable), *by = is_named ? "--token-file" : variable;
    if (name == NULL || !*name)
        return 0;
    FILE *file = fopen(name, "re");
    size_t length = file == NULL ? 0 : fread(own_token, 1, sizeof own_token - 1, file), space = 0;
    int why = file == NULL || ferror(file) ? errno : 0;
    if (file != NULL)
        fclose(file);
    if (why != 0)
        return no_file(by, name, why == ENOENT ? "there is no such file" : why == EACCES || why == EPERM ? "you may not read it" : strerror(why));
    while (length > 0 && isspace((unsigned char)own_token[length - 1]))
        length--;
    while (space < length && isspace((unsigned char)own_token[space]))
        space++;
    memmove(own_token, own_token + space, length -= space);
    own_token[length] = 0;
    bool is_odd = length + space == sizeof own_token - 1; /* (there may be more of it) */
    for (size_t at = 0; at < length; at++)
        is_odd |= !isprint((unsigned char)own_token[at]);
    if (length > 0 && !is_odd)
        return 0;
    return no_file(by, name, is_odd ? "a token is one line of letters, digits and signs, and this file has something else"
                                    : "a token is one line of letters, digits and signs, and this file is empty");
}

/* On its way a byte that is no UTF-8 would stand for something else. */
static int check_name(const char *name) {
    struct text shown = {0};
    int found = 0;
    size_t length;
    for (const char *at = name; *at && found == 0; at += length)
        if (character(at, &length) < 0) {
            put_plain(&shown, name);
            found = wrong("this isn't UTF-8", shown.at);
        }
    free(shown.at);
    return found;
}

static int check_words(bool is_at_once) {
    int found = 0;
    if (is_at_once && !isnan(wish.timeout))
        return wrong("-n isn't allowed with --timeout", "");
    if (wish.station != NULL && !*wish.station)
        return wrong("--station: an empty name is no station; a guest says none", "");
    wish.station = wish.station == NULL ? "" : wish.station;
    wish.timeout = is_at_once ? 0 : wish.timeout;
    if (wish.count == 0)
        return wrong("say which instruments", "");
    for (int n = 0; n < wish.count && found == 0; n++)
        found = check_name(wish.instruments[n]);
    if (found != 0 || (found = check_name(wish.station)) != 0)
        return found;
    return wish.command[0] == NULL || !*wish.command[0] ? wrong("say what to run, behind `--`", "labrun-hold scope -- ./measure.sh") : 0;
}

enum { OPTIONS = 5 };

static int read_words(int count, char **words) {
    struct {
        const char *name;
        char **to;
    } options[] = {{"--station", &wish.station}, {"--by", &wish.by}, {"--broker", &wish.broker}, {"--token-file", &wish.token_file}, {"--timeout", NULL}};
    int at = 1;
    bool is_at_once = false;
    wish.instruments = whole(calloc((size_t)count + 1, sizeof *wish.instruments));
    for (; at < count && strcmp(words[at], "--") != 0; at++) {
        char *word = words[at], *value = NULL;
        size_t n = 0, length = strcspn(word, "=");
        while (n < OPTIONS && (strlen(options[n].name) != length || strncmp(word, options[n].name, length) != 0))
            n++;
        if (word[0] != '-')
            wish.instruments[wish.count++] = word;
        else if (n < OPTIONS) {
            value = word[length] ? word + length + 1 : at + 1 < count ? words[++at] : NULL;
            if (value == NULL)
                return wrong("something is wanted behind", word);
            char *end = value;
            if (options[n].to != NULL)
                *options[n].to = value;
            else if ((wish.timeout = strtod(value, &end), end == value || *end || !(wish.timeout >= 0 && wish.timeout < 1e9)))
                return wrong("--timeout: this is no number of seconds, 0 or more and below 1000000000", value);
        } else if (strcmp(word, "--any") == 0)
            wish.any = true;
        else if (strcmp(word, "--urgent") == 0)
            wish.urgent = true;
        else if (strcmp(word, "--quiet") == 0)
            wish.quiet = true;
        else if (strcmp(word, "-n") == 0 || strcmp(word, "--no-wait") == 0)
            is_at_once = true;
        else
            return wrong("there is no such option", word);
    }
    wish.command = words + (at < count ? at + 1 : count);
    return check_words(is_at_once);
}

static void make_ticket(void) {
    unsigned char bytes[32];
    if (getrandom(bytes, sizeof bytes, 0) != (ssize_t)sizeof bytes) {
        say("there are no random numbers");
        exit(1);
    }
    for (size_t n = 0; n < sizeof bytes; n++)
        snprintf(ticket + 2 * n, 3, "%02x", bytes[n]);
}

static void catch_signals(void) {
    static const int caught[] = {SIGINT, SIGTERM, SIGHUP, SIGQUIT, SIGCHLD};
    sigset_t all;
    sigemptyset(&all);
    signal(SIGCHLD, SIG_DFL);
    for (size_t n = 0; n < sizeof caught / sizeof *caught; n++) {
        // (what nohup, or a shell that runs this in the background, has it ignore stays ignored, here and by the command)
        struct sigaction now;
        if (sigaction(caught[n], NULL, &now) != 0 || now.sa_handler != SIG_IGN)
            sigaddset(&all, caught[n]);
    }
    sigprocmask(SIG_BLOCK, &all, &before);
    signals = signalfd(-1, &all, SFD_NONBLOCK | SFD_CLOEXEC);
}

static int helps(void) {
    if (fputs(HELP, stdout) != EOF && fflush(stdout) == 0)
        return 0;
    int why = errno;
    ignore_writes();
    say("standard output: %s", strerror(why));
    return 1;
}

int main(int count, char **words) {
    open_streams();
    for (int at = 1; at < count && strcmp(words[at], "--") != 0; at++)
        if (strcmp(words[at], "--help") == 0 || strcmp(words[at], "-h") == 0)
            return helps();
    ignore_writes();
    open_errors();
    int found = read_words(count, words);
    if (found != 0)
        return found;
    if (wish.broker == NULL)
        wish.broker = (char *)(uintptr_t)usual_broker();
    if (strncmp(wish.broker, "unix:", 5) != 0 || strlen(wish.broker) - 5 >= sizeof path)
        return wrong("a broker of this machine is wanted, as unix:PATH, and not", wish.broker);
    if ((found = read_token()) != 0)
        return found;
    char *by = wish.by == NULL ? who_asks() : NULL;
    wish.by = by != NULL ? by : wish.by;
    if ((found = looks_around()) != 0)
        return found;
    make_ticket();
    catch_signals();
    prctl(PR_SET_CHILD_SUBREAPER, 1, 0, 0, 0);
    if ((found = holds()) == 0) {
        found = starts();
        if (found == 0) {
            works();
            found = !is_taken ? status : is_let_in ? TAKEN : kept(status);
        }
        if (!is_taken)
            found = lets_go(found);
    }
    free(by);
    free(held.station);
    free(held.names.at);
    free(within.line);
    free(within.stations);
    free(within.names);
    free(wish.instruments);
    return found;
}
