/* A broker to start from: stations share instruments, each of which answers one client at a time.

     cc -O2 -pthread -I include examples/broker/broker.c FOLDER/liblabrun.a -o broker
     ./broker [SCRIPT]                             every session of the script once, with 10 to 200 ms of work; SCRIPT is
                                                   examples/broker/bay.lab unless said
     ./broker --journal FILE [SCRIPT]              the same with a journal (journal.h): killed and called again, it goes on where it was
     ./broker --how locks [SCRIPT]                 a lock for each instrument instead, taken in the order in which the script names them:
                                                   the stations soon wait for each other for ever, which a time-out shows; status 4
     ./broker --how sorted [SCRIPT]                the same locks, all taken in one order
     ./broker --threads N --seconds S              a load test: N stations (2 to 32) on six instruments, for S seconds (1 to 3600), no pause
     ./broker --threads N --sessions M             the same until M sessions are done, or a few more
     ./broker --overtakes N ..                     by how many sessions a station may be passed before it stands in line (lab_overtakes); 64

   Each instrument is a small server on 127.0.0.1 that speaks a line at a time (*IDN?, CONF N, ADD N, MEAS?, BYE). It refuses a second
   client while one talks to it, and counts that: so a broker that lets two stations at one instrument is seen from outside. The
   status is 0 if nothing was refused and each number that an instrument showed is the one in its log. */
#define _DEFAULT_SOURCE
#include "journal.h"
#include "labrun.h"
#include <arpa/inet.h>
#include <errno.h>
#include <netinet/in.h>
#include <netinet/tcp.h>
#include <poll.h>
#include <pthread.h>
#include <stdarg.h>
#include <stdio.h>
#include <stdlib.h>
#include <string.h>
#include <sys/socket.h>
#include <time.h>
#include <unistd.h>

#define MOST_JOBS 32
#define MOST_INSTRUMENTS 56
#define LINE 64
#define TIME_OUT 5 /* seconds that a station waits for its instruments before it says who keeps it waiting */
#define LOCK_TIME_OUT 2
#define SORTED_TIME_OUT 60 /* it doesn't come to that, also on a busy machine */
#define MOST_PASSES 1000 /* of locks in the script's order, until they dead-lock */

enum how { BY_BENCH, BY_LOCKS, BY_SORTED_LOCKS };

static void stop(const char *why) {
    perror(why);
    exit(70);
}

static double now(void) {
    struct timespec time;
    clock_gettime(CLOCK_MONOTONIC, &time);
    return (double)time.tv_sec + (double)time.tv_nsec * 1e-9;
}

static void sleep_for(double seconds) {
    struct timespec time = {(time_t)seconds, (long)((seconds - (double)(time_t)seconds) * 1e9)};
    nanosleep(&time, NULL);
}

static struct timespec after(double seconds) {
    struct timespec until;
    clock_gettime(CLOCK_REALTIME, &until);
    until.tv_nsec += (long)((seconds - (double)(time_t)seconds) * 1e9);
    until.tv_sec += (time_t)seconds + until.tv_nsec / 1000000000;
    until.tv_nsec %= 1000000000;
    return until;
}

/* ---- lines over a socket */

struct lines {
    int socket;
    size_t held;
    char bytes[LINE];
};

/* The next line without its end; no if the other side is gone or the line is too long. */
static int read_line(struct lines *from, char *line) {
    for (;;) {
        char *end = memchr(from->bytes, '\n', from->held);
        if (end) {
            size_t length = (size_t)(end - from->bytes);
            memcpy(line, from->bytes, length);
            line[length] = 0;
            from->held -= length + 1;
            memmove(from->bytes, end + 1, from->held);
            return 1;
        }
        if (from->held == LINE) return 0;
        ssize_t got = recv(from->socket, from->bytes + from->held, LINE - from->held, 0);
        if (got < 0 && errno == EINTR) continue;
        if (got <= 0) return 0;
        from->held += (size_t)got;
    }
}

static int write_line(int socket, const char *form, ...) {
    char line[LINE];
    va_list rest;
    va_start(rest, form);
    int length = vsnprintf(line, sizeof line, form, rest);
    va_end(rest);
    return length < (int)sizeof line && send(socket, line, (size_t)length, MSG_NOSIGNAL) == length;
}

/* ---- an instrument */

struct instrument {
    char name[17];
    int listens, quit[2];
    struct sockaddr_in address;
    unsigned dial;
    int is_new; /* its dial isn't where its log says, because the bench was resumed */
    long clients, refused;
    pthread_t thread;
};

static struct instrument instruments[MOST_INSTRUMENTS];
static uint32_t instrument_count;

/* Answers a line; no after BYE. */
static int answered(struct instrument *it, int client, const char *line) {
    unsigned number;
    if (strcmp(line, "*IDN?") == 0) return write_line(client, "labrun,%s,0,1\n", it->name);
    if (strcmp(line, "MEAS?") == 0) return write_line(client, "%u\n", it->dial);
    if (sscanf(line, "CONF %u", &number) == 1) it->dial = number % 1000000;
    else if (sscanf(line, "ADD %u", &number) == 1) it->dial = (it->dial + number) % 1000000;
    else if (strcmp(line, "BYE") == 0) return 0;
    else return write_line(client, "ERR\n");
    return write_line(client, "%u\n", it->dial);
}

static void *serve_clients(void *given) {
    struct instrument *it = given;
    struct lines client = {.socket = -1};
    for (;;) {
        struct pollfd waits[3] = {{it->quit[0], POLLIN, 0}, {it->listens, POLLIN, 0}, {client.socket, POLLIN, 0}};
        if (poll(waits, 3, -1) < 0 && errno != EINTR) stop("poll");
        if (waits[0].revents) break;
        /* what the client says comes first: if it is gone, the next one is welcome */
        if (client.socket >= 0 && waits[2].revents) {
            char line[LINE];
            int socket = client.socket;
            if (!read_line(&client, line) || !answered(it, socket, line)) {
                client = (struct lines){.socket = -1};
                /* it is free before it says so */
                write_line(socket, "BYE\n");
                close(socket);
            }
        } else if (waits[1].revents) {
            int caller = accept(it->listens, NULL, NULL);
            if (caller < 0) continue;
            if (client.socket >= 0) {
                it->refused++;
                write_line(caller, "BUSY\n");
                close(caller);
            } else {
                int on = 1;
                setsockopt(caller, IPPROTO_TCP, TCP_NODELAY, &on, sizeof on);
                client = (struct lines){.socket = caller};
                it->clients++;
                write_line(caller, "READY\n");
            }
        }
    }
    if (client.socket >= 0) close(client.socket);
    return NULL;
}

static void start_instrument(struct instrument *it) {
    socklen_t length = sizeof it->address;
    it->address = (struct sockaddr_in){.sin_family = AF_INET, .sin_addr.s_addr = htonl(INADDR_LOOPBACK)};
    it->listens = socket(AF_INET, SOCK_STREAM, 0);
    if (it->listens < 0 || bind(it->listens, (struct sockaddr *)&it->address, length) || listen(it->listens, 64)
        || getsockname(it->listens, (struct sockaddr *)&it->address, &length) || pipe(it->quit)
        || pthread_create(&it->thread, NULL, serve_clients, it))
        stop("an instrument");
}

static void stop_instrument(struct instrument *it) {
    if (write(it->quit[1], "q", 1) != 1) stop("quit");
    pthread_join(it->thread, NULL);
    close(it->listens);
    close(it->quit[0]);
    close(it->quit[1]);
}

/* ---- a station's side of an instrument */

/* Whether the instrument takes this client. */
static int talk_to(struct instrument *it, struct lines *lines) {
    char line[LINE];
    int on = 1;
    struct linger at_once = {1, 0}; /* so that a load test doesn't use up the ports */
    *lines = (struct lines){.socket = socket(AF_INET, SOCK_STREAM, 0)};
    if (lines->socket < 0) stop("socket");
    setsockopt(lines->socket, IPPROTO_TCP, TCP_NODELAY, &on, sizeof on);
    setsockopt(lines->socket, SOL_SOCKET, SO_LINGER, &at_once, sizeof at_once);
    if (connect(lines->socket, (struct sockaddr *)&it->address, sizeof it->address)) stop("connect");
    if (read_line(lines, line) && strcmp(line, "READY") == 0) return 1;
    close(lines->socket);
    lines->socket = -1;
    return 0;
}

static void hang_up(struct lines *lines) {
    char line[LINE];
    if (lines->socket < 0) return;
    if (write_line(lines->socket, "BYE\n")) read_line(lines, line);
    close(lines->socket);
    lines->socket = -1;
}

/* What the instrument shows after a command: verb 0 set, 1 add, 2 read. */
static long command(struct lines *lines, uint32_t verb, uint32_t number) {
    char line[LINE];
    int sent = verb == 0 ? write_line(lines->socket, "CONF %u\n", number)
               : verb == 1 ? write_line(lines->socket, "ADD %u\n", number)
                           : write_line(lines->socket, "MEAS?\n");
    return sent && read_line(lines, line) ? atol(line) : -1;
}

/* ---- the script: the commands of each session, in order */

struct told_command {
    uint32_t instrument, verb, number;
};

struct told_session {
    struct told_command *commands;
    uint32_t count;
};

struct station {
    char name[17];
    uint32_t job;
    struct told_session *sessions;
    uint32_t session_count;
    /* what it did */
    long done, refused, wrong;
    double waited, worked;
    unsigned seed;
    pthread_t thread;
};

static struct station stations[MOST_JOBS];
static uint32_t station_count;
static struct lab_bench bench;
static pthread_mutex_t mutex = PTHREAD_MUTEX_INITIALIZER;
static pthread_mutex_t locks[MOST_INSTRUMENTS];
static int holder[MOST_INSTRUMENTS]; /* by locks: who holds it, for the message alone; -1 if nobody */
static enum how how = BY_BENCH;
static struct journal journal;
static uint32_t overtakes = 64;
static const char *journal_path;
static int has_journal, is_resumed;
static int is_load, gave_up;
static double ends_at;

static uint32_t number_of(const char *name) {
    for (uint32_t at = 0; at < instrument_count; at++)
        if (strcmp(instruments[at].name, name) == 0) return at;
    return 0;
}

/* Reads the sessions of a script that the bench has taken, so each line is sound. */
static void read_sessions(const char *script) {
    struct station *station = stations - 1;
    for (const char *at = script; *at; at += strcspn(at, "\n"), at += *at == '\n') {
        char line[200], words[4][40];
        size_t length = strcspn(at, "\n");
        snprintf(line, sizeof line, "%.*s", (int)(length < 199 ? length : 199), at);
        int count = sscanf(line, "%39s %39s %39s %39s", words[0], words[1], words[2], words[3]);
        if (count <= 0 || words[0][0] == '#' || strcmp(words[0], "lab") == 0 || strcmp(words[0], "end") == 0) continue;
        if (strcmp(words[0], "job") == 0) {
            station++;
        } else if (strcmp(words[0], "session") == 0) {
            station->sessions = realloc(station->sessions, (station->session_count + 1) * sizeof *station->sessions);
            if (!station->sessions) stop("memory");
            station->sessions[station->session_count++] = (struct told_session){NULL, 0};
        } else {
            struct told_session *session = &station->sessions[station->session_count - 1];
            session->commands = realloc(session->commands, (session->count + 1) * sizeof *session->commands);
            if (!session->commands) stop("memory");
            session->commands[session->count++] = (struct told_command){number_of(words[0]),
                                                                        words[1][0] == 's' ? 0u : words[1][0] == 'a' ? 1u : 2u,
                                                                        count > 2 ? (uint32_t)atol(words[2]) : 0};
        }
    }
}

/* ---- a session by the bench

   A station that waits sleeps on a condition variable of its own. Whoever asks or lets go calls `lab_settle`, which tells who holds then, and
   wakes those that waited for it. Nobody looks from time to time: whoever still waits, waits in the end for a station that works.
   (The time-out is for its message, and for sessions with patience.) */

static uint32_t waiting; /* the stations that wait, as a set of bits; under the mutex, as the bench is */
static pthread_cond_t came[MOST_JOBS];

/* What the last call did is added to the journal, if there is one, and has this number. The mutex is held. */
static uint64_t took(void) {
    return has_journal ? journal_took(&journal, &bench) : 0;
}

/* Nobody acts on what a call told before it is written. The mutex is not held. */
static void is_written(uint64_t number) {
    if (has_journal) journal_commit(&journal, number);
}

/* All that can be done is done, and those are woken whom that concerns. The mutex is held. */
static void settle(struct lab_came *told) {
    lab_settle(&bench, waiting, told);
    took();
    uint32_t woken = waiting & (told->holds | told->given_up | told->none_left);
    waiting &= ~woken;
    for (uint32_t job = 0; woken >> job; job++)
        if (woken >> job & 1) pthread_cond_signal(&came[job]);
}

/* Says who holds an instrument that this station waits for, or is before it. The mutex is held. */
static void say_who_keeps(struct station *me) {
    struct lab_keepers keepers;
    for (uint32_t at = 0; at < instrument_count; at++) {
        if (lab_keepers(&bench, me->job, at, &keepers) != LAB_DONE) return;
        uint32_t those = keepers.holding ? keepers.holding : keepers.jobs;
        for (uint32_t job = 0; those >> job; job++)
            if (those >> job & 1)
                printf("%s waits for %s, %s %s\n", me->name, instruments[at].name, keepers.holding ? "held by" : "kept for", stations[job].name);
    }
}

/* Waits until the station holds its instruments. No if it has no session left, or the time of a load test is up. (A session that its patience
   gave up is passed over: the next one is asked for.) */
static int wait_to_hold(struct station *me) {
    double start = now(), told = start;
    uint32_t bit = (uint32_t)1 << me->job;
    struct lab_came all;
    struct lab_state state;
    pthread_mutex_lock(&mutex);
    do {
        waiting |= bit;
        settle(&all);
        while (waiting & bit && (!is_load || now() < ends_at)) {
            struct timespec until = after(is_load && ends_at - now() < TIME_OUT ? ends_at - now() + 0.001 : TIME_OUT);
            if (pthread_cond_timedwait(&came[me->job], &mutex, &until) == ETIMEDOUT && waiting & bit && now() - told >= TIME_OUT) {
                told = now();
                say_who_keeps(me);
                settle(&all); /* (a session with patience counts this, once it is in line) */
            }
        }
        lab_state(&bench, me->job, &state);
    } while (state.drinking == 0 && state.session < state.sessions && (!is_load || now() < ends_at));
    waiting &= ~bit;
    uint64_t number = took();
    pthread_mutex_unlock(&mutex);
    is_written(number);
    me->waited += now() - start;
    return state.drinking == 2;
}

/* The session's commands, each at the real instrument and then in the log; then it lets go. */
static void work_by_bench(struct station *me) {
    struct lab_state state;
    struct lab_session session;
    struct lab_entry entry;
    struct lab_turned turned;
    struct lab_came all;
    struct lines lines[MOST_INSTRUMENTS];
    pthread_mutex_lock(&mutex);
    lab_state(&bench, me->job, &state);
    lab_session_of(&bench, me->job, state.session, &session);
    pthread_mutex_unlock(&mutex);
    double start = now();
    char held[MOST_INSTRUMENTS * 20] = "";
    size_t length = 0;
    for (uint32_t at = 0; at < instrument_count; at++) {
        lines[at].socket = -1;
        if (session.needs >> at & 1) {
            if (!talk_to(&instruments[at], &lines[at])) me->refused++;
            length += (size_t)sprintf(held + length, "%s%.16s", length ? ", " : "", instruments[at].name);
        }
    }
    if (state.position) printf("%s goes on with session %u, of which %u commands are done\n", me->name, state.session, state.position);
    for (size_t number = state.position; number < session.commands; number++) {
        uint32_t it = me->sessions[state.session - 1].commands[number].instrument;
        pthread_mutex_lock(&mutex);
        uint32_t status = lab_command(&bench, me->job, &entry);
        uint64_t up_to = took();
        pthread_mutex_unlock(&mutex);
        is_written(up_to);
        /* (these instruments are new in each process: after a resume the first command at each turns it to where its log says it was) */
        if (status == LAB_DONE && instruments[it].is_new && entry.verb != 0) entry.verb = 0, entry.number = entry.value;
        instruments[it].is_new = 0;
        if (status != LAB_DONE || lines[it].socket < 0) {
            me->wrong++;
            continue;
        }
        long shown = command(&lines[it], entry.verb, entry.number);
        if (shown != (long)entry.value) {
            me->wrong++;
            printf("%s: %s shows %ld, and its log %u\n", me->name, instruments[it].name, shown, entry.value);
        }
    }
    if (!is_load) sleep_for(0.010 + 0.190 * (double)rand_r(&me->seed) / RAND_MAX);
    for (uint32_t at = 0; at < instrument_count; at++) hang_up(&lines[at]);
    me->worked += now() - start;
    pthread_mutex_lock(&mutex);
    if (lab_end(&bench, me->job, &turned) != LAB_DONE) me->wrong++;
    took();
    if (waiting) settle(&all);
    uint64_t up_to = took();
    pthread_mutex_unlock(&mutex);
    is_written(up_to);
    me->done++;
    if (!is_load) printf("%-8s session %u of %u: %3.0f ms at %s\n", me->name, state.session, state.sessions, (now() - start) * 1e3, held);
}

static void *by_bench(void *given) {
    struct station *me = given;
    while ((!is_load || now() < ends_at) && wait_to_hold(me)) work_by_bench(me);
    return NULL;
}

/* ---- a session by locks */

static int by_number(const void *one, const void *other) {
    uint32_t a = *(const uint32_t *)one, b = *(const uint32_t *)other;
    return (a > b) - (a < b);
}

/* No if some lock didn't come in time. */
static int session_by_locks(struct station *me, const struct told_session *session, uint32_t number) {
    uint32_t order[MOST_INSTRUMENTS], count = 0, taken = 0;
    struct lines lines[MOST_INSTRUMENTS];
    uint64_t named = 0;
    for (uint32_t at = 0; at < session->count; at++)
        if (!(named >> session->commands[at].instrument & 1)) {
            named |= (uint64_t)1 << session->commands[at].instrument;
            order[count++] = session->commands[at].instrument;
        }
    if (how == BY_SORTED_LOCKS) qsort(order, count, sizeof *order, by_number);
    double start = now();
    int in_time = 1;
    for (; taken < count; taken++) {
        struct timespec until = after(how == BY_LOCKS ? LOCK_TIME_OUT : SORTED_TIME_OUT);
        uint32_t it = order[taken];
        if (pthread_mutex_timedlock(&locks[it], &until)) {
            int who = __atomic_load_n(&holder[it], __ATOMIC_RELAXED);
            printf("%-8s session %u: has waited too long for %s, which %s holds\n", me->name, number, instruments[it].name,
                   who < 0 ? "nobody" : stations[who].name);
            in_time = 0;
            break;
        }
        __atomic_store_n(&holder[it], (int)me->job, __ATOMIC_RELAXED);
        if (!talk_to(&instruments[it], &lines[it])) me->refused++;
        else if (!is_load) sleep_for(0.030); /* an instrument is warmed up before the next one is taken, as people do */
    }
    me->waited += now() - start;
    if (in_time) {
        for (uint32_t at = 0; at < session->count; at++) {
            struct told_command it = session->commands[at];
            if (lines[it.instrument].socket < 0 || command(&lines[it.instrument], it.verb, it.number) < 0) me->wrong++;
        }
        if (!is_load) sleep_for(0.010 + 0.190 * (double)rand_r(&me->seed) / RAND_MAX);
        me->done++;
        if (!is_load) printf("%-8s session %u of %u: %3.0f ms\n", me->name, number, me->session_count, (now() - start) * 1e3);
    } else {
        /* the others time out too, as long as nobody gives up what it has */
        sleep_for(LOCK_TIME_OUT);
    }
    while (taken-- > 0) {
        hang_up(&lines[order[taken]]);
        __atomic_store_n(&holder[order[taken]], -1, __ATOMIC_RELAXED);
        pthread_mutex_unlock(&locks[order[taken]]);
    }
    return in_time;
}

static void *by_locks(void *given) {
    struct station *me = given;
    for (uint32_t at = 0; at < me->session_count && !__atomic_load_n(&gave_up, __ATOMIC_RELAXED); at++) {
        if (is_load && now() >= ends_at) break;
        if (!session_by_locks(me, &me->sessions[at], at + 1)) {
            __atomic_store_n(&gave_up, 1, __ATOMIC_RELAXED);
            break;
        }
    }
    return NULL;
}

/* ---- the whole */

static char *script_of(const char *path) {
    FILE *file = fopen(path, "rb");
    char *script = malloc(1 << 20);
    if (!file || !script) stop(path);
    script[fread(script, 1, (1 << 20) - 1, file)] = 0;
    fclose(file);
    return script;
}

/* A script for a load test: this many stations with this many sessions, each at two or three of six instruments, in any order. */
static char *script_for(uint32_t threads, long sessions) {
    static const char *const names[] = {"scope", "supply-1", "supply-2", "meter", "generator", "analyser"};
    size_t room = (size_t)threads * (size_t)sessions * 120 + 1000, length;
    char *script = malloc(room);
    unsigned seed = 1;
    if (!script) stop("memory");
    length = (size_t)sprintf(script, "lab 1\n");
    for (uint32_t job = 0; job < threads; job++) {
        length += (size_t)sprintf(script + length, "job station-%u\n", job + 1);
        for (long session = 0; session < sessions; session++) {
            unsigned first = (unsigned)rand_r(&seed) % 6, step = 1 + (unsigned)rand_r(&seed) % 2, count = 2 + (unsigned)rand_r(&seed) % 2;
            length += (size_t)sprintf(script + length, "session\n");
            for (unsigned at = 0; at < count; at++) length += (size_t)sprintf(script + length, "%s add %u\n", names[(first + at * step) % 6], at + 1);
            length += (size_t)sprintf(script + length, "end\n");
        }
    }
    return script;
}

static void open_bench(const char *script) {
    struct lab_told told = {0, 0, 0};
    struct lab_size size;
    size_t length;
    uint32_t status = LAB_DONE;
    if (journal_path) is_resumed = journal_open(&journal, journal_path, 1, script, &bench);
    else status = lab_bench_open((const uint8_t *)script, strlen(script), &bench, &told);
    has_journal = journal_path != NULL;
    if (status != LAB_DONE) {
        fprintf(stderr, "the script: status %u, line %zu, cause %u\n", status, told.line, told.cause);
        exit((int)status);
    }
    lab_overtakes(&bench, overtakes); /* (no journal has it) */
    lab_bench_size(&bench, &size);
    station_count = (uint32_t)size.jobs;
    instrument_count = (uint32_t)size.instruments;
    for (uint32_t at = 0; at < instrument_count; at++) {
        lab_instrument_name(&bench, at, (uint8_t *)instruments[at].name, 16, &length);
        instruments[at].name[length] = 0;
        instruments[at].is_new = is_resumed;
    }
    for (uint32_t at = 0; at < station_count; at++) {
        lab_job_name(&bench, at, (uint8_t *)stations[at].name, 16, &length);
        stations[at].name[length] = 0;
        stations[at].job = at;
    }
}

/* Retires the stations that have no session left, and closes the bench; the last line of its report says whether all of them are. */
static uint32_t close_bench(int prints) {
    struct lab_told told = {0, 0, 0};
    struct lab_turned turned;
    for (uint32_t job = 0; job < station_count; job++) {
        lab_retire(&bench, job, 1, &turned);
        is_written(took());
    }
    uint8_t none[1];
    uint32_t status = lab_bench_close(&bench, none, 0, &told);
    uint8_t *report = malloc(told.written);
    if (status == LAB_NO_ROOM && report) status = lab_bench_close(&bench, report, told.written, &told);
    if (prints && report && (status == LAB_DONE || status == LAB_UNFINISHED)) fwrite(report, 1, told.written, stdout);
    free(report);
    lab_bench_free(&bench);
    return status;
}

/* A new bench starts with its dials at 0, and so do the instruments. */
static void turn_to_zero(void) {
    struct lines lines;
    for (uint32_t at = 0; at < instrument_count; at++) {
        if (talk_to(&instruments[at], &lines)) command(&lines, 0, 0);
        hang_up(&lines);
    }
}

static int run_all(void *(*way)(void *)) {
    for (uint32_t at = 0; at < station_count; at++)
        if (pthread_create(&stations[at].thread, NULL, way, &stations[at])) stop("a station");
    for (uint32_t at = 0; at < station_count; at++) pthread_join(stations[at].thread, NULL);
    return gave_up;
}

static long sessions_done(void) {
    long done = 0;
    for (uint32_t at = 0; at < station_count; at++) done += stations[at].done;
    return done;
}

static int usage(void) {
    fputs("broker [--how bench|locks|sorted] [--overtakes N] [--journal FILE | --threads N --seconds S | --threads N --sessions M] [SCRIPT]\n", stderr);
    return 2;
}

int main(int count, char **words) {
    const char *path = "examples/broker/bay.lab";
    long threads = 0, seconds = 0, wanted = 0;
    for (int at = 1; at < count; at++) {
        const char *next = at + 1 < count ? words[at + 1] : "";
        if (strcmp(words[at], "--how") == 0 && strcmp(next, "bench") == 0) how = BY_BENCH, at++;
        else if (strcmp(words[at], "--how") == 0 && strcmp(next, "locks") == 0) how = BY_LOCKS, at++;
        else if (strcmp(words[at], "--how") == 0 && strcmp(next, "sorted") == 0) how = BY_SORTED_LOCKS, at++;
        else if (strcmp(words[at], "--journal") == 0 && *next) journal_path = next, at++;
        else if (strcmp(words[at], "--overtakes") == 0) overtakes = (uint32_t)atol(next), at++;
        else if (strcmp(words[at], "--threads") == 0) threads = atol(next), at++;
        else if (strcmp(words[at], "--seconds") == 0) seconds = atol(next), at++;
        else if (strcmp(words[at], "--sessions") == 0) wanted = atol(next), at++;
        else if (words[at][0] == '-') return usage();
        else path = words[at];
    }
    is_load = threads || seconds || wanted;
    if (journal_path && (is_load || how != BY_BENCH)) return usage();
    if (is_load && (threads < 2 || threads > 32 || seconds < 0 || seconds > 3600 || wanted < 0 || !seconds == !wanted)) return usage();
    setvbuf(stdout, NULL, _IOLBF, 0);
    /* (a script has at most 1000 sessions of a job) */
    long each = wanted && wanted < threads * 1000 ? (wanted + threads - 1) / threads : 1000;
    char *script = is_load ? script_for((uint32_t)threads, each) : script_of(path);
    open_bench(script);
    read_sessions(script);
    for (uint32_t at = 0; at < instrument_count; at++) {
        start_instrument(&instruments[at]);
        pthread_mutex_init(&locks[at], NULL);
        holder[at] = -1;
    }
    for (uint32_t at = 0; at < station_count; at++) {
        stations[at].seed = at + 1;
        pthread_cond_init(&came[at], NULL);
    }

    double start = now();
    uint32_t status = LAB_DONE;
    long passes = 0;
    int more = 0;
    ends_at = wanted ? start + 1e9 : start + (double)seconds;
    do {
        if (how == BY_BENCH) {
            run_all(by_bench);
            status = close_bench(!is_load);
            if (status != LAB_DONE && status != LAB_UNFINISHED) break;
            turn_to_zero();
        } else if (run_all(by_locks)) {
            break;
        }
        passes++;
        more = wanted ? sessions_done() < wanted : is_load ? now() < ends_at : how == BY_LOCKS && passes < MOST_PASSES;
        if (more && how == BY_BENCH) open_bench(script);
    } while (more);
    double took = now() - start;
    if (how != BY_BENCH) lab_bench_free(&bench);
    for (uint32_t at = 0; at < instrument_count; at++) stop_instrument(&instruments[at]);

    long sessions = 0, refused = 0, wrong = 0, clients = 0;
    for (uint32_t at = 0; at < station_count; at++) {
        struct station *it = &stations[at];
        if (!is_load) printf("%-8s %ld sessions, worked %.2f s, waited %.2f s\n", it->name, it->done, it->worked, it->waited);
        sessions += it->done;
        wrong += it->wrong;
        for (uint32_t session = 0; session < it->session_count; session++) free(it->sessions[session].commands);
        free(it->sessions);
    }
    for (uint32_t at = 0; at < instrument_count; at++) {
        if (!is_load) printf("%-9s %ld clients, refused %ld\n", instruments[at].name, instruments[at].clients, instruments[at].refused);
        clients += instruments[at].clients;
        refused += instruments[at].refused;
    }
    free(script);
    printf("%ld sessions in %.1f s, %.0f a second; %ld clients, refused %ld, wrong numbers %ld%s\n", sessions, took, (double)sessions / took, clients,
           refused, wrong, gave_up ? "; dead-lock" : "");
    if (gave_up) return 4;
    if (refused || wrong) return 1;
    return how == BY_BENCH && !is_load ? (int)status : 0;
}
