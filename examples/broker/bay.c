/* A whole shell of the bay (include/labrun_bay.h): threads that share instruments, with a journal. Killed and called again, it goes on where
   it was.

     cc -O2 -pthread -I include examples/broker/bay.c FOLDER/liblabrun.a -o bay
     ./bay FOLDER [STATIONS [SESSIONS [WORK]]]     4 stations do 10 sessions each, of up to 20 ms, at five instruments, and each waits for one
                                                   of two sets. FOLDER is there; the journal and the instruments are files in it

   The first part is the shell, as you could take it. Then come what is an instrument here, and what is a station.

   An instrument is a file with a lock, that goes to one client at a time; that is asked for without waiting, so a bay that lets two in is
   seen by the lock. A client that works adds a line `began`, and then a line `did`, each with the number of its ask. So an instrument can say
   what it did last, and whoever was killed in the middle asks it: nothing is done twice. */
#define _DEFAULT_SOURCE
#include "bay_shell.h"
#include "labrun_bay.h"
#include <inttypes.h>
#include <pthread.h>

#define MOST 32          /* stations */
#define NOTHING_YET 99u  /* beside what an ask is told */
#define PAUSE 20         /* milliseconds after a write that failed */

/* ---- the shell */

/* Whoever asks: one ask at a time, and one thread that waits for it. */
struct asker {
    uint64_t owner, number; /* the number is that of its last ask */
    uint64_t needs;         /* what it was told that it holds */
    uint32_t what;          /* what it was told last */
    pthread_cond_t is_told;
};

static struct lab_bay bay;
static struct shell_file file;
static struct asker askers[MOST];
static uint32_t asker_count;
/* of all that stands here, and of every call; only the writer has the file */
static pthread_mutex_t mutex = PTHREAD_MUTEX_INITIALIZER;
static pthread_cond_t writer_looks = PTHREAD_COND_INITIALIZER, timer_looks = PTHREAD_COND_INITIALIZER, is_written = PTHREAD_COND_INITIALIZER;
static uint64_t next_number = 1, last_serial, durable_to, timer_wakes;
static int is_closing;

/* A call that can't be refused here was refused: the shell is wrong, and ends before anybody relies on it. */
static void must(uint32_t status, const char *what) {
    char why[40];
    snprintf(why, sizeof why, "status %" PRIu32, status);
    if (status != LAB_DONE) fails(what, why);
}

/* After each call, with the mutex still held: what follows from it is told, and whoever has to do something is woken. */
static void pump(void) {
    struct lab_outcome it;
    uint64_t next;
    /* the timer is woken only for a moment that comes before the one that it sleeps until */
    must(lab_bay_time(&bay, now(), &next), "time");
    if (next < timer_wakes) {
        timer_wakes = next;
        pthread_cond_signal(&timer_looks);
    }
    /* (the serial number is given back with the next tell, when the asker has what it was told: so nothing is lost between the two) */
    for (; lab_bay_tell(&bay, last_serial, &it) == LAB_DONE; last_serial = it.serial)
        for (uint32_t at = 0; at < asker_count; at++)
            if (askers[at].number == it.number) {
                askers[at].what = it.what;
                askers[at].needs = it.what == LAB_HOLDS ? it.needs : 0;
                pthread_cond_signal(&askers[at].is_told);
            }
    pthread_cond_signal(&writer_looks); /* (it sees for itself whether there is text) */
}

/* Writes what there is, whatever has come meanwhile: those who ask while the disk is busy share the next write. */
static void *writer(void *given) {
    size_t room = 4096, length;
    uint64_t position;
    uint8_t *text = NULL;
    pthread_mutex_lock(&mutex);
    for (;;) {
        if (!text && !(text = malloc(room))) fails("writer", "no memory");
        uint32_t status = lab_bay_journal(&bay, text, room, &length, &position);
        if (status == LAB_NO_ROOM) {
            room = 2 * length;
            free(text);
            text = NULL;
        } else if (status == LAB_DONE && length == 0) {
            if (is_closing) break;
            pthread_cond_wait(&writer_looks, &mutex);
        } else {
            /* without the mutex: others call meanwhile, and the disk keeps nobody waiting who doesn't wait for it. (With too little memory
               nothing was handed out, and it is asked for again.) */
            pthread_mutex_unlock(&mutex);
            int is_done = status == LAB_DONE && file_add(&file, text, length);
            if (!is_done) pause_for(PAUSE);
            pthread_mutex_lock(&mutex);
            if (is_done) must(lab_bay_durable(&bay, durable_to = position), "durable");
            else if (status == LAB_DONE) must(lab_bay_failed(&bay), "failed");
            pthread_cond_broadcast(&is_written);
            pump();
        }
    }
    pthread_mutex_unlock(&mutex);
    free(text);
    return given;
}

/* A thread of its own, and not the writer: deadlines pass, and are told, while the disk hangs. */
static void *timer(void *given) {
    pthread_mutex_lock(&mutex);
    while (!is_closing) {
        timer_wakes = LAB_NEVER;
        pump();
        struct timespec until = {(time_t)(timer_wakes / 1000), (long)(timer_wakes % 1000) * 1000000};
        if (timer_wakes == LAB_NEVER) pthread_cond_wait(&timer_looks, &mutex);
        else pthread_cond_timedwait(&timer_looks, &mutex, &until);
    }
    pthread_mutex_unlock(&mutex);
    return given;
}

/* Waits until one of the sets is held, and that is on the disk, and gives it. 0 if none is held: `what` says why. (A thread that may be stopped while it waits
   has to call `lab_bay_leave`, from wherever it is stopped.) */
static uint64_t hold(struct asker *me, const uint64_t *sets, size_t count, uint64_t deadline) {
    pthread_mutex_lock(&mutex);
    struct lab_asked asked = {.number = next_number++, .owner = {0, me->owner}, .deadline = deadline, .limit = LAB_NEVER};
    me->number = asked.number;
    me->what = NOTHING_YET;
    must(lab_bay_ask(&bay, &asked, sets, count, now()), "ask");
    pump();
    while (me->what == NOTHING_YET) pthread_cond_wait(&me->is_told, &mutex);
    uint64_t needs = me->needs;
    pthread_mutex_unlock(&mutex);
    return needs;
}

/* Lets go, and waits until that is on the disk: who says that it is over isn't asked about it again after a crash. */
static void let_go(struct asker *me) {
    pthread_mutex_lock(&mutex);
    uint32_t status = lab_bay_let_go(&bay, me->number, now());
    if (status != LAB_BAY_OVER) must(status, "let go"); /* (somebody may have taken it away: that was told) */
    pump();
    while (me->what == LAB_HOLDS) pthread_cond_wait(&me->is_told, &mutex);
    pthread_mutex_unlock(&mutex);
}

/* Notes what is about to be done; it is on the disk when this returns. */
static void note(struct asker *me, const char *text) {
    uint64_t position;
    pthread_mutex_lock(&mutex);
    must(lab_bay_note(&bay, me->number, (const uint8_t *)text, strlen(text), &position), "note");
    pump();
    while (durable_to < position) pthread_cond_wait(&is_written, &mutex);
    pthread_mutex_unlock(&mutex);
}

/* Opens the bay, as the journal has it if there is one. What the journal has, line by line, is for the caller to read and to free. */
static char *open_bay(const char *path, const struct lab_class *classes, size_t count, const struct lab_terms *terms) {
    size_t length, used = 0;
    uint64_t fault = 0;
    char *text = file_open(&file, path, &length);
    /* (whoever was killed in the first write left a file without a whole line, in which nobody was told anything: it is begun again) */
    if (!memchr(text, '\n', length)) must(lab_bay_open(classes, count, terms, &bay), path);
    else must(lab_bay_resume(classes, count, terms, (const uint8_t *)text, length, now(), &bay, &used, &fault), path);
    text[used] = 0;
    durable_to = used;
    /* The bay takes it that what was read is durable. But what a process wrote just before it was killed may be in memory alone: a power cut
       would take it, after somebody was told. So it is on the disk first; and what hangs over isn't left in front of the next line. (It is
       written again, because a sync that failed before that process died may have left bytes that the system takes for written; where a full
       disk doesn't take even the same bytes, there is the sync alone.) */
    if (!file_cut(&file, used) || (!file_put(&file, (const uint8_t *)text, used, 0) && errno != ENOSPC) || !file_sync(&file) ||
        (!used && !file_sync_name(path)))
        fails(path, strerror(errno));
    return text;
}

/* Whoever held is there again, before any thread is: its ask goes on, with what it holds. 0 if the ask is over. */
static uint64_t come_back(struct asker *me) {
    uint32_t status = me->number ? lab_bay_back(&bay, me->number, 0, me->owner, now(), &me->needs) : LAB_BAY_OVER;
    if (status == LAB_BAY_OVER) return 0;
    must(status, "back");
    me->what = LAB_HOLDS;
    return me->needs;
}

/* ---- an instrument */

#define INSTRUMENTS 5
#define LINE 64 /* bytes; no line goes over the end of a page, so none is written by half when the program is killed */

static const char *const names[INSTRUMENTS] = {"scope", "supply", "meter", "generator", "analyser"};
static char folder[4000];

static const char *in_folder(char *path, size_t room, const char *name) {
    snprintf(path, room, "%s/%s", folder, name);
    return path;
}

static void adds(int instrument, const char *what, uint64_t ask, uint32_t station, uint32_t session) {
    char line[LINE + 1];
    snprintf(line, sizeof line, "%-5s %016" PRIx64 " %8" PRIu32 " %8" PRIu32 " %22ld\n", what, ask, station, session, (long)getpid());
    if (write(instrument, line, LINE) != LINE) fails("an instrument", strerror(errno));
}

/* The instrument's lock, or the end of the program. */
static int taken(const char *name) {
    char path[4100];
    int it = open(in_folder(path, sizeof path, name), O_RDWR | O_CREAT | O_APPEND | O_CLOEXEC, 0666);
    if (it < 0) fails(name, strerror(errno));
    if (flock(it, LOCK_EX | LOCK_NB)) fails(name, "it has another client");
    return it;
}

static int has_done(int instrument, uint64_t ask) {
    char line[LINE + 1] = "", wanted[32];
    off_t end = lseek(instrument, 0, SEEK_END);
    snprintf(wanted, sizeof wanted, "did   %016" PRIx64, ask);
    return end >= LINE && pread(instrument, line, LINE, end - LINE) == LINE && !strncmp(line, wanted, strlen(wanted));
}

/* ---- a station */

struct station {
    struct asker *asker;
    uint64_t needs;         /* what it holds */
    uint32_t number, noted; /* up to which of its sessions it has noted them, and by which ask the last one */
    uint64_t noted_by;
    uint32_t done, lapsed;
    unsigned seed;
    pthread_t thread;
};

static struct station stations[MOST];
static uint32_t sessions = 10, longest = 20;

static void names_of(char *text, size_t room, uint64_t needs) {
    size_t length = 0;
    *text = 0;
    for (uint32_t at = 0; at < INSTRUMENTS; at++)
        if (needs >> at & 1) length += (size_t)snprintf(text + length, room - length, " %s", names[at]);
}

/* What the ask holds is worked with. Of a session that was noted, and then the program was killed, each instrument says whether it did it. */
static void work(struct station *me) {
    int its[INSTRUMENTS];
    char text[100];
    uint64_t ask = me->asker->number, needs = me->needs;
    names_of(text, sizeof text, needs);
    printf("ask %" PRIu64 ": station %" PRIu32 " holds%s\n", ask, me->number, text);
    if (me->noted_by != ask) {
        me->noted_by = ask;
        snprintf(text, sizeof text, "session %" PRIu32 " of station %" PRIu32, ++me->noted, me->number);
        note(me->asker, text);
    }
    for (uint32_t at = 0; at < INSTRUMENTS; at++) {
        its[at] = needs >> at & 1 ? taken(names[at]) : -1;
        if (its[at] >= 0 && has_done(its[at], ask)) close(its[at]), its[at] = -1;
        if (its[at] >= 0) adds(its[at], "began", ask, me->number, me->noted);
    }
    pause_for((uint64_t)rand_r(&me->seed) % (longest + 1));
    for (uint32_t at = 0; at < INSTRUMENTS; at++)
        if (its[at] >= 0) adds(its[at], "did", ask, me->number, me->noted), close(its[at]);
    let_go(me->asker);
    me->done++;
    printf("ask %" PRIu64 ": station %" PRIu32 " is over with session %" PRIu32 "\n", ask, me->number, me->noted);
}

/* Who held when the program was killed, and is back, does that session and lets go first: an owner has one ask. */
static void *runs(void *given) {
    struct station *me = given;
    if (me->needs) work(me);
    while (me->noted < sessions) {
        uint64_t one = 1u << rand_r(&me->seed) % INSTRUMENTS, two = 1u << rand_r(&me->seed) % INSTRUMENTS;
        uint64_t sets[2] = {one | two, (two << 1 | two >> (INSTRUMENTS - 1)) & ((1u << INSTRUMENTS) - 1)};
        for (uint64_t patience = 1 + longest; !(me->needs = hold(me->asker, sets, 2, now() + patience)); patience *= 2) {
            me->lapsed++;
            printf("ask %" PRIu64 ": station %" PRIu32 " waited in vain (%s)\n", me->asker->number, me->number,
                   me->asker->what == LAB_LAPSED ? "lapsed" : "not written in time");
        }
        work(me);
    }
    return NULL;
}

/* Whose ask is back, by the bay; and which session of each station was noted by which ask, by the journal. */
static void who_is_back(char *journal) {
    struct lab_standing it;
    uint64_t least;
    char *rest;
    for (size_t at = 0; lab_bay_look(&bay, at, &it, &least) == LAB_DONE; at++)
        if (it.owner[1] - 1 < asker_count) askers[it.owner[1] - 1].number = it.number;
    if (least > next_number) next_number = least;
    for (char *line = strtok_r(journal, "\n", &rest); line; line = strtok_r(NULL, "\n", &rest)) {
        uint64_t ask;
        uint32_t session, number;
        /* (a sum of 16 digits and a blank are before the words: docs/BAY.md) */
        if (sscanf(line + 17, "note %16" SCNx64 " session %" SCNu32 " of station %" SCNu32, &ask, &session, &number) == 3 && number - 1 < asker_count)
            stations[number - 1].noted = session, stations[number - 1].noted_by = ask;
    }
}

int main(int count, char **words) {
    char path[4100], text[100];
    asker_count = count > 2 ? (uint32_t)atoi(words[2]) : 4;
    sessions = count > 3 ? (uint32_t)atoi(words[3]) : sessions;
    longest = count > 4 ? (uint32_t)atoi(words[4]) : longest;
    if (count < 2 || count > 5 || asker_count < 1 || asker_count > MOST || longest > 1000)
        return fputs("bay FOLDER [STATIONS [SESSIONS [WORK]]]\n", stderr), 2;
    snprintf(folder, sizeof folder, "%s", words[1]);
    setvbuf(stdout, NULL, _IOLBF, 0);
    uint64_t start = now();
    /* three may hold at once; a station that doesn't come back for ten seconds loses what it held */
    struct lab_class all = {.uses = (1u << INSTRUMENTS) - 1, .places = 3};
    struct lab_terms terms = {.bay = "five instruments of bay.c", .line = 2 * MOST, .grace = 10000, .disk = 1000, .overtakes = 4, .keeps = 1};
    char *journal = open_bay(in_folder(path, sizeof path, "journal"), &all, 1, &terms);
    who_is_back(journal);
    free(journal);
    uint32_t back = 0, done = 0, lapsed = 0;
    for (uint32_t at = 0; at < asker_count; at++) {
        askers[at].owner = at + 1; /* (if others can speak for an ask: 128 bits that nobody guesses) */
        pthread_cond_init(&askers[at].is_told, NULL);
        stations[at].asker = &askers[at];
        stations[at].number = at + 1;
        stations[at].seed = at + (unsigned)start;
        stations[at].needs = come_back(&askers[at]);
        if (!stations[at].needs) continue;
        back++;
        names_of(text, sizeof text, stations[at].needs);
        printf("ask %" PRIu64 ": station %" PRIu32 " is back at%s\n", askers[at].number, at + 1, text);
    }
    printf("%" PRIu32 " are back\n", back);

    pthread_t writes, times;
    if (pthread_create(&writes, NULL, writer, NULL) || pthread_create(&times, NULL, timer, NULL)) fails("a thread", strerror(errno));
    for (uint32_t at = 0; at < asker_count; at++)
        if (pthread_create(&stations[at].thread, NULL, runs, &stations[at])) fails("a thread", strerror(errno));
    for (uint32_t at = 0; at < asker_count; at++) {
        pthread_join(stations[at].thread, NULL);
        done += stations[at].done;
        lapsed += stations[at].lapsed;
    }
    pthread_mutex_lock(&mutex);
    is_closing = 1;
    pthread_cond_signal(&writer_looks);
    pthread_cond_signal(&timer_looks);
    pthread_mutex_unlock(&mutex);
    pthread_join(writes, NULL);
    pthread_join(times, NULL);
    lab_bay_free(&bay);
    close(file.file);
    printf("%" PRIu32 " stations did %" PRIu32 " sessions in %" PRIu64 " ms; %" PRIu32 " asks in vain\n", asker_count, done, now() - start, lapsed);
    return 0;
}
