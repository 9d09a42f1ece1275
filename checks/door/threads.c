/* threads.c FOLDER SCRIPT ..            each script by threads that share one handle (drive.h)
   threads.c -s SECONDS FOLDER SCRIPT .. the same 32 threads again and again, for so long

   Freely, a thread works without the mutex, and sleeps on a condition variable until lab_settle told that a job of its own holds; whoever
   then looks without being woken finds nothing. Anyhow, any thread makes any call for any job, and the bench is closed in the midst of
   it. After each call no two jobs hold one instrument, and after each lab_settle nothing is left to do, and who waits, waits in the end
   for one that holds.
   cc -pthread -I include checks/door/threads.c FOLDER/liblabrun.a */
#define _POSIX_C_SOURCE 200809L
#include "drive.h"
#include <errno.h>

static struct lab_bench bench;
static pthread_cond_t changed = PTHREAD_COND_INITIALIZER;
static uint32_t waiting;     /* freely: the jobs whose threads wait */
static struct lab_came came; /* what lab_settle told last */

static uint32_t state_of(uint32_t job, struct lab_state *state) { return lab_state(&bench, job, state); }

/* What a job's session is; all zero if it is in none. */
static struct lab_session session_now(uint32_t job, struct lab_state *state) {
    struct lab_session session = {0, 0, 0, 0};
    if (lab_state(&bench, job, state) == LAB_DONE) lab_session_of(&bench, job, state->session, &session);
    return session;
}

/* ---- in turn */

#define MORE_ROOM 65536

static struct text journal; /* the script, and behind it each text that was taken */
static size_t journal_room;

static void write_behind(const void *bytes, size_t length) {
    if (journal.length + length > journal_room) {
        journal_room = journal.length + length + MORE_ROOM;
        journal.bytes = (uint8_t *)realloc(journal.bytes, journal_room);
        if (!journal.bytes) exit(70);
    }
    memcpy(journal.bytes + journal.length, bytes, length);
    journal.length += length;
}

static void begin_journal(struct text script) {
    journal = (struct text){NULL, 0};
    journal_room = 0;
    write_behind(script.bytes, script.length);
    if (script.length && script.bytes[script.length - 1] != '\n') write_behind("\n", 1);
    write_behind("steps\n", 6);
}

static uint32_t take_journal(void) {
    static uint8_t text[1 << 20];
    size_t written = 0;
    uint32_t status = lab_journal(&bench, text, sizeof text, &written);
    if (status == LAB_DONE) write_behind(text, written);
    return status;
}

static struct text journal_of(void) { return journal; }

/* A command of the session that the job holds, or its end; a retire, if no session is left; else it is waited for. */
static uint32_t next_call(uint32_t job) {
    struct lab_state state;
    struct lab_turned turned;
    struct lab_entry entry;
    struct lab_came came_now;
    struct lab_session session = session_now(job, &state);
    if (state.drinking == 4) return LAB_DONE;
    if (state.drinking == 2 && state.position < session.commands) return lab_command(&bench, job, &entry);
    if (state.drinking == 2) return lab_end(&bench, job, &turned);
    if (state.drinking == 1 || state.session < state.sessions) return lab_settle(&bench, 1u << job, &came_now);
    uint32_t status = lab_retire(&bench, job, 1, &turned);
    return status == LAB_NOT_YET ? LAB_DONE : status; /* (it may owe a meal) */
}

static uint32_t one_turn(uint32_t job) {
    uint32_t status = next_call(job);
    return status == LAB_DONE ? take_journal() : status;
}

/* ---- freely */

/* All jobs from which a chain of keepers leads to one that holds. */
static uint32_t with_reason(uint32_t holds) {
    uint32_t found = holds;
    for (uint32_t before = 0; before != found;) {
        before = found;
        for (uint32_t job = 0; job < shop.size.jobs; job++)
            for (uint32_t instrument = 0; !(found >> job & 1) && instrument < shop.size.instruments; instrument++) {
                struct lab_keepers keepers = {0, 0};
                lab_keepers(&bench, job, instrument, &keepers);
                if (keepers.holding & ~keepers.jobs || keepers.holding & (keepers.holding - 1)) expect(0, "%s: keepers of job %u", shop.name, job);
                if (keepers.jobs & found) found |= 1u << job;
            }
    }
    return found;
}

/* Nobody sleeps for nothing: this is so after each lab_settle. */
static void look_at_reasons(void) {
    uint32_t thirsty = 0, holds = 0;
    struct lab_state state;
    struct lab_came again = {9, 9, 9, 9};
    for (uint32_t job = 0; job < shop.size.jobs; job++)
        if (lab_state(&bench, job, &state) == LAB_DONE) {
            if (state.drinking == 1) thirsty |= 1u << job;
            if (state.drinking == 2 || state.drinking == 3) holds |= 1u << job;
        }
    expect((thirsty & ~with_reason(holds)) == 0, "%s: jobs %x wait, %x hold, and %x have no reason to wait", shop.name, thirsty, holds,
           thirsty & ~with_reason(holds));
    if (shop.has_patience) return; /* (the call counts) */
    expect(lab_settle(&bench, 0, &again) == LAB_DONE && again.deeds == 0 && again.holds == holds && again.given_up == 0, "%s: %u deeds were left", shop.name,
           again.deeds);
}

/* All that can be done is done, and whom that concerns is woken. */
static void settle(struct worker *me) {
    uint32_t status = lab_settle(&bench, waiting, &came);
    expect(status == LAB_DONE && (waiting & came.none_left) == came.none_left, "%s: lab_settle: status %u", shop.name, status);
    if (chance(me, 8) == 0) look_at_reasons();
    if (waiting & (came.holds | came.none_left)) pthread_cond_broadcast(&changed);
}

/* One session that the job holds. The mutex is held at the call and after it, and not during the work. */
static void work(struct worker *me, uint32_t job) {
    struct lab_state state;
    struct lab_turned turned;
    struct lab_entry entry;
    struct lab_session session = session_now(job, &state);
    expect(state.drinking == 2 && state.position == 0 && session.needs != 0, "%s: job %u doesn't hold", shop.name, job);
    pthread_mutex_unlock(&shop.mutex);
    raise_counts(session.needs);
    if (chance(me, 4) == 0) sleep_for(chance(me, 300)); else sched_yield();
    pthread_mutex_lock(&shop.mutex);
    uint32_t some = chance(me, (uint32_t)session.commands + 1);
    for (uint32_t command = 0; command < some; command++) {
        memset(&entry, 0xee, sizeof entry);
        uint32_t status = lab_command(&bench, job, &entry);
        expect(status == LAB_DONE && entry.session == state.session && 1 <= entry.place && entry.place <= entry.length && entry.verb <= 2
                   && entry.value <= 999999 && (entry.verb != 0 || entry.value == entry.number) && (entry.verb != 2 || entry.number == 0),
               "%s: command %u of job %u: status %u", shop.name, command, job, status);
        if (chance(me, 2) == 0) {
            pthread_mutex_unlock(&shop.mutex);
            sched_yield();
            pthread_mutex_lock(&shop.mutex);
        }
    }
    lower_counts(session.needs);
    uint32_t status = lab_end(&bench, job, &turned);
    expect(status == LAB_DONE && turned.what == 2, "%s: the end of a session of job %u: status %u", shop.name, job, status);
    atomic_fetch_add(&shop.sessions, 1);
}

static void *go_freely(void *given) {
    struct worker *me = given;
    struct lab_turned turned;
    uint32_t mine = 0;
    double last = now();
    for (uint32_t job = me->number; job < shop.size.jobs; job += shop.threads) mine |= 1u << job;
    pthread_mutex_lock(&shop.mutex);
    waiting |= mine;
    settle(me);
    while (mine && !shop.stop) {
        waiting &= ~(mine & came.none_left);
        mine &= ~came.none_left;
        uint32_t holding = mine & came.holds;
        if (holding) {
            uint32_t job = (uint32_t)__builtin_ctz(holding);
            waiting &= ~(1u << job);
            work(me, job);
            waiting |= 1u << job;
            settle(me);
            last = now();
            continue;
        }
        if (!mine) break;
        if (shop.has_patience && chance(me, 16) == 0 && lab_withdraw(&bench, (uint32_t)__builtin_ctz(mine)) == LAB_DONE) {
            settle(me);
            continue;
        }
        struct timespec until;
        clock_gettime(CLOCK_REALTIME, &until);
        until.tv_nsec += shop.has_patience ? 1000000 : 500000000;
        if (until.tv_nsec >= 1000000000) until.tv_sec++, until.tv_nsec -= 1000000000;
        if (pthread_cond_timedwait(&changed, &shop.mutex, &until) == ETIMEDOUT && !(mine & (came.holds | came.none_left))) {
            settle(me);
            expect(shop.has_patience || came.deeds == 0, "%s: something was left to do, and nobody was woken for it", shop.name);
            if (now() - last > PATIENCE_SECONDS) {
                expect(0, "%s: thread %u of %u waited for %d seconds", shop.name, me->number, shop.threads, PATIENCE_SECONDS);
                shop.stop = 1;
            }
        }
    }
    /* (the last thread to come here finds nobody in a meal) */
    for (uint32_t job = 0; job < shop.size.jobs; job++) lab_retire(&bench, job, 1, &turned);
    pthread_cond_broadcast(&changed);
    pthread_mutex_unlock(&shop.mutex);
    return NULL;
}

/* ---- anyhow */

static void look_at_all(void) {
    uint64_t held = 0;
    struct lab_state state;
    for (uint32_t job = 0; job < shop.size.jobs; job++) {
        struct lab_session session = session_now(job, &state);
        if (state.drinking == 2 || state.drinking == 3) {
            if (held & session.needs) expect(0, "%s: two hold one instrument", shop.name);
            held |= session.needs;
        }
    }
}

static void *go_anyhow(void *given) {
    struct worker *me = given;
    for (long left = shop.calls; left > 0; left--) {
        struct lab_turned turned;
        struct lab_state state;
        struct lab_session session;
        struct lab_planned planned;
        struct lab_entry entry;
        struct lab_told told;
        struct lab_keepers keepers;
        struct lab_outside outside;
        uint32_t status;
        size_t written;
        uint8_t name[16];
        uint32_t job = chance(me, 20) == 0 ? (uint32_t)shop.size.jobs + chance(me, 3) : chance(me, (uint32_t)shop.size.jobs);
        pthread_mutex_lock(&shop.mutex);
        switch (chance(me, 16)) {
        case 0: status = lab_planned(&bench, job, chance(me, 4), chance(me, 4), &planned); break;
        case 1: status = lab_outside(&bench, job, &outside); break;
        case 2: status = lab_overtakes(&bench, chance(me, 4)); break;
        case 3: status = lab_command(&bench, job, &entry); break;
        case 4: status = lab_end(&bench, job, &turned); break;
        case 5: status = chance(me, 8) ? LAB_DONE : lab_withdraw(&bench, job); break;
        case 6: status = lab_retire(&bench, job, chance(me, 5), &turned); break;
        case 7: status = lab_state(&bench, job, &state); break;
        case 8: status = lab_instrument_name(&bench, chance(me, 57), name, chance(me, 17), &written); break;
        case 9: status = lab_job_name(&bench, job, name, chance(me, 17), &written); break;
        case 10: status = lab_session_of(&bench, job, chance(me, 4), &session); break;
        case 11: status = lab_bench_open((const uint8_t *)"lab 1\n", 6, &bench, &told); status = status == LAB_IN_USE ? 0 : 99; break;
        case 12: status = lab_keepers(&bench, job, chance(me, 57), &keepers); break;
        case 13:
            status = lab_settle(&bench, chance(me, 0xffffff), &came);
            if (chance(me, 4) == 0) look_at_reasons();
            break;
        default: status = lab_settle(&bench, 1u << (job & 31), &came); break;
        }
        expect(status == LAB_DONE || status == LAB_NOT_THERE || status == LAB_NO_ROOM || status == LAB_NOT_YET || status == LAB_SESSIONS_LEFT,
               "%s: status %u of a call made anyhow", shop.name, status);
        expect(job < shop.size.jobs || status != LAB_NOT_YET, "%s: a job that isn't there", shop.name);
        look_at_all();
        pthread_mutex_unlock(&shop.mutex);
    }
    return NULL;
}

/* ---- the bench */

static uint32_t try_open(struct text script, struct lab_told *told) {
    struct lab_bench tried = {0};
    uint32_t status = lab_bench_open(script.bytes, script.length, &tried, told);
    lab_bench_free(&tried);
    return status;
}

static uint32_t open_bench(struct text script, int keeps, struct lab_told *told) {
    struct lab_session session;
    waiting = 0;
    came = (struct lab_came){0, 0, 0, 0};
    if (keeps) begin_journal(script);
    uint32_t status = (keeps ? lab_bench_open_kept : lab_bench_open)(script.bytes, script.length, &bench, told);
    lab_bench_size(&bench, &shop.size);
    for (uint32_t job = 0; job < shop.size.jobs; job++)
        for (uint32_t number = 1; lab_session_of(&bench, job, number, &session) == LAB_DONE; number++)
            shop.has_patience |= session.has_patience == 1;
    return status;
}

static uint32_t close_all(struct text *report) {
    uint32_t status = close_bench(&bench, report);
    lab_bench_free(&bench);
    return status;
}

int main(int count, char **words) { return drive_scripts(count, words, "threads"); }
