/* coming.c SCRIPT ..: the life of a bench to which sessions come, in which each allocation of each call is refused (lives.h): once without a
   journal, and once with one. A `lab_add` that answers 5 says how many sessions it had added by then; all else is as it was, and the rest is
   added by the next call.
   cc -I include checks/door/coming.c FOLDER/liblabrun.a -Wl,--wrap=malloc -Wl,--wrap=realloc -Wl,--wrap=free */
#include "lives.h"

#define COME 3 /* so many sessions come to each job, in one text, and that twice */

static struct lab_bench bench;

/* What is being added: the job, the sessions that are left of the text, and what the last `lab_add` told. */
static uint32_t to;
static char session[COME][100];
static int first_left;
static struct lab_told added;

static void look(struct seen *seen) { look_at_bench(seen, &bench); }

/* (of an add, the job has as many sessions more as it told) */
static int is_kept(const struct seen *before, const struct seen *after) {
    struct seen wanted = *before;
    int closed_now = after->status[0] == LAB_NOT_OPEN && before->status[0] != LAB_NOT_OPEN;
    wanted.states[to].sessions += (uint32_t)added.written;
    first_left += (int)added.written;
    added.written = 0;
    return closed_now || is_same(&wanted, after);
}

static uint32_t add(void) {
    char text[COME * 100] = "";
    for (int at = first_left; at < COME; at++) strcat(text, session[at]);
    memset(&added, 0, sizeof added);
    uint32_t status = lab_add(&bench, to, (const uint8_t *)text, strlen(text), &added);
    if (status != LAB_NO_MEMORY) added.written = 0;
    return status;
}

/* The journal is taken, if there is one. */
static void take(int keeps) {
    static uint8_t text[1 << 16];
    size_t written;
    uint32_t status;
    if (!keeps) return;
    CALL(status, lab_journal(&bench, text, sizeof text, &written));
    expect(status == LAB_DONE, "%s: journal: status %u", name, status);
}

/* Three sessions come to a job that has one, of an instrument of that one. */
static void comes(uint32_t job, int keeps) {
    static uint8_t text[1 << 16];
    struct lab_session has;
    struct lab_state state, now;
    char instrument[17] = "";
    size_t written;
    uint32_t status, at = 0;
    CALL(status, lab_session_of(&bench, job, 1, &has));
    if (status) return;
    while (!(has.needs >> at & 1)) at++;
    CALL(status, lab_instrument_name(&bench, at, (uint8_t *)instrument, 16, &written));
    snprintf(session[0], sizeof session[0], "session\n%s add 1\nend\n", instrument);
    snprintf(session[1], sizeof session[1], "session\n%s set 5\n%s add 2\n%s read\nend\n", instrument, instrument, instrument);
    snprintf(session[2], sizeof session[2], "session\n%s read\nend\n", instrument);
    to = job;
    first_left = 0;
    lab_state(&bench, job, &state);
    CALL(status, add());
    expect(status == LAB_DONE, "%s: add: status %u", name, status);
    lab_state(&bench, job, &now);
    expect(now.sessions == state.sessions + COME, "%s: %u sessions, and then %u", name, state.sessions, now.sessions);
    for (uint32_t number = state.sessions + 1; keeps && number <= now.sessions; number++) {
        CALL(status, lab_more(&bench, job, number, text, sizeof text, &written));
        expect(status == LAB_DONE, "%s: more: status %u", name, status);
    }
}

/* Each job does its next session, if it has one; whether one was done. */
static int work(uint32_t jobs, int keeps) {
    struct lab_turned turned;
    struct lab_came came = {0, 0, 0, 0};
    uint32_t status;
    int did = 0;
    for (uint32_t job = 0; job < jobs; job++) {
        CALL(status, lab_settle(&bench, (uint32_t)1 << job, &came));
        expect(status == LAB_DONE, "%s: settle: status %u", name, status);
        take(keeps);
        if (!(came.holds >> job & 1)) continue;
        CALL(status, lab_end(&bench, job, &turned));
        take(keeps);
        did = 1;
    }
    return did;
}

static void life(struct text script, int keeps) {
    struct lab_told told = {0, 0, 0};
    struct lab_size size = {0, 0};
    struct lab_turned turned;
    uint32_t status;
    to = 0;
    begin_life();
    CALL(status, keeps ? lab_bench_open_kept(script.bytes, script.length, &bench, &told) : lab_bench_open(script.bytes, script.length, &bench, &told));
    expect(status == LAB_DONE, "%s: open: status %u", name, status);
    CALL(status, lab_bench_size(&bench, &size));
    take(keeps); /* (of a text `bench 1` the open has done steps) */
    for (int round = 0; round < 2; round++) {
        for (uint32_t job = 0; job < size.jobs; job++) comes(job, keeps);
        for (int pass = 0; pass < 100 && work((uint32_t)size.jobs, keeps); pass++) continue;
    }
    for (int pass = 0; pass < 10; pass++)
        for (uint32_t job = 0; job < size.jobs; job++) {
            CALL(status, lab_retire(&bench, job, 10, &turned));
            take(keeps);
        }
    memcpy(report, untouched, sizeof report);
    CALL(status, lab_bench_close(&bench, report, sizeof report, &told));
    expect(status == LAB_DONE, "%s: close: status %u", name, status);
    compare_report(told.written);
    lab_bench_free(&bench);
    end_life("a life");
    if (at_call == 0) expect(kept == 0, "%s: a life: %ld blocks are left", name, kept);
}

static void without_a_journal(struct text script) { life(script, 0); }
static void with_a_journal(struct text script) { life(script, 1); }

int main(int count, char **words) {
    static void (*const lives[])(struct text) = {without_a_journal, with_a_journal};
    return live_through(count, words, lives, 2);
}
