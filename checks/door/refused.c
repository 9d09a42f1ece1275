/* refused.c SCRIPT ..: the lives of a bench that has one handle for all jobs, in which each allocation of each call is refused (lives.h).
   cc -I include checks/door/refused.c FOLDER/liblabrun.a -Wl,--wrap=malloc -Wl,--wrap=realloc -Wl,--wrap=free */
#include "lives.h"

static struct lab_bench bench;

static void look(struct seen *seen) { look_at_bench(seen, &bench); }

/* (a close that got as far as to close the bench keeps it closed) */
static int is_kept(const struct seen *before, const struct seen *after) {
    int closed_now = after->status[0] == LAB_NOT_OPEN && before->status[0] != LAB_NOT_OPEN;
    return closed_now || is_same(before, after);
}

/* The same calls each time: each job in turn is settled for, does one command if it holds, ends, and retires. */
static void life(struct text script) {
    struct lab_told told = {0, 0, 0};
    struct lab_size size = {0, 0};
    struct lab_turned turned;
    struct lab_state state;
    struct lab_session session;
    struct lab_entry entry;
    struct lab_planned planned;
    struct lab_came came = {0, 0, 0, 0};
    struct lab_keepers keepers;
    struct lab_outside outside;
    uint32_t status;
    size_t written;
    uint8_t word[16];
    begin_life();
    CALL(status, lab_bench_open(script.bytes, script.length, &bench, &told));
    expect(status == LAB_DONE, "%s: open: status %u", name, status);
    CALL(status, lab_bench_size(&bench, &size));
    for (uint32_t left = (uint32_t)size.jobs, pass = 0; left && pass < 100; pass++) {
        left = 0;
        for (uint32_t job = 0; job < size.jobs; job++) {
            CALL(status, lab_settle(&bench, (uint32_t)1 << job, &came));
            expect(status == LAB_DONE, "%s: settle: status %u", name, status);
            if (came.holds >> job & 1) {
                if (pass == 0) {
                    CALL(status, lab_state(&bench, job, &state));
                    CALL(status, lab_job_name(&bench, job, word, 16, &written));
                    CALL(status, lab_session_of(&bench, job, 1, &session));
                    CALL(status, lab_instrument_name(&bench, 0, word, 16, &written));
                    CALL(status, lab_planned(&bench, job, 1, 0, &planned));
                    CALL(status, lab_withdraw(&bench, job));
                    CALL(status, lab_overtakes(&bench, job % 3));
                    CALL(status, lab_settle(&bench, 0xffffffffu, &came));
                    CALL(status, lab_keepers(&bench, job, 0, &keepers));
                    CALL(status, lab_outside(&bench, job, &outside));
                }
                CALL(status, lab_command(&bench, job, &entry));
                CALL(status, lab_end(&bench, job, &turned));
                left++;
            } else {
                CALL(status, lab_retire(&bench, job, 10, &turned));
                if (status != LAB_DONE) left++;
            }
        }
    }
    if (at_call == 0)
        for (int call = 2; call <= calls && call < MOST_CALLS; call++) expect(allocations[call] == 0, "%s: call %d asks for memory", name, call);
    memcpy(report, untouched, sizeof report);
    CALL(status, lab_bench_close(&bench, report, 0, &told));
    expect(status == LAB_NO_ROOM && memcmp(report, untouched, sizeof report) == 0, "%s: a close without room: status %u", name, status);
    CALL(status, lab_bench_close(&bench, report, sizeof report, &told));
    expect(status == LAB_DONE || status == LAB_UNFINISHED, "%s: close: status %u", name, status);
    compare_report(told.written);
    lab_bench_free(&bench);
    end_life("a life");
    if (at_call == 0) expect(kept == 0, "%s: a life: %ld blocks are left", name, kept);
}

/* The same of a close that is the first to be asked for the report, with room for it. */
static void closed_at_once(struct text script) {
    struct lab_told told;
    uint32_t status;
    begin_life();
    CALL(status, lab_bench_open(script.bytes, script.length, &bench, &told));
    CALL(status, lab_bench_close(&bench, report, sizeof report, &told));
    expect(status == LAB_UNFINISHED || status == LAB_DONE, "%s: a close at once: status %u", name, status);
    lab_bench_free(&bench);
    end_life("a close at once");
    if (at_call == 0) expect(kept == 0, "%s: a close at once: %ld blocks are left", name, kept);
}

/* A session of job 0 that is longer than its first one, on an instrument of it. */
static void longer_session(char *text, size_t room, const char *instrument, size_t commands) {
    size_t at = (size_t)snprintf(text, room, "session\n");
    for (size_t k = 0; k < commands + 1; k++) at += (size_t)snprintf(text + at, room - at, "%s add 1\n", instrument);
    snprintf(text + at, room - at, "end\n");
}

/* A bench that keeps its steps: a session comes, its lines and the steps are taken, and the bench comes back from them. */
static void kept_life(struct text script) {
    static char text[65536];
    static uint8_t lines[65536];
    char word[17] = {0};
    struct lab_told told = {0, 0, 0};
    struct lab_session session;
    struct lab_planned planned;
    struct lab_came came;
    uint32_t status;
    size_t written, length;
    begin_life();
    CALL(status, lab_bench_open_kept(script.bytes, script.length, &bench, &told));
    expect(status == LAB_DONE, "%s: open: status %u", name, status);
    CALL(status, lab_planned(&bench, 0, 1, 0, &planned));
    CALL(status, lab_instrument_name(&bench, planned.instrument, (uint8_t *)word, 16, &written));
    CALL(status, lab_session_of(&bench, 0, 1, &session));
    longer_session(text, sizeof text, word, session.commands);
    CALL(status, lab_add(&bench, 0, (const uint8_t *)text, strlen(text), &told));
    expect(status == LAB_DONE, "%s: add: status %u", name, status);
    for (uint32_t last = 1; lab_session_of(&bench, 0, last + 1, &session) == LAB_DONE; last++) written = last + 1;
    uint32_t came_last = (uint32_t)written;
    memcpy(report, script.bytes, length = script.length);
    if (length && report[length - 1] != '\n') report[length++] = '\n';
    memcpy(report + length, "steps\n", 6);
    length += 6;
    CALL(status, lab_more(&bench, 0, came_last, lines, sizeof lines, &written));
    expect(status == LAB_DONE, "%s: more: status %u", name, status);
    memcpy(report + length, lines, written);
    length += written;
    CALL(status, lab_settle(&bench, 0xffffffffu, &came));
    CALL(status, lab_journal(&bench, lines, sizeof lines, &written));
    memcpy(report + length, lines, written);
    length += written;
    lab_bench_free(&bench);
    CALL(status, lab_bench_resume(report, length, &bench, &told));
    expect(status == LAB_DONE && told.written == length, "%s: resume: status %u, line %zu", name, status, told.line);
    expect(lab_session_of(&bench, 0, came_last, &session) == LAB_DONE, "%s: the session that came isn't there", name);
    compare_report(length);
    lab_bench_free(&bench);
    end_life("a kept life");
    if (at_call == 0) expect(kept == 0, "%s: a kept life: %ld blocks are left", name, kept);
}

int main(int count, char **words) {
    static void (*const lives[])(struct text) = {life, closed_at_once, kept_life};
    return live_through(count, words, lives, 3);
}
