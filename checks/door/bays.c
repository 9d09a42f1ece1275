/* bays.c: a bench of a text `bench 1`: the script that it stands for, its faults, what the open does of it, its journal, and the largest bays.
   cc -I include checks/door/bays.c FOLDER/liblabrun.a */
#include "tests.h"

#define IS(what) expect(what, "line %d: %s", __LINE__, #what)

static const char bay[] = "# the bay\nbench 1\njob board\nuses scope supply\n\njob guest\n# what it may use\nuses scope\nsession\nscope set 7\nend\njob idle\n";
static const char its_script[] = "# the bay\nlab 2\njob board\nsession patience 0\nscope read\nsupply read\nend\n\njob guest\n# what it may use\n"
                                 "session patience 0\nscope read\nend\nsession\nscope set 7\nend\njob idle\n";

/* The board did what came, and nothing else was done. */
static const char its_report[] = "lab 2\ninstrument scope 1\nboard 2 1/1 set 5 = 5\ninstrument supply 0\n"
                                 "job board sessions 1 of 2 withdrawn 1 meals 0 waiting\njob guest sessions 0 of 2 withdrawn 1 meals 0 waiting\n"
                                 "job idle sessions 0 of 0 withdrawn 0 meals 0 waiting\nunfinished\n";

static struct lab_bench bench, other;
static uint8_t room[1 << 20], file[1 << 20];

static const uint8_t *bytes(const char *text) { return (const uint8_t *)text; }

static void stands_for(const char *text, const char *script) {
    struct lab_told told = {77, 77, 77};
    size_t length = strlen(script);
    memset(room, 1, sizeof room);
    IS(lab_bench_script(bytes(text), strlen(text), room, length - 1, &told) == LAB_NO_ROOM);
    IS(told.written == length && told.line == 0 && told.cause == 0 && room[0] == 1);
    IS(lab_bench_script(bytes(text), strlen(text), room, length, &told) == LAB_DONE);
    IS(told.written == length && memcmp(room, script, length) == 0 && room[length] == 1);
}

/* Each call that takes the text names the same line. `labrun` doesn't know such a text. */
static void has_fault(const char *text, size_t line, uint32_t cause) {
    static uint32_t (*const opens[])(const uint8_t *, size_t, struct lab_bench *, struct lab_told *) = {lab_bench_open, lab_bench_open_kept};
    struct lab_told told = {77, 77, 77};
    room[0] = 1;
    expect(lab_bench_script(bytes(text), strlen(text), room, sizeof room, &told) == LAB_REFUSED && told.line == line && told.cause == cause && room[0] == 1,
           "%s: line %zu, S%u", text, told.line, told.cause);
    for (int at = 0; at < 2; at++) {
        memset(&told, 77, sizeof told);
        expect(opens[at](bytes(text), strlen(text), &bench, &told) == LAB_REFUSED && told.line == line && told.cause == cause && told.written == 0,
               "%s: opened: line %zu, S%u", text, told.line, told.cause);
        IS(lab_bench_free(&bench) == LAB_NOT_OPEN);
    }
    IS(lab_check(bytes(text), strlen(text), room, sizeof room, &told) == LAB_REFUSED && told.cause == 1);
}

static void faults(void) {
    char many[1000];
    int at = sprintf(many, "bench 1\njob a\nuses");
    for (int i = 0; i < 57; i++) at += sprintf(many + at, " i%d", i);
    has_fault("bench 2\n", 1, 1);
    has_fault("job a\nuses x\n", 1, 1);
    has_fault("bench 1\nlab 2\n", 2, 2);
    has_fault("bench 1\nuses x\n", 2, 2);
    has_fault("bench 1\njob a\nuses\n", 3, 2);
    has_fault("bench 1\njob a\nuses x\nuses y\n", 4, 2);
    has_fault("bench 1\njob a\nsession\nx read\nend\nuses x\n", 6, 2);
    has_fault("bench 1\njob a\nsession\nuses read\n", 4, 2);
    has_fault("bench 1\njob a\nuses x #y\n", 3, 3);
    has_fault("bench 1\njob a\nuses job\n", 3, 3);
    has_fault(many, 3, 10);
    has_fault("bench 1\njob a\nuses x y z\n\njob a\n", 5, 5);
    has_fault("bench 1\njob a\nuses x y z\nsession\nx read\n", 6, 9);
    at = sprintf(many, "bench 1\n");
    for (int job = 0; job < 2; job++) {
        at += sprintf(many + at, "job %c\nuses", 'a' + job);
        for (int i = 0; i < 29; i++) at += sprintf(many + at, " i%d", i);
        at += sprintf(many + at, "\n");
    }
    has_fault(many, 6, 11);
}

/* (giving up a first session counts as a turn) */
static void stands_at(struct lab_bench *of, uint32_t job, uint32_t sessions, uint32_t session) {
    struct lab_state state;
    IS(lab_state(of, job, &state) == LAB_DONE);
    expect(state.sessions == sessions && state.session == session && state.withdrawn == session && state.drinking == 0 && state.turns == session,
           "job %u: %u of %u, %llu turns", job, state.session, state.sessions, (unsigned long long)state.turns);
}

static void opens(void) {
    struct lab_told told;
    struct lab_came came;
    struct lab_turned turned;
    static const char comes[] = "session\nscope set 5\nend\n";
    IS(lab_bench_open(bytes(bay), strlen(bay), &bench, &told) == LAB_DONE);
    stands_at(&bench, 0, 1, 1);
    stands_at(&bench, 1, 2, 1);
    stands_at(&bench, 2, 0, 0);
    IS(lab_add(&bench, 0, bytes(comes), strlen(comes), &told) == LAB_DONE);
    IS(lab_settle(&bench, 1, &came) == LAB_DONE && came.holds == 1);
    IS(lab_end(&bench, 0, &turned) == LAB_DONE);
    IS(lab_bench_close(&bench, room, sizeof room, &told) == LAB_UNFINISHED);
    IS(told.written == strlen(its_report) && memcmp(room, its_report, told.written) == 0);
    IS(lab_bench_free(&bench) == LAB_DONE);
}

/* The journal of a bench begins with the script and what the open did: it comes back, and `labrun replay` reads it. */
static void is_kept(const char *text, uint32_t jobs) {
    struct lab_told told;
    size_t length, written;
    IS(lab_bench_script(bytes(text), strlen(text), file, sizeof file, &told) == LAB_DONE);
    length = told.written;
    memcpy(file + length, "steps\n", 6);
    length += 6;
    IS(lab_bench_open_kept(bytes(text), strlen(text), &bench, &told) == LAB_DONE);
    IS(lab_journal(&bench, file + length, sizeof file - length, &written) == LAB_DONE && written > 0);
    IS(lab_bench_resume(file, length + written, &other, &told) == LAB_DONE && told.written == length + written);
    for (uint32_t job = 0; job < jobs; job++) {
        struct lab_state one, two;
        IS(lab_state(&bench, job, &one) == LAB_DONE && lab_state(&other, job, &two) == LAB_DONE);
        expect(one.session == two.session && one.withdrawn == two.withdrawn && one.sessions == two.sessions, "job %u came back", job);
    }
    IS(lab_bench_close(&other, room, sizeof room, &told) == LAB_UNFINISHED);
    {
        static uint8_t again[1 << 20];
        struct lab_told replayed;
        IS(lab_replay(file, length + written, again, sizeof again, &replayed) == LAB_UNFINISHED);
        IS(replayed.written == told.written && memcmp(again, room, told.written) == 0);
    }
    IS(lab_bench_free(&bench) == LAB_DONE && lab_bench_free(&other) == LAB_DONE);
}

/* 32 jobs that may all use the same 28 instruments: a session comes to each, one after another. */
static void largest(void) {
    static char text[1 << 14];
    struct lab_told told;
    struct lab_came came;
    struct lab_turned turned;
    int at = sprintf(text, "bench 1\n");
    for (int job = 0; job < 32; job++) {
        at += sprintf(text + at, "job j%d\nuses", job);
        for (int i = 0; i < 28; i++) at += sprintf(text + at, " i%d", i);
        at += sprintf(text + at, "\n");
    }
    is_kept(text, 32);
    IS(lab_bench_open(bytes(text), strlen(text), &bench, &told) == LAB_DONE);
    for (uint32_t job = 0; job < 32; job++) {
        static const char comes[] = "session\ni0 add 1\ni27 read\nend\n";
        stands_at(&bench, job, 1, 1);
        IS(lab_add(&bench, job, bytes(comes), strlen(comes), &told) == LAB_DONE);
        IS(lab_settle(&bench, (uint32_t)1 << job, &came) == LAB_DONE && came.holds == (uint32_t)1 << job);
        IS(lab_end(&bench, job, &turned) == LAB_DONE);
        IS(lab_retire(&bench, job, 40, &turned) != LAB_SESSIONS_LEFT);
    }
    IS(lab_bench_close(&bench, room, sizeof room, &told) != LAB_NO_ROOM && told.written > 0);
    IS(lab_bench_free(&bench) == LAB_DONE);
}

static void too_long(void) {
    struct lab_told told = {77, 77, 77};
    uint8_t *text = malloc(MOST_BYTES + 16);
    if (!text) return;
    memset(text, '\n', MOST_BYTES + 16);
    memcpy(text, "bench 1", 7);
    IS(lab_bench_script(text, MOST_BYTES + 16, room, sizeof room, &told) == LAB_TOO_LONG);
    IS(lab_bench_open(text, MOST_BYTES + 16, &bench, &told) == LAB_TOO_LONG && told.written == 0 && told.line == 0 && told.cause == 0);
    free(text);
}

int main(void) {
    stands_for(bay, its_script);
    stands_for(its_script, its_script);
    stands_for("bench 1\r\njob a\r\nuses uses bench\r\n", "lab 2\njob a\r\nsession patience 0\nuses read\nbench read\nend\n");
    faults();
    opens();
    is_kept(bay, 3);
    largest();
    too_long();
    return summary();
}
