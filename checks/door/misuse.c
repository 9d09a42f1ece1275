/* misuse.c: the statuses and misuses of the calls on one handle (5 is in refused.c, 12 in journal.c, 13 in busy.c). At each of them the handle
   and all jobs stay as they were, and nothing is written but what labrun.h says of 6, and of 8 and 10.
   cc -I include checks/door/misuse.c FOLDER/liblabrun.a */
#include "poison.h"

static const char three[] = "lab 1\njob x\nsession\ndial add 1\nend\njob y\nsession\ndial add 2\nlamp read\nend\n"
                            "job z\nsession\nlamp read\ndial read\nend\n";
static const char lone[] = "lab 1\njob only\nsession\ndial add 999999\ndial add 5\nend\n";

static const uint8_t more[] = "session\nscale read\nend\n";

static struct lab_bench bench;

static void look(struct seen *seen) { look_at_bench(seen, &bench); }

static uint32_t open_two(void) { return lab_bench_open((const uint8_t *)two, sizeof two - 1, &bench, &out.told); }

/* Every call but open and free, on a handle that isn't open. The close has a report to tell if `is_closed`. */
static void not_open(int is_closed) {
    REFUSED(LAB_NOT_OPEN, lab_bench_size(&bench, &out.size));
    REFUSED(LAB_NOT_OPEN, lab_job_name(&bench, 0, out.name.name, 16, &out.name.written));
    REFUSED(LAB_NOT_OPEN, lab_job_name(&bench, 99, out.name.name, 16, &out.name.written));
    REFUSED(LAB_NOT_OPEN, lab_instrument_name(&bench, 0, out.name.name, 16, &out.name.written));
    REFUSED(LAB_NOT_OPEN, lab_session_of(&bench, 0, 1, &out.session));
    REFUSED(LAB_NOT_OPEN, lab_planned(&bench, 0, 1, 0, &out.planned));
    REFUSED(LAB_NOT_OPEN, lab_state(&bench, 0, &out.state));
    REFUSED(LAB_NOT_OPEN, lab_keepers(&bench, 0, 0, &out.keepers));
    REFUSED(LAB_NOT_OPEN, lab_keepers(&bench, 0xffffffffu, 0xffffffffu, &out.keepers));
    REFUSED(LAB_NOT_OPEN, lab_settle(&bench, 0, &out.came));
    REFUSED(LAB_NOT_OPEN, lab_settle(&bench, 0xffffffffu, &out.came));
    REFUSED(LAB_NOT_OPEN, lab_command(&bench, 0, &out.entry));
    REFUSED(LAB_NOT_OPEN, lab_end(&bench, 0, &out.turned));
    REFUSED(LAB_NOT_OPEN, lab_end(&bench, 0xffffffffu, &out.turned));
    REFUSED(LAB_NOT_OPEN, lab_withdraw(&bench, 0));
    REFUSED(LAB_NOT_OPEN, lab_retire(&bench, 0, 10, &out.turned));
    REFUSED(LAB_NOT_OPEN, lab_overtakes(&bench, 4));
    REFUSED(LAB_NOT_OPEN, lab_outside(&bench, 0, &out.outside));
    REFUSED(LAB_NOT_OPEN, lab_add(&bench, 0, more, sizeof more - 1, &out.told));
    REFUSED(LAB_NOT_OPEN, lab_journal(&bench, out.bytes, 0, &out.name.written));
    REFUSED(LAB_NOT_OPEN, lab_more(&bench, 0, 1, out.bytes, 0, &out.name.written));
    if (!is_closed) {
        uint8_t report[8] = {1, 2, 3, 4, 5, 6, 7, 8};
        REFUSED(LAB_NOT_OPEN, lab_bench_close(&bench, report, sizeof report, &out.told));
        IS(report[0] == 1 && report[7] == 8);
    }
}

static void faults(void) {
    static const struct {
        const char *script;
        size_t line;
        uint32_t cause;
    } rows[] = {
        {"", 1, 1},
        {"job a\n", 1, 1},
        {"lab 1\nfly\n", 2, 2},
        {"lab 1\njob a\nsteps\n", 3, 2},
        {"lab 1\njob A\n", 2, 3},
        {"lab 1\njob a\nsession\nscale set x\nend\n", 4, 4},
        {"lab 1\njob a\njob a\n", 3, 5},
        {"lab 1\njob a\nscale read\n", 3, 6},
        {"lab 1\nsession\n", 2, 7},
        {"lab 1\njob a\nsession\nend\n", 4, 8},
        {"lab 1\njob a\nsession\nscale read\njob b\n", 5, 9},
        {"lab 1\njob a\nsession\nscale read\n", 5, 9},
    };
    for (size_t row = 0; row < sizeof rows / sizeof *rows; row++) {
        struct lab_told told = {77, 77, 77};
        uint32_t status = lab_bench_open((const uint8_t *)rows[row].script, strlen(rows[row].script), &bench, &told);
        expect(status == LAB_REFUSED && told.line == rows[row].line && told.cause == rows[row].cause && told.written == 0 && bench.live == 0,
               "fault %zu: status %u, line %zu, cause %u", row, status, told.line, told.cause);
        lab_bench_free(&bench);
    }
    uint8_t *large = malloc(MOST_BYTES);
    if (!large) exit(70);
    memset(large, '#', MOST_BYTES);
    struct lab_told told = {77, 77, 77};
    expect(lab_bench_open(large, MOST_BYTES, &bench, &told) == LAB_TOO_LONG && bench.live == 0 && told.written == 0 && told.line == 0 && told.cause == 0,
           "a script that is too long");
    free(large);
}

static void names(void) {
    static const char *const jobs[] = {"a", "b", "c"}, *const instruments[] = {"scale", "lamp"};
    for (uint32_t job = 0; job < 3; job++) {
        TELLS(LAB_DONE, lab_job_name(&bench, job, out.name.name, 16, &out.name.written));
        IS(out.name.written == 1 && out.name.name[0] == (uint8_t)jobs[job][0] && out.name.name[1] == POISON);
    }
    for (uint32_t instrument = 0; instrument < 2; instrument++) {
        size_t length = strlen(instruments[instrument]);
        for (size_t room = 0; room < 8; room++) {
            TELLS(room < length ? LAB_NO_ROOM : LAB_DONE, lab_instrument_name(&bench, instrument, out.name.name, room, &out.name.written));
            IS(out.name.written == length);
            if (room < length)
                IS(untouched(sizeof(size_t)));
            else
                IS(memcmp(out.name.name, instruments[instrument], length) == 0 && untouched(sizeof(size_t) + length));
        }
    }
    REFUSED(LAB_NOT_THERE, lab_job_name(&bench, 3, out.name.name, 16, &out.name.written));
    REFUSED(LAB_NOT_THERE, lab_job_name(&bench, 0xffffffffu, out.name.name, 16, &out.name.written));
    REFUSED(LAB_NOT_THERE, lab_instrument_name(&bench, 2, out.name.name, 16, &out.name.written));
    REFUSED(LAB_NOT_THERE, lab_instrument_name(&bench, 256, out.name.name, 16, &out.name.written));
}

static void sessions(void) {
    TELLS(LAB_DONE, lab_session_of(&bench, 0, 1, &out.session));
    IS(out.session.needs == 3 && out.session.commands == 3 && out.session.has_patience == 0 && out.session.patience == 0);
    TELLS(LAB_DONE, lab_session_of(&bench, 0, 2, &out.session));
    IS(out.session.needs == 2 && out.session.commands == 1 && out.session.has_patience == 0);
    TELLS(LAB_DONE, lab_session_of(&bench, 1, 1, &out.session));
    IS(out.session.needs == 1 && out.session.commands == 1 && out.session.has_patience == 1 && out.session.patience == 3);
    REFUSED(LAB_NOT_THERE, lab_session_of(&bench, 0, 0, &out.session));
    REFUSED(LAB_NOT_THERE, lab_session_of(&bench, 0, 3, &out.session));
    REFUSED(LAB_NOT_THERE, lab_session_of(&bench, 2, 1, &out.session));
    REFUSED(LAB_NOT_THERE, lab_session_of(&bench, 3, 1, &out.session));
    REFUSED(LAB_NOT_THERE, lab_session_of(&bench, 0, 0xffffffffu, &out.session));
}

static void commands(void) {
    TELLS(LAB_DONE, lab_planned(&bench, 0, 1, 1, &out.planned));
    IS(out.planned.instrument == 1 && out.planned.verb == 0 && out.planned.number == 7 && untouched(sizeof out.planned));
    TELLS(LAB_DONE, lab_planned(&bench, 0, 1, 2, &out.planned));
    IS(out.planned.instrument == 0 && out.planned.verb == 2 && out.planned.number == 0);
    TELLS(LAB_DONE, lab_planned(&bench, 1, 1, 0, &out.planned));
    IS(out.planned.instrument == 0 && out.planned.verb == 1 && out.planned.number == 2);
    REFUSED(LAB_NOT_THERE, lab_planned(&bench, 0, 1, 3, &out.planned));
    REFUSED(LAB_NOT_THERE, lab_planned(&bench, 0, 1, 0xffffffffu, &out.planned));
    REFUSED(LAB_NOT_THERE, lab_planned(&bench, 0, 0, 0, &out.planned));
    REFUSED(LAB_NOT_THERE, lab_planned(&bench, 0, 3, 0, &out.planned));
    REFUSED(LAB_NOT_THERE, lab_planned(&bench, 2, 1, 0, &out.planned));
    REFUSED(LAB_NOT_THERE, lab_planned(&bench, 3, 1, 0, &out.planned));
}

static void no_such_job(void) {
    static const uint32_t absent[] = {3, 32, 255, 256, 0x80000000u, 0xffffffffu};
    for (size_t which = 0; which < sizeof absent / sizeof *absent; which++) {
        uint32_t job = absent[which];
        REFUSED(LAB_NOT_THERE, lab_state(&bench, job, &out.state));
        REFUSED(LAB_NOT_THERE, lab_keepers(&bench, job, 0, &out.keepers));
        REFUSED(LAB_NOT_THERE, lab_keepers(&bench, 0, job, &out.keepers));
        REFUSED(LAB_NOT_THERE, lab_command(&bench, job, &out.entry));
        REFUSED(LAB_NOT_THERE, lab_end(&bench, job, &out.turned));
        REFUSED(LAB_NOT_THERE, lab_withdraw(&bench, job));
        REFUSED(LAB_NOT_THERE, lab_retire(&bench, job, 10, &out.turned));
        REFUSED(LAB_NOT_THERE, lab_outside(&bench, job, &out.outside));
        REFUSED(LAB_NOT_THERE, lab_add(&bench, job, more, sizeof more - 1, &out.told));
    }
}

/* What a job that holds nothing is refused. */
static void holds_not(uint32_t job) {
    REFUSED(LAB_NOT_YET, lab_command(&bench, job, &out.entry));
    TELLS(LAB_NOT_YET, lab_end(&bench, job, &out.turned));
}

/* These jobs, and no others, keep the instrument from the job; and these of them hold it. */
static void kept_by(uint32_t job, uint32_t instrument, uint32_t jobs, uint32_t holding) {
    TELLS(LAB_DONE, lab_keepers(&bench, job, instrument, &out.keepers));
    expect(out.keepers.jobs == jobs && out.keepers.holding == holding && untouched(sizeof out.keepers),
           "job %u waits for instrument %u, kept by %x and held by %x, wanted %x and %x", job, instrument, out.keepers.jobs, out.keepers.holding, jobs,
           holding);
}

/* All that can be done is done; then these jobs hold, these were given up, and these of the waiting ones have no session left. A second call
   finds nothing to do. */
static void settles(uint32_t waiting, uint32_t holds, uint32_t given_up, uint32_t none_left) {
    poison();
    uint32_t status = lab_settle(&bench, waiting, &out.came);
    expect(status == LAB_DONE && out.came.holds == holds && out.came.given_up == given_up && out.came.none_left == none_left && untouched(sizeof out.came),
           "settled for %x: status %u, %x hold, %x given up, %x with none left, wanted %x, %x, %x", waiting, status, out.came.holds, out.came.given_up,
           out.came.none_left, holds, given_up, none_left);
    IS(lab_settle(&bench, 0, &out.came) == LAB_DONE && out.came.holds == holds && out.came.given_up == 0 && out.came.none_left == 0 && out.came.deeds == 0);
}

/* One settle for the job, by which it holds; a second one finds nothing to do for it. */
static void comes_to_hold(uint32_t job) {
    struct lab_state state;
    uint32_t bit = (uint32_t)1 << job;
    poison();
    uint32_t status = lab_settle(&bench, bit, &out.came);
    expect(status == LAB_DONE && out.came.holds == bit, "job %u doesn't come to hold: status %u, %x hold", job, status, out.came.holds);
    lab_state(&bench, job, &state);
    IS(state.drinking == 2 && state.position == 0);
    IS(lab_settle(&bench, bit, &out.came) == LAB_DONE && out.came.holds == bit && out.came.given_up == 0 && out.came.none_left == 0);
    IS(out.came.deeds == 0);
}

static void a_whole_run(void) {
    struct lab_state state;
    poison();
    IS(open_two() == LAB_DONE && bench.live != 0);
    REFUSED(LAB_IN_USE, open_two());
    TELLS(LAB_DONE, lab_bench_size(&bench, &out.size));
    IS(out.size.jobs == 3 && out.size.instruments == 2);
    names();
    sessions();
    commands();
    no_such_job();

    /* the opening */
    TELLS(LAB_DONE, lab_state(&bench, 0, &out.state));
    IS(out.state.dining == 0 && out.state.drinking == 0 && out.state.session == 0 && out.state.sessions == 2 && out.state.position == 0);
    IS(out.state.sessions_done == 0 && out.state.withdrawn == 0 && out.state.meals == 0 && out.state.waited == 0 && out.state.turns == 0);

    /* nobody holds, and nobody waits */
    REFUSED(LAB_NOT_THERE, lab_keepers(&bench, 0, 2, &out.keepers));
    REFUSED(LAB_NOT_THERE, lab_keepers(&bench, 3, 2, &out.keepers));
    for (uint32_t job = 0; job < 3; job++) {
        kept_by(job, 0, 0, 0);
        kept_by(job, 1, 0, 0);
        holds_not(job);
        REFUSED(LAB_NOT_YET, lab_withdraw(&bench, job));
    }
    TELLS(LAB_SESSIONS_LEFT, lab_retire(&bench, 0, 0, &out.turned));
    TELLS(LAB_SESSIONS_LEFT, lab_retire(&bench, 0, 10, &out.turned));
    settles(0, 0, 0, 0);
    settles(0xfffffff8u, 0, 0, 0); /* (there are no such jobs) */
    settles(4, 0, 0, 4);           /* (c has no session at all) */

    /* a holds; b waits for the scale, which a keeps */
    comes_to_hold(0);
    for (int tries = 0; tries < 3; tries++) IS(lab_settle(&bench, 2, &out.came) == LAB_DONE && out.came.holds == 1 && out.came.given_up == 0);
    lab_state(&bench, 1, &state);
    IS(state.drinking == 1 && state.session == 1 && state.turns == 3);
    holds_not(1);
    kept_by(1, 0, 1, 1);
    kept_by(1, 1, 0, 0);
    kept_by(0, 0, 0, 0);
    kept_by(0, 1, 0, 0);
    kept_by(2, 0, 0, 0);
    IS(lab_retire(&bench, 0, 10, &out.turned) == LAB_SESSIONS_LEFT);
    IS(lab_retire(&bench, 1, 10, &out.turned) == LAB_SESSIONS_LEFT); /* (its last session isn't over) */
    lab_state(&bench, 0, &state);
    IS(state.drinking == 2 && state.position == 0);
    REFUSED(LAB_NOT_YET, lab_withdraw(&bench, 0));

    /* a's commands, one by one */
    IS(lab_command(&bench, 0, &out.entry) == LAB_DONE);
    IS(out.entry.session == 1 && out.entry.place == 1 && out.entry.length == 2);
    IS(out.entry.verb == 1 && out.entry.number == 1 && out.entry.value == 1);
    lab_state(&bench, 0, &state);
    IS(state.position == 1 && state.drinking == 2);
    IS(lab_command(&bench, 0, &out.entry) == LAB_DONE);
    IS(out.entry.place == 1 && out.entry.length == 1 && out.entry.verb == 0 && out.entry.number == 7 && out.entry.value == 7);
    IS(lab_command(&bench, 0, &out.entry) == LAB_DONE);
    IS(out.entry.place == 2 && out.entry.length == 2 && out.entry.verb == 2 && out.entry.number == 0 && out.entry.value == 1);
    REFUSED(LAB_NOT_YET, lab_command(&bench, 0, &out.entry));

    /* b waits no longer, by its own will */
    kept_by(1, 0, 1, 1);
    IS(lab_withdraw(&bench, 1) == LAB_DONE);
    kept_by(1, 0, 0, 0);
    lab_state(&bench, 1, &state);
    IS(state.drinking == 0 && state.withdrawn == 1 && state.sessions_done == 0);
    REFUSED(LAB_NOT_YET, lab_withdraw(&bench, 1));
    settles(2, 1, 0, 2);

    IS(lab_end(&bench, 0, &out.turned) == LAB_DONE && out.turned.what == 2 && out.turned.count >= 1);
    lab_state(&bench, 0, &state);
    IS(state.drinking == 0 && state.sessions_done == 1 && state.session == 1);
    holds_not(0);
    settles(0, 0, 0, 0);
    settles(2, 0, 0, 2);

    /* a's second session, ended without a command of ours */
    comes_to_hold(0);
    IS(lab_end(&bench, 0, &out.turned) == LAB_DONE && out.turned.what == 2);
    settles(1, 0, 0, 1);
    settles(4, 0, 0, 4);
    for (uint32_t job = 0; job < 3; job++) {
        IS(lab_retire(&bench, job, 1, &out.turned) == LAB_DONE); /* (nobody waits or holds, so nobody owes a meal) */
        TELLS(LAB_DONE, lab_retire(&bench, job, 10, &out.turned));
        holds_not(job);
        REFUSED(LAB_NOT_YET, lab_withdraw(&bench, job));
        settles((uint32_t)1 << job, 0, 0, (uint32_t)1 << job);
        REFUSED(LAB_RETIRED, lab_add(&bench, job, more, sizeof more - 1, &out.told));
    }
    settles(7, 0, 0, 7);
}

static const char wanted[] = "lab 2\ninstrument scale 2\na 1 1/2 add 1 = 1\na 1 2/2 read = 1\ninstrument lamp 2\na 1 1/1 set 7 = 7\n"
                             "a 2 1/1 read = 7\n";

static void closed(void) {
    static uint8_t report[4096], before[4096];
    struct lab_told told = {0, 0, 0};
    memset(report, POISON, sizeof report);
    memset(before, POISON, sizeof before);
    IS(lab_bench_close(&bench, report, 0, &told) == LAB_NO_ROOM);
    IS(lab_bench_close(&bench, NULL, 0, &told) == LAB_NO_ROOM); /* (no room at all) */
    size_t length = told.written;
    IS(length > sizeof wanted && memcmp(report, before, sizeof report) == 0);
    for (size_t room = 1; room < length; room++) {
        uint32_t status = lab_bench_close(&bench, report, room, &told);
        expect(status == LAB_NO_ROOM && told.written == length && memcmp(report, before, sizeof report) == 0, "a room of %zu bytes", room);
    }
    for (int times = 0; times < 3; times++) {
        memset(report, POISON, sizeof report);
        IS(lab_bench_close(&bench, report, length + (size_t)times, &told) == LAB_DONE && told.written == length);
        IS(memcmp(report, wanted, sizeof wanted - 1) == 0 && memcmp(report + length - 9, "finished\n", 9) == 0);
        IS(memcmp(report + length, before + length, sizeof report - length) == 0);
    }
    not_open(1);
    REFUSED(LAB_IN_USE, open_two());
    IS(lab_bench_free(&bench) == LAB_DONE && bench.live == 0);
    not_open(0);
    IS(lab_bench_free(&bench) == LAB_NOT_OPEN && bench.live == 0);
}

/* Who keeps whom waiting: at first each bottle is at the lower of its two jobs, and nobody has asked for one yet. By this journal all three are
   thirsty then, one after another. */
static void keepers(void) {
    static const char *const steps[] = {"steps\n", "thirst z\n", "thirst y\n", "thirst x\n"};
    char journal[500];
    struct lab_told told;
    strcpy(journal, three);
    for (uint32_t step = 0; step < 4; step++) {
        strcat(journal, steps[step]);
        IS(lab_bench_resume((const uint8_t *)journal, strlen(journal), &bench, &told) == LAB_DONE && told.written == strlen(journal));
        if (step == 3) break;
        kept_by(2 - step, 0, 0, 0);
        lab_bench_free(&bench);
    }
    kept_by(0, 0, 0, 0);
    kept_by(0, 1, 0, 0);
    kept_by(1, 0, 1, 0);
    kept_by(1, 1, 0, 0);
    kept_by(2, 0, 3, 0);
    kept_by(2, 1, 2, 0);
    REFUSED(LAB_NOT_THERE, lab_keepers(&bench, 2, 2, &out.keepers));
    REFUSED(LAB_NOT_THERE, lab_keepers(&bench, 3, 0, &out.keepers));

    /* x holds, and so keeps the others waiting */
    comes_to_hold(0);
    kept_by(0, 0, 0, 0);
    kept_by(1, 0, 5, 1);
    kept_by(2, 0, 1, 1);
    lab_bench_free(&bench);
}

/* Who holds, who waits, and who comes next, as lab_settle tells it. */
static void settled(void) {
    static const char patient[] = "lab 2\njob x\nsession\ndial add 1\nend\njob y\nsession patience 1\ndial add 2\nend\nsession\ndial add 3\nend\n";
    struct lab_told told;
    struct lab_state state;
    IS(lab_bench_open((const uint8_t *)three, sizeof three - 1, &bench, &told) == LAB_DONE);
    settles(7, 1, 0, 0);
    kept_by(1, 0, 5, 1);
    kept_by(1, 1, 4, 0); /* (y lacks the lamp, which nobody holds: z comes first, and waits for the dial, which x holds) */
    kept_by(2, 0, 1, 1);
    kept_by(2, 1, 0, 0);
    IS(lab_end(&bench, 0, &out.turned) == LAB_DONE);
    settles(6, 4, 0, 0);
    settles(7, 4, 0, 1);
    kept_by(1, 1, 4, 4);
    IS(lab_end(&bench, 2, &out.turned) == LAB_DONE);
    settles(2, 2, 0, 0);
    IS(lab_end(&bench, 1, &out.turned) == LAB_DONE);
    settles(7, 0, 0, 7);
    lab_bench_free(&bench);

    /* y waits in two calls before its patience is used up; no session is begun in that call */
    IS(lab_bench_open((const uint8_t *)patient, sizeof patient - 1, &bench, &told) == LAB_DONE);
    IS(lab_settle(&bench, 1, &out.came) == LAB_DONE && out.came.holds == 1);
    IS(lab_settle(&bench, 2, &out.came) == LAB_DONE && out.came.holds == 1 && out.came.given_up == 0);
    IS(lab_settle(&bench, 2, &out.came) == LAB_DONE && out.came.holds == 1 && out.came.given_up == 0);
    IS(lab_state(&bench, 1, &state) == LAB_DONE && state.drinking == 1 && state.waited == 1);
    IS(lab_settle(&bench, 2, &out.came) == LAB_DONE && out.came.holds == 1 && out.came.given_up == 2 && out.came.none_left == 0);
    IS(lab_state(&bench, 1, &state) == LAB_DONE && state.drinking == 0 && state.session == 1 && state.withdrawn == 1);
    IS(lab_settle(&bench, 2, &out.came) == LAB_DONE && out.came.holds == 1 && out.came.given_up == 0);
    IS(lab_state(&bench, 1, &state) == LAB_DONE && state.drinking == 1 && state.session == 2);
    IS(lab_end(&bench, 0, &out.turned) == LAB_DONE);
    settles(2, 2, 0, 0);
    lab_bench_free(&bench);
}

/* A bench whose job stops in the midst of its session is closed as it is. */
static void unfinished(void) {
    struct text report;
    struct lab_bench other = {0};
    struct lab_told told;
    IS(lab_bench_open((const uint8_t *)lone, sizeof lone - 1, &bench, &told) == LAB_DONE);
    IS(lab_bench_open((const uint8_t *)lone, sizeof lone - 1, &other, &told) == LAB_DONE);
    comes_to_hold(0);
    IS(lab_command(&bench, 0, &out.entry) == LAB_DONE && out.entry.value == 999999);
    IS(close_bench(&bench, &report) == LAB_UNFINISHED);
    static const char cut[] = "lab 1\ninstrument dial 1\nonly 1 1/2 add 999999 = 999999\njob only sessions 0 of 1 meals 0 waiting\nunfinished\n";
    IS(report.length == sizeof cut - 1 && memcmp(report.bytes, cut, report.length) == 0);
    free(report.bytes);
    lab_bench_free(&bench);

    /* the other bench knows nothing of this one; it is freed while its job holds */
    bench = other;
    comes_to_hold(0);
    IS(lab_command(&bench, 0, &out.entry) == LAB_DONE && lab_command(&bench, 0, &out.entry) == LAB_DONE && out.entry.value == 4);
    lab_bench_free(&bench);
    not_open(0);
    IS(open_two() == LAB_DONE);
    IS(close_bench(&bench, &report) == LAB_UNFINISHED);
    free(report.bytes);
    lab_bench_free(&bench);
    IS(lab_bench_open((const uint8_t *)"lab 1\n", 6, &bench, &told) == LAB_DONE);
    TELLS(LAB_DONE, lab_bench_size(&bench, &out.size));
    IS(out.size.jobs == 0 && out.size.instruments == 0);
    REFUSED(LAB_NOT_THERE, lab_end(&bench, 0, &out.turned));
    settles(0xffffffffu, 0, 0, 0);
    IS(close_bench(&bench, &report) == LAB_DONE && report.length == 15 && memcmp(report.bytes, "lab 1\nfinished\n", 15) == 0);
    free(report.bytes);
    lab_bench_free(&bench);
}

int main(void) {
    not_open(0);
    faults();
    not_open(0);
    a_whole_run();
    closed();
    keepers();
    settled();
    unfinished();
    return summary();
}
