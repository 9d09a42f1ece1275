/* journal.c: a bench that keeps its steps. Its journal is taken piece by piece, and from it the bench comes back: from each prefix that
   has the line `steps`, as from a file that a dying process was writing.
   cc -I include checks/door/journal.c FOLDER/liblabrun.a */
#include "poison.h"

static struct lab_bench bench, other;

static void look(struct seen *seen) { look_at_bench(seen, &bench); }

/* The journal: the script, the line `steps`, and all that was taken. */
static uint8_t file[1 << 20];
static size_t length, head;

static void begin_file(const char *script) {
    length = strlen(script);
    memcpy(file, script, length);
    memcpy(file + length, "steps\n", 6);
    head = length += 6;
}

/* Takes what there is, behind the file. */
static size_t take(struct lab_bench *from) {
    size_t written = 77, before = length;
    uint32_t status = lab_journal(from, file + length, sizeof file - length, &written);
    expect(status == LAB_DONE, "lab_journal: status %u", status);
    if (status == LAB_DONE) length += written;
    return length - before;
}

/* How far each job is is the same, but for what counts calls. */
static int same_lab(struct lab_bench *one, struct lab_bench *two) {
    for (uint32_t job = 0; job < MOST_JOBS; job++) {
        struct lab_state a, b;
        memset(&a, 0, sizeof a);
        memset(&b, 0, sizeof b);
        if (lab_state(one, job, &a) != lab_state(two, job, &b)) return 0;
        a.turns = b.turns = 0;
        a.waited = b.waited = 0;
        if (memcmp(&a, &b, sizeof a) != 0) return 0;
    }
    return 1;
}

static size_t whole_lines(size_t cut) {
    while (cut && file[cut - 1] != '\n') cut--;
    return cut;
}

/* The report of a bench, whatever its jobs are at, and that of a replay of the file are the same. */
static void replays(struct lab_bench *closed) {
    static uint8_t report[65536], again[65536];
    struct lab_told told, told_again;
    uint32_t status = lab_bench_close(closed, report, sizeof report, &told);
    uint32_t status_again = lab_replay(file, length, again, sizeof again, &told_again);
    IS(status == LAB_DONE || status == LAB_UNFINISHED);
    expect(status == status_again && told.written == told_again.written && memcmp(report, again, told.written) == 0,
           "a replay of the journal: status %u and %u", status, status_again);
}

static void resumes(void) {
    struct lab_told told = {77, 77, 77};
    uint32_t status = lab_bench_resume(file, length, &other, &told);
    expect(status == LAB_DONE && told.written == length && told.line == 0 && told.cause == 0, "resume: status %u, line %zu, cause %u", status,
           told.line, told.cause);
}

static void not_kept(void) {
    uint8_t text[8] = {1, 2, 3, 4, 5, 6, 7, 8};
    REFUSED(LAB_NOT_OPEN, lab_journal(&bench, text, sizeof text, &out.name.written));
    IS(lab_bench_open((const uint8_t *)two, sizeof two - 1, &bench, &out.told) == LAB_DONE);
    REFUSED(LAB_NOT_YET, lab_journal(&bench, text, sizeof text, &out.name.written));
    REFUSED(LAB_IN_USE, lab_bench_open_kept((const uint8_t *)two, sizeof two - 1, &bench, &out.told));
    begin_file(two);
    REFUSED(LAB_IN_USE, lab_bench_resume(file, length, &bench, &out.told));
    IS(text[0] == 1 && text[7] == 8);
    lab_bench_free(&bench);
}

static void piece_by_piece(void) {
    struct lab_came came;
    struct lab_entry entry;
    struct lab_turned turned;
    size_t written = 77;
    begin_file(two);
    IS(lab_bench_open_kept((const uint8_t *)two, sizeof two - 1, &bench, &out.told) == LAB_DONE);
    IS(lab_journal(&bench, NULL, 0, &written) == LAB_DONE && written == 0);
    resumes();
    IS(same_lab(&bench, &other));
    lab_bench_free(&other);

    IS(lab_settle(&bench, 7, &came) == LAB_DONE && came.holds == 1);
    IS(lab_command(&bench, 0, &entry) == LAB_DONE && entry.value == 1);
    /* without room nothing is taken */
    IS(lab_journal(&bench, NULL, 0, &written) == LAB_NO_ROOM && written > 0);
    uint8_t small[4096];
    memset(small, POISON, sizeof small);
    size_t wanted = written;
    IS(wanted < sizeof small && lab_journal(&bench, small, wanted - 1, &written) == LAB_NO_ROOM && written == wanted && small[0] == POISON);
    IS(take(&bench) == wanted && memcmp(file + head, "#steps\n", 7) == 0 && memcmp(file + length - 22, "#sum ", 5) == 0 && file[length - 1] == '\n');
    IS(take(&bench) == 0);
    resumes();
    IS(same_lab(&bench, &other) && take(&other) == 0);
    lab_bench_free(&other);

    IS(lab_end(&bench, 0, &turned) == LAB_DONE);
    IS(lab_settle(&bench, 3, &came) == LAB_DONE && came.holds != 0);
    IS(take(&bench) > 0);
    resumes();
    IS(same_lab(&bench, &other));
    lab_bench_free(&other);
    replays(&bench);
    lab_bench_free(&bench);
}

/* Each prefix that has the line `steps` comes back, up to its last line end, and goes on. */
static void torn(void) {
    struct lab_told told;
    struct lab_came came;
    size_t all = length;
    for (size_t cut = head; cut <= all; cut++) {
        uint32_t status = lab_bench_resume(file, cut, &other, &told);
        expect(status == LAB_DONE && told.written == whole_lines(cut), "a journal of %zu bytes: status %u, %zu bytes, line %zu, cause %u", cut,
               status, told.written, told.line, told.cause);
        if (status == LAB_DONE) IS(lab_settle(&other, 7, &came) == LAB_DONE);
        lab_bench_free(&other);
    }
    /* before that line it is a script that may be cut short, and read as what it then is, or refused */
    for (size_t cut = 0; cut < head; cut++) {
        uint32_t status = lab_bench_resume(file, cut, &other, &told);
        if (status == LAB_DONE) {
            IS(told.written == whole_lines(cut) && lab_bench_free(&other) == LAB_DONE);
        } else {
            expect(status == LAB_REFUSED && other.live == 0 && told.line > 0, "a script of %zu bytes: status %u", cut, status);
        }
    }
}

/* A line that isn't as it was written is refused, and named. */
static void changed(void) {
    struct lab_told told;
    size_t line = 1, refused = 0;
    for (size_t at = 0; at < head; at++) line += file[at] == '\n';
    for (size_t at = head; at < length; at++) {
        uint8_t was = file[at];
        if (was != '\n') {
            file[at] = was == 'q' ? 'r' : 'q';
            uint32_t status = lab_bench_resume(file, length, &other, &told);
            if (status == LAB_REFUSED) {
                refused++;
                /* (a step that is another one now may be legal, and only the sum behind it is wrong then) */
                expect(told.line >= line && told.written == 0 && other.live == 0, "byte %zu: line %zu, wanted %zu or behind", at, told.line, line);
            } else {
                /* only what isn't looked at: the word behind the mark of a piece's begin or its sum */
                expect(status == LAB_DONE, "byte %zu: status %u", at, status);
                lab_bench_free(&other);
            }
            file[at] = was;
        } else {
            line++;
        }
    }
    IS(refused > 100);
}

/* The lines of a session of a job, behind the file. */
static void take_more(struct lab_bench *from, uint32_t job, uint32_t session, const char *wanted) {
    size_t written = 77;
    uint8_t none[4] = {1, 2, 3, 4};
    IS(lab_more(from, job, session, none, sizeof none, &written) == LAB_NO_ROOM && written == strlen(wanted) && none[0] == 1 && none[3] == 4);
    uint32_t status = lab_more(from, job, session, file + length, sizeof file - length, &written);
    expect(status == LAB_DONE && written == strlen(wanted) && memcmp(file + length, wanted, written) == 0, "lab_more: status %u, %zu bytes", status, written);
    if (status == LAB_DONE) length += written;
}

static uint32_t adds(uint32_t job, const char *session) {
    return lab_add(&bench, job, (const uint8_t *)session, strlen(session), &out.told);
}

/* What is told of sessions, and of which. */
static void told_of_sessions(void) {
    uint8_t text[8] = {1, 2, 3, 4, 5, 6, 7, 8};
    REFUSED(LAB_NOT_OPEN, lab_more(&bench, 0, 1, text, sizeof text, &out.name.written));
    IS(lab_bench_open((const uint8_t *)two, sizeof two - 1, &bench, &out.told) == LAB_DONE);
    REFUSED(LAB_NOT_YET, lab_more(&bench, 0, 1, text, sizeof text, &out.name.written));
    lab_bench_free(&bench);
    IS(lab_bench_open_kept((const uint8_t *)two, sizeof two - 1, &bench, &out.told) == LAB_DONE);
    REFUSED(LAB_NOT_THERE, lab_more(&bench, 3, 1, text, sizeof text, &out.name.written));
    REFUSED(LAB_NOT_THERE, lab_more(&bench, 1, 0, text, sizeof text, &out.name.written));
    REFUSED(LAB_NOT_THERE, lab_more(&bench, 1, 2, text, sizeof text, &out.name.written));
    IS(text[0] == 1 && text[7] == 8);
    lab_bench_free(&bench);
}

static const char more_of_b[] = "#steps\n#more b\n#+session patience 5\n#+scale read\n#+end\n#sum f573d6f1d5b8db51\n";
static const char more_of_a[] = "#steps\n#more a\n#+session\n#+scale add 1\n#+lamp set 3\n#+lamp add 999999\n#+scale read\n#+scale set 0\n"
                                "#+lamp read\n#+scale add 2\n#+end\n#sum fec8353e1614782f\n";
static const char of_a[] = "session\nscale add 1\nlamp set 3\nlamp add 999999\nscale read\nscale set 0\nlamp read\nscale add 2\nend\n";

/* Sessions come, and their lines are written. */
static void come(void) {
    struct lab_state state;
    struct lab_came who;
    begin_file(two);
    IS(lab_bench_open_kept((const uint8_t *)two, sizeof two - 1, &bench, &out.told) == LAB_DONE);
    IS(lab_settle(&bench, 3, &who) == LAB_DONE && who.holds == 1);
    /* a short one finds room while steps are kept, a longer one doesn't */
    IS(adds(1, "session patience 5\nscale read\nend\n") == LAB_DONE);
    REFUSED(LAB_JOURNAL_FULL, adds(0, of_a));
    IS(lab_state(&bench, 0, &state) == LAB_DONE && state.sessions == 2);
    take_more(&bench, 1, 2, more_of_b);
    IS(take(&bench) > 0 && adds(0, of_a) == LAB_DONE);
    take_more(&bench, 0, 3, more_of_a);
    IS(adds(0, "session\nscale read\n") == LAB_REFUSED && out.told.line == 3 && out.told.cause == 9);
    IS(adds(3, of_a) == LAB_NOT_THERE);
}

/* Each job with a session holds, lets go, and gets its next one, until all are done; after each call the journal comes back. */
static void goes_on(void) {
    struct lab_came who;
    struct lab_state state;
    for (int round = 0; round < 5; round++) {
        for (uint32_t job = 0; job < 2; job++) {
            IS(lab_state(&bench, job, &state) == LAB_DONE);
            if (state.drinking == 2) IS(lab_end(&bench, job, &out.turned) == LAB_DONE);
        }
        IS(lab_settle(&bench, 3, &who) == LAB_DONE && (take(&bench) > 0 || who.none_left == 3));
        resumes();
        IS(same_lab(&bench, &other));
        lab_bench_free(&other);
    }
    IS(lab_state(&bench, 0, &state) == LAB_DONE && state.sessions == 3 && state.sessions_done == 3);
    IS(lab_state(&bench, 1, &state) == LAB_DONE && state.sessions == 2 && state.sessions_done == 2);
}

/* The bench that comes back has them, from each prefix of the file. */
static void come_back(void) {
    struct lab_session session;
    resumes();
    IS(same_lab(&bench, &other) && take(&other) == 0);
    IS(lab_session_of(&other, 1, 2, &session) == LAB_DONE && session.commands == 1 && session.patience == 5 && session.has_patience == 1);
    IS(lab_session_of(&other, 0, 3, &session) == LAB_DONE && session.commands == 7 && session.has_patience == 0);
    lab_bench_free(&other);
    goes_on();
    torn();
    lab_bench_free(&bench);
}

/* What a job can't take is refused with the line where it begins; what breaks off is passed over. */
static void come_wrong(void) {
    static const struct {
        const char *lines;
        uint32_t status, cause;
        size_t line;
        uint32_t sessions; /* of job b, which has one in the script; its line `steps` is line 16 */
    } rows[] = {
        {"#more b\n#+session\n#+scale read\n#+end\n", LAB_DONE, 0, 0, 2},
        {"#more b\n#+session\n#+scale read\n#steps\n#+end\n", LAB_DONE, 0, 0, 1},
        {"#more b\n#+session\n#+scale read\nlook a b\n#+end\n", LAB_DONE, 0, 0, 1},
        {"#more b\n#+session\n#+scale read\n#more b\n#+session patience 0\n#+scale set 3\n#+end\n", LAB_DONE, 0, 0, 2},
        {"#more b\n#+session\n#+scale read\n#+en", LAB_DONE, 0, 0, 1},
        {"#+session\n#+scale read\n#+end\n", LAB_DONE, 0, 0, 1},
        {"# more b\n#session\n#scale read\n#end\n", LAB_DONE, 0, 0, 1},
        {"look a b\n#more d\n#+session\n#+scale read\n#+end\n", LAB_REFUSED, 7, 18, 0},
        {"#more b\n#+session\n#+lamp read\n#+end\n", LAB_REFUSED, 14, 17, 0},
        {"#more b\n#+end\n", LAB_REFUSED, 6, 17, 0},
        {"#more b\n#+session\n#+end\n", LAB_REFUSED, 8, 17, 0},
        {"#more c\n#+session\n#+scale read\n#+end\n", LAB_REFUSED, 14, 17, 0},
        {"#more b\n#+session\n#+scale read\n#+end\n#sum 0123456789abcdef\n", LAB_REFUSED, 13, 21, 0},
    };
    struct lab_state state;
    struct lab_told told;
    for (size_t row = 0; row < sizeof rows / sizeof *rows; row++) {
        size_t size = strlen(rows[row].lines);
        begin_file(two);
        memcpy(file + length, rows[row].lines, size);
        uint32_t status = lab_bench_resume(file, length + size, &other, &told);
        expect(status == rows[row].status && told.line == rows[row].line && told.cause == rows[row].cause, "row %zu: status %u, line %zu, cause %u", row, status,
               told.line, told.cause);
        if (status == LAB_DONE) IS(lab_state(&other, 1, &state) == LAB_DONE && state.sessions == rows[row].sessions && lab_bench_free(&other) == LAB_DONE);
    }
}

/* A job has a command in hand, as no call of this library leaves it: it is done on the way back, and the next journal tells it. */
static void in_hand(void) {
    static const char steps[] = "look a b\nthirst a\ndrink a\nreach a\n";
    struct lab_state state;
    struct lab_told told;
    struct lab_bench third = {0};
    begin_file(two);
    memcpy(file + length, steps, sizeof steps - 1);
    length += sizeof steps - 1;
    resumes();
    IS(lab_state(&other, 0, &state) == LAB_DONE && state.drinking == 2 && state.position == 1);
    IS(take(&other) > 0);
    IS(lab_bench_resume(file, length, &third, &told) == LAB_DONE && told.written == length && same_lab(&other, &third));
    lab_bench_free(&third);
    replays(&other);
    lab_bench_free(&other);
}

/* A bench that came back from a file that was cut is closed with the report of a replay: from some lengths of the file. */
static void closed_as_replayed(void) {
    static const char steps[] = "look a b\nthirst a\ndrink a\nreach a\nact a\nthirst b\naskbottles b a scale\n";
    static uint8_t report[65536], again[65536];
    struct lab_told told, told_again;
    begin_file(two);
    memcpy(file + length, steps, sizeof steps - 1);
    length += sizeof steps - 1;
    for (size_t cut = head; cut <= length; cut += 9) {
        if (memcmp(file + whole_lines(cut) - 8, "reach a\n", 8) == 0) continue; /* (its command is done on the way back) */
        IS(lab_bench_resume(file, cut, &other, &told) == LAB_DONE && told.written == whole_lines(cut));
        uint32_t status = lab_bench_close(&other, report, sizeof report, &told);
        uint32_t status_again = lab_replay(file, whole_lines(cut), again, sizeof again, &told_again);
        expect(status == status_again && told.written == told_again.written && memcmp(report, again, told.written) == 0,
               "from %zu bytes: status %u and %u", cut, status, status_again);
        IS(lab_bench_free(&other) == LAB_DONE);
    }
}

/* A bench whose journal nobody takes says so in time, and goes on once it is taken. */
static void full(void) {
    static char script[8192];
    size_t at = (size_t)sprintf(script, "lab 2\njob a\n");
    for (int session = 0; session < 200; session++) at += (size_t)sprintf(script + at, "session\nscale add 1\nend\n");
    begin_file(script);
    IS(lab_bench_open_kept((const uint8_t *)script, at, &bench, &out.told) == LAB_DONE);
    long sessions = 0, takes = 0;
    uint32_t status = LAB_DONE;
    for (int call = 0; call < 1000; call++) {
        poison();
        status = lab_settle(&bench, 1, &out.came);
        if (status == LAB_DONE && out.came.none_left == 1) break;
        if (status == LAB_DONE) {
            IS(out.came.holds == 1);
            poison();
            status = lab_end(&bench, 0, &out.turned);
            sessions += status == LAB_DONE;
        }
        if (status == LAB_JOURNAL_FULL) {
            IS(untouched(0));
            REFUSED(LAB_JOURNAL_FULL, lab_settle(&bench, 1, &out.came));
            REFUSED(LAB_JOURNAL_FULL, lab_command(&bench, 0, &out.entry));
            REFUSED(LAB_JOURNAL_FULL, lab_end(&bench, 0, &out.turned));
            REFUSED(LAB_JOURNAL_FULL, lab_withdraw(&bench, 0));
            REFUSED(LAB_JOURNAL_FULL, lab_retire(&bench, 0, 1, &out.turned));
            IS(take(&bench) > 0);
            takes++;
        } else {
            IS(status == LAB_DONE);
        }
    }
    IS(sessions == 200 && takes > 1);
    IS(lab_retire(&bench, 0, 1, &out.turned) == LAB_DONE);
    IS(take(&bench) > 0);
    resumes();
    IS(same_lab(&bench, &other));
    lab_bench_free(&other);
    replays(&bench);
    lab_bench_free(&bench);
}

int main(void) {
    not_kept();
    piece_by_piece();
    torn();
    changed();
    told_of_sessions();
    come();
    come_back();
    come_wrong();
    in_hand();
    closed_as_replayed();
    full();
    return summary();
}
