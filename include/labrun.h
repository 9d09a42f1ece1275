/* labrun in your own process. Two parts: the program's runs on one thread, from a script in memory to a report in memory; and the bench
   itself (`struct lab_bench`), on which threads of your own take turns, hold instruments, work, and let go, one call at a time.

   Every call answers a status:

     0  LAB_DONE        done; of a run or a close: every job is retired
     1  LAB_REFUSED     the script or a step is refused; `line` and `cause` say which line, and why
     2  LAB_NOT_THERE   there is no such job, session or instrument
     3  LAB_UNFINISHED  a job isn't retired
     4  LAB_TOO_LONG    the script has more than 16777216 bytes
     5  LAB_NO_MEMORY   no memory
     6  LAB_NO_ROOM     what was to be written has more than `room` bytes; `written` says how many
     7  LAB_NOT_OPEN    the handle has nothing that the call could act on: it isn't open
     8  LAB_NOT_YET     not yet, or not now: what was asked for isn't so
    10  LAB_SESSIONS_LEFT  the job can't retire, because it is in a session or has one left
    11  LAB_IN_USE      the handle that is to be filled isn't empty: it is open, or closed and not freed, or it wasn't zeroed
    12  LAB_JOURNAL_FULL  the bench keeps its steps and has no room for those of this call: take its journal (`lab_journal`), and call again
    13  LAB_BUSY        another call on the handle is under way
    14  LAB_RETIRED     the job has retired, and takes no further session

   At 1, 4, 5 and 6 the room for a report or a name stays as it was. No call starts a thread, waits or sleeps, and none asks
   for anything but malloc, realloc and free.

   What a caller owes, which nothing checks:

     - each `const uint8_t *` points to `length` bytes that may be read, and no other thread writes them meanwhile;
     - each other `uint8_t *` points to `room` bytes that may be read and written, and each other pointer to one of what it points to;
       nobody else reads or writes these meanwhile;
     - no pointer is NULL, but one to bytes whose `length` or `room` is 0;
     - what one call is given doesn't overlap;
     - no call from a signal handler (on a handle that is busy it answers 13), nor in the child of a fork of a process with threads;
     - malloc and realloc align what they give as usual, and give NULL where they have none;
     - of a bench, also what stands at `struct lab_bench`. */
#ifndef LABRUN_H
#define LABRUN_H
#include <stddef.h>
#include <stdint.h>
#ifdef __cplusplus
extern "C" {
#endif

#define LAB_DONE 0u
#define LAB_REFUSED 1u
#define LAB_NOT_THERE 2u
#define LAB_UNFINISHED 3u
#define LAB_TOO_LONG 4u
#define LAB_NO_MEMORY 5u
#define LAB_NO_ROOM 6u
#define LAB_NOT_OPEN 7u
#define LAB_NOT_YET 8u
#define LAB_SESSIONS_LEFT 10u
#define LAB_IN_USE 11u
#define LAB_JOURNAL_FULL 12u
#define LAB_BUSY 13u
#define LAB_RETIRED 14u

struct lab_told {
    size_t written; /* how many bytes the text has, or of a journal were read, or how many sessions were added; else 0 */
    size_t line;    /* the line that a fault names, counted from 1; 0 where none does */
    uint32_t cause; /* why it is refused: 1 to 14 for S1 to S14; 0 for a step that isn't legal, or no fault of a line */
};

/* ---- Whole runs. Nothing is kept between these calls, and several threads may call at once. At 6 the run is done and thrown
   away: a second call, with more room, does it again. */

/* An upgraded script never has more bytes than these. */
#define LAB_UPGRADED 3696678u

/* Runs the script in rounds, at most `limit` of them, as `labrun rounds LIMIT`. */
uint32_t lab_rounds(const uint8_t *script, size_t length, uint32_t limit, uint8_t *report, size_t room, struct lab_told *told);

/* Takes the steps that stand behind the script, as `labrun replay`. */
uint32_t lab_replay(const uint8_t *script, size_t length, uint8_t *report, size_t room, struct lab_told *told);

/* Puts the line of the script's counts there, as `labrun check`. */
uint32_t lab_check(const uint8_t *script, size_t length, uint8_t *report, size_t room, struct lab_told *told);

/* Puts the script of version 2 there, as `labrun upgrade`. */
uint32_t lab_upgrade(const uint8_t *script, size_t length, uint8_t *report, size_t room, struct lab_told *told);

/* ---- The bench.

   A bench is opened for a script. From then on each job has a session to begin, and whoever acts for the job

     asks     lab_settle, with the job in `waiting`: `came` tells whether the job holds its session's instruments, or has no session left;
     works    at the real instruments, for as long as it likes: nobody else holds one of them;
     lets go  lab_end, which enters the session's commands in the logs; or lab_command, one by one, and then lab_end;
     wakes    lab_settle again, if others wait: `came` tells which of them hold now;

   and after its last session retires (lab_retire). `lab_bench_close` gives the report. Whatever the calls, in whatever order and
   from whatever threads, that report is one of a legal run: each instrument's log is whole sessions, of which only the last may
   be unfinished, and no two jobs held an instrument at once.

   Nobody sleeps for nothing. Each two jobs that share an instrument have a share of it, their *bottle*. A job *keeps* an instrument from
   another that needs it and lacks its share, if it has that share, needs the instrument too, and holds or comes first. After `lab_settle`
   answered 0, each job that it named is told in `came` (it holds, it gave its session up in this call, or it has none left), or waits for one
   that holds: a chain of jobs leads to that, each of which keeps an instrument from the one before it; all but the last wait. (The first link
   of a job that is outside, as `lab_overtakes` has it, is a job in a session that needs one of its instruments.) So whoever waits then, waits
   because somebody works.

   The rules, beside those above:

     - `struct lab_bench` is all zero before `lab_bench_open`, and the calls alone write it. It may be moved while no call on it runs, but
       a copy must not be used beside the first.
     - One call at a time on one bench: threads that share it hold one mutex of yours during each call, and don't while they work.
       Threads with a bench each need no mutex. The proofs are of programs that keep this rule. In one that doesn't, each call makes the
       handle busy by one atomic step, and the call that comes meanwhile, from a thread or a signal handler, answers 13 and changes
       nothing. A thread that is killed within a call leaves the handle busy for good.
     - Any thread may act for any job. If two threads act for one job, each sees what the other did: say among yourselves who does.
     - A thread that waits sleeps on a condition variable of yours. Whoever called `lab_settle` wakes the threads of the jobs that `came`
       names, and whoever called `lab_end` or `lab_withdraw`, or set `lab_overtakes` lower, calls `lab_settle`. There is nothing else to
       wake anybody for, and nothing to look at from time to time.
     - But a session with patience counts the calls of `lab_settle` in which it waits, whoever makes them: let somebody call now and then,
       so that it does run out. A job that is outside (`lab_overtakes`) is in no session, and its patience doesn't run: count yourself,
       and call `lab_withdraw`.
     - A job gives up what a neighbour asks for in `lab_settle`, `lab_end` and `lab_retire` of whatever job. So a thread that works, sleeps
       or has stopped keeps nobody waiting, as long as its job doesn't hold, or keep while it waits, an instrument that the other needs.
     - A thread that stops while its job holds keeps those instruments: others wait, and `lab_keepers` tells which jobs keep an
       instrument from one, and which of these hold it. Any thread may finish the session by `lab_end` for it. Nothing is lost if
       nobody does: the close then answers 3.
     - Who comes to hold though nobody waits for it any more is told in `came`, too. End such a session, or it keeps its instruments.
     - No call between the open and the close asks for memory, but `lab_add`, and `lab_journal` and `lab_more`.
     - A job or an instrument is a number from 0, in the order of the script; sessions are counted from 1.
     - At each status but 0 nothing has changed and nothing is written, but for: `turned` and what was done, at 8 and 10 of `lab_retire`;
       `written` at 6; `told` at 1, 4 and 5 of an open and of `lab_bench_script` (at 4 all three are 0; at 5 `line` may be how far the script
       was read, with `cause` 12) and at the close; what `lab_add` says of itself; and the close, which at 3 has written the report, and at
       3 and 6 has closed the bench. */

/* What C keeps of a bench. */
struct lab_bench {
    void *at;
    uint64_t live; /* not 0 if it has something */
};

struct lab_size {
    size_t jobs;        /* at most 32 */
    size_t instruments; /* at most 56 */
};

struct lab_session {
    uint64_t needs;        /* its instruments: bit k for instrument k */
    size_t commands;       /* how many commands it has */
    uint32_t patience;     /* after how many calls of `lab_settle` in which it waited it is given up; 0 if it has none */
    uint32_t has_patience; /* 1 if it has patience, else 0 */
};

struct lab_turned {
    uint32_t what;  /* 0 nothing was due; 2 acts were done */
    uint32_t count; /* how many */
};

struct lab_came {
    uint32_t holds;     /* the jobs that hold all instruments of their session now: bit k for job k */
    uint32_t given_up;  /* the jobs whose session was given up in this call, because its patience was used up */
    uint32_t none_left; /* the jobs of `waiting` that are in no session and have none left to begin */
    uint32_t deeds;     /* how many steps were done, not counting looks; 0: nothing was due */
};

struct lab_keepers {
    uint32_t jobs;    /* the jobs that keep the instrument from this one: bit k for job k */
    uint32_t holding; /* those of them that hold it; there is one at most */
};

struct lab_state {
    uint64_t turns;         /* how many calls of `lab_settle` named it or came while it waited; a first session that the open gave up counts as one */
    uint32_t dining;        /* 0 thinking, 1 hungry, 2 eating */
    uint32_t drinking;      /* 0 tranquil, 1 thirsty, 2 drinking, 3 reaching, 4 retired; at 2 and 3 it holds its instruments */
    uint32_t session;       /* the session that it is in, or was in last; 0 before the first */
    uint32_t sessions;      /* how many it has */
    uint32_t position;      /* how many commands of this session are done; `lab_session_of` says how many it has, and what it needs */
    uint32_t sessions_done; /* how many sessions were ended, not counting those given up */
    uint32_t withdrawn;     /* how many were given up */
    uint32_t meals;         /* how many meals were begun */
    uint32_t waited;        /* for how many calls of `lab_settle` this session has waited */
};

/* A command as it stands in its instrument's log. */
struct lab_entry {
    uint32_t session;
    uint32_t place;  /* which of the session's commands on this instrument it is, from 1 */
    uint32_t length; /* how many it has there */
    uint32_t verb;   /* 0 set, 1 add, 2 read */
    uint32_t number; /* of set and add; 0 for read */
    uint32_t value;  /* what the dial then showed */
};

/* A command as the script has it. */
struct lab_planned {
    uint32_t instrument;
    uint32_t verb;   /* as in `struct lab_entry` */
    uint32_t number;
};

/* Opens a bench for a script. 0; 1 with `told->line` and `told->cause`; 4; 5; 11 if the handle is in use.

   The script may also be a text `bench 1`, which says what each job may use, and needs no sessions:

     bench 1
     job board
     uses scope supply
     job guest
     uses scope

   Each line `uses` stands for a first session of its job, `session patience 0` with a `read` of each instrument, and the open begins these
   and gives them up. So nobody waits for them, `lab_add` may come next, and a job's sessions count from 2. Of what else such a text may say,
   docs/FORMATS.md tells. Lines of faults are those of the text. */
uint32_t lab_bench_open(const uint8_t *script, size_t length, struct lab_bench *bench, struct lab_told *told);

/* The script that a text stands for: of a text `bench 1` a script `lab 2`, which `labrun` reads and with which a journal begins; of a script the
   script itself. `told->written` is its length, at 6 too. 0; 1 with `told->line` and `told->cause`; 4; 5; 6. */
uint32_t lab_bench_script(const uint8_t *text, size_t length, uint8_t *script, size_t room, struct lab_told *told);

/* How many jobs and instruments there are. 0, 7. */
uint32_t lab_bench_size(struct lab_bench *bench, struct lab_size *size);

/* A name, 1 to 16 bytes without a NUL behind. 0, 2, 6 with its length in `written`, 7. */
uint32_t lab_job_name(struct lab_bench *bench, uint32_t job, uint8_t *name, size_t room, size_t *written);
uint32_t lab_instrument_name(struct lab_bench *bench, uint32_t instrument, uint8_t *name, size_t room, size_t *written);

/* What a session of a job is, as the script has it. 0, 2, 7. */
uint32_t lab_session_of(struct lab_bench *bench, uint32_t job, uint32_t session, struct lab_session *what);

/* A command of a session as the script has it; its commands are counted from 0. Where `lab_state` says `position`, the next command
   (`lab_command`) is the one with this number: so it says on which instrument. 0, 2, 7. */
uint32_t lab_planned(struct lab_bench *bench, uint32_t job, uint32_t session, uint32_t place, struct lab_planned *command);

/* How far a job is. 0, 2, 7. */
uint32_t lab_state(struct lab_bench *bench, uint32_t job, struct lab_state *state);

/* Which jobs keep an instrument from a job (see above). There is none if the job is neither thirsty nor outside (see `lab_outside`), doesn't
   need the instrument, or lacks nothing of it. After `lab_settle` there is at least one for each instrument that a thirsty job lacks; each
   that doesn't hold waits, and has keepers of its own. The call tells one link of the chain: ask on, job by job.
   0, 2 (no such job or instrument), 7. */
uint32_t lab_keepers(struct lab_bench *bench, uint32_t job, uint32_t instrument, struct lab_keepers *keepers);

/* Begins the next session of each job of `waiting` that is in none, and then does all that can be done without a word from an owner, until
   nothing is due anywhere: each job that may hold does. Sessions whose patience was used up before this call are given up, and none is begun in
   their place: `came` tells. Bits of `waiting` beyond the jobs are passed over. So a job that waits still, waits for one that holds: see
   above. 0, 7. */
uint32_t lab_settle(struct lab_bench *bench, uint32_t waiting, struct lab_came *came);

/* Late thirst. A job that is in a session and waits keeps instruments for itself, though it may have to wait long for another one. So a bench
   may leave jobs *outside*: `lab_settle` then begins the session of a job of `waiting` (it is *let in*) as soon as

     (a) no job in a session needs one of its instruments: then it holds when the call ends; or
     (b) it has been *passed by* `most` times: that is, that many sessions that need one of its instruments were let in, by calls that wait
         for it, since it asked. From then on it is in a session, and waits as ever.

   It asks by the first call in whose `waiting` it is while it may begin. Those of (b) go before those of (a), and among these the one that
   asked first goes first. At 0, as it is after the open, all of `waiting` are let in at once, as `lab_settle` says. The number may be set
   at any time, and counts from the next call on. Whoever calls `lab_settle` names all jobs that still wait: one that isn't named keeps its
   place, but is neither let in nor counted as passed by. After `lab_settle` each job of `waiting` that is left outside and may begin was passed by
   fewer than `most` times, and one of its instruments is needed by a job in a session, which holds or waits for one that does. No journal
   keeps who is outside, nor this number: after `lab_bench_resume` nobody is, and it is 0. 0, 7. */
uint32_t lab_overtakes(struct lab_bench *bench, uint32_t most);

/* Whether a job is outside: it has asked, and isn't let in yet. One that gives up asking (`lab_withdraw`) isn't any more. `lab_keepers` of a
   job that is outside, and an instrument that its next session needs, tells the jobs in a session that needs the instrument, and those of them that
   hold. 0, 2, 7. */
struct lab_outside {
    uint32_t is_outside; /* 1 or 0 */
    uint32_t passed;     /* how often it has been passed by; 0 if it isn't outside */
};
uint32_t lab_outside(struct lab_bench *bench, uint32_t job, struct lab_outside *outside);

/* Adds one or more sessions behind the others of a job: lines `session` or `session patience N`, commands, `end`, as a script has them, of
   instruments that the job's sessions name already. From then on the bench is one of the longer script: the job has sessions left again, and
   all that is said of a bench is true of it. The call asks for memory. 0; 1 with the line of this text, counted from 1,
   and the cause (14: an instrument that the job doesn't name); 2; 5 with `told->written`, how many of the sessions were added before there
   was no memory; 7; 14 if the job has retired. On a bench that keeps its steps see `lab_more`; there also 12: the sessions need more room for
   steps than there is, and there can be more only once those that are kept were taken by `lab_journal`. */
uint32_t lab_add(struct lab_bench *bench, uint32_t job, const uint8_t *session, size_t length, struct lab_told *told);

/* Does the next command of the session that a job holds, and tells its entry. 0; 8 if it doesn't hold, or no command is left;
   2, 7. */
uint32_t lab_command(struct lab_bench *bench, uint32_t job, struct lab_entry *entry);

/* Does the commands that are left, ends the session and lets go; then does all that can be done without a word from an owner, so that
   others may hold: the next `lab_settle` tells which. 0; 8 if it doesn't hold; 2, 7. */
uint32_t lab_end(struct lab_bench *bench, uint32_t job, struct lab_turned *turned);

/* Gives up the session that a job waits for, if it has patience; or takes a job that is outside from its place (its
   session isn't begun and not given up: the next `lab_settle` that names the job asks for it again). Others may come to hold by
   that: `lab_settle` sees to it, and tells which. 0; 8 if it isn't outside, and isn't thirsty or has no patience; 2, 7. */
uint32_t lab_withdraw(struct lab_bench *bench, uint32_t job);

/* Retires a job whose sessions are all done. It begins no session, but does all that can be done without a word from an owner, as `lab_end`;
   `turns` is how often, at most. 0 it is retired; 8 not yet: it owes a meal, for which it needs forks that others give once they have let
   go (call again then), or `turns` is 0; 10 it is in a session, or has one left, which has to end first; 2, 7. */
uint32_t lab_retire(struct lab_bench *bench, uint32_t job, uint32_t turns, struct lab_turned *turned);

/* Closes the bench, whatever its jobs are at, and writes the report. 0 or 3 as a run; 5 and 6: nothing is lost, call again (at 5 the bench is
   still open); 7. A closed handle keeps its report, for a further call; an open answers 11, and every other call but the free 7. */
uint32_t lab_bench_close(struct lab_bench *bench, uint8_t *report, size_t room, struct lab_told *told);

/* Gives back all that the handle has, at any time; it is empty then, and may be opened again. 0; 7 if it is empty already. */
uint32_t lab_bench_free(struct lab_bench *bench);

/* ---- A bench that comes back when its process has died.

   A bench that is opened by `lab_bench_open_kept` keeps the steps that its calls do, and `lab_journal` takes them as text. Write the
   script (and a line end, if it has none), the line `steps`, and then each text that was taken, one after another, into a file: that is the
   journal, and also an input of `labrun replay`. `lab_bench_resume` reads it, does the steps again, and the bench stands where it
   stood. So whatever was written before the process died stays so: who held, holds, and what was logged, is logged.

     - Take and write the journal before anybody acts on what a call told: before a thread works at its instruments, and before one
       that let go says so. How often it is brought to the disk (fsync) is up to you.
     - Write the script and the line `steps` whole before the first call: a file that was cut within its script is read as the shorter script
       that it is then.
     - Of a text `bench 1` the journal's script is what `lab_bench_script` gives. Write it together with the first text of `lab_journal`, which has
       the steps that gave up the first sessions: without these steps a bench that is resumed has them to begin still (`lab_settle` begins one
       then: end it if it holds, or else it is given up).
     - A file that was cut while it was written comes back to its last whole line; `written` tells how many bytes that is. Cut the file
       there, take the journal of the bench that came back, and go on writing behind it.
     - A command that was in hand is done on the way back; the next journal tells it. All patience counts anew.
     - Room is kept for the steps of two calls. A call that does steps answers 12, and does nothing, if less than half of it is left: take
       the journal then, or rather after each call. That the room suffices isn't proved: if it ever didn't, `lab_journal` would answer 12
       for good, and never give a journal that lacks a step.
     - In the file, comments of your own begin with `# ` and stand between two texts. A journal has 1000000 steps at most: start a new one
       before. */

/* As `lab_bench_open`, and the bench keeps its steps; of a text `bench 1` those of the open too, so take its journal before `lab_add`. 0; 1 with
   `told->line` and `told->cause`; 4; 5; 11. */
uint32_t lab_bench_open_kept(const uint8_t *script, size_t length, struct lab_bench *bench, struct lab_told *told);

/* Takes the steps that were done since the journal was last taken, as text, which may be empty; `written` tells its length. 0; 5; 6 with
   `written`, and nothing is taken; 7; 8 if the bench doesn't keep its steps; 12, see above. */
uint32_t lab_journal(struct lab_bench *bench, uint8_t *text, size_t room, size_t *written);

/* The lines of a session of a job, for the journal, as text; `written` tells its length. A session that `lab_add` added isn't in the journal until
   its lines are: write them before the next text of `lab_journal`, for each session that was added. `lab_bench_resume` adds it then, before it does
   the steps; lines that break off before their last are passed over. `labrun replay` knows the script alone: it refuses the first step of such a
   session. 0; 2 if there is no such job or session; 5; 6 with `written`; 7; 8 if the bench doesn't keep its steps. */
uint32_t lab_more(struct lab_bench *bench, uint32_t job, uint32_t session, uint8_t *text, size_t room, size_t *written);

/* Opens the bench that a journal tells of; it keeps its steps. 0, with `told->written` as the length of what was read, up to the last line
   end; 1 with `told->line` and `told->cause`, as `lab_replay`, also (13) for a line `#sum` that doesn't fit the lines above it, and for the lines of a
   session that its job can't take (the line is that of `#more`; 7: there is no such job; else as `lab_add`); 5; 11. */
uint32_t lab_bench_resume(const uint8_t *journal, size_t length, struct lab_bench *bench, struct lab_told *told);

/* ---- The sizes and places that the library goes by. */

#if defined __cplusplus && __cplusplus >= 201103L
#define LAB_IS(what) static_assert(what, #what)
#elif !defined __cplusplus && defined __STDC_VERSION__ && __STDC_VERSION__ >= 201112L
#define LAB_IS(what) _Static_assert(what, #what)
#endif
#ifdef LAB_IS
#define LAB_AT(type, field, place) LAB_IS(offsetof(struct type, field) == place)
LAB_IS(sizeof(size_t) == 8 && sizeof(void *) == 8);
LAB_IS(sizeof(struct lab_told) == 24);
LAB_AT(lab_told, written, 0);
LAB_AT(lab_told, line, 8);
LAB_AT(lab_told, cause, 16);
LAB_IS(sizeof(struct lab_bench) == 16);
LAB_AT(lab_bench, at, 0);
LAB_AT(lab_bench, live, 8);
LAB_IS(sizeof(struct lab_size) == 16);
LAB_AT(lab_size, jobs, 0);
LAB_AT(lab_size, instruments, 8);
LAB_IS(sizeof(struct lab_session) == 24);
LAB_AT(lab_session, needs, 0);
LAB_AT(lab_session, commands, 8);
LAB_AT(lab_session, patience, 16);
LAB_AT(lab_session, has_patience, 20);
LAB_IS(sizeof(struct lab_turned) == 8);
LAB_AT(lab_turned, what, 0);
LAB_AT(lab_turned, count, 4);
LAB_IS(sizeof(struct lab_came) == 16);
LAB_AT(lab_came, holds, 0);
LAB_AT(lab_came, given_up, 4);
LAB_AT(lab_came, none_left, 8);
LAB_AT(lab_came, deeds, 12);
LAB_IS(sizeof(struct lab_keepers) == 8);
LAB_AT(lab_keepers, jobs, 0);
LAB_AT(lab_keepers, holding, 4);
LAB_IS(sizeof(struct lab_state) == 48);
LAB_AT(lab_state, turns, 0);
LAB_AT(lab_state, dining, 8);
LAB_AT(lab_state, drinking, 12);
LAB_AT(lab_state, session, 16);
LAB_AT(lab_state, sessions, 20);
LAB_AT(lab_state, position, 24);
LAB_AT(lab_state, sessions_done, 28);
LAB_AT(lab_state, withdrawn, 32);
LAB_AT(lab_state, meals, 36);
LAB_AT(lab_state, waited, 40);
LAB_IS(sizeof(struct lab_entry) == 24);
LAB_AT(lab_entry, session, 0);
LAB_AT(lab_entry, place, 4);
LAB_AT(lab_entry, length, 8);
LAB_AT(lab_entry, verb, 12);
LAB_AT(lab_entry, number, 16);
LAB_AT(lab_entry, value, 20);
LAB_IS(sizeof(struct lab_planned) == 12);
LAB_AT(lab_planned, instrument, 0);
LAB_AT(lab_planned, verb, 4);
LAB_AT(lab_planned, number, 8);
LAB_IS(sizeof(struct lab_outside) == 8);
LAB_AT(lab_outside, is_outside, 0);
LAB_AT(lab_outside, passed, 4);
#undef LAB_AT
#undef LAB_IS
#endif

#ifdef __cplusplus
}
#endif
#endif
