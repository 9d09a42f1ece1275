/* calls.c: each call of the bay with ample memory, by answers that were reckoned by hand from docs/BAY.md and the header. The sums in the
   texts of the journal are those of another SHA-256 (hashlib).
   cc -pthread -I include checks/bay/calls.c FOLDER/liblabrun.a -Wl,--wrap=malloc -Wl,--wrap=realloc */
#include "bay.h"
#include <pthread.h>
#include <stdatomic.h>

#define SETS(...) (const uint64_t[]){__VA_ARGS__}, sizeof((const uint64_t[]){__VA_ARGS__}) / sizeof(uint64_t)
#define POISON 0xaa
#define THREADS 4
#define CALLS 20000

/* Two places for the instruments 0 to 2, and one for 2 and 3. */
static const struct lab_class classes[2] = {{7, 2, 0}, {12, 1, 0}};

static void opened(uint64_t line, uint64_t grace, uint64_t disk, uint32_t overtakes, uint32_t keeps) {
    terms_are(line, grace, disk, overtakes, keeps);
    IS(lab_bay_open(classes, 2, &terms, &bay) == LAB_DONE);
}

static void freed(void) {
    IS(lab_bay_free(&bay) == LAB_DONE && bay.live == 0);
}

#define TOLD(number, what, needs) told((number), (what), (needs), 0, __LINE__)
/* (and with which token) */
#define TOLD_WITH(number, what, needs, token) told((number), (what), (needs), (token), __LINE__)
#define QUIET() quiet(__LINE__)

/* What is told next; it is told again until it is given back. */
static void told(uint64_t number, uint32_t what, uint64_t needs, uint64_t token, int line) {
    struct lab_outcome one, other;
    memset(&one, POISON, sizeof one);
    memset(&other, POISON, sizeof other);
    uint32_t status = lab_bay_tell(&bay, done, &one), again = lab_bay_tell(&bay, done, &other);
    expect(status == LAB_DONE, "line %d: status %u", line, status);
    if (status != LAB_DONE) return;
    expect(one.number == number && one.what == what && (what != LAB_HOLDS || one.needs == needs), "line %d: of %llu is told %u", line,
           (unsigned long long)one.number, one.what);
    expect((token == 0 || one.token == token) && (what != LAB_HOLDS || one.token > 0), "line %d: the token %llu", line, (unsigned long long)one.token);
    expect(one.serial == done + 1, "line %d: the serial number %llu", line, (unsigned long long)one.serial);
    expect(again == LAB_DONE && one.serial == other.serial && one.number == other.number && one.what == other.what && one.needs == other.needs &&
               one.token == other.token,
           "line %d: it isn't told again", line);
    done = one.serial;
}

/* There is nothing to tell, and nothing is written. */
static void quiet(int line) {
    struct lab_outcome one, before;
    memset(&one, POISON, sizeof one);
    memset(&before, POISON, sizeof before);
    uint32_t status = lab_bay_tell(&bay, done, &one);
    expect(status == LAB_NOT_YET && memcmp(&one, &before, sizeof one) == 0, "line %d: status %u, of %llu is told %u", line, status,
           (unsigned long long)one.number, one.what);
}

#define DUE(now, wanted) due((now), (wanted), __LINE__)

static void due(uint64_t now, uint64_t wanted, int line) {
    uint64_t next = 77;
    uint32_t status = lab_bay_time(&bay, now, &next);
    expect(status == LAB_DONE && next == wanted, "line %d: status %u, next %llu", line, status, (unsigned long long)next);
}

#define TEXT(text, behind) taken((text), sizeof(text) - 1, (behind), __LINE__)

/* What the journal hands out, with as much room as it needs; with less room there is nothing. */
static void taken(const char *text, size_t length, uint64_t behind, int line) {
    static uint8_t bytes[4096], before[4096];
    size_t written = 77;
    uint64_t position = 77;
    memset(bytes, POISON, sizeof bytes);
    memset(before, POISON, sizeof before);
    for (size_t room = 0; room < length; room += 1 + length / 7) {
        uint32_t status = lab_bay_journal(&bay, bytes, room, &written, &position);
        expect(status == LAB_NO_ROOM && written == length && memcmp(bytes, before, sizeof bytes) == 0, "line %d: a room of %zu: status %u, %zu",
               line, room, status, written);
    }
    uint32_t status = lab_bay_journal(&bay, bytes, length, &written, &position);
    expect(status == LAB_DONE && written == length && memcmp(bytes, text, length) == 0, "line %d: status %u, %zu bytes: %.*s", line, status,
           written, (int)written, (const char *)bytes);
    expect(position == behind && memcmp(bytes + length, before, sizeof bytes - length) == 0, "line %d: up to %llu", line,
           (unsigned long long)position);
}

/* ---- handles */

/* Each call answers this, and writes nothing. */
static void each_answers(uint32_t wanted) {
    static const struct lab_outcome no_outcome = {77, 77, 77, 77, 77, 77};
    static const struct lab_standing no_standing = {77, {77, 77}, 77, 77, 77, 77, 77};
    struct lab_outcome outcome = no_outcome;
    struct lab_standing standing = no_standing;
    uint8_t text[8] = "1234567";
    uint64_t number = 77, position = 77;
    uint32_t passed = 77;
    size_t written = 77;
    uint64_t asking = done;
    IS(ask_one(1000000, 0, 1, 0) == wanted);
    IS(lab_bay_let_go(&bay, 1, 0) == wanted);
    IS(lab_bay_leave(&bay, 1, 0) == wanted);
    IS(lab_bay_take_away(&bay, 1, 0) == wanted);
    IS(lab_bay_gone(&bay, 1, 0) == wanted);
    IS(lab_bay_back(&bay, 1, 0, 1, 0, &number) == wanted);
    IS(lab_bay_time(&bay, 0, &number) == wanted);
    IS(lab_bay_stop(&bay, 0) == wanted);
    IS(lab_bay_note(&bay, 1, text, 7, &position) == wanted);
    IS(lab_bay_journal(&bay, text, 7, &written, &position) == wanted);
    IS(lab_bay_durable(&bay, 1000000) == wanted);
    IS(lab_bay_failed(&bay) == wanted);
    IS(lab_bay_tell(&bay, asking, &outcome) == wanted);
    IS(lab_bay_look(&bay, 0, &standing, &number) == wanted);
    IS(lab_bay_keeper(&bay, 1, 0, &standing) == wanted);
    IS(lab_bay_waits(&bay, 1, 0, &number, &passed) == wanted);
    IS(lab_bay_turn(&bay, classes, 2, 0, text, 7, &written, &number) == wanted);
    IS(lab_bay_free(&bay) == wanted);
    IS(number == 77 && position == 77 && passed == 77 && written == 77 && memcmp(text, "1234567", 8) == 0);
    IS(memcmp(&outcome, &no_outcome, sizeof outcome) == 0);
    IS(memcmp(&standing, &no_standing, sizeof standing) == 0);
}

static void handles(void) {
    struct lab_class many[33];
    size_t used = 77;
    uint64_t fault = 77;
    for (int at = 0; at < 33; at++) many[at] = (struct lab_class){1, 1, 0};
    terms_are(4, LAB_NEVER, LAB_NEVER, 64, 0);
    each_answers(LAB_NOT_OPEN);
    IS(lab_bay_open(many, 33, &terms, &bay) == LAB_BAY_NO_CLASS && bay.live == 0);
    each_answers(LAB_NOT_OPEN);
    IS(lab_bay_open(many, 32, &terms, &bay) == LAB_DONE);
    IS(ask_one(1, 31, 1, 0) == LAB_DONE);
    IS(lab_bay_open(many, 1, &terms, &bay) == LAB_IN_USE);
    IS(lab_bay_resume(many, 1, &terms, (const uint8_t *)BAY_HEAD, sizeof BAY_HEAD - 1, 0, &bay, &used, &fault) == LAB_IN_USE);
    IS(used == 77 && fault == 77);
    TOLD(1, LAB_HOLDS, 1);
    QUIET();
    freed();
    each_answers(LAB_NOT_OPEN);

    /* a bay that was freed is opened again; nothing of the first is in it */
    opened(4, LAB_NEVER, LAB_NEVER, 64, 0);
    QUIET();
    DUE(0, LAB_NEVER);
    IS(lab_bay_let_go(&bay, 1, 0) == LAB_BAY_OVER);
    IS(ask_one(0, 0, 1, 0) == LAB_DONE);
    TOLD(0, LAB_HOLDS, 1);
    freed();
}

/* While the library asks for memory it is in the midst of a call: whoever calls then finds the handle busy. */
static int watched;
static long met;

void *__real_malloc(size_t), *__real_realloc(void *, size_t);

static void meanwhile(void) {
    if (!watched) return;
    watched = 0;
    met++;
    each_answers(LAB_BUSY);
    size_t used = 77;
    uint64_t fault = 77;
    uint32_t opens = lab_bay_open(classes, 2, &terms, &bay);
    IS(opens == LAB_BUSY || opens == LAB_IN_USE);
    opens = lab_bay_resume(classes, 2, &terms, (const uint8_t *)BAY_HEAD, sizeof BAY_HEAD - 1, 0, &bay, &used, &fault);
    IS((opens == LAB_BUSY || opens == LAB_IN_USE) && used == 77 && fault == 77);
}

void *__wrap_malloc(size_t size) {
    meanwhile();
    return __real_malloc(size);
}

void *__wrap_realloc(void *old, size_t size) {
    meanwhile();
    return __real_realloc(old, size);
}

static void *tells_the_time(void *counts) {
    for (int call = 0; call < CALLS; call++) {
        uint64_t next = 77;
        uint32_t status = lab_bay_time(&bay, 0, &next);
        if (status == LAB_DONE && next == 20) atomic_fetch_add((atomic_long *)counts, 1);
        else if (status == LAB_BUSY && next == 77) atomic_fetch_add((atomic_long *)counts + 1, 1);
        else abort();
    }
    return NULL;
}

static void busy(void) {
    static uint8_t text[1 << 16];
    static atomic_long counts[2];
    pthread_t threads[THREADS];
    size_t written;
    uint64_t position;
    opened(100, LAB_NEVER, LAB_NEVER, 64, 1);
    for (uint64_t number = 1; number <= 60; number++) {
        watched = 1;
        IS(ask_as(0, 0, number, 0, 20, LAB_NEVER, 0, SETS(1)) == LAB_DONE);
    }
    IS(met > 0);
    met = 0;
    watched = 1;
    IS(lab_bay_journal(&bay, text, sizeof text, &written, &position) == LAB_DONE && written == 303 && position == 303);
    IS(lab_bay_durable(&bay, 303) == LAB_DONE);
    watched = 0;
    TOLD(1, LAB_HOLDS, 1);
    for (int times = 0; times < 60; times++) {
        watched = 1;
        IS(lab_bay_note(&bay, 1, (const uint8_t *)"n", 1, &position) == LAB_DONE);
    }
    watched = 0;
    IS(met > 0);
    QUIET();

    /* threads without a mutex */
    for (int n = 0; n < THREADS; n++)
        if (pthread_create(&threads[n], NULL, tells_the_time, counts) != 0) exit(70);
    for (int n = 0; n < THREADS; n++) pthread_join(threads[n], NULL);
    IS(counts[0] > 0 && counts[0] + counts[1] == (long)THREADS * CALLS);
    printf("without a mutex: %ld calls were done, %ld answered 13\n", (long)counts[0], (long)counts[1]);
    QUIET();
    IS(lab_bay_let_go(&bay, 2, 0) == LAB_NOT_YET);
    freed();
}

/* ---- asking */

static void refusals(void) {
    opened(2, LAB_NEVER, LAB_NEVER, 64, 0);
    IS(ask_as(7, 9, 5, 0, LAB_NEVER, LAB_NEVER, 0, SETS(1)) == LAB_DONE);
    TOLD(5, LAB_HOLDS, 1);
    QUIET();

    /* each has all faults that come later in the order, too */
    IS(ask_as(7, 9, 5, 2, 0, 0, 0, SETS(0, 8, 1)) == LAB_BAY_NUMBER);
    IS(ask_as(7, 9, 4, 0, 0, 0, 0, SETS(1)) == LAB_BAY_NUMBER);
    IS(ask_as(7, 9, LAB_NEVER, 2, 0, 0, 0, SETS(0, 8, 1)) == LAB_BAY_NUMBER);
    IS(ask_as(7, 9, 6, 2, 0, 0, 0, SETS(0, 8, 1)) == LAB_BAY_NO_CLASS);
    IS(ask_as(7, 9, 6, 0xffffffffu, 0, 0, 0, SETS(0, 8, 1)) == LAB_BAY_NO_CLASS);
    IS(ask_as(7, 9, 6, 0, 0, 0, 0, SETS(8, 1, 0)) == LAB_BAY_EMPTY);
    IS(ask_as(7, 9, 6, 0, 0, 0, 0, NULL, 0) == LAB_BAY_EMPTY);
    IS(ask_as(7, 9, 6, 0, 0, 0, 0, SETS(2, 8, 1)) == LAB_BAY_MAY_NOT);
    IS(ask_as(7, 9, 6, 1, 0, 0, 0, SETS(3)) == LAB_BAY_MAY_NOT);
    IS(ask_as(7, 9, 6, 0, 0, 0, 0, SETS(1, 2, 4)) == LAB_BAY_OWNER);
    IS(ask_as(7, 8, 6, 0, 0, 0, 0, SETS(1, 2, 4)) == LAB_BAY_LINE_FULL);
    QUIET();
    DUE(0, LAB_NEVER);

    /* the number of an ask that was refused is still free; two sets wait, and there is room for no third */
    IS(ask_as(7, 8, 6, 0, LAB_NEVER, LAB_NEVER, 0, SETS(1, 5)) == LAB_DONE);
    IS(ask_one(7, 0, 2, 0) == LAB_BAY_LINE_FULL);
    IS(ask_as(7, 8, 7, 0, 0, 0, 0, SETS(2)) == LAB_BAY_OWNER); /* (of one that waits) */
    QUIET();

    /* an owner is free once its ask is over */
    IS(lab_bay_let_go(&bay, 5, 0) == LAB_DONE);
    TOLD(5, LAB_LET_GO, 0);
    TOLD(6, LAB_HOLDS, 1);
    QUIET();
    IS(ask_as(7, 9, 7, 0, LAB_NEVER, LAB_NEVER, 0, SETS(2)) == LAB_DONE);
    TOLD(7, LAB_HOLDS, 2);
    IS(lab_bay_stop(&bay, 0) == LAB_DONE);
    IS(ask_as(7, 9, 5, 2, 0, 0, 0, SETS(0, 8, 1)) == LAB_BAY_STOPPED);
    IS(ask_one(8, 0, 4, 0) == LAB_BAY_STOPPED);
    QUIET();
    freed();

    /* the largest number, behind which there is none */
    opened(2, LAB_NEVER, LAB_NEVER, 64, 0);
    IS(ask_one(LAB_NEVER - 1, 0, 1, 0) == LAB_DONE);
    IS(ask_one(LAB_NEVER, 0, 2, 0) == LAB_BAY_NUMBER);
    IS(ask_one(LAB_NEVER - 1, 0, 2, 0) == LAB_BAY_NUMBER);
    TOLD(LAB_NEVER - 1, LAB_HOLDS, 1);
    QUIET();
    freed();
}

static void waits(void) {
    opened(100, LAB_NEVER, LAB_NEVER, 1, 0);
    IS(ask_one(1, 0, 1, 0) == LAB_DONE);
    IS(ask_one(2, 0, 1, 0) == LAB_DONE);
    TOLD(1, LAB_HOLDS, 1);
    QUIET();
    IS(lab_bay_let_go(&bay, 2, 0) == LAB_NOT_YET);
    IS(lab_bay_take_away(&bay, 2, 0) == LAB_NOT_YET);
    IS(lab_bay_let_go(&bay, 3, 0) == LAB_BAY_OVER);
    IS(lab_bay_take_away(&bay, 3, 0) == LAB_BAY_OVER);
    QUIET();

    /* whoever is over is told so before anybody is told that it holds */
    IS(lab_bay_let_go(&bay, 1, 0) == LAB_DONE);
    IS(lab_bay_let_go(&bay, 1, 0) == LAB_BAY_OVER);
    IS(lab_bay_take_away(&bay, 1, 0) == LAB_BAY_OVER);
    TOLD(1, LAB_LET_GO, 0);
    TOLD(2, LAB_HOLDS, 1);
    QUIET();
    IS(ask_one(3, 0, 1, 0) == LAB_DONE);
    IS(lab_bay_take_away(&bay, 2, 0) == LAB_DONE);
    TOLD(2, LAB_TAKEN, 0);
    TOLD(3, LAB_HOLDS, 1);
    QUIET();
    IS(lab_bay_let_go(&bay, 2, 0) == LAB_BAY_OVER);

    /* the first of several sets that is free */
    IS(ask_as(0, 0, 4, 0, LAB_NEVER, LAB_NEVER, 0, SETS(1, 3, 2, 4)) == LAB_DONE);
    TOLD(4, LAB_HOLDS, 2);
    /* the two places of class 0 are taken; that of class 1 isn't */
    IS(ask_one(5, 0, 4, 0) == LAB_DONE);
    QUIET();
    IS(ask_one(6, 1, 12, 0) == LAB_DONE);
    TOLD(6, LAB_HOLDS, 12);
    QUIET();
    IS(lab_bay_let_go(&bay, 4, 0) == LAB_DONE);
    TOLD(4, LAB_LET_GO, 0);
    QUIET();
    IS(lab_bay_let_go(&bay, 6, 0) == LAB_DONE);
    TOLD(6, LAB_LET_GO, 0);
    TOLD(5, LAB_HOLDS, 4);
    IS(lab_bay_let_go(&bay, 5, 0) == LAB_DONE);
    TOLD(5, LAB_LET_GO, 0);

    /* one was passed as often as may be (overtakes is 1): then what it needs is kept for it. (3 holds instrument 0) */
    IS(ask_one(7, 0, 3, 0) == LAB_DONE);
    IS(ask_one(8, 0, 2, 0) == LAB_DONE);
    TOLD(8, LAB_HOLDS, 2);
    IS(lab_bay_let_go(&bay, 8, 0) == LAB_DONE);
    TOLD(8, LAB_LET_GO, 0);
    IS(ask_one(9, 0, 2, 0) == LAB_DONE);
    QUIET();
    IS(ask_one(10, 0, 4, 0) == LAB_DONE); /* (which the other doesn't need) */
    TOLD(10, LAB_HOLDS, 4);
    IS(lab_bay_let_go(&bay, 10, 0) == LAB_DONE);
    TOLD(10, LAB_LET_GO, 0);
    IS(lab_bay_let_go(&bay, 3, 0) == LAB_DONE);
    TOLD(3, LAB_LET_GO, 0);
    TOLD(7, LAB_HOLDS, 3);
    QUIET();
    IS(lab_bay_let_go(&bay, 7, 0) == LAB_DONE);
    TOLD(7, LAB_LET_GO, 0);
    TOLD(9, LAB_HOLDS, 2);
    QUIET();
    freed();
}

static void leaves(void) {
    opened(100, LAB_NEVER, LAB_NEVER, 64, 0);
    IS(lab_bay_leave(&bay, 1, 0) == LAB_DONE); /* (nobody) */
    IS(ask_one(1, 0, 1, 0) == LAB_DONE);
    TOLD(1, LAB_HOLDS, 1);
    IS(ask_one(2, 0, 1, 0) == LAB_DONE);
    IS(ask_one(3, 0, 1, 0) == LAB_DONE);
    IS(ask_one(4, 0, 1, 0) == LAB_DONE);
    IS(lab_bay_leave(&bay, 2, 0) == LAB_DONE); /* it waits */
    QUIET();
    IS(lab_bay_leave(&bay, 1, 0) == LAB_DONE); /* it holds, and was told so */
    TOLD(3, LAB_HOLDS, 1);
    QUIET();
    IS(lab_bay_let_go(&bay, 3, 0) == LAB_DONE);
    IS(lab_bay_leave(&bay, 4, 0) == LAB_DONE); /* it holds, and wasn't told yet */
    TOLD(3, LAB_LET_GO, 0);
    QUIET();
    IS(lab_bay_leave(&bay, 3, 0) == LAB_DONE); /* it is over, and knows it */
    IS(lab_bay_leave(&bay, 3, 0) == LAB_DONE && lab_bay_leave(&bay, LAB_NEVER, 0) == LAB_DONE);
    QUIET();
    for (uint64_t number = 1; number <= 4; number++) IS(lab_bay_let_go(&bay, number, 0) == LAB_BAY_OVER);
    IS(ask_one(5, 0, 7, 0) == LAB_DONE);
    TOLD(5, LAB_HOLDS, 7);
    IS(lab_bay_let_go(&bay, 5, 0) == LAB_DONE);
    IS(lab_bay_leave(&bay, 5, 0) == LAB_DONE); /* it is over, and wasn't told yet: nothing is changed */
    TOLD(5, LAB_LET_GO, 0);
    QUIET();
    freed();
}

static void gone_and_back(void) {
    uint64_t needs = 77;
    opened(100, 10, LAB_NEVER, 64, 0);
    IS(ask_as(7, 9, 1, 0, LAB_NEVER, LAB_NEVER, 0, SETS(3)) == LAB_DONE);
    TOLD(1, LAB_HOLDS, 3);
    IS(ask_as(7, 8, 2, 0, LAB_NEVER, LAB_NEVER, 0, SETS(1)) == LAB_DONE);
    DUE(100, LAB_NEVER);
    IS(lab_bay_gone(&bay, 1, 100) == LAB_DONE);
    IS(lab_bay_gone(&bay, 3, 100) == LAB_DONE); /* (nobody) */
    DUE(100, 110);
    DUE(109, 110);
    IS(lab_bay_back(&bay, 1, 9, 7, 109, &needs) == LAB_BAY_OVER);
    IS(lab_bay_back(&bay, 1, 7, 8, 109, &needs) == LAB_BAY_OVER);
    IS(lab_bay_back(&bay, 1, 0, 9, 109, &needs) == LAB_BAY_OVER);
    IS(lab_bay_back(&bay, 1, 0, 0, 109, &needs) == LAB_BAY_OVER);
    IS(lab_bay_back(&bay, 3, 7, 9, 109, &needs) == LAB_BAY_OVER);
    IS(needs == 77);
    IS(lab_bay_back(&bay, 1, 7, 9, 109, &needs) == LAB_DONE && needs == 3);
    DUE(500, LAB_NEVER);
    QUIET();

    freed();
}

/* What comes of an ask whose client is gone: its grace is over, or somebody takes away what it holds. */
static void gone_for_long(void) {
    uint64_t needs = 77;
    opened(100, 10, LAB_NEVER, 64, 0);
    IS(ask_as(7, 9, 1, 0, LAB_NEVER, LAB_NEVER, 0, SETS(3)) == LAB_DONE);
    TOLD(1, LAB_HOLDS, 3);
    IS(ask_one(2, 0, 1, 0) == LAB_DONE);
    IS(lab_bay_gone(&bay, 1, 500) == LAB_DONE);
    DUE(509, 510);
    QUIET();
    DUE(510, LAB_NEVER);
    IS(lab_bay_back(&bay, 1, 7, 9, 510, &needs) == LAB_BAY_OVER && needs == 77);
    IS(lab_bay_let_go(&bay, 1, 510) == LAB_BAY_OVER);
    TOLD(1, LAB_GRACE, 0);
    TOLD(2, LAB_HOLDS, 1);
    QUIET();
    freed();

    /* without a grace it is kept for ever */
    opened(100, LAB_NEVER, LAB_NEVER, 64, 0);
    IS(ask_one(1, 0, 3, 0) == LAB_DONE);
    TOLD(1, LAB_HOLDS, 3);
    IS(ask_one(2, 0, 3, 0) == LAB_DONE);
    IS(lab_bay_gone(&bay, 1, 1) == LAB_DONE);
    DUE(LAB_NEVER - 1, LAB_NEVER);
    QUIET();
    IS(lab_bay_take_away(&bay, 1, LAB_NEVER - 1) == LAB_DONE);
    TOLD(1, LAB_TAKEN, 0);
    TOLD(2, LAB_HOLDS, 3);
    QUIET();
    freed();
}

/* An owner of two zeros: nobody may come back for it. */
static void nobody_comes_back(void) {
    uint64_t needs = 77;
    opened(100, 10, LAB_NEVER, 64, 0);
    IS(ask_one(1, 0, 3, 0) == LAB_DONE);
    IS(ask_one(2, 1, 8, 0) == LAB_DONE); /* (and such owners aren't the same one) */
    TOLD(1, LAB_HOLDS, 3);
    TOLD(2, LAB_HOLDS, 8);
    IS(lab_bay_gone(&bay, 1, 1) == LAB_DONE);
    IS(lab_bay_back(&bay, 1, 0, 0, 1, &needs) == LAB_BAY_OVER && needs == 77);
    freed();
}

/* ---- moments */

static void limits(void) {
    opened(100, LAB_NEVER, LAB_NEVER, 64, 0);
    IS(ask_as(0, 0, 1, 0, LAB_NEVER, 5, 10, SETS(1)) == LAB_DONE);
    TOLD(1, LAB_HOLDS, 1);
    DUE(10, LAB_NEVER); /* (nobody wants it) */
    DUE(12, LAB_NEVER);
    IS(ask_one(2, 0, 1, 12) == LAB_DONE);
    DUE(12, 15);
    DUE(14, 15);
    QUIET();
    DUE(15, LAB_NEVER);
    TOLD(1, LAB_LIMIT, 0);
    TOLD(2, LAB_HOLDS, 1);
    QUIET();
    IS(lab_bay_let_go(&bay, 1, 15) == LAB_BAY_OVER);
    IS(lab_bay_let_go(&bay, 2, 15) == LAB_DONE);
    TOLD(2, LAB_LET_GO, 0);

    /* it is over when somebody comes; but nothing is taken for somebody that could have another set */
    IS(ask_as(0, 0, 3, 0, LAB_NEVER, 5, 20, SETS(1)) == LAB_DONE);
    TOLD(3, LAB_HOLDS, 1);
    DUE(40, LAB_NEVER);
    IS(ask_as(0, 0, 4, 0, 40, LAB_NEVER, 40, SETS(1, 2)) == LAB_DONE);
    TOLD(4, LAB_HOLDS, 2);
    QUIET();
    IS(lab_bay_let_go(&bay, 4, 40) == LAB_DONE);
    TOLD(4, LAB_LET_GO, 0);
    IS(ask_one(5, 0, 3, 41) == LAB_DONE);
    TOLD(3, LAB_LIMIT, 0);
    TOLD(5, LAB_HOLDS, 3);
    QUIET();
    freed();
}

static void deadlines(void) {
    opened(100, LAB_NEVER, LAB_NEVER, 64, 0);
    IS(ask_as(0, 0, 1, 0, 10, LAB_NEVER, 10, SETS(1)) == LAB_DONE); /* a deadline of now takes what is free */
    TOLD(1, LAB_HOLDS, 1);
    IS(ask_as(0, 0, 2, 0, 10, LAB_NEVER, 10, SETS(1)) == LAB_DONE); /* and waits for nothing */
    TOLD(2, LAB_LAPSED, 0);
    QUIET();
    IS(ask_as(0, 0, 3, 0, 20, LAB_NEVER, 10, SETS(1)) == LAB_DONE);
    IS(ask_as(0, 0, 4, 0, 30, LAB_NEVER, 10, SETS(1)) == LAB_DONE);
    DUE(10, 20);
    DUE(19, 20);
    QUIET();
    DUE(20, 30);
    TOLD(3, LAB_LAPSED, 0);
    QUIET();
    IS(lab_bay_let_go(&bay, 3, 20) == LAB_BAY_OVER);

    /* it lets go at the very moment of the deadline: whoever may be let in is, before anybody lapses */
    IS(lab_bay_let_go(&bay, 1, 30) == LAB_DONE);
    TOLD(1, LAB_LET_GO, 0);
    TOLD(4, LAB_HOLDS, 1);
    DUE(31, LAB_NEVER);
    QUIET();
    /* a moment never falls */
    IS(ask_as(0, 0, 5, 0, 30, LAB_NEVER, 7, SETS(1)) == LAB_DONE);
    TOLD(5, LAB_LAPSED, 0);
    QUIET();
    freed();
}

static void disks(void) {
    opened(100, LAB_NEVER, 5, 64, 1);
    IS(ask_as(0, 0, 1, 0, 10, LAB_NEVER, 10, SETS(1)) == LAB_DONE);
    DUE(10, 15);
    DUE(14, 15);
    QUIET();
    DUE(15, LAB_NEVER);
    TOLD(1, LAB_NOT_WRITTEN, 0);
    QUIET();
    TEXT(BAY_HEAD, 137); /* (its line wasn't taken, and so there is none) */
    TEXT("", 137);

    /* the line was taken, and isn't on the disk in time: the end is owed, and told at once */
    IS(ask_as(0, 0, 2, 0, 20, LAB_NEVER, 20, SETS(1)) == LAB_DONE);
    TEXT("d79b6ce7e8f8b788 hold 0000000000000002 00000000 0000000000000001 00000000000000000000000000000000 0000000000000014 ---------------- 0000000000000014 0000000000000002\n", 303);
    DUE(24, 25);
    IS(lab_bay_durable(&bay, 302) == LAB_DONE);
    QUIET();
    DUE(25, LAB_NEVER);
    TOLD(2, LAB_NOT_WRITTEN, 0);
    QUIET();
    TEXT("5466276896245c65 end 0000000000000002 not_written 0000000000000019\n", 370);

    /* another, in time */
    IS(ask_as(0, 0, 3, 0, 30, LAB_NEVER, 30, SETS(1)) == LAB_DONE);
    TEXT("022de00d9fe5c8d4 hold 0000000000000003 00000000 0000000000000001 00000000000000000000000000000000 000000000000001e ---------------- 000000000000001e 0000000000000003\n", 536);
    IS(lab_bay_durable(&bay, 536) == LAB_DONE);
    TOLD(3, LAB_HOLDS, 1);
    DUE(100, LAB_NEVER);
    QUIET();
    freed();
}

#define HOLD1 "26d24eb01836f63b hold 0000000000000001 00000000 0000000000000001 00000000000000000000000000000000 000000000000000a ---------------- 000000000000000a 0000000000000001\n"
#define HOLD2 "595fa759099ac4d8 hold 0000000000000002 00000001 0000000000000004 00000000000000000000000000000000 000000000000000a 000000000000000f 000000000000000a 0000000000000002\n"

/* The disk alone can be late: a hold that is written, or has no line, is told however late the shell asks. */
static void told_late(void) {
    opened(100, LAB_NEVER, 5, 64, 1);
    IS(ask_as(0, 0, 1, 0, 10, LAB_NEVER, 10, SETS(1)) == LAB_DONE);
    TEXT(BAY_HEAD HOLD1, 303);
    DUE(14, 15);
    IS(lab_bay_durable(&bay, 303) == LAB_DONE);
    DUE(14, LAB_NEVER);
    DUE(15, LAB_NEVER);
    DUE(1000, LAB_NEVER);
    TOLD(1, LAB_HOLDS, 1);
    DUE(2000, LAB_NEVER);
    QUIET();
    freed();

    opened(100, LAB_NEVER, 5, 64, 0);
    IS(ask_as(0, 0, 1, 0, 10, LAB_NEVER, 10, SETS(1)) == LAB_DONE);
    DUE(10, LAB_NEVER);
    DUE(1000, LAB_NEVER);
    TOLD(1, LAB_HOLDS, 1);
    QUIET();
    freed();
}

/* One that is written, and wasn't told so yet, ends as any other: its limit is over, or its client is gone for too long. */
static void written_and_over(void) {
    opened(100, 10, 5, 64, 1);
    IS(ask_as(0, 0, 1, 0, 10, LAB_NEVER, 10, SETS(1)) == LAB_DONE);
    IS(ask_as(0, 0, 2, 1, 10, 15, 10, SETS(4)) == LAB_DONE);
    TEXT(BAY_HEAD HOLD1 HOLD2, 469);
    IS(lab_bay_durable(&bay, 469) == LAB_DONE);
    DUE(20, LAB_NEVER);
    IS(lab_bay_gone(&bay, 1, 20) == LAB_DONE);
    DUE(20, 30);
    IS(ask_one(3, 1, 4, 20) == LAB_DONE);
    DUE(24, 25);
    DUE(25, 30);
    DUE(30, LAB_NEVER);
    TOLD(1, LAB_GRACE, 0);
    TOLD(2, LAB_LIMIT, 0);
    QUIET(); /* (the line of 3 isn't durable yet) */
    freed();
}

/* A hold waits for the disk until its deadline, however short the time for the disk is. */
static void disk_until_the_deadline(void) {
    opened(100, LAB_NEVER, 5, 64, 1);
    IS(ask_as(0, 0, 1, 0, 30, LAB_NEVER, 10, SETS(1)) == LAB_DONE);
    DUE(15, 30);
    DUE(29, 30);
    QUIET();
    DUE(30, LAB_NEVER);
    TOLD(1, LAB_NOT_WRITTEN, 0);
    QUIET();
    freed();
}

/* What wasn't handed out isn't durable, whatever the position. */
static void durable_beyond(void) {
    opened(100, LAB_NEVER, LAB_NEVER, 64, 1);
    IS(lab_bay_durable(&bay, 1000000) == LAB_DONE);
    IS(ask_one(1, 0, 1, 0) == LAB_DONE);
    QUIET();
    TEXT(BAY_HEAD "445e4d4d33c5d302 hold 0000000000000001 00000000 0000000000000001 00000000000000000000000000000000 0000000000000000 ---------------- 0000000000000000 0000000000000001\n", 303);
    QUIET();
    IS(lab_bay_durable(&bay, UINT64_MAX) == LAB_DONE);
    TOLD(1, LAB_HOLDS, 1);
    freed();
}

/* The ask at this place, and the least number of the next. */
static void at_place(unsigned line, size_t place, struct lab_standing wanted, uint64_t least) {
    struct lab_standing it = {77, {77, 77}, 77, 77, 77, 77, 77};
    uint64_t next = 77;
    uint32_t status = lab_bay_look(&bay, place, &it, &next);
    expect(status == LAB_DONE && memcmp(&it, &wanted, sizeof it) == 0 && next == least,
           "line %u: status %u, ask %llu of %llx %llx needs %llx since %llu, class %u, %u; next %llu", line, status, (unsigned long long)it.number,
           (unsigned long long)it.owner[0], (unsigned long long)it.owner[1], (unsigned long long)it.needs, (unsigned long long)it.since, it.kind, it.what,
           (unsigned long long)next);
}

static void no_place(unsigned line, size_t place, uint64_t least) {
    static const struct lab_standing none = {77, {77, 77}, 77, 77, 77, 77, 77};
    struct lab_standing it = none;
    uint64_t next = 77;
    uint32_t status = lab_bay_look(&bay, place, &it, &next);
    expect(status == LAB_NOT_YET && memcmp(&it, &none, sizeof it) == 0 && next == least, "line %u: status %u, next %llu", line, status, (unsigned long long)next);
}

static void looks(void) {
    opened(100, LAB_NEVER, LAB_NEVER, 64, 0);
    no_place(__LINE__, 0, 0);
    IS(ask_as(7, UINT64_MAX, 3, 1, LAB_NEVER, LAB_NEVER, 4, SETS(4)) == LAB_DONE);
    IS(ask_as(UINT64_MAX, 9, 5, 0, 20, LAB_NEVER, 6, SETS(4)) == LAB_DONE);
    at_place(__LINE__, 0, (struct lab_standing){3, {7, UINT64_MAX}, 4, 4, 1, 1, LAB_HOLDS}, 6);
    at_place(__LINE__, 1, (struct lab_standing){5, {UINT64_MAX, 9}, 0, 6, 0, 0, LAB_WAITS}, 6);
    no_place(__LINE__, 2, 6);
    no_place(__LINE__, SIZE_MAX, 6);
    TOLD_WITH(3, LAB_HOLDS, 4, 1);
    IS(lab_bay_let_go(&bay, 3, 9) == LAB_DONE);
    at_place(__LINE__, 0, (struct lab_standing){3, {7, UINT64_MAX}, 0, 9, 1, 1, LAB_LET_GO}, 6);
    at_place(__LINE__, 1, (struct lab_standing){5, {UINT64_MAX, 9}, 4, 9, 2, 0, LAB_HOLDS}, 6);
    no_place(__LINE__, 2, 6);
    TOLD_WITH(3, LAB_LET_GO, 0, 1);
    TOLD_WITH(5, LAB_HOLDS, 4, 2);
    QUIET();
    at_place(__LINE__, 0, (struct lab_standing){5, {UINT64_MAX, 9}, 4, 9, 2, 0, LAB_HOLDS}, 6);
    no_place(__LINE__, 1, 6);
    freed();
}

#define KEEPS(number, instrument, ...) keeps(__LINE__, (number), (instrument), (struct lab_standing){__VA_ARGS__})
#define NOBODY(number, instrument) nobody(__LINE__, (number), (instrument))

/* Who keeps this instrument from the ask with this number. */
static void keeps(unsigned line, uint64_t number, uint32_t instrument, struct lab_standing wanted) {
    struct lab_standing it = {77, {77, 77}, 77, 77, 77, 77, 77};
    uint32_t status = lab_bay_keeper(&bay, number, instrument, &it);
    expect(status == LAB_DONE && memcmp(&it, &wanted, sizeof it) == 0, "line %u: status %u, ask %llu needs %llx since %llu, class %u, %u", line, status,
           (unsigned long long)it.number, (unsigned long long)it.needs, (unsigned long long)it.since, it.kind, it.what);
}

static void nobody(unsigned line, uint64_t number, uint32_t instrument) {
    static const struct lab_standing none = {77, {77, 77}, 77, 77, 77, 77, 77};
    struct lab_standing it = none;
    uint32_t status = lab_bay_keeper(&bay, number, instrument, &it);
    expect(status == LAB_NOT_YET && memcmp(&it, &none, sizeof it) == 0, "line %u: status %u, ask %llu", line, status, (unsigned long long)it.number);
}

/* Of whoever holds or has it kept, asks are told apart by whether they asked before, and by whether both have their instruments kept. */
static void keepers(void) {
    uint64_t next;
    opened(100, LAB_NEVER, LAB_NEVER, 1, 0);
    NOBODY(5, 0);
    IS(ask_as(7, 9, 1, 0, LAB_NEVER, LAB_NEVER, 4, SETS(1)) == LAB_DONE);
    IS(ask_as(3, 4, 2, 0, LAB_NEVER, LAB_NEVER, 5, SETS(3)) == LAB_DONE);
    KEEPS(2, 0, 1, {7, 9}, 1, 4, 1, 0, LAB_HOLDS);
    KEEPS(1, 0, 1, {7, 9}, 1, 4, 1, 0, LAB_HOLDS); /* (from itself, too) */
    NOBODY(2, 1);
    NOBODY(9, 1); /* (2 wasn't passed yet) */
    NOBODY(2, 63);
    NOBODY(2, 64); /* (there are 64 instruments) */
    NOBODY(2, UINT32_MAX);

    /* 3 passes 2, so 1 is kept for 2 from then on, as soon as a place is free for it */
    IS(ask_one(3, 0, 2, 6) == LAB_DONE);
    KEEPS(2, 1, 3, {0, 0}, 2, 6, 2, 0, LAB_HOLDS);
    IS(lab_bay_let_go(&bay, 3, 7) == LAB_DONE);
    NOBODY(2, 1);
    NOBODY(1, 1); /* (it asked before 2, and isn't in line) */
    KEEPS(9, 1, 2, {3, 4}, 0, 5, 0, 0, LAB_WAITS);
    KEEPS(9, 0, 1, {7, 9}, 1, 4, 1, 0, LAB_HOLDS);
    IS(ask_as(0, 0, 4, 0, 20, LAB_NEVER, 8, SETS(2)) == LAB_DONE);
    KEEPS(4, 1, 2, {3, 4}, 0, 5, 0, 0, LAB_WAITS);

    /* 6 has no place until 5 lets go; by then 7 was passed, and instrument 2 is kept for it, though it asked later */
    IS(ask_one(5, 1, 8, 8) == LAB_DONE && ask_one(6, 1, 4, 8) == LAB_DONE && ask_one(7, 0, 5, 8) == LAB_DONE);
    NOBODY(6, 2);
    IS(ask_one(8, 0, 4, 9) == LAB_DONE);
    KEEPS(6, 2, 8, {0, 0}, 4, 9, 4, 0, LAB_HOLDS);
    IS(lab_bay_let_go(&bay, 8, 10) == LAB_DONE && lab_bay_let_go(&bay, 5, 11) == LAB_DONE);
    KEEPS(6, 2, 7, {0, 0}, 0, 8, 0, 0, LAB_WAITS);
    KEEPS(6, 1, 2, {3, 4}, 0, 5, 0, 0, LAB_WAITS);
    NOBODY(6, 3);
    NOBODY(7, 2);
    KEEPS(8, 2, 7, {0, 0}, 0, 8, 0, 0, LAB_WAITS);
    IS(lab_bay_leave(&bay, 6, 12) == LAB_DONE);
    NOBODY(6, 2); /* (what counts of one that isn't in line is who asked before) */

    /* whoever lapsed is told the same */
    IS(lab_bay_time(&bay, 20, &next) == LAB_DONE);
    KEEPS(4, 1, 2, {3, 4}, 0, 5, 0, 0, LAB_WAITS);
    NOBODY(4, 2);
    IS(lab_bay_stop(&bay, 20) == LAB_DONE);
    NOBODY(9, 1);
    KEEPS(9, 0, 1, {7, 9}, 1, 4, 1, 0, LAB_HOLDS);
    freed();
}

/* Where all in line have their instruments kept, it is the first of those that asked before; and one's own sets don't count. */
static void first_keepers(void) {
    opened(100, LAB_NEVER, LAB_NEVER, 0, 0);
    IS(ask_one(1, 0, 1, 0) == LAB_DONE && ask_one(2, 0, 3, 1) == LAB_DONE && ask_one(3, 0, 6, 2) == LAB_DONE && ask_one(4, 0, 2, 3) == LAB_DONE);
    NOBODY(2, 1);
    KEEPS(3, 1, 2, {0, 0}, 0, 1, 0, 0, LAB_WAITS);
    NOBODY(3, 2);
    KEEPS(4, 1, 2, {0, 0}, 0, 1, 0, 0, LAB_WAITS);
    KEEPS(4, 2, 3, {0, 0}, 0, 2, 0, 0, LAB_WAITS);
    IS(lab_bay_leave(&bay, 2, 4) == LAB_DONE); /* (so 3 is let in) */
    KEEPS(4, 1, 3, {0, 0}, 6, 4, 2, 0, LAB_HOLDS);
    freed();
    opened(100, LAB_NEVER, LAB_NEVER, 0, 0);
    IS(ask_one(1, 0, 1, 0) == LAB_DONE && ask_as(0, 0, 2, 0, LAB_NEVER, LAB_NEVER, 1, SETS(3, 5)) == LAB_DONE);
    NOBODY(2, 1);
    NOBODY(2, 2);
    KEEPS(3, 2, 2, {0, 0}, 0, 1, 0, 0, LAB_WAITS);
    freed();
}

#define WAITS(number, set, needs, passed) waits_for(__LINE__, (number), (set), (needs), (passed))

static void waits_for(unsigned line, uint64_t number, size_t set, uint64_t needs, uint32_t passed) {
    uint64_t has = 77;
    uint32_t times = 77, status = lab_bay_waits(&bay, number, set, &has, &times);
    expect(status == LAB_DONE && has == needs && times == passed, "line %u: status %u, needs %llx, passed %u", line, status, (unsigned long long)has, times);
}

#define NO_WAIT(number, set) no_wait(__LINE__, (number), (set))

static void no_wait(unsigned line, uint64_t number, size_t set) {
    uint64_t has = 77;
    uint32_t times = 77, status = lab_bay_waits(&bay, number, set, &has, &times);
    expect(status == LAB_NOT_YET && has == 77 && times == 77, "line %u: status %u, needs %llx, passed %u", line, status, (unsigned long long)has, times);
}

/* The sets of an ask, in the order in which it asked for them. */
static void waited_for(void) {
    opened(100, LAB_NEVER, LAB_NEVER, 64, 0);
    IS(ask_one(1, 0, 1, 0) == LAB_DONE && ask_one(2, 0, 3, 0) == LAB_DONE);
    IS(ask_as(0, 0, 3, 0, LAB_NEVER, LAB_NEVER, 0, SETS(5, 3)) == LAB_DONE && ask_one(4, 0, 1, 0) == LAB_DONE);
    NO_WAIT(1, 0); /* (it holds) */
    WAITS(2, 0, 3, 0);
    NO_WAIT(2, 1);
    WAITS(3, 0, 5, 0);
    WAITS(3, 1, 3, 0);
    NO_WAIT(3, 2);
    NO_WAIT(3, SIZE_MAX);
    WAITS(4, 0, 1, 0);
    NO_WAIT(0, 0);
    NO_WAIT(5, 0);
    IS(ask_one(5, 0, 4, 0) == LAB_DONE); /* (it is let in at once, and passes 3 at its first set) */
    WAITS(2, 0, 3, 0);
    WAITS(3, 0, 5, 1);
    WAITS(3, 1, 3, 0);
    IS(lab_bay_leave(&bay, 3, 0) == LAB_DONE);
    NO_WAIT(3, 0);
    WAITS(4, 0, 1, 0);
    freed();
}

/* An ask that was passed at one of its sets as often as may be keeps nothing of that from itself; but it doesn't go before somebody that asked before for
   its other set. */
static void own_sets(void) {
    opened(100, LAB_NEVER, LAB_NEVER, 1, 0);
    IS(ask_one(1, 0, 1, 0) == LAB_DONE);
    IS(ask_as(0, 0, 2, 0, LAB_NEVER, LAB_NEVER, 0, SETS(3, 5)) == LAB_DONE && ask_one(3, 0, 2, 0) == LAB_DONE);
    WAITS(2, 0, 3, 1);
    WAITS(2, 1, 5, 0);
    IS(lab_bay_let_go(&bay, 1, 4) == LAB_DONE);
    KEEPS(9, 2, 2, {0, 0}, 5, 4, 3, 0, LAB_HOLDS);
    freed();
    opened(100, LAB_NEVER, LAB_NEVER, 1, 0);
    IS(ask_one(1, 0, 1, 0) == LAB_DONE && ask_one(2, 0, 5, 0) == LAB_DONE);
    IS(ask_as(0, 0, 3, 0, LAB_NEVER, LAB_NEVER, 0, SETS(3, 5)) == LAB_DONE && ask_one(4, 0, 2, 0) == LAB_DONE);
    IS(lab_bay_let_go(&bay, 1, 4) == LAB_DONE);
    KEEPS(2, 0, 3, {0, 0}, 0, 0, 0, 0, LAB_WAITS);
    KEEPS(3, 1, 4, {0, 0}, 2, 0, 2, 0, LAB_HOLDS);
    NOBODY(3, 2);
    IS(lab_bay_let_go(&bay, 4, 5) == LAB_DONE);
    KEEPS(2, 0, 3, {0, 0}, 3, 5, 3, 0, LAB_HOLDS);
    WAITS(2, 0, 5, 1);
    freed();
}

static uint32_t hurries(uint64_t number, uint64_t needs, uint32_t urgent) {
    struct lab_asked asked = {.number = number, .deadline = LAB_NEVER, .limit = LAB_NEVER, .urgent = urgent};
    return lab_bay_ask(&bay, &asked, &needs, 1, 0);
}

/* An urgent ask goes before none that stands in line, also where another would; and from then on nobody goes before it, nor before them. */
static void urgent_asks(void) {
    opened(100, LAB_NEVER, LAB_NEVER, 64, 0);
    IS(ask_one(1, 0, 2, 0) == LAB_DONE && ask_one(2, 0, 3, 0) == LAB_DONE);
    IS(hurries(3, 1, 1) == LAB_DONE);
    WAITS(2, 0, 3, 64);
    WAITS(3, 0, 1, 64);
    KEEPS(3, 0, 2, {0, 0}, 0, 0, 0, 0, LAB_WAITS);
    IS(hurries(4, 1, 0) == LAB_DONE && hurries(5, 4, 0) == LAB_DONE); /* (5 is let in: nobody in line wants what it wants) */
    WAITS(4, 0, 1, 0);
    KEEPS(9, 2, 5, {0, 0}, 4, 0, 2, 0, LAB_HOLDS);
    IS(lab_bay_let_go(&bay, 1, 1) == LAB_DONE && lab_bay_let_go(&bay, 2, 2) == LAB_DONE);
    KEEPS(4, 0, 3, {0, 0}, 1, 2, 4, 0, LAB_HOLDS);
    freed();
    opened(100, LAB_NEVER, LAB_NEVER, 64, 0);
    IS(ask_one(1, 0, 2, 0) == LAB_DONE && ask_one(2, 0, 3, 0) == LAB_DONE);
    IS(hurries(3, 1, 0) == LAB_DONE); /* (that isn't urgent, and is let in at once) */
    WAITS(2, 0, 3, 1);
    IS(lab_bay_let_go(&bay, 3, 0) == LAB_DONE && hurries(4, 4, 1) == LAB_DONE); /* (so is this one, that nobody in line is in the way of) */
    WAITS(2, 0, 3, 64);
    KEEPS(9, 2, 4, {0, 0}, 4, 0, 3, 0, LAB_HOLDS);
    freed();
}

static void stops(void) {
    opened(100, LAB_NEVER, LAB_NEVER, 64, 0);
    IS(ask_one(1, 0, 1, 0) == LAB_DONE);
    TOLD(1, LAB_HOLDS, 1);
    IS(ask_one(2, 0, 1, 0) == LAB_DONE);
    IS(ask_one(3, 0, 5, 0) == LAB_DONE);
    IS(lab_bay_stop(&bay, 0) == LAB_DONE);
    TOLD(2, LAB_STOPPED, 0);
    TOLD(3, LAB_STOPPED, 0);
    QUIET();
    IS(lab_bay_stop(&bay, 0) == LAB_DONE);
    QUIET();
    IS(ask_one(4, 0, 4, 0) == LAB_BAY_STOPPED);
    IS(lab_bay_let_go(&bay, 1, 0) == LAB_DONE);
    TOLD(1, LAB_LET_GO, 0);
    QUIET();
    freed();
}

/* ---- the journal */

#define N50 "nnnnnnnnnnnnnnnnnnnnnnnnnnnnnnnnnnnnnnnnnnnnnnnnnn"
#define N500 N50 N50 N50 N50 N50 N50 N50 N50 N50 N50

#define HOLD5 "ee256f33398cf59d hold 0000000000000005 00000000 0000000000000003 00000000000000070000000000000009 0000000000000004 0000000000000006 0000000000000004 0000000000000001\n"
#define HOLD6 "d61209e10d3c326e hold 0000000000000006 00000001 0000000000000004 00000000000000010000000000000002 0000000000000004 ---------------- 0000000000000004 0000000000000002\n"

static void journals(void) {
    static uint8_t long_text[501];
    uint64_t position = 77;
    memset(long_text, 'n', sizeof long_text);
    opened(100, LAB_NEVER, LAB_NEVER, 64, 1);
    IS(ask_as(7, 9, 5, 0, LAB_NEVER, 6, 4, SETS(3)) == LAB_DONE);
    IS(ask_as(1, 2, 6, 1, LAB_NEVER, LAB_NEVER, 4, SETS(4)) == LAB_DONE);
    QUIET();
    IS(lab_bay_note(&bay, 5, long_text, 1, &position) == LAB_NOT_YET); /* (it holds, and wasn't told so) */
    TEXT(BAY_HEAD HOLD5 HOLD6, 469);
    TEXT("", 469);
    QUIET();
    IS(lab_bay_durable(&bay, 0) == LAB_DONE && lab_bay_durable(&bay, 302) == LAB_DONE);
    QUIET();

    /* a write fails: the same bytes again, from what is durable on */
    IS(lab_bay_durable(&bay, 137) == LAB_DONE && lab_bay_failed(&bay) == LAB_DONE);
    IS(lab_bay_failed(&bay) == LAB_DONE);
    QUIET();
    freed();
    opened(100, LAB_NEVER, LAB_NEVER, 64, 1);
    IS(ask_as(7, 9, 5, 0, LAB_NEVER, 6, 4, SETS(3)) == LAB_DONE);
    IS(ask_as(1, 2, 6, 1, LAB_NEVER, LAB_NEVER, 4, SETS(4)) == LAB_DONE);
    TEXT(BAY_HEAD HOLD5 HOLD6, 469);
    for (int times = 0; times < 3; times++) {
        IS(lab_bay_failed(&bay) == LAB_DONE);
        TEXT(BAY_HEAD HOLD5 HOLD6, 469);
    }
    IS(lab_bay_durable(&bay, 303) == LAB_DONE);
    TOLD_WITH(5, LAB_HOLDS, 3, 1);
    QUIET();
    IS(lab_bay_failed(&bay) == LAB_DONE);
    TEXT(HOLD6, 469);
    IS(lab_bay_durable(&bay, 137) == LAB_DONE); /* (what is durable stays so) */
    IS(lab_bay_failed(&bay) == LAB_DONE);
    TEXT(HOLD6, 469);
    QUIET();
    IS(lab_bay_durable(&bay, 469) == LAB_DONE);
    TOLD_WITH(6, LAB_HOLDS, 4, 2);
    QUIET();
    IS(lab_bay_failed(&bay) == LAB_DONE);
    TEXT("", 469);

    /* notes */
    position = 77;
    IS(lab_bay_note(&bay, 5, long_text, 501, &position) == LAB_BAY_MAY_NOT);
    IS(lab_bay_note(&bay, 5, (const uint8_t *)"a\nb", 3, &position) == LAB_BAY_MAY_NOT);
    IS(lab_bay_note(&bay, 5, (const uint8_t *)"ab\r", 3, &position) == LAB_BAY_MAY_NOT);
    IS(lab_bay_note(&bay, 7, long_text, 1, &position) == LAB_NOT_YET);
    IS(ask_one(7, 0, 1, 4) == LAB_DONE);
    IS(lab_bay_note(&bay, 7, long_text, 1, &position) == LAB_NOT_YET);
    IS(position == 77);
    TEXT("", 469);
    IS(lab_bay_note(&bay, 5, (const uint8_t *)"volts 3", 7, &position) == LAB_DONE && position == 516);
    IS(lab_bay_note(&bay, 6, long_text, 500, &position) == LAB_DONE && position == 1056);
    IS(lab_bay_note(&bay, 6, NULL, 0, &position) == LAB_DONE && position == 1096);

    /* ends come before holds; let go and holds are told once their lines are durable */
    IS(lab_bay_let_go(&bay, 5, 9) == LAB_DONE);
    IS(lab_bay_note(&bay, 5, long_text, 1, &position) == LAB_NOT_YET && position == 1096);
    QUIET();
    TEXT("c028e6ff5f8636c2 note 0000000000000005 volts 3\n"
         "f602ec10ee8e3941 note 0000000000000006 " N500 "\n"
         "00a1de867a8ddf84 note 0000000000000006 \n"
         "0b5a2e3d35a3bdea end 0000000000000005 let_go 0000000000000009\n"
         "1b5a8f0785b663c1 hold 0000000000000007 00000000 0000000000000001 00000000000000000000000000000000 0000000000000009 ---------------- 0000000000000004 0000000000000003\n",
         1324);
    QUIET();
    IS(lab_bay_durable(&bay, 1157) == LAB_DONE);
    QUIET();
    IS(lab_bay_durable(&bay, 1158) == LAB_DONE);
    TOLD(5, LAB_LET_GO, 0);
    QUIET();
    IS(lab_bay_durable(&bay, 1324) == LAB_DONE);
    TOLD_WITH(7, LAB_HOLDS, 1, 3);
    QUIET();

    /* what is taken away is told at once, and its line comes; somebody that leaves is told nothing, and its line comes; one that
       came and left meanwhile has none */
    IS(lab_bay_take_away(&bay, 6, 9) == LAB_DONE);
    TOLD(6, LAB_TAKEN, 0);
    IS(ask_one(8, 1, 4, 9) == LAB_DONE);
    IS(lab_bay_leave(&bay, 8, 9) == LAB_DONE);
    IS(lab_bay_leave(&bay, 7, 9) == LAB_DONE);
    QUIET();
    TEXT("34281c28904c7289 end 0000000000000006 taken_away 0000000000000009\n4d01dff75e663563 end 0000000000000007 left 0000000000000009\n", 1450);
    freed();
}

/* ---- a bay that comes back */

static const char file[] = BAY_HEAD HOLD5 HOLD6 "255ccf552b009ffb end 0000000000000005 let_go 0000000000000009\n";

static uint32_t resumed(const void *text, size_t length, uint64_t now, size_t *used, uint64_t *fault) {
    *used = 77;
    *fault = 77;
    done = 0;
    return lab_bay_resume(classes, 2, &terms, (const uint8_t *)text, length, now, &bay, used, fault);
}

static void comes_back(void) {
    static const struct lab_class fewer[2] = {{1, 2, 0}, {12, 1, 0}};
    static char text[sizeof file];
    struct lab_class many[33];
    size_t used;
    uint64_t fault, needs = 77;
    terms_are(100, 10, LAB_NEVER, 64, 1);
    for (int at = 0; at < 33; at++) many[at] = (struct lab_class){15, 2, 0};

    /* who doesn't come back */
    IS(resumed("", 0, 0, &used, &fault) == LAB_BAY_ANOTHER);
    IS(resumed(NULL, 0, 0, &used, &fault) == LAB_BAY_ANOTHER);
    IS(resumed(file, 136, 0, &used, &fault) == LAB_BAY_ANOTHER);
    terms.bay[31]++;
    IS(resumed(file, sizeof file - 1, 0, &used, &fault) == LAB_BAY_ANOTHER);
    terms.bay[31]--;
    IS(lab_bay_resume(many, 33, &terms, (const uint8_t *)file, sizeof file - 1, 0, &bay, &used, &fault) == LAB_BAY_NO_CLASS);
    for (size_t at = 0; at < sizeof file - 1; at++) {
        if (file[at] == '\n') continue;
        memcpy(text, file, sizeof file);
        text[at] ^= 1;
        unsigned line = 1 + (at >= 137) + (at >= 303) + (at >= 469);
        uint32_t status = resumed(text, sizeof file - 1, 0, &used, &fault);
        expect(status == LAB_BAY_UNSOUND && fault == line, "byte %zu changed: status %u, fault %llu", at, status, (unsigned long long)fault);
    }
    memcpy(text, file, 137); /* a line that is missing */
    memcpy(text + 137, file + 303, sizeof file - 303);
    IS(resumed(text, sizeof file - 1 - 166, 0, &used, &fault) == LAB_BAY_UNSOUND && fault == 2);
    memcpy(text + 303, file + 137, 166); /* two that changed places */
    IS(resumed(text, 469, 0, &used, &fault) == LAB_BAY_UNSOUND && fault == 2);
    IS(resumed(file + 137, 166, 0, &used, &fault) == LAB_BAY_UNSOUND && fault == 1);
    IS(lab_bay_resume(fewer, 2, &terms, (const uint8_t *)file, 469, 0, &bay, &used, &fault) == LAB_BAY_MAY_NOT && fault == 5);
    IS(bay.live == 0 && lab_bay_free(&bay) == LAB_NOT_OPEN);

    /* cut at any byte it comes back as far as it has whole lines */
    for (size_t length = 137; length < sizeof file; length++) {
        size_t whole = length < 303 ? 137 : length < 469 ? 303 : length < 531 ? 469 : 531;
        uint32_t status = resumed(file, length, 0, &used, &fault);
        expect(status == LAB_DONE && used == whole, "cut at %zu: status %u, used %zu", length, status, used);
        uint32_t five = lab_bay_back(&bay, 5, 7, 9, 0, &needs), six = lab_bay_back(&bay, 6, 1, 2, 0, &needs);
        expect(five == (whole == 303 || whole == 469 ? LAB_DONE : LAB_BAY_OVER), "cut at %zu: 5 comes back: %u", length, five);
        expect(six == (whole >= 469 ? LAB_DONE : LAB_BAY_OVER), "cut at %zu: 6 comes back: %u", length, six);
        QUIET();
        freed();
    }

    /* whose end was written and who is let go of by other classes has no part in it */
    IS(lab_bay_resume(fewer, 2, &terms, (const uint8_t *)file, 531, 0, &bay, &used, &fault) == LAB_DONE && used == 531);
    freed();

    /* their clients are gone since then; the numbers go on, and so do the lines */
    IS(resumed(file, 530, 50, &used, &fault) == LAB_DONE && used == 469);
    QUIET();
    TEXT("", 469);
    DUE(59, 60);
    needs = 77;
    at_place(__LINE__, 0, (struct lab_standing){5, {7, 9}, 3, 4, 1, 0, LAB_HOLDS}, 7);
    IS(lab_bay_back(&bay, 5, 7, 8, 59, &needs) == LAB_BAY_OVER && needs == 77);
    IS(lab_bay_back(&bay, 5, 7, 9, 59, &needs) == LAB_DONE && needs == 3);
    IS(ask_one(6, 0, 4, 59) == LAB_BAY_NUMBER);
    IS(ask_one(7, 1, 4, 59) == LAB_DONE);
    QUIET();
    DUE(60, LAB_NEVER); /* (the limit of 5 is over, and nobody wants what it has) */
    IS(lab_bay_back(&bay, 6, 1, 2, 60, &needs) == LAB_BAY_OVER);
    IS(lab_bay_note(&bay, 5, (const uint8_t *)"n", 1, &fault) == LAB_DONE && fault == 510); /* (it was told) */
    TEXT("2d4bd7a3592e7f88 note 0000000000000005 n\n1d999343afcdbcee end 0000000000000006 grace 000000000000003c\n"
         "3c2e752bcd435e4a hold 0000000000000007 00000001 0000000000000004 00000000000000000000000000000000 000000000000003c ---------------- 000000000000003b 0000000000000003\n", 737);
    IS(lab_bay_durable(&bay, 737) == LAB_DONE);
    IS(lab_bay_note(&bay, 7, (const uint8_t *)"n", 1, &fault) == LAB_NOT_YET);
    freed();
}

/* ---- a new file, and other classes */

static const char begins[] =
    "90d62ff7b52e8fee bay " BAY_HASH " 000000000000012f 0000000000000007 0000000000000001\n"
    "a688d0eb7b17a061 hold 0000000000000005 00000000 0000000000000003 00000000000000070000000000000009 0000000000000004 ---------------- 0000000000000004 0000000000000001\n";
#define GOES_ON                                                                                                                                      \
    "c099dffda8461300 end 0000000000000005 let_go 0000000000000009\n"                                                                                               \
    "5cd2aa91f7546f68 hold 0000000000000006 00000000 0000000000000002 00000000000000000000000000000000 0000000000000009 ---------------- 0000000000000005 0000000000000002\n"

/* The bay doesn't turn, by so many such classes and with such a room, and tells nothing but this. */
static void no_turn(unsigned line, struct lab_class class, size_t count, size_t room, uint32_t wanted, size_t size, uint64_t number) {
    static uint8_t text[640], before[640];
    struct lab_class many[33];
    size_t written = 77;
    uint64_t fault = 77;
    for (size_t at = 0; at < count; at++) many[at] = class;
    memset(text, POISON, sizeof text);
    memset(before, POISON, sizeof before);
    uint32_t status = lab_bay_turn(&bay, many, count, 6, text, room, &written, &fault);
    expect(status == wanted && written == size && fault == number && memcmp(text, before, sizeof text) == 0, "line %u: status %u, %zu, %llu", line,
           status, written, (unsigned long long)fault);
}

#define NO_TURN(uses, places, ...) no_turn(__LINE__, (struct lab_class){(uses), (places), 0}, __VA_ARGS__)

/* 5 holds 0 and 1, and 6 waits for 1, or for 1 and 2. */
static void turns(void) {
    static uint8_t file[640];
    struct lab_standing standing;
    size_t written = 77, used = 77;
    uint64_t fault = 77, next = 77;
    opened(8, LAB_NEVER, LAB_NEVER, 64, 1);
    NO_TURN(7, 2, 2, 500, LAB_NOT_YET, 77, 77); /* (the head wasn't handed out) */
    IS(ask_as(7, 9, 5, 0, LAB_NEVER, LAB_NEVER, 4, SETS(3)) == LAB_DONE);
    NO_TURN(7, 2, 2, 500, LAB_NOT_YET, 77, 77);
    IS(lab_bay_journal(&bay, file, sizeof file, &written, &fault) == LAB_DONE && written == 303);
    NO_TURN(7, 2, 2, 500, LAB_NOT_YET, 77, 77);
    IS(lab_bay_durable(&bay, 303) == LAB_DONE);
    IS(ask_as(0, 0, 6, 0, LAB_NEVER, LAB_NEVER, 5, SETS(2, 6)) == LAB_DONE);
    TOLD(5, LAB_HOLDS, 3);
    NO_TURN(6, 2, 2, 500, LAB_BAY_MAY_NOT, 77, 5);
    NO_TURN(7, 0, 2, 500, LAB_BAY_MAY_NOT, 77, 5);
    NO_TURN(7, 2, 0, 500, LAB_BAY_MAY_NOT, 77, 5);
    NO_TURN(3, 2, 2, 500, LAB_BAY_MAY_NOT, 77, 6);
    NO_TURN(7, 2, 33, 500, LAB_BAY_NO_CLASS, 77, 77);
    NO_TURN(7, 2, 2, 302, LAB_NO_ROOM, 303, 77);
    fault = 77;
    IS(lab_bay_turn(&bay, classes, 2, 6, file, 303, &written, &fault) == LAB_DONE && written == 303 && fault == 77);
    IS(memcmp(file, begins, 303) == 0 && sizeof begins == 304);
    QUIET();
    TEXT("", 606);
    IS(lab_bay_let_go(&bay, 5, 9) == LAB_DONE);
    TEXT(GOES_ON, 834);
    QUIET();
    IS(lab_bay_durable(&bay, 834) == LAB_DONE);
    TOLD(5, LAB_LET_GO, 0);
    TOLD(6, LAB_HOLDS, 2);
    QUIET();
    freed();

    /* from the new file 6 comes back */
    memcpy(file + 303, GOES_ON, sizeof GOES_ON - 1);
    terms_are(8, LAB_NEVER, LAB_NEVER, 64, 1);
    IS(lab_bay_resume(classes, 2, &terms, file, 531, 50, &bay, &used, &fault) == LAB_DONE && used == 531);
    IS(lab_bay_look(&bay, 0, &standing, &next) == LAB_DONE && standing.number == 6 && standing.what == LAB_HOLDS && standing.needs == 2 && next == 7);
    IS(lab_bay_look(&bay, 1, &standing, &next) == LAB_NOT_YET);
    freed();

    /* without a journal only the classes change; by wider ones 6 is let in */
    opened(8, LAB_NEVER, LAB_NEVER, 64, 0);
    IS(ask_one(5, 1, 4, 0) == LAB_DONE && ask_one(6, 1, 8, 0) == LAB_DONE);
    TOLD(5, LAB_HOLDS, 4);
    QUIET();
    struct lab_class wider[2] = {{7, 2, 0}, {12, 2, 0}};
    IS(lab_bay_turn(&bay, wider, 2, 0, file, 0, &written, &fault) == LAB_DONE && written == 0);
    TOLD(6, LAB_HOLDS, 8);
    QUIET();
    freed();
}

int main(void) {
    handles();
    busy();
    refusals();
    waits();
    leaves();
    gone_and_back();
    gone_for_long();
    nobody_comes_back();
    limits();
    deadlines();
    disks();
    told_late();
    written_and_over();
    disk_until_the_deadline();
    durable_beyond();
    looks();
    keepers();
    first_keepers();
    waited_for();
    own_sets();
    urgent_asks();
    stops();
    journals();
    comes_back();
    turns();
    return summary();
}
