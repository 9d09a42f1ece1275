/* refused.c: a day of a bay, again and again, in which each allocation of each call is refused in turn. The call then answers 5 and has
   changed nothing that shows; called again it goes on, and all answers, all that is told and the whole journal are those of a day without a
   refusal. No block is left, and none is freed twice.
   cc -I include checks/bay/refused.c FOLDER/liblabrun.a -Wl,--wrap=malloc -Wl,--wrap=realloc -Wl,--wrap=free */
#include "bay.h"

#define MOST_BLOCKS 4096
#define MOST_CALLS 4000
#define NUMBERS 160

/* ---- the heap: it refuses one allocation, and knows each block */

static long asked, refused;     /* allocations since it was set back, and which of them is refused (none if 0) */
static void *blocks[MOST_BLOCKS];
static long left, astray;       /* blocks that weren't freed, and frees of what is none */
static int counts;              /* whether it does so (the rest of the time it is the usual heap) */

void *__real_malloc(size_t), *__real_realloc(void *, size_t);
void __real_free(void *);

static void *known(void *block) {
    if (!block) return block;
    for (int at = 0; at < MOST_BLOCKS; at++)
        if (!blocks[at]) {
            blocks[at] = block;
            left++;
            return block;
        }
    abort();
}

static void forgotten(void *block) {
    if (!block) return;
    for (int at = 0; at < MOST_BLOCKS; at++)
        if (blocks[at] == block) {
            blocks[at] = NULL;
            left--;
            return;
        }
    astray++;
}

void *__wrap_malloc(size_t size) {
    if (!counts) return __real_malloc(size);
    return ++asked == refused ? NULL : known(__real_malloc(size));
}

void *__wrap_realloc(void *old, size_t size) {
    if (!counts) return __real_realloc(old, size);
    if (++asked == refused) return NULL;
    forgotten(old);
    return known(__real_realloc(old, size));
}

void __wrap_free(void *old) {
    if (!counts) {
        __real_free(old);
        return;
    }
    long before = astray;
    forgotten(old);
    if (astray == before) __real_free(old);
}

/* ---- a day, and what came of it */

static const struct lab_class classes[3] = {{0xff, 4, 0}, {0x0f, 2, 0}, {0x3c, 1, 0}};
static uint64_t now;
static char out[400000], first[400000]; /* all answers, in the order of the calls */
static size_t out_length, first_length;
static uint8_t file[400000];            /* what the writer has */
static size_t file_length, durable;
static long allocations[MOST_CALLS];    /* how many a call has when none is refused */
static int calls, at_call;              /* the call that an allocation is refused in; none if 0 */
static long at_allocation, tried, met[6];
static const char *const taking[6] = {"open", "ask", "note", "journal", "resume", "turn"};

/* What shows of a bay without changing it: what is told, and when somebody is due. */
struct shown {
    uint32_t tells, times;
    struct lab_outcome outcome;
    uint64_t next;
};

static struct shown look(void) {
    struct shown shown;
    memset(&shown, 0, sizeof shown);
    shown.tells = lab_bay_tell(&bay, done, &shown.outcome);
    shown.times = lab_bay_time(&bay, now, &shown.next);
    return shown;
}

static struct shown before;

static void prepare(void) {
    calls++;
    refused = 0;
    if (calls == at_call) before = look();
    asked = 0;
    refused = calls == at_call ? at_allocation : 0;
}

/* After a call: yes if it has to be made again. */
static int again(const char *what, int takes, uint32_t status) {
    long was = refused;
    if (at_call == 0 && calls < MOST_CALLS) allocations[calls] = asked;
    refused = 0;
    expect(takes >= 0 || asked == 0, "call %d: %s asks for memory", calls, what);
    if (!was) {
        expect(status != LAB_NO_MEMORY, "call %d: %s: no memory, though none was refused", calls, what);
        return 0;
    }
    tried++;
    expect(status == LAB_NO_MEMORY, "call %d: %s, allocation %ld: status %u", calls, what, was, status);
    if (status != LAB_NO_MEMORY) return 0;
    met[takes]++;
    struct shown after = look();
    expect(memcmp(&before, &after, sizeof after) == 0, "call %d: %s, allocation %ld: something changed at 5", calls, what, was);
    return 1;
}

static void says(const char *what, uint64_t one, uint64_t other) {
    out_length += (size_t)snprintf(out + out_length, sizeof out - out_length, "%s %llx %llx\n", what, (unsigned long long)one, (unsigned long long)other);
}

/* `takes`: which of the calls that take memory; -1 for the others. */
#define CALL(takes, status, call)                         \
    do {                                                  \
        prepare();                                        \
        status = (call);                                  \
        if (again(#call, takes, status)) status = (call); \
        says("status", status, (uint64_t)calls);          \
    } while (0)

static uint32_t seed;

static uint32_t chance(uint32_t below) {
    seed = seed * 1664525u + 1013904223u;
    return (seed >> 8) % below;
}

static void tells(void) {
    struct lab_outcome outcome;
    uint32_t status;
    for (;;) {
        memset(&outcome, 0, sizeof outcome);
        CALL(-1, status, lab_bay_tell(&bay, done, &outcome));
        if (status != LAB_DONE) break;
        says("told", outcome.number, outcome.what);
        says("of", outcome.serial, outcome.what == LAB_HOLDS ? outcome.needs : 0);
        done = outcome.serial;
    }
}

static void writes(int fails) {
    static uint8_t text[100000], untouched[100000];
    uint32_t status;
    size_t written = 77;
    uint64_t position = 77;
    memset(text, 0xaa, sizeof text);
    memset(untouched, 0xaa, sizeof untouched);
    CALL(3, status, lab_bay_journal(&bay, text, 1, &written, &position));
    expect(memcmp(text + 1, untouched, sizeof text - 1) == 0, "a journal without room writes something");
    if (status == LAB_NO_ROOM) CALL(3, status, lab_bay_journal(&bay, text, written, &written, &position));
    expect(status == LAB_DONE, "a journal: status %u", status);
    memcpy(file + file_length, text, written);
    file_length += written;
    says("journal", written, position);
    if (fails) {
        CALL(-1, status, lab_bay_failed(&bay));
        file_length = durable;
        return;
    }
    durable = file_length;
    CALL(-1, status, lab_bay_durable(&bay, position));
}

static void asks(uint64_t number) {
    static const uint64_t may[3] = {0xff, 0x0f, 0x3c};
    struct lab_asked asking = {number, {number % 3, number}, LAB_NEVER, LAB_NEVER, chance(3), chance(8) == 0};
    uint64_t sets[40];
    size_t count = number % 20 == 0 ? 40 : 1 + chance(3);
    uint32_t status;
    if (chance(4) == 0) asking.deadline = now + chance(9);
    if (chance(4) == 0) asking.limit = chance(9);
    for (size_t at = 0; at < count; at++) {
        sets[at] = ((uint64_t)1 << chance(8) | (uint64_t)1 << chance(8)) & may[asking.kind];
        if (sets[at] == 0) sets[at] = 4;
    }
    CALL(1, status, lab_bay_ask(&bay, &asking, sets, count, now));
}

static void notes(uint64_t number) {
    static const char text[] = "the same note that each of them makes, long enough that its line needs some memory of its own, and then a bit more";
    size_t length = chance(sizeof text);
    uint64_t position = 77;
    uint32_t status;
    CALL(2, status, lab_bay_note(&bay, number, (const uint8_t *)text, length, &position));
    says("note", position, 0);
}

static void acts(uint64_t number) {
    uint32_t status;
    uint64_t needs = 77, next = 77;
    switch (chance(8)) {
    case 0: CALL(-1, status, lab_bay_leave(&bay, number, now)); break;
    case 1: CALL(-1, status, lab_bay_take_away(&bay, number, now)); break;
    case 2: CALL(-1, status, lab_bay_gone(&bay, number, now)); break;
    case 3: CALL(-1, status, lab_bay_back(&bay, number, number % 3, number, now, &needs)); break;
    case 4: now++; CALL(-1, status, lab_bay_time(&bay, now, &next)); break;
    default: CALL(-1, status, lab_bay_let_go(&bay, number, now)); break;
    }
    says("act", needs, next);
}

static void reads(uint64_t number) {
    uint32_t status, passed = 77, instrument = chance(8);
    uint64_t needs = 77;
    struct lab_standing keeper = {0, {0, 0}, 0, 0, 0, 0, 0};
    CALL(-1, status, lab_bay_keeper(&bay, number, instrument, &keeper));
    says("keeper", keeper.number, keeper.what);
    CALL(-1, status, lab_bay_waits(&bay, number, 0, &needs, &passed));
    says("waits", needs, passed);
}

/* The bay goes on in a new file. */
static void turns(void) {
    static uint8_t text[100000];
    uint32_t status;
    size_t written = 77;
    uint64_t fault = 77;
    CALL(5, status, lab_bay_turn(&bay, classes, 3, now, text, sizeof text, &written, &fault));
    expect(status == LAB_DONE && written >= 120 && fault == 77, "turn: status %u, %zu", status, written);
    memcpy(file, text, written);
    file_length = durable = written;
    says("turn", written, fault);
}

static void frees(void) {
    uint32_t status;
    CALL(-1, status, lab_bay_free(&bay));
    expect(status == LAB_DONE && bay.live == 0, "free: status %u", status);
}

static void part(uint64_t from, uint64_t to) {
    for (uint64_t number = from; number < to; number++) {
        asks(number);
        for (uint32_t times = chance(4); times; times--) acts(from + chance((uint32_t)(number - from) + 1));
        if (chance(3) == 0) notes(from + chance((uint32_t)(number - from) + 1));
        if (chance(3) == 0) writes(chance(4) == 0);
        tells();
        reads(from + chance((uint32_t)(number - from) + 1));
    }
}

static void day(void) {
    uint32_t status;
    size_t used = 77;
    uint64_t fault = 77;
    calls = 0;
    out_length = file_length = durable = 0;
    now = 0;
    seed = 1;
    counts = 1;
    terms_are(200, 6, 3, 2, 1);
    CALL(0, status, lab_bay_open(classes, 3, &terms, &bay));
    expect(status == LAB_DONE, "open: status %u", status);
    part(1, NUMBERS / 2);
    writes(0);
    turns();
    frees();
    expect(left == 0, "call %d, allocation %ld: %ld blocks are left at noon", at_call, at_allocation, left);
    done = 0;
    /* a line that is torn, then the bay that comes back */
    memcpy(file + file_length, "0123456789", 10);
    CALL(4, status, lab_bay_resume(classes, 3, &terms, file, file_length + 10, now, &bay, &used, &fault));
    expect(status == LAB_DONE && used == file_length, "resume: status %u", status);
    part(NUMBERS / 2, NUMBERS);
    CALL(-1, status, lab_bay_stop(&bay, now));
    tells();
    writes(0);
    tells();
    frees();
    counts = 0;
    expect(left == 0 && astray == 0, "call %d, allocation %ld: %ld blocks are left, %ld freed twice", at_call, at_allocation, left, astray);
    out_length += file_length;
    if (out_length > sizeof out) exit(70);
    memcpy(out + out_length - file_length, file, file_length);
    if (at_call == 0) {
        memcpy(first, out, out_length);
        first_length = out_length;
    } else {
        expect(out_length == first_length && memcmp(out, first, first_length) == 0, "call %d, allocation %ld: another day", at_call, at_allocation);
    }
}

int main(void) {
    day();
    int most = calls;
    if (most >= MOST_CALLS) exit(70);
    for (int call = 1; call <= most; call++)
        for (long allocation = 1; allocation <= allocations[call]; allocation++) {
            at_call = call;
            at_allocation = allocation;
            day();
        }
    expect(tried > 0, "no allocation was refused");
    for (int at = 0; at < 6; at++) expect(met[at] > 0, "no allocation of lab_bay_%s was refused", taking[at]);
    printf("a day of %d calls, %zu bytes of journal; allocations refused: %ld, of open %ld, ask %ld, note %ld, journal %ld, resume %ld, turn %ld\n", most,
           file_length, tried, met[0], met[1], met[2], met[3], met[4], met[5]);
    return summary();
}
