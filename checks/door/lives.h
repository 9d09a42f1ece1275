/* A whole life of a bench, from open to free, again and again: each allocation of each call is refused in turn. The call then answers 5 and
   changes nothing; called again it goes on, and the report at the end is the one without a refusal. No block is left, but for what an open
   keeps (the number is printed).

   A program says what it looks at (`look`), whether a call that answers 5 left that as it was (`is_kept`), and its lives. */
#ifndef LIVES_H
#define LIVES_H
#include "heap.h"
#include "looks.h"

#define MOST_CALLS 4000

static int is_kept(const struct seen *before, const struct seen *after);

static uint8_t report[4000000], untouched[4000000], first[4000000];
static size_t first_length;
static long allocations[MOST_CALLS]; /* how many a call has when none is refused */
static long kept, opens;             /* how many blocks are left by a life without a refusal; how many opens this life had */
static int calls, at_call;           /* the call that an allocation is refused in; none if 0 */
static long at_allocation, tried, unmet;
static const char *name;
static struct seen before, after;

static inline void begin_life(void) {
    calls = 0;
    blocks = 0;
    opens = at_call == 1 ? 2 : 1;
}

/* Of blocks, when the bench is freed. */
static inline void end_life(const char *what) {
    refused = 0;
    if (at_call == 0) kept = blocks;
    expect(blocks <= kept * opens, "%s: %s, call %d, allocation %ld: %ld blocks are left", name, what, at_call, at_allocation, blocks);
}

static inline void prepare(void) {
    calls++;
    refused = 0;
    if (calls == at_call) look(&before);
    asked = 0;
    refused = calls == at_call ? at_allocation : 0;
}

/* After a call: yes if it has to be made again. */
static inline int again(const char *what, uint32_t status) {
    long was = refused;
    if (at_call == 0 && calls < MOST_CALLS) allocations[calls] = asked;
    refused = 0;
    if (!was) {
        if (status == LAB_NO_MEMORY) expect(0, "%s: %s: no memory, though none was refused", name, what);
        return 0;
    }
    tried++;
    if (status != LAB_NO_MEMORY) {
        unmet++;
        return 0;
    }
    look(&after);
    expect(is_kept(&before, &after), "%s: %s, allocation %ld: something changed at 5", name, what, was);
    return 1;
}

#define CALL(status, call)                         \
    do {                                           \
        prepare();                                 \
        status = (call);                           \
        if (again(#call, status)) status = (call); \
    } while (0)

/* The report has the same bytes whichever allocation was refused. */
static inline void compare_report(size_t length) {
    if (at_call == 0) {
        first_length = length;
        memcpy(first, report, length);
    } else {
        expect(length == first_length && memcmp(first, report, first_length) == 0, "%s: call %d, allocation %ld: another report", name,
               at_call, at_allocation);
    }
}

/* One life without a refusal, which counts; then one for each allocation of each call. */
static inline void refuse_each(void (*life)(struct text), struct text script) {
    memset(allocations, 0, sizeof allocations);
    at_call = 0;
    life(script);
    int most = calls < MOST_CALLS ? calls : MOST_CALLS - 1;
    for (int call = 1; call <= most; call++)
        for (long allocation = 1; allocation <= allocations[call]; allocation++) {
            at_call = call;
            at_allocation = allocation;
            life(script);
        }
}

/* The lives of each script, and what the program ends with. */
static inline int live_through(int count, char **words, void (*const *lives)(struct text), int how_many) {
    memset(untouched, 0xaa, sizeof untouched);
    for (int which = 1; which < count; which++) {
        name = words[which];
        refused = 0;
        struct text script = read_file(name);
        if (!expect(script.bytes != NULL, "%s can't be read", name)) continue;
        for (int life = 0; life < how_many; life++) refuse_each(lives[life], without_steps(script));
        free(script.bytes);
    }
    printf("allocations refused: %ld, answered otherwise than by 5: %ld; blocks that an open keeps: %ld\n", tried, unmet, kept);
    return summary();
}
#endif
