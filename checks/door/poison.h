/* Calls that may change nothing: what a call could write is poisoned before it, and the bench is looked at before and after it. */
#ifndef POISON_H
#define POISON_H
#include "looks.h"

#define POISON 0xa5

static const char two[] = "lab 2\njob a\nsession\nscale add 1\nlamp set 7\nscale read\nend\nsession\nlamp read\nend\n"
                          "job b\nsession patience 3\nscale add 2\nend\njob c\n";

/* Room for whatever a call tells. */
static union {
    uint8_t bytes[512];
    struct lab_told told;
    struct lab_size size;
    struct lab_session session;
    struct lab_turned turned;
    struct lab_state state;
    struct lab_entry entry;
    struct lab_planned planned;
    struct lab_keepers keepers;
    struct lab_came came;
    struct lab_outside outside;
    struct {
        size_t written;
        uint8_t name[64];
    } name;
} out;

static inline void poison(void) { memset(out.bytes, POISON, sizeof out.bytes); }

static inline int untouched(size_t from) {
    for (size_t at = from; at < sizeof out.bytes; at++)
        if (out.bytes[at] != POISON) return 0;
    return 1;
}

/* A call that has to answer `wanted` and to change and to tell nothing. */
#define REFUSED(wanted, call)                                                                                      \
    do {                                                                                                           \
        struct seen before_it, after_it;                                                                           \
        look(&before_it);                                                                                          \
        poison();                                                                                                  \
        uint32_t got = (call);                                                                                     \
        look(&after_it);                                                                                           \
        expect(got == (wanted) && untouched(0) && is_same(&before_it, &after_it), "line %d: %s: status %u, wanted %u%s", __LINE__, #call, \
               got, (unsigned)(wanted), untouched(0) ? "" : ", and something was told");                           \
    } while (0)

/* A call that has to answer `wanted` and to leave all jobs as they are; what it tells is looked at afterwards. */
#define TELLS(wanted, call)                                                                                        \
    do {                                                                                                           \
        struct seen before_it, after_it;                                                                           \
        look(&before_it);                                                                                          \
        poison();                                                                                                  \
        uint32_t got = (call);                                                                                     \
        look(&after_it);                                                                                           \
        expect(got == (wanted) && is_same(&before_it, &after_it), "line %d: %s: status %u, wanted %u", __LINE__, #call, got, \
               (unsigned)(wanted));                                                                                \
    } while (0)

#define IS(what) expect((what), "line %d: %s", __LINE__, #what)
#endif
