/* What can be seen of a bench from outside: whether its handle is in use, and each job's state. */
#ifndef LOOKS_H
#define LOOKS_H
#include "scripts.h"

struct seen {
    uint64_t live;
    uint32_t status[MOST_JOBS];
    struct lab_state states[MOST_JOBS];
};

static inline void look_at_bench(struct seen *seen, struct lab_bench *bench) {
    memset(seen, 0, sizeof *seen);
    seen->live = bench->live;
    for (uint32_t job = 0; job < MOST_JOBS; job++) seen->status[job] = lab_state(bench, job, &seen->states[job]);
}

static inline int is_same(const struct seen *before, const struct seen *after) { return memcmp(before, after, sizeof *before) == 0; }

/* Each program says which bench it looks at. */
static void look(struct seen *seen);
#endif
