/* opens.c [HOW MANY]: a bench is opened, used, closed and freed again and again, by default a million times, with little memory: a free gives
   back all that the handle had.
   cc -I include checks/door/opens.c FOLDER/liblabrun.a */
#define _DEFAULT_SOURCE
#include "tests.h"
#include <sys/resource.h>

#define ROOM (32u << 20)

static const char script[] = "lab 1\njob a\nsession\ndial read\nend\n";

/* The memory that this process has now, in bytes. */
static size_t memory_now(void) {
    unsigned long pages = 0;
    FILE *file = fopen("/proc/self/statm", "r");
    if (!file || fscanf(file, "%lu", &pages) != 1) return 0;
    fclose(file);
    return (size_t)pages * 4096;
}

int main(int count, char **words) {
    long many = count > 1 ? atol(words[1]) : 1000000;
    struct rlimit limit = {memory_now() + ROOM, memory_now() + ROOM};
    struct lab_bench bench = {0};
    struct lab_told told;
    struct lab_came came;
    struct lab_turned turned;
    static uint8_t report[200];
    long done = 0;
    if (setrlimit(RLIMIT_AS, &limit)) return perror("setrlimit"), 70;
    for (; done < many; done++) {
        if (lab_bench_open((const uint8_t *)script, sizeof script - 1, &bench, &told) != LAB_DONE) break;
        /* (every eighth is used to its end; the others are freed as they are) */
        if (done % 8 == 0
            && (lab_settle(&bench, 1, &came) != LAB_DONE || came.holds != 1 || lab_end(&bench, 0, &turned) != LAB_DONE
                || lab_retire(&bench, 0, 1, &turned) != LAB_DONE || lab_bench_close(&bench, report, sizeof report, &told) != LAB_DONE))
            break;
        lab_bench_free(&bench);
    }
    expect(done == many, "open %ld of %ld, with room for %u bytes", done + 1, many, ROOM);
    return summary();
}
