/* What the tests of the bench in C have in common: counts of what passed and failed, and files. */
#ifndef TESTS_H
#define TESTS_H
#include "labrun.h"
#include <stdarg.h>
#include <stdio.h>
#include <stdlib.h>
#include <string.h>

#define MOST_BYTES 16777217u
#define MOST_NAMED 20

static long passed, failed;

/* Counts, and names what failed (the first of them). Under the caller's mutex if threads call it. */
static inline int expect(int is_so, const char *what, ...) {
    if (is_so) {
        passed++;
        return 1;
    }
    if (failed++ >= MOST_NAMED) return 0;
    va_list rest;
    va_start(rest, what);
    fputs("FAILED ", stdout);
    vprintf(what, rest);
    fputs("\n", stdout);
    fflush(stdout);
    va_end(rest);
    return 0;
}

static inline int summary(void) {
    printf("%ld passed, %ld failed\n", passed, failed);
    return failed != 0;
}

struct text {
    uint8_t *bytes;
    size_t length;
};

static inline struct text read_file(const char *path) {
    struct text text = {NULL, 0};
    FILE *file = fopen(path, "rb");
    if (!file) return text;
    text.bytes = (uint8_t *)malloc(MOST_BYTES);
    if (text.bytes) text.length = fread(text.bytes, 1, MOST_BYTES, file);
    fclose(file);
    return text;
}

static inline int write_file(const char *path, struct text text) {
    FILE *file = fopen(path, "wb");
    if (!file) return 0;
    size_t written = fwrite(text.bytes, 1, text.length, file);
    return fclose(file) == 0 && written == text.length;
}

static inline int same_text(struct text one, struct text other) {
    return one.length == other.length && (one.length == 0 || memcmp(one.bytes, other.bytes, one.length) == 0);
}

/* Whether a call that was given no room has a report, and is to be made again with as much room as that needs. */
static inline int has_report(uint32_t status, struct lab_told told, struct text *report) {
    report->length = 0;
    report->bytes = NULL;
    if (status != LAB_NO_ROOM) return 0;
    report->length = told.written;
    report->bytes = (uint8_t *)malloc(told.written);
    if (!report->bytes) exit(70);
    return 1;
}

/* The report of a bench that is closed by this. */
static inline uint32_t close_bench(struct lab_bench *bench, struct text *report) {
    struct lab_told told = {0, 0, 0};
    uint8_t none[1] = {0};
    uint32_t status = lab_bench_close(bench, none, 0, &told);
    return has_report(status, told, report) ? lab_bench_close(bench, report->bytes, report->length, &told) : status;
}

/* The report of the script's run in rounds, by the call that is proved to give it. */
static inline uint32_t in_rounds(struct text script, uint32_t limit, struct text *report, struct lab_told *told) {
    uint8_t none[1] = {0};
    uint32_t status = lab_rounds(script.bytes, script.length, limit, none, 0, told);
    return has_report(status, *told, report) ? lab_rounds(script.bytes, script.length, limit, report->bytes, report->length, told) : status;
}

/* The report of the steps behind a script, by the call that is proved to give it. */
static inline uint32_t replayed(struct text journal, struct text *report) {
    struct lab_told told = {0, 0, 0};
    uint8_t none[1] = {0};
    uint32_t status = lab_replay(journal.bytes, journal.length, none, 0, &told);
    return has_report(status, told, report) ? lab_replay(journal.bytes, journal.length, report->bytes, report->length, &told) : status;
}
#endif
