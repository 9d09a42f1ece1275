/* memory.c SCRIPT ..: each allocation of each call is refused in turn. The status is then 5, the report as it was, and no block is left.
   cc -I include checks/door/memory.c FOLDER/liblabrun.a -Wl,--wrap=malloc -Wl,--wrap=realloc -Wl,--wrap=free */
#include "heap.h"
#include "labrun.h"
#include <stdio.h>
#include <string.h>

static uint8_t script[16777217], report[4000000], before[4000000];
static struct lab_told told;

static uint32_t call(int which, size_t length) {
    asked = blocks = 0;
    switch (which) {
    case 0: return lab_rounds(script, length, 200, report, sizeof report, &told);
    case 1: return lab_replay(script, length, report, sizeof report, &told);
    case 2: return lab_check(script, length, report, sizeof report, &told);
    default: return lab_upgrade(script, length, report, sizeof report, &told);
    }
}

int main(int count, char **words) {
    long calls = 0, most = 0;
    memset(before, 0xaa, sizeof before);
    for (int at = 1; at < count; at++) {
        FILE *file = fopen(words[at], "rb");
        size_t length = fread(script, 1, sizeof script, file);
        fclose(file);
        for (int which = 0; which < 4; which++) {
            refused = 0;
            uint32_t status = call(which, length);
            long allocations = asked;
            if (blocks) return printf("%s: %ld blocks left\n", words[at], blocks), 1;
            if (allocations > most) most = allocations;
            for (refused = 1; refused <= allocations; refused++, calls++) {
                memcpy(report, before, sizeof report);
                uint32_t got = call(which, length);
                if (got != 5 && got != status) return printf("%s: status %u for %u\n", words[at], got, status), 1;
                if (got == 5 && (told.written || memcmp(report, before, sizeof report))) return printf("%s: wrote at 5\n", words[at]), 1;
                if (got != 5) printf("%s: call %d, allocation %ld of %ld: status %u\n", words[at], which, refused, allocations, got);
                if (blocks) return printf("%s: %ld blocks left\n", words[at], blocks), 1;
            }
        }
    }
    printf("%ld refused allocations, at most %ld in a call: all as they should be\n", calls, most);
    return 0;
}
