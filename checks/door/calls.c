/* calls.c SCRIPT [LIMIT]: prints the report of a script run in rounds, first asking how much room it takes.
   cc -I include checks/door/calls.c FOLDER/liblabrun.a */
#include "labrun.h"
#include <stdio.h>
#include <stdlib.h>

int main(int count, char **words) {
    if (count < 2) return 70;
    FILE *file = fopen(words[1], "rb");
    if (!file) return 70;
    uint32_t limit = count > 2 ? (uint32_t)atol(words[2]) : 10000;
    uint8_t *script = malloc(16777217);
    size_t length = fread(script, 1, 16777217, file);
    fclose(file);
    struct lab_told told;
    uint8_t none[1];
    uint32_t status = lab_rounds(script, length, limit, none, 0, &told);
    if (status == 6) {
        size_t room = told.written;
        uint8_t *report = malloc(room);
        status = lab_rounds(script, length, limit, report, room, &told);
        fwrite(report, 1, told.written, stdout);
        free(report);
    }
    if (status == 1) fprintf(stderr, "line %zu: cause %u\n", told.line, told.cause);
    free(script);
    return (int)status;
}
