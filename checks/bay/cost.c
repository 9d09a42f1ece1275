/* cost.c: sessions at a bay in a steady state, to be counted by callgrind: what a session costs in instructions of the library.

     cc -O2 -I include checks/bay/cost.c FOLDER/liblabrun.a -o cost
     ./cost SHAPE CLIENTS CLASSES KEEPS SESSIONS
                                      SHAPE: disjoint (an instrument each), ring (one's own and the next one's), one (all the same);
                                      CLASSES: each, with a place of its own for each client, or all, with one class that has a place for each;
                                      KEEPS: 0 without a journal, 1 with one that is taken after each change and durable at once
     ./cost lab SHAPE CLIENTS SESSIONS        the same at a lab of one handle: lab_add, lab_settle and lab_end, without a journal
     ./cost journal SESSIONS FILE             writes the journal of so many sessions
     ./cost resume FILE                       a bay comes back from it; prints the time

   A client asks again as soon as it was told that it let go; so of 32 at one instrument 31 always wait. Whoever holds for longest lets go.
   checks/bay/cost counts. */
#define _POSIX_C_SOURCE 199309L
#include "bay.h"
#include <time.h>

#define MOST 32

static struct lab_class classes[MOST];
static uint64_t needs[MOST], number, position;
static uint64_t line[MOST]; /* who holds, whoever holds for longest first */
static uint32_t clients, classes_used, keeps, first, count;
static uint8_t text[1 << 20];
static FILE *file;

static void must(uint32_t status) {
    if (status == LAB_DONE) return;
    fprintf(stderr, "status %u\n", status);
    exit(70);
}

static void asks(uint32_t client) {
    number = number - number % MOST + MOST + client;
    must(ask_as(0, number, number, client % classes_used, LAB_NEVER, LAB_NEVER, 0, &needs[client], 1));
}

static void writes(void) {
    size_t written;
    if (!keeps) return;
    must(lab_bay_journal(&bay, text, sizeof text, &written, &position));
    if (file && fwrite(text, 1, written, file) != written) exit(70);
    must(lab_bay_durable(&bay, position));
}

/* All that is told; how many clients let go. */
static void tells(void) {
    struct lab_outcome outcome;
    uint32_t over[MOST], ends = 0;
    for (;;) {
        while (lab_bay_tell(&bay, done, &outcome) == LAB_DONE) {
            done = outcome.serial;
            if (outcome.what == LAB_HOLDS) line[(first + count++) % MOST] = outcome.number;
            else over[ends++] = (uint32_t)(outcome.number % MOST);
        }
        if (!ends) return;
        while (ends) asks(over[--ends]);
        writes();
    }
}

static void session(void) {
    if (!count) exit(70);
    uint64_t ends = line[first];
    first = (first + 1) % MOST;
    count--;
    must(lab_bay_let_go(&bay, ends, 0));
    writes();
    tells();
}

static void sessions(const char *shape, long how_many) {
    terms_are(MOST, LAB_NEVER, LAB_NEVER, 64, keeps);
    for (uint32_t at = 0; at < clients; at++) {
        uint64_t own = (uint64_t)1 << at;
        needs[at] = *shape == 'd' ? own : *shape == 'r' ? own | (uint64_t)1 << (at + 1) % clients : 1;
        classes[at] = (struct lab_class){classes_used == 1 ? UINT64_MAX : needs[at], classes_used == 1 ? clients : 1, 0};
    }
    must(lab_bay_open(classes, classes_used, &terms, &bay));
    for (uint32_t at = 0; at < clients; at++) asks(at);
    writes();
    tells();
    for (long at = 0; at < how_many; at++) session();
}

/* ---- a lab of one handle */

static struct lab_bench lab;
static uint32_t waiting;
static char adding[MOST][64];

static void lab_asks(uint32_t client) {
    struct lab_told told;
    must(lab_add(&lab, client, (const uint8_t *)adding[client], strlen(adding[client]), &told));
    waiting |= (uint32_t)1 << client;
}

static void lab_settles(void) {
    struct lab_came came;
    must(lab_settle(&lab, waiting, &came));
    waiting &= ~came.holds;
    for (uint32_t client = 0; client < clients; client++)
        if (came.holds >> client & 1) line[(first + count++) % MOST] = client;
}

static void lab_sessions(const char *shape, long how_many) {
    static char script[MOST * 40];
    struct lab_told told;
    size_t length = (size_t)sprintf(script, "bench 1\n");
    for (uint32_t at = 0; at < clients; at++) {
        uint32_t own = *shape == 'o' ? 0 : at, next = (at + 1) % clients;
        char more[24] = "";
        length += (size_t)sprintf(script + length, "job j%u\nuses i%u", at, own);
        if (*shape == 'r') length += (size_t)sprintf(script + length, " i%u", next), sprintf(more, "i%u read\n", next);
        script[length++] = '\n';
        sprintf(adding[at], "session\ni%u read\n%send\n", own, more);
    }
    must(lab_bench_open((const uint8_t *)script, length, &lab, &told));
    for (uint32_t at = 0; at < clients; at++) lab_asks(at);
    lab_settles();
    for (long at = 0; at < how_many; at++) {
        if (!count) exit(70);
        uint32_t client = (uint32_t)line[first];
        first = (first + 1) % MOST;
        count--;
        struct lab_turned turned;
        must(lab_end(&lab, client, &turned));
        lab_asks(client);
        lab_settles();
    }
}

static double seconds(void) {
    struct timespec time;
    clock_gettime(CLOCK_MONOTONIC, &time);
    return (double)time.tv_sec + (double)time.tv_nsec * 1e-9;
}

static int resumes(const char *path) {
    FILE *from = fopen(path, "rb");
    static uint8_t bytes[64000000];
    size_t used, length = from ? fread(bytes, 1, sizeof bytes, from) : 0;
    uint64_t fault;
    for (uint32_t at = 0; at < MOST; at++) classes[at] = (struct lab_class){UINT64_MAX, 1, 0};
    terms_are(MOST, LAB_NEVER, LAB_NEVER, 64, 1);
    double begin = seconds();
    must(lab_bay_resume(classes, MOST, &terms, bytes, length, 0, &bay, &used, &fault));
    printf("%zu of %zu bytes in %.3f seconds\n", used, length, seconds() - begin);
    return used != length;
}

int main(int words, char **word) {
    if (words == 3 && strcmp(word[1], "resume") == 0) return resumes(word[2]);
    if (words == 4 && strcmp(word[1], "journal") == 0) {
        keeps = 1;
        clients = classes_used = 8;
        file = fopen(word[3], "wb");
        if (!file) return 70;
        sessions("disjoint", atol(word[2]));
        return fclose(file) != 0;
    }
    if (words == 5 && strcmp(word[1], "lab") == 0) {
        clients = (uint32_t)atol(word[3]);
        if (clients < 1 || clients > MOST) return 2;
        lab_sessions(word[2], atol(word[4]));
        return 0;
    }
    if (words != 6) return 2;
    clients = (uint32_t)atol(word[2]);
    classes_used = strcmp(word[3], "each") == 0 ? clients : 1;
    keeps = (uint32_t)atol(word[4]);
    if (clients < 1 || clients > MOST) return 2;
    sessions(word[1], atol(word[5]));
    return 0;
}
