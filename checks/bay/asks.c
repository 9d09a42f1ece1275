/* asks.c: many asks by 64 clients of 32 classes at 64 instruments, with a journal that is taken all along, and whose writes fail now and then.

     cc -O2 -I include checks/bay/asks.c FOLDER/liblabrun.a -Wl,--wrap=malloc -Wl,--wrap=realloc -Wl,--wrap=free -o asks
     ./asks ASKS

   A table outside says who has each instrument: from being told that it holds, until being told that it let go, or having left. Another says
   the same of the lines that are on the disk, and nobody is told that it holds without standing there. Each ask is told just once that it holds,
   or left while it waited. What the library has in memory is counted. Up to 100000 asks the whole file is kept, and a bay comes back from
   it ten times: with just those that hold by its lines. */
#define _GNU_SOURCE
#include "bay.h"
#include <malloc.h>
#include <time.h>

#define CLIENTS 64
#define CLASSES 32
#define INSTRUMENTS 64
#define MOST_KEPT 100000
#define MOST_BYTES_HELD 100000

static long held, peak;
static int counts;

void *__real_malloc(size_t), *__real_realloc(void *, size_t);
void __real_free(void *);

static void *counted(void *block) {
    if (counts && block) held += (long)malloc_usable_size(block);
    if (held > peak) peak = held;
    return block;
}

void *__wrap_malloc(size_t size) { return counted(__real_malloc(size)); }

void *__wrap_realloc(void *old, size_t size) {
    if (counts && old) held -= (long)malloc_usable_size(old);
    return counted(__real_realloc(old, size));
}

void __wrap_free(void *old) {
    if (counts && old) held -= (long)malloc_usable_size(old);
    __real_free(old);
}

enum stage { IDLE, WAITS, HOLDS, ENDS };

struct client {
    enum stage stage;
    uint64_t number, needs, sets[3];
    size_t count;
};

static struct client clients[CLIENTS];
static struct lab_class classes[CLASSES];
static uint64_t has[INSTRUMENTS];     /* which ask has an instrument, 0: none */
static uint64_t has_by_file[INSTRUMENTS];
static uint64_t number, asks_made, holds_told, ends_told, let_gos, left_waiting, left_holding, lines, failures;
static uint8_t *file;
static size_t file_room;
static uint32_t seed = 1;

static uint32_t chance(uint32_t below) {
    seed = seed * 1664525u + 1013904223u;
    return (seed >> 8) % below;
}

static void put(uint64_t *table, uint64_t needs, uint64_t from, uint64_t to) {
    int so = 1;
    for (int at = 0; at < INSTRUMENTS; at++)
        if (needs >> at & 1) {
            so &= table[at] == from;
            table[at] = to;
        }
    expect(so, "ask %llu: an instrument had another owner", (unsigned long long)(to ? to : from));
}

/* (the client is in the number) */
static struct client *client_of(uint64_t ask) { return &clients[ask % CLIENTS]; }

static void asks(struct client *client) {
    uint32_t me = (uint32_t)(client - clients), kind = me % CLASSES;
    number += CLIENTS;
    client->number = number - number % CLIENTS + me;
    client->count = chance(4) == 0 ? 2 + chance(2) : 1;
    client->stage = WAITS;
    for (size_t set = 0; set < client->count; set++) {
        client->sets[set] = 0;
        for (uint32_t left = 1 + chance(3); left; left--) client->sets[set] |= (uint64_t)1 << chance(INSTRUMENTS);
    }
    asks_made++;
    IS(ask_as(client->number, me, client->number, kind, LAB_NEVER, LAB_NEVER, asks_made, client->sets, client->count) == LAB_DONE);
}

static void acts(struct client *client) {
    uint64_t position;
    if (client->stage == IDLE) {
        asks(client);
    } else if (client->stage == WAITS) {
        if (chance(64)) return;
        IS(lab_bay_leave(&bay, client->number, asks_made) == LAB_DONE);
        client->stage = IDLE;
        left_waiting++;
    } else if (client->stage == HOLDS) {
        uint32_t what = chance(64);
        if (what == 0) {
            IS(lab_bay_leave(&bay, client->number, asks_made) == LAB_DONE);
            put(has, client->needs, client->number, 0);
            client->stage = IDLE;
            left_holding++;
        } else if (what < 4) {
            IS(lab_bay_note(&bay, client->number, (const uint8_t *)"a note", 6, &position) == LAB_DONE);
        } else if (what < 40) {
            IS(lab_bay_let_go(&bay, client->number, asks_made) == LAB_DONE);
            client->stage = ENDS;
            let_gos++;
        }
    }
}

static void tells(void) {
    struct lab_outcome outcome;
    while (lab_bay_tell(&bay, done, &outcome) == LAB_DONE) {
        struct client *client = client_of(outcome.number);
        done = outcome.serial;
        if (!expect(client->number == outcome.number, "ask %llu: told of another one", (unsigned long long)outcome.number)) continue;
        if (outcome.what == LAB_HOLDS) {
            int is_one = 0, by_file = 1;
            for (size_t set = 0; set < client->count; set++) is_one |= outcome.needs == client->sets[set];
            for (int at = 0; at < INSTRUMENTS; at++) by_file &= !(outcome.needs >> at & 1) || has_by_file[at] == outcome.number;
            expect(client->stage == WAITS && is_one && by_file, "ask %llu: holds", (unsigned long long)outcome.number);
            client->stage = HOLDS;
            client->needs = outcome.needs;
            put(has, client->needs, 0, client->number);
            holds_told++;
        } else {
            expect(client->stage == ENDS && outcome.what == LAB_LET_GO, "ask %llu: %u", (unsigned long long)outcome.number, outcome.what);
            client->stage = IDLE;
            put(has, client->needs, client->number, 0);
            ends_told++;
        }
    }
}

static uint64_t hex(const char *digits, int count) {
    char text[17] = {0};
    memcpy(text, digits, (size_t)count);
    return strtoull(text, NULL, 16);
}

static void read_line(const char *text) {
    lines++;
    if (memcmp(text + 17, "hold ", 5) == 0) {
        put(has_by_file, hex(text + 48, 16), 0, hex(text + 22, 16));
    } else if (memcmp(text + 17, "end ", 4) == 0) {
        uint64_t ask = hex(text + 21, 16);
        int found = 0;
        for (int at = 0; at < INSTRUMENTS; at++)
            if (has_by_file[at] == ask) {
                has_by_file[at] = 0;
                found = 1;
            }
        expect(found, "ask %llu: its end is written, and it holds nothing by the file", (unsigned long long)ask);
    }
}

/* The bytes from `read_to` on that were handed out; `durable_to` is somewhere in them, in the midst of a line perhaps. */
static uint8_t tail[400000];
static size_t tail_length;
static uint64_t read_to, durable_to;

/* The lines that are wholly on the disk are read. */
static void read_lines(void) {
    const uint8_t *feed;
    size_t from = 0, to = (size_t)(durable_to - read_to);
    while ((feed = memchr(tail + from, '\n', to - from)) != NULL) {
        read_line((const char *)tail + from);
        from = (size_t)(feed - tail) + 1;
    }
    if (file && read_to + tail_length <= file_room) memcpy(file + read_to, tail, tail_length);
    memmove(tail, tail + from, tail_length -= from);
    read_to += from;
}

static void writes(int all) {
    static uint8_t text[400000];
    size_t written = 0, from = tail_length;
    uint64_t position = 0;
    if (chance(16) == 0) {
        failures++;
        IS(lab_bay_failed(&bay) == LAB_DONE);
        from = (size_t)(durable_to - read_to);
    }
    IS(lab_bay_journal(&bay, text, sizeof text, &written, &position) == LAB_DONE);
    IS(from + written >= tail_length && memcmp(text, tail + from, tail_length - from) == 0); /* (the same bytes again) */
    if (from + written > sizeof tail) exit(70);
    memcpy(tail + from, text, written);
    tail_length = from + written;
    if (!IS(position == read_to + tail_length)) exit(summary()); /* (what is handed out after that can't be told) */
    durable_to = all || chance(3) ? position : durable_to + chance((uint32_t)(position - durable_to) + 1);
    IS(lab_bay_durable(&bay, durable_to) == LAB_DONE);
    read_lines();
}

/* A bay comes back from what is on the disk: each ask that was told that it holds is there, and nobody but who holds by the file. */
static void comes_back(void) {
    struct lab_bay other = {0};
    size_t used = 0;
    uint64_t fault = 0, needs = 0;
    IS(durable_to <= file_room);
    IS(lab_bay_resume(classes, CLASSES, &terms, file, (size_t)durable_to, asks_made, &other, &used, &fault) == LAB_DONE && used == read_to);
    for (uint64_t me = 0; me < CLIENTS; me++) {
        struct client *client = &clients[me];
        uint64_t by_file = 0;
        for (int at = 0; at < INSTRUMENTS; at++) by_file |= (uint64_t)(client->number && has_by_file[at] == client->number) << at;
        uint32_t status = lab_bay_back(&other, client->number, client->number, me, asks_made, &needs);
        expect(status == (by_file ? LAB_DONE : LAB_BAY_OVER) && (!by_file || needs == by_file), "ask %llu comes back: status %u",
               (unsigned long long)client->number, status);
        expect(client->stage != HOLDS || by_file == client->needs, "ask %llu was told that it holds", (unsigned long long)client->number);
    }
    IS(lab_bay_free(&other) == LAB_DONE);
}

int main(int words, char **word) {
    uint64_t wanted = words > 1 ? strtoull(word[1], NULL, 10) : 20000, tenth = wanted / 10, next = tenth;
    long peak_of_a_tenth = 0;
    struct timespec begin, end;
    clock_gettime(CLOCK_MONOTONIC, &begin);
    for (uint32_t at = 0; at < CLASSES; at++) classes[at] = (struct lab_class){UINT64_MAX, 1 + at % 2, 0}; /* (two clients each) */
    if (wanted <= MOST_KEPT) {
        file_room = (size_t)wanted * 250 + 10000;
        file = malloc(file_room);
        if (!file) return 70;
    }
    terms_are(CLIENTS * 3, LAB_NEVER, LAB_NEVER, 64, 1);
    counts = 1;
    IS(lab_bay_open(classes, CLASSES, &terms, &bay) == LAB_DONE);
    while (asks_made < wanted) {
        acts(&clients[chance(CLIENTS)]);
        if (chance(4) == 0) writes(0);
        tells();
        if (asks_made < next) continue;
        if (next == tenth) peak_of_a_tenth = peak;
        counts = 0;
        if (file) comes_back();
        counts = 1;
        next += tenth;
    }
    for (int busy = 1, turns = 0; busy && turns < 1000; turns++) {
        writes(1);
        tells();
        busy = 0;
        for (int me = 0; me < CLIENTS; me++) {
            if (clients[me].stage != IDLE) busy = 1;
            if (clients[me].stage != HOLDS) continue;
            IS(lab_bay_let_go(&bay, clients[me].number, asks_made) == LAB_DONE);
            clients[me].stage = ENDS;
            let_gos++;
        }
    }
    for (int me = 0; me < CLIENTS; me++) expect(clients[me].stage == IDLE, "client %d is at %d", me, (int)clients[me].stage);
    for (int at = 0; at < INSTRUMENTS; at++) expect(has[at] == 0 && has_by_file[at] == 0, "instrument %d is in use at the end", at);
    IS(holds_told + left_waiting == asks_made && ends_told == let_gos && let_gos + left_holding == holds_told);
    IS(lab_bay_free(&bay) == LAB_DONE);
    counts = 0;
    expect(held == 0, "%ld bytes are left", held);
    expect(peak < MOST_BYTES_HELD, "%ld bytes of memory at most", peak);
    clock_gettime(CLOCK_MONOTONIC, &end);
    double seconds = (double)(end.tv_sec - begin.tv_sec) + (double)(end.tv_nsec - begin.tv_nsec) * 1e-9;
    printf("%llu asks: %llu told that they hold, %llu that they let go; %llu left in line, %llu while they held; %llu writes failed\n",
           (unsigned long long)asks_made, (unsigned long long)holds_told, (unsigned long long)ends_told, (unsigned long long)left_waiting,
           (unsigned long long)left_holding, (unsigned long long)failures);
    printf("%llu lines, %llu bytes; the library had %ld bytes of memory at most, %ld in the first tenth; %.1f seconds\n", (unsigned long long)lines,
           (unsigned long long)read_to, peak, peak_of_a_tenth, seconds);
    expect(seconds < 60, "it took %.1f seconds", seconds);
    free(file);
    return summary();
}
