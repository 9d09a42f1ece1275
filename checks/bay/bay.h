/* What the tests of the bay in C have in common: a bay, who asks in it, and what it tells. */
#ifndef BAY_H
#define BAY_H
#include "../door/tests.h"
#include "labrun_bay.h"

#define IS(what) expect((what), "line %d: %s", __LINE__, #what)

#define BAY_HASH "000102030405060708090a0b0c0d0e0f101112131415161718191a1b1c1d1e1f"
#define BAY_HEAD_SUM "8eb4f416f9f7a970"
#define BAY_HEAD BAY_HEAD_SUM " bay " BAY_HASH " 0000000000000000 0000000000000000 0000000000000000\n"

static struct lab_bay bay;
static struct lab_terms terms;
static uint64_t done; /* the serial number that is given back next */

/* Terms of a bay whose hash is the bytes 0 to 31. */
static inline void terms_are(uint64_t line, uint64_t grace, uint64_t disk, uint32_t overtakes, uint32_t keeps) {
    for (unsigned at = 0; at < 32; at++) terms.bay[at] = (uint8_t)at;
    terms.line = line;
    terms.grace = grace;
    terms.disk = disk;
    terms.overtakes = overtakes;
    terms.keeps = keeps;
    done = 0;
}

static inline uint32_t ask_as(uint64_t high, uint64_t low, uint64_t number, uint32_t kind, uint64_t deadline, uint64_t limit, uint64_t now,
                              const uint64_t *sets, size_t count) {
    struct lab_asked asked = {number, {high, low}, deadline, limit, kind, 0};
    return lab_bay_ask(&bay, &asked, sets, count, now);
}

/* Somebody without an owner, who waits and holds for as long as it likes, asks for one set. */
static inline uint32_t ask_one(uint64_t number, uint32_t kind, uint64_t needs, uint64_t now) {
    return ask_as(0, 0, number, kind, LAB_NEVER, LAB_NEVER, now, &needs, 1);
}
#endif
