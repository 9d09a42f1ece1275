/* The bay: who asks, who holds and what they were told, for programs, threads and people that share instruments. A pure machine: it knows no
   clock, no file and no thread. A moment is a number of yours that never falls (say milliseconds), and so is how far your file is on the disk.

   An *ask* wants one of several sets of instruments (bit i of a number for instrument i) and a place of a *class*: a station's own, or one of
   the guests'. It waits in the bay's one line, then it holds, then it is over. Who asks gives it a number, larger than any before; so who is
   interrupted between a call and the note of what it answered has lost nothing. What an ask comes to is *told* by `lab_bay_tell`:

     LAB_HOLDS        it holds the instruments in `needs`. With a journal this is told only once the journal's line that says so is durable
     then one of these, and nothing after it
     LAB_LET_GO       it let go, and the journal's line that says so is durable
     LAB_LAPSED       its deadline was over while it waited
     LAB_NOT_WRITTEN  it came to hold in time, but the journal's line that says so wasn't durable within the bay's time for the disk
     LAB_LIMIT        it held for longer than its limit, and somebody waited for what it had
     LAB_TAKEN        somebody took it away
     LAB_REPLACED     another ask has what it held (no call ends one so now; a journal from before may say it)
     LAB_STOPPED      the bay was stopped while it waited
   (An ask that left is told nothing of it. What comes of one whose client is gone may be told as well: nobody waits for that, so drop it.)

   Whoever comes to hold gets a *token*: a number larger than that of each ask that was let in before it. With a journal it is so over restarts,
   too: larger than that of each ask that was ever told that it holds. (An ask's number isn't that: who asked later may hold earlier.) So a server
   before an instrument can refuse whoever comes with a smaller token than it has seen: somebody who was cut off may not know yet that its
   session is over.

   What holds, whatever the calls: no two asks hold one instrument; whoever was told that it holds goes on to hold, until it lets go, leaves,
   is taken away, or its limit or its grace is over; after each call nobody waits whose instruments are free, kept for nobody who goes
   before it, and for whom there is a place, and nobody waits whose deadline is over; while there is a place for it, an ask is passed at a
   set by at most `overtakes` that came later, and of those that want the same, whoever asked first is served first. Of a journal that is cut
   at any byte at or behind what was durable, each ask that was told that it holds and isn't over comes back, with its owner.

   A whole shell, in any language:

     with your mutex:  call; then pump
     pump:             while lab_bay_tell answers 0, hand what is told to whoever waits for that ask, and give its serial number back in the
                       next lab_bay_tell; if there is text, wake the writer
     writer:           with the mutex lab_bay_journal, without it write and fsync, with it lab_bay_durable and pump; if that fails, lab_bay_failed:
                       the bytes that weren't durable are handed out again, to be written to the same place (or cut the file back before)
     timer:            with the mutex lab_bay_time, and pump; sleep until the moment that it tells
*/
#ifndef LABRUN_BAY_H
#define LABRUN_BAY_H
#include "labrun.h"
#ifdef __cplusplus
extern "C" {
#endif

/* The statuses are those of labrun.h, and these. Of several reasons to refuse an ask the first counts, in
   the order 21, 20, 22, 23, 24, 29, 25, 5: */
#define LAB_BAY_NUMBER 20u     /* the number isn't larger than any before, or it is 18446744073709551615 */
#define LAB_BAY_STOPPED 21u    /* the bay was stopped */
#define LAB_BAY_NO_CLASS 22u   /* there is no such class */
#define LAB_BAY_EMPTY 23u      /* there is no set, or one of them is empty */
#define LAB_BAY_MAY_NOT 24u    /* the class may not use an instrument of one of the sets */
#define LAB_BAY_LINE_FULL 25u  /* the line has no room for so many sets */
#define LAB_BAY_OVER 26u       /* the ask is over, or there never was one with this number */
#define LAB_BAY_ANOTHER 27u    /* the journal is another bay's, or has no whole line */
#define LAB_BAY_UNSOUND 28u    /* a line of the journal isn't sound: it was changed, or isn't in its place */
#define LAB_BAY_OWNER 29u      /* the owner has an ask that isn't over */

/* No moment, no limit: for ever. */
#define LAB_NEVER UINT64_MAX

/* What an ask is told. */
#define LAB_HOLDS 0u
#define LAB_LET_GO 1u
#define LAB_LEFT 2u
#define LAB_LAPSED 3u
#define LAB_NOT_WRITTEN 4u
#define LAB_LIMIT 5u
#define LAB_GRACE 6u
#define LAB_TAKEN 7u
#define LAB_REPLACED 8u
#define LAB_STOPPED 9u
/* of lab_bay_look and lab_bay_keeper alone */
#define LAB_WAITS 10u

/* What C keeps of a bay: all zero before it is opened, as `struct lab_bench`, whose rules are those of this handle. */
struct lab_bay {
    void *at;
    uint64_t live;
};

struct lab_class {
    uint64_t uses;   /* which instruments it may use */
    uint32_t places; /* how many of it hold at once */
    uint32_t unused;
};

struct lab_terms {
    uint8_t bay[32];    /* which bay it is: a hash of what people call its instruments and stations, say */
    uint64_t line;      /* for how many sets there is room in line */
    uint64_t grace;     /* how long what is held is kept once its client is gone, or LAB_NEVER */
    uint64_t disk;      /* how long a hold may wait for the disk, and always until its deadline; or LAB_NEVER */
    uint32_t overtakes; /* how often an ask may be passed at a set (docs/BAY.md, *Who is let in*) */
    uint32_t keeps;     /* 1: the bay keeps a journal; 0: it doesn't, and nothing waits for one */
};

struct lab_asked {
    uint64_t number;
    uint64_t owner[2]; /* who may come back for it: 128 bits of the hash of a ticket, the high ones first; two zeros: nobody */
    uint64_t deadline; /* until when it waits, or LAB_NEVER */
    uint64_t limit;    /* how long it may hold while somebody waits for what it has, or LAB_NEVER */
    uint32_t kind;     /* its class, counted from 0 */
    uint32_t urgent;   /* 1: it is urgent; 0: it isn't */
};

struct lab_outcome {
    uint64_t serial; /* from 1; to be given back */
    uint64_t number; /* of the ask */
    uint64_t needs;  /* of LAB_HOLDS: the instruments that it holds */
    uint64_t token;  /* of LAB_HOLDS: its token, from 1 */
    uint32_t what;   /* LAB_HOLDS, or how it is over */
    uint32_t unused;
};

struct lab_standing {
    uint64_t number;
    uint64_t owner[2];
    uint64_t needs; /* the instruments that it holds; none if it doesn't hold */
    uint64_t since; /* since when it asks, then since when it holds, and then since when it is over */
    uint64_t token; /* its token, from when it was let in on; 0 if it never was */
    uint32_t kind;  /* its class */
    uint32_t what;  /* LAB_HOLDS, LAB_WAITS, or how it is over */
};

/* Opens a bay in which nobody is, with so many classes (32 at most). 0; 5; 11; 22 if there are more. */
uint32_t lab_bay_open(const struct lab_class *classes, size_t count, const struct lab_terms *terms, struct lab_bay *bay);

/* Opens the bay that a journal tells of, as far as it has whole lines: just those hold that held by its lines, and their clients are gone since
   `now`. `*used` is how many bytes these lines have: cut the file there before you write on. 0; 5; 11; 22; 24 if an ask that held may not, by
   other classes, say (`*fault` is its number); 27; 28 with `*fault` as the line, counted from 1. */
uint32_t lab_bay_resume(const struct lab_class *classes, size_t count, const struct lab_terms *terms, const uint8_t *journal, size_t length,
                        uint64_t now, struct lab_bay *bay, size_t *used, uint64_t *fault);

/* Somebody asks for one of these sets, whichever is free first (if several are: the first of them). If it is urgent, nobody that asks later goes
   before it while it waits, nor before anybody that stands in line with it. It goes before none of these itself. 0; 5; 7; 20 to 25; 29. */
uint32_t lab_bay_ask(struct lab_bay *bay, const struct lab_asked *asked, const uint64_t *sets, size_t count, uint64_t now);

/* An ask that holds lets go. 0; 7; 8 if it waits; 26. */
uint32_t lab_bay_let_go(struct lab_bay *bay, uint64_t number, uint64_t now);

/* Nobody is there for the ask any more, whatever it is at: it leaves the line, or lets go, and is told nothing of that. (Of one that is over it
   changes nothing.) 0; 7. */
uint32_t lab_bay_leave(struct lab_bay *bay, uint64_t number, uint64_t now);

/* Somebody takes away what an ask holds. It is told at once; it is so for good once all that was given is durable. 0; 7; 8 if it waits; 26. */
uint32_t lab_bay_take_away(struct lab_bay *bay, uint64_t number, uint64_t now);

/* The client of an ask is gone, from now on: what it holds is kept for the bay's grace. (Of one that waits, call `lab_bay_leave`.) 0; 7. */
uint32_t lab_bay_gone(struct lab_bay *bay, uint64_t number, uint64_t now);

/* The client of an ask is there again; `*needs` is what it holds. The owner has to be the one that asked, the high 64 bits first. 0; 7; 26. */
uint32_t lab_bay_back(struct lab_bay *bay, uint64_t number, uint64_t owner_high, uint64_t owner_low, uint64_t now, uint64_t *needs);

/* It is this moment. `*next` is the next moment at which something is due, or LAB_NEVER. 0; 7. */
uint32_t lab_bay_time(struct lab_bay *bay, uint64_t now, uint64_t *next);

/* Nobody is let in any more, and nobody may ask: whoever waits is told LAB_STOPPED. 0; 7. */
uint32_t lab_bay_stop(struct lab_bay *bay, uint64_t now);

/* Whoever holds, and was told so, notes something: at most 500 bytes, no line feed or carriage return. It is so once what was given is durable
   up to `*position`. 0; 5; 7; 8 if it doesn't hold or wasn't told yet; 24 for another text. */
uint32_t lab_bay_note(struct lab_bay *bay, uint64_t number, const uint8_t *text, size_t length, uint64_t *position);

/* Hands out what is to be written and wasn't handed out yet, and how long the journal is behind it. 0, also with nothing; 5; 6 with `written`, and
   nothing is handed out; 7. */
uint32_t lab_bay_journal(struct lab_bay *bay, uint8_t *text, size_t room, size_t *written, uint64_t *position);

/* The journal is durable up to there. (What wasn't handed out isn't, however large the position.) 0; 7. */
uint32_t lab_bay_durable(struct lab_bay *bay, uint64_t position);

/* A write failed, and the file was cut back to what is durable: the rest is handed out again by `lab_bay_journal`. 0; 7. */
uint32_t lab_bay_failed(struct lab_bay *bay);

/* The bay goes on in a new file, and from now on with these classes. Hands out how the new file begins: its head, and a line for each that holds. Write
   that into a file of its own, behind it all that lab_bay_journal hands out from now on, and call none of it durable before that file stands, synced, in the
   place of the old one: until then the old one says the same of who holds. Only while nothing is owed and all that was given is durable: 8 otherwise.
   (Without a journal the text is empty, and only the classes change.) 0; 5; 6 with `written`, 7; 8; 22 if there are more than 32 classes; 24 if an ask that
   holds or waits may not, by these classes (`*fault` is its number). If it isn't 0, nothing has changed. */
uint32_t lab_bay_turn(struct lab_bay *bay, const struct lab_class *classes, size_t count, uint64_t now, uint8_t *text, size_t room, size_t *written,
                      uint64_t *fault);

/* What is told next, and to whom. It is told again until its serial number is given back as `done` (at first 0). 0; 8 if there is nothing; 7. */
uint32_t lab_bay_tell(struct lab_bay *bay, uint64_t done, struct lab_outcome *outcome);

/* How the ask at this place of the bay's book stands, counted from 0: so a shell knows who came back from the journal, for one. `*next` is the least
   number that the next ask may have. An ask that is over is in the book until it was told so. 0; 7; 8 if there is none, and `*next` is told. */
uint32_t lab_bay_look(struct lab_bay *bay, size_t place, struct lab_standing *standing, uint64_t *next);

/* Who keeps this instrument from the ask with this number, and how it stands: whoever holds it; or else the first in line for which it is kept from
   that ask. The ask needn't be in the bay any more: it may just have lapsed. From one that isn't in line it is kept for those alone that asked
   before. 0; 7; 8 if nobody keeps it, or there is no such instrument. */
uint32_t lab_bay_keeper(struct lab_bay *bay, uint64_t number, uint32_t instrument, struct lab_standing *keeper);

/* The instruments of a set that an ask waits for, and how often it was passed there; as often as may be, once it or one that asked after it is
   urgent. Its sets are counted from 0, as it asked for them. 0; 7; 8 if it doesn't wait, or asked for no such set. */
uint32_t lab_bay_waits(struct lab_bay *bay, uint64_t number, size_t set, uint64_t *needs, uint32_t *passed);

/* Frees the bay. The handle is empty then. 0; 7. */
uint32_t lab_bay_free(struct lab_bay *bay);

#ifdef __cplusplus
}
#endif
#endif
