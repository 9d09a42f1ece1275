/* Many sessions by threads over the shell in C (examples/broker/bay.c, as it is there), at instruments that count a second client.

     cc -O2 -pthread -I include checks/bay/soak.c FOLDER/liblabrun.a -o soak
     ./soak SESSIONS [THREADS [JOURNAL]]     so many sessions (20000) that came to hold, by so many threads (32, at most), each of one to three
                                             of 20 instruments or of one of two such sets; JOURNAL is a file that isn't there yet

   Whoever holds goes to its instruments one by one, and each refuses whoever comes while another is there. One session of eight has a time
   limit of at most two milliseconds, some are left by a client that is gone, and some hang until an operator takes them away. The status is 0 if
   nobody was refused, each session ended as it should, nobody is left in the bay, and by the journal nobody holds. */
#define main main_of_the_shell
#include "../../examples/broker/bay.c"
#undef main
#include <sched.h>
#include <stdatomic.h>

#define DIALS 20

struct client {
    struct asker *asker;
    unsigned seed;
    long held, let_go, left, taken, in_vain, talks, refused, strange;
    pthread_t thread;
};

static struct client clients[MOST];
static atomic_int at_dial[DIALS]; /* the clients of each instrument now */
static atomic_long wanted;
static uint64_t hanging[MOST]; /* the asks that hang, by their clients; or 0 */
static int is_over;
static pthread_cond_t operator_looks = PTHREAD_COND_INITIALIZER;

static uint32_t chance(struct client *me, uint32_t below) { return (uint32_t)rand_r(&me->seed) % below; }

static uint64_t some(struct client *me) {
    uint64_t set = 0;
    for (uint32_t left = 1 + chance(me, 3); left; left--) set |= (uint64_t)1 << chance(me, DIALS);
    return set;
}

static void talks(struct client *me, uint64_t needs) {
    for (uint32_t at = 0; at < DIALS; at++)
        if (needs >> at & 1) me->refused += atomic_fetch_add(&at_dial[at], 1) != 0, me->talks++;
    if (chance(me, 8) == 0) sched_yield();
    for (uint32_t at = 0; at < DIALS; at++)
        if (needs >> at & 1) atomic_fetch_sub(&at_dial[at], 1);
}

/* Until somebody has taken it away. */
static void hangs(struct client *me) {
    size_t at = (size_t)(me - clients);
    pthread_mutex_lock(&mutex);
    hanging[at] = me->asker->number;
    pthread_cond_signal(&operator_looks);
    while (me->asker->what == LAB_HOLDS) pthread_cond_wait(&me->asker->is_told, &mutex);
    me->strange += me->asker->what != LAB_TAKEN;
    pthread_mutex_unlock(&mutex);
    me->taken++;
}

static void *operator(void *given) {
    pthread_mutex_lock(&mutex);
    while (!is_over) {
        for (size_t at = 0; at < MOST; at++)
            if (hanging[at]) {
                must(lab_bay_take_away(&bay, hanging[at], now()), "take away");
                hanging[at] = 0;
                pump();
            }
        pthread_cond_wait(&operator_looks, &mutex);
    }
    pthread_mutex_unlock(&mutex);
    return given;
}

/* It is gone, and lets go by that; nobody is told. */
static void leaves(struct client *me) {
    pthread_mutex_lock(&mutex);
    must(lab_bay_leave(&bay, me->asker->number, now()), "leave");
    pump();
    pthread_mutex_unlock(&mutex);
    me->left++;
}

static void *works(void *given) {
    struct client *me = given;
    while (atomic_load(&wanted) > 0) {
        uint64_t sets[2] = {some(me), some(me)};
        uint64_t deadline = chance(me, 8) ? LAB_NEVER : now() + chance(me, 3);
        uint64_t needs = hold(me->asker, sets, chance(me, 3) ? 1 : 2, deadline);
        if (!needs) {
            me->in_vain++;
            me->strange += me->asker->what != LAB_LAPSED && me->asker->what != LAB_NOT_WRITTEN;
            continue;
        }
        me->strange += needs != sets[0] && needs != sets[1];
        me->held++;
        atomic_fetch_sub(&wanted, 1);
        talks(me, needs);
        uint32_t how = chance(me, 128);
        if (how == 0) hangs(me);
        else if (how == 1) leaves(me);
        else let_go(me->asker), me->strange += me->asker->what != LAB_LET_GO, me->let_go++;
    }
    return NULL;
}

static void starts(pthread_t *thread, void *(*does)(void *), void *given) {
    if (pthread_create(thread, NULL, does, given)) fails("a thread", strerror(errno));
}

/* Nobody is in the bay any more. (What is told of those that left was told.) */
static int is_empty(struct lab_bay *it) {
    struct lab_standing standing;
    uint64_t next;
    return lab_bay_look(it, 0, &standing, &next) == LAB_NOT_YET;
}

static int is_empty_by_the_journal(const char *path, const struct lab_class *all, const struct lab_terms *terms) {
    struct lab_bay other = {0};
    struct shell_file again;
    size_t length, used;
    uint64_t fault;
    close(file.file);
    char *text = file_open(&again, path, &length);
    uint32_t status = lab_bay_resume(all, 1, terms, (const uint8_t *)text, length, now(), &other, &used, &fault);
    int is_so = status == LAB_DONE && used == length && is_empty(&other);
    printf("%zu bytes of journal, status %" PRIu32 "\n", length, status);
    if (status == LAB_DONE) lab_bay_free(&other);
    free(text);
    return is_so;
}

int main(int count, char **words) {
    struct lab_class all = {.uses = (1u << DIALS) - 1, .places = 24};
    struct lab_terms terms = {.bay = "twenty dials of soak.c", .line = 2 * MOST, .grace = 10000, .disk = 10000, .overtakes = 16};
    struct client sum = {0};
    const char *journal = count > 3 ? words[3] : NULL;
    pthread_t writes, times, operates;
    uint64_t begun = now();
    atomic_store(&wanted, count > 1 ? atol(words[1]) : 20000);
    asker_count = count > 2 ? (uint32_t)atoi(words[2]) : MOST;
    if (asker_count < 1 || asker_count > MOST) return fputs("soak SESSIONS [THREADS [JOURNAL]]\n", stderr), 2;
    terms.keeps = journal != NULL;
    if (journal) free(open_bay(journal, &all, 1, &terms));
    else must(lab_bay_open(&all, 1, &terms, &bay), "open");
    for (uint32_t at = 0; at < asker_count; at++) {
        clients[at] = (struct client){.asker = &askers[at], .seed = at + 1};
        pthread_cond_init(&askers[at].is_told, NULL);
    }
    if (journal) starts(&writes, writer, NULL);
    starts(&times, timer, NULL);
    starts(&operates, operator, NULL);
    for (uint32_t at = 0; at < asker_count; at++) starts(&clients[at].thread, works, &clients[at]);
    for (uint32_t at = 0; at < asker_count; at++) {
        struct client *it = &clients[at];
        pthread_join(it->thread, NULL);
        sum.held += it->held, sum.let_go += it->let_go, sum.left += it->left, sum.taken += it->taken;
        sum.in_vain += it->in_vain, sum.talks += it->talks, sum.refused += it->refused, sum.strange += it->strange;
    }
    pthread_mutex_lock(&mutex);
    is_over = is_closing = 1;
    pthread_cond_signal(&writer_looks);
    pthread_cond_signal(&timer_looks);
    pthread_cond_signal(&operator_looks);
    pthread_mutex_unlock(&mutex);
    if (journal) pthread_join(writes, NULL);
    pthread_join(times, NULL);
    pthread_join(operates, NULL);
    int is_sound = is_empty(&bay) && (!journal || is_empty_by_the_journal(journal, &all, &terms));
    lab_bay_free(&bay);
    printf("%ld sessions by %" PRIu32 " threads in %.1f s: %ld let go, %ld left, %ld taken away; %ld asks in vain; %ld talks, %ld refused\n",
           sum.held, asker_count, (double)(now() - begun) / 1000, sum.let_go, sum.left, sum.taken, sum.in_vain, sum.talks, sum.refused);
    if (sum.strange || !is_sound) printf("%ld ended in another way; %s\n", sum.strange, is_sound ? "nobody is left" : "somebody is left");
    return sum.refused || sum.strange || !is_sound || sum.held != sum.let_go + sum.left + sum.taken;
}
