/* A broker with a journal, to be killed (checks/journal/kills).

     cc -O2 -pthread -I include checks/journal/broker.c FOLDER/liblabrun.a -o broker
     ./broker SCRIPT JOURNAL WORK REPORT SYNC NAME=PORT ..      the instruments are those of examples/broker/instruments.py

   It writes lines to standard output, `opens` and `open`; and to WORK, as it comes: `begin J N` or `resume J N` once session N of job J holds,
   `end J N` before it lets go, `over J N` behind that. At the end the report is in REPORT. */
#define _DEFAULT_SOURCE
#include "../../examples/broker/journal.h"
#include <arpa/inet.h>
#include <netinet/tcp.h>
#include <sys/socket.h>

#define MOST 32

static struct lab_bench bench;
static struct journal journal;
static pthread_mutex_t mutex = PTHREAD_MUTEX_INITIALIZER;
static pthread_cond_t came[MOST];
static uint32_t waiting, resumed; /* the jobs that wait; those whose session held when the bench was opened */
static int told, ports[56];

static void stop(const char *why) {
    perror(why);
    exit(70);
}

static void tell(const char *what, const char *job, uint32_t session) {
    char line[64];
    int length = snprintf(line, sizeof line, "%s %s %u\n", what, job, session);
    if (write(told, line, (size_t)length) != length) stop("tell");
}

/* ---- an instrument: a line is answered by a line */

static int answered(int to, const char *wanted) {
    char line[64];
    size_t length = 0;
    while (length < sizeof line && recv(to, line + length, 1, 0) == 1)
        if (line[length++] == '\n') return !strncmp(line, wanted, strlen(wanted));
    return 0;
}

static int talk(int port) {
    struct sockaddr_in address = {.sin_family = AF_INET, .sin_port = htons((uint16_t)port), .sin_addr.s_addr = htonl(INADDR_LOOPBACK)};
    int to = socket(AF_INET, SOCK_STREAM, 0), on = 1;
    if (to < 0 || connect(to, (struct sockaddr *)&address, sizeof address)) stop("connect");
    setsockopt(to, IPPROTO_TCP, TCP_NODELAY, &on, sizeof on);
    if (!answered(to, "READY")) exit(71); /* it has another client, and has counted this one */
    return to;
}

static void say(int to, const char *line) {
    if (send(to, line, strlen(line), MSG_NOSIGNAL) < 0 || !answered(to, "OK")) stop("say");
}

/* ---- a station */

/* All that can be done is done, and those are woken whom that concerns. The mutex is held. */
static void settle(struct lab_came *all) {
    lab_settle(&bench, waiting, all);
    journal_took(&journal, &bench);
    uint32_t woken = waiting & (all->holds | all->none_left);
    waiting &= ~woken;
    for (; woken; woken &= woken - 1) pthread_cond_signal(&came[__builtin_ctz(woken)]);
}

static void work(uint32_t job, const char *name, struct lab_state state) {
    struct lab_session session;
    struct lab_planned planned;
    struct lab_entry entry;
    int to[56];
    char line[32];
    pthread_mutex_lock(&mutex);
    lab_session_of(&bench, job, state.session, &session);
    pthread_mutex_unlock(&mutex);
    for (uint32_t at = 0; at < 56; at++)
        if (session.needs >> at & 1) to[at] = talk(ports[at]);
    for (uint32_t place = state.position; place < session.commands; place++) {
        pthread_mutex_lock(&mutex);
        lab_planned(&bench, job, state.session, place, &planned);
        uint32_t status = lab_command(&bench, job, &entry);
        uint64_t number = journal_took(&journal, &bench);
        pthread_mutex_unlock(&mutex);
        journal_commit(&journal, number);
        if (status != LAB_DONE) exit(72);
        snprintf(line, sizeof line, "SET %u\n", entry.value);
        say(to[planned.instrument], line);
    }
    for (uint32_t at = 0; at < 56; at++)
        if (session.needs >> at & 1) {
            say(to[at], "BYE\n");
            close(to[at]);
        }
    tell("end", name, state.session);
    struct lab_turned turned;
    struct lab_came all;
    pthread_mutex_lock(&mutex);
    if (lab_end(&bench, job, &turned) != LAB_DONE) exit(73);
    uint64_t number = journal_took(&journal, &bench);
    if (waiting) {
        settle(&all);
        number = journal_took(&journal, &bench);
    }
    pthread_mutex_unlock(&mutex);
    journal_commit(&journal, number);
    tell("over", name, state.session);
}

static void *station(void *given) {
    uint32_t job = *(uint32_t *)given, bit = (uint32_t)1 << job;
    struct lab_came all;
    struct lab_state state;
    char name[17];
    size_t length;
    pthread_mutex_lock(&mutex);
    lab_job_name(&bench, job, (uint8_t *)name, 16, &length);
    pthread_mutex_unlock(&mutex);
    name[length] = 0;
    for (;;) {
        pthread_mutex_lock(&mutex);
        waiting |= bit;
        settle(&all);
        while (waiting & bit) pthread_cond_wait(&came[job], &mutex);
        lab_state(&bench, job, &state);
        int was_there = (resumed & bit) != 0;
        resumed &= ~bit;
        uint64_t number = journal_took(&journal, &bench);
        pthread_mutex_unlock(&mutex);
        journal_commit(&journal, number);
        if (state.drinking != 2) return NULL;
        tell(was_there ? "resume" : "begin", name, state.session);
        work(job, name, state);
    }
}

int main(int count, char **words) {
    if (count < 7) return fputs("broker SCRIPT JOURNAL WORK REPORT SYNC NAME=PORT ..\n", stderr), 2;
    static char script[1 << 22];
    FILE *file = fopen(words[1], "rb");
    if (!file || !fread(script, 1, sizeof script - 1, file)) stop(words[1]);
    fclose(file);
    told = open(words[3], O_WRONLY | O_CREAT | O_APPEND, 0666);
    puts("opens");
    fflush(stdout);
    journal_open(&journal, words[2], strcmp(words[5], "data") == 0, script, &bench);
    puts("open");
    fflush(stdout);
    struct lab_size size;
    struct lab_state state;
    lab_bench_size(&bench, &size);
    for (uint32_t at = 0; at < size.instruments; at++) {
        char name[18];
        size_t length;
        lab_instrument_name(&bench, at, (uint8_t *)name, 16, &length);
        name[length] = '=';
        for (int word = 6; word < count; word++)
            if (!strncmp(words[word], name, length + 1)) ports[at] = atoi(words[word] + length + 1);
    }
    uint32_t jobs[MOST];
    pthread_t threads[MOST];
    for (uint32_t job = 0; job < size.jobs; job++) {
        lab_state(&bench, job, &state);
        if (state.drinking == 2) resumed |= (uint32_t)1 << job;
        pthread_cond_init(&came[job], NULL);
    }
    for (uint32_t job = 0; job < size.jobs; job++) {
        jobs[job] = job;
        if (pthread_create(&threads[job], NULL, station, &jobs[job])) stop("a thread");
    }
    for (uint32_t job = 0; job < size.jobs; job++) pthread_join(threads[job], NULL);
    struct lab_turned turned;
    for (uint32_t job = 0; job < size.jobs; job++) {
        lab_retire(&bench, job, 1, &turned);
        journal_commit(&journal, journal_took(&journal, &bench));
    }
    struct lab_told sized = {0, 0, 0};
    uint8_t none[1];
    lab_bench_close(&bench, none, 0, &sized);
    uint8_t *report = malloc(sized.written);
    if (!report) stop("memory");
    uint32_t status = lab_bench_close(&bench, report, sized.written, &sized);
    file = fopen(words[4], "wb");
    if (!file || fwrite(report, 1, sized.written, file) != sized.written || fclose(file)) stop(words[4]);
    return (int)status;
}
