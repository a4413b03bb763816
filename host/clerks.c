/* clerks.c: threads that write, so that no pass waits for a disk, or for who reads standard error: and the lines of
 * one. */
#define _GNU_SOURCE
#include <errno.h>
#include <poll.h>
#include <pthread.h>
#include <semaphore.h>
#include <stdarg.h>
#include <stdlib.h>
#include <string.h>
#include "caladand.h"

enum { LINES = 64, LINE = HOST_PATH + 512 }; /* a line has room for a path, and for what is said of it */

/* ---- any clerk ---- */

enum { CLERKS = 8 };

typedef struct clerk {
    clerk_work *work;
    void *with;
    cpu_set_t where;
    _Atomic pid_t tid; /* 0: it has not begun */
} clerk;

static clerk clerks[CLERKS];
static unsigned begun;

static void *live(void *argument) {
    clerk *it = argument;
    sigset_t all;
    sigfillset(&all);
    pthread_sigmask(SIG_BLOCK, &all, NULL);
    if (CPU_COUNT(&it->where)) sched_setaffinity(0, sizeof it->where, &it->where);
    atomic_store(&it->tid, gettid());
    it->work(it->with);
    return NULL;
}

bool start_clerk(clerk_work *work, void *with, const cpu_set_t *where) {
    clerk *it = &clerks[begun];
    pthread_t thread;
    if (begun == CLERKS) return false;
    it->work = work, it->with = with, it->where = *where;
    if (pthread_create(&thread, NULL, live, it)) return false;
    pthread_detach(thread);
    begun++;
    return true;
}

static bool is_elsewhere(const clerk *it, pid_t tid) {
    cpu_set_t cpus, right;
    if (tid == 0 || CPU_COUNT(&it->where) == 0 || sched_getaffinity(tid, sizeof cpus, &cpus)) return false;
    CPU_AND(&right, &cpus, &it->where);
    return !CPU_EQUAL(&right, &cpus);
}

bool place_clerk(clerk_work *work, const cpu_set_t *where) {
    for (unsigned i = 0; i < begun; i++) {
        pid_t tid = atomic_load(&clerks[i].tid);
        if (clerks[i].work != work || tid == 0) continue;
        clerks[i].where = *where;
        return sched_setaffinity(tid, sizeof *where, where) == 0;
    }
    return false;
}

void look_after_clerks(scheduler *s) {
    for (unsigned i = 0; i < begun; i++) {
        pid_t tid = atomic_load(&clerks[i].tid);
        if (!is_elsewhere(&clerks[i], tid)) continue;
        s->counts.displaced++;
        sched_setaffinity(tid, sizeof clerks[i].where, &clerks[i].where);
    }
}

/* A second signal waits for no clerk longer than the least. */
bool wait_for_clerk(bool is_idle(const void *of), const void *of, uint64_t most) {
    struct timespec moment = {0, 2000000};
    for (uint64_t from = host_clock(); !is_idle(of); nanosleep(&moment, NULL))
        if (host_clock() - from >= (stop_signals() > 1 ? CLERKS_LAST : most)) return false;
    return true;
}

/* ---- lines on standard error ---- */

/* One thread puts lines here, the scheduler's, and one writes them. A line that does not fit is counted and lost. The
 * process's, as its standard error is. */
static struct {
    char line[LINES][LINE];
    atomic_size_t put, written; /* how many so far */
    _Atomic uint64_t lost;
    sem_t bell;
    atomic_bool has_clerk;
} lines;

/* Whoever shares standard error may have told it to wait for nobody: then its clerk waits himself. */
static void write_line(const char *line, bool is_clerk) {
    struct pollfd out = {STDERR_FILENO, POLLOUT, 0};
    for (size_t length = strlen(line); length;) {
        ssize_t did = write(STDERR_FILENO, line, length);
        if (did < 0 && (errno == EINTR || (errno == EAGAIN && is_clerk && poll(&out, 1, -1) > 0))) continue;
        if (did <= 0) return (void)atomic_fetch_add(&lines.lost, 1);
        line += did, length -= (size_t)did;
    }
}

static void write_lines(void *with) {
    (void)with;
    for (;;) {
        size_t next = atomic_load(&lines.written);
        if (next == atomic_load(&lines.put)) {
            while (sem_wait(&lines.bell)) {}
            continue;
        }
        write_line(lines.line[next % LINES], true);
        atomic_store(&lines.written, next + 1);
    }
}

bool begin_lines(const cpu_set_t *where) {
    sem_init(&lines.bell, 0, 0);
    atomic_store(&lines.has_clerk, start_clerk(write_lines, NULL, where));
    return atomic_load(&lines.has_clerk);
}

/* The text, cut where it is too long, as a line. */
static void put_line(char line[LINE], const char *format, va_list rest) {
    static const char head[] = "caladand: ";
    memcpy(line, head, sizeof head);
    vsnprintf(line + sizeof head - 1, LINE - sizeof head, format, rest);
    strcat(line, "\n"); /* there is room for one byte more */
}

void complain(const char *format, ...) {
    va_list rest;
    size_t next = atomic_load(&lines.put);
    if (next - atomic_load(&lines.written) == LINES) return (void)atomic_fetch_add(&lines.lost, 1);
    va_start(rest, format);
    put_line(lines.line[next % LINES], format, rest);
    va_end(rest);
    if (!atomic_load(&lines.has_clerk)) return write_line(lines.line[next % LINES], false);
    atomic_store(&lines.put, next + 1);
    sem_post(&lines.bell);
}

uint64_t lost_lines(void) { return atomic_load(&lines.lost); }
static bool are_written(const void *of) { return (void)of, atomic_load(&lines.written) == atomic_load(&lines.put); }
void end_lines(void) { wait_for_clerk(are_written, NULL, CLERKS_LAST); }
