/* strays.c: what a process starts while it has a core, and not by the runtime, is pinned to that core's processor, as
 * the thread is that started it: other threads, and children. A clerk looks for them, each second and when a process
 * gives its task up, and puts them back on the processors that are not managed. */
#define _GNU_SOURCE
#include <dirent.h>
#include <poll.h>
#include <semaphore.h>
#include <stdlib.h>
#include <string.h>
#include <time.h>
#include "caladand.h"

enum { NOTES = 256, DEEPEST = 4, MOST_LOOKS = 8192 };

/* A process, by its number and a file that tells when it has ended. After it has given its task up it is looked at
 * twice. */
typedef struct suspect {
    pid_t pid;
    int file;
    bool is_attached;
    unsigned task, looks;
} suspect;

/* What the scheduler has to say of a process: it attached as a task, or that task was given up. */
typedef struct note {
    unsigned task;
    pid_t pid; /* 0: given up */
    int file;
} note;

struct strays {
    const scheduler *of;
    cpu_set_t managed;
    suspect suspect[2 * HOST_TASKS];
    unsigned looks; /* of this process, so far */
    note note[NOTES];
    atomic_size_t put, taken;
    sem_t bell;
    _Atomic uint64_t put_back;
    _Atomic int32_t last; /* the last that was put back */
};

/* ---- one thread ---- */

static bool is_seat(const scheduler *s, pid_t tid) {
    for (unsigned i = 0; i < HOST_TASKS * HOST_LIMIT; i++)
        if (atomic_load(&s->seated[i / HOST_LIMIT][i % HOST_LIMIT]) == tid) return true;
    return false;
}

/* Its processors are read first: a thread is noted as a seat before it is pinned. */
static bool is_stray(const strays *it, pid_t tid) {
    cpu_set_t cpus, elsewhere;
    if (sched_getaffinity(tid, sizeof cpus, &cpus)) return false; /* it has ended */
    CPU_AND(&elsewhere, &cpus, &it->managed);
    return CPU_EQUAL(&elsewhere, &cpus) && !is_seat(it->of, tid);
}

static void put_back(strays *it, pid_t tid) {
    struct sched_param none = {0};
    if (sched_setaffinity(tid, sizeof it->of->others, &it->of->others)) return;
    if (it->of->options.under && sched_getscheduler(tid) == SCHED_IDLE) sched_setscheduler(tid, SCHED_OTHER, &none);
    atomic_store(&it->last, tid);
    atomic_fetch_add(&it->put_back, 1);
}

/* ---- a process, and its children ---- */

static void look_at_process(strays *it, pid_t pid, unsigned depth);

static void look_at_children(strays *it, pid_t pid, pid_t tid, unsigned depth) {
    char path[64];
    int child;
    snprintf(path, sizeof path, "/proc/%d/task/%d/children", pid, tid);
    FILE *in = depth < DEEPEST ? fopen(path, "re") : NULL; /* some kernels have no such file */
    while (in && fscanf(in, "%d", &child) == 1) look_at_process(it, child, depth + 1);
    if (in) fclose(in);
}

static void look_at_process(strays *it, pid_t pid, unsigned depth) {
    char path[64];
    snprintf(path, sizeof path, "/proc/%d/task", pid);
    DIR *threads = opendir(path);
    for (struct dirent *each; threads && it->looks < MOST_LOOKS && (each = readdir(threads));) {
        pid_t tid = atoi(each->d_name);
        if (tid <= 0) continue;
        it->looks++;
        if (is_stray(it, tid)) put_back(it, tid);
        look_at_children(it, pid, tid, depth);
    }
    if (threads) closedir(threads);
}

/* ---- all that are attached, or were ---- */

static bool has_gone(const suspect *one) {
    struct pollfd file = {one->file, POLLIN, 0};
    return poll(&file, 1, 0) > 0;
}

static void forget(suspect *one) {
    if (one->pid) close(one->file);
    *one = (suspect){0};
}

static void look_at(strays *it, suspect *one) {
    if (one->pid == 0) return;
    if (has_gone(one)) return forget(one);
    it->looks = 0;
    look_at_process(it, one->pid, 0);
    if (!one->is_attached && ++one->looks == 2) forget(one);
}

static void look_at_each(strays *it) {
    for (unsigned i = 0; i < 2 * HOST_TASKS; i++) look_at(it, &it->suspect[i]);
}

/* Those that gave a task up have the second half: the oldest makes room. */
static void take_note(strays *it, const note *new) {
    suspect *one = &it->suspect[new->task], *former = one + HOST_TASKS;
    if (one->pid) {
        forget(former);
        *former = *one, former->is_attached = false;
        look_at(it, former);
        *one = (suspect){0};
    }
    if (new->pid) *one = (suspect){.pid = new->pid, .file = new->file, .is_attached = true, .task = new->task};
}

static void wait_a_second(strays *it) {
    struct timespec until;
    clock_gettime(CLOCK_MONOTONIC, &until);
    until.tv_sec++;
    sem_clockwait(&it->bell, CLOCK_MONOTONIC, &until);
}

static void look_on(void *with) {
    strays *it = with;
    for (uint64_t due = 0;;) {
        size_t next = atomic_load(&it->taken);
        if (next != atomic_load(&it->put)) {
            take_note(it, &it->note[next % NOTES]);
            atomic_store(&it->taken, next + 1);
            continue;
        }
        if (host_clock() >= due) look_at_each(it), due = host_clock() + 1000000000u;
        wait_a_second(it);
    }
}

/* ---- what the scheduler sees of it ---- */

/* Where there is no processor to put them back on, nobody looks. */
bool begin_strays(scheduler *s) {
    if (CPU_COUNT(&s->others) == 0) return true;
    strays *it = calloc(1, sizeof *it);
    if (it == NULL) return false;
    it->of = s;
    for (unsigned i = 0; i < s->options.cpus; i++) CPU_SET((size_t)s->options.cpu[i], &it->managed);
    sem_init(&it->bell, 0, 0);
    s->strays = it;
    return start_clerk(look_on, it, &s->others);
}

/* Where its clerk is far behind, or no file can be had, a process is not looked at. */
static void put_note(strays *it, note new) {
    size_t next = atomic_load(&it->put);
    if (next - atomic_load(&it->taken) == NOTES) return (void)(new.pid && close(new.file));
    it->note[next % NOTES] = new;
    atomic_store(&it->put, next + 1);
    sem_post(&it->bell);
}

void strays_attach(scheduler *s, const host_task *task) {
    int file = s->strays ? fcntl(task->file, F_DUPFD_CLOEXEC, 3) : -1;
    if (file >= 0) put_note(s->strays, (note){number_of(s, task), task->pid, file});
}

void strays_give_up(scheduler *s, const host_task *task) {
    if (s->strays && task->pid) put_note(s->strays, (note){.task = number_of(s, task)});
}

/* At most one line a second. */
void strays_say(scheduler *s) {
    uint64_t all = s->strays ? atomic_load(&s->strays->put_back) : 0, now = now_of(s);
    s->counts.put_back = all;
    if (all == s->strays_told || (s->strays_told && now - s->strays_told_at < 1000000000u)) return;
    complain("%llu threads or children that had a managed processor and no core were put elsewhere, the last one %d",
             (unsigned long long)(all - s->strays_told), atomic_load(&s->strays->last));
    s->strays_told = all, s->strays_told_at = now;
}
