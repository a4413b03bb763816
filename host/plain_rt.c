/* plain_rt.c: caladan_rt.h without a scheduler of ours, to measure against. Linux decides who runs.
 *
 * NAME is MODE:CPUS:CLASS. MODE spin: each thread has a processor and never sleeps; block: threads may run on
 * each of them, sleep without work, and are woken by who hands work in. CLASS is normal, nice (19), idle
 * (SCHED_IDLE) or fifo (SCHED_FIFO). A class that the machine refuses ends the process. */
#define _GNU_SOURCE
#include "caladan_rt.h"
#include <errno.h>
#include <pthread.h>
#include <sched.h>
#include <stdio.h>
#include <stdlib.h>
#include <string.h>
#include <sys/resource.h>
#include "host.h"

enum { QUEUE = 1 << 13, MOST = 16 };

typedef struct worker {
    _Alignas(CALADAN_LINE) _Atomic uint32_t lock;
    _Atomic size_t count;
    size_t head;
    caladan_request queue[QUEUE];
    _Alignas(CALADAN_LINE) _Atomic uint32_t bell;
    _Atomic int asleep;
    caladan_rt *rt;
    unsigned number;
} worker;

struct caladan_rt {
    bool spin;
    char class;
    unsigned threads;
    int cpu[MOST];
    uint64_t idle_ns;
    caladan_serve *serve;
    void *with;
    worker worker[MOST];
};

/* As a mutex would, it lets others run where it must wait long: its holder may have lost its processor. */
static void lock(worker *w) {
    for (unsigned tries = 0; atomic_exchange(&w->lock, 1); tries++)
        if (tries > 100) sched_yield();
        else host_pause();
}
static void unlock(worker *w) { atomic_store_explicit(&w->lock, 0, memory_order_release); }

/* The thread itself, else one that sleeps and may steal the request. */
static void wake_one(caladan_rt *rt, unsigned thread) {
    for (unsigned i = 0; i < rt->threads; i++) {
        worker *w = &rt->worker[(thread + i) % rt->threads];
        if (!atomic_exchange(&w->asleep, 0)) continue;
        atomic_fetch_add(&w->bell, 1);
        syscall(SYS_futex, &w->bell, FUTEX_WAKE, 1, NULL, NULL, 0);
        return;
    }
}

size_t caladan_rt_submit_each(caladan_rt *rt, unsigned thread, const caladan_request *requests, size_t count) {
    size_t put = 0;
    while (put < count && caladan_rt_submit(rt, thread, requests[put])) put++;
    return put;
}

bool caladan_rt_submit(caladan_rt *rt, unsigned thread, caladan_request request) {
    worker *w = &rt->worker[thread];
    if (thread >= rt->threads) return false;
    lock(w);
    bool fits = w->count < QUEUE;
    if (fits) {
        w->queue[(w->head + w->count) % QUEUE] = request;
        w->count++;
    }
    unlock(w);
    if (!rt->spin) wake_one(rt, thread);
    return fits;
}

static bool take(worker *w, caladan_request *request) {
    if (w->count == 0) return false;
    lock(w);
    bool found = w->count != 0;
    if (found) {
        *request = w->queue[w->head];
        w->head = (w->head + 1) % QUEUE;
        w->count--;
    }
    unlock(w);
    return found;
}

static bool take_any(worker *w, caladan_request *request) {
    for (unsigned i = 0; i < w->rt->threads; i++)
        if (take(&w->rt->worker[(w->number + i) % w->rt->threads], request)) return true;
    return false;
}

static bool sleep_or_take(worker *w, caladan_request *request) {
    uint64_t until = host_clock() + w->rt->idle_ns;
    do {
        if (take_any(w, request)) return true;
        host_pause();
    } while (w->rt->spin || host_clock() < until);
    uint32_t bell = atomic_load(&w->bell);
    atomic_store(&w->asleep, 1);
    if (take_any(w, request)) {
        atomic_store(&w->asleep, 0);
        return true;
    }
    futex_wait(&w->bell, bell);
    return false;
}

static void set_class(char class) {
    struct sched_param none = {0}, first = {1};
    int refused = 0;
    if (class == 'f') refused = sched_setscheduler(0, SCHED_FIFO, &first);
    if (class == 'i') refused = sched_setscheduler(0, SCHED_IDLE, &none);
    if (class == 'n') refused = setpriority(PRIO_PROCESS, (id_t)syscall(SYS_gettid), 19);
    if (refused) perror("load_plain: the class"), _exit(2);
}

static void *live(void *argument) {
    worker *w = argument;
    caladan_rt *rt = w->rt;
    cpu_set_t cpus;
    CPU_ZERO(&cpus);
    for (unsigned i = 0; i < rt->threads; i++)
        if (!rt->spin || i == w->number) CPU_SET((size_t)rt->cpu[i], &cpus);
    if (sched_setaffinity(0, sizeof cpus, &cpus)) perror("load_plain: the processors"), _exit(2);
    set_class(rt->class);
    for (caladan_request request;;)
        if (sleep_or_take(w, &request)) rt->serve(rt->with, w->number, request);
    return NULL;
}

unsigned caladan_rt_threads(const caladan_rt *rt) { return rt->threads; }
uint64_t caladan_rt_now(const caladan_rt *rt) { return (void)rt, host_clock(); }
bool caladan_rt_is_over(const caladan_rt *rt) { return (void)rt, false; }
const char *caladan_rt_why(int error) { return strerror(error); }
void caladan_rt_after(caladan_rt *rt, int what) { (void)rt, (void)what; }
bool caladan_rt_attach_again(caladan_rt *rt) { return (void)rt, false; }
bool caladan_rt_stop(caladan_rt *rt, size_t *unserved) { return (void)rt, (void)unserved, errno = ENOSYS, false; }
void caladan_rt_lost_after(caladan_rt *rt, uint64_t ns) { (void)rt, (void)ns; }
bool caladan_rt_is_lost(const caladan_rt *rt) { return (void)rt, false; }
void caladan_rt_missed(uint64_t misses) { (void)misses; }
int caladan_rt_processor(void) { return -1; }
bool caladan_rt_stands_under(const caladan_rt *rt) { return (void)rt, false; }
void caladan_rt_hold(void) {}
void caladan_rt_release(void) {}
int caladan_rt_thread(caladan_rt *rt, pthread_t *thread, const pthread_attr_t *attributes, void *(*start)(void *),
                      void *with) {
    return (void)rt, pthread_create(thread, attributes, start, with);
}
int caladan_rt_spawn(caladan_rt *rt, pid_t *pid, const char *path, const posix_spawn_file_actions_t *actions,
                     const posix_spawnattr_t *attributes, char *const *words, char *const *environment) {
    return (void)rt, posix_spawn(pid, path, actions, attributes, words, environment);
}

static bool read_name(caladan_rt *rt, const char *name) {
    char text[256], *rest = text;
    snprintf(text, sizeof text, "%s", name);
    const char *mode = strsep(&rest, ":");
    char *cpus = strsep(&rest, ":");
    if (cpus == NULL || rest == NULL) return false;
    rt->spin = mode[0] == 's';
    rt->class = strcmp(rest, "normal") ? rest[0] : 0;
    for (char *word; rt->threads < MOST && (word = strsep(&cpus, ","));) rt->cpu[rt->threads++] = atoi(word);
    return true;
}

caladan_rt *caladan_rt_start(const char *name, unsigned task, uint64_t idle_ns, caladan_serve *serve, void *with) {
    (void)task;
    caladan_rt *rt = aligned_alloc(CALADAN_LINE, sizeof *rt);
    if (rt == NULL) return NULL;
    memset(rt, 0, sizeof *rt);
    rt->idle_ns = idle_ns, rt->serve = serve, rt->with = with;
    errno = EINVAL;
    if (!read_name(rt, name)) return NULL;
    errno = 0;
    for (unsigned i = 0; i < rt->threads && !errno; i++) rt->worker[i].rt = rt, rt->worker[i].number = i;
    for (unsigned i = 0; i < rt->threads && !errno; i++) {
        pthread_t thread;
        errno = pthread_create(&thread, NULL, live, &rt->worker[i]);
    }
    return errno ? NULL : rt;
}
