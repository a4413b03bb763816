/* caladan_rt.c: the runtime of caladan_rt.h. A kernel thread's page, queue and state are under a lock of its
 * own, since it, whoever hands it a request and a sibling that steals one all publish on its page. */
#define _GNU_SOURCE
#include "caladan_rt.h"
#include <errno.h>
#include <poll.h>
#include <pthread.h>
#include <sched.h>
#include <stdio.h>
#include <stdlib.h>
#include <sys/mman.h>
#include <sys/socket.h>
#include "runtime.h"

static _Thread_local kernel_thread *self __attribute__((tls_model("initial-exec")));

/* A child that was forked has neither kernel threads nor their segment: a runtime of its parent's is over
 * for it, and nobody there is a kernel thread. */
static unsigned forks;
static int not_noticed; /* the error with which forks cannot be, or 0 */
static void leave_core(const caladan_rt *rt);
static void in_child(void) {
    forks++;
    if (self) leave_core(self->rt); /* whose core the child has not */
    self = NULL;
}
static void notice_forks(void) { not_noticed = pthread_atfork(NULL, NULL, in_child); }
static bool is_of_parent(const caladan_rt *rt) { return rt->forks != forks; }
/* Also a child by vfork, which has the parent's memory: the kernel alone tells it apart, and to ask it takes longer
 * than to hand in a request. */
static bool is_child(const caladan_rt *rt) { return is_of_parent(rt) || getpid() != rt->process; }

uint64_t caladan_rt_now(const caladan_rt *rt) { return host_clock() - rt->epoch; }
unsigned caladan_rt_threads(const caladan_rt *rt) { return rt->threads; }
const char *caladan_rt_why(int error) {
    if (error == EDOM) return "the scheduler's table has another limit of the task";
    if (error == EEXIST) return "the process has a handler of SIGURG already";
    if (error == ECHILD) return "the runtime is that of the process's parent";
    return host_why(error);
}
bool caladan_rt_is_over(const caladan_rt *rt) { return is_of_parent(rt) || atomic_load(&rt->is_over); }
void caladan_rt_after(caladan_rt *rt, int what) { atomic_store(&rt->after, what); }

/* A tick of the runtime's clock as the scheduler counts: a later scheduler begins later. */
static uint64_t shown(const caladan_rt *rt, uint64_t tick) {
    uint64_t time = rt->epoch + tick, tick_0 = atomic_load_explicit(&rt->tick_0, memory_order_relaxed);
    return time > tick_0 ? time - tick_0 : 0;
}

/* ---- publishing ---- */

/* A kernel thread locks only where its Park is held off, or in its handler: so none is stopped with a lock. */
static void lock(kernel_thread *k) {
    for (unsigned tries = 0; atomic_exchange_explicit(&k->lock, 1, memory_order_acquire); tries++)
        if (tries % 1024 == 1023) sched_yield(); /* who has it may have lost its processor to another process */
        else host_pause();
}

static void unlock(kernel_thread *k) { atomic_store_explicit(&k->lock, 0, memory_order_release); }

static void publish(kernel_thread *k, uint64_t now) {
    uint64_t stamp = shown(k->rt, now);
    if (stamp > k->words[STAMP]) k->words[STAMP] = stamp;
    if (k->open) caladan_publish(&k->publisher, k->words);
}

static void show_queue(kernel_thread *k) {
    k->words[QUEUED] = k->count != 0;
    uint64_t from = k->count ? k->queue[k->head].arrived : 0;
    k->words[OLDEST] = k->count ? shown(k->rt, from > k->awaited ? from : k->awaited) : 0;
}

static void show_pause(kernel_thread *k, bool paused) {
    k->words[PAUSED] = paused;
    k->words[SINCE] = paused ? shown(k->rt, k->current.arrived) : 0;
}

/* ---- commands and phases ---- */

static void put_on(kernel_thread *k, uint64_t command, uint64_t now) {
    k->words[RUNNING] = command;
    k->words[STARTED] = command != CALADAN_PARK && k->working ? shown(k->rt, now) : 0;
    show_pause(k, command == CALADAN_PARK && k->working);
}

static void take_commands(kernel_thread *k) {
    uint64_t command, now = caladan_rt_now(k->rt);
    bool some = false;
    lock(k);
    for (; k->open && caladan_ring_take(&k->slot->ring, &command); some = true) {
        k->words[TAKEN]++;
        put_on(k, command, now);
    }
    if (some) publish(k, now);
    unlock(k);
}

/* A piece begins, on a page and a ring that are new or that another process left: goes on from what they show. */
static void enter(kernel_thread *k) {
    lock(k);
    caladan_adopt(&k->publisher, &k->slot->page, k->words);
    k->open = true;
    put_on(k, CALADAN_PARK, 0);
    show_queue(k);
    publish(k, caladan_rt_now(k->rt));
    unlock(k);
}

/* A piece ends: what was sent is taken, and the last record shows no core. */
static void leave(kernel_thread *k) {
    take_commands(k);
    lock(k);
    put_on(k, CALADAN_PARK, 0);
    publish(k, caladan_rt_now(k->rt));
    k->open = false;
    unlock(k);
}

static void follow_phase(kernel_thread *k) {
    uint32_t phase = atomic_load(&k->rt->segment->phase);
    if (phase == k->phase) return;
    if (phase % 2 == 0) enter(k);
    else if (k->open) leave(k);
    k->phase = phase;
    atomic_store(&k->slot->phase, phase);
}

static bool outlives(kernel_thread *k);
static bool does_without(kernel_thread *k);
static void come_back(kernel_thread *k);
static void pin_itself(kernel_thread *k);

/* Takes what was sent, shows it, and is back when the thread has a core, or needs none. Held, or in the handler. */
static void obey(kernel_thread *k) {
    for (;;) {
        k->pending = 0;
        uint32_t bell = atomic_load(&k->slot->doorbell);
        if (atomic_load(&k->rt->is_over)) {
            if (outlives(k)) return;
            continue;
        }
        if (atomic_load(&k->rt->is_lost)) {
            if (does_without(k)) return;
            continue;
        }
        if (k->is_away) come_back(k);
        follow_phase(k);
        take_commands(k);
        if (k->words[RUNNING] != 0) {
            if (k->pins_itself) pin_itself(k);
            return;
        }
        sleep_on_bell(k->slot, bell);
    }
}

static void on_signal(int signal) {
    (void)signal;
    kernel_thread *k = self;
    int saved = errno;
    if (k && k->held) k->pending = 1;
    else if (k) obey(k);
    errno = saved;
}

static void hold(kernel_thread *k) {
    if (k) k->held++;
    atomic_signal_fence(memory_order_seq_cst);
}

static void release(kernel_thread *k) {
    atomic_signal_fence(memory_order_seq_cst);
    if (k == NULL) return;
    if (k->held > 1) {
        k->held--;
        return;
    }
    for (;;) {
        while (k->pending) obey(k);
        k->held = 0; /* a signal from here on is obeyed at once */
        atomic_signal_fence(memory_order_seq_cst);
        if (!k->pending) return;
        k->held = 1;
        atomic_signal_fence(memory_order_seq_cst);
    }
}

void caladan_rt_hold(void) { hold(self); }
void caladan_rt_release(void) { release(self); }

/* ---- requests ---- */

/* Who is to be woken for a request of this thread's: the thread itself, else one that can steal
 * it; NULL: nobody dozes, or the thread looks for work. Under the lock of its queue. */
static kernel_thread *dozer_for(kernel_thread *k) {
    caladan_rt *rt = k->rt;
    bool looks = k->words[RUNNING] != CALADAN_PARK && !k->working && !atomic_load(&k->dozes);
    for (unsigned i = 0; i < rt->threads && !looks; i++) {
        kernel_thread *other = &rt->thread[(k->number + i) % rt->threads];
        if (atomic_load(&other->dozes) && atomic_exchange(&other->dozes, 0)) return other;
    }
    return NULL;
}

/* As many as fit, and who is to be woken for them, one for each at most. Under the lock of the queue's thread. */
static size_t queue_each(kernel_thread *k, const caladan_request *requests, size_t count,
                         kernel_thread *dozer[HOST_LIMIT]) {
    uint64_t now = caladan_rt_now(k->rt);
    size_t put = count < QUEUE - k->count ? count : QUEUE - k->count;
    for (size_t i = 0; i < put; i++) k->queue[(k->head + k->count++) % QUEUE] = requests[i];
    for (size_t i = 0; i < put && i < HOST_LIMIT && (dozer[i] = dozer_for(k)); i++) k->awaited = now + WAKES;
    if (put == 0) return 0;
    show_queue(k);
    publish(k, now);
    return put;
}

size_t caladan_rt_submit_each(caladan_rt *rt, unsigned thread, const caladan_request *requests, size_t count) {
    kernel_thread *dozer[HOST_LIMIT + 1] = {NULL}, *caller = self;
    if (thread >= rt->threads || (caller ? is_child(rt) : is_of_parent(rt))) return 0;
    kernel_thread *k = &rt->thread[thread];
    hold(caller);
    lock(k);
    size_t put = queue_each(k, requests, count, dozer);
    unlock(k);
    for (size_t i = 0; dozer[i]; i++) ring_bell(dozer[i]->slot);
    release(caller);
    return put;
}

bool caladan_rt_submit(caladan_rt *rt, unsigned thread, caladan_request request) {
    return caladan_rt_submit_each(rt, thread, &request, 1) == 1;
}

/* Under the lock of the queue's thread. */
static bool pop(kernel_thread *k, caladan_request *request) {
    if (k->count == 0) return false;
    *request = k->queue[k->head];
    k->head = (k->head + 1) % QUEUE;
    k->count--;
    show_queue(k);
    return true;
}

/* The end of the current request, and the next one of the thread's own queue. */
static bool next_own(kernel_thread *k) {
    lock(k);
    bool worked = k->working;
    uint64_t now = caladan_rt_now(k->rt);
    k->working = pop(k, &k->current);
    k->words[STARTED] = k->working ? shown(k->rt, now) : 0;
    if (worked || k->working) publish(k, now);
    unlock(k);
    return k->working;
}

static bool steal(kernel_thread *k) {
    caladan_rt *rt = k->rt;
    for (unsigned i = 1; i < rt->threads; i++) {
        kernel_thread *other = &rt->thread[(k->number + i) % rt->threads];
        if (atomic_load_explicit(&other->count, memory_order_relaxed) == 0) continue;
        lock(other);
        bool stolen = pop(other, &k->current);
        if (stolen) publish(other, caladan_rt_now(rt));
        unlock(other);
        if (stolen) return true;
    }
    return false;
}

static bool next_stolen(kernel_thread *k) {
    if (!steal(k)) return false;
    lock(k);
    uint64_t now = caladan_rt_now(k->rt);
    k->working = true;
    k->words[STARTED] = shown(k->rt, now);
    publish(k, now);
    unlock(k);
    return true;
}

static bool some_queued(caladan_rt *rt) {
    for (unsigned i = 0; i < rt->threads; i++)
        if (atomic_load_explicit(&rt->thread[i].count, memory_order_relaxed)) return true;
    return false;
}

/* ---- without a scheduler ---- */

/* The calling thread is where the process was when the runtime began, and in that class, where it may. */
static void leave_core(const caladan_rt *rt) {
    struct sched_param none = {0};
    sched_setaffinity(0, sizeof rt->allowed, &rt->allowed);
    if (rt->stands_under) sched_setscheduler(0, rt->class, &none);
}

/* On no page any more, and on no core that somebody else may be granted. */
static void let_go(kernel_thread *k) {
    lock(k);
    k->open = k->is_away = k->pins_itself = false;
    put_on(k, CALADAN_PARK, 0);
    unlock(k);
    leave_core(k->rt);
}

static void wait_for_turn(kernel_thread *k) {
    caladan_rt *rt = k->rt;
    uint32_t turn = atomic_load(&rt->turn);
    if (!atomic_load(&rt->is_over)) return; /* it was so when this thread looked */
    atomic_store(&k->waits, turn + 1);
    while (atomic_load(&rt->turn) == turn && !atomic_load(&rt->stops)) futex_wait(&rt->turn, turn);
}

/* The scheduler is over. True where the thread goes on by itself; false when it has waited for another one. Its number
 * comes before its phase, as in a new thread. */
static bool outlives(kernel_thread *k) {
    caladan_rt *rt = k->rt;
    struct timespec nap = {0, NAP};
    let_go(k);
    if (atomic_load(&rt->stops)) return true;
    if (atomic_load(&rt->after) == CALADAN_RT_RUN && !atomic_load(&rt->is_waiting)) {
        if (!k->working && !some_queued(rt)) nanosleep(&nap, NULL);
        return true;
    }
    wait_for_turn(k);
    if (atomic_load(&rt->is_over)) return false;
    k->phase = 0;
    atomic_store(&k->slot->tid, (int32_t)syscall(SYS_gettid));
    return false;
}

/* ---- while the scheduler shows nothing ---- */

/* Its page stays as it is until the thread comes back: as if it went on in a long request. */
static void go_away(kernel_thread *k) {
    lock(k);
    k->was_open = k->open;
    k->open = false;
    put_on(k, CALADAN_PARK, 0);
    unlock(k);
    leave_core(k->rt);
    k->is_away = k->pins_itself = true;
}

/* To the core that it has, as the scheduler does it, or did it before. */
static void pin_itself(kernel_thread *k) {
    struct sched_param none = {0};
    cpu_set_t cpus;
    int processor = caladan_rt_processor();
    k->pins_itself = false;
    if (processor < 0 || processor >= CPU_SETSIZE) return;
    CPU_ZERO(&cpus);
    CPU_SET((size_t)processor, &cpus);
    if (k->rt->stands_under) sched_setscheduler(0, SCHED_IDLE, &none);
    sched_setaffinity(0, sizeof cpus, &cpus);
}

/* Without a core, as one that has given it up. */
static void come_back(kernel_thread *k) {
    lock(k);
    k->is_away = false;
    k->open = k->was_open;
    put_on(k, CALADAN_PARK, 0);
    show_queue(k);
    publish(k, caladan_rt_now(k->rt));
    unlock(k);
}

/* True where the thread goes on by itself; false when it has waited. */
static bool does_without(kernel_thread *k) {
    caladan_rt *rt = k->rt;
    struct timespec nap = {0, NAP};
    if (!k->is_away) go_away(k);
    if (atomic_load(&rt->after) == CALADAN_RT_RUN) {
        if (!k->working && !some_queued(rt)) nanosleep(&nap, NULL);
        return true;
    }
    futex_wait(&rt->is_lost, 1);
    return false;
}

static void interrupt_each(caladan_rt *rt) {
    for (unsigned i = 0; i < rt->threads; i++) {
        pthread_kill(rt->thread[i].thread, HOST_SIGNAL);
        ring_bell(rt->thread[i].slot);
    }
}

static void set_lost(caladan_rt *rt, bool is) {
    if (atomic_exchange(&rt->is_lost, is) == is) return;
    futex_wake_all(&rt->is_lost);
    interrupt_each(rt);
}

/* What the watcher felt: the last beat, when, and how long it has felt none. Where the machine stood still, that is two
 * looks. */
typedef struct pulse {
    uint64_t beat, at, silent;
} pulse;

static void feel(caladan_rt *rt, pulse *p) {
    uint64_t most = atomic_load(&rt->lost_after), now = host_clock(), passed = now - p->at;
    uint64_t beat = most ? atomic_load(&rt->segment->heartbeat) : 0;
    bool is_there = most == 0 || beat != p->beat;
    p->silent = is_there ? 0 : p->silent + (passed < 2 * FEEL ? passed : 2 * FEEL);
    p->at = now, p->beat = beat;
    if (is_there || p->silent >= most) set_lost(rt, !is_there);
}

/* Sleeps until something comes over the connection, or until a beat is to be felt, or to be felt from now on: that a
 * signal says. */
static void wait_for_word(caladan_rt *rt, struct pollfd *file) {
    struct timespec soon = {0, FEEL};
    sigset_t most;
    sigfillset(&most);
    sigdelset(&most, HOST_SIGNAL);
    ppoll(file, 1, atomic_load(&rt->lost_after) ? &soon : NULL, &most);
}

/* Until the scheduler closes the connection: it ended, or has given the task up; or until the process itself has
 * closed it. Its number may be another file's by then, of which nothing is read. */
void *host_watch(void *argument) {
    caladan_rt *rt = argument;
    struct pollfd file = {rt->connection, POLLIN, 0};
    pulse felt = {0};
    char byte;
    atomic_store(&rt->watcher, (int32_t)syscall(SYS_gettid));
    do {
        file.revents = 0;
        wait_for_word(rt, &file);
        feel(rt, &felt);
    } while ((file.revents & (POLLHUP | POLLERR | POLLNVAL)) == 0 &&
             recv(rt->connection, &byte, 1, MSG_DONTWAIT) != 0);
    atomic_store(&rt->watcher, 0);
    atomic_store(&rt->is_over, true);
    set_lost(rt, false);
    interrupt_each(rt);
    atomic_store(&rt->is_watched, false);
    return NULL;
}

void caladan_rt_lost_after(caladan_rt *rt, uint64_t ns) {
    atomic_store(&rt->lost_after, ns);
    int32_t watcher = atomic_load(&rt->watcher);
    if (watcher && !is_of_parent(rt)) syscall(SYS_tgkill, getpid(), watcher, HOST_SIGNAL);
}

bool caladan_rt_is_lost(const caladan_rt *rt) { return atomic_load(&rt->is_lost) && !is_of_parent(rt); }

/* With all signals blocked, so that none of the process's comes to it. */
static int begin_to_watch(caladan_rt *rt) {
    sigset_t all, before;
    pthread_t watcher;
    sigfillset(&all);
    pthread_sigmask(SIG_BLOCK, &all, &before);
    atomic_store(&rt->is_watched, true);
    int error = pthread_create(&watcher, NULL, host_watch, rt);
    if (error == 0) pthread_detach(watcher);
    else atomic_store(&rt->is_watched, false);
    pthread_sigmask(SIG_SETMASK, &before, NULL);
    return error;
}

static void go_on(caladan_rt *rt) {
    atomic_store(&rt->is_waiting, false);
    atomic_fetch_add(&rt->turn, 1);
    futex_wake_all(&rt->turn);
}

static bool all_wait(caladan_rt *rt) {
    for (unsigned i = 0; i < rt->threads; i++)
        if (atomic_load(&rt->thread[i].waits) != atomic_load(&rt->turn) + 1) return false;
    return true;
}

/* Who is in a request stops there. False: one does not come for seconds, since it holds its Park off. */
static bool gather(caladan_rt *rt) {
    struct timespec moment = {0, 1000000};
    uint64_t from = host_clock();
    atomic_store(&rt->is_waiting, true);
    for (unsigned tries = 0; !all_wait(rt); tries++) {
        if (host_clock() - from >= GATHER) return false;
        if (tries % 50 == 0) interrupt_each(rt); /* who waits already has been told when the scheduler ended */
        nanosleep(&moment, NULL);
    }
    return true;
}

static void change_segment(caladan_rt *rt, host_segment *segment, int connection) {
    munmap(rt->segment, sizeof *rt->segment);
    close(rt->connection);
    rt->segment = segment;
    rt->stands_under = segment->stands_under;
    rt->connection = connection;
    atomic_store(&rt->tick_0, segment->epoch);
    for (unsigned i = 0; i < rt->threads; i++) rt->thread[i].slot = &segment->slot[i];
}

/* All wait, or the segment is given back. */
static bool take(caladan_rt *rt, host_segment *segment, int connection) {
    if (!gather(rt)) {
        munmap(segment, sizeof *segment);
        close(connection);
        errno = ETIMEDOUT;
        return false;
    }
    if (!host_take(segment, connection)) return false;
    while (atomic_load(&rt->is_watched)) sched_yield();
    change_segment(rt, segment, connection);
    atomic_store(&rt->is_over, false);
    if ((errno = begin_to_watch(rt)) == 0) return true;
    atomic_store(&rt->is_over, true);
    shutdown(connection, SHUT_RDWR); /* so the task is given up, and can be asked for again */
    return false;
}

/* Threads go on while it asks for a scheduler, and wait only once there is one. */
bool caladan_rt_attach_again(caladan_rt *rt) {
    int connection;
    errno = is_child(rt) ? ECHILD : EISCONN;
    if (is_child(rt) || !atomic_load(&rt->is_over)) return false;
    host_segment *segment = host_meet(rt->name, rt->task, &connection);
    if (segment == NULL) return false;
    if (segment->threads != rt->threads) {
        munmap(segment, sizeof *segment);
        close(connection);
        errno = EDOM;
        return false;
    }
    bool attached = take(rt, segment, connection);
    int error = errno;
    go_on(rt);
    errno = error;
    return attached;
}

/* ---- the life of a kernel thread ---- */

/* Not held: a Park finds the thread without a request. */
static bool wait_for_work(kernel_thread *k) {
    bool found;
    release(k);
    bool may_doze = atomic_load(&k->slot->may_doze) != 0; /* that costs less than to look on */
    uint64_t until = caladan_rt_now(k->rt) + (may_doze ? 0 : k->rt->idle_ns);
    while (!(found = some_queued(k->rt)) && caladan_rt_now(k->rt) < until) host_pause();
    hold(k);
    return found;
}

/* Sleeps on its core, until a request or a word of the scheduler's comes; back with a core. What
 * a Park is for is seen by the doorbell, which grows after it. */
static void doze(kernel_thread *k) {
    uint32_t bell = atomic_load(&k->slot->doorbell);
    obey(k);
    atomic_store(&k->dozes, 1);
    /* who has queued a request finds this, or is found here */
    atomic_thread_fence(memory_order_seq_cst);
    bool may = atomic_load(&k->slot->may_doze) && !atomic_load(&k->rt->is_over) && !atomic_load(&k->rt->is_lost);
    if (may && !some_queued(k->rt)) sleep_on_bell(k->slot, bell);
    atomic_store(&k->dozes, 0);
    obey(k);
}

/* Gives the core up, unless a request came; back with one. */
static void yield_core(kernel_thread *k) {
    lock(k);
    if (k->count == 0) {
        put_on(k, CALADAN_PARK, 0);
        publish(k, caladan_rt_now(k->rt));
    }
    unlock(k);
    obey(k);
}

/* False: the runtime could not be started after all. */
static bool may_begin(kernel_thread *k) {
    while (atomic_load(&k->rt->begun) == NOT_YET) futex_wait(&k->rt->begun, NOT_YET);
    return atomic_load(&k->rt->begun) == BEGUN;
}

/* Only when the scheduler has let it go: until then its core is not free. */
static bool has_to_end(const kernel_thread *k) {
    return atomic_load(&k->rt->stops) && atomic_load(&k->rt->is_over);
}

static void *live(void *argument) {
    kernel_thread *k = argument;
    sigset_t ours;
    if (!may_begin(k)) return NULL;
    k->held = 1;
    self = k;
    sigemptyset(&ours);
    sigaddset(&ours, HOST_SIGNAL);
    pthread_sigmask(SIG_UNBLOCK, &ours, NULL); /* whoever started the runtime may have blocked all */
    atomic_store(&k->slot->tid, (int32_t)syscall(SYS_gettid));
    obey(k);
    while (!has_to_end(k)) {
        if (next_own(k) || next_stolen(k)) {
            release(k);
            k->rt->serve(k->rt->with, k->number, k->current);
            hold(k);
        } else if (!wait_for_work(k)) {
            if (atomic_load(&k->slot->may_doze)) doze(k);
            else yield_core(k);
        }
    }
    self = NULL; /* a signal from here on is nobody's */
    return NULL;
}

void caladan_rt_missed(uint64_t misses) {
    kernel_thread *k = self;
    if (k == NULL) return;
    hold(k);
    lock(k);
    uint64_t left = k->words[MISSES] < MOST_MISSES ? MOST_MISSES - k->words[MISSES] : 0;
    k->words[MISSES] += misses < left ? misses : left;
    publish(k, caladan_rt_now(k->rt));
    unlock(k);
    release(k);
}

int caladan_rt_processor(void) {
    kernel_thread *k = self;
    uint64_t core = k ? k->words[RUNNING] : CALADAN_PARK; /* which the thread itself alone changes */
    return core - 1 < HOST_CORES ? k->rt->segment->processor[core - 1] : -1;
}

bool caladan_rt_stands_under(const caladan_rt *rt) { return rt->stands_under; }

/* ---- what is not to be on a core ---- */

int caladan_rt_thread(caladan_rt *rt, pthread_t *thread, const pthread_attr_t *attributes, void *(*start)(void *),
                      void *with) {
    return is_child(rt) ? ECHILD : helper_thread(rt->helper, thread, attributes, start, with);
}

int caladan_rt_spawn(caladan_rt *rt, pid_t *pid, const char *path, const posix_spawn_file_actions_t *actions,
                     const posix_spawnattr_t *attributes, char *const *words, char *const *environment) {
    if (is_child(rt)) return ECHILD;
    return helper_spawn(rt->helper, pid, path, actions, attributes, words, environment);
}

/* ---- the start ---- */

static caladan_rt *make_rt(host_segment *segment) {
    size_t size = sizeof(caladan_rt) + segment->threads * sizeof(kernel_thread);
    caladan_rt *rt = aligned_alloc(CALADAN_LINE, (size + CALADAN_LINE - 1) / CALADAN_LINE * CALADAN_LINE);
    if (rt == NULL) return NULL;
    __builtin_memset(rt, 0, size);
    rt->segment = segment;
    rt->forks = forks;
    rt->process = getpid();
    rt->stands_under = segment->stands_under;
    rt->epoch = segment->epoch;
    atomic_store(&rt->tick_0, segment->epoch);
    rt->threads = segment->threads;
    for (unsigned i = 0; i < rt->threads; i++) {
        kernel_thread *k = &rt->thread[i];
        *k = (kernel_thread){.rt = rt, .number = i, .slot = &segment->slot[i]};
        k->queue = calloc(QUEUE, sizeof *k->queue);
        if (k->queue == NULL) errno = ENOMEM;
    }
    return rt;
}

/* Nothing of a runtime that could not be started is left: its threads have touched no page. */
static void unmake(caladan_rt *rt, unsigned started) {
    atomic_store(&rt->begun, GIVEN_UP);
    futex_wake_all(&rt->begun);
    for (unsigned i = 0; i < started; i++) pthread_join(rt->thread[i].thread, NULL);
    for (unsigned i = 0; i < rt->threads; i++) free(rt->thread[i].queue);
    helper_end(rt->helper);
    free(rt);
}

static caladan_rt *start_threads(caladan_rt *rt) {
    struct sigaction action = {.sa_handler = on_signal, .sa_flags = SA_RESTART};
    static pthread_once_t once = PTHREAD_ONCE_INIT;
    unsigned started = 0;
    pthread_once(&once, notice_forks);
    int error = not_noticed;
    for (unsigned i = 0; i < rt->threads && !error; i++) error = rt->thread[i].queue ? 0 : ENOMEM;
    for (; started < rt->threads && !error; started += !error)
        error = pthread_create(&rt->thread[started].thread, NULL, live, &rt->thread[started]);
    if (!error) rt->helper = helper_begin(), error = rt->helper ? 0 : errno;
    if (!error) error = begin_to_watch(rt);
    if (error) {
        unmake(rt, started);
        errno = error;
        return NULL;
    }
    sigaction(HOST_SIGNAL, &action, NULL);
    atomic_store(&rt->begun, BEGUN);
    futex_wake_all(&rt->begun);
    return rt;
}

/* ---- the end ---- */

/* Its threads have ended. */
static size_t dismantle(caladan_rt *rt) {
    size_t left = 0;
    for (unsigned i = 0; i < rt->threads; i++) left += rt->thread[i].count, free(rt->thread[i].queue);
    helper_end(rt->helper);
    munmap(rt->segment, sizeof *rt->segment);
    close(rt->connection);
    free(rt);
    return left;
}

bool caladan_rt_stop(caladan_rt *rt, size_t *unserved) {
    errno = is_child(rt) ? ECHILD : EDEADLK;
    if (is_child(rt) || (self && self->rt == rt)) return false;
    atomic_store(&rt->stops, true);
    /* the scheduler gives the task up, and the watcher tells the threads */
    if (!atomic_load(&rt->is_over)) shutdown(rt->connection, SHUT_RDWR);
    while (atomic_load(&rt->is_watched)) sched_yield();
    futex_wake_all(&rt->turn); /* where the scheduler was over before, they may wait */
    for (unsigned i = 0; i < rt->threads; i++) pthread_join(rt->thread[i].thread, NULL);
    size_t left = dismantle(rt);
    if (unserved) *unserved = left;
    return true;
}

/* Whoever has a handler counts on it: it is not replaced. */
static bool is_free(int signal) {
    struct sigaction there;
    if (sigaction(signal, NULL, &there)) return false;
    if ((there.sa_flags & SA_SIGINFO) == 0 && there.sa_handler == on_signal) return true;
    return (there.sa_flags & SA_SIGINFO) == 0 && (there.sa_handler == SIG_DFL || there.sa_handler == SIG_IGN);
}

caladan_rt *caladan_rt_start(const char *name, unsigned task, uint64_t idle_ns, caladan_serve *serve, void *with) {
    int connection;
    errno = EEXIST;
    if (!is_free(HOST_SIGNAL)) return NULL;
    host_segment *segment = host_attach(name, task, &connection);
    if (segment == NULL) return NULL;
    caladan_rt *rt = make_rt(segment);
    if (rt) {
        snprintf(rt->name, sizeof rt->name, "%s", name);
        rt->task = task, rt->connection = connection, rt->idle_ns = idle_ns;
        rt->serve = serve, rt->with = with;
        sched_getaffinity(0, sizeof rt->allowed, &rt->allowed);
        rt->class = sched_getscheduler(0);
        rt = start_threads(rt);
    }
    if (rt) return rt;
    int error = errno;
    munmap(segment, sizeof *segment);
    close(connection);
    errno = error;
    return NULL;
}
