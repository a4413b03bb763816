/* moves_test.c: in which order threads are moved, by calls of the test's own: what they find in
 * their rings comes first, then latency-critical ones are woken, then others are interrupted, then
 * the rest is woken; nobody is woken who does not sleep; a Run is not there before its thread is
 * pinned; and who cannot be pinned, or twice only slowly, is granted nothing for a while. A mover that makes no moves
 * is put elsewhere, and waited for no longer than some seconds. */
#define _GNU_SOURCE
#include <errno.h>
#include <setjmp.h>
#include <stdarg.h>
#include <stdbool.h>
#include <stdio.h>
#include <stdlib.h>
#include <string.h>
#include <sys/resource.h>
#include <time.h>
#include <unistd.h>
#include "../caladand.h"

static unsigned long long nanoseconds = 10000000000;
static unsigned long long each_call; /* that many pass at each look at the clock */
static long voluntary;
static char said[256]; /* what was called, in order */
static bool refuses, waits_for_it;
static unsigned long long takes;
static unsigned long long found[4]; /* how many commands each found at the first pinning */
static unsigned long long sent(int k);

int __wrap_clock_gettime(clockid_t clock, struct timespec *t);
int __wrap_clock_gettime(clockid_t clock, struct timespec *t) {
    (void)clock;
    nanoseconds += each_call;
    *t = (struct timespec){(time_t)(nanoseconds / 1000000000), (long)(nanoseconds % 1000000000)};
    return 0;
}

static void say(const char *word, int thread) {
    snprintf(said + strlen(said), sizeof said - strlen(said), "%s%d ", word, thread);
}

int __wrap_sched_setaffinity(pid_t tid, size_t size, const cpu_set_t *cpus);
int __wrap_sched_setaffinity(pid_t tid, size_t size, const cpu_set_t *cpus) {
    (void)size, (void)cpus;
    for (int k = 0; k < 4 && said[0] == 0; k++) found[k] = sent(k);
    say("pin", tid - 100);
    nanoseconds += takes;
    voluntary += waits_for_it;
    return refuses ? (errno = EINVAL, -1) : 0;
}
int __wrap_getrusage(int who, struct rusage *used);
int __wrap_getrusage(int who, struct rusage *used) {
    (void)who;
    used->ru_nvcsw = voluntary;
    return 0;
}

static scheduler s;
static host_segment segment;

long __wrap_syscall(long number, ...);
long __wrap_syscall(long number, ...) {
    va_list rest;
    va_start(rest, number);
    void *first = va_arg(rest, void *);
    va_end(rest);
    for (int k = 0; number == SYS_futex && k < 4; k++)
        if (first == (void *)&segment.slot[k].doorbell) say("wake", k);
    return 0;
}

bool is_own_thread(const host_task *task, pid_t tid) { return task && tid >= 100; }
void interrupt(const host_task *task, const host_slot *slot) {
    (void)task;
    say("signal", (int)(slot - segment.slot));
}
void note_leaving(scheduler *it, size_t k, unsigned core) {
    it->thread[k].seat.leaving = (leaving){.is_set = true, .core = core};
}
bool stands_under(const scheduler *it, size_t k) { return it->task[it->thread[k].task].is_under; }
void complain(const char *format, ...) { (void)format; }
bool start_clerk(clerk_work *work, void *with, const cpu_set_t *where) {
    (void)work, (void)with, (void)where;
    return true; /* but it never runs */
}
static unsigned stops;
unsigned stop_signals(void) { return stops; }
static unsigned long long placed_at;
bool place_clerk(clerk_work *work, const cpu_set_t *where) {
    (void)work;
    if (CPU_ISSET(3, where)) placed_at = nanoseconds;
    return true;
}
static jmp_buf given_up;
void fail(const char *what, const char *why) { (void)what, (void)why, longjmp(given_up, 1); }

static int failed;
static void check(bool is, const char *why) {
    if (!is) printf("%s: %s\n", why, said), failed = 1;
}

/* Threads 0 and 1 are latency-critical, 2 and 3 best-effort; all sleep, and are pinned to their
 * cores, but for 1. */
static void begin(void) {
    memset(&segment, 0, sizeof segment);
    free(s.moves);
    s = (scheduler){.machine = {.cores = 4, .tasks = 2, .threads = 4}, .options = {.mover = -1}};
    s.task[0].is_critical = true;
    s.task[0].segment = s.task[1].segment = &segment;
    for (int k = 0; k < 4; k++) {
        host_thread *thread = &s.thread[k];
        *thread = (host_thread){.task = k / 2, .core = (unsigned)k + 1};
        thread->seat.slot = &segment.slot[k];
        thread->seat.pin.sender.ring = &segment.slot[k].ring;
        thread->seat.pin.tid = k == 1 ? 0 : 100 + k;
        thread->seat.pin.core = (unsigned)k;
        atomic_store(&segment.slot[k].tid, 100 + k);
        atomic_store(&segment.slot[k].asleep, k != 2);
    }
    check(begin_moves(&s), "no memory");
    said[0] = 0;
    refuses = waits_for_it = false;
    takes = 0;
}

static unsigned long long sent(int k) { return atomic_load(&segment.slot[k].ring.sent); }
static uint64_t command(int k) { return atomic_load(&segment.slot[k].ring.commands[0]); }

static void check_order(void) {
    begin();
    plan_run(&s, 3, 3);
    plan_park(&s, 2, 2, 0);
    plan_run(&s, 1, 1);
    plan_run(&s, 0, 0);
    carry_out(&s);
    check(found[0] && found[2] && found[3], "one does not find its command before the calls");
    check(found[1] == 0, "one finds a Run before it is pinned");
    check(!strcmp(said, "pin1 wake1 wake0 signal2 wake3 "), "another order");
    for (int k = 0; k < 4; k++) check(sent(k) == 1, "one was not sent one command");
    check(command(1) == 2 && command(2) == CALADAN_PARK, "another command");
}

static void check_awake(void) {
    begin();
    atomic_store(&segment.slot[0].asleep, 0);
    plan_run(&s, 0, 0);
    carry_out(&s);
    check(said[0] == 0, "one was woken that does not sleep");
    check(atomic_load(&segment.slot[0].doorbell) == 1, "its doorbell did not grow");
}

static void check_refused(void) {
    begin();
    refuses = true;
    plan_run(&s, 1, 1);
    carry_out(&s);
    check(sent(1) == 1 && command(1) == CALADAN_PARK, "who cannot be pinned is not sent Park");
    check(s.thread[1].seat.retry_at > 0 && s.thread[1].seat.leaving.is_set, "it is not noted");
    check(s.counts.unpinned == 1, "it is not counted");
}

/* So often pinned in so long; `waits`: since it runs, and not since we were put aside. */
static void pin_slowly(int times, bool waits, unsigned long long ns) {
    takes = ns;
    for (int i = 0; i < times; i++) {
        waits_for_it = waits;
        s.thread[1].seat.pin.tid = 0;
        plan_run(&s, 1, 1);
        carry_out(&s);
    }
}

static void check_slow(void) {
    begin();
    pin_slowly(1, true, 20000);
    check(s.counts.slow_pins == 1 && s.thread[1].seat.retry_at == 0, "the first slow one");
    pin_slowly(1, true, 500);
    pin_slowly(1, true, 20000);
    check(s.counts.slow_pins == 2 && s.thread[1].seat.retry_at == 0, "one after a quick one");
    pin_slowly(1, true, 20000);
    check(s.counts.slow_pins == 3 && s.thread[1].seat.retry_at > 0, "two, one after the other");
    begin();
    pin_slowly(4, false, 5000000);
    check(s.counts.slow_pins == 0, "one for which nobody waited");
}

/* How long a move is waited for that a mover never makes; when it was put elsewhere is in placed_at. */
static unsigned long long wait_for_mover(unsigned stop) {
    begin();
    s.options.mover = 1;
    CPU_SET(3, &s.others);
    free(s.moves);
    check(begin_moves(&s), "no mover");
    plan_run(&s, 0, 0);
    carry_out(&s);
    stops = stop, placed_at = 0, each_call = 100000;
    volatile unsigned long long from = nanoseconds;
    if (setjmp(given_up) == 0) wait_for_moves(&s);
    placed_at -= from;
    return nanoseconds - from;
}

static void check_mover(void) {
    unsigned long long took = wait_for_mover(0);
    check(took >= 20000000000 && took < 20100000000, "a mover that makes no moves is waited for too long, or not");
    check(placed_at >= 1000000000 && placed_at < 1100000000, "it is not put elsewhere after a second");
    took = wait_for_mover(2);
    check(took < 2100000000, "told twice to end, the scheduler waits for it");
}

int main(void) {
    check_order();
    check_awake();
    check_refused();
    check_slow();
    check_mover();
    return failed;
}
