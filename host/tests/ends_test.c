/* ends_test.c: patience, and the end of a piece, by a clock and a kernel of the test's own. Who leaves in time is not
 * killed, though he was not looked at since; nobody is killed for fewer looks than sixteen; and it ends, whoever stays.
 * A thread that runs and does not leave is deaf, however little of its processor the scheduler has; one that gets no
 * processor is not, up to a bound by the wall clock; nor is a standstill anybody's fault. Who dumps core is buried at
 * once, and not killed. */
#define _GNU_SOURCE
#include <stdarg.h>
#include <stdio.h>
#include <stdlib.h>
#include <time.h>
#include <unistd.h>
#include "../caladand.h"

static unsigned long long nanoseconds, kills, looks_made, looks_at_kill, hurried_at;
int __wrap_clock_gettime(clockid_t clock, struct timespec *t);
int __wrap_clock_gettime(clockid_t clock, struct timespec *t) {
    (void)clock;
    nanoseconds += 1000;
    *t = (struct timespec){(time_t)(nanoseconds / 1000000000), (long)(nanoseconds % 1000000000)};
    return 0;
}
long __wrap_syscall(long number, ...);
long __wrap_syscall(long number, ...) {
    if (number != SYS_pidfd_send_signal) return 0;
    if (kills++ == 0) looks_at_kill = looks_made;
    return 0;
}

/* ---- one task, whose one thread has core 0 ---- */

static host_segment segment;
static uint64_t leaves_at; /* 0: never */

void make_pass(scheduler *s) {
    uint64_t now = now_of(s);
    looks_made++;
    s->looks++;
    account_time(s, now);
    if (leaves_at == 0 || now < leaves_at) return;
    s->thread[0].core = 0;
    atomic_store(&segment.slot[0].phase, s->phase);
}
void beat(scheduler *it) { (void)it; }
void stop_moving(scheduler *s) { (void)s; }
void lift(scheduler *s, size_t k) { (void)s, (void)k; }
void under_begin(scheduler *s, size_t k) { (void)s, (void)k; }
bool stands_under(const scheduler *s, size_t k) { (void)s, (void)k; return false; }
static unsigned long long buried;
void give_up(scheduler *s, host_task *task) {
    task->pid = 0, s->thread[0].core = 0;
    s->thread[0].seat.leaving.is_set = false;
}
void bury(scheduler *s, host_task *task) { buried++, give_up(s, task); }
bool has_ended(const host_task *task) { (void)task; return false; }
void tend_each(scheduler *s) { (void)s; }
void interrupt(const host_task *task, const host_slot *slot) { (void)task, (void)slot, hurried_at = nanoseconds; }
void complain(const char *format, ...) { (void)format; }
void fail(const char *what, const char *why) { (void)what, (void)why, exit(2); }
unsigned stop_signals(void) { return 0; }
unsigned number_of(const scheduler *s, const host_task *task) { (void)s, (void)task; return 0; }
void latency_begin_piece(latency *l) { (void)l; }
bool record_is_full(const record *r) { (void)r; return false; }
bool record_begin_piece(record *r, uint64_t number) { (void)r, (void)number; return true; }
bool record_end_piece(record *r, uint64_t passes) { (void)r, (void)passes; return true; }
uint8_t open_table(scheduler *s) { (void)s; return 2; }
uint8_t caladan_close(caladan *handle) { (void)handle; return CALADAN_DONE; }

/* ---- what the kernel tells of that thread ---- */

static enum { UNKNOWN, RUNS, WAITS, STOPPED, DUMPS } is;
static unsigned long long began;
static unsigned long long lost; /* which the scheduler waited for its processor */
uint64_t run_delay(void) { return lost; }
uint64_t on_cpu_time(pid_t pid, pid_t tid) {
    (void)pid, (void)tid;
    if (is == UNKNOWN) return 0;
    return 1000000 + (is == RUNS ? nanoseconds - began : 0);
}
bool is_runnable(pid_t pid, pid_t tid) { (void)pid, (void)tid; return is == RUNS || is == WAITS; }
const char *what_stops(pid_t pid, pid_t tid) { (void)pid, (void)tid; return ""; }
bool is_dumping_core(pid_t pid) { (void)pid; return is == DUMPS; }

static scheduler s;

/* A task whose one thread has core 0, and a patience of a second. */
static void begin_one(void) {
    s = (scheduler){.machine = {.cores = 1, .tasks = 1, .threads = 1}, .options = {.patience = 1000000000}};
    kills = looks_made = looks_at_kill = buried = 0;
    began = nanoseconds;
    s.delayed = lost;
    s.run_time = s.wall_time = s.accounted_at = now_of(&s);
    s.task[0] = (host_task){.limit = 1, .segment = &segment, .pid = 1, .file = 1, .is_attached = true};
    s.thread[0] = (host_thread){.seat.slot = &segment.slot[0], .core = 1};
    atomic_store(&segment.slot[0].tid, 1);
}

/* An end; how long it took. */
static uint64_t end_one(uint64_t leaves, bool is_deaf) {
    begin_one();
    leaving late = {.is_set = true, .since = s.run_time - 2000000000, .since_wall = s.wall_time - 2000000000};
    if (is_deaf) s.thread[0].seat.leaving = late;
    uint64_t from = now_of(&s);
    leaves_at = leaves ? from + leaves : 0;
    end_piece(&s);
    return now_of(&s) - from;
}

static int failed;
static void check(bool is, const char *why, unsigned long long number) {
    if (!is) printf("%s (%llu)\n", why, number), failed = 1;
}

/* Looks so far apart, of which the scheduler had a millisecond each, at a thread that is to leave: after how long its
 * process is killed; 0: not in a minute. `others` had the scheduler's processor meanwhile, or all stood still. */
static uint64_t patience_at(uint64_t apart, bool others) {
    begin_one();
    leaves_at = 0;
    note_leaving(&s, 0, 0);
    uint64_t from = nanoseconds;
    while (kills == 0 && nanoseconds - from < 60000000000) {
        nanoseconds += apart;
        lost += others ? apart - 1000000 : 0;
        make_pass(&s);
        kill_the_deaf(&s);
    }
    return kills ? nanoseconds - from : 0;
}

static void check_between(const char *why, uint64_t took, uint64_t least, uint64_t most) {
    check(took >= least && took <= most, why, took);
}

static void check_patience(void) {
    uint64_t ms = 1000000;
    is = RUNS;
    check_between("one that runs, beside a free scheduler", patience_at(ms, true), 1000 * ms, 1020 * ms);
    check_between("one that runs, beside a scheduler without time", patience_at(64 * ms, true), 1000 * ms, 1200 * ms);
    is = WAITS;
    check_between("one without a processor", patience_at(ms, true), 5000 * ms, 5020 * ms);
    check_between("one without a processor, as the scheduler", patience_at(64 * ms, true), 5000 * ms, 5200 * ms);
    check_between("looks that come twice in three seconds", patience_at(1500 * ms, true), 22500 * ms, 24100 * ms);
    is = STOPPED;
    check_between("one that is stopped", patience_at(ms, true), 1000 * ms, 1020 * ms);
    check_between("one that is stopped, beside a scheduler without time", patience_at(64 * ms, true), 4900 * ms,
                  5200 * ms);
    is = UNKNOWN;
    check_between("one of which nothing is known", patience_at(ms, true), 1000 * ms, 1020 * ms);
    is = WAITS; /* seventeen standstills, which count as a quarter of a second each */
    check_between("one that stood still with the machine", patience_at(3500 * ms, false), 0, 0);
}

/* Whoever was not given time is to have it in time. */
static void check_hurry(void) {
    uint64_t ms = 1000000;
    is = WAITS;
    uint64_t took = patience_at(64 * ms, true), at = took + hurried_at - nanoseconds;
    check_between("one without a processor, as the scheduler, is interrupted again", at, 1000 * ms, 1200 * ms);
    took = patience_at(ms, true), at = took + hurried_at - nanoseconds;
    check_between("one without a processor is interrupted again", at, 500 * ms, 520 * ms);
}

static void check_dump(void) {
    is = DUMPS;
    patience_at(1000000, true);
    check(buried == 1 && kills == 0, "who dumps core was killed, or not buried; kills", kills);
    is = UNKNOWN;
}

int main(void) {
    nanoseconds = 10000000000;
    check_patience();
    check_hurry();
    check_dump();
    for (uint64_t leaves = 900000000; leaves < 1000000000; leaves += 5000000) {
        end_one(leaves, false);
        check(kills == 0, "a process was killed that left within the patience, after so many ns", leaves);
    }
    uint64_t took = end_one(0, false);
    check(kills > 0 && took >= 1000000000, "who stayed was not killed, or too early; it took so many ns", took);
    check(took < 3000000000, "an end took more than the patience and two seconds", took);
    end_one(0, true);
    check(looks_at_kill >= 16, "a process was killed after so few looks", looks_at_kill);
    return failed;
}
