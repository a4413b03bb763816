/* pass_test.c: which threads a pass may send a command, and which passes are recorded, by a clock and a library of the
 * test's own. A thread that has just left its core is granted nothing until it can sleep, since to pin it before would
 * take as long; nor is one that is to be tried again later, or at which nobody looks. One with a core may be told to
 * leave in any case. Not recorded is a pass that does nothing, and finds no record, or the one that was kept. The only
 * call of the library that a pass makes is the pass: there is no other here. */
#define _GNU_SOURCE
#include <stdio.h>
#include <stdlib.h>
#include <string.h>
#include <time.h>
#include "../caladand.h"

static unsigned long long nanoseconds = 10000000000;
int __wrap_clock_gettime(clockid_t clock, struct timespec *t);
int __wrap_clock_gettime(clockid_t clock, struct timespec *t) {
    (void)clock;
    *t = (struct timespec){(time_t)(nanoseconds / 1000000000), (long)(nanoseconds % 1000000000)};
    return 0;
}

static scheduler s;
static host_segment segment;
static bool had_room;          /* the thread's ring, in the last pass */
static caladan_action planned; /* what the next pass does; of kind 0 nothing */
static uint8_t judgement = CALADAN_KEPT; /* of each look */

uint8_t caladan_pass_each(caladan *handle, uint64_t now, uint64_t figure, const caladan_look *looks, size_t count,
                          uint8_t *judged, size_t judged_room, caladan_action *actions, size_t room, size_t *made) {
    (void)handle, (void)now, (void)figure, (void)count, (void)judged_room, (void)room;
    had_room = looks[0].room;
    judged[0] = judgement;
    actions[0] = planned;
    *made = planned.kind != 0;
    planned.kind = 0;
    return CALADAN_DONE;
}
bool stands_under(const scheduler *it, size_t k) { return it->task[it->thread[k].task].is_under; }
void under_look(scheduler *it, size_t k, const caladan_look *page, uint64_t now) {
    (void)it, (void)k, (void)page, (void)now;
}
void under_grant(scheduler *it, size_t k, unsigned core) { (void)it, (void)k, (void)core; }
void under_revoke(scheduler *it, size_t k, uint8_t cause) { (void)it, (void)k, (void)cause; }
void under_free(scheduler *it, size_t k) { (void)it, (void)k; }
void under_cap(scheduler *it, unsigned task, uint8_t cap) { (void)it, (void)task, (void)cap; }
void under_settle(scheduler *it, uint64_t now) { (void)it, (void)now; }
bool is_clear(const scheduler *it, unsigned core, size_t of) { (void)it, (void)core, (void)of; return true; }
void plan_run(scheduler *it, size_t k, unsigned core) { (void)it, (void)k, (void)core; }
void plan_park(scheduler *it, size_t k, unsigned from, unsigned to) { (void)it, (void)k, (void)from, (void)to; }
void plan_nothing(scheduler *it, size_t k) { (void)it, (void)k; }
void carry_out(scheduler *it) { (void)it; }
void wait_for_moves(scheduler *it) { (void)it; }
void account_time(scheduler *it, uint64_t now) { (void)it, (void)now; }
void fail(const char *what, const char *why) { printf("%s: %s\n", what, why), exit(2); }
void latency_decided(latency *l, uint64_t now, const latency_thread *threads, size_t count,
                     const caladan_action *actions, size_t made) {
    (void)l, (void)now, (void)threads, (void)count, (void)actions, (void)made;
}
void latency_looked(latency *l, uint64_t now, const latency_thread *threads, size_t count) {
    (void)l, (void)now, (void)threads, (void)count;
}
static FILE *recorded; /* in memory */
static char *text;
static size_t length;
FILE *record_file(record *r) { (void)r; return recorded; }

static int failed;
static void check(bool is, const char *why) {
    if (!is) printf("%s\n", why), failed = 1;
}

/* Whether the thread may be sent a command so much later. */
static bool may_be_sent_after(unsigned long long ns) {
    nanoseconds += ns;
    make_pass(&s);
    return had_room;
}

static void act(uint8_t kind) {
    uint8_t cause = kind == CALADAN_REVOKE ? CALADAN_FOR_TASK : 0;
    planned = (caladan_action){.kind = kind, .core = 0, .thread = 0, .cause = cause};
    make_pass(&s);
}

/* A task of one thread, which has begun and has no core. */
static void begin(void) {
    s = (scheduler){.machine = {.cores = 1, .tasks = 1, .threads = 1}};
    s.task[0] = (host_task){.limit = 1, .is_critical = true, .segment = &segment, .pid = 1, .is_attached = true};
    s.thread[0] = (host_thread){.seat.slot = &segment.slot[0]};
    atomic_store(&segment.slot[0].tid, 1);
}

static void check_left(void) {
    begin();
    check(may_be_sent_after(1000), "one that never had a core may not be sent a command");
    act(CALADAN_GRANT);
    check(may_be_sent_after(1000), "one with a core cannot be told to leave it");
    act(CALADAN_FREE);
    check(!may_be_sent_after(0), "one that has left in this moment is granted a core");
    check(!may_be_sent_after(4000), "one that left four microseconds ago is granted a core");
    check(may_be_sent_after(2000), "one that left six microseconds ago is granted nothing");
}

static void check_others(void) {
    begin();
    s.thread[0].seat.retry_at = now_of(&s) + 1000000;
    check(!may_be_sent_after(900000), "one that could not be pinned is granted a core before it is time");
    check(may_be_sent_after(200000), "one that could not be pinned is granted nothing for ever");
    s.thread[0].seat.is_refused = true;
    check(may_be_sent_after(1000) == false, "one whose look was refused is granted a core");
    check(may_be_sent_after(1000), "one whose look was kept is granted nothing");
    s.thread[0].core = 1;
    s.thread[0].seat.is_refused = true;
    check(may_be_sent_after(1000), "one whose look was refused cannot be told to leave its core");
    atomic_store(&segment.slot[0].tid, 0);
    s.thread[0].core = 0;
    check(!may_be_sent_after(1000), "one that has not begun is granted a core");
    atomic_store(&segment.slot[0].tid, 1);
    s.task[0].is_attached = false;
    check(!may_be_sent_after(1000), "one of a process that is not attached is granted a core");
}

/* ---- what is recorded ---- */

/* Whether the next pass is, and how many are counted. */
static bool is_recorded(void) {
    size_t before = length;
    uint64_t counted = s.passes;
    make_pass(&s);
    fflush(recorded);
    check(s.passes - counted == (length > before), "a pass is recorded and not counted, or counted and not recorded");
    return length > before;
}

static void check_recorded(void) {
    uint64_t words[CALADAN_WORDS] = {0};
    caladan_publisher publisher = {&segment.slot[0].page, 0};
    begin();
    s.record = (record *)&s; /* which is not looked into */
    check(!is_recorded(), "a pass that finds the record of an empty page is recorded");
    words[QUEUED] = 1;
    caladan_publish(&publisher, words);
    check(is_recorded(), "a pass that keeps a new record is not recorded");
    check(!is_recorded(), "a pass that finds the same record once more is recorded");
    caladan_publish(&publisher, words);
    check(is_recorded(), "a pass that keeps the same words at a new place is not recorded");
    planned = (caladan_action){.kind = CALADAN_CAP};
    check(is_recorded(), "a pass that does something is not recorded");
    caladan_publish_begin(&publisher);
    judgement = CALADAN_BUSY;
    check(!is_recorded(), "a pass that finds a busy page is recorded");
    words[QUEUED] = 2;
    caladan_publish_end(&publisher, words);
    judgement = CALADAN_AHEAD;
    check(!is_recorded(), "a pass whose look was refused is recorded");
    judgement = CALADAN_KEPT;
    check(is_recorded(), "a pass that keeps what was refused before is not recorded");
    s.options.each = true;
    check(is_recorded(), "an idle pass is not recorded, though each is to be");
    s.options.each = false;
    s.record = NULL;
    check(!is_recorded(), "a pass without a record is recorded");
}

int main(void) {
    recorded = open_memstream(&text, &length);
    check_left();
    check_others();
    check_recorded();
    return failed;
}
