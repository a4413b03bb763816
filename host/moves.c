/* moves.c: how threads get to their cores and off them. A pass plans its moves, and carries them
 * out at its end, in an order in which nobody waits for what can wait: first what a thread finds
 * in its ring, of all threads that need not be pinned before; then latency-critical threads are
 * woken, then others are interrupted, then the rest is woken.
 *
 * Where it has a processor, a thread of its own does it: the mover. It pins, which takes long
 * where a thread does not sleep, and what comes after that in a ring. What a seat says for the
 * mover is his while moves of it are not done. */
#define _GNU_SOURCE
#include <errno.h>
#include <semaphore.h>
#include <stdlib.h>
#include <string.h>
#include <sys/resource.h>
#include "caladand.h"

/* how long who could not be pinned is granted nothing, in ns */
#define RETRY ((uint64_t)100000000)
#define SELDOM ((uint64_t)1000000000) /* how often such is said, in nanoseconds */
/* a pinning that waited, and took longer, was of a thread that ran, in ns */
#define LONG ((uint64_t)5000)
/* how long the mover may make no move, before it is put elsewhere, and before the run ends, in ns */
#define STUCK ((uint64_t)1000000000)
#define LOST ((uint64_t)20000000000)
/* how long the mover looks for work before it sleeps, in ns */
#define RESTLESS ((uint64_t)200000)
enum { MOST_MOVES = 1024 }; /* four of each thread, and more cannot be under way */
enum { RUN, PARK, NOTHING };
enum { FIRST, THEN, LAST, RANKS };

typedef struct move {
    uint8_t thread, what, rank;
    bool is_first, is_sent; /* none of the thread's is under way; its command is in the ring */
    /* of a Run: where; of a Park: where the thread is put, plus one, or 0 */
    unsigned core, to;
} move;

/* What a pass plans, and what the mover has to do, of one scheduler. */
struct moves {
    move planned[MOST_MOVES];
    size_t count;
    bool is_open; /* some that were handed on are not known to be done */
    move handed[MOST_MOVES];
    atomic_size_t put, done;
    size_t seen;      /* how many were done when the scheduler looked last, and since when */
    uint64_t seen_at;
    bool is_elsewhere; /* the mover was put elsewhere, and has not made a move since */
    atomic_bool is_asleep;
    sem_t bell;
};

/* ---- one move ---- */

/* Whether it is where it is to be, and in the class in which it is to be. */
static bool is_pinned(const scheduler *s, const host_thread *thread, unsigned core) {
    const host_seat *seat = &thread->seat;
    pid_t tid = atomic_load(&seat->slot->tid);
    if (tid == 0 || seat->pin.tid != tid || seat->pin.core != core) return false;
    return !s->task[thread->task].is_under || seat->pin.idle == tid;
}

static bool put_on(const scheduler *s, pid_t tid, unsigned core) {
    cpu_set_t cpus;
    CPU_ZERO(&cpus);
    CPU_SET((size_t)s->options.cpu[core], &cpus);
    return sched_setaffinity(tid, sizeof cpus, &cpus) == 0;
}

/* How often this thread has waited for something: who is put aside for another thread has not. */
static long waits(void) {
    struct rusage used;
    return getrusage(RUSAGE_THREAD, &used) ? 0 : used.ru_nvcsw;
}

/* Whoever looks for strays is to know it before it is pinned. */
static void take_seat(scheduler *s, const host_thread *thread, pid_t tid) {
    const host_task *task = &s->task[thread->task];
    atomic_store(&s->seated[thread->task][thread->seat.slot - task->segment->slot], tid);
}

static bool put_under(host_seat *seat, pid_t tid) {
    struct sched_param none = {0};
    if (seat->pin.idle == tid) return true;
    if (sched_setscheduler(tid, SCHED_IDLE, &none)) return false;
    seat->pin.idle = tid;
    return true;
}

/* The thread sleeps, and so wakes on the core's processor. False: it is not pinned there. */
static bool pin(scheduler *s, host_thread *thread, unsigned core) {
    host_seat *seat = &thread->seat;
    const host_task *task = &s->task[thread->task];
    pid_t tid = atomic_load(&seat->slot->tid);
    if (is_pinned(s, thread, core)) return true;
    seat->pin.tid = seat->pin.error = 0;
    seat->pin.is_lost = true;
    if (!is_own_thread(task, tid)) return false;
    take_seat(s, thread, tid);
    long before = waits();
    uint64_t from = host_clock();
    if ((task->is_under && !put_under(seat, tid)) || !put_on(s, tid, core)) {
        seat->pin.error = errno;
        return false;
    }
    if (host_clock() - from > LONG && waits() != before) seat->pin.is_slow = true;
    else seat->pin.slow = 0;
    seat->pin.is_lost = false;
    seat->pin.tid = tid;
    seat->pin.core = core;
    return true;
}

/* Who cannot be pinned is sent Park in place of Run: when it has taken that, its core is free. */
static uint64_t command_of(scheduler *s, const move *m) {
    bool is_pinned_now = m->what == RUN && pin(s, &s->thread[m->thread], m->core);
    return is_pinned_now ? m->core + 1u : CALADAN_PARK;
}

/* A thread that does not run, for another one works on its processor, is put elsewhere before it
 * can answer. */
static void put_elsewhere(const scheduler *s, host_thread *thread, unsigned core) {
    host_seat *seat = &thread->seat;
    if (!is_own_thread(&s->task[thread->task], seat->pin.tid)) return;
    if (put_on(s, seat->pin.tid, core)) seat->pin.core = core;
}

static void do_move(scheduler *s, const move *m) {
    host_thread *thread = &s->thread[m->thread];
    host_seat *seat = &thread->seat;
    if (!m->is_sent) caladan_ring_send(&seat->pin.sender, command_of(s, m));
    if (m->what == PARK) interrupt(&s->task[thread->task], seat->slot);
    else ring_bell(seat->slot);
    if (m->to) put_elsewhere(s, thread, m->to - 1);
    atomic_fetch_add(&seat->done, 1);
}

/* ---- the mover ---- */

static void rest(moves *it) {
    uint64_t from = host_clock();
    while (atomic_load(&it->put) == atomic_load(&it->done)) {
        host_pause();
        if (host_clock() - from < RESTLESS) continue;
        atomic_store(&it->is_asleep, true);
        if (atomic_load(&it->put) == atomic_load(&it->done)) while (sem_wait(&it->bell)) {}
        atomic_store(&it->is_asleep, false);
    }
}

static void move_each(void *with) {
    scheduler *s = with;
    for (;;) {
        rest(s->moves);
        size_t next = atomic_load(&s->moves->done);
        do_move(s, &s->moves->handed[next % MOST_MOVES]);
        atomic_store(&s->moves->done, next + 1);
    }
}

bool begin_moves(scheduler *s) {
    cpu_set_t where;
    s->moves = calloc(1, sizeof *s->moves);
    if (s->moves == NULL || s->options.mover < 0) return s->moves != NULL;
    CPU_ZERO(&where);
    CPU_SET((size_t)s->options.mover, &where);
    sem_init(&s->moves->bell, 0, 0);
    s->has_mover = start_clerk(move_each, s, &where);
    return s->has_mover;
}

/* There is always room: no thread has more than four moves under way, and one that is told once
 * more is not moved. */
static void hand_over(moves *it, const move *m) {
    size_t next = atomic_load(&it->put);
    if (next == atomic_load(&it->done)) it->seen = next, it->seen_at = host_clock();
    it->handed[next % MOST_MOVES] = *m;
    atomic_store(&it->put, next + 1);
    if (atomic_exchange(&it->is_asleep, false)) sem_post(&it->bell);
}

/* ---- what comes of it ---- */

static void say_unpinned(scheduler *s, size_t k, const char *then, const char *why) {
    const host_thread *thread = &s->thread[k];
    uint64_t now = now_of(s);
    if (s->complained && now - s->complained < SELDOM) return;
    s->complained = now;
    complain("thread %zu (%d of process %d, task %u) cannot be pinned to processor %d, and %s: %s",
             k, atomic_load(&thread->seat.slot->tid), s->task[thread->task].pid, thread->task,
             thread->core ? s->options.cpu[thread->core - 1] : -1, then, why);
}

static const char *why_unpinned(const host_seat *seat) {
    return seat->pin.error ? strerror(seat->pin.error) : "it is no thread of that process";
}

static void settle_lost(scheduler *s, size_t k) {
    host_thread *thread = &s->thread[k];
    host_seat *seat = &thread->seat;
    if (seat->pin.error) s->counts.unpinned++;
    else s->counts.foreign_tids++;
    seat->retry_at = now_of(s) + RETRY;
    say_unpinned(s, k, "is parked again", why_unpinned(seat));
    if (thread->core && !stands_under(s, k)) note_leaving(s, k, thread->core - 1);
}

/* Pinning waits for a thread that runs, where it should sleep. Once that may be so; twice, it is
 * as one that cannot be pinned. */
static void settle_slow(scheduler *s, size_t k) {
    host_seat *seat = &s->thread[k].seat;
    s->counts.slow_pins++;
    if (++seat->pin.slow < 2) return;
    seat->pin.slow = 0;
    seat->retry_at = now_of(s) + RETRY;
    say_unpinned(s, k, "is granted nothing for a while", "it takes long, since it does not sleep");
}

static void settle_seat(scheduler *s, size_t k) {
    host_seat *seat = &s->thread[k].seat;
    seat->settled = seat->handed;
    if (seat->pin.is_lost) seat->pin.is_lost = false, settle_lost(s, k);
    if (seat->pin.is_slow) seat->pin.is_slow = false, settle_slow(s, k);
}

static void settle_moves(scheduler *s) {
    bool are_some = false;
    for (size_t k = 0; s->moves->is_open && k < s->machine.threads; k++) {
        const host_seat *seat = &s->thread[k].seat;
        bool is_done = atomic_load(&seat->done) == seat->handed;
        if (is_done && seat->settled != seat->handed) settle_seat(s, k);
        are_some |= !is_done;
    }
    s->moves->is_open = are_some;
}

/* ---- planning ---- */

static void add(scheduler *s, move m) {
    host_seat *seat = &s->thread[m.thread].seat;
    m.is_first = atomic_load(&seat->done) == seat->handed;
    seat->handed++;
    s->moves->planned[s->moves->count++] = m;
    s->moves->is_open = true;
}

static uint8_t rank_of(const scheduler *s, size_t k) {
    return s->task[s->thread[k].task].is_critical ? FIRST : LAST;
}

void plan_run(scheduler *s, size_t k, unsigned core) {
    add(s, (move){.thread = (uint8_t)k, .what = RUN, .rank = rank_of(s, k), .core = core});
}

void plan_nothing(scheduler *s, size_t k) {
    add(s, (move){.thread = (uint8_t)k, .what = NOTHING, .rank = LAST});
}

void plan_park(scheduler *s, size_t k, unsigned from, unsigned to) {
    add(s, (move){.thread = (uint8_t)k, .what = PARK, .rank = THEN, .to = to});
    note_leaving(s, k, from);
}

/* A Run comes into the ring only when its thread is pinned: one that happens to be awake takes
 * it at once. */
static void send_what_can_be(scheduler *s) {
    for (size_t i = 0; i < s->moves->count; i++) {
        move *m = &s->moves->planned[i];
        host_thread *thread = &s->thread[m->thread];
        if (!m->is_first || (m->what == RUN && !is_pinned(s, thread, m->core))) continue;
        caladan_ring_send(&thread->seat.pin.sender, m->what == RUN ? m->core + 1u : CALADAN_PARK);
        m->is_sent = true;
    }
}

void carry_out(scheduler *s) {
    send_what_can_be(s);
    for (int rank = FIRST; rank < RANKS; rank++)
        for (size_t i = 0; i < s->moves->count; i++) {
            if (s->moves->planned[i].rank != rank) continue;
            if (s->has_mover) hand_over(s->moves, &s->moves->planned[i]);
            else do_move(s, &s->moves->planned[i]);
        }
    s->moves->count = 0;
    settle_moves(s);
}

static void put_mover_elsewhere(const scheduler *s) {
    bool is_put = CPU_COUNT(&s->others) && place_clerk(move_each, &s->others);
    s->moves->is_elsewhere = true;
    complain("the mover made no move on processor %d for a second%s", s->options.mover,
             is_put ? ", and is put on others" : "");
}

/* Another thread may have all of its processor, in a class above. Where no other processor helps either, there is
 * nobody who could end a move that it has begun. */
void look_after_mover(const scheduler *s) {
    uint64_t now = host_clock();
    size_t done = atomic_load(&s->moves->done);
    bool is_at_work = s->has_mover && done != atomic_load(&s->moves->put);
    moves *it = s->moves;
    if (!is_at_work || done != it->seen) it->seen = done, it->seen_at = now, it->is_elsewhere = false;
    if (now - s->moves->seen_at >= STUCK && !s->moves->is_elsewhere) put_mover_elsewhere(s);
    uint64_t most = stop_signals() > 1 ? 2 * STUCK : LOST;
    if (now - s->moves->seen_at >= most) fail("the mover", "it makes no moves any more");
}

void wait_for_moves(scheduler *s) {
    const moves *it = s->moves;
    while (s->has_mover && atomic_load(&it->done) != atomic_load(&it->put)) look_after_mover(s), host_pause();
    settle_moves(s);
}

/* Who stands under, and has to leave, may have no time to do so beside processes of others:
 * where it may be, it is put into the normal class until it is sent a Run again. */
void lift(scheduler *s, size_t k) {
    host_seat *seat = &s->thread[k].seat;
    struct sched_param none = {0};
    const host_task *task = &s->task[s->thread[k].task];
    if (seat->handed != seat->settled || !is_own_thread(task, seat->pin.idle)) return;
    if (sched_setscheduler(seat->pin.idle, SCHED_OTHER, &none) == 0) seat->pin.idle = 0;
}

/* ---- what was pinned is not so for ever ---- */

static bool is_where_it_was_put(const scheduler *s, const host_thread *thread) {
    const host_seat *seat = &thread->seat;
    cpu_set_t cpus;
    if (sched_getaffinity(seat->pin.tid, sizeof cpus, &cpus)) return true; /* it has ended */
    if (seat->pin.idle == seat->pin.tid && sched_getscheduler(seat->pin.tid) != SCHED_IDLE) return false;
    return CPU_COUNT(&cpus) == 1 && CPU_ISSET((size_t)s->options.cpu[seat->pin.core], &cpus);
}

/* A cpuset grows narrower, a processor goes away, a process moves its threads or changes their
 * class. A thread without a core is pinned again when it is granted one; one that has a core at
 * once, or it is said. */
void look_after_pin(scheduler *s) {
    uint8_t k = s->looked_after = (uint8_t)((s->looked_after + 1u) % s->machine.threads);
    host_thread *thread = &s->thread[k];
    host_seat *seat = &thread->seat;
    if (seat->handed != seat->settled || seat->pin.tid == 0) return;
    if (is_where_it_was_put(s, thread)) return;
    s->counts.strayed++;
    seat->pin.tid = seat->pin.idle = 0;
    unsigned core = stands_under(s, k) ? seat->under.stands : thread->core;
    bool is_back = core == 0 || pin(s, thread, core - 1);
    seat->pin.is_lost = seat->pin.is_slow = false; /* it ran, and was to */
    if (is_back) return;
    seat->retry_at = now_of(s) + RETRY;
    say_unpinned(s, k, "runs elsewhere", why_unpinned(seat));
}
