/* patience.c: how long a process may keep a core that it is to leave, and what is done then. What counts is whether the
 * thread could have left: the time for which it ran meanwhile, by the kernel's count, and the time for which it did not
 * want to run, in which the scheduler looked on. A thread that waits for its processor is not deaf. */
#define _GNU_SOURCE
#include <errno.h>
#include <string.h>
#include "caladand.h"

#define STEP ((uint64_t)1000000) /* the most that passes of the run time from one look to the next, in nanoseconds */
#define STANDSTILL ((uint64_t)250000000) /* and of the wall time, where nobody had the scheduler's processor */
#define LAST ((uint64_t)1000000000)      /* how long a process that was killed may take to end */
#define OFTEN ((uint64_t)4000000)        /* how often the kernel is asked about a thread that is late */
#define LATE ((uint64_t)1000000)         /* by when it is late */

static uint64_t least(uint64_t a, uint64_t b) { return a < b ? a : b; }
static uint64_t most(uint64_t a, uint64_t b) { return a > b ? a : b; }

/* The run time goes on while the scheduler looks. Where it, or the machine, stood still, that is one step: a thread
 * that could not run either loses nothing by it. The wall time also has what others took of the scheduler's processor,
 * as the kernel counts it, and of a standstill at most a quarter of a second. */
void account_time(scheduler *s, uint64_t now) {
    uint64_t passed = now - s->accounted_at, wall = passed;
    if (passed > STEP) {
        uint64_t delayed = run_delay(), since = delayed - s->delayed;
        s->delayed = delayed;
        wall = least(passed, most(since, most(s->options.gap, STANDSTILL)));
    }
    s->run_time += least(passed, most(s->options.gap, STEP));
    s->wall_time += wall;
    s->accounted_at = now;
    if (now - s->beat_at >= STEP) beat(s), s->beat_at = now;
}

void note_leaving(scheduler *s, size_t thread, unsigned core) {
    leaving it = {.is_set = true, .core = core, .since = s->run_time, .since_wall = s->wall_time, .looks = s->looks};
    s->thread[thread].seat.leaving = it;
}

/* An honest process that is stopped from outside leaves no core either: whoever did that is to know it. */
static const char *what_stops_one(const scheduler *s, const host_task *task) {
    const char *stops = "";
    for (unsigned k = task->first; k < task->first + task->limit && *stops == 0; k++)
        stops = what_stops(task->pid, atomic_load(&s->thread[k].seat.slot->tid));
    return stops;
}

void kill_process(scheduler *s, host_task *task, const char *why) {
    if (task->file < 0 || task->killed_at) return;
    task->killed_at = s->run_time + !s->run_time, task->killed_at_wall = s->wall_time;
    const char *stops = what_stops_one(s, task);
    if (syscall(SYS_pidfd_send_signal, task->file, SIGKILL, NULL, 0) == 0) {
        s->counts.killed++;
        complain("process %d of task %u is killed: %s%s", task->pid, number_of(s, task), why, stops);
    } else if (errno != ESRCH) {
        complain("process %d of task %u cannot be killed (%s): %s", task->pid, number_of(s, task),
                 strerror(errno), why);
    }
}

/* What cannot be ended is waited for no longer: its cores go to others, beside whom it may still run. */
void write_off(scheduler *s, host_task *task) {
    complain("process %d of task %u is written off: it has not left its cores, and has not ended", task->pid,
             number_of(s, task));
    s->counts.written_off++;
    give_up(s, task);
}

/* ---- whether a thread could have left ---- */

/* Who stands under a thread that works is given no time in which he could leave, unless he was put
 * into the normal class. */
static bool is_covered(const scheduler *s, size_t k) {
    const host_seat *seat = &s->thread[k].seat;
    unsigned above = seat->leaving.core < HOST_CORES ? s->on_core[seat->leaving.core] : 0;
    if (!stands_under(s, k) || above == 0 || above - 1 == k) return false;
    if (seat->handed == seat->settled && seat->pin.idle == 0) return false;
    return s->task[s->thread[above - 1].task].is_critical;
}

/* Nor is who was not told yet: the mover has still to interrupt him. */
static bool is_excused(const scheduler *s, size_t k) {
    const host_seat *seat = &s->thread[k].seat;
    return seat->handed != seat->settled || is_covered(s, k);
}

/* Asks the kernel about the thread that was pinned to the core, each few milliseconds. One that waits for its processor
 * neither runs nor rests. Where the kernel counts nothing, all the scheduler's run time is rest. */
static void sample(scheduler *s, size_t k) {
    host_seat *seat = &s->thread[k].seat;
    leaving *it = &seat->leaving;
    pid_t pid = s->task[s->thread[k].task].pid, tid = seat->pin.tid ? seat->pin.tid : atomic_load(&seat->slot->tid);
    uint64_t on_cpu = on_cpu_time(pid, tid), looked_on = s->run_time - it->sampled, ran = 0;
    if (it->sampled_wall == 0) looked_on = s->run_time - it->since;
    else if (tid == it->tid && on_cpu > it->on_cpu) ran = on_cpu - it->on_cpu;
    it->ran += ran;
    if (looked_on > ran && !(on_cpu && is_runnable(pid, tid))) it->rested += looked_on - ran;
    it->tid = tid, it->on_cpu = on_cpu;
    it->sampled = s->run_time, it->sampled_wall = s->wall_time;
}

static bool is_late(const scheduler *s, const leaving *it) {
    return it->is_set && s->wall_time - it->since_wall >= LATE;
}

/* No process waits longer than some times the patience, whatever the scheduler, or the thread, lost to others. */
static bool is_patience_over(const scheduler *s, const leaving *it) {
    uint64_t patience = s->options.patience;
    if (patience == 0 || s->looks - it->looks < LEAST_LOOKS) return false;
    return it->ran + it->rested >= patience || s->wall_time - it->since_wall >= WALL_BOUND * patience;
}

static void kill_for(scheduler *s, size_t k) {
    const leaving *it = &s->thread[k].seat.leaving;
    char why[160], where[32] = "its core at the end of a piece";
    if (it->core < HOST_CORES) snprintf(where, sizeof where, "core %u", it->core);
    snprintf(why, sizeof why, "thread %zu did not leave %s in %llu ms, and ran for %llu ms of them", k, where,
             (unsigned long long)(s->wall_time - it->since_wall) / 1000000, (unsigned long long)it->ran / 1000000);
    kill_process(s, &s->task[s->thread[k].task], why);
}

/* Long before the bound by the wall clock, also where the scheduler has little time itself. */
static bool is_half_over(const scheduler *s, const leaving *it) {
    uint64_t half = s->options.patience ? s->options.patience / 2 : LAST;
    if (s->run_time - it->since >= half || it->ran + it->rested >= half) return true;
    return s->wall_time - it->since_wall >= 2 * half;
}

static void hurry(scheduler *s, size_t k) {
    host_seat *seat = &s->thread[k].seat;
    leaving *it = &seat->leaving;
    if (it->again || !is_half_over(s, it)) return;
    it->again = true; /* a signal may have come while the thread could not take it */
    if (stands_under(s, k)) lift(s, k);
    interrupt(&s->task[s->thread[k].task], seat->slot);
}

static void look_after_late(scheduler *s, size_t k) {
    leaving *it = &s->thread[k].seat.leaving;
    if (is_excused(s, k)) return note_leaving(s, k, it->core);
    if (!is_late(s, it)) return;
    bool is_due = it->sampled_wall == 0 || s->wall_time - it->sampled_wall >= OFTEN;
    if (s->options.patience && is_due) sample(s, k);
    hurry(s, k);
    if (is_patience_over(s, it)) kill_for(s, k);
}

/* ---- processes ---- */

static bool has_late(const scheduler *s, const host_task *task) {
    for (unsigned k = task->first; k < task->first + task->limit; k++)
        if (is_late(s, &s->thread[k].seat.leaving)) return true;
    return false;
}

/* A process that dumps core has not ended until it is written, and its threads leave no core: they are dead. It is not
 * killed, so that its core file is whole. The thread that writes it is put on another processor. */
static void bury_dumping(scheduler *s, host_task *task) {
    if (s->wall_time - task->dump_asked_at < OFTEN || !has_late(s, task)) return;
    task->dump_asked_at = s->wall_time;
    if (!is_dumping_core(task->pid) || has_ended(task)) return;
    complain("process %d of task %u dumps core: its cores are free at once", task->pid, number_of(s, task));
    s->counts.dumped++;
    bury(s, task);
}

static bool is_dead_for_long(const scheduler *s, const host_task *task) {
    if (task->killed_at == 0) return false;
    return s->run_time - task->killed_at >= LAST || s->wall_time - task->killed_at_wall >= WALL_BOUND * LAST;
}

void kill_the_deaf(scheduler *s) {
    for (unsigned t = 0; t < s->machine.tasks; t++)
        if (s->task[t].pid) bury_dumping(s, &s->task[t]);
    for (size_t k = 0; k < s->machine.threads; k++)
        if (s->thread[k].seat.leaving.is_set) look_after_late(s, k);
    for (unsigned t = 0; t < s->machine.tasks; t++)
        if (is_dead_for_long(s, &s->task[t])) write_off(s, &s->task[t]);
}
