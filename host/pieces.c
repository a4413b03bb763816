/* pieces.c: a run in pieces, each of which can be audited. Each begins with a new book, and pages and rings of
 * zeros; it ends when all threads have left their cores and the cores are free. */
#define _GNU_SOURCE
#include <errno.h>
#include <stdlib.h>
#include <string.h>
#include "caladand.h"

#define PATIENCE ((uint64_t)1000000000) /* where no other is given */

static void set_phase(scheduler *s, uint32_t phase) {
    s->phase = phase;
    for (unsigned t = 0; t < s->machine.tasks; t++) atomic_store(&s->task[t].segment->phase, phase);
    for (size_t k = 0; k < s->machine.threads; k++) ring_bell(s->thread[k].seat.slot);
}

bool is_piece_full(const scheduler *s) {
    return s->record && (s->passes >= s->options.passes || record_is_full(s->record));
}

/* ---- the beginning ---- */

static void clear_slot(host_slot *slot) {
    atomic_store(&slot->page.version, 0);
    for (int i = 0; i < CALADAN_WORDS; i++) atomic_store(&slot->page.words[i], 0);
    atomic_store(&slot->ring.sent, 0);
    atomic_store(&slot->ring.taken, 0);
    atomic_store(&slot->may_doze, 0);
}

static void begin_thread(scheduler *s, size_t k) {
    host_thread *thread = &s->thread[k];
    host_seat *seat = &thread->seat;
    clear_slot(seat->slot);
    seat->pin.sender = (caladan_sender){&seat->slot->ring, 0};
    seat->is_refused = seat->is_unacked = seat->leaving.is_set = false;
    seat->place = seat->misses = seat->left_at = 0;
    seat->from = now_of(s);
    thread->by_hand = thread->is_deferred = false;
    thread->core = 0;
    thread->sent = 0;
    thread->gone = (caladan_look){0};
    under_begin(s, k);
    memset(&s->shown[k].shown, 0, sizeof s->shown[k].shown);
}

void begin_piece(scheduler *s) {
    if (!s->handle.open && open_table(s)) fail(s->options.table, "it cannot be opened again");
    for (size_t k = 0; k < s->machine.threads; k++) begin_thread(s, k);
    latency_begin_piece(&s->latency);
    memset(s->on_core, 0, sizeof s->on_core);
    memset(s->is_banned, 0, sizeof s->is_banned);
    for (unsigned t = 0; t < s->machine.tasks; t++) s->task[t].cap = (uint8_t)s->task[t].limit;
    s->figure = s->figure_misses = 0;
    s->figure_at = now_of(s);
    s->passes = 0;
    s->is_closing = false;
    s->counts.pieces++;
    if (s->record && !record_begin_piece(s->record, s->counts.pieces)) s->record = NULL;
    set_phase(s, (uint32_t)s->counts.pieces * 2);
}

/* ---- the end ---- */

/* A thread that has not said its number has not read a phase yet, and will read this one. */
static bool is_quiet(const scheduler *s, const host_slot *slot) {
    return atomic_load(&slot->tid) == 0 || atomic_load(&slot->phase) == s->phase;
}

/* Whether each thread of the task has left, and says that it publishes no more. */
static bool has_left(const scheduler *s, const host_task *task) {
    for (unsigned k = task->first; k < task->first + task->limit; k++)
        if (s->thread[k].core || (task->pid && !is_quiet(s, s->thread[k].seat.slot))) return false;
    return true;
}

static bool have_all_left(const scheduler *s) {
    for (unsigned t = 0; t < s->machine.tasks; t++)
        if (!has_left(s, &s->task[t])) return false;
    return true;
}

static void interrupt_each(scheduler *s) {
    for (size_t k = 0; k < s->machine.threads; k++)
        interrupt(&s->task[s->thread[k].task], s->thread[k].seat.slot);
}

/* Each that stands under and has not left is given the time to do so. */
static void lift_each(scheduler *s) {
    for (size_t k = 0; k < s->machine.threads; k++)
        if (stands_under(s, k) && !is_quiet(s, s->thread[k].seat.slot)) lift(s, k);
}

/* Whoever has still to leave, or to say so, is to do it in the patience, which begins now where it has not begun. */
static void note_each_leaving(scheduler *s) {
    for (size_t k = 0; k < s->machine.threads; k++) {
        const host_thread *thread = &s->thread[k];
        unsigned core = stands_under(s, k) ? thread->seat.under.stands : thread->core;
        bool stays = thread->core || (s->task[thread->task].pid && !is_quiet(s, thread->seat.slot));
        if (!stays) s->thread[k].seat.leaving.is_set = false;
        else if (!thread->seat.leaving.is_set) note_leaving(s, k, core ? core - 1 : NO_CORE);
    }
}

/* Who has not left is killed, and waited for no longer. */
static void part_with_each(scheduler *s) {
    for (unsigned t = 0; t < s->machine.tasks; t++) {
        host_task *task = &s->task[t];
        if (task->pid == 0 || has_left(s, task)) continue;
        if (s->options.patience) kill_process(s, task, "it did not leave its cores at the end of a piece");
        write_off(s, task);
    }
}

/* Passes come further and further apart, so that few are made however long a thread takes. */
static void wait_some(scheduler *s, uint64_t from) {
    uint64_t now = now_of(s), gap = (now - from) / 16, until = now + (gap > 20000 ? gap : 20000);
    for (; (now = now_of(s)) < until; account_time(s, now)) host_pause();
}

/* It ends: after the patience who stays is killed, and a second later written off; at the latest after some times the
 * patience by the wall clock. Without a patience nobody is killed, and what has not left in a second stays: then there
 * is no record, and the run ends here. */
void end_piece(scheduler *s) {
    uint64_t from = now_of(s), run = s->run_time, wall = s->wall_time,
             patience = s->options.patience ? s->options.patience : PATIENCE;
    stop_moving(s);
    s->is_closing = true;
    set_phase(s, s->phase | 1);
    interrupt_each(s);
    make_pass(s);
    note_each_leaving(s);
    for (unsigned passes = 1; !have_all_left(s); passes++) {
        bool is_overdue = s->wall_time - wall >= WALL_BOUND * patience && passes >= LEAST_LOOKS;
        bool at_once = passes >= RECORD_END_PASSES - 8 || stop_signals() > 1 || is_overdue;
        wait_some(s, from);
        tend_each(s); /* who closes its connection has left; who comes waits for the next piece */
        make_pass(s); /* who left since the last look is not parted with */
        note_each_leaving(s);
        kill_the_deaf(s); /* and who was killed and does not end */
        if (s->run_time - run >= patience / 2 || s->wall_time - wall >= patience) lift_each(s);
        if (at_once) part_with_each(s);
        if (passes >= RECORD_END_PASSES) break;
        if (s->options.patience == 0 && (is_overdue || s->run_time - run >= patience)) break;
    }
    if (s->record && !record_end_piece(s->record, s->passes)) s->record = NULL;
    caladan_close(&s->handle);
}
