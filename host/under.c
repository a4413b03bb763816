/* under.c: best-effort tasks that stand under (-u). Their threads are in SCHED_IDLE, pinned
 * where they were granted. A core that is revoked from one for a task is not waited for: the
 * next look shows the thread off it, the pass frees it, and who is granted it preempts the
 * thread, which goes on there when the other one sleeps. When the thread is granted that core
 * again, nothing has to be done. Where a core is to be empty (a ban, bandwidth, a cap that is
 * cut), or is granted to another best-effort thread, the thread is taken off it by Park and a
 * signal.
 *
 * So what the passes see of such a thread is a record of the scheduler's own: of the process's
 * page it has what waits, and how many misses there were. And which of the process's kernel
 * threads stands for a thread of the table can change: who is granted a core has that one, if
 * there is one, that stands there. */
#define _GNU_SOURCE
#include <string.h>
#include "caladand.h"

#define MOST_MISSES ((uint64_t)1 << 56) /* what a record may count */

bool stands_under(const scheduler *s, size_t k) { return s->task[s->thread[k].task].is_under; }

static bool is_acked(const host_seat *seat) { return seat->under.page.taken == seat->under.seqno; }
static bool is_under_way(const host_seat *seat) { return seat->handed != seat->settled; }

/* ---- what its page says ---- */

/* Whether the record is one that the thread can have published, by the rules by which the passes
 * judge others. */
static uint8_t judge(const host_seat *seat, const caladan_look *page) {
    const caladan_look *last = &seat->under.page;
    unsigned may_be_on = seat->under.is_revoked ? 0 : seat->under.stands;
    if (page->number < last->number) return CALADAN_PLACE_FELL;
    if (page->misses > MOST_MISSES) return CALADAN_MISSHAPEN;
    if (page->taken < last->taken || page->misses < last->misses) return CALADAN_WORD_FELL;
    if (page->taken > seat->under.seqno) return CALADAN_AHEAD;
    if (page->running == 0 || page->running == last->running) {
        bool is_back = page->running && page->taken == seat->under.seqno && page->running != may_be_on;
        return is_back ? CALADAN_FOREIGN : CALADAN_KEPT;
    }
    return page->running == seat->under.stands ? CALADAN_KEPT : CALADAN_FOREIGN;
}

/* It has left the core where it was sent: as it was told, or of its own accord. */
static void note_left(host_thread *thread, uint64_t now) {
    host_seat *seat = &thread->seat;
    if (!seat->under.is_revoked) {
        thread->gave_up = thread->core == seat->under.stands;
        seat->under.target = 0;
    }
    seat->under.stands = 0;
    seat->under.is_revoked = false;
    seat->leaving.is_set = false;
    seat->left_at = now;
}

static void read_page(scheduler *s, host_thread *thread, const caladan_look *page, uint64_t now) {
    host_seat *seat = &thread->seat;
    uint8_t judged = judge(seat, page);
    seat->is_refused = judged != CALADAN_KEPT;
    if (seat->is_refused) {
        s->counts.judged[judged]++;
        return;
    }
    seat->under.page = *page;
    if (seat->under.stands && is_acked(seat) && page->running == 0) note_left(thread, now);
}

/* ---- what the passes see ---- */

static bool is_off(const scheduler *s, const host_thread *thread) {
    if (thread->core == 0 || thread->leaves == HOST_GIVES_WAY || thread->gave_up) return true;
    return (thread->leaves == HOST_LEAVES || s->is_closing) && thread->seat.under.stands == 0;
}

static bool is_on(const host_thread *thread) {
    const host_seat *seat = &thread->seat;
    bool is_there = seat->under.stands == thread->core && seat->under.page.running == thread->core;
    return is_there && is_acked(seat) && !seat->under.is_revoked && thread->leaves == HOST_STAYS;
}

/* A request that it has begun waits, where it has no core: it is not at work in the eyes of the
 * passes. */
static void show_work(caladan_look *shown, const caladan_look *page) {
    bool waits = shown->running == 0 && (page->paused || page->started);
    shown->started = shown->running ? page->started : 0;
    shown->paused = waits;
    shown->since = !waits ? 0 : page->paused ? page->since : page->started;
}

static void show(const scheduler *s, host_thread *thread, uint64_t now) {
    const caladan_look *page = &thread->seat.under.page;
    caladan_look shown = thread->shown;
    uint64_t misses = thread->misses + page->misses;
    if (is_off(s, thread)) shown.running = 0, shown.taken = thread->sent;
    else if (is_on(thread)) shown.running = thread->core, shown.taken = thread->sent;
    shown.queued = page->queued;
    shown.oldest = page->oldest;
    shown.misses = misses < MOST_MISSES ? misses : MOST_MISSES;
    show_work(&shown, page);
    uint64_t is[CALADAN_WORDS], was[CALADAN_WORDS];
    caladan_look_words(&shown, is);
    caladan_look_words(&thread->shown, was);
    if (memcmp(is, was, sizeof is) == 0) return;
    shown.number++;
    shown.stamp = now;
    thread->shown = shown;
}

void under_look(scheduler *s, size_t k, const caladan_look *page, uint64_t now) {
    host_thread *thread = &s->thread[k];
    if (page && !page->busy) read_page(s, thread, page, now);
    show(s, thread, now);
    s->look[k] = thread->shown;
}

/* ---- beginning and end ---- */

void under_begin(scheduler *s, size_t k) {
    host_thread *thread = &s->thread[k];
    host_seat *seat = &thread->seat;
    seat->under.target = seat->under.stands = 0;
    seat->under.is_revoked = false;
    seat->under.seqno = 0;
    memset(&seat->under.page, 0, sizeof seat->under.page);
    memset(&thread->shown, 0, sizeof thread->shown);
    thread->leaves = HOST_STAYS;
    thread->gave_up = false;
    thread->misses = 0;
}

/* Its successor's page begins with zeros, and what the passes see goes on. */
void under_bury(scheduler *s, size_t k) {
    host_thread *thread = &s->thread[k];
    caladan_look shown = thread->shown;
    under_begin(s, k);
    thread->shown = shown;
    thread->misses = shown.misses;
    thread->gave_up = thread->core != 0;
}

/* ---- what a pass does ---- */

/* Of two threads of a task, the kernel threads that stand for them. Their misses go on from what
 * was shown. */
static void swap(host_thread *a, host_thread *b) {
    host_seat seat = a->seat;
    a->seat = b->seat;
    b->seat = seat;
    a->misses = a->shown.misses - a->seat.under.page.misses;
    b->misses = b->shown.misses - b->seat.under.page.misses;
}

/* Who stands there without having it, or who sleeps. */
static bool is_fit(const host_thread *thread, unsigned stands) {
    const host_seat *seat = &thread->seat;
    bool may_move = thread->core == 0 && !is_under_way(seat) && !seat->is_refused && !seat->under.is_revoked;
    return may_move && seat->under.stands == stands && (stands || seat->under.target == 0);
}

static void choose_seat(scheduler *s, size_t k, unsigned core) {
    host_thread *thread = &s->thread[k];
    const host_task *task = &s->task[thread->task];
    unsigned stands = thread->seat.under.stands;
    if (stands == core + 1 || is_under_way(&thread->seat)) return;
    for (unsigned wanted = core + 1;; wanted = 0) {
        for (size_t i = task->first; i < task->first + task->limit; i++)
            if (i != k && is_fit(&s->thread[i], wanted)) return swap(thread, &s->thread[i]);
        if (wanted == 0 || stands == 0) return; /* it sleeps itself, or none does */
    }
}

void under_grant(scheduler *s, size_t k, unsigned core) {
    host_thread *thread = &s->thread[k];
    choose_seat(s, k, core);
    thread->core = core + 1;
    thread->leaves = HOST_STAYS;
    thread->gave_up = false;
    thread->seat.under.target = core + 1;
    if (thread->seat.under.stands == core + 1 && !thread->seat.under.is_revoked) s->counts.notes++;
}

void under_revoke(scheduler *s, size_t k, uint8_t cause) {
    host_thread *thread = &s->thread[k];
    bool stays = cause == CALADAN_FOR_TASK;
    thread->leaves = stays ? HOST_GIVES_WAY : HOST_LEAVES;
    if (!stays || thread->seat.under.stands != thread->core) thread->seat.under.target = 0;
    s->counts.given_way += stays;
}

void under_free(scheduler *s, size_t k) {
    s->thread[k].core = 0;
    s->thread[k].leaves = HOST_STAYS;
    s->thread[k].gave_up = false;
}

/* ---- what follows from it ---- */

static bool is_uncalled(const host_thread *thread) {
    return thread->seat.under.stands && thread->seat.under.stands != thread->core;
}

/* A cap that is cut leaves nobody of the task where he has no core. */
void under_cap(scheduler *s, unsigned t, uint8_t cap) {
    host_task *task = &s->task[t];
    bool is_cut = cap < task->cap;
    task->cap = cap;
    for (size_t k = task->first; is_cut && task->is_under && k < task->first + task->limit; k++)
        if (is_uncalled(&s->thread[k])) s->thread[k].seat.under.target = 0;
}

/* Whoever stands where he has no core stays there only under a latency-critical thread, or while
 * nobody has the core. */
static bool may_stay(const scheduler *s, const host_thread *thread) {
    unsigned core = thread->seat.under.stands - 1, has = s->on_core[core];
    const host_task *task = &s->task[thread->task];
    if (s->is_banned[core]) return false;
    return has ? s->task[s->thread[has - 1].task].is_critical : task->cap >= task->limit;
}

bool is_clear(const scheduler *s, unsigned core, size_t of) {
    for (size_t k = 0; k < s->machine.threads; k++)
        if (k != of && s->thread[k].seat.under.stands == core + 1) return false;
    return true;
}

static void take_off(scheduler *s, size_t k) {
    host_seat *seat = &s->thread[k].seat;
    unsigned core = seat->under.stands - 1, has = s->on_core[core];
    bool is_covered = has && has - 1 != k && s->task[s->thread[has - 1].task].is_critical;
    seat->under.is_revoked = true;
    seat->under.seqno++;
    s->counts.taken_off += is_uncalled(&s->thread[k]);
    plan_park(s, k, core, is_covered ? seat->under.target : 0);
}

static void settle(scheduler *s, size_t k) {
    host_seat *seat = &s->thread[k].seat;
    host_under *under = &seat->under;
    bool is_there = is_uncalled(&s->thread[k]) && under->target == under->stands;
    if (is_there && !may_stay(s, &s->thread[k])) under->target = 0;
    if (under->stands && under->target != under->stands && !under->is_revoked) return take_off(s, k);
    if (under->stands || under->target == 0 || is_under_way(seat)) return;
    if (!is_clear(s, under->target - 1, k)) return;
    under->stands = under->target;
    under->seqno++;
    plan_run(s, k, under->target - 1);
}

static void settle_deferred(scheduler *s, size_t k) {
    host_thread *thread = &s->thread[k];
    if (!is_clear(s, thread->core - 1, k)) return;
    thread->is_deferred = false;
    plan_run(s, k, thread->core - 1);
}

/* ---- who may sleep on his core ---- */

/* Whoever stands under the core, and can go on there. */
static bool has_company(const scheduler *s, unsigned core) {
    for (size_t k = 0; k < s->machine.threads; k++) {
        const host_seat *seat = &s->thread[k].seat;
        bool is_there = stands_under(s, k) && seat->under.stands == core + 1;
        if (is_there && !seat->under.is_revoked && seat->under.page.running) return true;
    }
    return false;
}

/* The core beside it has a request for which this one would be banned, were it free. */
static bool is_beside_long_request(const scheduler *s, unsigned core, uint64_t now) {
    unsigned has = s->on_core[core ^ 1u];
    if (has == 0) return false;
    const caladan_look *shown = &s->shown[has - 1].shown;
    const host_task *task = &s->task[s->thread[has - 1].task];
    bool works = task->is_critical && shown->started && shown->started < now;
    return works && now - shown->started > task->request;
}

static unsigned held_by(const scheduler *s, const host_task *task) {
    unsigned held = 0;
    for (size_t k = task->first; k < task->first + task->limit; k++) held += s->thread[k].core != 0;
    return held;
}

/* The latency-critical tasks that have something to do for a thread without a core, a bit each. */
static uint32_t waiting(const scheduler *s) {
    uint32_t tasks = 0;
    for (size_t k = 0; k < s->machine.threads; k++) {
        const host_thread *thread = &s->thread[k];
        bool waits = s->shown[k].shown.queued || s->shown[k].shown.paused;
        bool is_critical = s->task[thread->task].is_critical;
        if (waits && thread->core == 0 && is_critical) tasks |= 1u << thread->task;
    }
    return tasks;
}

/* A latency-critical thread within the guarantee of its task keeps its core while it has nothing to
 * do, where somebody works under it meanwhile, and no other task waits for a core: so who hands a
 * request in wakes it, and no pass is needed. */
static void let_doze(scheduler *s, size_t k, bool is_wanted, uint64_t now) {
    const host_thread *thread = &s->thread[k];
    const host_task *task = &s->task[thread->task];
    host_slot *slot = thread->seat.slot;
    unsigned core = thread->core - 1; /* if it has one */
    bool may = thread->core && !is_wanted && held_by(s, task) <= task->guaranteed &&
               has_company(s, core) && !is_beside_long_request(s, core, now);
    if (may == (atomic_load_explicit(&slot->may_doze, memory_order_relaxed) != 0)) return;
    atomic_store(&slot->may_doze, may);
    if (!may) ring_bell(slot);
}

void under_settle(scheduler *s, uint64_t now) {
    if (s->options.under == 0 || s->is_closing) return;
    uint32_t tasks = waiting(s);
    for (size_t k = 0; k < s->machine.threads; k++) {
        unsigned t = s->thread[k].task;
        if (stands_under(s, k)) settle(s, k);
        else if (s->thread[k].is_deferred) settle_deferred(s, k);
        else if (s->task[t].is_critical) let_doze(s, k, tasks & ~(1u << t), now);
    }
}
