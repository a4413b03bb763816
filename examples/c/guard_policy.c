/* A policy of one's own behind a guard. It chooses the actions of each pass and offers them; where the guard says
 * that one is not permitted it offers those before it, and where the pass may not end there either, nothing, which
 * is always permitted. So whatever is wrong with the policy, no core has two threads and no guarantee is broken.
 *
 * The policy: a core that its thread has left is freed; a free one goes to the thread that has waited longest, those
 * of latency-critical tasks first; and where none is free for one of these, the core that was granted longest ago is
 * revoked for it, if its thread has had it for a while. It knows nothing of guarantees: the guard does. The threads
 * are made ones, in this process: each serves three requests. Prints the actions of each pass, and last 'served 12
 * of 12'. */
#include "caladan.h"
#include <stdio.h>

enum { CORES = 2, THREADS = 4, REQUESTS = 3, WORK = 4, PLACES = 4, PATIENCE = 5, SLICE = 30, PASSES = 500, PARK = 0 };

/* Two tasks that are guaranteed a core each, of which the second may have both, and one that is guaranteed none. */
static const caladan_table_row ROWS[] = {
    {.kind = CALADAN_LATENCY_CRITICAL, .guaranteed = 1, .limit = 1, .delay = 10, .request = 1000},
    {.kind = CALADAN_LATENCY_CRITICAL, .guaranteed = 1, .limit = 2, .delay = 10, .request = 1000},
    {.kind = CALADAN_BEST_EFFORT, .limit = 1},
};

/* A made thread: what it shows, the commands that wait for it, and the turns that its request still takes. */
typedef struct made_thread {
    caladan_look shows;
    uint64_t commands[PLACES];
    size_t waiting;
    int left, served;
} made_thread;

static made_thread threads[THREADS];
static uint64_t granted_at[CORES];

/* What the policy sees of a pass, and the actions that it chooses. */
typedef struct choice {
    uint64_t now;
    caladan_look record[THREADS]; /* by which the guard will judge: the look where it is kept, else the kept record */
    caladan_thread_state state[THREADS];
    bool placed[THREADS], told[THREADS]; /* it has a core; a command goes to it in this pass */
    caladan_action actions[CALADAN_MOST_ACTIONS];
    size_t made;
} choice;

static void add(choice *it, caladan_action action) { it->actions[it->made++] = action; }

/* Has acknowledged all that was sent to it, and shows no core. */
static bool has_left(const choice *it, size_t k) {
    return it->record[k].taken == it->state[k].sent && it->record[k].running == 0;
}

static bool is_critical(const choice *it, size_t k) { return ROWS[it->state[k].task].kind == CALADAN_LATENCY_CRITICAL; }

/* Comes before another thread: by its kind, else by how long it has waited. */
static bool is_before(const choice *it, size_t k, size_t other) {
    if (is_critical(it, k) != is_critical(it, other)) return is_critical(it, k);
    return it->record[k].oldest < it->record[other].oldest;
}

/* The first that waits without a core, or THREADS. */
static size_t first_waiting(const choice *it) {
    size_t first = THREADS;
    for (size_t k = 0; k < THREADS; k++)
        if (!it->placed[k] && !it->told[k] && it->record[k].queued && has_left(it, k) &&
            (first == THREADS || is_before(it, k, first)))
            first = k;
    return first;
}

/* Frees what was left, and grants what is free. Answers the held core that was granted longest ago, or CORES. */
static size_t free_and_grant(choice *it, caladan_guard *guard) {
    size_t oldest = CORES, k;
    caladan_holder_of_core holder;
    caladan_core_ban ban;
    for (size_t core = 0; core < CORES; core++) {
        caladan_guard_holder_of(guard, core, &holder);
        bool free = holder.state == CALADAN_CORE_FREE;
        if (!free && has_left(it, holder.thread)) {
            add(it, (caladan_action){.kind = CALADAN_FREE, .core = (uint8_t)core});
            it->placed[holder.thread] = false;
            free = true;
        }
        caladan_guard_ban_of(guard, core, &ban);
        if (free && !ban.banned && (k = first_waiting(it)) < THREADS) {
            add(it, (caladan_action){
                        .kind = CALADAN_GRANT, .core = (uint8_t)core, .thread = (uint8_t)k, .core_class = 3});
            it->placed[k] = it->told[k] = true;
        } else if (!free && holder.state == CALADAN_CORE_HELD &&
                   (oldest == CORES || granted_at[core] < granted_at[oldest])) {
            oldest = core;
        }
    }
    return oldest;
}

/* Chooses the actions of a pass on these looks. */
static uint8_t choose(choice *it, caladan_guard *guard, const caladan_look *looks) {
    uint8_t judged[THREADS];
    uint8_t answer = caladan_guard_judge(guard, looks, THREADS, judged, sizeof judged);
    if (answer) return answer;
    for (size_t k = 0; k < THREADS; k++) {
        it->record[k] = looks[k];
        if (judged[k] != CALADAN_KEPT) caladan_guard_kept(guard, k, &it->record[k]);
        caladan_guard_thread(guard, k, &it->state[k]);
    }
    for (size_t core = 0; core < CORES; core++) {
        caladan_holder_of_core holder;
        caladan_guard_holder_of(guard, core, &holder);
        if (holder.state != CALADAN_CORE_FREE) it->placed[holder.thread] = true;
    }
    size_t core = free_and_grant(it, guard), k = first_waiting(it);
    if (k < THREADS && is_critical(it, k) && it->record[k].oldest + PATIENCE < it->now && core < CORES &&
        granted_at[core] + SLICE < it->now)
        add(it, (caladan_action){.kind = CALADAN_REVOKE,
                                 .core = (uint8_t)core,
                                 .cause = CALADAN_FOR_TASK,
                                 .task = it->state[k].task});
    return CALADAN_DONE;
}

/* Offers what was chosen, then what stands before the action that is refused, then nothing. */
static uint8_t offer(choice *it, caladan_guard *guard, const caladan_look *looks) {
    uint8_t judged[THREADS], answer;
    caladan_refused refused;
    for (;;) {
        answer = caladan_guard_pass_each(guard, it->now, 0, looks, THREADS, judged, sizeof judged, it->actions,
                                         it->made, &refused);
        if (answer != CALADAN_NOT_PERMITTED) return answer;
        printf("  action %zu: %s\n", refused.place, caladan_why_text(refused.why));
        it->made = refused.place < it->made ? refused.place : 0;
    }
}

/* Puts the commands that the pass sends into the threads' rings. */
static void send_each(const choice *it, caladan_guard *guard) {
    for (size_t i = 0; i < it->made; i++) {
        const caladan_action *action = &it->actions[i];
        uint8_t to = action->thread;
        if (action->kind == CALADAN_FREE) printf("  free core %d\n", action->core);
        if (action->kind == CALADAN_GRANT)
            printf("  core %d to thread %d\n", action->core, to), granted_at[action->core] = it->now;
        if (action->kind == CALADAN_REVOKE) {
            caladan_guard_revoked(guard, action->core, &to);
            printf("  core %d is taken from thread %d\n", action->core, to);
        }
        if (action->kind != CALADAN_FREE)
            threads[to].commands[threads[to].waiting++] = action->kind == CALADAN_GRANT ? action->core + 1u : PARK;
    }
}

/* A thread's turn: it takes a command, or works, or leaves its core when nothing waits for it any more. */
static void turn(made_thread *it, uint64_t now) {
    caladan_look *shows = &it->shows;
    if (it->waiting) {
        shows->taken++;
        shows->running = it->commands[0];
        it->commands[0] = it->commands[1];
        it->waiting--;
    } else if (shows->running && --it->left == 0) {
        it->left = WORK;
        shows->queued = ++it->served < REQUESTS;
        shows->running = shows->queued ? shows->running : 0;
        shows->oldest = shows->queued ? now : 0;
    } else {
        return;
    }
    shows->number++;
    shows->stamp = now;
}

int main(void) {
    caladan_guard guard = CALADAN_GUARD_CLOSED;
    caladan_wrong wrong = {0, NULL};
    uint8_t answer = caladan_guard_open_rows(CORES, 1000, ROWS, sizeof ROWS / sizeof *ROWS, &guard, &wrong);
    if (answer) return fprintf(stderr, "row %zu: %s: %s\n", wrong.row, wrong.field, caladan_answer_text(answer)), 2;
    for (size_t k = 0; k < THREADS; k++)
        threads[k] =
            (made_thread){.left = WORK, .shows = {.number = 1, .queued = 1, .oldest = THREADS - k, .stamp = THREADS}};
    int served = 0;
    for (uint64_t pass = 0; !answer && pass < PASSES && served < THREADS * REQUESTS; pass++) {
        choice chosen = {.now = 10 * pass + 10};
        caladan_look looks[THREADS];
        for (size_t k = 0; k < THREADS; k++) {
            looks[k] = threads[k].shows;
            looks[k].room = threads[k].waiting < PLACES;
        }
        printf("pass %d\n", (int)pass);
        answer = choose(&chosen, &guard, looks);
        if (!answer) answer = offer(&chosen, &guard, looks);
        if (!answer) send_each(&chosen, &guard);
        for (size_t k = 0; k < THREADS; k++) turn(&threads[k], chosen.now + 5);
        served = 0;
        for (size_t k = 0; k < THREADS; k++) served += threads[k].served;
    }
    caladan_guard_close(&guard);
    printf("served %d of %d\n", served, THREADS * REQUESTS);
    return answer;
}
