/* A handle of another kind, given by a cast, is taken for a closed one and stays as it is; and one handle that threads
 * give to each other makes the passes of one thread. Prints 'handles_test: ok'. */
#include "caladan.h"
#include "check.h"
#include <pthread.h>

static const caladan_table_row ROWS[] = {
    {.kind = CALADAN_LATENCY_CRITICAL, .guaranteed = 1, .limit = 2, .delay = 10, .request = 50},
    {.kind = CALADAN_BEST_EFFORT, .limit = 2}};
enum { THREADS = 4, PASSES = 400, POLLERS = 3 };
typedef caladan_action actions_of_pass[CALADAN_MOST_ACTIONS];

static caladan_look looks[THREADS];
static uint8_t judged[THREADS];
static size_t made;
static uint64_t first;
static caladan_action none[1];
static actions_of_pass actions;
static caladan_refused refused;
static caladan_counts counts;
static caladan_holder_of_core holder;
static caladan_machine machine;
static caladan_table_row row;
static caladan_thread_state state;
static caladan_look look;
static caladan_core_ban ban;
static caladan_core_last last;

/* Each call of a scheduler. */
static void is_no_scheduler(caladan *it) {
    size_t thread;
    CHECK(caladan_open_rows(2, 0, ROWS, 2, it, NULL) == CALADAN_IS_OPEN);
    CHECK(caladan_open_policy(NULL, 0, CALADAN_POLICY_CALADAN, it) == CALADAN_IS_OPEN);
    CHECK(caladan_threads(it) == 0 && caladan_bandwidth_limit(it) == 0);
    CHECK(caladan_pass(it, 1, 0, looks, THREADS, judged, THREADS, actions, CALADAN_MOST_ACTIONS, &made) ==
              CALADAN_IS_CLOSED &&
          made == 0);
    CHECK(caladan_pass_each(it, 1, 0, looks, THREADS, judged, THREADS, actions, CALADAN_MOST_ACTIONS, &made) ==
              CALADAN_IS_CLOSED &&
          made == 0);
    CHECK(caladan_first_unfit(it, looks, THREADS, &thread) == CALADAN_IS_CLOSED);
    CHECK(caladan_table(it, &machine) == CALADAN_IS_CLOSED && caladan_table_task(it, 0, &row) == CALADAN_IS_CLOSED);
    CHECK(caladan_thread(it, 0, &state) == CALADAN_IS_CLOSED && caladan_gone(it, 0, &look) == CALADAN_IS_CLOSED);
    CHECK(caladan_kept(it, 0, &look) == CALADAN_IS_CLOSED && caladan_holder_of(it, 0, &holder) == CALADAN_IS_CLOSED);
    CHECK(caladan_task(it, 0, &counts) == CALADAN_IS_CLOSED && caladan_close(it) == CALADAN_IS_CLOSED && it->open);
}

static void is_no_guard(caladan_guard *it) {
    size_t thread;
    CHECK(caladan_guard_open_rows(2, 0, ROWS, 2, it, NULL) == CALADAN_IS_OPEN);
    CHECK(caladan_guard_pass(it, 1, 0, looks, THREADS, judged, THREADS, none, 0, &refused) == CALADAN_IS_CLOSED);
    CHECK(caladan_guard_pass_each(it, 1, 0, looks, THREADS, judged, THREADS, none, 0, &refused) == CALADAN_IS_CLOSED);
    CHECK(caladan_guard_first_unfit(it, looks, THREADS, &thread) == CALADAN_IS_CLOSED);
    CHECK(caladan_guard_table(it, &machine) == CALADAN_IS_CLOSED &&
          caladan_guard_table_task(it, 0, &row) == CALADAN_IS_CLOSED);
    CHECK(caladan_guard_thread(it, 0, &state) == CALADAN_IS_CLOSED &&
          caladan_guard_gone(it, 0, &look) == CALADAN_IS_CLOSED);
    CHECK(caladan_guard_holder_of(it, 0, &holder) == CALADAN_IS_CLOSED &&
          caladan_guard_task(it, 0, &counts) == CALADAN_IS_CLOSED);
    CHECK(caladan_guard_judge(it, looks, THREADS, judged, THREADS) == CALADAN_IS_CLOSED &&
          caladan_guard_kept(it, 0, &look) == CALADAN_IS_CLOSED);
    CHECK(caladan_guard_ban_of(it, 0, &ban) == CALADAN_IS_CLOSED &&
          caladan_guard_last_of(it, 0, &last) == CALADAN_IS_CLOSED);
    CHECK(caladan_guard_close(it) == CALADAN_IS_CLOSED && it->open);
}

static void is_no_audit(caladan_audit *it) {
    CHECK(caladan_audit_open_rows(2, 0, ROWS, 2, it, NULL) == CALADAN_IS_OPEN);
    CHECK(caladan_audit_open_policy(NULL, 0, CALADAN_POLICY_CALADAN, it) == CALADAN_IS_OPEN);
    CHECK(caladan_audit_pass(it, 1, 0, looks, THREADS, judged, THREADS, none, 0) == CALADAN_IS_CLOSED);
    CHECK(caladan_audit_verdict(it, &first) == CALADAN_IS_CLOSED && caladan_audit_close(it) == CALADAN_IS_CLOSED &&
          it->open);
}

/* What each is told stays as it was, and each handle is what it was. */
static void try_kinds(void) {
    caladan scheduler = CALADAN_CLOSED;
    caladan_guard guard = CALADAN_GUARD_CLOSED;
    caladan_audit audit = CALADAN_AUDIT_CLOSED;
    for (int k = 0; k < THREADS; k++) looks[k] = (caladan_look){.room = 1};
    memset(judged, 77, sizeof judged);
    machine.cores = row.limit = holder.state = counts.cap = ban.banned = last.granted = 77,
    state.sent = look.number = first = 77;
    CHECK(caladan_open_rows(2, 7, ROWS, 2, &scheduler, NULL) == CALADAN_DONE);
    CHECK(caladan_guard_open_rows(2, 7, ROWS, 2, &guard, NULL) == CALADAN_DONE);
    CHECK(caladan_audit_open_rows(2, 7, ROWS, 2, &audit, NULL) == CALADAN_DONE);
    is_no_scheduler((caladan *)(void *)&guard);
    is_no_scheduler((caladan *)(void *)&audit);
    is_no_guard((caladan_guard *)(void *)&scheduler);
    is_no_guard((caladan_guard *)(void *)&audit);
    is_no_audit((caladan_audit *)(void *)&scheduler);
    is_no_audit((caladan_audit *)(void *)&guard);
    CHECK(judged[0] == 77 && machine.cores == 77 && row.limit == 77 && holder.state == 77 && counts.cap == 77);
    CHECK(ban.banned == 77 && last.granted == 77 && state.sent == 77 && look.number == 77 && first == 77);
    CHECK(caladan_bandwidth_limit(&scheduler) == 7 && caladan_close(&scheduler) == CALADAN_DONE && !scheduler.open);
    CHECK(caladan_guard_table(&guard, &machine) == CALADAN_DONE && machine.threads == THREADS &&
          caladan_guard_close(&guard) == CALADAN_DONE);
    CHECK(caladan_audit_verdict(&audit, &first) == CALADAN_DONE && caladan_audit_close(&audit) == CALADAN_DONE);
}

/* The looks of a pass: a request waits for each thread in some passes, and who was granted a core has left it again. */
static void look_at_pass(caladan *handle, uint64_t pass, caladan_look of[THREADS]) {
    caladan_thread_state sent;
    for (uint64_t k = 0; k < THREADS; k++) {
        bool asks = (pass / 3 + k) % 5 < 2;
        CHECK(caladan_thread(handle, k, &sent) == CALADAN_DONE);
        of[k] = (caladan_look){.room = 1,
                               .number = pass + 1,
                               .taken = sent.sent,
                               .queued = asks,
                               .oldest = asks ? 10 * (pass - pass % 3) : 0,
                               .stamp = 10 * pass};
    }
}

static caladan shared; /* closed: CALADAN_CLOSED is all zeros */
static actions_of_pass by_threads[PASSES], by_one[PASSES];
static size_t counts_by_threads[PASSES], counts_by_one[PASSES];

static void make_pass(caladan *handle, uint64_t pass, actions_of_pass out, size_t *count) {
    caladan_look of[THREADS];
    uint8_t said[THREADS];
    look_at_pass(handle, pass, of);
    CHECK(caladan_pass_each(handle, 10 * pass, 0, of, THREADS, said, THREADS, out, CALADAN_MOST_ACTIONS, count) ==
          CALADAN_DONE);
}

static pthread_mutex_t turn = PTHREAD_MUTEX_INITIALIZER;
static pthread_cond_t next = PTHREAD_COND_INITIALIZER;
static uint64_t passes;

/* Makes each pass whose turn it is: the handle goes from one poller to the next. */
static void *poll_in_turn(void *number) {
    uint64_t mine = *(uint64_t *)number;
    pthread_mutex_lock(&turn);
    while (passes < PASSES) {
        if (passes % POLLERS == mine) {
            make_pass(&shared, passes, by_threads[passes], &counts_by_threads[passes]);
            passes++;
            pthread_cond_broadcast(&next);
        } else {
            pthread_cond_wait(&next, &turn);
        }
    }
    pthread_mutex_unlock(&turn);
    return NULL;
}

static void *close_it(void *handle) {
    CHECK(caladan_close(handle) == CALADAN_DONE);
    return NULL;
}

static void try_threads(void) {
    pthread_t pollers[POLLERS], closer;
    uint64_t numbers[POLLERS];
    caladan own = CALADAN_CLOSED;
    size_t all = 0;
    CHECK(caladan_open_rows(2, 1000, ROWS, 2, &shared, NULL) == CALADAN_DONE);
    for (uint64_t k = 0; k < POLLERS; k++) {
        numbers[k] = k;
        CHECK(pthread_create(&pollers[k], NULL, poll_in_turn, &numbers[k]) == 0);
    }
    CHECK(caladan_open_rows(2, 1000, ROWS, 2, &own, NULL) == CALADAN_DONE);
    for (uint64_t pass = 0; pass < PASSES; pass++) make_pass(&own, pass, by_one[pass], &counts_by_one[pass]);
    for (int k = 0; k < POLLERS; k++) CHECK(pthread_join(pollers[k], NULL) == 0);
    for (int k = 0; k < PASSES; k++) {
        CHECK(counts_by_one[k] == counts_by_threads[k] &&
              !memcmp(by_one[k], by_threads[k], counts_by_one[k] * sizeof *by_one[k]));
        all += counts_by_one[k];
    }
    CHECK(all > PASSES / 2);
    CHECK(caladan_close(&own) == CALADAN_DONE);
    CHECK(pthread_create(&closer, NULL, close_it, &shared) == 0 && pthread_join(closer, NULL) == 0 && !shared.open);
}

int main(void) {
    try_kinds();
    try_threads();
    puts(failed ? "handles_test: failed" : "handles_test: ok");
    return failed;
}
