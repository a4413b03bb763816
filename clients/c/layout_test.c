/* What the library writes of each struct lies where caladan.h says (CALADAN_SIZE, CALADAN_PLACE), and nothing behind
 * its end: each field is told another number, which follows from what was handed in. That the library reads and writes
 * looks and actions there the examples show (clients/c/decide.c, audit.c), by every kind of them. Prints 'layout_test:
 * ok'. */
#include "caladan.h"
#include "check.h"
#include <stdio.h>

static const char TABLE[] = "cores = 4\nbandwidth_limit = 4328719365\n" /* 0x0102030405 */
                            "[[task]]\nkind = \"be\"\nguaranteed = 0\nlimit = 5\ndelay = 0\nrequest = 0\n"
                            "[[task]]\nkind = \"lc\"\nguaranteed = 2\nlimit = 3\n"
                            "delay = 73588229205\nrequest = 440092104960\n"; /* 0x1122334455, 0x6677889900 */
enum { THREADS = 8, LEAVES = 3, STAYS = 6, CANARY = 0xa5 };
typedef uint8_t judgements[THREADS];

/* A struct that is told, and what lies behind it. */
#define WATCHED(kind) struct { kind told; unsigned char behind[64]; }
#define FILL(it) memset(&(it), CANARY, sizeof(it))

static bool is_whole(const unsigned char *behind) {
    for (int k = 0; k < 64; k++)
        if (behind[k] != CANARY) return false;
    return true;
}

static void try_table(caladan_guard *guard) {
    WATCHED(caladan_machine) machine;
    WATCHED(caladan_table_row) row;
    FILL(machine);
    CHECK(caladan_guard_table(guard, &machine.told) == CALADAN_DONE && is_whole(machine.behind));
    CHECK(machine.told.cores == 4 && machine.told.tasks == 2 && machine.told.threads == THREADS &&
          machine.told.bandwidth_limit == 0x0102030405);
    FILL(row);
    CHECK(caladan_guard_table_task(guard, 1, &row.told) == CALADAN_DONE && is_whole(row.behind));
    CHECK(row.told.kind == 1 && row.told.guaranteed == 2 && row.told.limit == 3 && row.told.first_thread == 5);
    CHECK(row.told.delay == 0x1122334455 && row.told.request == 0x6677889900);
}

/* Two threads are granted the cores 2 and 3, which are siblings; then 2 is banned for the thread on 3, and left by a
 * thread that took one command of two. */
static void try_state(caladan_guard *guard) {
    const caladan_action grants[] = {{.kind = CALADAN_GRANT, .core = 2, .thread = LEAVES, .core_class = 3},
                                     {.kind = CALADAN_GRANT, .core = 3, .thread = STAYS, .core_class = 3}};
    const caladan_action leaves[] = {{.kind = CALADAN_BAN, .core = 2, .thread = STAYS, .started = 777},
                                     {.kind = CALADAN_REVOKE, .core = 2, .cause = CALADAN_FOR_BAN, .by = 3}};
    caladan_look looks[THREADS];
    WATCHED(judgements) judged;
    WATCHED(caladan_refused) refused;
    memset(looks, 0, sizeof looks);
    for (int k = 0; k < THREADS; k++) looks[k].room = 1;
    FILL(judged);
    FILL(refused);
    CHECK(caladan_guard_pass_each(guard, 100, 0, looks, THREADS, judged.told, THREADS, grants, 2, &refused.told) ==
          CALADAN_DONE);
    looks[LEAVES] = (caladan_look){.room = 1, .number = 41, .taken = 1, .running = 3, .misses = 52, .stamp = 63};
    looks[STAYS] = (caladan_look){.room = 1, .number = 1, .taken = 1, .running = 4, .started = 777};
    CHECK(caladan_guard_pass_each(guard, 200, 0, looks, THREADS, judged.told, THREADS, leaves, 1, &refused.told) ==
          CALADAN_NOT_PERMITTED);
    CHECK(refused.told.place == 1 && refused.told.why == CALADAN_WHY_BANNED_HELD && refused.told.names == 2 &&
          is_whole(refused.behind));
    CHECK(caladan_guard_pass_each(guard, 200, 0, looks, THREADS, judged.told, THREADS, leaves, 2, &refused.told) ==
          CALADAN_DONE);
    for (int k = 0; k < THREADS; k++) CHECK(judged.told[k] == CALADAN_KEPT);
    CHECK(is_whole(judged.behind));
}

static void try_told(caladan_guard *guard) {
    WATCHED(caladan_holder_of_core) holder;
    WATCHED(caladan_counts) counts;
    WATCHED(caladan_thread_state) state;
    WATCHED(caladan_look) gone;
    FILL(holder);
    CHECK(caladan_guard_holder_of(guard, 2, &holder.told) == CALADAN_DONE && is_whole(holder.behind));
    CHECK(holder.told.state == CALADAN_CORE_LEAVING && holder.told.thread == LEAVES &&
          holder.told.cause == CALADAN_FOR_BAN && holder.told.cause_of == 3);
    FILL(counts);
    CHECK(caladan_guard_task(guard, 0, &counts.told) == CALADAN_DONE && is_whole(counts.behind));
    CHECK(counts.told.held == 0 && counts.told.booked == 1 && counts.told.cap == 5);
    FILL(state);
    CHECK(caladan_guard_thread(guard, STAYS, &state.told) == CALADAN_DONE && is_whole(state.behind));
    CHECK(state.told.task == 1 && state.told.sent == 1 && state.told.taken == 1);
    CHECK(caladan_guard_thread(guard, LEAVES, &state.told) == CALADAN_DONE);
    CHECK(state.told.task == 0 && state.told.sent == 2 && state.told.taken == 1);
    FILL(gone);
    CHECK(caladan_guard_gone(guard, LEAVES, &gone.told) == CALADAN_DONE && is_whole(gone.behind));
    CHECK(gone.told.busy == 0 && gone.told.number == 42 && gone.told.taken == 2 && gone.told.misses == 52 &&
          gone.told.stamp == 63);
    CHECK(!gone.told.running && !gone.told.queued && !gone.told.oldest && !gone.told.started && !gone.told.paused &&
          !gone.told.since);
}

/* Core 2 was granted to the thread that leaves, and is banned for the one that stays. */
static void try_cores(caladan_guard *guard) {
    WATCHED(caladan_core_ban) ban;
    WATCHED(caladan_core_last) last;
    WATCHED(caladan_look) kept;
    FILL(ban);
    CHECK(caladan_guard_ban_of(guard, 2, &ban.told) == CALADAN_DONE && is_whole(ban.behind));
    CHECK(ban.told.banned == 1 && ban.told.thread == STAYS && ban.told.started == 777);
    FILL(last);
    CHECK(caladan_guard_last_of(guard, 3, &last.told) == CALADAN_DONE && is_whole(last.behind));
    CHECK(last.told.granted == 1 && last.told.thread == STAYS && last.told.task == 1);
    FILL(kept);
    CHECK(caladan_guard_kept(guard, LEAVES, &kept.told) == CALADAN_DONE && is_whole(kept.behind));
    CHECK(!kept.told.busy && !kept.told.room && !kept.told.number && !kept.told.second && kept.told.taken == 1);
    CHECK(kept.told.running == 3 && kept.told.misses == 52 && kept.told.stamp == 63 && !kept.told.queued &&
          !kept.told.started);
}

int main(void) {
    WATCHED(caladan_guard) guard;
    FILL(guard);
    guard.told = CALADAN_GUARD_CLOSED;
    CHECK(caladan_guard_open((const uint8_t *)TABLE, strlen(TABLE), &guard.told) == CALADAN_DONE && guard.told.open &&
          is_whole(guard.behind));
    try_table(&guard.told);
    try_state(&guard.told);
    try_told(&guard.told);
    try_cores(&guard.told);
    CHECK(caladan_guard_close(&guard.told) == CALADAN_DONE && !guard.told.open && is_whole(guard.behind));
    puts(failed ? "layout_test: failed" : "layout_test: ok");
    return failed;
}
