/* caladan_next_clock: after a pass that made no action none makes one before that clock, on the same looks.
 *
 *     next_test < INPUT     the passes of a file of signals, as clients/c/decide.c makes them: behind each that made no
 *                           action some are made at clocks before the next one, on a second handle that made the same
 *     next_test made        tables and looks of its own, of which it is known what comes when; and 20,000 made passes
 *     next_test --policy NAME ..      the same by that policy
 *
 * Prints 'next_test: ok', and before it how many clocks it tried and at how many of the next ones a pass acted. */
#define _GNU_SOURCE
#include "chance.h"
#include "check.h"
#include "trace.h"

enum { MOST_REPLAYED = 300 };
static uint32_t policy;
static unsigned long tried, reached, acted;

static uint8_t open_table(const void *table, size_t length, caladan *handle) {
    return caladan_open_policy(table, length, policy, handle);
}

static uint8_t open_table_of_rows(size_t cores, const caladan_table_row *rows, size_t count, caladan *handle) {
    char text[CALADAN_ROWS_ROOM];
    return open_table(text, caladan_rows_text(cores, 1000, rows, count, text), handle);
}

/* How many actions a pass makes on these looks; -1 where it is refused. */
static int made_at(caladan *handle, uint64_t now, const recorded *pass) {
    static caladan_action actions[CALADAN_MOST_ACTIONS];
    uint8_t judged[CALADAN_MOST_THREADS];
    size_t made;
    uint8_t answer = caladan_pass(handle, now, pass->bandwidth, pass->looks, pass->count, judged, sizeof judged,
                                  actions, CALADAN_MOST_ACTIONS, &made);
    return answer == CALADAN_DONE ? (int)made : -1;
}

/* A pass at `now` made no action: neither do others, up to the next clock. */
static void try_clocks(caladan *handle, uint64_t now, const recorded *pass) {
    uint64_t next = 0;
    CHECK(caladan_next_clock(handle, now, &next) == CALADAN_DONE && next > now);
    const uint64_t clocks[] = {
        now, now + 1, now + 2, now + (next - now) / 3, now + (next - now) / 2, next - 2, next - 1};
    for (size_t k = 0; k < sizeof clocks / sizeof *clocks; k++) {
        if (clocks[k] < now || clocks[k] >= next) continue;
        CHECK(made_at(handle, clocks[k], pass) == 0);
        tried++;
    }
    if (next == UINT64_MAX) return;
    reached++;
    acted += made_at(handle, next, pass) > 0;
}

/* The passes so far, on a handle of their own. */
static void try_after(const input *in, const recorded *passes, size_t count) {
    caladan handle = CALADAN_CLOSED;
    int made = -1;
    CHECK(open_table(in->text, in->table_length, &handle) == CALADAN_DONE);
    for (size_t k = 0; k < count; k++) made = made_at(&handle, passes[k].now, &passes[k]);
    if (made == 0) try_clocks(&handle, passes[count - 1].now, &passes[count - 1]);
    CHECK(made >= 0 && caladan_close(&handle) == CALADAN_DONE);
}

static void try_input(const input *in) {
    static recorded passes[MOST_REPLAYED];
    caladan handle = CALADAN_CLOSED;
    caladan_machine machine;
    trace from;
    CHECK(open_table(in->text, in->table_length, &handle) == CALADAN_DONE);
    CHECK(caladan_table(&handle, &machine) == CALADAN_DONE && begin_trace(&from, in, false, machine));
    for (size_t k = 0; k < MOST_REPLAYED && next_pass(&from, &passes[k]) == 1; k++) try_after(in, passes, k + 1);
    CHECK(caladan_close(&handle) == CALADAN_DONE);
}

/* A table of one row on two cores, and one pass on looks of which only the first says anything. */
static void try_one(int line, caladan_table_row row, uint64_t now, caladan_look look, uint64_t wanted) {
    caladan handle = CALADAN_CLOSED;
    recorded pass = {.count = row.limit, .looks = {look}};
    uint64_t next = 0;
    for (size_t k = 0; k < pass.count; k++) pass.looks[k].room = 1;
    CHECK(open_table_of_rows(2, &row, 1, &handle) == CALADAN_DONE);
    if (look.running) { /* it is on a core by a grant that it was sent */
        recorded asks = {.count = row.limit, .looks = {{.room = 1, .number = 1, .queued = 1, .oldest = 1}}};
        CHECK(made_at(&handle, row.delay + 2, &asks) == 1);
    }
    CHECK(made_at(&handle, now, &pass) == 0);
    CHECK(caladan_next_clock(&handle, now, &next) == CALADAN_DONE);
    if (next != wanted)
        fprintf(stderr, "line %d: the next clock is %llu\n", line, (unsigned long long)next), failed = 1;
    if (wanted != UINT64_MAX) CHECK(made_at(&handle, wanted - 1, &pass) == 0 && made_at(&handle, wanted, &pass) > 0);
    CHECK(caladan_close(&handle) == CALADAN_DONE);
}
#define NEXT(...) try_one(__LINE__, __VA_ARGS__)

static void try_known(void) {
    const caladan_table_row lc = {
        .kind = CALADAN_LATENCY_CRITICAL, .guaranteed = 1, .limit = 1, .delay = 10, .request = 50};
    const caladan_table_row be = {.kind = CALADAN_BEST_EFFORT, .limit = 1, .delay = 0, .request = 50};
    const uint64_t never = UINT64_MAX;
    NEXT(lc, 105, (caladan_look){.number = 1}, never);
    NEXT(lc, 105, (caladan_look){.number = 1, .queued = 1, .oldest = 100}, 111);
    NEXT(lc, 110, (caladan_look){.number = 1, .queued = 1, .oldest = 100}, 111);
    NEXT(lc, 105, (caladan_look){.number = 1, .queued = 1, .oldest = 200}, 211);
    NEXT(lc, 105, (caladan_look){.number = 1, .oldest = 100}, never);
    NEXT(lc, 105, (caladan_look){.number = 1, .paused = 1, .since = 103}, 114);
    NEXT(lc, 105, (caladan_look){.number = 1, .queued = 1, .oldest = 104, .paused = 1, .since = 103}, 114);
    NEXT(lc, 105, (caladan_look){.number = 1, .queued = 1, .oldest = never - 10}, never);
    NEXT(lc, 105, (caladan_look){.number = 1, .queued = 1, .oldest = never - 12}, never - 1);
    NEXT(be, 100, (caladan_look){.number = 1, .queued = 1, .oldest = 100}, 101);
    NEXT(lc, 210, (caladan_look){.number = 2, .taken = 1, .running = 1, .started = 200}, 251);
    NEXT(lc, 210, (caladan_look){.number = 2, .taken = 1, .running = 1}, never);
    NEXT(be, 210, (caladan_look){.number = 2, .taken = 1, .running = 1, .started = 200}, never);
    caladan closed = CALADAN_CLOSED;
    uint64_t next = 77;
    CHECK(caladan_next_clock(&closed, 1, &next) == CALADAN_IS_CLOSED && next == 77);
}

/* A thread's next record: it begins or ends something, and has left its core or not. */
static void change(caladan *handle, size_t k, uint64_t now, caladan_look *look) {
    caladan_thread_state state;
    caladan_holder_of_core holder;
    CHECK(caladan_thread(handle, k, &state) == CALADAN_DONE);
    *look = (caladan_look){.room = chance(4) != 0, .number = look->number + 1, .taken = state.sent, .stamp = now};
    look->queued = chance(2), look->oldest = look->queued ? now - chance(40) : 0;
    look->paused = chance(8) == 0, look->since = look->paused ? now - chance(40) : 0;
    for (size_t core = 0; caladan_holder_of(handle, core, &holder) == CALADAN_DONE; core++)
        if (holder.state == CALADAN_CORE_HELD && holder.thread == k && chance(4))
            look->running = core + 1, look->started = chance(4) ? now - chance(100) : 0;
}

static void try_made(void) {
    const caladan_table_row rows[] = {
        {.kind = CALADAN_LATENCY_CRITICAL, .guaranteed = 1, .limit = 3, .delay = 20, .request = 60},
        {.kind = CALADAN_LATENCY_CRITICAL, .guaranteed = 1, .limit = 2, .delay = 5, .request = 200},
        {.kind = CALADAN_BEST_EFFORT, .limit = 3, .delay = 30}};
    caladan handle = CALADAN_CLOSED;
    recorded pass = {.count = 8};
    uint64_t now = 1000;
    CHECK(open_table_of_rows(4, rows, 3, &handle) == CALADAN_DONE);
    for (int k = 0; k < 20000; k++, now += chance(30)) {
        for (size_t thread = 0; thread < pass.count; thread++)
            if (chance(4) == 0) change(&handle, thread, now, &pass.looks[thread]);
        pass.bandwidth = chance(8) ? 0 : 2000;
        int made = made_at(&handle, now, &pass);
        CHECK(made >= 0);
        if (made == 0) try_clocks(&handle, now, &pass);
    }
    CHECK(tried > 1000 && acted > 1000);
    CHECK(caladan_close(&handle) == CALADAN_DONE);
}

int main(int count, char **words) {
    input in = {0};
    policy = policy_asked(count, words);
    if (!strcmp(words[count - 1], "made")) {
        try_known();
        try_made();
    } else if (read_input(stdin, &in)) {
        try_input(&in);
    } else {
        failed = 1;
    }
    free(in.text);
    printf("%lu clocks, %lu next ones, at %lu of them a pass acts\n", tried, reached, acted);
    puts(failed ? "next_test: failed" : "next_test: ok");
    return failed;
}
