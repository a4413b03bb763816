/* Tables of rows: each refusal with the row and field that it is for, the same answer as to the text of the rows, and
 * that an opened table has these rows, and makes passes by the policy that was asked for. Prints 'rows_test: ok'. */
#include "caladan.h"
#include "check.h"

#define MOST_TICKS 1000000000000u
enum { LC = CALADAN_LATENCY_CRITICAL, BE = CALADAN_BEST_EFFORT, MOST_ROWS = 20 };

static const caladan_table_row PLAIN = {.kind = LC, .limit = 1};
static caladan_table_row rows[MOST_ROWS];

/* Opens so many rows, and sees that the answer is this, at this place. */
static void try_rows(int line, size_t cores, uint64_t limit, size_t count, uint8_t wanted, size_t row,
                     const char *field) {
    caladan handle = CALADAN_CLOSED;
    caladan_guard guard = CALADAN_GUARD_CLOSED;
    caladan_audit audit = CALADAN_AUDIT_CLOSED;
    caladan_wrong wrong[3];
    uint8_t answers[] = {caladan_open_rows(cores, limit, rows, count, &handle, &wrong[0]),
                         caladan_guard_open_rows(cores, limit, rows, count, &guard, &wrong[1]),
                         caladan_audit_open_rows(cores, limit, rows, count, &audit, &wrong[2])};
    CHECK(!handle.open && !guard.open && !audit.open);
    for (int k = 0; k < 3; k++)
        if (answers[k] != wanted || wrong[k].row != row || !wrong[k].field || strcmp(wrong[k].field, field)) {
            fprintf(stderr, "line %d, %d: answer %d, row %zu, field %s\n", line, k, answers[k], wrong[k].row,
                    wrong[k].field ? wrong[k].field : "none");
            failed = 1;
        }
    CHECK(caladan_open_rows(cores, limit, rows, count, &handle, NULL) == wanted);
}
#define REFUSED(...) try_rows(__LINE__, __VA_ARGS__)

static void plain(void) {
    for (int k = 0; k < MOST_ROWS; k++) rows[k] = PLAIN;
}

static void try_refusals(void) {
    plain();
    REFUSED(3, 0, 2, CALADAN_OUT_OF_RANGE, 2, "cores");
    REFUSED(0, 0, 1, CALADAN_OUT_OF_RANGE, 1, "cores");
    REFUSED(130, 0, 1, CALADAN_OUT_OF_RANGE, 1, "cores");
    REFUSED(SIZE_MAX, 0, 1, CALADAN_OUT_OF_RANGE, 1, "cores");
    REFUSED(2, MOST_TICKS + 1, 1, CALADAN_OUT_OF_RANGE, 1, "bandwidth_limit");
    REFUSED(2, UINT64_MAX, 1, CALADAN_OUT_OF_RANGE, 1, "bandwidth_limit");
    REFUSED(1, UINT64_MAX, 17, CALADAN_OUT_OF_RANGE, 17, "cores");
    REFUSED(2, 0, 0, CALADAN_OUT_OF_RANGE, 0, "count");
    REFUSED(2, 0, 17, CALADAN_OUT_OF_RANGE, 17, "count");
    REFUSED(2, 0, MOST_ROWS, CALADAN_OUT_OF_RANGE, MOST_ROWS, "count");
    rows[15].kind = 3;
    REFUSED(2, 0, 16, CALADAN_OUT_OF_RANGE, 15, "kind");
    rows[3].limit = 0;
    REFUSED(2, 0, 16, CALADAN_OUT_OF_RANGE, 3, "limit");
    rows[2].limit = 17;
    REFUSED(2, 0, 16, CALADAN_OUT_OF_RANGE, 2, "limit");
    rows[1].guaranteed = 2;
    REFUSED(2, 0, 16, CALADAN_OUT_OF_RANGE, 1, "guaranteed");
    rows[0].request = MOST_TICKS + 1;
    REFUSED(2, 0, 16, CALADAN_OUT_OF_RANGE, 0, "request");
    rows[0].delay = UINT64_MAX;
    REFUSED(2, 0, 16, CALADAN_OUT_OF_RANGE, 0, "delay");
    plain();
    rows[4] = (caladan_table_row){.kind = BE, .guaranteed = 1, .limit = 1};
    REFUSED(2, 0, 6, CALADAN_BEST_EFFORT_GUARANTEE, 4, "guaranteed");
    rows[5].kind = 0; /* a later row */
    REFUSED(2, 0, 6, CALADAN_BEST_EFFORT_GUARANTEE, 4, "guaranteed");
}

/* The sums come after all rows. */
static void try_sums(void) {
    plain();
    for (int k = 0; k < 4; k++) rows[k].guaranteed = rows[k].limit = 1;
    REFUSED(2, 0, 4, CALADAN_GUARANTEES_EXCEED_CORES, 2, "guaranteed");
    rows[3].limit = 0;
    REFUSED(2, 0, 4, CALADAN_OUT_OF_RANGE, 3, "limit");
    plain();
    for (int k = 0; k < 9; k++) rows[k].limit = 16;
    REFUSED(2, 0, 9, CALADAN_TOO_MANY_THREADS, 8, "limit");
    REFUSED(2, 0, 16, CALADAN_TOO_MANY_THREADS, 8, "limit");
}

/* What was opened has these rows; an open handle, or a call without memory, writes no place. */
static void try_opened(void) {
    caladan handle = CALADAN_CLOSED;
    caladan_machine machine;
    caladan_table_row row;
    caladan_wrong wrong = {77, "none"};
    plain();
    rows[0] = (caladan_table_row){
        .kind = LC, .guaranteed = 2, .limit = 16, .first_thread = 99, .delay = MOST_TICKS, .request = 1};
    rows[1] = (caladan_table_row){.kind = BE, .limit = 3, .delay = 7, .request = MOST_TICKS};
    CHECK(caladan_open_rows(128, MOST_TICKS, rows, 16, &handle, &wrong) == CALADAN_DONE);
    CHECK(caladan_table(&handle, &machine) == CALADAN_DONE);
    CHECK(machine.cores == 128 && machine.tasks == 16 && machine.threads == 16 + 3 + 14 &&
          machine.bandwidth_limit == MOST_TICKS);
    for (size_t k = 0, first = 0; k < 16; first += rows[k++].limit) {
        CHECK(caladan_table_task(&handle, k, &row) == CALADAN_DONE && row.first_thread == first);
        CHECK(row.kind == rows[k].kind && row.guaranteed == rows[k].guaranteed && row.limit == rows[k].limit);
        CHECK(row.delay == rows[k].delay && row.request == rows[k].request);
    }
    CHECK(caladan_open_rows(3, 0, rows, 16, &handle, &wrong) == CALADAN_IS_OPEN);
    CHECK(wrong.row == 77 && caladan_close(&handle) == CALADAN_DONE);
}

/* By each policy the same faults at the same places; by a number that no policy has none, and no place. */
static void try_policies(void) {
    caladan handle = CALADAN_CLOSED;
    caladan_audit audit = CALADAN_AUDIT_CLOSED;
    plain();
    for (uint32_t policy = 0; policy < 3; policy++) {
        const bool is_one = policy == CALADAN_POLICY_CALADAN || policy == CALADAN_POLICY_ASSURED;
        const uint8_t wanted = is_one ? CALADAN_DONE : CALADAN_NO_POLICY;
        caladan_wrong wrong = {77, "none"};
        CHECK(caladan_open_rows_policy(2, 0, rows, 2, policy, &handle, &wrong) == wanted && handle.open == is_one);
        CHECK(caladan_audit_open_rows_policy(2, 0, rows, 2, policy, &audit, &wrong) == wanted && audit.open == is_one);
        CHECK(wrong.row == 77);
        if (!is_one) continue;
        CHECK(caladan_close(&handle) == CALADAN_DONE && caladan_audit_close(&audit) == CALADAN_DONE);
        CHECK(caladan_open_rows_policy(3, 0, rows, 2, policy, &handle, &wrong) == CALADAN_OUT_OF_RANGE);
        CHECK(wrong.row == 2 && !strcmp(wrong.field, "cores"));
    }
}

/* The passes are those of the policy. All threads of two tasks wait; the second task alone is guaranteed a core. Whom
 * the first grant is for: by Caladan's policy the first task, by `assured` the one below its guarantee. */
static uint8_t granted_first(uint32_t policy) {
    static caladan_action actions[CALADAN_MOST_ACTIONS];
    const caladan_table_row two[] = {{.kind = LC, .limit = 2, .delay = 10, .request = 50},
                                     {.kind = LC, .guaranteed = 1, .limit = 1, .delay = 10, .request = 50}};
    const caladan_look waits = {.room = 1, .number = 1, .queued = 1, .oldest = 50, .stamp = 50};
    const caladan_look looks[] = {waits, waits, waits};
    caladan handle = CALADAN_CLOSED;
    uint8_t judged[3];
    size_t made = 0, k = 0;
    CHECK(caladan_open_rows_policy(2, 1000, two, 2, policy, &handle, NULL) == CALADAN_DONE);
    CHECK(caladan_pass_each(&handle, 100, 0, looks, 3, judged, 3, actions, CALADAN_MOST_ACTIONS, &made) ==
          CALADAN_DONE);
    while (k < made && actions[k].kind != CALADAN_GRANT) k++;
    CHECK(k < made && caladan_close(&handle) == CALADAN_DONE);
    return k < made ? actions[k].thread : 255;
}

/* The least and the longest text that there is fit, whatever the rows say. */
static void try_text(void) {
    char text[CALADAN_ROWS_ROOM + 1];
    text[CALADAN_ROWS_ROOM] = 77;
    for (int k = 0; k < MOST_ROWS; k++)
        rows[k] =
            (caladan_table_row){.kind = 9, .guaranteed = 255, .limit = 255, .delay = UINT64_MAX, .request = UINT64_MAX};
    CHECK(caladan_rows_text(SIZE_MAX, UINT64_MAX, rows, MOST_ROWS, text) < CALADAN_ROWS_ROOM &&
          text[CALADAN_ROWS_ROOM] == 77);
    static const char wanted[] = "cores = 2\nbandwidth_limit = 0\n"
                                 "[[task]]\nkind = \"be\"\nguaranteed = 0\nlimit = 10\ndelay = 105\nrequest = 0\n";
    rows[0] = (caladan_table_row){.kind = BE, .limit = 10, .delay = 105};
    CHECK(caladan_rows_text(2, 0, rows, 1, text) == strlen(wanted) && !memcmp(text, wanted, strlen(wanted)));
}

int main(void) {
    try_refusals();
    try_sums();
    try_opened();
    try_policies();
    CHECK(granted_first(CALADAN_POLICY_CALADAN) == 0 && granted_first(CALADAN_POLICY_ASSURED) == 2);
    try_text();
    puts(failed ? "rows_test: failed" : "rows_test: ok");
    return failed;
}
