/* caladan_rows.c: tables of rows, for caladan.h. Compile it with your own files.
 *
 * THIS C IS NOT PROVED. It writes the text of the rows and opens that; clients/c/rows_test.c tests it. Where a table is
 * refused, it finds the place by opening tables in which all but one number, or all but the first rows, are harmless.
 */
#include "caladan.h"

static const caladan_table_row HARMLESS = {CALADAN_LATENCY_CRITICAL, 0, 1, 0, 0, 0};

static char *add_text(char *at, const char *text) {
    size_t length = strlen(text);
    memcpy(at, text, length);
    return at + length;
}

/* A line of a key and its number. One above INT64_MAX is in no text, and is written as that: no key has as
 * much. */
static char *add_number(char *at, const char *key, uint64_t number) {
    char digits[20];
    size_t count = 0;
    at = add_text(add_text(at, key), " = ");
    if (number > INT64_MAX) number = INT64_MAX;
    do digits[count++] = (char)('0' + number % 10);
    while (number /= 10);
    while (count) *at++ = digits[--count];
    *at++ = '\n';
    return at;
}

size_t caladan_rows_text(size_t cores, uint64_t bandwidth_limit, const caladan_table_row *rows, size_t count,
                         char text[CALADAN_ROWS_ROOM]) {
    char *at = add_number(text, "cores", cores);
    at = add_number(at, "bandwidth_limit", bandwidth_limit);
    if (!count) at = add_text(at, "task = []\n");
    for (size_t k = 0; k < count && k < CALADAN_TOO_MANY_ROWS; k++) {
        const char *kind = rows[k].kind == CALADAN_LATENCY_CRITICAL ? "lc"
                           : rows[k].kind == CALADAN_BEST_EFFORT    ? "be"
                                                                    : "none";
        at = add_text(at, "[[task]]\nkind = \"");
        at = add_text(add_text(at, kind), "\"\n");
        at = add_number(at, "guaranteed", rows[k].guaranteed);
        at = add_number(at, "limit", rows[k].limit);
        at = add_number(at, "delay", rows[k].delay);
        at = add_number(at, "request", rows[k].request);
    }
    return (size_t)(at - text);
}

/* Whether a table of these rows has this fault. */
static bool is_refused(uint8_t fault, size_t cores, uint64_t bandwidth_limit, const caladan_table_row *rows,
                       size_t count) {
    char text[CALADAN_ROWS_ROOM];
    caladan handle = CALADAN_CLOSED;
    size_t length = caladan_rows_text(cores, bandwidth_limit, rows, count, text);
    uint8_t answer = caladan_open((const uint8_t *)text, length, &handle);
    if (answer == CALADAN_DONE) caladan_close(&handle);
    return answer == fault;
}

/* Which field of a row has this fault by itself: the fields get their values in the order of the checks. */
static const char *wrong_field(uint8_t fault, size_t cores, const caladan_table_row *row) {
    caladan_table_row so_far = HARMLESS;
    if (fault == CALADAN_GUARANTEES_EXCEED_CORES) return "guaranteed";
    if (fault == CALADAN_TOO_MANY_THREADS) return "limit";
    so_far.kind = row->kind;
    if (is_refused(fault, cores, 0, &so_far, 1)) return "kind";
    so_far.limit = row->limit;
    if (is_refused(fault, cores, 0, &so_far, 1)) return "limit";
    so_far.guaranteed = row->guaranteed;
    if (is_refused(fault, cores, 0, &so_far, 1)) return "guaranteed";
    so_far.delay = row->delay;
    if (is_refused(fault, cores, 0, &so_far, 1)) return "delay";
    so_far.request = row->request;
    return is_refused(fault, cores, 0, &so_far, 1) ? "request" : NULL;
}

/* Where a table of rows has the fault for which it is refused. A sum is at fault in the row that makes it too
 * great. */
static caladan_wrong find_wrong(uint8_t fault, size_t cores, uint64_t bandwidth_limit, const caladan_table_row *rows,
                                size_t count) {
    caladan_table_row harmless[CALADAN_TOO_MANY_ROWS];
    caladan_wrong wrong = {count, NULL};
    const size_t most = CALADAN_TOO_MANY_ROWS, few = count < most ? count : most;
    for (size_t k = 0; k < CALADAN_TOO_MANY_ROWS; k++) harmless[k] = HARMLESS;
    if (is_refused(fault, cores, 0, harmless, 1)) wrong.field = "cores";
    else if (is_refused(fault, 2, bandwidth_limit, harmless, 1)) wrong.field = "bandwidth_limit";
    else if (is_refused(fault, 2, 0, harmless, few)) wrong.field = "count";
    for (size_t k = 0; k < few && !wrong.field && wrong.row == count; k++)
        if (is_refused(fault, cores, bandwidth_limit, rows, k + 1)) wrong.row = k;
    if (wrong.row < count) wrong.field = wrong_field(fault, cores, &rows[wrong.row]);
    return wrong;
}

/* The answer of a call that opened the table of these rows; where it is a fault of the table, *wrong says
 * where. wrong may be null. */
static uint8_t answered(uint8_t answer, size_t cores, uint64_t bandwidth_limit, const caladan_table_row *rows,
                        size_t count, caladan_wrong *wrong) {
    if (wrong && answer && answer < CALADAN_NO_MEMORY)
        *wrong = find_wrong(answer, cores, bandwidth_limit, rows, count);
    return answer;
}

uint8_t caladan_open_rows_policy(size_t cores, uint64_t bandwidth_limit, const caladan_table_row *rows, size_t count,
                                 uint32_t policy, caladan *handle, caladan_wrong *wrong) {
    char text[CALADAN_ROWS_ROOM];
    size_t length = caladan_rows_text(cores, bandwidth_limit, rows, count, text);
    uint8_t answer = caladan_open_policy((const uint8_t *)text, length, policy, handle);
    return answered(answer, cores, bandwidth_limit, rows, count, wrong);
}

uint8_t caladan_open_rows(size_t cores, uint64_t bandwidth_limit, const caladan_table_row *rows, size_t count,
                          caladan *handle, caladan_wrong *wrong) {
    return caladan_open_rows_policy(cores, bandwidth_limit, rows, count, CALADAN_POLICY_CALADAN, handle, wrong);
}

uint8_t caladan_audit_open_rows_policy(size_t cores, uint64_t bandwidth_limit, const caladan_table_row *rows,
                                       size_t count, uint32_t policy, caladan_audit *audit, caladan_wrong *wrong) {
    char text[CALADAN_ROWS_ROOM];
    size_t length = caladan_rows_text(cores, bandwidth_limit, rows, count, text);
    uint8_t answer = caladan_audit_open_policy((const uint8_t *)text, length, policy, audit);
    return answered(answer, cores, bandwidth_limit, rows, count, wrong);
}

uint8_t caladan_audit_open_rows(size_t cores, uint64_t bandwidth_limit, const caladan_table_row *rows, size_t count,
                                caladan_audit *audit, caladan_wrong *wrong) {
    return caladan_audit_open_rows_policy(cores, bandwidth_limit, rows, count, CALADAN_POLICY_CALADAN, audit, wrong);
}

uint8_t caladan_guard_open_rows(size_t cores, uint64_t bandwidth_limit, const caladan_table_row *rows, size_t count,
                                caladan_guard *guard, caladan_wrong *wrong) {
    char text[CALADAN_ROWS_ROOM];
    size_t length = caladan_rows_text(cores, bandwidth_limit, rows, count, text);
    uint8_t answer = caladan_guard_open((const uint8_t *)text, length, guard);
    return answered(answer, cores, bandwidth_limit, rows, count, wrong);
}
