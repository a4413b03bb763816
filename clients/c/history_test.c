/* What caladan_history.h writes of each look, of each action, and that it tells a full disk. The rows are those of
 * docs/FORMATS.md. Prints 'history_test: ok'. */
#define _GNU_SOURCE
#include "caladan_history.h"
#include <stdlib.h>
#include <string.h>

static int failed;

/* Whether exactly this text was written since the last time. */
static void want(FILE *out, char **text, const char *wanted) {
    static size_t seen;
    fflush(out);
    if (strcmp(*text + seen, wanted)) printf("history_test: wrote\n%snot\n%s", *text + seen, wanted), failed = 1;
    seen = strlen(*text);
}

/* A look that is whole, by its judgement, in both kinds of passes; and one that is busy. */
static void try_looks(FILE *out, char **text) {
    static const char *const plain[] = {"whole,3,1,6,1,0,2,9,0,7,50,0,0\n", NULL, "ahead,3,1,6,1,0,2,9,0,7,50,0,0\n",
                                        "foreign,3,1,6,1,0,2,9,0,7,50,0,0\n"};
    const caladan_look whole = {
        .room = 2, .number = 6, .second = 99, .taken = 1, .queued = 2, .oldest = 9, .misses = 7, .stamp = 50};
    const caladan_look busy = {.busy = 1, .number = 12, .second = 15};
    for (uint8_t judged = CALADAN_KEPT; judged <= CALADAN_WORD_FELL; judged++) {
        if (judged == CALADAN_BUSY) continue;
        caladan_history_look(out, 3, &whole, judged);
        want(out, text, judged <= CALADAN_FOREIGN ? plain[judged - 1] : "busy,3,1,1,1\n");
        caladan_history_look_each(out, 3, &whole, judged);
        want(out, text, judged == CALADAN_KEPT ? plain[0] : "busy,3,1,1,1\n");
    }
    caladan_history_look(out, 0, &busy, CALADAN_BUSY);
    want(out, text, "busy,0,0,12,15\n");
    caladan_history_look_each(out, 0, &busy, CALADAN_BUSY);
    want(out, text, "busy,0,0,12,15\n");
    caladan_history_look(out, 0, &busy, CALADAN_NO_PAIR);
    want(out, text, "busy,0,0,1,1\n");
    caladan_history_look_each(out, 0, &busy, CALADAN_NO_PAIR);
    want(out, text, "busy,0,0,1,1\n");
}

static void try_pass(FILE *out, char **text) {
    const caladan_look looks[2] = {{.number = 6}, {.number = 7, .running = 200}};
    const uint8_t judged[2] = {CALADAN_AHEAD, CALADAN_FOREIGN}, misshapen[2] = {CALADAN_KEPT, CALADAN_MISSHAPEN};
    const caladan_action actions[] = {
        {.kind = CALADAN_FREE, .core = 1},
        {.kind = CALADAN_UNBAN, .core = 2},
        {.kind = CALADAN_BAN, .core = 3, .thread = 4, .started = UINT64_MAX},
        {.kind = CALADAN_REVOKE, .core = 5, .cause = CALADAN_FOR_BAN, .by = 4},
        {.kind = CALADAN_REVOKE, .core = 6, .cause = CALADAN_FOR_BANDWIDTH},
        {.kind = CALADAN_REVOKE, .core = 7, .cause = CALADAN_FOR_TASK, .task = 1},
        {.kind = CALADAN_CAP, .task = 2, .cap = 3},
        {.kind = CALADAN_GRANT, .core = 127, .thread = 126, .core_class = 2},
    };
    caladan_history_begin(out);
    caladan_history_pass(out, false, 10, 20, looks, judged, 2, actions, sizeof actions / sizeof *actions);
    caladan_history_pass(out, true, 11, 21, looks, judged, 2, NULL, 0);
    caladan_history_pass(out, true, 12, 22, looks, misshapen, 2, NULL, 0);
    caladan_history_end(out, 3);
    want(out, text,
         "caladan-history,2\n"
         "pass,10,20\nahead,0,0,6,0,0,0,0,0,0,0,0,0\nforeign,1,0,7,0,200,0,0,0,0,0,0,0\n"
         "free,1\nunban,2\nban,3,4,18446744073709551615\nrevoke,5,ban,4\nrevoke,6,bandwidth\nrevoke,7,preempt,1\n"
         "cap,2,3\ngrant,127,126,2\n"
         "pass,11,21\nbusy,0,0,1,1\nbusy,1,0,1,1\n"
         "pass,12,22\nwhole,0,0,6,0,0,0,0,0,0,0,0,0\nbusy,1,0,1,1\nend,3\n");
}

/* /dev/full is a disk that is full. */
static void try_full(void) {
    const caladan_look look = {.number = 1};
    const uint8_t judged = CALADAN_KEPT;
    FILE *full = fopen("/dev/full", "w");
    if (!full) return;
    bool begun = caladan_history_begin(full), told = false;
    for (int pass = 0; pass < 10000 && !told; pass++)
        told = !caladan_history_pass(full, false, 1, 0, &look, &judged, 1, NULL, 0);
    if (!begun || !told || caladan_history_end(full, 1)) puts("history_test: a full disk was not told"), failed = 1;
    fclose(full);
    full = fopen("/dev/full", "w");
    if (!full || !caladan_history_begin(full) || caladan_history_end(full, 0))
        puts("history_test: a full disk was not told at the end"), failed = 1;
    if (full) fclose(full);
    FILE *null = fopen("/dev/null", "w");
    if (!null || !caladan_history_begin(null) || !caladan_history_end(null, 0))
        puts("history_test: a file that took all"), failed = 1;
    if (null) fclose(null);
}

int main(void) {
    char *text = NULL;
    size_t length;
    FILE *out = open_memstream(&text, &length);
    if (!out) return 2;
    try_looks(out, &text);
    try_pass(out, &text);
    try_full();
    fclose(out);
    free(text);
    puts(failed ? "history_test: failed" : "history_test: ok");
    return failed;
}
