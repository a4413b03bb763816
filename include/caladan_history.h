/* caladan_history.h: writes passes as a history (docs/FORMATS.md, version 2), which `caladan_sim audit`
 * reads behind the task table and a line of three dashes. Not proved; clients/c/history_test.c tests it, and
 * clients/c/liar_test.c writes by it what tools/c_library has audited.
 *
 * A file is: the table's text, "---\n", then what these calls write. A stream keeps in its own memory what is
 * written to it, so that a full disk shows late: caladan_history_end says whether all of it went out.
 */
#ifndef CALADAN_HISTORY_H
#define CALADAN_HISTORY_H
#include "caladan.h"
#include <inttypes.h>
#include <stdio.h>

/* False where an earlier write to the stream has failed. So say all of these calls but caladan_history_number. */
static inline bool caladan_history_begin(FILE *out) {
    fputs(CALADAN_HISTORY_HEADER "\n", out);
    return !ferror(out);
}

/* A comma and a number; it writes digits itself, since a pass writes many. */
static inline void caladan_history_number(FILE *out, uint64_t number) {
    char text[21];
    size_t at = sizeof text;
    do text[--at] = (char)('0' + number % 10);
    while (number /= 10);
    text[--at] = ',';
    fwrite(text + at, 1, sizeof text - at, out);
}

/* One look of caladan_pass and what it judged of it (KEPT, BUSY, AHEAD or FOREIGN). A look with another
 * judgement, which only caladan_pass_each refuses it by, is written as the busy look that was taken in its place. */
static inline bool caladan_history_look(FILE *out, size_t thread, const caladan_look *look, uint8_t judged) {
    static const char *const kinds[] = {"busy", "whole", "busy", "ahead", "foreign"};
    caladan_look taken = judged > CALADAN_FOREIGN ? caladan_taken(look, judged) : *look;
    if (taken.busy || judged > CALADAN_FOREIGN) judged = CALADAN_BUSY;
    fprintf(out, "%s,%zu,%d,%" PRIu64, kinds[judged], thread, taken.room != 0, taken.number);
    if (taken.busy) {
        caladan_history_number(out, taken.second);
    } else {
        uint64_t words[CALADAN_WORDS];
        caladan_look_words(&taken, words);
        for (int i = 0; i < CALADAN_WORDS; i++) caladan_history_number(out, words[i]);
    }
    fputc('\n', out);
    return !ferror(out);
}

/* One look of caladan_pass_each, as it was taken: each that it refused (judged above CALADAN_BUSY, so AHEAD and
 * FOREIGN too) is written as the busy look that was taken in its place. */
static inline bool caladan_history_look_each(FILE *out, size_t thread, const caladan_look *look, uint8_t judged) {
    caladan_look taken = caladan_taken(look, judged);
    uint8_t recorded = CALADAN_BUSY;
    if (judged < recorded) recorded = judged;
    return caladan_history_look(out, thread, &taken, recorded);
}

/* One action. */
static inline bool caladan_history_action(FILE *out, const caladan_action *it) {
    switch (it->kind) {
    case CALADAN_FREE: fprintf(out, "free,%d\n", it->core); break;
    case CALADAN_UNBAN: fprintf(out, "unban,%d\n", it->core); break;
    case CALADAN_BAN: fprintf(out, "ban,%d,%d,%" PRIu64 "\n", it->core, it->thread, it->started); break;
    case CALADAN_REVOKE:
        if (it->cause == CALADAN_FOR_BAN) fprintf(out, "revoke,%d,ban,%d\n", it->core, it->by);
        if (it->cause == CALADAN_FOR_BANDWIDTH) fprintf(out, "revoke,%d,bandwidth\n", it->core);
        if (it->cause == CALADAN_FOR_TASK) fprintf(out, "revoke,%d,preempt,%d\n", it->core, it->task);
        break;
    case CALADAN_CAP: fprintf(out, "cap,%d,%d\n", it->task, it->cap); break;
    case CALADAN_GRANT: fprintf(out, "grant,%d,%d,%d\n", it->core, it->thread, it->core_class); break;
    }
    return !ferror(out);
}

/* A pass of caladan_pass or, where each is not 0, of caladan_pass_each: what it was given and answered. */
static inline bool caladan_history_pass(FILE *out, bool each, uint64_t now, uint64_t bandwidth,
                                        const caladan_look *looks, const uint8_t *judged, size_t count,
                                        const caladan_action *actions, size_t made) {
    fprintf(out, "pass,%" PRIu64 ",%" PRIu64 "\n", now, bandwidth);
    for (size_t k = 0; k < count; k++) {
        if (each) caladan_history_look_each(out, k, &looks[k], judged[k]);
        else caladan_history_look(out, k, &looks[k], judged[k]);
    }
    for (size_t i = 0; i < made; i++) caladan_history_action(out, &actions[i]);
    return !ferror(out);
}

/* The end, with the number of passes. True where all that was written to the stream went out to its file; that a
 * disk keeps it is fsync's to say. */
static inline bool caladan_history_end(FILE *out, uint64_t passes) {
    fprintf(out, "end,%" PRIu64 "\n", passes);
    return fflush(out) == 0 && !ferror(out);
}
#endif
