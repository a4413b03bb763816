/* Reads a task table, a line ---, and a file of signals on standard input, makes the passes through
 * caladan.h, and prints the report of caladan_sim. Exits with 2 where the words or the input are refused.
 *
 *   decide [--policy NAME]
 */
#define _GNU_SOURCE
#include "trace.h"

static int refuse(const char *why) {
    fprintf(stderr, "decide: %s\n", why);
    return 2;
}

static void print_action(FILE *out, const caladan_action *it) {
    switch (it->kind) {
    case CALADAN_FREE: fprintf(out, "  free core %d\n", it->core); break;
    case CALADAN_UNBAN: fprintf(out, "  unban core %d\n", it->core); break;
    case CALADAN_BAN:
        fprintf(out, "  ban core %d for thread %d started %llu\n", it->core, it->thread,
                (unsigned long long)it->started);
        break;
    case CALADAN_REVOKE:
        fprintf(out, "  revoke core %d for ", it->core);
        if (it->cause == CALADAN_FOR_BAN) fprintf(out, "ban by core %d\n", it->by);
        if (it->cause == CALADAN_FOR_BANDWIDTH) fprintf(out, "bandwidth\n");
        if (it->cause == CALADAN_FOR_TASK) fprintf(out, "task %d\n", it->task);
        break;
    case CALADAN_CAP: fprintf(out, "  cap task %d at %d\n", it->task, it->cap); break;
    case CALADAN_GRANT:
        fprintf(out, "  grant core %d to thread %d class %d\n", it->core, it->thread, it->core_class);
        break;
    }
}

static void print_pass(FILE *out, uint64_t number, const recorded *pass, const uint8_t *judged, size_t threads,
                       const caladan_action *actions, size_t made) {
    static const char *const kinds[] = {"", "", "busy", "ahead", "foreign"};
    fprintf(out, "pass %llu now %llu bandwidth %llu\n", (unsigned long long)number, (unsigned long long)pass->now,
            (unsigned long long)pass->bandwidth);
    for (size_t k = 0; k < threads; k++)
        if (judged[k] != CALADAN_KEPT) fprintf(out, "  kept %zu %s\n", k, kinds[judged[k]]);
    for (size_t i = 0; i < made; i++) print_action(out, &actions[i]);
}

static void print_end(FILE *out, caladan *handle, uint64_t passes) {
    caladan_counts counts;
    caladan_table_row row;
    fprintf(out, "end %llu passes\n", (unsigned long long)passes);
    for (size_t task = 0;
         caladan_task(handle, task, &counts) == CALADAN_DONE && caladan_table_task(handle, task, &row) == CALADAN_DONE;
         task++) {
        bool best_effort = row.kind == CALADAN_BEST_EFFORT;
        fprintf(out, "task %zu %s held %d leaving %d", task, best_effort ? "be" : "lc", counts.held,
                counts.booked - counts.held);
        if (best_effort) fprintf(out, " cap %d", counts.cap);
        fprintf(out, "\n");
    }
}

/* Makes each pass, and writes the report: 0, or 2 where the signals are refused. */
static int decide(FILE *out, trace *from, caladan *handle) {
    static recorded pass;
    static caladan_action actions[CALADAN_MOST_ACTIONS];
    uint8_t judged[CALADAN_MOST_THREADS];
    size_t threads = caladan_threads(handle), made;
    int is_read;
    while ((is_read = next_pass(from, &pass)) == 1) {
        if (caladan_pass(handle, pass.now, pass.bandwidth, pass.looks, threads, judged, sizeof judged, actions,
                         CALADAN_MOST_ACTIONS, &made))
            return refuse("a pass");
        print_pass(out, from->passes - 1, &pass, judged, threads, actions, made);
    }
    if (is_read < 0) return refuse("the signals");
    print_end(out, handle, from->passes);
    return 0;
}

/* The report is kept until all of the input was accepted. */
static int run(const input *in, caladan *handle) {
    char *report = NULL;
    size_t length = 0;
    caladan_machine machine;
    trace from;
    FILE *out = open_memstream(&report, &length);
    if (!out) return refuse("no memory");
    caladan_table(handle, &machine);
    int status = begin_trace(&from, in, false, machine) ? decide(out, &from, handle) : refuse("no header");
    if (fclose(out)) status = refuse("no memory");
    if (!status) fwrite(report, 1, length, stdout);
    free(report);
    return status;
}

int main(int argc, char **argv) {
    input in;
    caladan handle = CALADAN_CLOSED;
    uint8_t answer = CALADAN_DONE;
    int status = 2;
    if (argc != 1 && argc != 3) return refuse("the words");
    if (!read_input(stdin, &in)) {
        refuse("no separator, or too long");
    } else if ((answer = caladan_open_policy((const uint8_t *)in.text, in.table_length, policy_asked(argc, argv),
                                             &handle))) {
        refuse(caladan_answer_text(answer));
    } else {
        status = run(&in, &handle);
        caladan_close(&handle);
    }
    free(in.text);
    return status;
}
