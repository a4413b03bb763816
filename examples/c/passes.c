/* The decision core from C: three passes over one kernel thread, which waits, runs and leaves. It prints what each
 * pass does. tools/c_library builds it, runs it, and compares what it prints with passes.txt beside it. */
// begin
#include <stdio.h>
#include "caladan.h"

static const char table[] = "cores = 2\nbandwidth_limit = 1000\n"
                            "[[task]]\nkind = \"lc\"\nguaranteed = 1\nlimit = 1\ndelay = 10\nrequest = 50\n";

/* Makes a pass at this clock on one look for each thread, and prints its actions. */
static uint8_t pass(caladan *handle, uint64_t now, const caladan_look *looks, size_t threads) {
    uint8_t judged[CALADAN_MOST_THREADS];
    caladan_action actions[CALADAN_MOST_ACTIONS];
    size_t made;
    uint8_t fault = caladan_pass_each(handle, now, 0, looks, threads, judged, sizeof judged,
                                      actions, CALADAN_MOST_ACTIONS, &made);
    if (fault) return fault;
    printf("pass at %d\n", (int)now);
    for (size_t i = 0; i < made; i++) {
        const caladan_action *it = &actions[i];
        if (it->kind == CALADAN_GRANT) printf("  grant core %d to thread %d\n", it->core, it->thread);
        if (it->kind == CALADAN_REVOKE) printf("  revoke core %d\n", it->core);
        if (it->kind == CALADAN_FREE) printf("  free core %d\n", it->core);
    }
    return CALADAN_DONE;
}

int main(void) {
    if (!CALADAN_IS_THIS_VERSION()) return 3; /* the header is of another library */
    caladan handle = CALADAN_CLOSED;
    uint8_t fault = caladan_open((const uint8_t *)table, sizeof table - 1, &handle);
    if (fault) return fault;
    size_t threads = caladan_threads(&handle);

    /* A request waits since clock 100. */
    caladan_look look = {.room = 1, .number = 1, .queued = 1, .oldest = 100, .stamp = 100};
    fault = pass(&handle, 111, &look, threads);

    /* The thread took its command, and runs the request on core 0. */
    look = (caladan_look){.room = 1, .number = 2, .taken = 1, .running = 1, .started = 112, .stamp = 112};
    if (!fault) fault = pass(&handle, 120, &look, threads);

    /* The request is served, and the thread has left its core. */
    look = (caladan_look){.room = 1, .number = 3, .taken = 1, .stamp = 125};
    if (!fault) fault = pass(&handle, 130, &look, threads);

    caladan_close(&handle);
    return fault;
}
// end
