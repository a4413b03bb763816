/* Times each pass alone, over made threads that take what they are sent, work, yield and ask again.
 *
 *     bench [PASSES [EACH [YIELDS [ASKS [FRESH [MORE [THREADS]]]]]]]
 *
 * A thread has its turn in one pass of EACH; on a core it yields in one turn of YIELDS, begins another request in one
 * of FRESH, and has one more request waiting in one of MORE (0: never); off a core it asks for one in one of ASKS.
 * As many cores as threads, and a latency-critical task for each eight of them. Compiled with -DGUARD it times
 * caladan_guard_pass on the same looks and the actions that caladan_pass chose, in place of caladan_pass; with
 * -DPOLICY=CALADAN_POLICY_ASSURED passes are by that policy. */
#define _GNU_SOURCE
#include "caladan.h"
#include "chance.h"
#include <stdio.h>
#include <stdlib.h>
#include <string.h>
#include <time.h>

enum { MOST = CALADAN_MOST_THREADS, RING = 4, PARK = -1 };

typedef struct {
    int command[RING]; /* a core, or PARK */
    int count;
} ring;

static int passes = 20000, THREADS = MOST;
static uint32_t each = 4, yields = 16, asks = 16, fresh = 16, more = 64;
static ring rings[MOST];
static int core_of[MOST], holder[MOST];
static caladan_look looks[MOST];
static caladan_action actions[CALADAN_MOST_ACTIONS];
static uint8_t judged[MOST];
static uint64_t changed, on_core, kinds[CALADAN_GRANT + 1];
static caladan scheduler;
#ifdef GUARD
static caladan_guard guard;
#endif

static uint64_t ns(void) {
    struct timespec t;
    clock_gettime(CLOCK_MONOTONIC, &t);
    return (uint64_t)t.tv_sec * 1000000000u + (uint64_t)t.tv_nsec;
}

static int less(const void *a, const void *b) {
    uint64_t x = *(const uint64_t *)a, y = *(const uint64_t *)b;
    return (x > y) - (x < y);
}

/* The thread takes its next command. */
static void take(int k, uint64_t now) {
    caladan_look *it = &looks[k];
    int core = rings[k].command[0];
    memmove(rings[k].command, rings[k].command + 1, (RING - 1) * sizeof(int));
    rings[k].count--;
    core_of[k] = core;
    it->taken++;
    it->running = (uint64_t)(core + 1);
    it->started = core == PARK ? 0 : now;
    if (core != PARK) it->queued = 0;
}

/* The thread is on its core: it yields, or begins another request, or one more waits for it. */
static void work(int k, uint64_t now) {
    caladan_look *it = &looks[k];
    if (chance(yields) == 0) {
        core_of[k] = PARK;
        it->running = 0;
        it->started = 0;
        it->queued = 0;
    } else if (chance(fresh) == 0) {
        it->started = now;
    } else if (more && chance(more) == 0) {
        it->queued = 1;
        it->oldest = now;
    }
}

static void turn(int k, uint64_t now) {
    caladan_look *it = &looks[k], old = *it;
    if (rings[k].count) {
        take(k, now);
    } else if (core_of[k] != PARK) {
        work(k, now);
    } else if (chance(asks) == 0) {
        it->queued = 1;
        it->oldest = now - 11;
    }
    if (memcmp(&old, it, sizeof old)) {
        it->number++;
        it->misses += chance(100);
        it->stamp = now;
    }
}

static void turn_all(uint64_t now) {
    for (int k = 0; k < THREADS; k++) {
        uint64_t was = looks[k].number;
        if (chance(each) == 0) turn(k, now);
        looks[k].room = rings[k].count < RING;
        changed += looks[k].number != was;
        on_core += core_of[k] != PARK;
    }
}

/* What the pass did goes out on the rings. */
static void send(size_t made) {
    for (size_t i = 0; i < made; i++) {
        const caladan_action *a = &actions[i];
        kinds[a->kind]++;
        if (a->kind == CALADAN_GRANT) {
            ring *r = &rings[a->thread];
            r->command[r->count++] = a->core;
            holder[a->core] = a->thread;
        } else if (a->kind == CALADAN_REVOKE) {
            ring *r = &rings[holder[a->core]];
            r->command[r->count++] = PARK;
        }
    }
}

static int open_all(void) {
    static char text[4096];
    int n = sprintf(text, "cores = %d\nbandwidth_limit = 1000\n", THREADS);
    for (int t = 0; t < THREADS / 8; t++)
        n += sprintf(text + n, "[[task]]\nkind = \"lc\"\nguaranteed = 8\nlimit = 8\ndelay = 10\nrequest = 50\n");
#ifdef POLICY
    int said = caladan_open_policy((const uint8_t *)text, (size_t)n, POLICY, &scheduler);
#else
    int said = caladan_open((const uint8_t *)text, (size_t)n, &scheduler);
#endif
#ifdef GUARD
    if (!said) said = caladan_guard_open((const uint8_t *)text, (size_t)n, &guard);
#endif
    if (said) fprintf(stderr, "table fault %d\n", said);
    for (int k = 0; k < MOST; k++) core_of[k] = holder[k] = PARK;
    return said;
}

/* One pass at this clock: what it took in ns, or 0 where it was refused. */
static uint64_t pass(uint64_t now) {
    int said;
    size_t made;
    uint64_t before = ns();
    said = caladan_pass(&scheduler, now, 0, looks, (size_t)THREADS, judged, sizeof judged, actions,
                        CALADAN_MOST_ACTIONS, &made);
    uint64_t after = ns();
#ifdef GUARD
    caladan_refused refused;
    if (!said) {
        before = ns();
        said = caladan_guard_pass(&guard, now, 0, looks, (size_t)THREADS, judged, sizeof judged, actions, made,
                                  &refused);
        after = ns();
    }
#endif
    if (said) {
        fprintf(stderr, "refused %d\n", said);
        return 0;
    }
    send(made);
    return after > before ? after - before : 1;
}

static double clock_cost(void) {
    uint64_t begun = ns();
    for (int i = 0; i < 1000000; i++) (void)ns();
    return (double)(ns() - begun) / 1e6;
}

static void print(uint64_t *took) {
    double sum = 0, count = passes;
    for (int p = 0; p < passes; p++) sum += (double)took[p];
    qsort(took, (size_t)passes, sizeof *took, less);
    printf("%d passes: mean %.0f ns, median %llu, 1%% %llu, 99%% %llu, max %llu (a clock's call %.0f ns is in each)\n",
           passes, sum / count, (unsigned long long)took[passes / 2], (unsigned long long)took[passes / 100],
           (unsigned long long)took[passes * 99L / 100], (unsigned long long)took[passes - 1], clock_cost());
    printf("a pass: %.1f records changed, %.1f threads on a core; actions: %.2f free %.2f unban %.2f ban %.2f revoke "
           "%.2f cap %.2f grant\n",
           (double)changed / count, (double)on_core / count, (double)kinds[CALADAN_FREE] / count,
           (double)kinds[CALADAN_UNBAN] / count, (double)kinds[CALADAN_BAN] / count,
           (double)kinds[CALADAN_REVOKE] / count, (double)kinds[CALADAN_CAP] / count,
           (double)kinds[CALADAN_GRANT] / count);
}

int main(int argc, char **argv) {
    if (argc > 1) passes = atoi(argv[1]);
    uint32_t *words[] = {&each, &yields, &asks, &fresh, &more};
    for (int i = 2; i < argc && i < 7; i++) *words[i - 2] = (uint32_t)atoi(argv[i]);
    if (argc > 7) THREADS = atoi(argv[7]);
    if (passes < 1 || THREADS < 8 || THREADS > MOST || !each || !yields || !asks || !fresh) return 2;
    if (open_all()) return 1;
    if (caladan_threads(&scheduler) != (size_t)THREADS) return 2;
    uint64_t *took = malloc(sizeof *took * (size_t)passes);
    if (!took) return 4;
    for (int p = 0; p < passes; p++) {
        uint64_t now = 1000 + 10 * (uint64_t)p;
        turn_all(now);
        took[p] = pass(now + 5);
        if (!took[p]) return 3;
    }
    print(took);
    caladan_close(&scheduler);
#ifdef GUARD
    caladan_guard_close(&guard);
#endif
    free(took);
    return 0;
}
