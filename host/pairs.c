/* pairs.c: a clerk reads between which processes SCHED_IDLE means something (groups.c), since that takes a tenth of a
 * millisecond and more for each pair. One question at a time: who asked comes again for the answer. */
#define _GNU_SOURCE
#include <semaphore.h>
#include <stdlib.h>
#include <string.h>
#include "caladand.h"

/* How long an answer is kept for who asked, in nanoseconds. */
#define KEPT ((uint64_t)100000000)
enum { IS_FREE, IS_ASKED, IS_ANSWERED };

struct pairs {
    host_pair pair[HOST_TASKS];
    size_t count;
    unsigned asker;
    bool give_way;
    uint64_t asked_at;
    _Atomic int state; /* while it is asked, all that is the clerk's */
    sem_t bell;
};

static void answer_each(void *with) {
    pairs *it = with;
    for (;;) {
        while (sem_wait(&it->bell)) {}
        bool all = true;
        for (size_t i = 0; i < it->count && all; i++)
            all = gives_way(it->pair[i].under, it->pair[i].to);
        it->give_way = all;
        atomic_store(&it->state, IS_ANSWERED);
    }
}

bool begin_pairs(scheduler *s) {
    if (s->options.under == 0) return true;
    s->pairs = calloc(1, sizeof *s->pairs);
    if (s->pairs == NULL) return false;
    sem_init(&s->pairs->bell, 0, 0);
    return start_clerk(answer_each, s->pairs, &s->others);
}

static bool is_same(const pairs *it, const host_pair *pairs, size_t count, unsigned asker) {
    return it->asker == asker && it->count == count && !memcmp(it->pair, pairs, count * sizeof *pairs);
}

int each_gives_way(pairs *it, const host_pair *pairs, size_t count, unsigned asker, uint64_t now) {
    if (count == 0) return 1;
    int state = atomic_load(&it->state);
    if (state == IS_ASKED) return -1;
    if (state == IS_ANSWERED && is_same(it, pairs, count, asker)) {
        atomic_store(&it->state, IS_FREE);
        return it->give_way;
    }
    if (state == IS_ANSWERED && it->asker != asker && now - it->asked_at < KEPT) return -1;
    memcpy(it->pair, pairs, count * sizeof *pairs);
    it->count = count, it->asker = asker, it->asked_at = now;
    atomic_store(&it->state, IS_ASKED);
    sem_post(&it->bell);
    return -1;
}
