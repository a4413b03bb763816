/* latency.h: how long the steps of a core's move take, as histograms. */
#ifndef LATENCY_H
#define LATENCY_H
#include "caladan.h"
#include <stdio.h>

enum { LATENCY_BUCKETS = 40 * 8 };

typedef struct histogram {
    uint64_t count, most, bucket[LATENCY_BUCKETS]; /* eight to each power of two */
} histogram;

typedef struct latency {
    /* what is under way in this piece; 0 is nothing */
    uint64_t asked[16];                        /* of a task: when a core was revoked for it */
    uint64_t revoked[CALADAN_MOST_CORES];      /* of a core: when */
    uint64_t revoked_in[CALADAN_MOST_CORES];   /* in which pass of the run */
    uint8_t revoked_for[CALADAN_MOST_CORES];   /* for which task, or 255 */
    uint8_t left_by[CALADAN_MOST_CORES];       /* and from which thread */
    uint64_t granted[CALADAN_MOST_THREADS];    /* of a thread that is not seen on its core yet */
    uint64_t decided[CALADAN_MOST_THREADS], waited[CALADAN_MOST_THREADS], on[CALADAN_MOST_THREADS];
    /* of the whole run */
    uint64_t wasted, passes;
    histogram leaving, freeing, freeing_passes, starting, moving, waiting;
} latency;

/* The record of a thread that counts, and which task's it is. */
typedef struct latency_thread {
    caladan_look shown;
    uint8_t task;
    bool is_critical;
} latency_thread;

void latency_begin_piece(latency *l);
void latency_decided(latency *l, uint64_t now, const latency_thread *threads, size_t count,
                     const caladan_action *actions, size_t made);
void latency_looked(latency *l, uint64_t now, const latency_thread *threads, size_t count);
uint64_t latency_quantile(const histogram *h, double share); /* the least of the bucket that it falls into */
void latency_print(const latency *l, FILE *out);
#endif
