#include "latency.h"
#include <inttypes.h>
#include <stddef.h>
#include <string.h>

static void add(histogram *h, uint64_t ns) {
    uint64_t place = ns;
    if (ns >= 8) {
        unsigned power = 63 - (unsigned)__builtin_clzll(ns);
        place = (power - 2) * 8 + (ns >> (power - 3)) % 8;
    }
    h->count++;
    if (ns > h->most) h->most = ns;
    h->bucket[place < LATENCY_BUCKETS ? place : LATENCY_BUCKETS - 1]++;
}

/* The least that falls into a bucket. */
static uint64_t least_of(unsigned place) { return place < 8 ? place : (uint64_t)(8 + place % 8) << (place / 8 - 1); }

uint64_t latency_quantile(const histogram *h, double share) {
    uint64_t before = 0;
    for (unsigned i = 0; i < LATENCY_BUCKETS; i++) {
        before += h->bucket[i];
        if (before && (double)before >= share * (double)h->count) return least_of(i);
    }
    return 0;
}

/* The policy's delay of a thread: the longer wait of its oldest queued and of its suspended request. */
static uint64_t delay_of(const caladan_look *look, uint64_t now) {
    uint64_t queued = look->queued && look->oldest < now ? now - look->oldest : 0;
    uint64_t paused = look->paused && look->since < now ? now - look->since : 0;
    return queued > paused ? queued : paused;
}

void latency_begin_piece(latency *l) { memset(l, 0, offsetof(latency, wasted)); }

static void decided_grant(latency *l, uint64_t now, const latency_thread *threads, size_t count,
                          const caladan_action *a) {
    uint8_t thread = a->thread, task = threads[thread].task;
    uint64_t longest = 0;
    for (size_t i = 0; i < count; i++) {
        uint64_t delay = threads[i].task == task ? delay_of(&threads[i].shown, now) : 0;
        if (delay > longest) longest = delay;
    }
    l->granted[thread] = now;
    l->decided[thread] = l->asked[task] ? l->asked[task] : now;
    l->waited[thread] = longest;
    l->on[thread] = a->core + 1u;
    l->asked[task] = 0;
    l->left_by[a->core] = thread;
}

static void decided_revoke(latency *l, uint64_t now, const caladan_action *a) {
    bool for_task = a->cause == CALADAN_FOR_TASK;
    l->revoked[a->core] = now;
    l->revoked_in[a->core] = l->passes;
    l->revoked_for[a->core] = for_task ? a->task : 255;
    if (for_task && l->asked[a->task] == 0) l->asked[a->task] = now;
}

static bool is_granted_to(const latency_thread *threads, uint8_t task, const caladan_action *actions, size_t made) {
    for (size_t i = 0; i < made; i++)
        if (actions[i].kind == CALADAN_GRANT && threads[actions[i].thread].task == task) return true;
    return false;
}

/* A core that was revoked is free. Where its task wants none any more, the move was for nothing. A stamp that is
 * later than the pass is no time. */
static void decided_free(latency *l, uint64_t now, uint8_t core, const latency_thread *threads,
                         const caladan_action *actions, size_t made) {
    uint64_t stamp = threads[l->left_by[core]].shown.stamp, from = l->revoked[core];
    uint8_t task = l->revoked_for[core];
    if (from == 0) return;
    if (stamp <= now) add(&l->leaving, stamp > from ? stamp - from : 0);
    add(&l->freeing, now - from);
    add(&l->freeing_passes, l->passes - l->revoked_in[core]);
    l->revoked[core] = 0;
    if (task == 255 || is_granted_to(threads, task, actions, made)) return;
    l->asked[task] = 0;
    l->wasted++;
}

void latency_decided(latency *l, uint64_t now, const latency_thread *threads, size_t count,
                     const caladan_action *actions, size_t made) {
    l->passes++;
    for (size_t i = 0; i < made; i++) {
        const caladan_action *a = &actions[i];
        if (a->kind == CALADAN_FREE) decided_free(l, now, a->core, threads, actions, made);
        if (a->kind == CALADAN_REVOKE) decided_revoke(l, now, a);
        if (a->kind == CALADAN_GRANT) decided_grant(l, now, threads, count, a);
    }
}

void latency_looked(latency *l, uint64_t now, const latency_thread *threads, size_t count) {
    for (size_t k = 0; k < count; k++) {
        const caladan_look *shown = &threads[k].shown;
        if (l->on[k] == 0 || shown->running != l->on[k] || shown->stamp < l->granted[k]) continue;
        uint64_t start = shown->started > l->granted[k] ? shown->started : shown->stamp;
        l->on[k] = 0;
        if (!threads[k].is_critical || start > now) continue;
        add(&l->starting, start - l->granted[k]);
        add(&l->moving, start - l->decided[k]);
        add(&l->waiting, start - l->granted[k] + l->waited[k]);
    }
}

static void print_shares(const char *name, const char *unit, const histogram *h, FILE *out) {
    fprintf(out,
            "%s: %" PRIu64 " times; %s p50 %" PRIu64 ", p90 %" PRIu64 ", p99 %" PRIu64 ", p99.9 %" PRIu64
            ", most %" PRIu64 "\n",
            name, h->count, unit, latency_quantile(h, 0.5), latency_quantile(h, 0.9), latency_quantile(h, 0.99),
            latency_quantile(h, 0.999), h->most);
}

static void print_one(const char *name, const histogram *h, FILE *out) {
    static const uint64_t up_to[] = {2, 4, 8, 16, 32, 64, 128, 1000, 10000};
    uint64_t before = 0, sum = 0;
    unsigned i = 0;
    print_shares(name, "ns", h, out);
    fputs("  of 1000, by microseconds:", out);
    for (size_t u = 0; u < sizeof up_to / sizeof *up_to; u++) {
        while (i < LATENCY_BUCKETS && least_of(i) < up_to[u] * 1000) sum += h->bucket[i++];
        fprintf(out, " <%" PRIu64 " %.1f", up_to[u], 1000.0 * (double)(sum - before) / (double)(h->count + !h->count));
        before = sum;
    }
    fprintf(out, " more %.1f\n", 1000.0 * (double)(h->count - sum) / (double)(h->count + !h->count));
}

void latency_print(const latency *l, FILE *out) {
    print_one("revocation to the record that shows it left", &l->leaving, out);
    print_one("revocation to the pass that frees the core", &l->freeing, out);
    print_shares("  the same", "passes", &l->freeing_passes, out);
    print_one("grant to the thread at work", &l->starting, out);
    print_one("decision to the thread at work", &l->moving, out);
    print_one("arrival to the thread at work", &l->waiting, out);
    fprintf(out, "cores revoked for a task that wanted none when they were free: %" PRIu64 "\n", l->wasted);
}
