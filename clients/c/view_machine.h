/* view_machine.h: a machine that reorders loads and stores as C11 allows, on which the code of caladan_pages.h runs
 * through every run of small instances. It gives the header its own accesses, and records of two words.
 *
 * The machine is one of views. Each place in memory keeps all that was stored there, in an order; each
 * thread has, of each place, the earliest store that it may still find. A load finds any store from that
 * one on; a store goes anywhere behind what its thread knows. A release store carries its thread's view, an
 * acquire load takes it over, and fences do so for the relaxed ones around them. A swap goes right behind
 * what it found, and carries on what that carried. Not in it is that a load finds what is stored because of
 * that load, or later in its own thread (load buffering); nothing here is seq_cst.
 *
 * A thread is a function that answers whether all was right. It is run from its beginning, with what its
 * accesses have found so far, up to the next access; so it has no state but its own. States that were met are
 * known by a hash of 64 bits. */
#ifndef CALADAN_VIEW_MACHINE_H
#define CALADAN_VIEW_MACHINE_H
#include "caladan.h"
#include <setjmp.h>
#include <stdio.h>
#include <stdlib.h>

/* What the header is given in place of the accesses of C11, and of records of more words. */
enum { relaxed_order, acquire_order, release_order };
static uint64_t model_load(const volatile void *at, int order);
static void model_store(volatile void *at, uint64_t value, int order);
static void model_fence(int order);
static bool model_swap(volatile void *at, uint64_t *expected, uint64_t value, int order);
#define CALADAN_LOAD(at, order) model_load(at, order##_order)
#define CALADAN_STORE(at, value, order) model_store(at, value, order##_order)
#define CALADAN_FENCE(order) model_fence(order##_order)
#define CALADAN_SWAP(at, expected, value, order) model_swap(at, expected, value, order##_order)

static void two_words(const caladan_look *look, uint64_t words[2]) {
    words[0] = look->taken;
    words[1] = look->running;
}

static void set_two_words(caladan_look *look, const uint64_t words[2]) {
    look->taken = words[0];
    look->running = words[1];
}
#define CALADAN_WORDS 2
#define caladan_look_words two_words
#define caladan_look_set_words set_two_words
#include "caladan_pages.h"

/* What is shared: only where each word lies is used of it. */
static struct {
    caladan_page page;
    caladan_ring ring;
} shared;
enum { THREADS = 3, PLACES = 9, STORES = 10, FOUND = 48, LOAD = 1, STORE, FENCE, SWAP, JOIN };

/* Where a word lies among the PLACES: version, two words; sent, four commands, taken. */
static int place_of(const volatile void *at) {
    long word = ((const volatile char *)at - (const volatile char *)&shared) / 8;
    return (int)(word < 3 ? word : word < 21 ? word - 16 + 3 : 8);
}

/* These have no bytes between their fields, since a state is hashed by its bytes. */
typedef struct view {
    uint8_t of[16]; /* of each of the PLACES the number of a store, in the order of its place */
} view;

typedef struct stored {
    uint64_t value, is_glued; /* glued, a swap's: nothing comes between it and the store before it */
    view carried;
} stored;

typedef struct thread {
    view now, if_acquired, released; /* what it knows; what an acquire fence adds; what its relaxed stores carry */
    uint64_t is_done, count, found[FOUND]; /* found by its accesses so far, which are so many */
} thread;

typedef struct state {
    uint64_t count[PLACES];
    stored store[PLACES][STORES];
    thread thread[THREADS];
} state;
_Static_assert(sizeof(state) == 8 * PLACES + 32 * PLACES * STORES + THREADS * (64 + 8 * FOUND),
               "no bytes between the fields");

/* The next access of a thread. */
typedef struct access {
    int kind, place, order;
    uint64_t value, expected;
} access_of;

typedef bool body(void);
static struct {
    const char *name;
    body *bodies[THREADS];
    bool is_quiet; /* what is found is not said */
} instance;
static struct {
    const thread *it; /* whose function runs */
    int at;           /* how many of its accesses were fed so far */
    access_of next;
    jmp_buf out;
} run;

/* What this access has found; or the function is left here, since that is to be chosen. */
static uint64_t found_by(access_of next) {
    if ((uint64_t)run.at < run.it->count) return run.it->found[run.at++];
    run.next = next;
    longjmp(run.out, 1);
}

static uint64_t model_load(const volatile void *at, int order) {
    return found_by((access_of){LOAD, place_of(at), order, 0, 0});
}

static void model_store(volatile void *at, uint64_t value, int order) {
    found_by((access_of){STORE, place_of(at), order, value, 0});
}

static void model_fence(int order) { found_by((access_of){FENCE, 0, order, 0, 0}); }

static bool model_swap(volatile void *at, uint64_t *expected, uint64_t value, int order) {
    uint64_t found = found_by((access_of){SWAP, place_of(at), order, value, *expected});
    bool is = found == *expected;
    *expected = found;
    return is;
}

/* Waits until a thread is done, and knows all that it knows: as after its process was waited for. */
static void join(int other) { found_by((access_of){JOIN, other, 0, 0, 0}); }

/* Leaves a run that is none of those that are asked about. */
static void leave(void) {
    run.next.kind = 0;
    longjmp(run.out, 1);
}

static void add(view *to, const view *more) {
    for (int p = 0; p < PLACES; p++)
        if (more->of[p] > to->of[p]) to->of[p] = more->of[p];
}

/* Counts, of a place, one store more from this number on. */
static void shift(view *it, int place, int from) {
    if (it->of[place] >= from) it->of[place]++;
}

static void shift_all(state *s, int place, int from) {
    for (int k = 0; k < THREADS; k++) {
        shift(&s->thread[k].now, place, from);
        shift(&s->thread[k].if_acquired, place, from);
        shift(&s->thread[k].released, place, from);
    }
    for (int k = 0; k < PLACES * STORES; k++) shift(&s->store[k / STORES][k % STORES].carried, place, from);
}

static void finds(thread *it, uint64_t value) {
    if (it->count == FOUND) puts("order_test: too many accesses"), exit(2);
    it->found[it->count++] = value;
}

static void load(state *s, int k, access_of a, int number) {
    thread *it = &s->thread[k];
    const stored *found = &s->store[a.place][number];
    it->now.of[a.place] = (uint8_t)number;
    if (number > it->if_acquired.of[a.place]) it->if_acquired.of[a.place] = (uint8_t)number;
    add(&it->if_acquired, &found->carried);
    if (a.order == acquire_order) add(&it->now, &found->carried);
    finds(it, found->value);
}

/* Puts a store at this number; `carries`, if not NULL, is what it carries beside its thread's view. */
static void put(state *s, int k, access_of a, int number, const view *carries) {
    stored more = {a.value, carries != NULL, carries ? *carries : (view){{0}}};
    if (s->count[a.place] == STORES) puts("order_test: too many stores"), exit(2);
    shift_all(s, a.place, number);
    shift(&more.carried, a.place, number);
    thread *it = &s->thread[k];
    for (int n = (int)s->count[a.place]++; n > number; n--) s->store[a.place][n] = s->store[a.place][n - 1];
    it->now.of[a.place] = it->if_acquired.of[a.place] = (uint8_t)number;
    add(&more.carried, a.order == release_order ? &it->now : &it->released);
    more.carried.of[a.place] = (uint8_t)number;
    s->store[a.place][number] = more;
}

static void store(state *s, int k, access_of a, int number) {
    put(s, k, a, number, NULL);
    finds(&s->thread[k], 0);
}

/* A swap that found what it expected goes right behind it, and carries on what that carried. */
static void swap(state *s, int k, access_of a, int number) {
    uint64_t found = s->store[a.place][number].value;
    view carries = s->store[a.place][number].carried;
    load(s, k, (access_of){LOAD, a.place, found == a.expected ? a.order : relaxed_order, 0, 0}, number);
    if (found == a.expected) put(s, k, (access_of){STORE, a.place, relaxed_order, a.value, 0}, number + 1, &carries);
}

static void step_alone(state *s, int k, access_of a) {
    thread *it = &s->thread[k];
    if (a.kind == FENCE && a.order == release_order) it->released = it->now;
    if (a.kind == FENCE && a.order == acquire_order) add(&it->now, &it->if_acquired);
    if (a.kind == JOIN) {
        add(&it->now, &s->thread[a.place].now);
        add(&it->if_acquired, &it->now);
    }
    finds(it, 0);
}

/* The states that were met, by their hashes. */
static uint64_t *met;
static size_t met_count, met_room;

static uint64_t mixed(uint64_t hash, uint64_t word) {
    hash = (hash ^ word) * 0x9e3779b97f4a7c15u;
    return hash ^ hash >> 29;
}

static uint64_t hash_of(const state *s) {
    uint64_t hash = 1, word;
    for (size_t at = 0; at + 8 <= sizeof *s; at += 8) {
        memcpy(&word, (const char *)s + at, 8);
        hash = mixed(hash, word);
    }
    return hash | 1;
}

static bool put_hash(uint64_t hash) {
    size_t at = hash & (met_room - 1);
    while (met[at] && met[at] != hash) at = (at + 1) & (met_room - 1);
    if (met[at]) return false;
    met[at] = hash;
    return true;
}

/* Whether the state is new; from now on it is not. */
static bool meet(const state *s) {
    if (!put_hash(hash_of(s))) return false;
    if (++met_count * 2 < met_room) return true;
    uint64_t *old = met;
    size_t room = met_room;
    met = calloc(met_room *= 2, sizeof *met);
    if (!met) exit(2);
    for (size_t at = 0; at < room; at++)
        if (old[at]) put_hash(old[at]);
    free(old);
    return true;
}

/* Says what was found: by a thread what it may not, and of each thread what its accesses found. */
static int tell(const state *s, int k) {
    if (instance.is_quiet) return 1;
    printf("order_test: %s: thread %d found what it may not\n", instance.name, k);
    for (int t = 0; t < THREADS; t++) {
        printf("  thread %d found", t);
        for (uint64_t n = 0; n < s->thread[t].count; n++) printf(" %llu", (unsigned long long)s->thread[t].found[n]);
        puts("");
    }
    return 1;
}

/* Runs a thread's function up to its next access, `run.next`; kind 0: it is done, and *right says how. */
static void advance(const state *s, int k, bool *right) {
    run.it = &s->thread[k];
    run.at = 0;
    *right = true;
    if (setjmp(run.out)) return;
    bool is = !instance.bodies[k] || instance.bodies[k]();
    run.next.kind = 0;
    *right = is;
}

static int explore(const state *s);

/* Each state after this access of thread k. */
static int explore_access(const state *s, int k, access_of a) {
    int first = s->thread[k].now.of[a.place] + (a.kind == STORE), count = (int)s->count[a.place], wrong = 0;
    for (int number = first; !wrong && number < count + (a.kind == STORE); number++) {
        bool before_glued = number < count && s->store[a.place][number].is_glued;
        if (a.kind == STORE && before_glued) continue;
        bool is_taken = number + 1 < count && s->store[a.place][number + 1].is_glued;
        if (a.kind == SWAP && is_taken && s->store[a.place][number].value == a.expected) continue;
        state next = *s;
        (a.kind == LOAD ? load : a.kind == STORE ? store : swap)(&next, k, a, number);
        if (meet(&next)) wrong = explore(&next);
    }
    return wrong;
}

/* Each state after this one. What a thread does alone comes first, and needs no other order. */
static int explore(const state *s) {
    for (int pass = 0; pass < 2 * THREADS; pass++) {
        int k = pass % THREADS;
        bool right;
        if (s->thread[k].is_done) continue;
        advance(s, k, &right);
        access_of a = run.next;
        if (!right) return tell(s, k);
        bool alone = a.kind == 0 || a.kind == FENCE || (a.kind == JOIN && s->thread[a.place].is_done);
        if (alone) {
            state next = *s;
            if (a.kind) step_alone(&next, k, a);
            else next.thread[k].is_done = 1;
            return meet(&next) ? explore(&next) : 0;
        }
        if (pass >= THREADS && a.kind != JOIN && explore_access(s, k, a)) return 1;
    }
    return 0;
}

/* Runs up to three functions through everything, from these values in memory: 1 where one of them answered false. */
static int run_through(const char *name, bool is_quiet, body *const bodies[THREADS], const uint64_t values[PLACES]) {
    static state s;
    memset(&s, 0, sizeof s);
    instance.name = name;
    instance.is_quiet = is_quiet;
    memcpy(instance.bodies, bodies, sizeof instance.bodies);
    for (int p = 0; p < PLACES; p++) s.count[p] = 1, s.store[p][0].value = values[p];
    free(met);
    met_count = 0;
    met = calloc(met_room = 1 << 16, sizeof *met);
    return met ? explore(&s) : 2;
}
#endif
