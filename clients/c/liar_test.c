/* A runtime that writes random words on its page and its ring, in a thread or a process of its own, while
 * honest ones are served: every pass answers DONE; the honest ones get what the policy alone gives them (a
 * second scheduler makes each pass with the looks that were taken, by caladan_pass); a guard that is handed
 * the same looks and actions lets each pass through and judges alike; the record is legal; and once the liar
 * is gone its page is buried and its honest successor gets a core.
 *
 *   liar_test PASSES thread|process [FILE [assured]]
 *     FILE       the first 1000 passes, as a history behind its table
 *     assured    by that policy, in place of Caladan's
 */
#define _GNU_SOURCE
#include "caladan_history.h"
#include "caladan_pages.h"
#include <pthread.h>
#include <signal.h>
#include <stdlib.h>
#include <string.h>
#include <sys/mman.h>
#include <sys/wait.h>
#include <unistd.h>

static const char TABLE[] = "cores = 4\nbandwidth_limit = 1000\n"
                            "[[task]]\nkind = \"lc\"\nguaranteed = 1\nlimit = 2\ndelay = 10\nrequest = 50\n"
                            "[[task]]\nkind = \"lc\"\nguaranteed = 0\nlimit = 2\ndelay = 20\nrequest = 40\n"
                            "[[task]]\nkind = \"be\"\nguaranteed = 0\nlimit = 2\ndelay = 0\nrequest = 0\n";
enum { THREADS = 6, LIAR = 2, WRITTEN = 1000 };

typedef struct shared {
    caladan_page page[THREADS];
    caladan_ring ring[THREADS];
    _Atomic int stop;
} shared;

static uint64_t next_random(uint64_t *state) {
    *state ^= *state << 13;
    *state ^= *state >> 7;
    *state ^= *state << 17;
    return *state;
}

/* Random words at random places; every now and then something near what is true. */
static void *lie_until_stopped(void *of) {
    shared *all = of;
    caladan_page *page = &all->page[LIAR];
    caladan_ring *ring = &all->ring[LIAR];
    uint64_t state = 88172645463325252u;
    while (!atomic_load_explicit(&all->stop, memory_order_relaxed)) {
        uint64_t r = next_random(&state), at = next_random(&state) % (CALADAN_WORDS + 1);
        uint64_t near = atomic_load_explicit(&page->version, memory_order_relaxed) & 0xffffffffff;
        uint64_t low = r % 7;
        if (at == 0) {
            uint64_t version = low == 0  ? r
                               : low < 3 ? near + 1
                               : low < 5 ? near + 2 - near % 2
                                         : near - (near > 2 ? r % 3 : 0);
            atomic_store_explicit(&page->version, version, memory_order_release);
        } else {
            uint64_t word = low == 0 ? r : low < 4 ? r % 8 : 0;
            atomic_store_explicit(&page->words[at - 1], word, memory_order_relaxed);
        }
        if (low == 6) atomic_store_explicit(&ring->taken, r, memory_order_relaxed);
        if (low == 5) atomic_store_explicit(&ring->sent, r, memory_order_relaxed);
        if (low == 4) atomic_store_explicit(&ring->commands[r % CALADAN_PLACES], r, memory_order_relaxed);
    }
    return NULL;
}

/* An honest kernel thread: it takes its commands, and has a request every 20 to 50 passes. */
typedef struct honest {
    caladan_publisher publisher;
    uint64_t words[CALADAN_WORDS];
    uint64_t random, rest;
} honest;

static void step(honest *it, caladan_ring *ring, uint64_t now, bool best_effort) {
    uint64_t command, *w = it->words;
    bool moved = false;
    if (caladan_ring_take(ring, &command)) {
        w[0]++;
        w[1] = command;
        w[4] = command ? now : 0;
        if (command) w[2] = w[3] = 0;
        it->rest = next_random(&it->random) % 30 + 5;
        moved = true;
    } else if (it->rest > 0) {
        it->rest--;
    } else if (w[1] && !best_effort) {
        w[1] = w[4] = 0;
        it->rest = next_random(&it->random) % 30 + 20;
        moved = true;
    } else if (!w[1] && !w[2]) {
        w[2] = 1;
        w[3] = now;
        moved = true;
    }
    if (!moved) return;
    w[5]++;
    if (now > w[6]) w[6] = now; /* the liar before it may have shown a later stamp */
    caladan_publish(&it->publisher, w);
}

typedef struct host {
    caladan each, plain;
    caladan_audit audit;
    caladan_guard guard;
    caladan_sender senders[THREADS];
    honest honest[THREADS];
    uint64_t refused[CALADAN_WORD_FELL + 1];
    FILE *out;
} host;

static int wrong(const char *what, uint64_t pass) {
    fprintf(stderr, "liar_test: pass %llu: %s\n", (unsigned long long)pass, what);
    return 1;
}

static void send_each(host *it, const caladan_action *actions, size_t made) {
    for (size_t i = 0; i < made; i++) {
        uint8_t thread;
        if (actions[i].kind == CALADAN_GRANT) caladan_ring_send(&it->senders[actions[i].thread], actions[i].core + 1u);
        if (actions[i].kind == CALADAN_REVOKE && !caladan_revoked(&it->each, actions[i].core, &thread))
            caladan_ring_send(&it->senders[thread], CALADAN_PARK);
    }
}

/* The guard, handed what a pass by looks taken one by one was given, judged and did. */
static int guarded(host *it, uint64_t number, const caladan_look *looks, const uint8_t *judged,
                   const caladan_action *actions, size_t made) {
    uint8_t said[THREADS];
    caladan_refused refused;
    caladan_thread_state state;
    if (caladan_guard_pass_each(&it->guard, 100 + number, number % 2000, looks, THREADS, said, THREADS, actions, made,
                                &refused))
        return wrong("the guard does not let it through", number);
    if (memcmp(said, judged, THREADS)) return wrong("the guard judges otherwise", number);
    for (size_t k = 0; k < THREADS; k++)
        if (caladan_guard_thread(&it->guard, k, &state) || state.taken > state.sent)
            return wrong("the guard's counts", number);
    return 0;
}

/* One pass of both schedulers, of the guard and of the audit; 0 where all agree. *granted: the liar's
 * thread got a core. */
static int pass(host *it, shared *all, uint64_t number, bool *granted) {
    static caladan_action actions[CALADAN_MOST_ACTIONS], again[CALADAN_MOST_ACTIONS];
    caladan_look looks[THREADS], taken[THREADS];
    caladan_thread_state state;
    uint8_t judged[THREADS], plain[THREADS];
    size_t made, same;
    uint64_t now = 100 + number;
    for (size_t k = 0; k < THREADS; k++) {
        caladan_observe(&all->page[k], &looks[k]);
        if (caladan_thread(&it->each, k, &state) || state.sent != it->senders[k].sent || state.taken > state.sent)
            return wrong("a thread's counts", number);
        looks[k].room = caladan_room(state.sent, state.taken);
    }
    if (caladan_pass_each(&it->each, now, number % 2000, looks, THREADS, judged, THREADS, actions, CALADAN_MOST_ACTIONS,
                          &made))
        return wrong("not DONE", number);
    for (size_t k = 0; k < THREADS; k++) {
        taken[k] = caladan_taken(&looks[k], judged[k]);
        it->refused[judged[k]]++;
        if (k != LIAR && judged[k] > CALADAN_BUSY) return wrong("an honest look was refused", number);
    }
    if (caladan_pass(&it->plain, now, number % 2000, taken, THREADS, plain, THREADS, again, CALADAN_MOST_ACTIONS,
                     &same))
        return wrong("the plain pass is not DONE", number);
    if (same != made || memcmp(actions, again, made * sizeof *actions))
        return wrong("other actions than the policy's", number);
    if (caladan_audit_pass(&it->audit, now, number % 2000, taken, THREADS, plain, THREADS, actions, made))
        return wrong("the audit did not take it", number);
    if (guarded(it, number, looks, judged, actions, made)) return 1;
    if (it->out && number < WRITTEN)
        caladan_history_pass(it->out, true, now, number % 2000, looks, judged, THREADS, actions, made);
    if (it->out && number + 1 == WRITTEN) caladan_history_end(it->out, WRITTEN);
    for (size_t i = 0; i < made; i++) *granted |= actions[i].kind == CALADAN_GRANT && actions[i].thread == LIAR;
    send_each(it, actions, made);
    for (size_t k = 0; k < THREADS; k++)
        if (it->honest[k].publisher.page) step(&it->honest[k], &all->ring[k], now, k >= 4);
    return 0;
}

/* After the liar: its page is buried, and its successor goes on with it. */
static int succeed(host *it, shared *all, uint64_t number) {
    caladan_look gone, guards;
    bool granted = false;
    if (caladan_guard_gone(&it->guard, LIAR, &guards) || caladan_gone(&it->each, LIAR, &gone) ||
        guards.number != gone.number || guards.taken != gone.taken)
        return wrong("the guard's record for the gone", number);
    if (!caladan_bury(&all->page[LIAR], &all->ring[LIAR], &gone)) return wrong("no record for the gone", number);
    if (pass(it, all, number, &granted)) return 1;
    for (uint8_t core = 0; core < 4; core++) {
        caladan_holder_of_core holder;
        if (caladan_holder_of(&it->each, core, &holder) ||
            (holder.state != CALADAN_CORE_FREE && holder.thread == LIAR && !granted))
            return wrong("the gone one's core is not free", number);
    }
    honest *successor = &it->honest[LIAR];
    successor->random = 99;
    if (!caladan_adopt(&successor->publisher, &all->page[LIAR], successor->words))
        return wrong("the buried page is busy", number);
    granted = false;
    for (uint64_t k = 1; k < 3000 && !granted; k++)
        if (pass(it, all, number + k, &granted)) return 1;
    return granted ? 0 : wrong("the successor got no core", number);
}

static int run(host *it, shared *all, uint64_t passes) {
    bool granted = false;
    for (uint64_t number = 0; number < passes; number++)
        if (pass(it, all, number, &granted)) return 1;
    return 0;
}

static int open_all(host *it, shared *all, uint32_t policy) {
    const uint8_t *text = (const uint8_t *)TABLE;
    size_t length = strlen(TABLE);
    if (caladan_open_policy(text, length, policy, &it->each) || caladan_open_policy(text, length, policy, &it->plain))
        return 1;
    if (caladan_audit_open_policy(text, length, policy, &it->audit) || caladan_guard_open(text, length, &it->guard))
        return 1;
    for (size_t k = 0; k < THREADS; k++) {
        it->senders[k] = (caladan_sender){&all->ring[k], 0};
        if (k != LIAR) it->honest[k] = (honest){{&all->page[k], 0}, {0}, k * 7919 + 1, k};
    }
    return 0;
}

int main(int argc, char **argv) {
    uint64_t passes = argc > 1 ? strtoull(argv[1], NULL, 10) : 1000000, first;
    bool in_thread = argc > 2 && !strcmp(argv[2], "thread");
    uint32_t policy = argc > 4 && !strcmp(argv[4], "assured") ? CALADAN_POLICY_ASSURED : CALADAN_POLICY_CALADAN;
    shared *all = mmap(NULL, sizeof *all, PROT_READ | PROT_WRITE, MAP_SHARED | MAP_ANONYMOUS, -1, 0);
    static host it = {.each = {false, NULL}};
    if (all == MAP_FAILED || open_all(&it, all, policy)) return 2;
    if (argc > 3 && (it.out = fopen(argv[3], "w"))) {
        fprintf(it.out, "%s---\n", TABLE);
        caladan_history_begin(it.out);
    }
    pthread_t liar;
    pid_t child = 0;
    if (in_thread && pthread_create(&liar, NULL, lie_until_stopped, all)) return 2;
    if (!in_thread && (child = fork()) == 0) lie_until_stopped(all), _exit(0);
    int status = run(&it, all, passes);
    atomic_store(&all->stop, 1);
    if (in_thread) pthread_join(liar, NULL);
    else kill(child, SIGKILL), waitpid(child, NULL, 0);
    if (!status) status = succeed(&it, all, passes);
    if (!status && caladan_audit_verdict(&it.audit, &first)) status = wrong("the record is not legal", first);
    for (int k = CALADAN_KEPT; k <= CALADAN_WORD_FELL; k++)
        fprintf(stderr, "liar_test: %llu %s\n", (unsigned long long)it.refused[k], caladan_judgement_text((uint8_t)k));
    if (it.out) fclose(it.out);
    caladan_close(&it.each), caladan_close(&it.plain), caladan_audit_close(&it.audit), caladan_guard_close(&it.guard);
    puts(status ? "liar_test: failed" : "liar_test: ok");
    return status;
}
