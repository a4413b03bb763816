/* A scheduler over two processes with shared memory: each is a kernel thread, which publishes its record
 * on a page and takes its commands from a ring; the scheduler, in a third, looks at the pages, makes
 * passes through caladan.h and sends what they decide. Prints the grants and revocations.
 *
 *     scheduler_loop [assured]      by the policy assured, in place of Caladan's
 */
#define _GNU_SOURCE
#include "caladan_pages.h"
#include <stdio.h>
#include <string.h>
#include <sys/mman.h>
#include <sys/wait.h>
#include <time.h>
#include <unistd.h>

enum { THREADS = 2, REQUESTS = 5 };

static const char TABLE[] =
    "cores = 2\nbandwidth_limit = 1000\n\n"
    "[[task]]\nkind = \"lc\"\nguaranteed = 1\nlimit = 1\ndelay = 10\nrequest = 1000000000\n\n"
    "[[task]]\nkind = \"lc\"\nguaranteed = 1\nlimit = 1\ndelay = 10\nrequest = 1000000000\n";

typedef struct shared {
    caladan_page page[THREADS];
    caladan_ring ring[THREADS];
    _Atomic int served[THREADS];
    _Atomic int stop;
} shared;

/* Microseconds since the machine was started. */
static uint64_t clock_now(void) {
    struct timespec t;
    clock_gettime(CLOCK_MONOTONIC, &t);
    return (uint64_t)t.tv_sec * 1000000 + (uint64_t)t.tv_nsec / 1000;
}

static void nap(void) { usleep(200); }

/* A kernel thread: a request waits; it is given a core, serves it, yields; REQUESTS times. */
static void be_kernel_thread(shared *all, int k) {
    caladan_publisher publisher = {&all->page[k], 0};
    uint64_t words[CALADAN_WORDS] = {0}, command;
    words[2] = 1;
    words[3] = clock_now();
    words[6] = words[3];
    caladan_publish(&publisher, words);
    while (!atomic_load(&all->stop)) {
        bool on_core = words[1] != 0;
        if (caladan_ring_take(&all->ring[k], &command)) {
            words[0]++;
            words[1] = command;
            words[4] = command ? clock_now() : 0;
            words[2] = command ? 0 : words[2];
        } else if (on_core) {
            bool more = atomic_fetch_add(&all->served[k], 1) + 1 < REQUESTS;
            words[1] = words[4] = 0;
            words[2] = more;
            words[3] = more ? clock_now() : 0;
        } else {
            nap();
            continue;
        }
        words[5]++;
        words[6] = clock_now();
        caladan_publish(&publisher, words);
        nap();
    }
}

/* Sends what the actions say: a grant Run, a revocation Park to the thread that is told to leave. */
static void send_each(caladan *handle, caladan_sender *senders, const caladan_action *actions, size_t made,
                      uint64_t pass) {
    for (size_t i = 0; i < made; i++) {
        const caladan_action *it = &actions[i];
        if (it->kind == CALADAN_GRANT) {
            printf("pass %llu: core %d to thread %d\n", (unsigned long long)pass, it->core, it->thread);
            caladan_ring_send(&senders[it->thread], it->core + 1u);
        }
        uint8_t thread;
        if (it->kind == CALADAN_REVOKE && caladan_revoked(handle, it->core, &thread) == CALADAN_DONE) {
            printf("pass %llu: core %d taken from thread %d\n", (unsigned long long)pass, it->core, thread);
            caladan_ring_send(&senders[thread], CALADAN_PARK);
        }
    }
}

static bool is_done(shared *all) {
    for (int k = 0; k < THREADS; k++)
        if (atomic_load(&all->served[k]) < REQUESTS) return false;
    return true;
}

/* Passes until each thread has served its requests, 100,000 at most. Answers how many, or 0 at a refusal. */
static uint64_t schedule(shared *all, caladan *handle) {
    static caladan_action actions[CALADAN_MOST_ACTIONS];
    caladan_look looks[THREADS];
    uint8_t judged[THREADS];
    caladan_sender senders[THREADS];
    caladan_thread_state state;
    size_t made;
    uint64_t pass = 0;
    for (int k = 0; k < THREADS; k++) senders[k] = (caladan_sender){&all->ring[k], 0};
    for (; pass < 100000 && !is_done(all); pass++) {
        for (int k = 0; k < THREADS; k++) {
            caladan_observe(&all->page[k], &looks[k]);
            if (caladan_thread(handle, (size_t)k, &state)) return 0;
            looks[k].room = caladan_room(state.sent, state.taken);
        }
        uint8_t answer = caladan_pass_each(handle, clock_now(), 0, looks, THREADS, judged, THREADS, actions,
                                           CALADAN_MOST_ACTIONS, &made);
        if (answer != CALADAN_DONE) {
            fprintf(stderr, "scheduler_loop: pass %llu answers %d\n", (unsigned long long)pass, answer);
            return 0;
        }
        send_each(handle, senders, actions, made, pass);
        usleep(50);
    }
    return is_done(all) ? pass : 0;
}

int main(int argc, char **argv) {
    uint32_t policy = argc > 1 && !strcmp(argv[1], "assured") ? CALADAN_POLICY_ASSURED : CALADAN_POLICY_CALADAN;
    shared *all = mmap(NULL, sizeof *all, PROT_READ | PROT_WRITE, MAP_SHARED | MAP_ANONYMOUS, -1, 0);
    if (all == MAP_FAILED) return 2;
    for (int k = 0; k < THREADS; k++)
        if (fork() == 0) {
            be_kernel_thread(all, k);
            _exit(0);
        }
    caladan handle = CALADAN_CLOSED;
    if (caladan_open_policy((const uint8_t *)TABLE, strlen(TABLE), policy, &handle)) return 2;
    uint64_t passes = schedule(all, &handle);
    atomic_store(&all->stop, 1);
    for (int k = 0; k < THREADS; k++) wait(NULL);
    caladan_close(&handle);
    if (passes) printf("end %llu passes\n", (unsigned long long)passes);
    return passes ? 0 : 1;
}
