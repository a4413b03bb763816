/* runtime.h: a runtime and its kernel threads. A thread's page, queue and state are under a lock of its own. */
#ifndef RUNTIME_H
#define RUNTIME_H
#include <pthread.h>
#include <sched.h>
#include <signal.h>
#include "caladan_rt.h"
#include "helper.h"
#include "host.h"

#define MOST_MISSES ((uint64_t)1 << 56) /* what a record may count */
#define FEEL 10000000                   /* how often the scheduler's heartbeat is felt, in nanoseconds */
#define NAP 200000                      /* between two looks for work where there is no scheduler, in nanoseconds */
/* how long one that dozes may take to be at work, in nanoseconds */
#define WAKES ((uint64_t)30000)
/* How long threads that are to wait may hold their Park off, in nanoseconds: less than a scheduler waits. */
#define GATHER ((uint64_t)3000000000)
enum { QUEUE = 1 << 13 };
enum { NOT_YET, BEGUN, GIVEN_UP }; /* whether kernel threads may begin */

typedef struct kernel_thread {
    _Alignas(CALADAN_LINE) caladan_rt *rt;
    host_slot *slot;
    unsigned number;
    caladan_request *queue;
    /* under the lock; count is also read without */
    _Alignas(CALADAN_LINE) _Atomic uint32_t lock;
    bool open; /* the page is ours to publish on: a piece has begun and does not end */
    caladan_publisher publisher;
    uint64_t words[CALADAN_WORDS];
    size_t head;
    _Atomic size_t count;
    /* what is queued waits for one that dozes: before this tick that is no delay */
    uint64_t awaited;
    /* it sleeps on its core, or is about to: who takes this away wakes it */
    _Atomic uint32_t dozes;
    /* the thread's own, and its signal handler's */
    _Alignas(CALADAN_LINE) bool working;
    caladan_request current;
    uint32_t phase;
    pthread_t thread;
    bool is_away, was_open; /* it does without the scheduler, and whether its page was open before */
    bool pins_itself;       /* it was away, and the scheduler may take it to be pinned */
    _Atomic uint32_t waits; /* the turn that it waits for, and until then it looks at nothing else */
    volatile sig_atomic_t held;    /* how often a Park is held off */
    volatile sig_atomic_t pending; /* a signal came meanwhile */
} kernel_thread;

struct caladan_rt {
    host_segment *segment;
    int connection;
    char name[HOST_NAME + 1];
    unsigned task;
    unsigned forks;    /* how many forks lie between it and the process that started the first one */
    pid_t process;     /* its number: a child by vfork has the parent's memory, and another number */
    helper *helper;
    bool stands_under;
    uint64_t epoch;    /* tick 0 of the runtime's own clock: the first scheduler's */
    uint64_t idle_ns;
    caladan_serve *serve;
    void *with;
    unsigned threads;
    /* where its threads may run while no scheduler says otherwise, and in which class */
    cpu_set_t allowed;
    int class;
    _Atomic uint32_t begun;   /* a futex */
    _Atomic bool is_over;     /* the scheduler has ended, or gave the task up */
    _Atomic bool stops;       /* kernel threads end with what they have begun */
    _Atomic bool is_watched;  /* a thread waits for that, or has still to tell the others */
    _Atomic int after;        /* what threads do then */
    _Atomic uint64_t lost_after; /* so long without a heartbeat the scheduler is lost; 0: never */
    _Atomic uint32_t is_lost;    /* a futex: it has shown nothing for so long */
    _Atomic int32_t watcher;     /* the thread that feels that */
    _Atomic bool is_waiting;  /* all are to wait, for they get another segment */
    _Atomic uint32_t turn;    /* a futex: it grows when they go on */
    _Atomic uint64_t tick_0;  /* of the scheduler, or of the last one */
    kernel_thread thread[];
};

void *host_watch(void *rt); /* what the thread does that waits for the end of the scheduler */
#endif
