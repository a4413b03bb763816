/* helper.c: the caller puts a job of its own stack on a list, and sleeps until it is done. No lock is held meanwhile,
 * so a kernel thread may lose its core at any moment of it. */
#define _GNU_SOURCE
#include "helper.h"
#include <errno.h>
#include <signal.h>
#include <stdlib.h>
#include "host.h"

typedef struct job {
    struct job *next;
    sigset_t mask;          /* the caller's */
    _Atomic uint32_t steps; /* that are not done; a futex */
    int error;
    /* a thread; NULL: a process */
    void *(*start)(void *);
    void *with;
    pthread_t *thread;
    const pthread_attr_t *thread_attributes;
    /* or a process */
    pid_t *pid;
    const char *path;
    const posix_spawn_file_actions_t *actions;
    const posix_spawnattr_t *attributes;
    char *const *words, *const *environment;
} job;

struct helper {
    job *_Atomic jobs;     /* the last one first */
    _Atomic uint32_t bell; /* a futex: it grows when there is a job */
    _Atomic bool is_over;
    pthread_t thread;
};

/* The job may be gone as soon as the last step is done. */
static void end_step(job *it) {
    _Atomic uint32_t *steps = &it->steps;
    if (atomic_fetch_sub(steps, 1) == 1) futex_wake_all(steps);
}

static void *begin_thread(void *argument) {
    job *it = argument;
    void *(*start)(void *) = it->start, *with = it->with;
    pthread_sigmask(SIG_SETMASK, &it->mask, NULL);
    end_step(it);
    return start(with);
}

static void do_job(job *it) {
    sigset_t before;
    if (it->start) {
        it->error = pthread_create(it->thread, it->thread_attributes, begin_thread, it);
        if (it->error) end_step(it); /* which the thread would have done */
    } else {
        pthread_sigmask(SIG_SETMASK, &it->mask, &before);
        it->error = posix_spawn(it->pid, it->path, it->actions, it->attributes, it->words, it->environment);
        pthread_sigmask(SIG_SETMASK, &before, NULL);
    }
    end_step(it);
}

static void *live(void *argument) {
    helper *h = argument;
    for (;;) {
        uint32_t bell = atomic_load(&h->bell);
        for (job *it = atomic_exchange(&h->jobs, NULL), *next; it; it = next) next = it->next, do_job(it);
        if (atomic_load(&h->is_over)) return NULL;
        futex_wait(&h->bell, bell);
    }
}

static void ring(helper *h) {
    atomic_fetch_add(&h->bell, 1);
    futex_wake_all(&h->bell);
}

/* With all signals blocked, so that none of the process's comes to it. */
helper *helper_begin(void) {
    sigset_t all, before;
    helper *h = calloc(1, sizeof *h);
    if (h == NULL) return NULL;
    sigfillset(&all);
    pthread_sigmask(SIG_BLOCK, &all, &before);
    errno = pthread_create(&h->thread, NULL, live, h);
    pthread_sigmask(SIG_SETMASK, &before, NULL);
    if (errno == 0) return h;
    free(h);
    return NULL;
}

void helper_end(helper *h) {
    if (h == NULL) return;
    atomic_store(&h->is_over, true);
    ring(h);
    pthread_join(h->thread, NULL);
    free(h);
}

static int hand_in(helper *h, job *it) {
    pthread_sigmask(SIG_SETMASK, NULL, &it->mask);
    it->next = atomic_load(&h->jobs);
    while (!atomic_compare_exchange_weak(&h->jobs, &it->next, it)) {}
    ring(h);
    for (uint32_t steps; (steps = atomic_load(&it->steps));) futex_wait(&it->steps, steps);
    return it->error;
}

int helper_thread(helper *h, pthread_t *thread, const pthread_attr_t *attributes, void *(*start)(void *), void *with) {
    job it = {.steps = 2, .start = start, .with = with, .thread = thread, .thread_attributes = attributes};
    return start ? hand_in(h, &it) : EINVAL;
}

int helper_spawn(helper *h, pid_t *pid, const char *path, const posix_spawn_file_actions_t *actions,
                 const posix_spawnattr_t *attributes, char *const *words, char *const *environment) {
    job it = {.steps = 1, .pid = pid, .path = path, .actions = actions, .attributes = attributes,
              .words = words, .environment = environment};
    return hand_in(h, &it);
}
