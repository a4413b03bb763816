/* caladan_rt.h: a runtime whose kernel threads run where the scheduler process says.
 *
 * THIS C IS NOT PROVED.
 *
 * A process attaches as one task. It has a kernel thread for each core of the task's limit; one
 * that has no core sleeps. A kernel thread serves the requests of its own queue, then those of
 * its siblings', and gives its core up when it has found none for a while. A thread whose core
 * is taken away stops anywhere in `serve`, by a signal, and goes on there when it has a core
 * again, often another one.
 *
 * So `serve` may not hold what a sibling needs to go on, nor be stopped where it may not be
 * entered again: malloc, stdio, locks. Between caladan_rt_hold and caladan_rt_release no core is
 * taken away; keep that short, since a thread that does not leave in time has its process
 * killed. A thread that blocks in the kernel keeps its core.
 *
 * A call that blocks in the kernel may return EINTR if the thread had to leave meanwhile: the
 * handler has SA_RESTART, which poll, nanosleep and futex waits ignore.
 *
 * The runtime needs the signal SIGURG for itself: caladan_rt_start refuses to start if the process
 * already has a handler of it, and a handler installed later cuts the runtime off from its
 * commands. (Go's runtime has one, so no process of cgo can attach.)
 *
 * START NOTHING FROM `serve` that goes on by itself, but by caladan_rt_thread and caladan_rt_spawn: a
 * thread or a process has the processor and the class of the thread that starts it, so those of a core
 * that is not its own. (So too what a library starts when it is first used: use it before.) The scheduler
 * looks for such threads and children once a second, and puts them on other processors; what it does not
 * find stays beside the core's next thread. A child by fork goes back by itself.
 *
 * A forked child has no kernel threads and no segment: its parent's runtime is over for it, takes no
 * request, and is not attached again; it may start one of its own, as another task. A child by
 * another call than fork, such as vfork, may call none of these functions, only exec or exit. (The
 * requests of one that a kernel thread made are refused.) While a child by vfork has not called exec or
 * ended, the thread that made it hears no Park: call vfork from no kernel thread.
 *
 * A process that closes all its files (closefrom, as daemons do) closes the connection too: it may
 * lose its task, and a file that it opens next may get the connection's number. So close files
 * before caladan_rt_start.
 *
 * A process leaves by ending: then its cores are free, and another may attach as its task. When
 * the scheduler ends, or gives the task up, threads leave their processors within milliseconds,
 * as caladan_rt_after says; caladan_rt_attach_again goes on with the next scheduler of the name.
 *  */
#ifndef CALADAN_RT_H
#define CALADAN_RT_H
#include <pthread.h>
#include <spawn.h>
#include <stdbool.h>
#include <stddef.h>
#include <stdint.h>
#ifdef __cplusplus
extern "C" {
#endif

typedef struct caladan_request {
    uint64_t arrived; /* a tick of caladan_rt_now */
    uint64_t what;
} caladan_request;

typedef struct caladan_rt caladan_rt;
typedef void caladan_serve(void *with, unsigned thread, caladan_request request);

/* Attaches to the scheduler of that name as that task. Kernel threads look for work for idle_ns
 * before they give up a core (but not before they sleep on it, where the scheduler lets them).
 * NULL: errno says why, and caladan_rt_why in words. */
caladan_rt *caladan_rt_start(const char *name, unsigned task, uint64_t idle_ns, caladan_serve *serve, void *with);
const char *caladan_rt_why(int error);

unsigned caladan_rt_threads(const caladan_rt *rt);
uint64_t caladan_rt_now(const caladan_rt *rt); /* nanoseconds since the scheduler began to which it attached first */

/* The scheduler has ended, or has given the task up: no thread is given a core any more. */
bool caladan_rt_is_over(const caladan_rt *rt);

/* What kernel threads do then: wait, even in the middle of a request (CALADAN_RT_WAIT, as without this call), or go on
 * as ordinary threads, on the processors that the process could use when it started. */
enum { CALADAN_RT_WAIT, CALADAN_RT_RUN };
void caladan_rt_after(caladan_rt *rt, int what);

/* A scheduler that is stopped, or gets no processor, moves no core, and does not close the connection. After so many
 * nanoseconds without a sign of it, kernel threads do as caladan_rt_after says; when it shows itself again, they come
 * back to it. 0, as without this call: never. Give more than the scheduler's -g, and than the time for which it may
 * lose its processor. It gives a sign each millisecond, and is asked for one each ten. */
void caladan_rt_lost_after(caladan_rt *rt, uint64_t ns);
bool caladan_rt_is_lost(const caladan_rt *rt); /* there is no sign of it */

/* Attaches to the next scheduler of that name, as the same task: requests go on. To be called by one thread at a time,
 * which is no kernel thread; it lasts as long as a scheduler takes to answer, at most ten seconds twice, in which
 * kernel threads go on; and then as long as these hold their Park off, at most three seconds. False: errno says why,
 * and caladan_rt_why in words (ECONNREFUSED, ENOENT: there is none yet; EISCONN: the first is not over; ECHILD: it is
 * the parent's), and threads are as they were. */
bool caladan_rt_attach_again(caladan_rt *rt);

/* Hands a request to a kernel thread, from any thread of the process, but not from a signal handler. False: its queue
 * is full, there is no such kernel thread, or the runtime is that of the process's parent. */
bool caladan_rt_submit(caladan_rt *rt, unsigned thread, caladan_request request);

/* The same of several at once, in this order, shown to the scheduler at once. How many were handed in: as many as
 * fit. */
size_t caladan_rt_submit_each(caladan_rt *rt, unsigned thread, const caladan_request *requests, size_t count);

/* Ends the runtime: threads end the requests that they have begun, without cores, and then themselves; the task is
 * given up, and the process may start another runtime. To be called when nobody else calls any of these functions for
 * it; requests that have begun may need what they were given until it is back. *unserved (or NULL): how many requests
 * are left that nobody has begun. False: errno says why (EDEADLK: it is called by a kernel thread; ECHILD: the
 * runtime is that of the process's parent), and nothing has changed. */
bool caladan_rt_stop(caladan_rt *rt, size_t *unserved);

/* So many requests that somebody waits for: begun before they are handed in, done once by each, and waited for, as
 * many nanoseconds at most (0: however long; false: not by then). A kernel thread that waits keeps its
 * core meanwhile. */
typedef struct caladan_latch {
    uint32_t left;
} caladan_latch;
void caladan_latch_begin(caladan_latch *latch, uint32_t count);
void caladan_latch_done(caladan_latch *latch);
bool caladan_latch_wait(caladan_latch *latch, uint64_t ns);

/* Adds to the calling kernel thread's count of cache misses, and shows it; the count stops at 2^56. A scheduler
 * believes at most one miss a nanosecond since a piece of its record began: so report misses as they come, and not
 * those of a second at once. */
void caladan_rt_missed(uint64_t misses);

/* The processor of the core that the calling kernel thread has; -1: it has none now, or is no kernel thread. It is
 * still so only until the core is taken away: see caladan_rt_hold. */
int caladan_rt_processor(void);

/* Whether the task stands under (caladand -u): its kernel threads are in SCHED_IDLE, a core is
 * taken from them without a word, and one that did not run meanwhile may go on, while it holds
 * its Park off, on the processor of the core that it has next. */
bool caladan_rt_stands_under(const caladan_rt *rt);

/* Between these two the calling kernel thread keeps its core. Calls may be nested. */
void caladan_rt_hold(void);
void caladan_rt_release(void);

/* As pthread_create and posix_spawn, from any thread of the process, but not from a signal handler: the new thread, or
 * process, has the processors and the class that the process had when the runtime was started, and the caller's signal
 * mask. Another thread does it, and the caller sleeps meanwhile. ECHILD: the runtime is that of the process's
 * parent. */
int caladan_rt_thread(caladan_rt *rt, pthread_t *thread, const pthread_attr_t *attributes, void *(*start)(void *),
                      void *with);
int caladan_rt_spawn(caladan_rt *rt, pid_t *pid, const char *path, const posix_spawn_file_actions_t *actions,
                     const posix_spawnattr_t *attributes, char *const *words, char *const *environment);
#ifdef __cplusplus
}
#endif
#endif
