/* load.c: two tasks to see the scheduler at work, and to measure. Built over caladan_rt.c it is
 * `load`, over plain_rt.c, where Linux alone decides, `load_plain`.
 *
 *   load spin                 prints how many turns of the loop are a microsecond
 *   load lc -n NAME -u TASK [-s SECONDS] [-q REQUESTS_A_SECOND] [-m MICROSECONDS] [-i IDLE_NS]
 *        [-x CPU] [-k TURNS] [-c COUNTER] [-w MS] [-r TIMES]
 *   load be -n NAME -u TASK [-s SECONDS] [-i IDLE_NS] [-b] [-h] [-e WHAT] [-k TURNS] [-c
 *        COUNTER] [-p WHAT] [-l MS] [-t]
 *
 * lc: requests come at times that are drawn beforehand (Poisson), whether earlier ones are
 * served or not, and the time of a request counts from there. A request is a number of turns of
 * a loop, so that what does not run does not count as work. With -x whoever hands requests in
 * spins on that processor, else he sleeps. The first half second is not measured. -w: of each
 * two periods of so many milliseconds the first one, or with -MS the second one, is a burst, in
 * which TIMES as many come; the quiet requests, which came in no burst, are ranked by themselves
 * too. be: work
 * without end, in pieces of 10 microseconds, which are counted in the file COUNTER, by
 * processor; -b: each piece reads 64 KiB of 256 MiB; -h: no core is left within a chunk of 100
 * pieces; -e: when the scheduler is over, its threads wait, run, or attach again (wait, run,
 * again; seek: run until it has attached again), and the process goes on. Both: -a: the main
 * thread has all signals blocked; -g: the process has a handler of SIGURG; -z: it closes all its
 * files when it has started; -f: it has a child that hands in a request, and one that attaches
 * as its task, and the status is 4 where these are not refused. -t: it starts and stops its
 * runtime five times, with requests that are waited for and others that are left. -l: so long without a sign of it
 * the scheduler counts as over, and threads do as -e says. -p: a thread with a core starts
 * something that lives for a minute, and says its number: thread, fork, spawn, exec, or, by the
 * runtime, rt_thread and rt_spawn; vfork: the child hands in a request, and the status is 4 where
 * it is not refused. lc reads that file, and says how many pieces were done meanwhile.
 *
 * Each request and each piece looks whether it runs on the processor of its thread's core: two
 * threads are never on one. The first that does not is a line on standard error, and the status
 * is 3 then. All loads of a run that are given the same file CALADAN_CLAIMS also claim the
 * processor there, for as long as a piece takes, in which no core is left: the same line and
 * status where somebody else claims it meanwhile. Threads of the normal class claim it from one
 * another, best-effort ones too; so one that stands under may be under a latency-critical
 * thread, and under no other. */
#define _GNU_SOURCE
#include "caladan_rt.h"
#include <errno.h>
#include <fcntl.h>
#include <math.h>
#include <pthread.h>
#include <sched.h>
#include <signal.h>
#include <spawn.h>
#include <stdatomic.h>
#include <stdio.h>
#include <stdlib.h>
#include <string.h>
#include <sys/mman.h>
#include <sys/wait.h>
#include <time.h>
#include <unistd.h>

enum { PIECE = 1 << 16, PIECES_OF_A_CHUNK = 100, COUNTERS = 16 };
#define BUFFER ((size_t)256 << 20)
#define WARM_UP 500000000u

typedef struct counter {
    _Alignas(128) _Atomic uint64_t pieces;
} counter;

static struct {
    const char *name, *counter;
    unsigned task;
    double turns, microseconds, rate, seconds, lost, burst, times; /* burst: in ms; below 0 in the second period */
    int cpu;
    bool bytes, holds, blocks, handles, closes, forks, stops;
    const char *after, *starts;
    uint64_t idle_ns;
} options = {.microseconds = 20, .rate = 10000, .seconds = 1, .times = 1, .cpu = -1, .idle_ns = 5000};

static caladan_rt *rt;
static counter *counters;
static _Atomic uint64_t *took; /* of each request: its response time, or 0 */
static char *buffer;
static volatile uint64_t sink;

static uint64_t spin(uint64_t turns) {
    uint64_t x = 1;
    for (; turns; turns--) {
        x = x * 6364136223846793005u + 1442695040888963407u;
        __asm__ volatile("" : "+r"(x));
    }
    return x;
}

static uint64_t clock_ns(void) {
    struct timespec t;
    clock_gettime(CLOCK_MONOTONIC, &t);
    return (uint64_t)t.tv_sec * 1000000000u + (uint64_t)t.tv_nsec;
}

static void die(const char *what, const char *why) {
    fprintf(stderr, "load: %s: %s\n", what, why);
    exit(2);
}

static double turns_of_a_microsecond(void) {
    double best = 1e18;
    for (int i = 0; i < 50; i++) {
        uint64_t from = clock_ns();
        sink = spin(200000);
        double ns = (double)(clock_ns() - from);
        if (ns < best) best = ns;
    }
    return 200000 * 1e3 / best;
}

/* ---- where a thread runs ---- */

static _Atomic uint64_t strayed;

/* Its core is not taken away meanwhile. */
static bool is_where_it_is_to_be(int *here, int *of_core) {
    caladan_rt_hold();
    *of_core = caladan_rt_processor(), *here = *of_core < 0 ? -1 : sched_getcpu();
    caladan_rt_release();
    return *here == *of_core;
}

/* One that stands under may have been moved while it did not run; as soon as it holds nothing
 * off, it knows. (With the thread sanitizer as soon as it sleeps: until then no signal is
 * taken.) */
static void look_where_it_runs(void) {
    int here, of_core;
    if (is_where_it_is_to_be(&here, &of_core)) return;
    if (caladan_rt_stands_under(rt) && (usleep(1), is_where_it_is_to_be(&here, &of_core))) return;
    if (atomic_fetch_add(&strayed, 1) == 0)
        fprintf(stderr, "load: task %u: a thread runs on processor %d, and has the core of processor %d\n",
                options.task, here, of_core);
}

/* ---- who else runs there ---- */

enum { PROCESSORS = CPU_SETSIZE };

/* Of each processor, who claims it, and the same of best-effort threads alone; 0: nobody. */
static struct claims {
    _Atomic uint32_t normal[PROCESSORS], best[PROCESSORS];
} *claims;
static bool is_best;

static void open_claims(void) {
    const char *path = getenv("CALADAN_CLAIMS");
    int file = path ? open(path, O_RDWR | O_CREAT | O_CLOEXEC, 0600) : -1;
    if (path == NULL) return;
    if (file < 0 || ftruncate(file, sizeof *claims)) die(path, strerror(errno));
    claims = mmap(NULL, sizeof *claims, PROT_READ | PROT_WRITE, MAP_SHARED, file, 0);
    if (claims == MAP_FAILED) die(path, strerror(errno));
}

static void end_claim(_Atomic uint32_t *claim, uint32_t self, int here) {
    if (atomic_exchange(claim, 0) == self || atomic_fetch_add(&strayed, 1)) return;
    fprintf(stderr, "load: task %u: a thread runs on processor %d, and so does another one\n",
            options.task, here);
}

/* Works for so many turns, and claims the processor meanwhile; no core is left then. One that
 * does not run where its core is claims nothing: that is seen otherwise. */
static void spin_alone(uint64_t turns) {
    uint32_t self = (uint32_t)gettid();
    int here, of_core;
    caladan_rt_hold();
    bool is_normal = !caladan_rt_stands_under(rt);
    bool is_there = is_where_it_is_to_be(&here, &of_core) && here >= 0;
    if (is_there && is_normal) atomic_store(&claims->normal[here], self);
    if (is_there && is_best) atomic_store(&claims->best[here], self);
    spin(turns);
    /* one that stands under was moved: it may be, until it knows */
    if (is_there && sched_getcpu() != here) is_there = false;
    if (is_there && is_normal) end_claim(&claims->normal[here], self, here);
    if (is_there && is_best) end_claim(&claims->best[here], self, here);
    caladan_rt_release();
}

_Noreturn static void leave(void) { _exit(atomic_load(&strayed) ? 3 : 0); }

static void heed(int signal) { (void)signal; }

static void start(caladan_serve *serve) {
    sigset_t all;
    sigfillset(&all);
    if (options.blocks) sigprocmask(SIG_BLOCK, &all, NULL);
    if (options.handles) signal(SIGURG, heed);
    rt = caladan_rt_start(options.name, options.task, options.idle_ns, serve, NULL);
    char task[64];
    snprintf(task, sizeof task, "task %u", options.task);
    if (rt == NULL) die(task, caladan_rt_why(errno));
    if (options.lost > 0) caladan_rt_lost_after(rt, (uint64_t)(options.lost * 1e6));
}

/* ---- the latency-critical task ---- */

static void serve_request(void *with, unsigned thread, caladan_request request) {
    (void)with, (void)thread;
    uint64_t turns = (uint64_t)(options.turns * options.microseconds);
    look_where_it_runs();
    if (claims && request.what % 2 && options.microseconds <= 100) spin_alone(turns);
    else spin(turns);
    took[request.what] = caladan_rt_now(rt) - request.arrived;
    look_where_it_runs();
}

static uint64_t draw(uint64_t *state) {
    *state ^= *state << 13, *state ^= *state >> 7, *state ^= *state << 17;
    return *state;
}

static int compare(const void *a, const void *b) {
    uint64_t x = *(const uint64_t *)a, y = *(const uint64_t *)b;
    return (x > y) - (x < y);
}

static uint64_t pieces(void) {
    uint64_t sum = 0;
    for (int i = 0; i < COUNTERS; i++) sum += atomic_load(&counters[i].pieces);
    return sum;
}

static void wait_until(uint64_t due) {
    for (uint64_t now; (now = caladan_rt_now(rt)) < due;) {
        struct timespec rest = {(time_t)((due - now) / 1000000000u), (long)((due - now) % 1000000000u)};
        if (options.cpu < 0) nanosleep(&rest, NULL);
    }
}

/* How long the handing in of a request took, of those that are measured. */
static struct {
    uint64_t *nanoseconds;
    size_t count;
} handed;

static void submit(unsigned thread, caladan_request request, bool is_measured) {
    uint64_t from = clock_ns();
    caladan_rt_submit(rt, thread, request);
    if (is_measured) handed.nanoseconds[handed.count++] = clock_ns() - from;
}

/* By the clock that the processes of a run share. */
static bool is_in_burst(double at) {
    double period = fabs(options.burst) * 1e6, place = period > 0 ? fmod(at, 2 * period) : 0;
    return period > 0 && (place < period) == (options.burst > 0);
}

/* Requests from `from` on: arrived[i] of each, `until` they end. Answers how many; *first: the first after `begin`. */
static size_t hand_in(uint64_t *arrived, size_t room, uint64_t begin, uint64_t end, size_t *first, uint64_t *work) {
    uint64_t state = 88172645463325252u ^ (uint64_t)getpid() << 20;
    double at = (double)caladan_rt_now(rt) + 2e7;
    size_t count = 0;
    *first = *work = 0;
    for (bool began = false; count < room && (count % 64 || !caladan_rt_is_over(rt)); count++) {
        at += -log(((double)(draw(&state) >> 11) + 1) / 9007199254740993.0) * 1e9 /
              (is_in_burst(at) ? options.rate * options.times : options.rate);
        uint64_t due = (uint64_t)at;
        if (due >= end) break;
        wait_until(due);
        if (!began && due >= begin) *work = pieces(), *first = count, began = true;
        arrived[count] = due;
        unsigned thread = (unsigned)(draw(&state) >> 20) % caladan_rt_threads(rt);
        submit(thread, (caladan_request){due, count}, began);
    }
    return count;
}

/* Of those in order, without the slowest one in a hundred, in which somebody else may have run. */
static double mean_of_most(const uint64_t *times, size_t count) {
    size_t most = count - count / 100;
    double sum = 0;
    for (size_t i = 0; i < most; i++) sum += (double)times[i];
    return most ? sum / (double)most : 0;
}

/* The time below which so much of them are, in microseconds, of those in order. */
static double below(const uint64_t *times, size_t count, double share) {
    return count ? (double)times[(size_t)((double)(count - 1) * share)] / 1000 : 0;
}

/* The quiet ones' times, put at the front in their order of arrival, and how many they are. */
static size_t quiet_ones(const uint64_t *arrived, const uint64_t *times, size_t count, uint64_t *quiet) {
    size_t many = 0;
    for (size_t i = 0; i < count; i++)
        if (!is_in_burst((double)arrived[i])) quiet[many++] = times[i];
    qsort(quiet, many, sizeof *quiet, compare);
    return many;
}

/* Requests that are not served by now count with the time that they have waited. */
static void report(const uint64_t *arrived, size_t first, size_t count, uint64_t work) {
    size_t unserved = 0, n = count - first;
    uint64_t now = caladan_rt_now(rt), *times = malloc(n * sizeof *times + 8), *quiet = malloc(n * sizeof *quiet + 8);
    for (size_t i = 0; i < n; i++) {
        times[i] = took[first + i];
        if (times[i] == 0) times[i] = now - arrived[first + i], unserved++;
    }
    size_t many = quiet_ones(arrived + first, times, n, quiet);
    qsort(times, n, sizeof *times, compare);
    qsort(handed.nanoseconds, handed.count, sizeof *handed.nanoseconds, compare);
    printf("{\"requests\": %zu, \"unserved\": %zu, ", n, unserved);
    printf("\"p50\": %.1f, \"p90\": %.1f, \"p99\": %.1f, ", below(times, n, 0.5),
           below(times, n, 0.9), below(times, n, 0.99));
    printf("\"p999\": %.1f, \"max\": %.1f, ", below(times, n, 0.999), below(times, n, 1));
    printf("\"quiet_p50\": %.1f, \"quiet_p99\": %.1f, ", below(quiet, many, 0.5), below(quiet, many, 0.99));
    printf("\"be_cores\": %.4f, \"submit_ns\": %.0f}\n", (double)work * 1e-5 / options.seconds,
           mean_of_most(handed.nanoseconds, handed.count));
    free(times);
    free(quiet);
}

static int latency_critical(void) {
    size_t room = (size_t)(options.rate * fmax(options.times, 1) * (options.seconds + 1) * 1.2) + 1000, first;
    uint64_t *arrived = malloc(room * sizeof *arrived), work;
    cpu_set_t cpus;
    took = calloc(room, sizeof *took);
    handed.nanoseconds = calloc(room, sizeof(uint64_t));
    if (!took || !arrived || !handed.nanoseconds) die("requests", strerror(errno));
    memset(arrived, 0, room * sizeof *arrived);
    start(serve_request);
    CPU_ZERO(&cpus);
    if (options.cpu >= 0) CPU_SET((size_t)options.cpu, &cpus), sched_setaffinity(0, sizeof cpus, &cpus);
    uint64_t begin = caladan_rt_now(rt) + WARM_UP, end = begin + (uint64_t)(options.seconds * 1e9);
    size_t count = hand_in(arrived, room, begin, end, &first, &work);
    while (caladan_rt_now(rt) < end && !caladan_rt_is_over(rt)) {
        uint64_t soon = caladan_rt_now(rt) + 20000000;
        wait_until(soon < end ? soon : end);
    }
    work = pieces() - work;
    usleep(100000);
    report(arrived, first, count, work);
    fflush(stdout);
    leave();
}

/* ---- the best-effort task ---- */

static void read_piece(unsigned thread) {
    static _Thread_local size_t at;
    uint64_t sum = 0;
    const char *piece = buffer + (at + thread * (BUFFER / 4)) % BUFFER;
    for (size_t i = 0; i < PIECE; i += 64) sum += *(const volatile uint64_t *)(piece + i);
    at = (at + PIECE) % BUFFER;
    sink = sum;
    caladan_rt_missed(PIECE / 64);
}

/* ---- what is started on a core ---- */

static void tell_started(long number) { fprintf(stderr, "load: started %ld\n", number); }

static void *live_on(void *with) {
    tell_started(gettid());
    sleep(60);
    return with;
}

static pid_t spawn(bool by_runtime) {
    static char *const words[] = {"sleep", "60", NULL};
    pid_t child = 0;
    int error = by_runtime ? caladan_rt_spawn(rt, &child, "/bin/sleep", NULL, NULL, words, environ)
                           : posix_spawn(&child, "/bin/sleep", NULL, NULL, words, environ);
    if (error) die("a child", strerror(error));
    return child;
}

/* A child that has its parent's memory. */
static void have_vforked(void) {
    static volatile bool is_accepted;
    pid_t child = vfork();
    if (child == 0) is_accepted = caladan_rt_submit(rt, 0, (caladan_request){caladan_rt_now(rt), 0}), _exit(0);
    if (child > 0) waitpid(child, NULL, 0);
    if (child < 0 || is_accepted) _exit(4);
    tell_started(child);
}

static void start_on_core(const char *what) {
    pthread_t thread;
    pid_t child = strcmp(what, "fork") ? -1 : fork();
    if (child == 0) sleep(60), _exit(0);
    if (child > 0) tell_started(child);
    if (!strcmp(what, "thread")) pthread_create(&thread, NULL, live_on, NULL);
    if (!strcmp(what, "rt_thread") && caladan_rt_thread(rt, &thread, NULL, live_on, NULL)) die(what, "refused");
    if (!strcmp(what, "spawn") || !strcmp(what, "rt_spawn")) tell_started(spawn(*what == 'r'));
    if (!strcmp(what, "exec")) tell_started(getpid()), execl("/bin/sleep", "sleep", "60", NULL);
    if (!strcmp(what, "vfork")) have_vforked();
}

static void start_once(void) {
    static atomic_bool is_started;
    if (options.starts == NULL || atomic_exchange(&is_started, true)) return;
    caladan_rt_hold();
    start_on_core(options.starts);
    caladan_rt_release();
}

/* A chunk, and another one after it. */
static void serve_chunk(void *with, unsigned thread, caladan_request request) {
    (void)with;
    start_once();
    if (options.holds) caladan_rt_hold();
    for (int i = 0; i < PIECES_OF_A_CHUNK; i++) {
        if (options.bytes) read_piece(thread);
        else if (claims && i % 2) spin_alone((uint64_t)(options.turns * 10));
        else spin((uint64_t)(options.turns * 10));
        look_where_it_runs();
        atomic_fetch_add(&counters[(unsigned)sched_getcpu() % COUNTERS].pieces, 1);
    }
    if (options.holds) caladan_rt_release();
    caladan_rt_submit(rt, thread, (caladan_request){caladan_rt_now(rt), request.what});
}

/* ---- runtimes that are stopped ---- */

enum { WAITED_FOR = 40, TOO_MANY = 10000 };

static void serve_latched(void *with, unsigned thread, caladan_request request) {
    (void)with, (void)thread;
    spin((uint64_t)(options.turns * 20));
    if (request.what) caladan_latch_done((caladan_latch *)(uintptr_t)request.what);
}

/* So many requests at once, in turn to each thread; how many were taken. */
static size_t submit_each(size_t count, caladan_latch *latch) {
    static caladan_request requests[TOO_MANY];
    size_t taken = 0, part = count / caladan_rt_threads(rt);
    for (size_t i = 0; i < count; i++)
        requests[i] = (caladan_request){caladan_rt_now(rt), (uint64_t)(uintptr_t)latch};
    for (unsigned k = 0; k < caladan_rt_threads(rt); k++) taken += caladan_rt_submit_each(rt, k, requests, part);
    return taken;
}

static void start_and_stop(void) {
    caladan_latch latch;
    size_t unserved = 0;
    start(serve_latched);
    caladan_latch_begin(&latch, WAITED_FOR + 1);
    if (submit_each(WAITED_FOR, &latch) != WAITED_FOR) die("a batch", "it was not taken");
    if (caladan_latch_wait(&latch, 1000000)) die("a latch", "it fell too early");
    caladan_latch_done(&latch);
    if (!caladan_latch_wait(&latch, 60000000000u)) die("a batch", "it was not served in a minute");
    size_t taken = caladan_rt_submit_each(rt, 0, NULL, 0) + submit_each(TOO_MANY, NULL);
    if (!caladan_rt_stop(rt, &unserved)) die("a runtime", "it was not stopped");
    if (taken < TOO_MANY / 4 || unserved > taken) die("a batch", "it was not taken, or more is left");
}

/* What a child can do with its parent's runtime: nothing. */
static bool is_refused(void) {
    if (caladan_rt_submit(rt, 0, (caladan_request){caladan_rt_now(rt), 0})) return false;
    if (!caladan_rt_is_over(rt) || caladan_rt_attach_again(rt) || errno != ECHILD) return false;
    caladan_rt_missed(1);
    (void)caladan_rt_stands_under(rt);
    if (caladan_rt_processor() != -1) return false;
    /* The task is its parent's. */
    return caladan_rt_start(options.name, options.task, 0, NULL, NULL) == NULL && errno == EBUSY;
}

static void have_child(void) {
    int status = 0;
    pid_t child = fork();
    if (child == 0) alarm(5), _exit(is_refused() ? 0 : 4);
    if (child < 0 || waitpid(child, &status, 0) != child) die("a child", strerror(errno));
    if (status) _exit(4);
}

/* Where the process is to go on when the scheduler is over. */
static bool goes_on(void) {
    if (!caladan_rt_is_over(rt)) return true;
    if (options.after && (!strcmp(options.after, "again") || !strcmp(options.after, "seek")))
        caladan_rt_attach_again(rt);
    return options.after != NULL;
}

static int best_effort(void) {
    if (options.bytes) {
        buffer = mmap(NULL, BUFFER, PROT_READ | PROT_WRITE, MAP_PRIVATE | MAP_ANONYMOUS, -1, 0);
        if (buffer == MAP_FAILED) die("memory", strerror(errno));
        madvise(buffer, BUFFER, MADV_HUGEPAGE);
        memset(buffer, 1, BUFFER);
    }
    is_best = true;
    for (int i = 0; i < 5 && options.stops; i++) start_and_stop();
    if (options.stops) exit(0); /* nothing is left, and the address sanitizer looks */
    start(serve_chunk);
    for (unsigned i = 0; i < caladan_rt_threads(rt); i++)
        caladan_rt_submit(rt, i, (caladan_request){caladan_rt_now(rt), i});
    if (options.closes) close_range(3, ~0u, 0);
    if (options.forks) usleep(300000), have_child(); /* its threads have begun by then */
    uint64_t until = caladan_rt_now(rt) + (uint64_t)(options.seconds * 1e9);
    if (options.after && (!strcmp(options.after, "run") || !strcmp(options.after, "seek")))
        caladan_rt_after(rt, CALADAN_RT_RUN);
    while (caladan_rt_now(rt) < until && goes_on()) usleep(20000);
    leave();
}

static void read_option(int option) {
    switch (option) {
    case 'n': options.name = optarg; break;
    case 'u': options.task = (unsigned)atoi(optarg); break;
    case 'k': options.turns = atof(optarg); break;
    case 'c': options.counter = optarg; break;
    case 'x': options.cpu = atoi(optarg); break;
    case 'm': options.microseconds = atof(optarg); break;
    case 'q': options.rate = atof(optarg); break;
    case 's': options.seconds = atof(optarg); break;
    case 'i': options.idle_ns = strtoull(optarg, NULL, 10); break;
    case 'b': options.bytes = true; break;
    case 'h': options.holds = true; break;
    case 'a': options.blocks = true; break;
    case 'g': options.handles = true; break;
    case 'z': options.closes = true; break;
    case 't': options.stops = true; break;
    case 'f': options.forks = true; break;
    case 'e': options.after = optarg; break;
    case 'l': options.lost = atof(optarg); break;
    case 'p': options.starts = optarg; break;
    case 'w': options.burst = atof(optarg); break;
    case 'r': options.times = atof(optarg); break;
    default: exit(2);
    }
}

int main(int count, char **words) {
    const char *word = count > 1 ? words[1] : "";
    if (!strcmp(word, "spin")) return printf("%.2f\n", turns_of_a_microsecond()), 0;
    static const char letters[] = "n:u:k:c:x:m:q:s:i:bhagzfe:p:l:tw:r:";
    for (int c; count > 1 && (c = getopt(count - 1, words + 1, letters)) != -1;) read_option(c);
    if ((strcmp(word, "lc") && strcmp(word, "be")) || options.name == NULL)
        die("usage", "load spin | lc | be -n NAME -u TASK ..");
    open_claims();
    if (options.turns == 0) options.turns = turns_of_a_microsecond();
    int file = options.counter ? open(options.counter, O_RDWR | O_CREAT, 0600) : -1;
    if (options.counter && (file < 0 || ftruncate(file, COUNTERS * sizeof(counter))))
        die(options.counter, strerror(errno));
    counters = mmap(NULL, COUNTERS * sizeof(counter), PROT_READ | PROT_WRITE,
                    MAP_SHARED | (file < 0 ? MAP_ANONYMOUS : 0), file, 0);
    if (counters == MAP_FAILED) die("counters", strerror(errno));
    return !strcmp(word, "lc") ? latency_critical() : best_effort();
}
