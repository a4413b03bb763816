/* host.h: the memory that the scheduler process shares with the process of one task, and how they meet.
 *
 * THIS C IS NOT PROVED. host/README.md says what of the host is.
 *
 * Each task has a segment of its own, which nobody else maps, and which has no name: a process that attaches
 * is handed it over a socket, sealed, so that it cannot be made shorter, nor have a hole. What different sides write
 * lies on lines of its own. The scheduler reads the pages, the thread numbers and the phases in it, and believes none.
 */
#ifndef HOST_H
#define HOST_H
#include "caladan_pages.h"
#include <fcntl.h>
#include <linux/futex.h>
#include <signal.h>
#include <stdio.h>
#include <stddef.h>
#include <sys/socket.h>
#include <sys/syscall.h>
#include <sys/un.h>
#include <time.h>
#include <unistd.h>

/* Rises when what lies in a segment or what is said over the socket changes; pages have a version of their own. */
#ifndef HOST_LAYOUT
#define HOST_LAYOUT 5
#endif
#define HOST_VERSION ((uint64_t)HOST_LAYOUT << 32 | CALADAN_PAGES_VERSION)
#define HOST_SIGNAL SIGURG /* by default it is ignored: a thread that has no handler for it takes no harm */
#define HOST_SEALS (F_SEAL_SHRINK | F_SEAL_GROW)
/* Once it is mapped: from then on no page can be punched out of it. */
#define HOST_LAST_SEALS (F_SEAL_FUTURE_WRITE | F_SEAL_SEAL)
enum { HOST_CORES = CALADAN_MOST_CORES, HOST_TASKS = 16, HOST_THREADS = CALADAN_MOST_THREADS, HOST_LIMIT = 16 };

/* The words of a record that a runtime fills, by their places. */
enum { TAKEN, RUNNING, QUEUED, OLDEST, STARTED, MISSES, STAMP, PAUSED, SINCE };

typedef struct host_slot {
    caladan_page page;
    caladan_ring ring;
    /* a futex; it grows when there is something to see */
    _Alignas(CALADAN_LINE) _Atomic uint32_t doorbell;
    /* the scheduler's: the thread may sleep on its core, which it keeps */
    _Atomic uint32_t may_doze;
    /* the runtime's: the kernel thread, or 0; written before a phase is read */
    _Alignas(CALADAN_LINE) _Atomic int32_t tid;
    _Atomic uint32_t phase;  /* the runtime's: the last phase that the thread acted on */
    _Atomic uint32_t asleep; /* the runtime's: the thread sleeps on its doorbell, or is about to */
} host_slot;

/* A phase is twice the number of the piece of the record, from 1; or that plus one while the piece ends: then
 * each thread leaves its core, publishes no more, and waits for the next phase. */
typedef struct host_segment {
    uint64_t version; /* HOST_VERSION */
    uint64_t epoch;   /* tick 0 of the clock, in nanoseconds of CLOCK_MONOTONIC */
    uint32_t threads; /* 1 to HOST_LIMIT */
    /* not 0: its threads are in SCHED_IDLE, and may be on a core that another task has */
    uint32_t stands_under;
    int32_t processor[HOST_CORES]; /* of each core */
    _Alignas(CALADAN_LINE) _Atomic uint32_t phase;
    _Alignas(CALADAN_LINE) _Atomic uint64_t heartbeat; /* it grows each millisecond, or with each pass */
    host_slot slot[HOST_LIMIT];
} host_segment;

/* Who attaches says who it is (HOST_HELLO); the scheduler answers, and with HOST_DONE comes the segment; who has mapped
 * it says so (HOST_MAPPED). Only then is the task taken. It is given up when the connection closes. */
enum { HOST_HELLO = 1, HOST_MAPPED = 2 };
typedef struct host_word {
    uint64_t version;
    uint32_t word;
    int32_t process; /* as the process itself knows its number */
} host_word;

enum {
    HOST_DONE, HOST_TAKEN, HOST_OTHER_USER, HOST_OTHER_NAMESPACE, HOST_NO_RIGHTS, HOST_NO_MEMORY,
    HOST_OTHER_GROUP, HOST_WAITS /* which is never said */
};
typedef struct host_answer {
    uint64_t version;
    uint32_t status;
} host_answer;
enum { HOST_ERROR = 5000 }; /* an errno of host_attach: it plus a status, of those that no errno is for */

/* ---- the folder of a scheduler: BASE/NAME, of mode 0700, with a socket for each task ---- */

enum { HOST_NAME = 64, HOST_PATH = 4096 }; /* the longest name, and the longest path */

/* The folder in which schedulers have theirs: CALADAN_FOLDER; else /run/caladan of root, and caladan in
 * XDG_RUNTIME_DIR of others. False: there is none. */
bool host_base(char base[HOST_PATH]);
bool host_is_name(const char *name); /* letters, digits, '.', '_', '-'; no '.' at the front */
/* Opens a folder below `at` (or AT_FDCWD) that is this user's, and which nobody else may enter or write; -1: errno. */
int host_open_folder(int at, const char *path);

/* The address of a task's socket in the open folder of a scheduler: by /proc, so that no path is too long for it,
 * and nobody changes the folder between the look at it and the connection. */
static inline socklen_t host_address(struct sockaddr_un *address, int folder, unsigned task) {
    *address = (struct sockaddr_un){.sun_family = AF_UNIX};
    int length = snprintf(address->sun_path, sizeof address->sun_path, "/proc/self/fd/%d/task-%u", folder, task);
    return (socklen_t)(offsetof(struct sockaddr_un, sun_path) + 1 + (size_t)length);
}

static inline uint64_t host_clock(void) {
    struct timespec t;
    clock_gettime(CLOCK_MONOTONIC, &t);
    return (uint64_t)t.tv_sec * 1000000000u + (uint64_t)t.tv_nsec;
}

static inline void host_pause(void) {
#if defined __x86_64__ || defined __i386__
    __builtin_ia32_pause();
#endif
}

static inline void futex_wait(_Atomic uint32_t *word, uint32_t while_it_is) {
    syscall(SYS_futex, word, FUTEX_WAIT, while_it_is, NULL, NULL, 0);
}

static inline void futex_wake_all(_Atomic uint32_t *word) {
    syscall(SYS_futex, word, FUTEX_WAKE, 1 << 30, NULL, NULL, 0);
}

/* Wakes the thread where it sleeps. It says so before it looks at the doorbell a last time, so
 * that either it is seen here to sleep, or it sees there that the doorbell has grown. */
static inline void ring_bell(host_slot *slot) {
    atomic_fetch_add(&slot->doorbell, 1);
    if (!atomic_load(&slot->asleep)) return;
    syscall(SYS_futex, &slot->doorbell, FUTEX_WAKE, 1, NULL, NULL, 0);
}
static inline void sleep_on_bell(host_slot *slot, uint32_t while_it_is) {
    atomic_store(&slot->asleep, 1);
    futex_wait(&slot->doorbell, while_it_is);
    atomic_store(&slot->asleep, 0);
}

/* Attaches as that task, and maps its segment. NULL: errno says why, and host_why in words. *connection stays
 * open as long as the scheduler runs and the task is this process's; closing it gives the task up. */
host_segment *host_attach(const char *name, unsigned task, int *connection);
/* The same in two steps: the task is this process's, and its threads are granted cores, only after the second one, for
 * which there are four seconds. False: errno says why, and the connection is closed. */
host_segment *host_meet(const char *name, unsigned task, int *connection);
bool host_take(host_segment *segment, int connection);
const char *host_why(int error);
#endif
