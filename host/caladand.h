/* caladand.h: what the files of the scheduler process share. */
#ifndef CALADAND_H
#define CALADAND_H
#include <sched.h>
#include <sys/types.h>
#include "caladan_history.h"
#include "host.h"
#include "latency.h"
#include "record.h"

typedef struct options {
    const char *name, *table, *folder;
    /* the scheduler's processor, and that of the thread that moves others; -1: none is named */
    int own, mover;
    unsigned cpus;
    int cpu[HOST_CORES];
    uint32_t under;  /* the tasks that stand under, a bit each */
    uint32_t policy; /* by which passes are made, CALADAN_POLICY_.. */
    uint64_t seconds, gap, window, passes, bytes, patience, wait; /* times in nanoseconds, but for seconds */
    bool each;       /* idle passes are recorded too */
} options;

enum { HOST_GUESTS = 8 };

/* A connection of whom nothing is known yet, and since when, by the scheduler's run time; and what it said. */
typedef struct host_guest {
    int connection;
    uint64_t at;
    bool has_said;
    host_word word;
    pid_t sender;
} host_guest;

/* A task: its segment, the process that is attached as it, if any, and who wants to be. Files are -1 where there is
 * none. */
typedef struct host_task {
    unsigned first, limit; /* its kernel threads */
    bool is_critical;
    bool is_under;           /* its threads are in SCHED_IDLE: under.c */
    uint8_t guaranteed, cap; /* in cores; the cap is the last one of this piece, else the limit */
    uint64_t request;        /* how long a request may take before the core beside it is banned */
    /* memory -1: there was none, so the segment is of the scheduler's own memory and is handed to nobody */
    int listener, memory;
    host_segment *segment;
    pid_t pid;             /* 0: nobody has the segment */
    bool is_attached;      /* it said that it has mapped the segment */
    int file, connection;  /* of the process */
    uint64_t welcomed_at;          /* when guests were looked at last */
    uint64_t handed_at, killed_at; /* by the scheduler's run time; 0: not */
    uint64_t killed_at_wall, dump_asked_at; /* by its wall time */
    host_guest guest[HOST_GUESTS];
} host_task;

enum { NO_CORE = HOST_CORES };

/* A thread that was sent Park and is to leave its core; or one without a core (NO_CORE) that is to say that it
 * publishes nothing more, since a piece ends. */
typedef struct leaving {
    bool is_set, again;    /* it was interrupted once more */
    unsigned core;
    uint64_t since, looks; /* by the scheduler's run time, and by its count of looks */
    uint64_t since_wall;   /* and by its wall time */
    /* What the kernel counts of it, asked now and then: how long it ran since it was asked first, and how long it could
     * have run and did not want to. */
    pid_t tid;
    uint64_t ran, rested;
    uint64_t on_cpu, sampled, sampled_wall; /* when it was asked last: its count, run time and wall time */
} leaving;

/* What moves do to a kernel thread: the mover's, while moves of it are not done (moves.c). */
typedef struct host_pin {
    caladan_sender sender;
    pid_t tid;     /* which one was pinned last; 0: none */
    unsigned core; /* and to which core's processor */
    pid_t idle;    /* which one was put into SCHED_IDLE last; 0: none */
    int error;     /* the errno with which it could not be pinned; 0: it is not the process's */
    bool is_lost;  /* the last move could not pin it */
    bool is_slow;  /* or that took long */
    unsigned slow; /* how often that took long, one after the other */
} host_pin;

/* Of a kernel thread of a task that stands under: under.c's. */
typedef struct host_under {
    unsigned target;   /* the core where it is to be, plus one; or 0 */
    unsigned stands;   /* the one where it was sent, and was not seen to leave, plus one; or 0 */
    bool is_revoked;   /* that one was taken from it: it was sent Park */
    uint64_t seqno;    /* of the last command of its ring, also of one that the mover has not sent yet */
    caladan_look page; /* the last record of its page that it can have published */
} host_under;

/* A kernel thread of a process. */
typedef struct host_seat {
    host_slot *slot;
    host_pin pin;
    uint64_t handed;     /* its moves: how many were planned */
    uint64_t settled;    /* and how many are known to be done */
    _Atomic uint64_t done;
    uint64_t left_at;    /* when it left a core: it may still be on its way to sleep; 0: never */
    uint64_t retry_at;   /* it could not be pinned, and is granted nothing until then */
    uint64_t place, misses; /* what its page had at a time */
    uint64_t from;       /* since when it can have published, and missed, once a nanosecond */
    bool is_refused;     /* its last look was: it is granted nothing until one is kept */
    bool is_unacked;     /* it did not answer in time: nobody waits for it until it does */
    leaving leaving;
    host_under under;
} host_seat;

/* How a thread that stands under is to leave the core that it has. */
enum { HOST_STAYS, HOST_GIVES_WAY, HOST_LEAVES };

/* A thread of the table. */
typedef struct host_thread {
    unsigned task;
    host_seat seat;
    unsigned core;      /* which it holds or leaves, plus one; or 0 */
    uint64_t sent;      /* the commands that passes sent to it */
    bool by_hand;       /* its page cannot show that it is gone: passes are given `gone` itself */
    caladan_look gone;  /* what its page shows where nobody has published on it */
    bool is_deferred;   /* its Run is sent when who stands under on its core has left */
    /* What follows is of a task that stands under. */
    uint8_t leaves;     /* one of the words above */
    bool gave_up;       /* it left the core that it was granted, of its own accord */
    caladan_look shown; /* the record that passes see */
    uint64_t misses;    /* of those that came before what its page counts */
} host_thread;

typedef struct strays strays; /* strays.c */
typedef struct moves moves;   /* moves.c */
typedef struct pairs pairs;   /* pairs.c */
typedef struct desk desk;     /* counters.c */

typedef struct counts {
    uint64_t passes, left_out; /* of them from the record, since they were idle */
    uint64_t pieces, attached, ended, given_up, killed, written_off, refused, dumped;
    uint64_t foreign_tids, unpinned, slow_pins, strayed, jumped, outran, worn;
    uint64_t displaced; /* the scheduler itself */
    uint64_t put_back; /* threads and children of processes that were pinned without a core: strays.c */
    uint64_t given_way, notes, taken_off; /* of threads that stand under: under.c */
    uint64_t longest_gap; /* between two passes, in nanoseconds */
    uint64_t judged[CALADAN_WORD_FELL + 1], actions[CALADAN_GRANT + 1];
} counts;

typedef struct scheduler {
    options options;
    char *table;
    uint64_t epoch;
    cpu_set_t others; /* the processors that it may use and does not manage */
    cpu_set_t place;  /* and where the passes are made; empty: anywhere */
    uint64_t displaced_at;
    int folder;       /* its own */
    int events;       /* an epoll of all sockets, and of the files of processes */
    caladan handle;
    caladan_machine machine;
    host_task task[HOST_TASKS];
    host_thread thread[HOST_THREADS];
    latency_thread shown[HOST_THREADS];
    caladan_look look[HOST_THREADS];
    uint8_t judged[HOST_THREADS], sent_to[CALADAN_MOST_ACTIONS];
    caladan_action action[CALADAN_MOST_ACTIONS];
    size_t made, sent;
    unsigned on_core[HOST_CORES]; /* the thread that holds or leaves it, plus one; or 0 */
    bool is_banned[HOST_CORES];
    moves *moves;
    bool has_mover;
    pairs *pairs; /* NULL: no task stands under */
    desk *desk;
    /* patience.c: the time in which the scheduler itself ran; the time that went by, but for standstills; and when
     * both were counted last */
    uint64_t run_time, wall_time, accounted_at;
    uint64_t beat_at; /* when it showed last that it looks on */
    uint64_t delayed; /* and how long it had waited for its processor by then */
    uint64_t looks;         /* how often all pages were looked at */
    uint64_t complained;
    uint8_t looked_after; /* the thread whose pin was looked at last */
    uint64_t figure, figure_misses, figure_at;
    uint32_t phase;
    bool is_closing;
    bool is_due; /* the next pass is made at once: it frees a core that nobody has to leave */
    record *record; /* NULL: nothing is recorded */
    record *opened; /* also one that was given up; NULL: none was asked for */
    strays *strays; /* NULL: nobody looks for them */
    uint64_t strays_told, strays_told_at; /* how many it has told of, and when */
    /* of each kernel thread of a task, the thread that was pinned; 0: none */
    _Atomic int32_t seated[HOST_TASKS][HOST_LIMIT];
    uint64_t passes; /* that are recorded of this piece */
    uint64_t passed_at, metrics_at;
    latency latency;
    counts counts;
} scheduler;

static inline uint64_t now_of(const scheduler *s) { return host_clock() - s->epoch; }
void fail(const char *what, const char *why) __attribute__((noreturn));
uint8_t open_table(scheduler *s); /* in its closed handle */
unsigned stop_signals(void); /* how often it was told to end */

/* clerks.c */
#define CLERKS_LAST ((uint64_t)1000000000) /* how long a clerk is waited for at the end, in nanoseconds, at least */
typedef void clerk_work(void *with);
bool start_clerk(clerk_work *work, void *with, const cpu_set_t *where); /* on these processors, if there are any */
bool place_clerk(clerk_work *work, const cpu_set_t *where); /* from now on it runs there */
void look_after_clerks(scheduler *s); /* those that were moved go back */
bool wait_for_clerk(bool is_idle(const void *of), const void *of, uint64_t most); /* false: not in so long */
/* A line on standard error; it waits for nobody. */
void complain(const char *format, ...) __attribute__((format(printf, 1, 2)));
bool begin_lines(const cpu_set_t *where); /* until then, who complains writes the line himself */
void end_lines(void);
uint64_t lost_lines(void);

/* options.c */
options read_options(int count, char **words);
char *text_of(const char *path);

/* places.c: what only one scheduler may have: its folder, and its processors */
void take_folder(scheduler *s); /* it is left, and gone, when the process ends */
void take_processors(scheduler *s);
void leave_places(void);
void look_after_own_place(scheduler *s);
bool can_be_found(unsigned tasks); /* its folder, with the sockets of so many tasks; by a clerk */
void tell_ready(void); /* to whom started it, where NOTIFY_SOCKET says */

/* segments.c */
bool make_segment(scheduler *s, host_task *task);
void drop_segment(host_task *task);
void beat(scheduler *s); /* shows each process that the scheduler looks on */
void give_up(scheduler *s, host_task *task); /* nobody has the task any more: its threads are gone, on a new segment */
bool close_segment(const host_task *task); /* false: who was handed it has sealed it otherwise */

/* tasks.c */
void open_tasks(scheduler *s);
void close_tasks(scheduler *s);
void tend_each(scheduler *s); /* who wants to attach, who left, who ended */
bool has_ended(const host_task *task); /* its process */
void bury(scheduler *s, host_task *task); /* its process has ended, or is about to without another word */
bool is_own_thread(const host_task *task, pid_t tid);
void interrupt(const host_task *task, const host_slot *slot);
unsigned number_of(const scheduler *s, const host_task *task);

/* patience.c */
enum { LEAST_LOOKS = 16 }; /* the least number of looks at a process's pages before it is killed for what they show */
enum { WALL_BOUND = 5 }; /* no patience lasts longer than so many times its length by the wall clock */
void account_time(scheduler *s, uint64_t now);
void note_leaving(scheduler *s, size_t thread, unsigned core);
void kill_the_deaf(scheduler *s); /* processes with a thread that does not leave its core in time */
void kill_process(scheduler *s, host_task *task, const char *why);
void write_off(scheduler *s, host_task *task);

/* proc.c: what the kernel tells of processes */
uint64_t run_delay(void); /* how long the calling thread, always the same, waited for its processor so far, in ns */
uint64_t on_cpu_time(pid_t pid, pid_t tid); /* in nanoseconds; 0: it does not tell */
bool is_runnable(pid_t pid, pid_t tid);     /* it runs, or waits for its processor */
const char *what_stops(pid_t pid, pid_t tid); /* the end of a line; "" where nothing does */
bool is_dumping_core(pid_t pid);            /* its threads are dead, and it has not ended */

/* pass.c */
void make_pass(scheduler *s);
void stop_moving(scheduler *s);

/* moves.c: threads are pinned, woken and interrupted; what a pass plans is done at its end */
bool begin_moves(scheduler *s); /* with a thread that does it, where it has a processor */
/* Run: it is pinned there, and woken. Park: it is interrupted, and put on the core `to` less one,
 * unless that is 0. Nothing: it is sent Park in place of Run. */
void plan_run(scheduler *s, size_t k, unsigned core);
void plan_park(scheduler *s, size_t k, unsigned from, unsigned to);
void plan_nothing(scheduler *s, size_t k);
void carry_out(scheduler *s);
void wait_for_moves(scheduler *s); /* until the mover has done what it was handed */
void look_after_mover(const scheduler *s); /* that makes no moves: it is put elsewhere, or the run ends */
void look_after_pin(scheduler *s); /* of one thread, in turn */
void lift(scheduler *s, size_t k); /* out of SCHED_IDLE, where it may be, until its next Run */

/* strays.c: what is pinned to a managed processor, and has no core */
bool begin_strays(scheduler *s);
void strays_attach(scheduler *s, const host_task *task);  /* its process is looked at from now on */
void strays_give_up(scheduler *s, const host_task *task); /* at once, and once more */
void strays_say(scheduler *s);

/* under.c: tasks that stand under */
bool stands_under(const scheduler *s, size_t k);
void under_begin(scheduler *s, size_t k); /* a piece begins */
void under_bury(scheduler *s, size_t k);  /* its process is gone */
/* Makes the look of the passes, by that of the page; NULL: nobody publishes there. */
void under_look(scheduler *s, size_t k, const caladan_look *page, uint64_t now);
void under_grant(scheduler *s, size_t k, unsigned core);
void under_revoke(scheduler *s, size_t k, uint8_t cause);
void under_free(scheduler *s, size_t k);
void under_cap(scheduler *s, unsigned task, uint8_t cap);
/* Whether nobody but that thread stands under there. */
bool is_clear(const scheduler *s, unsigned core, size_t of);
void under_settle(scheduler *s, uint64_t now); /* plans what follows from the actions of a pass */

/* pairs.c: the same, asked of a clerk */
typedef struct host_pair {
    pid_t under, to;
} host_pair;
bool begin_pairs(scheduler *s);
/* Whether each of them gives way; -1: it is not known yet, and who asks, as a task, has to ask again. */
int each_gives_way(pairs *it, const host_pair *pairs, size_t count, unsigned asker, uint64_t now);

/* groups.c: whether a thread in SCHED_IDLE of one process gives way to those of another */
bool gives_way(pid_t under, pid_t to);
extern const char *groups_proc; /* /proc; a test has another one */

/* pieces.c */
void begin_piece(scheduler *s);
bool is_piece_full(const scheduler *s);
void end_piece(scheduler *s);

/* counters.c */
void print_summary(scheduler *s);
bool begin_metrics(scheduler *s);
/* Hands the counters to the clerk who writes them into the scheduler's folder, unless he is at work. */
void hand_metrics(const scheduler *s);
void end_metrics(const scheduler *s);
#endif
