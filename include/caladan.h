/* caladan.h: the decisions of a core scheduler, proved, for C.
 *
 * You open a scheduler for a task table. You give each pass a look at each kernel thread, and it answers what
 * the scheduler must do: free, ban, revoke and grant cores. docs/POLICY.md says what a pass is. Link with
 * libcaladan_c.a and a heap (below), and for tables of rows with caladan_rows.c.
 *
 * The answers of each call are proved, for the function of the same name (crates/caladan_c/src/lib.rt and
 * src/exports). The brackets after a promise say what supports it: [a name] is a clause of that function,
 * [law a name] a law of the crates below, [tested] means only tests, by tools/c_library, and [not proved]
 * means nothing. docs/PROMISES.md says what the laws promise, crate by crate; tools/clauses prints each. Comments
 * name answers without CALADAN_: DONE is CALADAN_DONE.
 * Nothing checks what a caller in C owes:
 *  - A handle begins as CALADAN_CLOSED, and only these calls change it. Do not use two copies of it, and do
 *    not read or write what it points to. Calls that change nothing take a const handle; while such a call
 *    lasts it uses the handle like any other, so define no handle const, nor put one into read-only memory.
 *    Make one call at a time on a handle. It may move from one thread to another, as from the one that reads a
 *    table to the one that polls, if each call ends before the next begins: by a mutex, a join, or a release
 *    store and an acquire load. The proofs are about one thread, and calls in such an order are those of one
 *    thread: the library keeps nothing but what the handle points to, in no thread-local and no static storage
 *    [tested: neither is in the archive], and another thread may free what one allocated (malloc, below).
 *    Calls on different handles may run at the same time.
 *  - The three kinds of handles have their own types. A call that still gets one of another kind, by a cast,
 *    answers as for a closed one [closed, already] and changes nothing [same, refused, unchanged, other];
 *    opening it answers IS_OPEN [already].
 *  - Pointers are aligned, and have room for as many elements as the number after them says. They are not
 *    null, unless that number is 0. No two arguments overlap, except those that are only read (const).
 *  - malloc, realloc and free belong to one allocator, which threads may share if a handle moves or you use
 *    several, and blocks are aligned to each power of two up to 16 that divides their size. No call comes
 *    from a signal handler, nor from the forked child of a process with threads.
 *
 * To serve processes that you do not trust, make passes by caladan_pass_each: whatever one of them shows, it
 * serves the others. Memory that a process can write (its page, its ring) has only what that process claims.
 * You know yourself how many commands were sent, and so how much room a ring has (caladan_thread).
 *
 * Within a version nothing changes that a compiled program sees: no call, layout or number. The words of the
 * texts and the speed of a call may change. A higher version may have more calls, numbers and fields, and
 * says so here; the soname of libcaladan_c.so has the version.
 *
 * Since version 5: CALADAN_POLICY_ASSURED is decided and audited by another rule (docs/POLICY.md): what an earlier
 * version decided by it may be CALADAN_ILLEGAL now. New is CALADAN_ASSURED_RULE.
 * Queries take a const handle, and compilers warn where the answer of a call that opens, makes
 * a pass or judges is not looked at. New are caladan_holder_of, caladan_guard_holder_of, caladan_guard_ban_of
 * and caladan_guard_last_of, which take any number; the exports without `_of` take a byte, are deprecated, and
 * are no macros any more. New too are caladan_open_rows_policy and caladan_audit_open_rows_policy. What opens
 * tables of rows is in caladan_rows.c, in libcaladan_rows.a where it is installed. A heap of your own may take
 * the place of liblibc_c.a.
 * Since version 3: a handle may move from one thread to another, and one of another kind counts as closed.
 * New are tables of rows (caladan_open_rows, and the same of a guard and an audit), facts for a policy of
 * your own (caladan_guard_judge, caladan_guard_kept, caladan_guard_ban, caladan_guard_last), caladan_kept,
 * caladan_next_clock, and policies by number (caladan_open_policy, caladan_audit_open_policy,
 * CALADAN_POLICY_CALADAN and CALADAN_POLICY_ASSURED, the answer CALADAN_NO_POLICY).
 * Since version 2: no pass answers CALADAN_NO_MEMORY any more, and a core may be given as any number, also
 * one above 255. New are the words of a look as one run (CALADAN_WORDS, caladan_look_words,
 * caladan_look_set_words) and CALADAN_IS_THIS_VERSION.
 * Since version 1: nothing that was there has changed. New are caladan_pass_each, caladan_first_unfit,
 * caladan_table, caladan_table_task, caladan_thread, caladan_gone and caladan_revoked, the same of a guard
 * (caladan_guard_pass_each and so on), the judgements from CALADAN_NO_PAIR on, the answer CALADAN_LOST, the
 * texts, CALADAN_HISTORY_HEADER, CALADAN_MOST_CORES and CALADAN_MOST_THREADS.
 */
#ifndef CALADAN_H
#define CALADAN_H
#include <stdbool.h>
#include <stddef.h>
#include <stdint.h>
#include <string.h>

#ifdef __cplusplus
extern "C" {
#endif

/* The version of this interface, which caladan_version answers; and whether the linked library has it, so
 * that this header is about that library. */
#define CALADAN_VERSION 6
#define CALADAN_IS_THIS_VERSION() (caladan_version() == CALADAN_VERSION)

/* The layout that the library expects of each struct, in bytes: its size, and the place of each field. A
 * compiler with another layout refuses this header. clients/c/layout_test.c tests that the library writes and
 * reads at these places, and scripts compare the Python module and the Rust crate with these very lines. */
#ifdef __cplusplus
#define CALADAN_SAME(is, why) static_assert(is, why)
#else
#define CALADAN_SAME(is, why) _Static_assert(is, why)
#endif
#define CALADAN_SIZE(type, size) CALADAN_SAME(sizeof(type) == (size), #type " has " #size " bytes")
#define CALADAN_PLACE(type, field, at) CALADAN_SAME(offsetof(type, field) == (at), #field " of " #type " is at " #at)

/* What compilers are told of a call: its answer is to be looked at (that of a query of what is known to be there
 * need not be); another one takes its place. */
#ifdef __GNUC__
#define CALADAN_ANSWERS __attribute__((warn_unused_result))
#define CALADAN_OLD(instead) __attribute__((deprecated(instead)))
#define CALADAN_CALLS_OLD _Pragma("GCC diagnostic push") _Pragma("GCC diagnostic ignored \"-Wdeprecated-declarations\"")
#define CALADAN_CALLS_NEW _Pragma("GCC diagnostic pop")
#else
#define CALADAN_ANSWERS
#define CALADAN_OLD(instead)
#define CALADAN_CALLS_OLD
#define CALADAN_CALLS_NEW
#endif

/* The heap: the library takes memory by these three, which liblibc_c.a defines over malloc, realloc and free.
 * Define them yourself, as for an arena, and do not link liblibc_c.a: clients/c/own_heap.c does. `ok` false:
 * there is no memory, and the block that was to be resized is as it was. A block lies at a multiple of
 * `alignment`, a power of two up to 16, and is never null, even of 0 bytes; resized, it keeps its first `kept`
 * bytes. Passes of a scheduler take no memory [tested]. */
typedef struct caladan_block {
    bool ok;
    void *at;
} caladan_block;
CALADAN_SAME(sizeof(caladan_block) == 16 && offsetof(caladan_block, at) == 8, "as the library returns a block");
caladan_block rattle_alloc(size_t size, size_t alignment);
caladan_block rattle_realloc(void *at, size_t kept, size_t size, size_t alignment);
void rattle_dealloc(void *at);

/* The first line of a history (docs/FORMATS.md). */
#define CALADAN_HISTORY_HEADER "caladan-history,2"

/* The most cores of a machine, the most threads of a table, and the most actions that a pass has. */
#define CALADAN_MOST_CORES 128
#define CALADAN_MOST_THREADS 128
#define CALADAN_MOST_ACTIONS 338

/* A call's answer. Up to CALADAN_TOO_MANY_THREADS it is the first fault of a table; 12 is unused. A pass
 * answers only those named at it [own]. */
enum {
    CALADAN_DONE = 0,
    CALADAN_NOT_TOML = 1,
    CALADAN_UNKNOWN_KEY = 2,
    CALADAN_MISSING_KEY = 3,
    CALADAN_WRONG_TYPE = 4,
    CALADAN_OUT_OF_RANGE = 5,
    CALADAN_BEST_EFFORT_GUARANTEE = 6,
    CALADAN_GUARANTEES_EXCEED_CORES = 7,
    CALADAN_TOO_MANY_THREADS = 8,
    CALADAN_NO_MEMORY = 9,
    CALADAN_IS_CLOSED = 10,   /* the handle is closed */
    CALADAN_IS_OPEN = 11,     /* the handle is open */
    CALADAN_WRONG_COUNT = 13, /* not one look for each thread */
    CALADAN_NO_ROOM = 14,     /* too little room for what the call is to write */
    CALADAN_UNFIT = 15,       /* a look does not fit what its thread showed before, or has not the right shape */
    CALADAN_NO_SUCH = 16,     /* the table has no such core, task or thread */
    CALADAN_NO_ACTION = 17,   /* an action that is none: its kind, its cause, or a field that is not 0 */
    CALADAN_NOT_PERMITTED = 18, /* an action is not permitted at its place */
    CALADAN_NO_JUDGEMENT = 19, /* a number that is no judgement of its look */
    CALADAN_ILLEGAL = 20,     /* a recorded pass is not legal */
    CALADAN_LOST = 21,        /* no record of its page can say any more that the thread left */
    CALADAN_NO_POLICY = 22    /* no policy has this number */
};

/* The policies for passes and audits (docs/POLICY.md). Calls that name none take CALADAN_POLICY_CALADAN
 * [opened]. By CALADAN_POLICY_ASSURED a latency-critical task that goes on waiting below its guarantee is
 * granted a core (docs/POLICY.md says when). */
enum { CALADAN_POLICY_CALADAN = 0, CALADAN_POLICY_ASSURED = 1 };

/* The rule of CALADAN_POLICY_ASSURED: the number rises where the policy decides otherwise than before. A record says
 * it, since no other rule audits what one decided. That of the versions 4 and 5 was 1. */
#define CALADAN_ASSURED_RULE 2

/* A scheduler, or nothing. */
typedef struct caladan {
    bool open;
    void *at;
} caladan;
CALADAN_SIZE(caladan, 16);
CALADAN_PLACE(caladan, open, 0);
CALADAN_PLACE(caladan, at, 8);
#ifdef __cplusplus
#define CALADAN_CLOSED (caladan{false, nullptr})
#else
#define CALADAN_CLOSED ((caladan){false, NULL})
#endif

/* A look at one thread's page, and whether the thread's command ring had room. */
typedef struct caladan_look {
    uint8_t busy;    /* not 0: no record, number and second are the two versions that were loaded */
    uint8_t room;    /* not 0: the ring had room */
    uint64_t number; /* the record's place; of a busy look the first version */
    uint64_t second; /* of a busy look the second version */
    /* the record's words, in the order in which they lie on a page, up to the end; not read of a busy look */
    uint64_t taken;   /* commands taken so far */
    uint64_t running; /* 0 off a core, else the core's number plus one */
    uint64_t queued;  /* 0 without a queued request */
    uint64_t oldest;  /* when the oldest queued request came */
    uint64_t started; /* when the current request was begun or resumed, or 0 */
    uint64_t misses;  /* cache misses so far */
    uint64_t stamp;   /* when the record was published */
    uint64_t paused;  /* 0 without a suspended request */
    uint64_t since;   /* when the suspended request came */
} caladan_look;
CALADAN_SIZE(caladan_look, 96);
CALADAN_PLACE(caladan_look, busy, 0);
CALADAN_PLACE(caladan_look, room, 1);
CALADAN_PLACE(caladan_look, number, 8);
CALADAN_PLACE(caladan_look, second, 16);
CALADAN_PLACE(caladan_look, taken, 24);
CALADAN_PLACE(caladan_look, running, 32);
CALADAN_PLACE(caladan_look, queued, 40);
CALADAN_PLACE(caladan_look, oldest, 48);
CALADAN_PLACE(caladan_look, started, 56);
CALADAN_PLACE(caladan_look, misses, 64);
CALADAN_PLACE(caladan_look, stamp, 72);
CALADAN_PLACE(caladan_look, paused, 80);
CALADAN_PLACE(caladan_look, since, 88);

/* How many words a record has: as many as a look has from `taken` on. */
enum { CALADAN_WORDS = (sizeof(caladan_look) - offsetof(caladan_look, taken)) / sizeof(uint64_t) };

/* The words of a look, in order [tested]. */
static inline void caladan_look_words(const caladan_look *look, uint64_t words[CALADAN_WORDS]) {
    memcpy(words, (const char *)look + offsetof(caladan_look, taken), CALADAN_WORDS * sizeof(uint64_t));
}

/* Gives a look these words; the rest of it stays [tested]. */
static inline void caladan_look_set_words(caladan_look *look, const uint64_t words[CALADAN_WORDS]) {
    memcpy((char *)look + offsetof(caladan_look, taken), words, CALADAN_WORDS * sizeof(uint64_t));
}

/* The judgement of a look. No pass keeps a record that is ahead (it acknowledges more commands than were
 * sent) or foreign (it shows its thread on a core that the thread was not given). The judgements above
 * CALADAN_BUSY say why caladan_pass_each refused a look. Those from CALADAN_NO_PAIR on are for looks to which
 * caladan_pass answers UNFIT; no other call writes them. 'Last' is the last record of the thread that a pass
 * saw and did not refuse; before any, the zero record at place 0. */
enum {
    CALADAN_KEPT = 1,
    CALADAN_BUSY = 2,
    CALADAN_AHEAD = 3,
    CALADAN_FOREIGN = 4,
    CALADAN_NO_PAIR = 5,    /* a busy look whose versions are neither one odd version, given twice, nor an
                               even one and then a greater */
    CALADAN_MISSHAPEN = 6,  /* running above CALADAN_MOST_CORES, or misses above 2^56 */
    CALADAN_PLACE_FELL = 7, /* its place is lower than the last one's */
    CALADAN_CHANGED = 8,    /* it is at the last one's place, and another record */
    CALADAN_WORD_FELL = 9   /* its place is higher, and taken, misses or stamp is lower than the last one's */
};

/* The kinds of actions, and the causes of a revocation. */
enum {
    CALADAN_FREE = 1,
    CALADAN_UNBAN = 2,
    CALADAN_BAN = 3,
    CALADAN_REVOKE = 4, /* the core's thread is to be sent Park: caladan_revoked names it */
    CALADAN_CAP = 5,
    CALADAN_GRANT = 6 /* the thread is to be sent Run of the core */
};
enum { CALADAN_FOR_BAN = 1, CALADAN_FOR_BANDWIDTH = 2, CALADAN_FOR_TASK = 3 };

/* One action of a pass. Fields that its kind does not use are 0. */
typedef struct caladan_action {
    uint8_t kind;
    uint8_t core;
    uint8_t thread;     /* of a ban, the thread on the sibling; of a grant, who is granted the core */
    uint8_t core_class; /* of a grant: why this core, 1 to 3; a recorded one may say up to 5 */
    uint8_t cause;      /* of a revocation */
    uint8_t by;         /* of a revocation for a ban: the core that it was banned for */
    uint8_t task;       /* of a cap, or of a revocation for a task */
    uint8_t cap;        /* of a cap: the most cores that the task may book */
    uint64_t started;   /* of a ban: when the request was begun */
} caladan_action;
CALADAN_SIZE(caladan_action, 16);
CALADAN_PLACE(caladan_action, kind, 0);
CALADAN_PLACE(caladan_action, core, 1);
CALADAN_PLACE(caladan_action, thread, 2);
CALADAN_PLACE(caladan_action, core_class, 3);
CALADAN_PLACE(caladan_action, cause, 4);
CALADAN_PLACE(caladan_action, by, 5);
CALADAN_PLACE(caladan_action, task, 6);
CALADAN_PLACE(caladan_action, cap, 7);
CALADAN_PLACE(caladan_action, started, 8);

/* Who has a core. */
enum { CALADAN_CORE_FREE = 0, CALADAN_CORE_HELD = 1, CALADAN_CORE_LEAVING = 2 };
typedef struct caladan_holder_of_core {
    uint8_t state;
    uint8_t thread;   /* unless the core is free */
    uint8_t cause;    /* of a core that is being left: why */
    uint8_t cause_of; /* for a ban, the core that was banned for; for a task, the task */
} caladan_holder_of_core;
CALADAN_SIZE(caladan_holder_of_core, 4);
CALADAN_PLACE(caladan_holder_of_core, state, 0);
CALADAN_PLACE(caladan_holder_of_core, thread, 1);
CALADAN_PLACE(caladan_holder_of_core, cause, 2);
CALADAN_PLACE(caladan_holder_of_core, cause_of, 3);

/* What a task has, in cores. */
typedef struct caladan_counts {
    uint8_t held;   /* its threads hold them */
    uint8_t booked; /* its threads hold or leave them */
    uint8_t cap;    /* its last cap, else its limit */
} caladan_counts;
CALADAN_SIZE(caladan_counts, 3);
CALADAN_PLACE(caladan_counts, held, 0);
CALADAN_PLACE(caladan_counts, booked, 1);
CALADAN_PLACE(caladan_counts, cap, 2);

/* The version: 6 [proved]. */
uint32_t caladan_version(void);

/* Opens the task table that a text spells (docs/POLICY.md), in a closed handle: DONE, or the table's
 * first fault [opened], or NO_MEMORY. IS_OPEN of an open one [already]. Unless DONE the handle is as
 * before [refused]. Takes all the memory that passes need [not proved]. */
CALADAN_ANSWERS
uint8_t caladan_open(const uint8_t *table, size_t length, caladan *handle);

/* The same for passes by the policy with a number, CALADAN_POLICY_..: below, the policy and legal histories
 * are then those of that policy [opened]. NO_POLICY for a number that no policy has [no_policy], whatever the
 * table; IS_OPEN for an open handle, whatever the number [already]. Unless DONE the handle is as before
 * [refused]. */
CALADAN_ANSWERS
uint8_t caladan_open_policy(const uint8_t *table, size_t length, uint32_t policy, caladan *handle);

/* How many kernel threads the table has [count]; 0 of a closed handle [closed]. Nothing changes [same]. */
size_t caladan_threads(const caladan *handle);

/* The bandwidth figure above which a best-effort task loses a core [limit]; 0 of a closed handle
 * [closed]. Nothing changes [same]. */
uint64_t caladan_bandwidth_limit(const caladan *handle);

/* The next pass. looks: one for each thread, in thread order. judged: room for as many. actions: room
 * for CALADAN_MOST_ACTIONS. DONE: the actions are what the policy does on these looks after all passes
 * before, and that history is legal [passed]; judged has the judgement of each look [judged]. UNFIT: a look
 * does not fit [unfit]. WRONG_COUNT exactly if there is not one look for each thread [wrong_count], else
 * NO_ROOM exactly if one of the rooms is too small [no_room], else DONE or UNFIT [answers]; for a closed
 * handle IS_CLOSED [closed]; no other number, so no pass is ever out of memory [own]. now and bandwidth may
 * be any numbers [answers], now even below that of the last pass: a request that comes after now has waited
 * 0, and one that began after now has run for 0 [passed]. Unless DONE, nothing changes except that *made is 0
 * [refused]. */
CALADAN_ANSWERS
uint8_t caladan_pass(caladan *handle, uint64_t now, uint64_t bandwidth, const caladan_look *looks, size_t count,
                     uint8_t *judged, size_t judged_room, caladan_action *actions, size_t room, size_t *made);

/* The next pass, each look by itself: as caladan_pass, but it refuses a look that is unfit, ahead or foreign
 * [law only_faults_are_refused], and takes the busy look of versions 1 and 1 in its place (that of a page on
 * which the first record is being written: it fits whatever the thread has shown [law taken_input_fits]). It
 * is the policy's pass on the looks so changed [passed]. Never UNFIT [answers]. The judgement of each look
 * says whether it was taken as it is (KEPT, BUSY) or why it was refused [judged]. The other threads' looks
 * [law others_count_as_given] and all rooms [law rooms_count_as_given] count as given. A refused look leaves
 * no trace: the thread's last shown and kept records stay, so its next record, or its successor's, counts as
 * if there had been no refused one [law refused_leaves_no_trace]. A history of such passes is legal [passed].
 * Record the looks that were taken: caladan_taken makes them; the judgement to record for a refused one is
 * CALADAN_BUSY [tested]. Other answers are as those of caladan_pass [wrong_count, no_room, closed, own,
 * refused]. */
CALADAN_ANSWERS
uint8_t caladan_pass_each(caladan *handle, uint64_t now, uint64_t bandwidth, const caladan_look *looks, size_t count,
                          uint8_t *judged, size_t judged_room, caladan_action *actions, size_t room, size_t *made);

/* Which look caladan_pass would answer UNFIT to: UNFIT, and *thread is the first thread whose look does
 * not fit [first; law misfits_do_not_fit]; DONE, each fits [none]; no other answer [answers], but
 * WRONG_COUNT [wrong_count] or IS_CLOSED [closed]. Only UNFIT writes *thread [other]. Nothing changes
 * [same]. */
CALADAN_ANSWERS
uint8_t caladan_first_unfit(const caladan *handle, const caladan_look *looks, size_t count, size_t *thread);

/* What the table says of the machine: DONE [told], or IS_CLOSED [closed], which writes nothing [refused].
 * Nothing changes [same]. */
typedef struct caladan_machine {
    uint8_t cores;            /* 2 to CALADAN_MOST_CORES */
    uint8_t tasks;            /* 1 to 16 */
    uint8_t threads;          /* 1 to CALADAN_MOST_THREADS */
    uint64_t bandwidth_limit; /* the figure above which a best-effort task loses a core */
} caladan_machine;
CALADAN_SIZE(caladan_machine, 16);
CALADAN_PLACE(caladan_machine, cores, 0);
CALADAN_PLACE(caladan_machine, tasks, 1);
CALADAN_PLACE(caladan_machine, threads, 2);
CALADAN_PLACE(caladan_machine, bandwidth_limit, 8);
uint8_t caladan_table(const caladan *handle, caladan_machine *machine);

/* What the table says of a task: DONE [told] exactly of one that it has [there], else NO_SUCH [no_task];
 * IS_CLOSED [closed]. Unless DONE *row is as before [refused]. Nothing changes [same]. Its threads are
 * `limit` ones from the first on. */
enum { CALADAN_LATENCY_CRITICAL = 1, CALADAN_BEST_EFFORT = 2 };
typedef struct caladan_table_row {
    uint8_t kind;
    uint8_t guaranteed; /* cores that it may keep */
    uint8_t limit;      /* the most cores that it can have, and its number of threads */
    uint8_t first_thread;
    uint64_t delay;     /* above it the task is congested */
    uint64_t request;   /* a request that is older bans the sibling of its core */
} caladan_table_row;
CALADAN_SIZE(caladan_table_row, 24);
CALADAN_PLACE(caladan_table_row, kind, 0);
CALADAN_PLACE(caladan_table_row, guaranteed, 1);
CALADAN_PLACE(caladan_table_row, limit, 2);
CALADAN_PLACE(caladan_table_row, first_thread, 3);
CALADAN_PLACE(caladan_table_row, delay, 8);
CALADAN_PLACE(caladan_table_row, request, 16);
uint8_t caladan_table_task(const caladan *handle, size_t task, caladan_table_row *row);

/* A thread after the passes so far: DONE [told] exactly of one that the table has [there], else NO_SUCH
 * [no_thread]; IS_CLOSED [closed]. Unless DONE *state is as before [refused]. Nothing changes [same]. Its
 * ring has room for CALADAN_PLACES (caladan_pages.h: 4) less (sent - taken) commands: you need not read the
 * ring itself, nor believe it. */
typedef struct caladan_thread_state {
    uint8_t task;   /* whose thread it is */
    uint64_t sent;  /* commands that the passes sent to it (at most 2^64 - 1 is told) */
    uint64_t taken; /* those that its kept record acknowledges; never above sent [law kept_records_are_true] */
} caladan_thread_state;
CALADAN_SIZE(caladan_thread_state, 24);
CALADAN_PLACE(caladan_thread_state, task, 0);
CALADAN_PLACE(caladan_thread_state, sent, 8);
CALADAN_PLACE(caladan_thread_state, taken, 16);
uint8_t caladan_thread(const caladan *handle, size_t thread, caladan_thread_state *state);

/* The kept record of a thread after the passes so far, by which the next pass decides unless it keeps
 * another: as a look with these words, all else 0; before any record the words are 0 too [told]. DONE exactly
 * of a thread that the table has [there], else NO_SUCH [no_thread]; IS_CLOSED [closed]. Unless DONE *look is
 * as before [refused]. Nothing changes [same]. */
uint8_t caladan_kept(const caladan *handle, size_t thread, caladan_look *look);

/* The record that a thread's page must show once the thread is gone, as a look without room: it has taken all
 * that was sent, is on no core and has no request; misses and stamp are the last shown; its place is the one
 * after the last [told]. Publish it on the page, or give the look itself to the next pass. It fits and is
 * kept [told; law gone_is_kept], and that pass frees each core that the thread holds or leaves [told; law
 * gone_frees_its_cores]. Give its thread a look without room in each later pass too, until its page has a
 * successor: no pass sends anything to a thread without room, so none grants it a core [law
 * commands_go_where_is_room]; with room it may get a core again at once. LOST: no page can show it, because
 * the thread showed more commands taken than were sent (only caladan_pass lets it), or a number is at its end
 * [lost]. Of a thread of the table DONE or LOST [there], else NO_SUCH [no_thread]; IS_CLOSED [closed]. Unless
 * DONE *look is as before [refused]. Nothing changes [same]; the look is good only for the next pass. */
CALADAN_ANSWERS
uint8_t caladan_gone(const caladan *handle, size_t thread, caladan_look *look);

/* A core's number as a byte; 255, which no table has, for a number that does not fit. The calls whose names end
 * in `_of` take any number, so that 256 is not core 0. */
static inline uint8_t caladan_core(size_t core) { return core < UINT8_MAX ? (uint8_t)core : UINT8_MAX; }

/* Who has a core after the passes so far: DONE [told] exactly of one that the table has [there], else
 * NO_SUCH [no_core]; IS_CLOSED [closed]. Unless DONE *holder is as before [refused]. Nothing changes
 * [same]. The clauses are those of caladan_holder, the export that takes a byte; that caladan_holder_of hands
 * the number on is tested. */
CALADAN_OLD("call caladan_holder_of, which takes any number")
uint8_t caladan_holder(const caladan *handle, uint8_t core, caladan_holder_of_core *holder);
CALADAN_CALLS_OLD
static inline uint8_t caladan_holder_of(const caladan *handle, size_t core, caladan_holder_of_core *holder) {
    return caladan_holder(handle, caladan_core(core), holder);
}
CALADAN_CALLS_NEW

/* What a task has after the passes so far: DONE [told] exactly of one that the table has [there], else
 * NO_SUCH [no_task]; IS_CLOSED [closed]. Unless DONE *counts is as before [refused]. Nothing changes
 * [same]. */
uint8_t caladan_task(const caladan *handle, size_t task, caladan_counts *counts);

/* The thread to which you must send Park, for a core that the last pass revokes. DONE, IS_CLOSED, or NO_SUCH
 * if no thread is told to leave the core [tested]. */
static inline uint8_t caladan_revoked(const caladan *handle, size_t core, uint8_t *thread) {
    caladan_holder_of_core holder;
    uint8_t answer = caladan_holder_of(handle, core, &holder);
    if (answer != CALADAN_DONE) return answer;
    if (holder.state != CALADAN_CORE_LEAVING) return CALADAN_NO_SUCH;
    *thread = holder.thread;
    return CALADAN_DONE;
}

/* The look that caladan_pass_each took, from the given look and its judgement [tested]. */
static inline caladan_look caladan_taken(const caladan_look *look, uint8_t judged) {
    caladan_look taken = *look;
    if (judged > CALADAN_BUSY) {
        taken.busy = 1;
        taken.number = taken.second = 1;
    }
    return taken;
}

/* Lets go of what the handle keeps: DONE [closed], and the handle is closed then [after]; or IS_CLOSED
 * [already], and nothing changes [other]. */
uint8_t caladan_close(caladan *handle);

/* A table from rows instead of a text. Each row is as caladan_table_task tells it; first_thread is not read.
 * These functions are defined in caladan_rows.c, which you compile with your own files; where the library is
 * installed they are in libcaladan_rows.a, and in libcaladan_c.so. They write the text of the rows and open
 * that: nothing of it is proved, tools/c_library tests it. */
enum { CALADAN_ROWS_ROOM = 2048, CALADAN_TOO_MANY_ROWS = 17 };

/* Where a table of rows is refused. */
typedef struct caladan_wrong {
    size_t row;        /* the row, from 0; the number of rows if the fault is in none */
    const char *field; /* the field's name in caladan_table_row, or "cores", "bandwidth_limit" or "count"; null
                          if none is at fault, as without memory */
} caladan_wrong;

/* Writes the text of a table, and answers its length. It writes no more than CALADAN_TOO_MANY_ROWS rows,
 * which are too many. */
size_t caladan_rows_text(size_t cores, uint64_t bandwidth_limit, const caladan_table_row *rows, size_t count,
                         char text[CALADAN_ROWS_ROOM]);

/* Opens the table of these rows in a closed handle: what caladan_open answers to their text. Of the faults of
 * a table there remain OUT_OF_RANGE, BEST_EFFORT_GUARANTEE, GUARANTEES_EXCEED_CORES and TOO_MANY_THREADS; for
 * each *wrong is the place where the checks of docs/POLICY.md find it first, and no other answer writes it
 * [tested]. wrong may be null. */
CALADAN_ANSWERS
uint8_t caladan_open_rows(size_t cores, uint64_t bandwidth_limit, const caladan_table_row *rows,
                          size_t count, caladan *handle, caladan_wrong *wrong);

/* The same by the policy with a number: what caladan_open_policy answers to the text [tested]. */
CALADAN_ANSWERS
uint8_t caladan_open_rows_policy(size_t cores, uint64_t bandwidth_limit, const caladan_table_row *rows,
                                 size_t count, uint32_t policy, caladan *handle, caladan_wrong *wrong);

/* The first clock that is more than `ticks` after `came`, if it is after now and before `next`; else next. */
static inline uint64_t caladan_first_clock(uint64_t came, uint64_t ticks, uint64_t now, uint64_t next) {
    if (came >= UINT64_MAX - ticks) return next;
    return came + ticks + 1 > now && came + ticks + 1 < next ? came + ticks + 1 : next;
}

/* When to make the next pass, if no page changes until then. If a pass at now made no action, no pass makes
 * one at a clock from now on and below *clock, as long as the looks say the same, no ring gets or loses room,
 * and the bandwidth figure stays on its side of the limit. At *clock a request has waited, or run, longer
 * than its task's row says, which may change what a pass does; UINT64_MAX: at no clock. DONE or IS_CLOSED,
 * which writes nothing. It uses the kept records and the table alone, and is not proved; tools/c_library
 * tests it against the passes of each example of decide, and on made ones. */
CALADAN_ANSWERS
static inline uint8_t caladan_next_clock(const caladan *handle, uint64_t now, uint64_t *clock) {
    caladan_machine machine;
    uint64_t next = UINT64_MAX;
    uint8_t answer = caladan_table(handle, &machine);
    if (answer != CALADAN_DONE) return answer;
    for (size_t task = 0; task < machine.tasks; task++) {
        caladan_table_row row;
        caladan_look kept;
        if ((answer = caladan_table_task(handle, task, &row))) return answer;
        for (size_t k = row.first_thread; k < (size_t)row.first_thread + row.limit; k++) {
            if ((answer = caladan_kept(handle, k, &kept))) return answer;
            if (kept.queued) next = caladan_first_clock(kept.oldest, row.delay, now, next);
            if (kept.paused) next = caladan_first_clock(kept.since, row.delay, now, next);
            if (row.kind == CALADAN_LATENCY_CRITICAL && kept.running && kept.started)
                next = caladan_first_clock(kept.started, row.request, now, next);
        }
    }
    *clock = next;
    return CALADAN_DONE;
}

/* An audit of recorded passes, of this scheduler or of another that claims to follow the policy. Hand it one
 * pass after the other, from the first; it says at any time whether all of them are legal: each had looks
 * that may follow those before, and did exactly what the policy does on them, in that order. A pass costs
 * only its own work. */
typedef struct caladan_audit {
    bool open;
    void *at;
} caladan_audit;
CALADAN_SIZE(caladan_audit, 16);
CALADAN_PLACE(caladan_audit, open, 0);
CALADAN_PLACE(caladan_audit, at, 8);
#ifdef __cplusplus
#define CALADAN_AUDIT_CLOSED (caladan_audit{false, nullptr})
#else
#define CALADAN_AUDIT_CLOSED ((caladan_audit){false, NULL})
#endif

/* Opens an audit of the task table that a text spells, in a closed handle, as caladan_open does [opened,
 * already, refused]. */
CALADAN_ANSWERS
uint8_t caladan_audit_open(const uint8_t *table, size_t length, caladan_audit *audit);

/* The same by the policy with a number, as for caladan_open_policy: the audit judges by that policy [opened,
 * no_policy, already, refused]. */
CALADAN_ANSWERS
uint8_t caladan_audit_open_policy(const uint8_t *table, size_t length, uint32_t policy, caladan_audit *audit);

/* Opens the table of these rows, as caladan_open_rows and caladan_open_rows_policy do [tested]. */
CALADAN_ANSWERS
uint8_t caladan_audit_open_rows(size_t cores, uint64_t bandwidth_limit, const caladan_table_row *rows,
                                size_t count, caladan_audit *audit, caladan_wrong *wrong);
CALADAN_ANSWERS
uint8_t caladan_audit_open_rows_policy(size_t cores, uint64_t bandwidth_limit,
                                       const caladan_table_row *rows, size_t count, uint32_t policy,
                                       caladan_audit *audit, caladan_wrong *wrong);

/* The next recorded pass: its looks, the judgement of each (the same count), and its actions, as caladan_pass
 * takes and answers them. DONE if it was taken, legal or not [taken]; else IS_CLOSED [closed], WRONG_COUNT
 * (not one judgement for each look) [wrong_count], NO_ACTION [no_action], NO_JUDGEMENT (BUSY is the judgement
 * of a busy look, KEPT, AHEAD or FOREIGN of another) [no_judgement] or NO_MEMORY [answers], no other number
 * [own], and then nothing has changed [refused]. You may give more or fewer looks than the table has threads:
 * such a pass is taken [answers], and is not legal ([legal] of caladan_audit_verdict). A pass of
 * caladan_pass_each is recorded by the looks that it took (caladan_taken). */
CALADAN_ANSWERS
uint8_t caladan_audit_pass(caladan_audit *audit, uint64_t now, uint64_t bandwidth, const caladan_look *looks,
                           size_t count, const uint8_t *judged, size_t judged_count, const caladan_action *actions,
                           size_t made);

/* The audit's verdict on the passes so far: DONE, each is legal [legal]; ILLEGAL, and *pass is the first
 * that is not, counted from 0 (passes after it are not looked at) [illegal]; no other answer [answers], but
 * IS_CLOSED [closed]. Only ILLEGAL writes *pass [other]. Nothing changes [same]. */
CALADAN_ANSWERS
uint8_t caladan_audit_verdict(const caladan_audit *audit, uint64_t *pass);

/* Lets go of what the audit keeps: DONE [closed], and the handle is closed then [after]; or IS_CLOSED
 * [already], and nothing changes [other]. */
uint8_t caladan_audit_close(caladan_audit *audit);

/* A guard, for a policy of your own that chooses the actions. Hand it one pass after the other, with the
 * chosen actions; it lets a pass through if each action is permitted at its place. Every history of passes
 * that it let through keeps the laws that docs/PROMISES.md lists under cal_guard, whatever chose the actions.
 * (No core has two threads, no task more cores than its limit, no revocation goes below a guarantee, no
 * banned core is granted or stays held, and more.) It always lets a pass without actions through [law
 * doing_nothing_is_permitted], so a policy may always do nothing. A Ban of a core that is held is followed at
 * once by the revocation of that core, and a Cap below what the task holds by those that bring it down to it.
 * A guard is opened by no policy: it permits what each of them does [law each_policy_is_permitted]. */
typedef struct caladan_guard {
    bool open;
    void *at;
} caladan_guard;
CALADAN_SIZE(caladan_guard, 16);
CALADAN_PLACE(caladan_guard, open, 0);
CALADAN_PLACE(caladan_guard, at, 8);
#ifdef __cplusplus
#define CALADAN_GUARD_CLOSED (caladan_guard{false, nullptr})
#else
#define CALADAN_GUARD_CLOSED ((caladan_guard){false, NULL})
#endif

/* Why an action is not permitted: the first reason, in this order. */
enum {
    CALADAN_WHY_TOO_MANY = 1,       /* the pass has CALADAN_MOST_ACTIONS before it */
    CALADAN_WHY_DOES_NOT_FIT = 2,   /* it names no core, thread or task of the table, or does not fit the state:
                                       a free of a free core, a ban of a banned one or of its sibling, a
                                       revocation of one that is not held, a cap above the limit, a grant of
                                       a core that is not free or to a thread that has one, .. */
    CALADAN_WHY_NOT_LEFT = 3,       /* free: the core's thread was not shown to have left it */
    CALADAN_WHY_BANNED = 4,         /* grant: the core is banned */
    CALADAN_WHY_AT_LIMIT = 5,       /* grant: the task books as many cores as its limit */
    CALADAN_WHY_AT_CAP = 6,         /* grant: the best-effort task books as many cores as its cap */
    CALADAN_WHY_AT_GUARANTEE = 7,   /* revocation: the task holds no more than it is guaranteed */
    CALADAN_WHY_RING_FULL = 8,      /* grant, revocation: the thread's ring has no room */
    CALADAN_WHY_SECOND_COMMAND = 9, /* grant, revocation: the thread was sent a command in this pass */
    CALADAN_WHY_BANNED_HELD = 10,   /* a core that is banned and held is not the next to be revoked */
    CALADAN_WHY_OVER_CAP = 11       /* a best-effort task holds more than its cap, and does not lose a core next */
};

/* Where a pass was stopped, and why. */
typedef struct caladan_refused {
    size_t place;  /* the number of the first action that is not permitted, from 0; the number of all actions
                      if each is, but the pass may not end there (BANNED_HELD, OVER_CAP) */
    uint8_t why;   /* CALADAN_WHY_.. */
    uint8_t names; /* for BANNED_HELD the core, for OVER_CAP the task; else 0 */
} caladan_refused;
CALADAN_SIZE(caladan_refused, 16);
CALADAN_PLACE(caladan_refused, place, 0);
CALADAN_PLACE(caladan_refused, why, 8);
CALADAN_PLACE(caladan_refused, names, 9);

/* Opens a guard of the task table that a text spells, in a closed handle, as caladan_open does [opened,
 * already, refused]. Takes all the memory that passes of at most CALADAN_MOST_ACTIONS actions need [not
 * proved]. */
CALADAN_ANSWERS
uint8_t caladan_guard_open(const uint8_t *table, size_t length, caladan_guard *guard);

/* Opens the table of these rows, as caladan_open_rows does [tested]. */
CALADAN_ANSWERS
uint8_t caladan_guard_open_rows(size_t cores, uint64_t bandwidth_limit, const caladan_table_row *rows,
                                size_t count, caladan_guard *guard, caladan_wrong *wrong);

/* The next pass: one look for each thread, in thread order, room for as many judgements, and the chosen
 * actions, as caladan_pass answers them (unused fields are 0). DONE: each is permitted at its place and the
 * pass went through [through], and judged has the judgement of each look [judged]. NOT_PERMITTED: *refused
 * says which action and why [stopped]; no other answer writes it [told]. WRONG_COUNT exactly if there is not
 * one look for each thread [wrong_count], else NO_ROOM exactly if there is too little room for judgements
 * [no_room], else UNFIT (as caladan_pass answers it) [unfit], NO_ACTION [no_action], or NO_MEMORY [answers],
 * which can come only with more than CALADAN_MOST_ACTIONS actions [not proved]; for a closed handle IS_CLOSED
 * [closed]; no other number [own]. Unless DONE the guard is as before and nothing is judged [unchanged]: you
 * may hand in the same pass again with other actions. */
CALADAN_ANSWERS
uint8_t caladan_guard_pass(caladan_guard *guard, uint64_t now, uint64_t bandwidth, const caladan_look *looks,
                           size_t count, uint8_t *judged, size_t judged_room, const caladan_action *actions,
                           size_t made, caladan_refused *refused);

/* The next pass, each look by itself: as caladan_guard_pass, but it refuses, judges and takes looks as
 * caladan_pass_each does (by the same laws), and judges the actions on the looks that it took [through,
 * stopped]. Never UNFIT [answers]. DONE and NOT_PERMITTED both write the judgement of each look [judged], so
 * that a policy that chooses again knows which looks count as busy; no other answer writes any [unjudged].
 * Unless DONE the guard is as before [unchanged]. Other answers are as those of caladan_guard_pass
 * [wrong_count, no_room, no_action, told, closed, own]. */
CALADAN_ANSWERS
uint8_t caladan_guard_pass_each(caladan_guard *guard, uint64_t now, uint64_t bandwidth, const caladan_look *looks,
                                size_t count, uint8_t *judged, size_t judged_room, const caladan_action *actions,
                                size_t made, caladan_refused *refused);

/* Which look caladan_guard_pass would answer UNFIT to, as caladan_first_unfit says it [first, none,
 * answers, wrong_count, closed, other, same]. */
CALADAN_ANSWERS
uint8_t caladan_guard_first_unfit(const caladan_guard *guard, const caladan_look *looks, size_t count, size_t *thread);

/* The table, and a thread after the passes that went through, as from caladan_table, caladan_table_task and
 * caladan_thread [their clauses]. */
uint8_t caladan_guard_table(const caladan_guard *guard, caladan_machine *machine);
uint8_t caladan_guard_table_task(const caladan_guard *guard, size_t task, caladan_table_row *row);
uint8_t caladan_guard_thread(const caladan_guard *guard, size_t thread, caladan_thread_state *state);

/* The record that a thread's page must show once the thread is gone, as from caladan_gone [told, lost, there,
 * no_thread, closed, refused, same]. It fits and is kept [told; law permitted_gone_is_kept]. A guard frees
 * nothing itself: with this look it permits a next pass that frees the one core that the thread holds or
 * leaves (it has at most one [law threads_have_one_core]) and does nothing else [told; law
 * gone_may_be_freed]. While its looks have no room, no action that sends it a command is permitted ([stopped]
 * and [through] of caladan_guard_pass). */
CALADAN_ANSWERS
uint8_t caladan_guard_gone(const caladan_guard *guard, size_t thread, caladan_look *look);

/* Who has a core after the passes that went through, as from caladan_holder_of [told, there, no_core,
 * closed, refused, same]. */
CALADAN_OLD("call caladan_guard_holder_of, which takes any number")
uint8_t caladan_guard_holder(const caladan_guard *guard, uint8_t core, caladan_holder_of_core *holder);
CALADAN_CALLS_OLD
static inline uint8_t caladan_guard_holder_of(const caladan_guard *guard, size_t core,
                                              caladan_holder_of_core *holder) {
    return caladan_guard_holder(guard, caladan_core(core), holder);
}
CALADAN_CALLS_NEW

/* What a task has after them, as from caladan_task [told, there, no_task, closed, refused, same]. */
uint8_t caladan_guard_task(const caladan_guard *guard, size_t task, caladan_counts *counts);

/* Facts for a policy of your own. None of these calls changes anything [same]; each answers IS_CLOSED for a
 * closed handle [closed], and writes only if it answers DONE [refused].
 *
 * caladan_guard_judge: how caladan_guard_pass_each would judge each look now [judged], so that a policy knows
 * which looks count before it chooses. WRONG_COUNT exactly if there is not one look for each thread
 * [wrong_count], else NO_ROOM exactly if there is too little room [no_room], else DONE [answers]; no other
 * number [own].
 * caladan_guard_kept: the kept record of a thread, as from caladan_kept [told, there, no_thread]. In the next
 * pass it counts in place of a look that is not judged KEPT.
 * caladan_guard_ban_of: whether a core is banned, and for whom [told]. DONE exactly of a core that the table has
 * [there], else NO_SUCH [no_core].
 * caladan_guard_last_of: to which thread a core was granted last, and its task [told]. DONE exactly of a core
 * that the table has [there], else NO_SUCH [no_core]. */
typedef struct caladan_core_ban {
    uint8_t banned;   /* 1; else 0, and all is 0 */
    uint8_t thread;   /* on its sibling */
    uint64_t started; /* when that thread's request was begun */
} caladan_core_ban;
CALADAN_SIZE(caladan_core_ban, 16);
CALADAN_PLACE(caladan_core_ban, banned, 0);
CALADAN_PLACE(caladan_core_ban, thread, 1);
CALADAN_PLACE(caladan_core_ban, started, 8);
typedef struct caladan_core_last {
    uint8_t granted; /* 1; else 0, it was granted to nobody so far, and all is 0 */
    uint8_t thread;
    uint8_t task;
} caladan_core_last;
CALADAN_SIZE(caladan_core_last, 3);
CALADAN_PLACE(caladan_core_last, granted, 0);
CALADAN_PLACE(caladan_core_last, thread, 1);
CALADAN_PLACE(caladan_core_last, task, 2);
CALADAN_ANSWERS
uint8_t caladan_guard_judge(const caladan_guard *guard, const caladan_look *looks, size_t count, uint8_t *judged,
                            size_t judged_room);
uint8_t caladan_guard_kept(const caladan_guard *guard, size_t thread, caladan_look *look);
CALADAN_OLD("call caladan_guard_ban_of, which takes any number")
uint8_t caladan_guard_ban(const caladan_guard *guard, uint8_t core, caladan_core_ban *ban);
CALADAN_OLD("call caladan_guard_last_of, which takes any number")
uint8_t caladan_guard_last(const caladan_guard *guard, uint8_t core, caladan_core_last *last);
CALADAN_CALLS_OLD
static inline uint8_t caladan_guard_ban_of(const caladan_guard *guard, size_t core, caladan_core_ban *ban) {
    return caladan_guard_ban(guard, caladan_core(core), ban);
}
static inline uint8_t caladan_guard_last_of(const caladan_guard *guard, size_t core, caladan_core_last *last) {
    return caladan_guard_last(guard, caladan_core(core), last);
}
CALADAN_CALLS_NEW

/* The thread to which you must send Park, for a core that the last pass revokes: DONE, IS_CLOSED, or NO_SUCH
 * if no thread is told to leave the core [tested]. */
static inline uint8_t caladan_guard_revoked(const caladan_guard *guard, size_t core, uint8_t *thread) {
    caladan_holder_of_core holder;
    uint8_t answer = caladan_guard_holder_of(guard, core, &holder);
    if (answer != CALADAN_DONE) return answer;
    if (holder.state != CALADAN_CORE_LEAVING) return CALADAN_NO_SUCH;
    *thread = holder.thread;
    return CALADAN_DONE;
}

/* Lets go of what the guard keeps: DONE [closed], and the handle is closed then [after]; or IS_CLOSED
 * [already], and nothing changes [other]. */
uint8_t caladan_guard_close(caladan_guard *guard);

/* Texts for numbers. A number without a meaning has a text that says so. */
static inline const char *caladan_answer_text(uint8_t answer) {
    static const char *const texts[] = {
        "done",
        "the table is not TOML",
        "the table has an unknown key",
        "the table lacks a key",
        "a value has the wrong type",
        "a value is out of range",
        "a best-effort task has a guarantee",
        "the guarantees exceed the cores",
        "there are too many threads",
        "out of memory",
        "the handle is closed",
        "the handle is open",
        "no answer",
        "the count is wrong",
        "there is too little room",
        "a look does not fit",
        "the table has no such core, task or thread",
        "an action is none",
        "an action is not permitted",
        "a number is no judgement of its look",
        "a pass is not legal",
        "no page can show that the thread is gone",
        "no policy has this number",
    };
    return answer < sizeof texts / sizeof *texts ? texts[answer] : "no answer";
}

/* The name of a policy, as caladan_sim and caladand take it after --policy. */
static inline const char *caladan_policy_text(uint32_t policy) {
    static const char *const texts[] = {"caladan", "assured"};
    return policy < sizeof texts / sizeof *texts ? texts[policy] : "no policy";
}

static inline const char *caladan_judgement_text(uint8_t judged) {
    static const char *const texts[] = {
        "no judgement",
        "kept",
        "busy",
        "ahead: it acknowledges more commands than were sent",
        "foreign: it shows a core that the thread was not given",
        "its versions are no busy pair",
        "misshapen: running or misses is out of range",
        "its place fell",
        "another record at the same place",
        "taken, misses or stamp fell",
    };
    return judged < sizeof texts / sizeof *texts ? texts[judged] : "no judgement";
}

static inline const char *caladan_cause_text(uint8_t cause) {
    static const char *const texts[] = {"no cause", "for a ban", "for bandwidth", "for a task"};
    return cause < sizeof texts / sizeof *texts ? texts[cause] : "no cause";
}

static inline const char *caladan_why_text(uint8_t why) {
    static const char *const texts[] = {
        "no reason",
        "the pass has the most actions",
        "it does not fit the state",
        "the core was not left",
        "the core is banned",
        "the task is at its limit",
        "the task is at its cap",
        "the task is at its guarantee",
        "the ring is full",
        "a second command to the thread in this pass",
        "a banned core is held",
        "a task is over its cap",
    };
    return why < sizeof texts / sizeof *texts ? texts[why] : "no reason";
}

#ifdef __cplusplus
}
#endif
#endif
