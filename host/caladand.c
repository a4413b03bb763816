/* caladand: the scheduler process. It looks at the pages of all kernel threads, lets the proved library decide,
 * and moves the cores of other processes: a Grant pins the thread to the core's processor and wakes it, a
 * Revoke interrupts it. host/README.md tells the rest. */
#define _GNU_SOURCE
#include "caladand.h"
#include <errno.h>
#include <stdlib.h>
#include <string.h>

#define HOUSE 1000000u    /* how often processes are looked after, in nanoseconds */
#define SHORT 100000u     /* what is not slept, in nanoseconds */
#define SPINS (2 * SHORT) /* a rest that is not slept at all */
#define FLUSH 250000000u  /* how often what was recorded is handed to who writes it */

void fail(const char *what, const char *why) {
    complain("%s: %s", what, why);
    end_lines();
    exit(2);
}

/* Once: ends as it should. Twice: waits for nobody. Three times: at once. What comes within a tenth of a second is one:
 * timeout and shells tell a process and then its group. */
static atomic_uint stopped;
static void on_stop(int signal) {
    static _Atomic uint64_t last;
    uint64_t now = host_clock();
    (void)signal;
    if (atomic_load(&stopped) && now - atomic_load(&last) < 100000000u) return;
    atomic_store(&last, now);
    if (atomic_fetch_add(&stopped, 1) >= 2) _exit(2);
}
unsigned stop_signals(void) { return atomic_load(&stopped); }

static void take_signals(void) {
    struct sigaction action = {.sa_handler = on_stop}, ignored = {.sa_handler = SIG_IGN};
    sigaction(SIGINT, &action, NULL);
    sigaction(SIGTERM, &action, NULL);
    sigaction(SIGHUP, &action, NULL);
    sigaction(SIGXFSZ, &ignored, NULL); /* a limit on files is told by write */
    sigaction(SIGPIPE, &ignored, NULL);
}

uint8_t open_table(scheduler *s) {
    return caladan_open_policy((const uint8_t *)s->table, strlen(s->table), s->options.policy, &s->handle);
}

/* Only a best-effort thread gives way to all others. */
static void check_under(scheduler *s) {
    char word[32];
    for (unsigned t = 0; t < HOST_TASKS; t++) {
        caladan_table_row row;
        if ((s->options.under >> t & 1) == 0) continue;
        snprintf(word, sizeof word, "-u: task %u", t);
        if (t >= s->machine.tasks) fail(word, "the table has no such task");
        caladan_table_task(&s->handle, t, &row);
        if (row.kind == CALADAN_BEST_EFFORT) continue;
        fail(word, "it is not best-effort, and only such a task can stand under");
    }
}

/* The kernel keeps some time of each second for others, where one of these classes would take
 * all of it. */
static void warn_of_class(const scheduler *s) {
    int class = sched_getscheduler(0);
    if ((class != SCHED_FIFO && class != SCHED_RR) || s->options.gap > SPINS) return;
    complain("a scheduler that spins in SCHED_FIFO or SCHED_RR is put aside for 50 ms of each "
             "second: use the normal class");
}

/* Only now, by the clerk: bad input is one line, and nobody waits for who reads them. */
static void warn_of_place(const scheduler *s) {
    if (s->options.own < 0 && CPU_COUNT(&s->others) == 0)
        complain("no processor is left for the scheduler: it runs on those that it manages");
}

/* The table as it is recorded: comments say which policy made its passes, where that is not Caladan's, and
 * what the record means where tasks stand under. */
static char *recorded_table(const scheduler *s) {
    static const char meaning[] =
        "# No two threads of the normal class have one processor, and none of best effort has\n"
        "# one that is banned. A thread that stands under may be on one that a latency-critical\n"
        "# thread has; its rows are the scheduler's, and say where it is to be.\n";
    size_t room = strlen(s->table) + sizeof meaning + 64 + HOST_TASKS * 32, at = 0;
    char *text = malloc(room);
    if (text == NULL) fail("-r", strerror(ENOMEM));
    if (s->options.policy != CALADAN_POLICY_CALADAN)
        at += (size_t)sprintf(text, "# Audit it with --policy %s, rule %d.\n",
                              caladan_policy_text(s->options.policy), CALADAN_ASSURED_RULE);
    for (unsigned t = 0; t < s->machine.tasks; t++)
        if (s->options.under >> t & 1)
            at += (size_t)sprintf(text + at, "# Task %u stands under.\n", t);
    snprintf(text + at, room - at, "%s%s", s->options.under ? meaning : "", s->table);
    return text;
}

static void open_record(scheduler *s) {
    const options *o = &s->options;
    char *table = recorded_table(s);
    s->record = s->opened = record_open(o->folder, o->name, table, o->bytes, s->machine.threads, &s->others);
    free(table);
    printf("record: %s\ntick 0: %llu ns of CLOCK_MONOTONIC\n", record_path(s->record), (unsigned long long)s->epoch);
    fflush(stdout);
}

static void begin(scheduler *s) {
    s->epoch = host_clock();
    s->table = text_of(s->options.table);
    uint8_t answer = open_table(s);
    if (answer != CALADAN_DONE) fail(s->options.table, caladan_answer_text(answer));
    caladan_table(&s->handle, &s->machine);
    check_under(s);
    take_signals();
    take_processors(s);
    take_folder(s);
    if (s->options.folder) open_record(s);
    if (!begin_lines(&s->others) || !begin_metrics(s) || !begin_strays(s) || !begin_pairs(s))
        fail("a clerk", "no thread can be begun");
    if (!begin_moves(s)) fail("-m", "no thread can be begun");
    warn_of_class(s);
    warn_of_place(s);
    open_tasks(s); /* now that passes alone are to come: who finds a socket waits for no disk */
    tell_ready();
}

/* ---- the run ---- */

/* What cannot be written any more is no record: the run goes on without. */
static void look_after_record(scheduler *s) {
    if (s->record == NULL) return;
    if (record_keeps_up(s->record)) fflush(record_file(s->record)); /* into memory */
    else s->record = NULL;
}

static void keep_house(scheduler *s, uint64_t now) {
    tend_each(s);
    kill_the_deaf(s);
    look_after_pin(s);
    look_after_own_place(s);
    look_after_mover(s);
    if (now - s->metrics_at < FLUSH) return;
    s->metrics_at = now;
    strays_say(s);
    look_after_clerks(s);
    look_after_record(s);
    hand_metrics(s);
}

static bool is_over(const scheduler *s) {
    return stop_signals() || (s->options.seconds && now_of(s) >= s->options.seconds * 1000000000u);
}

/* Long rests are slept, but for their end. */
static void rest_until(const scheduler *s, uint64_t due) {
    for (uint64_t now; (now = now_of(s)) < due;) {
        struct timespec most = {0, (long)(due - now - SHORT)}; /* a gap is a second at most */
        if (due - now < SPINS) host_pause();
        else nanosleep(&most, NULL);
    }
}

static void run_piece(scheduler *s) {
    uint64_t house = 0;
    begin_piece(s);
    while (!is_over(s) && !is_piece_full(s)) {
        uint64_t from = now_of(s);
        make_pass(s);
        if (from - house > HOUSE) keep_house(s, from), house = from;
        if (!s->is_due) rest_until(s, from + s->options.gap);
    }
    end_piece(s);
}

int main(int count, char **words) {
    static scheduler s;
    s.options = read_options(count, words);
    begin(&s);
    while (!is_over(&s)) run_piece(&s);
    wait_for_moves(&s);
    close_tasks(&s);
    bool is_kept = s.opened == NULL || record_close(s.opened);
    end_metrics(&s);
    leave_places(); /* whoever does not read the summary keeps neither a name nor a processor from others */
    strays_say(&s);
    print_summary(&s);
    end_lines();
    if (fflush(stdout)) return 2;
    return is_kept ? 0 : 3;
}
