/* counters.c: what a run came to: a summary at its end, and counters that can be read while it runs. A clerk writes
 * these as text, which any reader knows. In place, in a file that is mapped, a store would wait as well where the file
 * is on a disk: the kernel lets nobody write to a page that it is about to write out. */
#define _GNU_SOURCE
#include <errno.h>
#include <inttypes.h>
#include <semaphore.h>
#include <stdlib.h>
#include "caladand.h"

static const char *const kinds[] = {"", "free", "unban", "ban", "revoke", "cap", "grant"};
static const char *const judgements[] = {"",        "kept",      "busy",       "ahead",   "foreign",
                                         "no pair", "misshapen", "place fell", "changed", "word fell"};

void print_summary(scheduler *s) {
    const counts *c = &s->counts;
    printf("passes %" PRIu64 " in %" PRIu64 " pieces, one each %" PRIu64 " ns, left out of the record %" PRIu64
           "\nlooks:", c->passes, c->pieces, now_of(s) / (c->passes + !c->passes), c->left_out);
    for (int j = CALADAN_KEPT; j <= CALADAN_WORD_FELL; j++)
        printf("%s %s %" PRIu64, j > 1 ? "," : "", judgements[j], c->judged[j]);
    printf(", place too far %" PRIu64 ", misses too many %" PRIu64 "\nactions:", c->jumped, c->outran);
    for (int k = CALADAN_FREE; k <= CALADAN_GRANT; k++)
        printf("%s %s %" PRIu64, k > 1 ? "," : "", kinds[k], c->actions[k]);
    printf("\nprocesses: attached %" PRIu64 ", ended %" PRIu64 ", left %" PRIu64 ", refused %" PRIu64
           ", killed %" PRIu64 ", written off %" PRIu64 ", dumped core %" PRIu64 "\n",
           c->attached, c->ended, c->given_up, c->refused, c->killed, c->written_off, c->dumped);
    printf("longest gap between passes %" PRIu64 " ns, lines lost %" PRIu64 ", moved itself back %" PRIu64 "\n",
           c->longest_gap, lost_lines(), c->displaced);
    printf("threads: not the process's own %" PRIu64 ", not pinned %" PRIu64
           ", pinned slowly %" PRIu64 ", strayed %" PRIu64 ", worn out %" PRIu64 ", put back %" PRIu64 "\n",
           c->foreign_tids, c->unpinned, c->slow_pins, c->strayed, c->worn, c->put_back);
    printf("standing under: gave way %" PRIu64 ", had their core back %" PRIu64
           ", taken off %" PRIu64 "\n", c->given_way, c->notes, c->taken_off);
    latency_print(&s->latency, stdout);
}

/* ---- while it runs ---- */

static void put(FILE *out, const char *name, const char *labels, uint64_t value) {
    fprintf(out, "caladan_%s%s %" PRIu64 "\n", name, labels, value);
}

static void put_each(FILE *out, const char *name, const char *label, const char *const *words, const uint64_t *values,
                     int first, int last) {
    char labels[64];
    fprintf(out, "# TYPE caladan_%s counter\n", name);
    for (int i = first; i <= last; i++) {
        snprintf(labels, sizeof labels, "{%s=\"%s\"}", label, words[i]);
        put(out, name, labels, values[i]);
    }
}

static void put_one(FILE *out, const char *name, const char *type, uint64_t value) {
    fprintf(out, "# TYPE caladan_%s %s\n", name, type);
    put(out, name, "", value);
}

static void put_counts(FILE *out, const counts *c) {
    const struct {
        const char *name;
        uint64_t value;
    } each[] = {{"passes_total", c->passes},
                {"passes_left_out_total", c->left_out},
                {"pieces_total", c->pieces},
                {"attached_total", c->attached},
                {"ended_total", c->ended},
                {"left_total", c->given_up},
                {"refused_total", c->refused},
                {"killed_total", c->killed},
                {"written_off_total", c->written_off},
                {"dumped_core_total", c->dumped},
                {"places_too_far_total", c->jumped},
                {"misses_too_many_total", c->outran},
                {"foreign_threads_total", c->foreign_tids},
                {"unpinned_total", c->unpinned},
                {"strayed_total", c->strayed},
                {"slow_pins_total", c->slow_pins},
                {"put_back_total", c->put_back},
                {"moved_itself_back_total", c->displaced},
                {"gave_way_total", c->given_way},
                {"had_back_total", c->notes},
                {"taken_off_total", c->taken_off}};
    for (size_t i = 0; i < sizeof each / sizeof *each; i++) put_one(out, each[i].name, "counter", each[i].value);
}

static void put_shares(FILE *out, const char *name, const char *step, const histogram *h) {
    static const char *const shares[] = {"0.5", "0.9", "0.99", "0.999"};
    char labels[64], count[64];
    for (int i = 0; i < 4; i++) {
        snprintf(labels, sizeof labels, "{step=\"%s\",quantile=\"%s\"}", step, shares[i]);
        put(out, name, labels, latency_quantile(h, atof(shares[i])));
    }
    snprintf(count, sizeof count, "%s_count", name);
    snprintf(labels, sizeof labels, "{step=\"%s\"}", step);
    put(out, count, labels, h->count);
}

/* What a clerk writes is a copy, which the passes do not touch. */
typedef struct tally {
    counts counts;
    latency latency;
    unsigned tasks;
    bool is_attached[HOST_TASKS], is_recorded;
    uint64_t lost_lines;
} tally;

struct desk {
    int folder;
    char text[1 << 15]; /* some times what all counters take */
    FILE *out;          /* to it */
    tally tally;
    sem_t bell;
    atomic_bool is_busy; /* the tally is the clerk's */
    atomic_bool is_over; /* nothing is written any more */
    atomic_bool is_gone; /* nobody finds the scheduler any more */
    bool is_told;
};

static void put_each_task(FILE *out, const tally *t) {
    char labels[32];
    fputs("# TYPE caladan_attached gauge\n", out);
    for (unsigned i = 0; i < t->tasks; i++) {
        snprintf(labels, sizeof labels, "{task=\"%u\"}", i);
        put(out, "attached", labels, t->is_attached[i]);
    }
}

static void put_all(FILE *out, const tally *t) {
    put_counts(out, &t->counts);
    put_each(out, "looks_total", "judged", judgements, t->counts.judged, CALADAN_KEPT, CALADAN_WORD_FELL);
    put_each(out, "actions_total", "kind", kinds, t->counts.actions, CALADAN_FREE, CALADAN_GRANT);
    put_one(out, "lost_lines_total", "counter", t->lost_lines);
    put_one(out, "longest_gap_nanoseconds", "gauge", t->counts.longest_gap);
    put_each_task(out, t);
    put_one(out, "recording", "gauge", t->is_recorded);
    fputs("# TYPE caladan_latency_nanoseconds summary\n", out);
    put_shares(out, "latency_nanoseconds", "leave", &t->latency.leaving);
    put_shares(out, "latency_nanoseconds", "free", &t->latency.freeing);
    put_shares(out, "latency_nanoseconds", "start", &t->latency.starting);
    put_shares(out, "latency_nanoseconds", "move", &t->latency.moving);
    put_shares(out, "latency_nanoseconds", "wait", &t->latency.waiting);
    fputs("# TYPE caladan_passes_taken summary\n", out);
    put_shares(out, "passes_taken", "free", &t->latency.freeing_passes);
    fputs("# TYPE caladan_most_nanoseconds gauge\n", out);
    put(out, "most_nanoseconds", "{step=\"free\"}", t->latency.freeing.most);
    fputs("# TYPE caladan_most_passes gauge\n", out);
    put(out, "most_passes", "{step=\"free\"}", t->latency.freeing_passes.most);
}

/* All of the text goes to the file at once, from memory: no stream waits for the disk, at which the end of the process
 * would wait too. */
static bool write_text(int folder, const char *text, size_t length) {
    int file = openat(folder, "metrics.new", O_WRONLY | O_CREAT | O_TRUNC | O_NOFOLLOW | O_CLOEXEC, 0600);
    if (file < 0) return false;
    bool is_whole = write(file, text, length) == (ssize_t)length;
    return close(file) == 0 && is_whole;
}

/* A reader finds a whole file, this one or the one before. One that cannot be written is not: nothing depends on it.
 * Nor is one that came too late: the folder is being emptied. */
static void write_metrics(desk *it) {
    rewind(it->out);
    put_all(it->out, &it->tally);
    if (fflush(it->out) || ferror(it->out)) return clearerr(it->out);
    if (write_text(it->folder, it->text, (size_t)ftell(it->out)) && !atomic_load(&it->is_over))
        renameat(it->folder, "metrics.new", it->folder, "metrics");
}

static void write_each(void *with) {
    desk *it = with;
    while (!atomic_load(&it->is_over)) {
        while (sem_wait(&it->bell)) {}
        write_metrics(it);
        if (!atomic_load(&it->is_over)) atomic_store(&it->is_gone, !can_be_found(it->tally.tasks));
        atomic_store(&it->is_busy, false);
    }
}

bool begin_metrics(scheduler *s) {
    desk *it = s->desk = calloc(1, sizeof *it);
    if (it == NULL) return false;
    it->folder = s->folder;
    it->out = fmemopen(it->text, sizeof it->text, "w");
    sem_init(&it->bell, 0, 0);
    return it->out && start_clerk(write_each, it, &s->others);
}

void hand_metrics(const scheduler *s) {
    desk *it = s->desk;
    tally *t = &it->tally;
    if (atomic_load(&it->is_busy)) return;
    bool is_gone = atomic_load(&it->is_gone);
    if (is_gone && !it->is_told) complain("its folder, or a socket there, was removed: nobody can attach any more");
    it->is_told = is_gone;
    t->counts = s->counts, t->latency = s->latency;
    t->tasks = s->machine.tasks, t->is_recorded = s->record != NULL, t->lost_lines = lost_lines();
    for (unsigned i = 0; i < t->tasks; i++) t->is_attached[i] = s->task[i].is_attached;
    atomic_store(&it->is_busy, true);
    sem_post(&it->bell);
}

static bool is_idle(const void *of) { return !atomic_load(&((const desk *)of)->is_busy); }
void end_metrics(const scheduler *s) {
    atomic_store(&s->desk->is_over, true);
    wait_for_clerk(is_idle, s->desk, CLERKS_LAST);
}
