/* The longest wait first, latency-critical tasks before best-effort ones: as longest_wait.py.
 *
 *     cc -O2 longest_wait.c -o longest_wait
 *     caladan_lab sweep --policy exec:./longest_wait */
#include <inttypes.h>
#include <stdbool.h>
#include <stdio.h>
#include <string.h>

enum { MOST = 128, LINE = 512, NONE = -1 };

/* A thread: its task, what its look shows, and what was sent to it. */
typedef struct thread {
    int task, core;
    bool is_critical, has_room, is_told, is_asked;
    uint64_t taken, running, wait, sent, run;
} thread;

typedef struct core {
    int holder;
    bool is_leaving;
    uint64_t granted;
} core;

static thread threads[MOST];
static core cores[MOST];
static int many_threads, many_cores;
static uint64_t grants;

/* Each key of the table has a line, and `kind` stands before `limit`. */
static void read_table(void) {
    char line[LINE], kind[3] = "";
    int task = NONE, limit;
    while (fgets(line, sizeof line, stdin) && strcmp(line, "---\n") != 0) {
        if (sscanf(line, "kind = \"%2[a-z]\"", kind) == 1) task++;
        sscanf(line, "cores = %d", &many_cores);
        if (sscanf(line, "limit = %d", &limit) != 1) continue;
        for (int i = 0; i < limit && many_threads < MOST; i++)
            threads[many_threads++] = (thread){.task = task, .core = NONE, .is_critical = strcmp(kind, "lc") == 0};
    }
    for (int c = 0; c < many_cores; c++) cores[c].holder = NONE;
}

static uint64_t since(uint64_t now, uint64_t shows, uint64_t clock) { return shows && now > clock ? now - clock : 0; }

static void read_look(uint64_t now, const char *line) {
    uint64_t k, room, number, taken, running, queued, oldest, started, misses, stamp, paused, came;
    const char *form = "whole,%" SCNu64 ",%" SCNu64 ",%" SCNu64 ",%" SCNu64 ",%" SCNu64 ",%" SCNu64 ",%" SCNu64
                       ",%" SCNu64 ",%" SCNu64 ",%" SCNu64 ",%" SCNu64 ",%" SCNu64;
    if (sscanf(line, form, &k, &room, &number, &taken, &running, &queued, &oldest, &started, &misses, &stamp, &paused,
               &came) != 12 || k >= MOST) return;
    uint64_t of_queued = since(now, queued, oldest), of_paused = since(now, paused, came);
    threads[k].has_room = room;
    threads[k].taken = taken;
    threads[k].running = running;
    threads[k].wait = of_queued > of_paused ? of_queued : of_paused;
    threads[k].is_told = threads[k].is_asked = false;
}

static void free_left(void) {
    for (int c = 0; c < many_cores; c++) {
        thread *it = cores[c].holder == NONE ? NULL : &threads[cores[c].holder];
        if (!it || it->taken < it->run || it->running) continue;
        printf("free,%d\n", c);
        cores[c] = (core){.holder = NONE, .granted = cores[c].granted};
        it->core = NONE;
    }
}

static bool is_before(const thread *it, const thread *other) {
    if (it->is_critical != other->is_critical) return it->is_critical;
    return it->wait > other->wait;
}

/* The thread that has waited longest of those that may get a core and were not asked yet. */
static int first_waiting(void) {
    int first = NONE;
    for (int k = 0; k < many_threads; k++) {
        const thread *it = &threads[k];
        if (it->core == NONE && it->has_room && it->wait && !it->is_asked &&
            (first == NONE || is_before(it, &threads[first]))) first = k;
    }
    return first;
}

static int first_free(void) {
    for (int c = 0; c < many_cores; c++)
        if (cores[c].holder == NONE) return c;
    return NONE;
}

static void grant(int c, int k) {
    printf("grant,%d,%d,3\n", c, k);
    threads[k].run = ++threads[k].sent;
    threads[k].core = c;
    threads[k].is_told = true;
    cores[c] = (core){.holder = k, .granted = ++grants};
}

/* Revokes the best-effort core that was granted longest ago, for a task. */
static void revoke_oldest(int task) {
    int oldest = NONE;
    for (int c = 0; c < many_cores; c++) {
        const thread *it = cores[c].holder == NONE ? NULL : &threads[cores[c].holder];
        if (it && !cores[c].is_leaving && !it->is_critical && it->has_room && !it->is_told &&
            (oldest == NONE || cores[c].granted < cores[oldest].granted)) oldest = c;
    }
    if (oldest == NONE) return;
    printf("revoke,%d,preempt,%d\n", oldest, task);
    cores[oldest].is_leaving = true;
    threads[cores[oldest].holder].sent++;
    threads[cores[oldest].holder].is_told = true;
}

static void decide(void) {
    int k;
    free_left();
    while ((k = first_waiting()) != NONE) {
        int c = first_free();
        threads[k].is_asked = true;
        if (c != NONE) grant(c, k);
        else if (threads[k].is_critical) revoke_oldest(threads[k].task);
    }
    printf("\n");
    fflush(stdout);
}

int main(void) {
    char line[LINE];
    uint64_t now = 0;
    read_table();
    while (fgets(line, sizeof line, stdin)) {
        sscanf(line, "pass,%" SCNu64, &now);
        read_look(now, line);
        if (strcmp(line, "\n") == 0) decide();
    }
    return 0;
}
