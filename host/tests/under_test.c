/* under_test.c: tasks that stand under, with pages, passes and moves of the test's own: what the
 * passes see, which moves follow from what they do, and who may sleep on his core. */
#define _GNU_SOURCE
#include <stdarg.h>
#include <stdio.h>
#include <stdlib.h>
#include <string.h>
#include <unistd.h>
#include "../caladand.h"

long __wrap_syscall(long number, ...);
long __wrap_syscall(long number, ...) { return (void)number, 0; }

static char said[256]; /* the moves that were planned */
static scheduler s;
static host_segment segment[2];
static uint64_t now = 1000000;
static int failed;

static void say(const char *word, size_t k, unsigned core) {
    snprintf(said + strlen(said), sizeof said - strlen(said), "%s%zu@%u ", word, k, core);
}
void plan_run(scheduler *it, size_t k, unsigned core) { (void)it, say("run", k, core); }
void plan_park(scheduler *it, size_t k, unsigned from, unsigned to) {
    (void)it;
    say(to ? "move" : "park", k, to ? to - 1 : from);
}

static void check(bool is, const char *why) {
    if (!is) printf("%s (moves: %s)\n", why, said), failed = 1;
}

/* ---- threads 0 and 1 are of a latency-critical task, 2 and 3 of one that stands under, 4 and 5
 * of a best-effort one ---- */

static void begin(void) {
    s = (scheduler){.machine = {.cores = 2, .tasks = 3, .threads = 6}, .options = {.under = 2}};
    for (unsigned t = 0; t < 3; t++) {
        s.task[t] = (host_task){.first = 2 * t, .limit = 2, .cap = 2, .request = 1000};
        s.task[t].is_critical = t == 0, s.task[t].is_under = t == 1;
    }
    s.task[0].guaranteed = 2;
    memset(segment, 0, sizeof segment);
    for (unsigned k = 0; k < 6; k++) {
        s.thread[k].task = k / 2;
        s.thread[k].seat.slot = &segment[k / 4].slot[k % 4];
        under_begin(&s, k);
    }
    said[0] = 0;
}

/* The next record of the page of a thread that stands under. */
static const caladan_look *look(size_t k, uint64_t taken, uint64_t running, uint64_t misses) {
    caladan_look page = s.thread[k].seat.under.page;
    page.number++, page.taken = taken, page.running = running, page.misses = misses;
    page.started = running ? 777 : 0;
    under_look(&s, k, &page, now += 100);
    return &s.look[k];
}
static bool shows(size_t k, uint64_t taken, uint64_t running) {
    return s.look[k].taken == taken && s.look[k].running == running;
}
/* As a pass does it; `moves` are what follows. */
static void expect(const char *moves, const char *why) {
    under_settle(&s, now);
    check(!strcmp(said, moves), why);
    said[0] = 0;
}
static void give(size_t k, unsigned core) {
    s.on_core[core] = (unsigned)k + 1;
    s.thread[k].sent++;
    if (stands_under(&s, k)) under_grant(&s, k, core);
    else s.thread[k].core = core + 1;
}
static void take(size_t k, uint8_t cause) {
    s.thread[k].sent++;
    under_revoke(&s, k, cause);
}
static void let_go(size_t k) {
    s.on_core[s.thread[k].core - 1] = 0;
    if (stands_under(&s, k)) under_free(&s, k);
    else s.thread[k].core = 0;
}

/* Thread 2 works on core 0; then thread 0 has that, and thread 2 stands under it. */
static void begin_under(void) {
    begin();
    give(2, 0);
    expect("run2@0 ", "a thread that sleeps is not sent its Run");
    look(2, 1, 1, 50);
    take(2, CALADAN_FOR_TASK);
    look(2, 1, 1, 60);
    let_go(2);
    give(0, 0);
    expect("", "who gives way is moved");
}

static void check_way(void) {
    begin();
    give(2, 0);
    expect("run2@0 ", "a thread that sleeps is not sent its Run");
    check(look(2, 0, 0, 0) && shows(2, 0, 0), "a Run counts as taken before it is");
    check(look(2, 1, 1, 50) && shows(2, 1, 1), "a Run that is taken does not count");
    take(2, CALADAN_FOR_TASK);
    expect("", "a core that is revoked for a task is asked for");
    under_look(&s, 2, NULL, now += 100);
    check(shows(2, 2, 0), "its thread is not seen to have left it at once");
    check(s.look[2].paused && s.look[2].since == 777, "what it has begun does not wait");
    let_go(2);
    give(0, 0);
    expect("", "who gives way is moved");
    let_go(0);
    give(2, 0);
    expect("", "who has his core back is moved");
    under_look(&s, 2, NULL, now += 100);
    check(shows(2, 3, 1) && s.look[2].started == 777, "he is not seen on it at once");
}

static void check_empty(void) {
    begin_under();
    let_go(0);
    s.is_banned[0] = true;
    expect("park2@0 ", "one stays on a banned core");
    expect("", "he is told again");
    check(look(2, 2, 0, 60) && s.thread[2].seat.under.stands == 0, "he is not seen to have left");
    begin_under();
    under_cap(&s, 1, 1);
    expect("park2@0 ", "one stays where his task's cap is cut");
    begin_under();
    s.task[1].cap = 1;
    expect("", "one is taken off under another, where the cap was cut before");
    let_go(0);
    expect("park2@0 ", "one stays on a free core that his task may not have");
    begin();
    give(2, 0);
    expect("run2@0 ", "a thread that sleeps is not sent its Run");
    look(2, 1, 1, 0);
    take(2, CALADAN_FOR_BAN);
    expect("park2@0 ", "one is not told to leave for a ban");
    check(look(2, 1, 1, 0) && shows(2, 1, 1), "he counts as gone before he is");
    check(look(2, 2, 0, 0) && shows(2, 2, 0), "he does not count as gone");
}

static void check_others(void) {
    begin_under();
    let_go(0);
    give(4, 0);
    check(!is_clear(&s, 0, 4), "another best-effort thread comes before he has left");
    expect("park2@0 ", "one stays where another best-effort thread is granted the core");
    look(2, 2, 0, 60);
    check(is_clear(&s, 0, 4), "the other one waits when he has left");
    begin_under();
    s.thread[3].seat.is_refused = true; /* so that no other kernel thread of the task goes */
    give(2, 1);
    expect("move2@1 ", "one that cannot answer is not moved");
}

static void check_swap(void) {
    begin_under();
    look(3, 0, 0, 5);
    check(s.look[3].misses == 5 && s.look[2].misses == 60, "other misses");
    let_go(0);
    give(3, 0);
    expect("", "who stands there is not taken for who is granted the core");
    check(s.thread[3].seat.slot == &segment[0].slot[2], "another kernel thread");
    check(look(3, 1, 1, 70)->misses == 15 && shows(3, 1, 1), "misses do not go on");
    check(look(2, 0, 0, 9)->misses == 64, "nor those of the other one");
}

static void check_liars(void) {
    static const caladan_look lies[] = {
        /* of what was not sent */
        {.number = 9, .taken = 2, .running = 1, .misses = 60},
        {.number = 9, .taken = 1, .running = 2, .misses = 60},                  /* another core */
        {.number = 9, .taken = 1, .running = 1, .misses = 59},                  /* fewer misses */
        {.number = 9, .taken = 0, .running = 1, .misses = 60},                  /* fewer commands */
        {.number = 0, .taken = 1, .running = 1, .misses = 60},                  /* an older place */
        /* too many misses */
        {.number = 9, .taken = 1, .running = 1, .misses = UINT64_MAX},
    };
    for (size_t i = 0; i < sizeof lies / sizeof *lies; i++) {
        begin_under();
        caladan_look before = s.thread[2].shown;
        under_look(&s, 2, &lies[i], now += 100);
        check(s.thread[2].seat.is_refused, "a lie is believed");
        check(!memcmp(&before, &s.thread[2].shown, sizeof before), "a lie is shown");
    }
}

static bool may_doze(size_t k) { return atomic_load(&s.thread[k].seat.slot->may_doze); }
static void check_doze(void) {
    begin();
    give(0, 0);
    expect("", "a latency-critical thread is moved here");
    check(!may_doze(0), "one sleeps on a core where nobody else works");
    begin_under();
    check(may_doze(0), "one does not sleep on its core, and somebody stands under it");
    give(1, 1);
    s.shown[1].shown.started = now - 500;
    expect("", "another move");
    check(may_doze(0), "one leaves for a request that is not too long");
    s.shown[1].shown.started = now - 1500;
    expect("", "another move");
    check(!may_doze(0), "one keeps a core that is to be banned");
    s.shown[1].shown.started = 0;
    s.task[0].guaranteed = 1;
    expect("", "another move");
    check(!may_doze(0), "one keeps a core above its task's guarantee");
    s.task[0].guaranteed = 2;
    s.task[2].is_critical = true;
    s.shown[4].shown.queued = 1;
    expect("", "another move");
    check(!may_doze(0), "one keeps a core that another task waits for");
}

int main(void) {
    check_way();
    check_empty();
    check_others();
    check_swap();
    check_liars();
    check_doze();
    return failed;
}
