/* Passes whose actions somebody else chose: what a guard lets through, which action it stops at and why,
 * that nothing has changed after a refusal, and that whatever caladan_pass does goes through. Exits with 1
 * at the first that is not as caladan.h says. */
#include "caladan.h"
#include <stdio.h>
#include <string.h>

/* Four cores (0 and 1 are siblings, 2 and 3), two threads of a task that is guaranteed one core, and two
 * of a best-effort one. */
static const char TABLE[] = "cores = 4\nbandwidth_limit = 1000\n\n"
                            "[[task]]\nkind = \"lc\"\nguaranteed = 1\nlimit = 2\ndelay = 10\nrequest = 50\n\n"
                            "[[task]]\nkind = \"be\"\nguaranteed = 0\nlimit = 2\ndelay = 0\nrequest = 0\n";
enum { THREADS = 4 };

#define WANT(got, wanted) do { unsigned long long g = (unsigned long long)(got), w = (wanted); \
    if (g != w) { printf("line %d: %s is %llu, not %llu\n", __LINE__, #got, g, w); return 1; } } while (0)

static caladan_guard guard; /* closed: CALADAN_GUARD_CLOSED is all zeros */
static caladan_look looks[THREADS];
static uint8_t judged[THREADS];
static caladan_refused refused;

static uint8_t open_guard(void) { return caladan_guard_open((const uint8_t *)TABLE, strlen(TABLE), &guard); }

static caladan_action grant(uint8_t core, uint8_t thread) {
    return (caladan_action){.kind = CALADAN_GRANT, .core = core, .thread = thread, .core_class = 3};
}
static caladan_action ban(uint8_t core) { return (caladan_action){.kind = CALADAN_BAN, .core = core}; }
static caladan_action revoke(uint8_t core) {
    return (caladan_action){.kind = CALADAN_REVOKE, .core = core, .cause = CALADAN_FOR_BANDWIDTH};
}
static caladan_action cap(uint8_t of) { return (caladan_action){.kind = CALADAN_CAP, .task = 1, .cap = of}; }
static caladan_action freed(uint8_t core) { return (caladan_action){.kind = CALADAN_FREE, .core = core}; }

static uint8_t hand(const caladan_action *actions, size_t made) {
    refused = (caladan_refused){77, 77, 77};
    memset(judged, 77, sizeof judged);
    return caladan_guard_pass(&guard, 10, 0, looks, THREADS, judged, THREADS, actions, made, &refused);
}

/* The pass is stopped at this place, for this reason. */
#define STOPPED(at, reason, named, ...) do { \
    const caladan_action chosen[] = {__VA_ARGS__}; \
    WANT(hand(chosen, sizeof chosen / sizeof *chosen), CALADAN_NOT_PERMITTED); \
    WANT(refused.place, at); WANT(refused.why, reason); WANT(refused.names, named); WANT(judged[0], 77); } while (0)

static void rest(uint8_t room) {
    for (int k = 0; k < THREADS; k++) looks[k] = (caladan_look){.room = room};
}

static int closed(void) {
    caladan_holder_of_core holder = {9, 9, 9, 9};
    caladan_counts counts = {9, 9, 9};
    caladan_core_ban ban = {9, 9, 9};
    caladan_core_last last = {9, 9, 9};
    WANT(caladan_guard_judge(&guard, looks, THREADS, judged, THREADS), CALADAN_IS_CLOSED);
    WANT(caladan_guard_kept(&guard, 0, &looks[0]), CALADAN_IS_CLOSED);
    WANT(caladan_guard_ban_of(&guard, 0, &ban), CALADAN_IS_CLOSED);
    WANT(caladan_guard_last_of(&guard, 0, &last), CALADAN_IS_CLOSED);
    WANT(ban.banned + last.granted, 18);
    WANT(hand(NULL, 0), CALADAN_IS_CLOSED);
    WANT(refused.why, 77);
    WANT(caladan_guard_holder_of(&guard, 0, &holder), CALADAN_IS_CLOSED);
    WANT(caladan_guard_task(&guard, 0, &counts), CALADAN_IS_CLOSED);
    WANT(caladan_guard_close(&guard), CALADAN_IS_CLOSED);
    WANT(holder.state, 9);
    WANT(counts.cap, 9);
    WANT(caladan_guard_open((const uint8_t *)"cores", 5, &guard), CALADAN_NOT_TOML);
    WANT(open_guard(), CALADAN_DONE);
    WANT(open_guard(), CALADAN_IS_OPEN);
    WANT(caladan_guard_holder_of(&guard, 4, &holder), CALADAN_NO_SUCH);
    WANT(caladan_guard_task(&guard, 2, &counts), CALADAN_NO_SUCH);
    WANT(caladan_guard_task(&guard, 1, &counts), CALADAN_DONE);
    WANT(counts.cap, 2);
    return 0;
}

static int misused(void) {
    caladan_action none = grant(0, 0), more = grant(0, 0), cause = revoke(0);
    none.kind = 7, more.cap = 1, cause.cause = 4;
    WANT(caladan_guard_pass(&guard, 10, 0, looks, THREADS - 1, judged, THREADS, NULL, 0, &refused),
         CALADAN_WRONG_COUNT);
    WANT(caladan_guard_pass(&guard, 10, 0, looks, THREADS, judged, THREADS - 1, NULL, 0, &refused), CALADAN_NO_ROOM);
    WANT(hand(&none, 1), CALADAN_NO_ACTION);
    WANT(hand(&more, 1), CALADAN_NO_ACTION);
    WANT(hand(&cause, 1), CALADAN_NO_ACTION);
    looks[1] = (caladan_look){.busy = 1, .room = 1, .number = 2, .second = 2};
    WANT(hand(NULL, 0), CALADAN_UNFIT);
    WANT(refused.why, 77);
    rest(1);
    return 0;
}

static int stopped(void) {
    static caladan_action many[CALADAN_MOST_ACTIONS + 1];
    STOPPED(0, CALADAN_WHY_DOES_NOT_FIT, 0, grant(4, 0));
    STOPPED(0, CALADAN_WHY_DOES_NOT_FIT, 0, grant(0, 4));
    STOPPED(1, CALADAN_WHY_DOES_NOT_FIT, 0, grant(0, 0), grant(0, 1));
    STOPPED(1, CALADAN_WHY_DOES_NOT_FIT, 0, ban(0), ban(1));
    STOPPED(1, CALADAN_WHY_NOT_LEFT, 0, grant(0, 0), freed(0));
    STOPPED(1, CALADAN_WHY_AT_GUARANTEE, 0, grant(0, 0), revoke(0));
    STOPPED(2, CALADAN_WHY_SECOND_COMMAND, 0, grant(0, 0), grant(1, 1), revoke(0));
    STOPPED(1, CALADAN_WHY_BANNED, 0, ban(0), grant(0, 0));
    STOPPED(1, CALADAN_WHY_AT_CAP, 0, cap(0), grant(0, 2));
    STOPPED(2, CALADAN_WHY_BANNED_HELD, 3, grant(3, 0), ban(3));
    STOPPED(3, CALADAN_WHY_OVER_CAP, 1, grant(0, 2), grant(1, 3), cap(1));
    rest(0);
    STOPPED(0, CALADAN_WHY_RING_FULL, 0, grant(0, 0));
    rest(1);
    for (int k = 0; k <= CALADAN_MOST_ACTIONS; k++) many[k] = cap(2);
    WANT(hand(many, CALADAN_MOST_ACTIONS + 1), CALADAN_NOT_PERMITTED);
    WANT(refused.place, CALADAN_MOST_ACTIONS);
    WANT(refused.why, CALADAN_WHY_TOO_MANY);
    return 0;
}

static int through(void) {
    caladan_holder_of_core holder;
    caladan_counts counts;
    const caladan_action first[] = {grant(3, 0), grant(0, 2)},
                         second[] = {ban(0), {.kind = CALADAN_REVOKE, .core = 0, .cause = CALADAN_FOR_BAN, .by = 0}};
    WANT(caladan_guard_holder_of(&guard, 3, &holder), CALADAN_DONE);
    WANT(holder.state, CALADAN_CORE_FREE); /* what was refused so far changed nothing */
    WANT(hand(first, 2), CALADAN_DONE);
    WANT(judged[0], CALADAN_KEPT);
    WANT(refused.why, 77);
    WANT(caladan_guard_holder_of(&guard, 3, &holder), CALADAN_DONE);
    WANT(holder.state, CALADAN_CORE_HELD);
    WANT(holder.thread, 0);
    looks[0] = (caladan_look){.room = 1, .number = 1, .taken = 1, .running = 4, .started = 10, .stamp = 10};
    looks[2] = (caladan_look){.room = 1, .number = 1, .taken = 1, .running = 2, .started = 10, .stamp = 10};
    STOPPED(0, CALADAN_WHY_DOES_NOT_FIT, 0, freed(2));
    WANT(hand(second, 2), CALADAN_DONE);
    WANT(judged[0], CALADAN_KEPT);
    WANT(judged[2], CALADAN_FOREIGN); /* it shows a core that its thread was not given */
    WANT(caladan_guard_holder_of(&guard, 0, &holder), CALADAN_DONE);
    WANT(holder.state, CALADAN_CORE_LEAVING);
    WANT(holder.cause, CALADAN_FOR_BAN);
    WANT(caladan_guard_task(&guard, 1, &counts), CALADAN_DONE);
    WANT(counts.held, 0);
    WANT(counts.booked, 1);
    return 0;
}

/* What a policy chooses by, after the passes of `through`: core 0 is banned and left by thread 2, core 3 held by thread
 * 0. */
static int seen(void) {
    caladan_core_ban ban;
    caladan_core_last last;
    caladan_look kept;
    WANT(caladan_guard_ban_of(&guard, 0, &ban), CALADAN_DONE);
    WANT(ban.banned, 1); /* for whom, as it was chosen */
    WANT(ban.thread, 0);
    WANT(ban.started, 0);
    WANT(caladan_guard_ban_of(&guard, 1, &ban), CALADAN_DONE);
    WANT(ban.banned, 0);
    WANT(caladan_guard_last_of(&guard, 0, &last), CALADAN_DONE);
    WANT(last.granted, 1);
    WANT(last.thread, 2);
    WANT(last.task, 1);
    WANT(caladan_guard_last_of(&guard, 1, &last), CALADAN_DONE);
    WANT(last.granted, 0);
    WANT(caladan_guard_ban_of(&guard, 4, &ban), CALADAN_NO_SUCH);
    WANT(caladan_guard_ban_of(&guard, 256, &ban), CALADAN_NO_SUCH);
    WANT(caladan_guard_last_of(&guard, 256, &last), CALADAN_NO_SUCH);
    WANT(caladan_guard_kept(&guard, THREADS, &kept), CALADAN_NO_SUCH);
    WANT(caladan_guard_kept(&guard, 0, &kept), CALADAN_DONE);
    looks[0].number = 0, looks[0].room = 0;
    WANT(memcmp(&kept, &looks[0], sizeof kept), 0);
    looks[0].number = 1, looks[0].room = 1;
    WANT(caladan_guard_kept(&guard, 2, &kept), CALADAN_DONE); /* its foreign record is not kept */
    WANT(kept.taken, 0);
    WANT(kept.running, 0);
    return 0;
}

/* The same as a pass judges, look by look, and nothing changes by it. */
static int foretold(void) {
    uint8_t before[THREADS] = {77, 77, 77, 77};
    const caladan_look as_they_were[THREADS] = {looks[0], looks[1], looks[2], looks[3]};
    looks[0].number = 2, looks[0].stamp = 9;                      /* a word fell */
    looks[1] = (caladan_look){.room = 1, .number = 3, .taken = 1}; /* nothing was sent */
    looks[3] = (caladan_look){.busy = 1, .room = 1, .number = 2, .second = 2};
    WANT(caladan_guard_judge(&guard, looks, THREADS - 1, before, THREADS), CALADAN_WRONG_COUNT);
    WANT(caladan_guard_judge(&guard, looks, THREADS, before, THREADS - 1), CALADAN_NO_ROOM);
    WANT(before[0], 77);
    for (int again = 0; again < 2; again++) {
        WANT(caladan_guard_judge(&guard, looks, THREADS, before, THREADS), CALADAN_DONE);
        WANT(before[0], CALADAN_WORD_FELL);
        WANT(before[1], CALADAN_AHEAD);
        WANT(before[2], CALADAN_FOREIGN);
        WANT(before[3], CALADAN_NO_PAIR);
    }
    WANT(caladan_guard_pass_each(&guard, 20, 0, looks, THREADS, judged, THREADS, NULL, 0, &refused), CALADAN_DONE);
    WANT(memcmp(before, judged, THREADS), 0);
    memcpy(looks, as_they_were, sizeof looks);
    return 0;
}

/* What the policy of caladan_pass does is permitted, over made passes. */
static int follows(void) {
    caladan handle = CALADAN_CLOSED;
    static caladan_action actions[CALADAN_MOST_ACTIONS];
    uint8_t said[THREADS];
    size_t made, all = 0;
    WANT(caladan_open((const uint8_t *)TABLE, strlen(TABLE), &handle), CALADAN_DONE);
    WANT(open_guard(), CALADAN_DONE);
    rest(1);
    for (uint64_t now = 100; now < 2100; now += 10) {
        for (int k = 0; k < THREADS; k++) {
            bool asks = (now / 10 + (uint64_t)k) % 7 == 0;
            looks[k].number++, looks[k].queued = asks, looks[k].oldest = asks ? now - 20 : 0, looks[k].stamp = now;
        }
        WANT(caladan_pass(&handle, now, 0, looks, THREADS, said, THREADS, actions, CALADAN_MOST_ACTIONS, &made),
             CALADAN_DONE);
        WANT(caladan_guard_pass(&guard, now, 0, looks, THREADS, judged, THREADS, actions, made, &refused),
             CALADAN_DONE);
        WANT(memcmp(said, judged, THREADS), 0);
        all += made;
    }
    WANT(all > 0, 1);
    WANT(caladan_close(&handle), CALADAN_DONE);
    return 0;
}

int main(void) {
    rest(1);
    if (closed() || misused() || stopped() || through() || seen() || foretold()) return 1;
    WANT(caladan_guard_close(&guard), CALADAN_DONE);
    if (follows()) return 1;
    WANT(caladan_guard_close(&guard), CALADAN_DONE);
    puts("guard: ok");
    return 0;
}
