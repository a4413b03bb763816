/* Each kind of lie by itself, through caladan_pass_each: it is refused with its own judgement, the other
 * threads get what they get without it, it leaves no trace, and an audit says that the pass is legal with
 * the look that was taken, and not with one that does not fit. Each word of a record counts. The same lies
 * before a guard, which judges alike whether it lets the pass through or not. Then threads that are gone,
 * and a process that is killed at each step of a publication, whose page is buried and whose successor gets
 * a core; and the calls of version 2 with closed handles, wrong counts and numbers out of range. Prints
 * 'lies: ok'. */
#define _GNU_SOURCE
#include "caladan_pages.h"
#include "check.h"
#include <signal.h>
#include <stdio.h>
#include <string.h>
#include <sys/mman.h>
#include <sys/wait.h>
#include <unistd.h>

static const char TABLE[] = "cores = 4\nbandwidth_limit = 1000\n"
                            "[[task]]\nkind = \"lc\"\nguaranteed = 1\nlimit = 2\ndelay = 10\nrequest = 50\n"
                            "[[task]]\nkind = \"be\"\nguaranteed = 0\nlimit = 2\ndelay = 0\nrequest = 0\n";
enum { THREADS = 4, LIAR = 1, STEPS = CALADAN_WORDS + 2 };

static caladan open_one(void) {
    caladan handle = CALADAN_CLOSED;
    CHECK(caladan_open((const uint8_t *)TABLE, strlen(TABLE), &handle) == CALADAN_DONE);
    return handle;
}

static caladan_guard guard_one(void) {
    caladan_guard guard = CALADAN_GUARD_CLOSED;
    CHECK(caladan_guard_open((const uint8_t *)TABLE, strlen(TABLE), &guard) == CALADAN_DONE);
    return guard;
}

typedef struct passed {
    uint8_t answer;
    uint8_t judged[THREADS];
    caladan_action actions[CALADAN_MOST_ACTIONS];
    size_t made;
} passed;

static void pass_each(caladan *handle, uint64_t now, const caladan_look *looks, passed *out) {
    memset(out, 0, sizeof *out);
    out->answer = caladan_pass_each(handle, now, 0, looks, THREADS, out->judged, THREADS, out->actions,
                                    CALADAN_MOST_ACTIONS, &out->made);
}

static void pass_plain(caladan *handle, uint64_t now, const caladan_look *looks, passed *out) {
    memset(out, 0, sizeof *out);
    out->answer = caladan_pass(handle, now, 0, looks, THREADS, out->judged, THREADS, out->actions, CALADAN_MOST_ACTIONS,
                               &out->made);
}

/* Hands a guard these actions, each look by itself: the answer, with what was judged and where it stopped. */
typedef struct handed {
    uint8_t answer;
    uint8_t judged[THREADS];
    caladan_refused refused;
} handed;

static handed hand(caladan_guard *guard, uint64_t now, const caladan_look *looks, const caladan_action *actions,
                   size_t made) {
    handed out = {0, {77, 77, 77, 77}, {77, 77, 77}};
    out.answer = caladan_guard_pass_each(guard, now, 0, looks, THREADS, out.judged, THREADS, actions, made,
                                         &out.refused);
    return out;
}

static bool same_actions(const passed *a, const passed *b) {
    return a->made == b->made && !memcmp(a->actions, b->actions, a->made * sizeof *a->actions);
}

/* The liar's thread has a request since tick 1: it is granted a core at tick 100. */
static void one_waits(caladan_look looks[THREADS]) {
    memset(looks, 0, THREADS * sizeof *looks);
    for (int k = 0; k < THREADS; k++) looks[k].room = 1;
    looks[LIAR].number = 5;
    looks[LIAR].queued = looks[LIAR].oldest = 1;
    looks[LIAR].misses = 7;
    looks[LIAR].stamp = 50;
}

typedef struct lie {
    uint8_t judged;
    caladan_look look;
} lie;

/* Against a thread that showed place 5, misses 7, stamp 50 and was sent one command, a Run. */
static const lie LIES[] = {
    {CALADAN_AHEAD, {.room = 1, .number = 6, .taken = 2, .misses = 7, .stamp = 50}},
    {CALADAN_AHEAD, {.room = 1, .number = 6, .taken = UINT64_MAX, .misses = 7, .stamp = 50}},
    {CALADAN_FOREIGN, {.room = 1, .number = 6, .taken = 1, .running = 4, .misses = 7, .stamp = 50}},
    {CALADAN_FOREIGN, {.room = 1, .number = 6, .taken = 0, .running = 1, .misses = 7, .stamp = 50}},
    {CALADAN_FOREIGN, {.room = 1, .number = 6, .taken = 1, .running = 100, .misses = 7, .stamp = 50}},
    {CALADAN_NO_PAIR, {.busy = 1, .room = 1, .number = 12, .second = 10}},
    {CALADAN_NO_PAIR, {.busy = 1, .room = 1, .number = 12, .second = 12}},
    {CALADAN_NO_PAIR, {.busy = 1, .room = 1, .number = 11, .second = 12}},
    {CALADAN_MISSHAPEN, {.room = 1, .number = 6, .running = 129, .misses = 7, .stamp = 50}},
    {CALADAN_MISSHAPEN, {.room = 1, .number = 6, .misses = (1ull << 56) + 1, .stamp = 50}},
    {CALADAN_PLACE_FELL, {.room = 1, .number = 4, .misses = 7, .stamp = 50}},
    {CALADAN_PLACE_FELL, {.room = 1}},
    {CALADAN_CHANGED, {.room = 1, .number = 5, .queued = 2, .oldest = 1, .misses = 7, .stamp = 50}},
    {CALADAN_WORD_FELL, {.room = 1, .number = 6, .misses = 6, .stamp = 50}},
    {CALADAN_WORD_FELL, {.room = 1, .number = 6, .misses = 7, .stamp = 49}},
};

static int grants_to(const passed *pass, int thread) {
    int count = 0;
    for (size_t i = 0; i < pass->made; i++)
        count += pass->actions[i].kind == CALADAN_GRANT && pass->actions[i].thread == thread;
    return count;
}

static void try_lie(const lie *it) {
    caladan handle = open_one(), busy = open_one();
    caladan_look looks[THREADS], taken[THREADS];
    static passed first, told, without;
    size_t unfit = 99;
    one_waits(looks);
    pass_each(&handle, 100, looks, &first);
    pass_plain(&busy, 100, looks, &without);
    CHECK(first.answer == CALADAN_DONE && same_actions(&first, &without) && grants_to(&first, LIAR) == 1);
    looks[LIAR] = it->look;
    uint8_t fits = caladan_first_unfit(&handle, looks, THREADS, &unfit);
    bool is_unfit = it->judged >= CALADAN_NO_PAIR;
    CHECK(fits == (is_unfit ? CALADAN_UNFIT : CALADAN_DONE) && unfit == (is_unfit ? LIAR : 99));
    for (int again = 0; again < 2; again++) {
        pass_each(&handle, 101, looks, &told);
        CHECK(told.answer == CALADAN_DONE && told.judged[LIAR] == it->judged && told.judged[0] == CALADAN_KEPT);
        for (int k = 0; k < THREADS; k++) taken[k] = caladan_taken(&looks[k], told.judged[k]);
        pass_plain(&busy, 101, taken, &without);
        CHECK(without.answer == CALADAN_DONE && same_actions(&told, &without));
    }
    /* the honest successor: it took the Run, left, and has a request: its record is kept */
    looks[LIAR] =
        (caladan_look){.room = 1, .number = 6, .taken = 1, .misses = 7, .stamp = 50, .queued = 1, .oldest = 1};
    pass_each(&handle, 102, looks, &told);
    CHECK(told.answer == CALADAN_DONE && told.judged[LIAR] == CALADAN_KEPT && grants_to(&told, LIAR) == 1);
    caladan_close(&handle);
    caladan_close(&busy);
}

/* Of each lie the audit takes the look that was taken as legal; one that does not fit, recorded as it was,
 * is not. */
static void try_audited_lie(const lie *it) {
    caladan handle = open_one();
    caladan_look looks[THREADS], taken[THREADS];
    static passed told;
    for (int as_it_was = 0; as_it_was < 2; as_it_was++) {
        caladan_audit audit = CALADAN_AUDIT_CLOSED;
        uint8_t judged[THREADS];
        uint64_t first = 77;
        bool legal = !as_it_was || it->judged < CALADAN_NO_PAIR;
        CHECK(caladan_audit_open((const uint8_t *)TABLE, strlen(TABLE), &audit) == CALADAN_DONE);
        caladan_close(&handle);
        handle = open_one();
        one_waits(looks);
        for (uint64_t now = 100; now < 102; now++) {
            pass_each(&handle, now, looks, &told);
            for (int k = 0; k < THREADS; k++) {
                taken[k] = as_it_was ? looks[k] : caladan_taken(&looks[k], told.judged[k]);
                judged[k] = told.judged[k] > CALADAN_FOREIGN && as_it_was
                                ? (looks[k].busy ? CALADAN_BUSY : CALADAN_KEPT)
                                : told.judged[k];
                if (!as_it_was && told.judged[k] > CALADAN_BUSY) judged[k] = CALADAN_BUSY;
            }
            CHECK(caladan_audit_pass(&audit, now, 0, taken, THREADS, judged, THREADS, told.actions, told.made) ==
                  CALADAN_DONE);
            looks[LIAR] = it->look;
        }
        CHECK(caladan_audit_verdict(&audit, &first) == (legal ? CALADAN_DONE : CALADAN_ILLEGAL) &&
              first == (legal ? 77 : 1));
        caladan_audit_close(&audit);
    }
    caladan_close(&handle);
}

/* Each word counts: a record at the last one's place with one other word is another record. */
static void try_words(void) {
    caladan handle = open_one();
    caladan_look looks[THREADS];
    uint64_t words[CALADAN_WORDS];
    static passed told;
    one_waits(looks);
    pass_each(&handle, 100, looks, &told);
    caladan_look_words(&looks[LIAR], words);
    for (int i = 0; i < CALADAN_WORDS; i++) {
        words[i]++;
        caladan_look_set_words(&looks[LIAR], words);
        words[i]--;
        pass_each(&handle, 101, looks, &told);
        CHECK(told.answer == CALADAN_DONE && told.judged[LIAR] == CALADAN_CHANGED);
    }
    caladan_look_set_words(&looks[LIAR], words);
    pass_each(&handle, 102, looks, &told);
    CHECK(told.answer == CALADAN_DONE && told.judged[LIAR] == CALADAN_KEPT);
    caladan_close(&handle);
}

/* The same lie before a guard: it is judged alike, whether the pass goes through or not. */
static void try_guarded_lie(const lie *it) {
    caladan handle = open_one();
    caladan_guard guard = guard_one();
    caladan_look looks[THREADS];
    const caladan_action nobody = {.kind = CALADAN_GRANT, .thread = 9, .core_class = 3};
    static passed told;
    size_t unfit = 99;
    one_waits(looks);
    pass_each(&handle, 100, looks, &told);
    handed is = hand(&guard, 100, looks, told.actions, told.made);
    CHECK(is.answer == CALADAN_DONE && !memcmp(is.judged, told.judged, THREADS) && is.refused.why == 77);
    looks[LIAR] = it->look;
    bool is_unfit = it->judged >= CALADAN_NO_PAIR;
    CHECK(caladan_guard_first_unfit(&guard, looks, THREADS, &unfit) == (is_unfit ? CALADAN_UNFIT : CALADAN_DONE) &&
          unfit == (is_unfit ? LIAR : 99));
    if (is_unfit)
        CHECK(caladan_guard_pass(&guard, 101, 0, looks, THREADS, is.judged, THREADS, NULL, 0, &is.refused) ==
              CALADAN_UNFIT);
    for (int again = 0; again < 2; again++) {
        is = hand(&guard, 101, looks, &nobody, 1);
        CHECK(is.answer == CALADAN_NOT_PERMITTED && is.refused.place == 0 &&
              is.refused.why == CALADAN_WHY_DOES_NOT_FIT);
        CHECK(is.judged[LIAR] == it->judged && is.judged[0] == CALADAN_KEPT);
        pass_each(&handle, 101, looks, &told);
        is = hand(&guard, 101, looks, told.actions, told.made);
        CHECK(is.answer == CALADAN_DONE && is.judged[LIAR] == it->judged && !memcmp(is.judged, told.judged, THREADS));
    }
    looks[LIAR] =
        (caladan_look){.room = 1, .number = 6, .taken = 1, .misses = 7, .stamp = 50, .queued = 1, .oldest = 1};
    pass_each(&handle, 102, looks, &told);
    is = hand(&guard, 102, looks, told.actions, told.made);
    CHECK(is.answer == CALADAN_DONE && is.judged[LIAR] == CALADAN_KEPT && grants_to(&told, LIAR) == 1);
    caladan_close(&handle);
    caladan_guard_close(&guard);
}

/* A thread that is gone, before a guard: with the look for it, and not without, its core may be freed. */
static void try_guarded_gone(void) {
    caladan_guard guard = guard_one();
    caladan_look looks[THREADS], gone;
    caladan_thread_state state;
    caladan_holder_of_core holder;
    const caladan_action grant = {.kind = CALADAN_GRANT, .core = 2, .thread = LIAR, .core_class = 3},
                         freed = {.kind = CALADAN_FREE, .core = 2};
    uint8_t thread = 99;
    one_waits(looks);
    CHECK(hand(&guard, 100, looks, &grant, 1).answer == CALADAN_DONE);
    CHECK(caladan_guard_thread(&guard, LIAR, &state) == CALADAN_DONE && state.task == 0 && state.sent == 1 &&
          state.taken == 0);
    CHECK(caladan_guard_revoked(&guard, 2, &thread) == CALADAN_NO_SUCH && thread == 99);
    handed is = hand(&guard, 101, looks, &freed, 1);
    CHECK(is.answer == CALADAN_NOT_PERMITTED && is.refused.why == CALADAN_WHY_NOT_LEFT);
    CHECK(caladan_guard_gone(&guard, LIAR, &gone) == CALADAN_DONE);
    CHECK(!gone.busy && gone.room == 0 && gone.number == 6 && gone.taken == 1 && !gone.running && gone.misses == 7 &&
          gone.stamp == 50 && !gone.queued);
    looks[LIAR] = gone;
    is = hand(&guard, 101, looks, &freed, 1);
    CHECK(is.answer == CALADAN_DONE && is.judged[LIAR] == CALADAN_KEPT);
    CHECK(caladan_guard_holder_of(&guard, 2, &holder) == CALADAN_DONE && holder.state == CALADAN_CORE_FREE);
    CHECK(caladan_guard_thread(&guard, LIAR, &state) == CALADAN_DONE && state.taken == 1);
    looks[LIAR] = (caladan_look){.room = 1, .number = 8, .taken = 9, .misses = 7, .stamp = 50};
    CHECK(caladan_guard_pass(&guard, 102, 0, looks, THREADS, is.judged, THREADS, NULL, 0, &is.refused) == CALADAN_DONE);
    CHECK(is.judged[LIAR] == CALADAN_AHEAD && caladan_guard_gone(&guard, LIAR, &gone) == CALADAN_LOST &&
          gone.number == 6);
    caladan_guard_close(&guard);
}

/* A thread that is gone: the look for it frees its core in the next pass. */
static void try_gone(void) {
    caladan handle = open_one();
    caladan_look looks[THREADS], gone;
    caladan_thread_state state;
    static passed told;
    uint8_t core = 99, thread = 99;
    one_waits(looks);
    pass_each(&handle, 100, looks, &told);
    for (size_t i = 0; i < told.made; i++)
        if (told.actions[i].kind == CALADAN_GRANT && told.actions[i].thread == LIAR) core = told.actions[i].core;
    CHECK(caladan_thread(&handle, LIAR, &state) == CALADAN_DONE && state.task == 0 && state.sent == 1 &&
          state.taken == 0);
    CHECK(caladan_room(state.sent, state.taken));
    CHECK(caladan_revoked(&handle, core, &thread) == CALADAN_NO_SUCH);
    CHECK(caladan_gone(&handle, LIAR, &gone) == CALADAN_DONE);
    CHECK(!gone.busy && gone.room == 0 && gone.number == 6 && gone.taken == 1 && !gone.running && gone.misses == 7 &&
          gone.stamp == 50 && !gone.queued);
    looks[LIAR] = gone;
    pass_each(&handle, 101, looks, &told);
    CHECK(told.answer == CALADAN_DONE && told.judged[LIAR] == CALADAN_KEPT);
    CHECK(told.made > 0 && told.actions[0].kind == CALADAN_FREE && told.actions[0].core == core);
    CHECK(caladan_thread(&handle, LIAR, &state) == CALADAN_DONE && state.taken == 1);
    /* only a plain pass lets an ahead record be shown: then there is no such look any more */
    looks[LIAR] = (caladan_look){.room = 1, .number = 8, .taken = 9, .misses = 7, .stamp = 50};
    pass_plain(&handle, 102, looks, &told);
    CHECK(told.answer == CALADAN_DONE && told.judged[LIAR] == CALADAN_AHEAD);
    CHECK(caladan_gone(&handle, LIAR, &gone) == CALADAN_LOST && gone.number == 6);
    caladan_close(&handle);
}

/* A thread that is gone, while its sibling waits: its core is freed once, and in a hundred passes nothing is granted to
 * it. */
static void try_gone_beside_a_waiting_sibling(void) {
    caladan handle = open_one();
    caladan_look looks[THREADS], gone = {0};
    static passed told;
    size_t freed = 0, granted = 0;
    one_waits(looks);
    pass_each(&handle, 100, looks, &told);
    CHECK(grants_to(&told, LIAR) == 1 && caladan_gone(&handle, LIAR, &gone) == CALADAN_DONE);
    looks[LIAR] = gone;
    looks[0] = (caladan_look){.room = 1, .number = 1, .queued = 1, .oldest = 1, .stamp = 1};
    for (uint64_t now = 101; now < 201; now++) {
        pass_each(&handle, now, looks, &told);
        CHECK(told.answer == CALADAN_DONE && told.judged[LIAR] == CALADAN_KEPT);
        for (size_t i = 0; i < told.made; i++) freed += told.actions[i].kind == CALADAN_FREE;
        granted += (size_t)grants_to(&told, LIAR);
    }
    CHECK(freed == 1 && granted == 0);
    caladan_close(&handle);
}

typedef struct shared {
    caladan_page page;
    caladan_ring ring;
} shared;

/* A child publishes one record, then makes so many steps of the next publication, and is killed. */
static void die_after(shared *both, int steps) {
    pid_t child = fork();
    if (child == 0) {
        caladan_publisher publisher = {&both->page, 0};
        uint64_t words[CALADAN_WORDS] = {[2] = 1, [3] = 1, [5] = 7, [6] = 50};
        caladan_publish(&publisher, words);
        words[5] = 9, words[6] = 60, words[2] = 2;
        if (steps > 0) caladan_publish_begin(&publisher);
        for (int i = 0; i < CALADAN_WORDS && i + 1 < steps; i++) atomic_store(&both->page.words[i], words[i]);
        if (steps == STEPS) atomic_store(&both->page.version, 4);
        kill(getpid(), SIGKILL);
    }
    waitpid(child, NULL, 0);
}

static void try_death(shared *both, int steps) {
    caladan handle = open_one();
    caladan_look looks[THREADS], gone;
    static passed told;
    memset(both, 0, sizeof *both);
    memset(looks, 0, sizeof looks);
    for (int k = 0; k < THREADS; k++) looks[k].room = 1;
    caladan_sender sender = {&both->ring, 0};
    die_after(both, steps);
    caladan_observe(&both->page, &looks[LIAR]);
    looks[LIAR].room = 1;
    CHECK(looks[LIAR].busy == (steps > 0 && steps < STEPS));
    pass_each(&handle, 100, looks, &told);
    CHECK(told.answer == CALADAN_DONE && told.judged[LIAR] == (looks[LIAR].busy ? CALADAN_BUSY : CALADAN_KEPT));
    if (grants_to(&told, LIAR)) caladan_ring_send(&sender, 1);
    atomic_store(&both->ring.sent, 1000);
    CHECK(caladan_gone(&handle, LIAR, &gone) == CALADAN_DONE && caladan_bury(&both->page, &both->ring, &gone));
    caladan_observe(&both->page, &looks[LIAR]);
    /* the page has shown place 1, and place 2 at the last step: the record of the gone is at another one */
    CHECK(!looks[LIAR].busy && looks[LIAR].number == (steps == STEPS ? 3 : 2) && looks[LIAR].taken == gone.taken);
    pass_each(&handle, 101, looks, &told);
    CHECK(told.answer == CALADAN_DONE && told.judged[LIAR] == CALADAN_KEPT);
    /* the successor goes on with the page, finds no command that nobody sent, and gets a core */
    caladan_publisher successor;
    uint64_t words[CALADAN_WORDS], command;
    CHECK(caladan_adopt(&successor, &both->page, words) && !caladan_ring_take(&both->ring, &command));
    caladan_ring_send(&sender, 3);
    CHECK(caladan_ring_take(&both->ring, &command) && command == 3 && !caladan_ring_take(&both->ring, &command));
    words[2] = words[3] = 1;
    caladan_publish(&successor, words);
    caladan_observe(&both->page, &looks[LIAR]);
    pass_each(&handle, 200, looks, &told);
    CHECK(told.answer == CALADAN_DONE && told.judged[LIAR] == CALADAN_KEPT && grants_to(&told, LIAR) == 1);
    caladan_close(&handle);
}

/* A burial where another looker was shown a later record than the scheduler, or a lie: no place that the page showed
 * has two records, and no lie uses up the places. */
static void try_burial(shared *both) {
    const uint64_t far = CALADAN_FARTHEST, top = (uint64_t)1 << 63;
    const struct {
        uint64_t number, version, place; /* of the record for the gone, on the page, of the burial */
    } burials[] = {
        {1, 0, 1}, {6, 10, 6}, {6, 11, 6}, {6, 12, 7}, {6, 13, 7}, {6, 16, 9}, {6, 4, 6},
        {6, (6 + far) * 2 - 2, 6 + far}, {6, (6 + far) * 2, 6}, {6, UINT64_MAX, 6}, {6, UINT64_MAX - 1, 6},
        {top - 2, (top - 2) * 2, top - 1}, {top - 1, (top - 1) * 2, top - 1},
    };
    for (size_t i = 0; i < sizeof burials / sizeof *burials; i++) {
        caladan_look gone = {.room = 1, .number = burials[i].number, .taken = 5, .stamp = 50}, look = {0};
        uint64_t command;
        memset(both, 0, sizeof *both);
        atomic_store(&both->page.version, burials[i].version);
        atomic_store(&both->ring.sent, 1000);
        atomic_store(&both->ring.taken, 3);
        CHECK(caladan_bury(&both->page, &both->ring, &gone));
        caladan_observe(&both->page, &look);
        CHECK(!look.busy && look.number == burials[i].place && look.taken == 5 && look.stamp == 50);
        CHECK(!caladan_ring_take(&both->ring, &command) && atomic_load(&both->ring.sent) == 5);
    }
    caladan_look none = {.number = 0}, above = {.number = top};
    CHECK(!caladan_bury(&both->page, &both->ring, &none) && !caladan_bury(&both->page, &both->ring, &above));
}

/* One that adopts a page on which a publication was broken off, without the host: nothing falls. */
static void try_adoption(shared *both, int steps) {
    memset(both, 0, sizeof *both);
    die_after(both, steps);
    caladan_publisher successor;
    uint64_t words[CALADAN_WORDS];
    caladan_look look = {0};
    bool whole = caladan_adopt(&successor, &both->page, words);
    CHECK(whole == (steps == 0 || steps == STEPS));
    CHECK(words[0] == 0 && words[5] >= 7 && words[6] >= 50);
    uint64_t place = caladan_publish(&successor, words);
    caladan_observe(&both->page, &look);
    CHECK(!look.busy && look.number == place && place == (steps == STEPS ? 3 : 2) && look.misses >= 7);
    /* turns: one at a time, and the record stays between them */
    CHECK(caladan_turn_try(&both->page) && !caladan_turn_try(&both->page));
    caladan_turn_set(&both->page, 2, caladan_turn_word(&both->page, 2) + 1);
    caladan_turn_end(&both->page);
    caladan_observe(&both->page, &look);
    CHECK(!look.busy && look.number == place + 1 && look.queued == words[2] + 1 && look.stamp == words[6]);
}

/* A version that falls while one looks is a busy pair all the same. */
static void try_falling(shared *both) {
    caladan_look look = {0};
    memset(both, 0, sizeof *both);
    atomic_store(&both->page.version, 7);
    caladan_observe(&both->page, &look);
    CHECK(look.busy && look.number == 7 && look.second == 7);
}

static void try_calls(void) {
    caladan closed = CALADAN_CLOSED, handle = open_one();
    caladan_look looks[THREADS + 1] = {0}, look = {.number = 77};
    caladan_machine machine = {.cores = 77};
    caladan_table_row row = {.kind = 77};
    caladan_thread_state state = {.task = 77};
    caladan_action actions[CALADAN_MOST_ACTIONS];
    uint8_t judged[THREADS] = {77}, thread = 77;
    size_t made = 77, unfit = 77;
    CHECK(CALADAN_IS_THIS_VERSION());
    CHECK(caladan_pass_each(&closed, 1, 0, looks, THREADS, judged, THREADS, actions, CALADAN_MOST_ACTIONS, &made) ==
              CALADAN_IS_CLOSED &&
          made == 0);
    CHECK(caladan_pass_each(&handle, 1, 0, looks, THREADS + 1, judged, THREADS, actions, CALADAN_MOST_ACTIONS, &made) ==
          CALADAN_WRONG_COUNT);
    CHECK(caladan_pass_each(&handle, 1, 0, looks, 0, judged, THREADS, actions, CALADAN_MOST_ACTIONS, &made) ==
          CALADAN_WRONG_COUNT);
    CHECK(caladan_pass_each(&handle, 1, 0, looks, THREADS, judged, THREADS - 1, actions, CALADAN_MOST_ACTIONS, &made) ==
          CALADAN_NO_ROOM);
    CHECK(caladan_pass_each(&handle, 1, 0, looks, THREADS, judged, THREADS, actions, CALADAN_MOST_ACTIONS - 1, &made) ==
          CALADAN_NO_ROOM);
    CHECK(judged[0] == 77);
    CHECK(caladan_first_unfit(&closed, looks, THREADS, &unfit) == CALADAN_IS_CLOSED && unfit == 77);
    CHECK(caladan_first_unfit(&handle, looks, THREADS + 1, &unfit) == CALADAN_WRONG_COUNT && unfit == 77);
    CHECK(caladan_table(&closed, &machine) == CALADAN_IS_CLOSED && machine.cores == 77);
    CHECK(caladan_table(&handle, &machine) == CALADAN_DONE && machine.cores == 4 && machine.tasks == 2 &&
          machine.threads == 4 && machine.bandwidth_limit == 1000);
    CHECK(caladan_table_task(&closed, 0, &row) == CALADAN_IS_CLOSED &&
          caladan_table_task(&handle, 2, &row) == CALADAN_NO_SUCH);
    CHECK(caladan_table_task(&handle, SIZE_MAX, &row) == CALADAN_NO_SUCH && row.kind == 77);
    CHECK(caladan_table_task(&handle, 0, &row) == CALADAN_DONE && row.kind == CALADAN_LATENCY_CRITICAL &&
          row.guaranteed == 1 && row.limit == 2);
    CHECK(row.first_thread == 0 && row.delay == 10 && row.request == 50);
    CHECK(caladan_table_task(&handle, 1, &row) == CALADAN_DONE && row.kind == CALADAN_BEST_EFFORT &&
          row.first_thread == 2);
    CHECK(caladan_thread(&closed, 0, &state) == CALADAN_IS_CLOSED &&
          caladan_thread(&handle, THREADS, &state) == CALADAN_NO_SUCH);
    CHECK(caladan_thread(&handle, SIZE_MAX, &state) == CALADAN_NO_SUCH && state.task == 77);
    CHECK(caladan_thread(&handle, 3, &state) == CALADAN_DONE && state.task == 1 && state.sent == 0 && state.taken == 0);
    CHECK(caladan_gone(&closed, 0, &look) == CALADAN_IS_CLOSED &&
          caladan_gone(&handle, THREADS, &look) == CALADAN_NO_SUCH);
    CHECK(caladan_gone(&handle, SIZE_MAX, &look) == CALADAN_NO_SUCH && look.number == 77);
    CHECK(caladan_gone(&handle, 0, &look) == CALADAN_DONE && look.number == 1 && look.taken == 0 && look.room == 0);
    CHECK(caladan_revoked(&closed, 0, &thread) == CALADAN_IS_CLOSED &&
          caladan_revoked(&handle, 9, &thread) == CALADAN_NO_SUCH && thread == 77);
    CHECK(!strcmp(caladan_answer_text(CALADAN_LOST), "no page can show that the thread is gone") &&
          !strcmp(caladan_answer_text(200), "no answer"));
    CHECK(!strcmp(caladan_judgement_text(CALADAN_PLACE_FELL), "its place fell") &&
          !strcmp(caladan_judgement_text(99), "no judgement"));
    CHECK(!strcmp(caladan_cause_text(CALADAN_FOR_TASK), "for a task") &&
          !strcmp(caladan_why_text(CALADAN_WHY_OVER_CAP), "a task is over its cap"));
    caladan_close(&handle);
}

static void try_guard_calls(void) {
    caladan_guard closed = CALADAN_GUARD_CLOSED, guard = guard_one();
    caladan_look looks[THREADS + 1] = {0}, look = {.number = 77};
    caladan_machine machine = {.cores = 77};
    caladan_table_row row = {.kind = 77};
    caladan_thread_state state = {.task = 77};
    caladan_refused refused = {.why = 77};
    const caladan_action none = {.kind = 7};
    uint8_t judged[THREADS] = {77}, thread = 77;
    size_t unfit = 77;
    CHECK(caladan_guard_pass_each(&closed, 1, 0, looks, THREADS, judged, THREADS, NULL, 0, &refused) ==
          CALADAN_IS_CLOSED);
    CHECK(caladan_guard_pass_each(&guard, 1, 0, looks, THREADS + 1, judged, THREADS, NULL, 0, &refused) ==
          CALADAN_WRONG_COUNT);
    CHECK(caladan_guard_pass_each(&guard, 1, 0, looks, 0, judged, THREADS, NULL, 0, &refused) == CALADAN_WRONG_COUNT);
    CHECK(caladan_guard_pass_each(&guard, 1, 0, looks, THREADS, judged, THREADS - 1, NULL, 0, &refused) ==
          CALADAN_NO_ROOM);
    CHECK(caladan_guard_pass_each(&guard, 1, 0, looks, THREADS, judged, THREADS, &none, 1, &refused) ==
          CALADAN_NO_ACTION);
    CHECK(judged[0] == 77 && refused.why == 77);
    CHECK(caladan_guard_first_unfit(&closed, looks, THREADS, &unfit) == CALADAN_IS_CLOSED && unfit == 77);
    CHECK(caladan_guard_first_unfit(&guard, looks, THREADS + 1, &unfit) == CALADAN_WRONG_COUNT && unfit == 77);
    CHECK(caladan_guard_table(&closed, &machine) == CALADAN_IS_CLOSED && machine.cores == 77);
    CHECK(caladan_guard_table(&guard, &machine) == CALADAN_DONE && machine.cores == 4 && machine.tasks == 2 &&
          machine.threads == 4 && machine.bandwidth_limit == 1000);
    CHECK(caladan_guard_table_task(&closed, 0, &row) == CALADAN_IS_CLOSED &&
          caladan_guard_table_task(&guard, 2, &row) == CALADAN_NO_SUCH);
    CHECK(caladan_guard_table_task(&guard, SIZE_MAX, &row) == CALADAN_NO_SUCH && row.kind == 77);
    CHECK(caladan_guard_table_task(&guard, 0, &row) == CALADAN_DONE && row.kind == CALADAN_LATENCY_CRITICAL &&
          row.guaranteed == 1 && row.limit == 2);
    CHECK(row.first_thread == 0 && row.delay == 10 && row.request == 50);
    CHECK(caladan_guard_thread(&closed, 0, &state) == CALADAN_IS_CLOSED &&
          caladan_guard_thread(&guard, THREADS, &state) == CALADAN_NO_SUCH);
    CHECK(caladan_guard_thread(&guard, SIZE_MAX, &state) == CALADAN_NO_SUCH && state.task == 77);
    CHECK(caladan_guard_thread(&guard, 3, &state) == CALADAN_DONE && state.task == 1 && state.sent == 0 &&
          state.taken == 0);
    CHECK(caladan_guard_gone(&closed, 0, &look) == CALADAN_IS_CLOSED &&
          caladan_guard_gone(&guard, THREADS, &look) == CALADAN_NO_SUCH);
    CHECK(caladan_guard_gone(&guard, SIZE_MAX, &look) == CALADAN_NO_SUCH && look.number == 77);
    CHECK(caladan_guard_gone(&guard, 0, &look) == CALADAN_DONE && look.number == 1 && look.taken == 0 &&
          look.room == 0);
    CHECK(caladan_guard_revoked(&closed, 0, &thread) == CALADAN_IS_CLOSED &&
          caladan_guard_revoked(&guard, 9, &thread) == CALADAN_NO_SUCH && thread == 77);
    CHECK(caladan_guard_close(&guard) == CALADAN_DONE && caladan_guard_close(&guard) == CALADAN_IS_CLOSED);
}

int main(void) {
    shared *both = mmap(NULL, sizeof *both, PROT_READ | PROT_WRITE, MAP_SHARED | MAP_ANONYMOUS, -1, 0);
    if (both == MAP_FAILED) return 2;
    for (size_t i = 0; i < sizeof LIES / sizeof *LIES; i++) {
        try_lie(&LIES[i]);
        try_audited_lie(&LIES[i]);
        try_guarded_lie(&LIES[i]);
    }
    try_words();
    try_gone();
    try_gone_beside_a_waiting_sibling();
    try_guarded_gone();
    for (int steps = 0; steps <= STEPS; steps++) {
        try_death(both, steps);
        try_adoption(both, steps);
    }
    try_burial(both);
    try_falling(both);
    try_calls();
    try_guard_calls();
    puts(failed ? "lies: failed" : "lies: ok");
    return failed;
}
