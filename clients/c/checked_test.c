/* The checks of caladan_pages.h in a build with CALADAN_CHECKED: what a caller owes is seen where it is broken, and
 * nothing else is. A signal comes at each access of a publication and of a taking, and its handler publishes or takes
 * again; in a turn it finds that it can have none. Prints 'checked_test: ok'. */
#define CALADAN_CHECKED
#define CALADAN_BROKEN(why) note(why)
#include <signal.h>
#include <stdatomic.h>
#include <stdio.h>
#include <string.h>

static const char *broken; /* the last rule that was */
static void note(const char *why) { broken = why; }

/* Sends the signal before the access after `accesses` more of them. */
static volatile int accesses = -1;
static void come(void) {
    if (accesses >= 0 && accesses-- == 0) raise(SIGUSR1);
}
#define CALADAN_LOAD(at, order) (come(), atomic_load_explicit(at, memory_order_##order))
#define CALADAN_STORE(at, value, order) (come(), atomic_store_explicit(at, value, memory_order_##order))
#define CALADAN_FENCE(order) (come(), atomic_thread_fence(memory_order_##order))
#define CALADAN_SWAP(at, expected, value, order) \
    (come(), atomic_compare_exchange_strong_explicit(at, expected, value, memory_order_##order, memory_order_relaxed))
#include "caladan_pages.h"
#include "check.h"

static caladan_page page;
static caladan_ring ring;
static caladan_publisher publisher;
static uint64_t by_handler, by_turns; /* the command that the handler took; how many turns it had */

static void start(void) {
    memset(&page, 0, sizeof page);
    memset(&ring, 0, sizeof ring);
    publisher = (caladan_publisher){.page = &page};
    broken = NULL;
    by_handler = by_turns = 0;
}

static void publish_again(int number) {
    const uint64_t words[CALADAN_WORDS] = {(uint64_t)number};
    caladan_publish(&publisher, words);
}

static void take_again(int number) {
    (void)number;
    caladan_ring_take(&ring, &by_handler);
}

static void have_turn(int number) {
    (void)number;
    if (!caladan_turn_try(&page)) return;
    by_turns++;
    caladan_turn_set(&page, 2, caladan_turn_word(&page, 2) + 1);
    caladan_turn_end(&page);
}

/* Within a publication each access sees the handler's. */
static void try_publishing(void) {
    const uint64_t words[CALADAN_WORDS] = {7, 7, 7};
    signal(SIGUSR1, publish_again);
    for (int at = 0; at < CALADAN_WORDS + 4; at++) {
        start();
        accesses = at;
        caladan_publish(&publisher, words);
        CHECK(accesses == -1 && broken);
    }
    start();
    accesses = CALADAN_WORDS + 4;
    caladan_publish(&publisher, words);
    CHECK(accesses == 0 && !broken);
    accesses = -1;
}

/* Within a taking the handler's is seen, or each command was taken once, in order. */
static void try_taking(void) {
    int seen = 0;
    signal(SIGUSR1, take_again);
    for (int at = 0; at < 4; at++) {
        uint64_t command = 0;
        start();
        caladan_sender sender = {&ring, 0};
        caladan_ring_send(&sender, 11);
        caladan_ring_send(&sender, 12);
        accesses = at;
        CHECK(caladan_ring_take(&ring, &command) && accesses == -1);
        CHECK(broken || (by_handler == 11 && command == 12));
        seen += broken != NULL;
    }
    CHECK(seen == 3);
}

/* Within a turn the handler can have none, and nothing is broken. */
static void try_turns(void) {
    signal(SIGUSR1, have_turn);
    for (int at = 0; at < 12; at++) {
        start();
        accesses = at;
        bool had = caladan_turn_try(&page);
        if (had) caladan_turn_set(&page, 2, caladan_turn_word(&page, 2) + 1);
        if (had) caladan_turn_end(&page);
        accesses = -1;
        CHECK(!broken && atomic_load(&page.words[2]) == had + by_turns &&
              atomic_load(&page.version) == 2 * (had + by_turns));
    }
}

/* Each other rule by itself; and what is owed breaks none. */
static void try_rules(void) {
    const uint64_t words[CALADAN_WORDS] = {1};
    uint64_t found[CALADAN_WORDS];
    caladan_look look = {0}, gone = {.number = 9, .taken = 2};
    start();
    caladan_publish(&publisher, words);
    caladan_observe(&page, &look);
    caladan_publish_begin(&publisher);
    CHECK(!caladan_adopt(&publisher, &page, found));
    caladan_publish(&publisher, words);
    CHECK(caladan_bury(&page, &ring, &gone) && caladan_adopt(&publisher, &page, found));
    caladan_publish(&publisher, words);
    CHECK(!broken && !look.busy);
    have_turn(0);
    CHECK(!broken && by_turns == 1);
    caladan_publish(&publisher, words); /* the page was published on by a turn */
    CHECK(broken);
    start();
    caladan_publish_end(&publisher, words);
    CHECK(broken);
    start();
    caladan_turn_set(&page, 0, 1);
    CHECK(broken);
    start();
    caladan_turn_end(&page);
    CHECK(broken);
    start();
    caladan_observe((caladan_page *)((char *)&page + 0), &look);
    CHECK(!broken);
    CALADAN_OWED_LINE((char *)&page + 64);
    CHECK(broken);
}

int main(void) {
    try_publishing();
    try_taking();
    try_turns();
    try_rules();
    puts(failed ? "checked_test: failed" : "checked_test: ok");
    return failed;
}
