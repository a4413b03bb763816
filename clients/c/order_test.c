/* The memory order of caladan_pages.h: its own code runs on a machine that reorders loads and stores as C11
 * allows (view_machine.h), through every run of small instances. That the machine is such a one is tried
 * first, on what C11 says of a few small programs. tools/weaker_orders sees that this fails with each order of the
 * header weakened by itself.
 *
 * Prints 'order_test: ok', or what went wrong and what each thread found, and exits with 1. */
#include "view_machine.h"

/* What C11 says of small programs: in each the last function answers false where it found what is asked about. x and y
 * are places; what a thread found is told to the last one, which waits for the others, in p and q. */
#define X (&shared.page.version)
#define Y (&shared.page.words[0])
#define P (&shared.ring.commands[0])
#define Q (&shared.ring.commands[1])

static bool stores_x_then_y(void) {
    CALADAN_STORE(X, 1, relaxed);
    CALADAN_STORE(Y, 1, relaxed);
    return true;
}

static bool stores_x_then_releases_y(void) {
    CALADAN_STORE(X, 1, relaxed);
    CALADAN_STORE(Y, 1, release);
    return true;
}

static bool stores_x_fence_y(void) {
    CALADAN_STORE(X, 1, relaxed);
    CALADAN_FENCE(release);
    CALADAN_STORE(Y, 1, relaxed);
    return true;
}

static bool stores_y_again(void) {
    stores_x_then_releases_y();
    CALADAN_STORE(Y, 2, relaxed);
    return true;
}

static bool y_without_x(void) { return !(CALADAN_LOAD(Y, relaxed) == 1 && CALADAN_LOAD(X, relaxed) == 0); }

static bool acquired_y_without_x(void) { return !(CALADAN_LOAD(Y, acquire) == 1 && CALADAN_LOAD(X, relaxed) == 0); }

static bool acquired_two_without_x(void) { return !(CALADAN_LOAD(Y, acquire) == 2 && CALADAN_LOAD(X, relaxed) == 0); }

static bool y_fence_without_x(void) {
    uint64_t y = CALADAN_LOAD(Y, relaxed);
    CALADAN_FENCE(acquire);
    return !(y == 1 && CALADAN_LOAD(X, relaxed) == 0);
}

static bool x_goes_back(void) { return !(CALADAN_LOAD(X, relaxed) == 1 && CALADAN_LOAD(X, relaxed) == 0); }

static bool stores_x_loads_y(void) {
    CALADAN_STORE(X, 1, release);
    CALADAN_STORE(P, CALADAN_LOAD(Y, acquire) + 1, relaxed);
    return true;
}

static bool stores_y_loads_x(void) {
    CALADAN_STORE(Y, 1, release);
    CALADAN_STORE(Q, CALADAN_LOAD(X, acquire) + 1, relaxed);
    return true;
}

static bool swaps_to_p(void) {
    uint64_t found = 0;
    CALADAN_STORE(P, CALADAN_SWAP(X, &found, 1, relaxed), relaxed);
    return true;
}

static bool swaps_to_q(void) {
    uint64_t found = 0;
    CALADAN_STORE(Q, CALADAN_SWAP(X, &found, 1, relaxed), relaxed);
    return true;
}

static bool swaps_y_on(void) {
    uint64_t found = 1;
    CALADAN_SWAP(Y, &found, 2, relaxed);
    return true;
}

static bool both_are_one(void) {
    join(0);
    join(1);
    return !(CALADAN_LOAD(P, relaxed) == 1 && CALADAN_LOAD(Q, relaxed) == 1);
}

static bool x_is_one_y_is_two_stored(void) {
    CALADAN_STORE(P, 1, relaxed);
    CALADAN_STORE(Q, 2, relaxed);
    return true;
}

static bool y_is_one_x_is_two_stored(void) {
    CALADAN_STORE(Q, 1, relaxed);
    CALADAN_STORE(P, 2, relaxed);
    return true;
}

static int is_as_c11_says(void) {
    static const struct {
        const char *name;
        body *bodies[THREADS];
        int is_found;
    } programs[] = {
        {"a message without order", {stores_x_then_y, y_without_x}, 1},
        {"a message, acquired only", {stores_x_then_y, acquired_y_without_x}, 1},
        {"a message, released only", {stores_x_then_releases_y, y_without_x}, 1},
        {"a message, released and acquired", {stores_x_then_releases_y, acquired_y_without_x}, 0},
        {"a message by fences", {stores_x_fence_y, y_fence_without_x}, 0},
        {"a message with a fence behind it only", {stores_x_then_y, y_fence_without_x}, 1},
        {"a message with a fence before it only", {stores_x_fence_y, y_without_x}, 1},
        {"a message by a fence and an acquire load", {stores_x_fence_y, acquired_y_without_x}, 0},
        {"a relaxed store behind the release", {stores_y_again, acquired_two_without_x}, 1},
        {"a swap behind the release", {stores_x_then_releases_y, swaps_y_on, acquired_two_without_x}, 0},
        {"one place goes back", {stores_x_then_y, x_goes_back}, 0},
        {"both loads before both stores", {stores_x_loads_y, stores_y_loads_x, both_are_one}, 1},
        {"each first store is the last one", {x_is_one_y_is_two_stored, y_is_one_x_is_two_stored, both_are_one}, 1},
        {"two swaps of one value", {swaps_to_p, swaps_to_q, both_are_one}, 0},
    };
    const uint64_t zero[PLACES] = {0};
    for (size_t i = 0; i < sizeof programs / sizeof *programs; i++) {
        if (run_through(programs[i].name, true, programs[i].bodies, zero) == programs[i].is_found) continue;
        printf("order_test: %s: the machine is not C11's\n", programs[i].name);
        return 1;
    }
    return 0;
}

/* The instances: what may be found is written down here, not taken from a run. */

/* The second word of a record, of its first one. */
static uint64_t second_of(uint64_t first) { return first * 16 + 5; }

static uint64_t publish(caladan_publisher *publisher, uint64_t first) {
    const uint64_t words[2] = {first, second_of(first)};
    return caladan_publish(publisher, words);
}

/* A busy look has a pair; a whole one the record of its place, whose first word is here `first`. */
static bool is_right(const caladan_look *look, uint64_t first) {
    if (look->busy) return look->number % 2 ? look->second == look->number : look->second > look->number;
    return look->taken == first && look->running == (look->number ? second_of(first) : 0);
}

/* One publisher: the record at place p has first word p. */
static bool publishes_two(void) {
    caladan_publisher publisher = {&shared.page, 0};
    publish(&publisher, 1);
    publish(&publisher, 2);
    return true;
}

static bool looks_once(void) {
    caladan_look look = {0};
    caladan_observe(&shared.page, &look);
    return is_right(&look, look.number);
}

static bool looks_twice(void) {
    caladan_look look = {0}, again = {0};
    caladan_observe(&shared.page, &look);
    caladan_observe(&shared.page, &again);
    bool fell = !look.busy && !again.busy && again.number < look.number;
    return is_right(&look, look.number) && is_right(&again, again.number) && !fell;
}

/* Turns: each counts the first word up, so it is the place. */
static bool has_turn(void) {
    if (!caladan_turn_try(&shared.page)) return true;
    uint64_t first = caladan_turn_word(&shared.page, 0), second = caladan_turn_word(&shared.page, 1);
    caladan_turn_set(&shared.page, 0, first + 1);
    caladan_turn_set(&shared.page, 1, second_of(first + 1));
    caladan_turn_end(&shared.page);
    return second == (first ? second_of(first) : 0);
}

/* A ring: the command with number n, from 0, is n + 7. */
static bool sends_two(void) {
    caladan_sender sender = {&shared.ring, 0};
    caladan_ring_send(&sender, 7);
    caladan_ring_send(&sender, 8);
    return true;
}

static bool takes_two(void) {
    uint64_t command, wanted = 7;
    for (int tries = 0; tries < 3; tries++)
        if (caladan_ring_take(&shared.ring, &command) && command != wanted++) return false;
    return true;
}

/* A full ring of the commands 0 to 3, whose taker says on its page what it took. */
static bool sends_as_told(void) {
    caladan_sender sender = {&shared.ring, 4};
    caladan_look look = {0};
    for (int tries = 0; tries < 2; tries++) {
        caladan_observe(&shared.page, &look);
        if (!look.busy && caladan_room(sender.sent, look.taken)) caladan_ring_send(&sender, sender.sent + 7);
    }
    return true;
}

static bool takes_and_tells(void) {
    caladan_publisher publisher = {&shared.page, 0};
    uint64_t command, taken = 0;
    for (int tries = 0; tries < 6; tries++) {
        if (!caladan_ring_take(&shared.ring, &command)) continue;
        if (command != taken + 7) return false;
        taken++;
        if (taken < 3) publish(&publisher, taken);
    }
    return true;
}

/* One that goes on with the page once its version says that the other one is done. */
static bool goes_on(void) {
    caladan_publisher publisher;
    uint64_t words[2];
    if (CALADAN_LOAD(&shared.page.version, relaxed) != 4) leave();
    if (!caladan_adopt(&publisher, &shared.page, words) || words[0] != 2 || words[1] != second_of(2)) return false;
    return publish(&publisher, 3) == 3;
}

/* A burial. The thread showed place 1, was sent 3 commands and took one; its last record, at place 2, the
 * scheduler did not see, or it died while it wrote it. The ring says that 9 were sent. The burial's record has
 * first word 3. */
static bool dies_after_two(void) {
    caladan_publisher publisher = {&shared.page, 1};
    publish(&publisher, 2);
    return true;
}

static bool dies_within_the_second(void) {
    caladan_publisher publisher = {&shared.page, 1};
    caladan_publish_begin(&publisher);
    CALADAN_STORE(&shared.page.words[0], 2, relaxed);
    return true;
}

static bool buries(void) {
    caladan_look gone = {.room = 1, .number = 2, .taken = 3, .running = second_of(3)};
    caladan_sender sender = {&shared.ring, 3};
    join(0);
    if (!caladan_bury(&shared.page, &shared.ring, &gone)) return false;
    caladan_ring_send(&sender, 10);
    return true;
}

/* Its successor, which goes on once the page shows the burial: it finds the ring empty, or what was sent after it. */
static bool succeeds_at(uint64_t place) {
    caladan_publisher publisher;
    uint64_t words[2], command;
    if (!caladan_adopt(&publisher, &shared.page, words) || publisher.place != place) leave();
    return words[0] == 3 && words[1] == second_of(3) && (!caladan_ring_take(&shared.ring, &command) || command == 10);
}

static bool succeeds_at_two(void) { return succeeds_at(2); }

static bool succeeds_at_three(void) { return succeeds_at(3); }

/* Another looker: the last record stands at place 2, and the burial behind it; without one it has place 2. */
static bool looks_at_two(void) {
    caladan_look look = {0};
    caladan_observe(&shared.page, &look);
    return is_right(&look, look.number == 2 ? 3 : look.number);
}

/* Runs an instance; the values in memory before it are the version, the words, sent, the commands, taken. */
static int try(const char *name, body *first, body *second, body *third, const uint64_t values[PLACES]) {
    body *const bodies[THREADS] = {first, second, third};
    int wrong = run_through(name, false, bodies, values);
    if (!wrong) printf("order_test: %s: %zu states\n", name, met_count);
    return wrong;
}

int main(void) {
    const uint64_t zero[PLACES] = {0}, full[PLACES] = {0, 0, 0, 4, 7, 8, 9, 10, 0};
    const uint64_t shown[PLACES] = {2, 1, second_of(1), 9, 66, 66, 66, 66, 1};
    int wrong = is_as_c11_says() ||
                try("a page with two lookers", publishes_two, looks_twice, looks_once, zero) ||
                try("turns and a looker", has_turn, has_turn, looks_twice, zero) ||
                try("three turns", has_turn, has_turn, has_turn, zero) ||
                try("a ring", sends_two, takes_two, NULL, zero) ||
                try("a full ring", sends_as_told, takes_and_tells, NULL, full) ||
                try("a page that another goes on with", publishes_two, goes_on, looks_once, zero) ||
                try("a burial after a record", dies_after_two, buries, looks_once, shown) ||
                try("a burial within a record", dies_within_the_second, buries, looks_at_two, shown) ||
                try("a successor after a record", dies_after_two, buries, succeeds_at_three, shown) ||
                try("a successor within a record", dies_within_the_second, buries, succeeds_at_two, shown);
    free(met);
    puts(wrong ? "order_test: failed" : "order_test: ok");
    return wrong;
}
