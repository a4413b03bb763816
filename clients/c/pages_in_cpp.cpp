// caladan_pages.h and caladan_history.h in C++: a publisher and a looker in two threads, turns, a ring, and a burial.
// Prints 'pages_in_cpp: ok'.
#include "caladan_history.h"
#include "caladan_pages.h"
#include <cstdio>
#include <thread>

static_assert(sizeof(caladan_shared) == sizeof(uint64_t) && alignof(caladan_shared) == alignof(uint64_t), "as in C");

namespace {
caladan_page page;
caladan_ring ring;
constexpr uint64_t RECORDS = 20000;

int wrong(const char *what) {
    std::fprintf(stderr, "pages_in_cpp: %s\n", what);
    return 1;
}

// Each word of the record at a place is the place.
void publish_all() {
    caladan_publisher publisher = {&page, 0};
    for (uint64_t place = 1; place <= RECORDS; place++) {
        uint64_t words[CALADAN_WORDS];
        for (uint64_t &word : words) word = place;
        caladan_publish(&publisher, words);
    }
}

int look_until_the_last() {
    for (uint64_t last = 0; last < RECORDS;) {
        caladan_look look = {};
        caladan_observe(&page, &look);
        if (look.busy) continue;
        uint64_t words[CALADAN_WORDS];
        caladan_look_words(&look, words);
        for (uint64_t word : words)
            if (word != look.number || look.number < last) return wrong("a torn record");
        last = look.number;
    }
    return 0;
}

int take_turns() {
    if (!caladan_turn_try(&page) || caladan_turn_try(&page)) return wrong("not one turn at a time");
    caladan_turn_set(&page, 2, caladan_turn_word(&page, 2) + 1);
    caladan_turn_end(&page);
    caladan_look look = {};
    caladan_observe(&page, &look);
    bool same = !look.busy && look.number == RECORDS + 1 && look.queued == RECORDS + 1;
    return same ? 0 : wrong("another record after a turn");
}

int send_and_bury() {
    caladan_sender sender = {&ring, 0};
    uint64_t command = 0, words[CALADAN_WORDS];
    caladan_ring_send(&sender, 4);
    caladan_ring_send(&sender, CALADAN_PARK);
    if (!caladan_room(sender.sent, 0) || !caladan_ring_take(&ring, &command) || command != 4)
        return wrong("another command");
    caladan_look gone = {};
    gone.number = 1;
    gone.taken = sender.sent;
    caladan_publisher successor;
    if (!caladan_bury(&page, &ring, &gone) || caladan_ring_take(&ring, &command))
        return wrong("a burial that leaves a command");
    if (!caladan_adopt(&successor, &page, words) || words[0] != 2) return wrong("another record of the gone");
    return successor.place == RECORDS + 2 ? 0 : wrong("the place of the burial");
}
} // namespace

int main() {
    std::thread publisher(publish_all);
    int failed = look_until_the_last();
    publisher.join();
    failed = failed || take_turns() || send_and_bury() || !CALADAN_IS_THIS_VERSION();
    std::puts(failed ? "pages_in_cpp: failed" : "pages_in_cpp: ok");
    return failed;
}
