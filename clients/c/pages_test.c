/* Two processes and one page: each whole look is a record that the publisher wrote at that place, places
 * never fall, and a page left open is busy with its odd version, twice. Two processes and one ring:
 * commands are taken in the order in which they were sent. */
#define _GNU_SOURCE
#include "caladan_pages.h"
#include <stdio.h>
#include <stdlib.h>
#include <sys/mman.h>
#include <sys/wait.h>
#include <unistd.h>

enum { COMMANDS = 200000 };

typedef struct shared {
    caladan_page page;
    caladan_ring ring;
    _Atomic uint64_t told;
    _Atomic int stop;
} shared;

/* The word at a place: each is a function of the place, and taken, misses and stamp rise. */
static uint64_t word_at(uint64_t place, int word) { return place * 16 + (uint64_t)word; }

/* The next command, where there is room: the taker tells how many it took, in a word of its own. */
static void send_one(shared *both, caladan_sender *sender) {
    if (caladan_room(sender->sent, atomic_load(&both->told))) caladan_ring_send(sender, sender->sent * 3 + 1);
}

static void publish_until_stopped(shared *both) {
    caladan_publisher publisher = {&both->page, 0};
    uint64_t words[CALADAN_WORDS];
    caladan_sender sender = {&both->ring, 0};
    while (!atomic_load(&both->stop)) {
        for (int i = 0; i < CALADAN_WORDS; i++) words[i] = word_at(publisher.place + 1, i);
        caladan_publish(&publisher, words);
        if (sender.sent < COMMANDS) send_one(both, &sender);
    }
    caladan_publish_begin(&publisher);
    while (sender.sent < COMMANDS) send_one(both, &sender);
}

static int wrong(const char *what, uint64_t place) {
    fprintf(stderr, "pages_test: %s at %llu\n", what, (unsigned long long)place);
    return 1;
}

static int check_whole(const caladan_look *look) {
    uint64_t words[CALADAN_WORDS];
    caladan_look_words(look, words);
    for (int i = 0; i < CALADAN_WORDS; i++)
        if (words[i] != (look->number ? word_at(look->number, i) : 0)) return wrong("a torn record", look->number);
    return 0;
}

static int check_busy(const caladan_look *look) {
    bool pair = look->number % 2 ? look->second == look->number : look->second > look->number;
    return pair ? 0 : wrong("no busy pair", look->number);
}

/* Takes a command if there is one; false where it is another than the next. */
static bool take_one(shared *both, uint64_t *taken) {
    uint64_t command;
    if (!caladan_ring_take(&both->ring, &command)) return true;
    if (command != *taken * 3 + 1) return false;
    atomic_store(&both->told, ++*taken);
    return true;
}

int main(int argc, char **argv) {
    uint64_t looks = argc > 1 ? strtoull(argv[1], NULL, 10) : 1000000;
    shared *both = mmap(NULL, sizeof *both, PROT_READ | PROT_WRITE, MAP_SHARED | MAP_ANONYMOUS, -1, 0);
    if (both == MAP_FAILED) return 2;
    pid_t child = fork();
    if (child == 0) {
        publish_until_stopped(both);
        _exit(0);
    }
    caladan_look look = {0};
    uint64_t floor = 0, whole = 0, busy = 0, taken = 0;
    while (whole < looks) {
        caladan_observe(&both->page, &look);
        if (look.busy) {
            busy++;
            if (check_busy(&look)) return 1;
        } else {
            whole++;
            if (check_whole(&look)) return 1;
            if (look.number < floor) return wrong("a place fell", look.number);
            floor = look.number;
        }
        if (taken < COMMANDS && !take_one(both, &taken)) return wrong("another command", taken);
    }
    atomic_store(&both->stop, 1);
    while (taken < COMMANDS)
        if (!take_one(both, &taken)) return wrong("another command", taken);
    waitpid(child, NULL, 0);
    for (int again = 0; again < 2; again++) {
        caladan_observe(&both->page, &look);
        if (!look.busy || look.number % 2 == 0 || look.second != look.number)
            return wrong("an open page is not busy", look.number);
    }
    fprintf(stderr, "pages_test: %llu whole looks, %llu busy, last place %llu\n", (unsigned long long)looks,
            (unsigned long long)busy, (unsigned long long)floor);
    puts("pages_test: ok");
    return 0;
}
