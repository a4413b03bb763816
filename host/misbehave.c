/* misbehave.c: processes that do not keep their word, to see that only their own task suffers.
 * Each ends after SECONDS, if it is not killed before.
 *
 *   misbehave NAME TASK SECONDS HOW
 *
 *   noise    publishes random words at random places
 *   deaf     takes its Runs and works, and never hears of a Park
 *   half     is given a core, begins to publish, and stops there
 *   foreign  hands over the thread number of another process, its parent, as its own
 *   last     shows the last place that a page has, and ends
 *   last_one the same on one of its threads alone
 *   misses   shows as many misses as a record may have on each of its threads, and ends
 *   wordy    publishes records of the longest numbers, and never leaves
 *   storms   attaches and closes its connection, again and again
 *   visits   connects, says nothing and closes; it lives on
 *   silent   connects twelve times at once, says nothing, and comes again where it is sent away
 *   dumps    is given a core, and dumps core, with 512 MiB of memory
 *   closes   is given a core, closes its connection, and works on
 *   mixed    becomes nobody by half, as root alone can: its scheduler may not signal it
 *   awake    hands over, at each Run, the number of one or the other of two threads that never
 *            sleep, and leaves at once
 *   punches  would take the pages out of its segment again and again */
#define _GNU_SOURCE
#include <errno.h>
#include <pthread.h>
#include <stdio.h>
#include <stdlib.h>
#include <string.h>
#include <sys/mman.h>
#include "host.h"

static host_segment *segment;
static int connection;
static const char *how;
static uint64_t until;

static uint64_t now_ns(void) { return host_clock() - segment->epoch; }

static uint64_t draw(uint64_t *state) {
    *state ^= *state << 13, *state ^= *state >> 7, *state ^= *state << 17;
    return *state;
}

static void lie(host_slot *slot) {
    uint64_t state = (uint64_t)(uintptr_t)slot | 1;
    while (host_clock() < until) {
        for (int i = 0; i < CALADAN_WORDS; i++) atomic_store(&slot->page.words[i], draw(&state) >> (draw(&state) % 64));
        if (draw(&state) % 4) atomic_store(&slot->page.words[RUNNING], draw(&state) % 4);
        uint64_t version = atomic_load(&slot->page.version);
        atomic_store(&slot->page.version,
                     draw(&state) % 8 ? version + 2 - version % 2 : draw(&state) >> (draw(&state) % 64 | 1));
        if (draw(&state) % 16 == 0) atomic_store(&slot->ring.taken, draw(&state));
        if (draw(&state) % 16 == 0) atomic_store(&slot->tid, (int32_t)draw(&state));
        usleep(draw(&state) % 64 ? 0 : 100);
    }
}

/* Shows a request and waits for a core. */
static bool get_core(host_slot *slot, caladan_publisher *publisher, uint64_t words[CALADAN_WORDS]) {
    uint64_t command = 0;
    caladan_adopt(publisher, &slot->page, words);
    words[QUEUED] = 1;
    words[OLDEST] = now_ns();
    words[STAMP] = words[STAMP] > now_ns() ? words[STAMP] : now_ns();
    caladan_publish(publisher, words);
    while (command == 0 && host_clock() < until)
        if (caladan_ring_take(&slot->ring, &command)) words[TAKEN]++, caladan_publish(publisher, words);
        else usleep(50);
    words[RUNNING] = command;
    words[STARTED] = command ? words[OLDEST] : 0;
    words[QUEUED] = words[OLDEST] = 0;
    caladan_publish(publisher, words);
    return command != 0;
}

/* Works, and asks its ring: nobody interrupts a thread whose number is not the process's own. */
static void work(host_slot *slot, caladan_publisher *publisher, uint64_t words[CALADAN_WORDS]) {
    for (uint64_t command; host_clock() < until;) {
        while (caladan_ring_take(&slot->ring, &command)) {
            words[TAKEN]++;
            words[RUNNING] = command;
            words[STARTED] = words[PAUSED] = words[SINCE] = 0;
            caladan_publish(publisher, words);
        }
        usleep(100);
    }
}

/* The longest records that are kept: of misses, one a nanosecond. */
static void talk(host_slot *slot) {
    caladan_publisher publisher;
    uint64_t words[CALADAN_WORDS], from = host_clock();
    caladan_adopt(&publisher, &slot->page, words);
    uint64_t misses = words[MISSES];
    for (int i = 0; i < CALADAN_WORDS; i++) words[i] = UINT64_MAX;
    words[TAKEN] = words[RUNNING] = 0;
    for (; host_clock() < until; usleep(200)) {
        words[MISSES] = misses + (host_clock() - from);
        caladan_publish(&publisher, words);
    }
}

static void miss(host_slot *slot) {
    caladan_publisher publisher;
    uint64_t words[CALADAN_WORDS];
    caladan_adopt(&publisher, &slot->page, words);
    words[MISSES] = (uint64_t)1 << 56;
    for (int i = 0; i < 100; i++, usleep(2000)) caladan_publish(&publisher, words);
}

/* Memory that is written into a core file: no page is of zeros, and none is like another. */
static void fill_memory(void) {
    size_t size = (size_t)512 << 20;
    uint64_t *memory = mmap(NULL, size, PROT_READ | PROT_WRITE, MAP_PRIVATE | MAP_ANONYMOUS, -1, 0);
    if (memory == MAP_FAILED) perror("misbehave"), exit(2);
    for (size_t i = 0; i < size / sizeof *memory; i += 512) memory[i] = i + 1;
}

/* It waits until it is refused, and ends with status 7 where it is not from then on. */
static void punch(void) {
    while (host_clock() < until && madvise(segment, sizeof *segment, MADV_REMOVE) == 0) {}
    if (host_clock() >= until) exit(7);
    for (; host_clock() < until; usleep(100))
        if (madvise(segment, sizeof *segment, MADV_REMOVE) == 0) exit(7);
}

static void *run_on(void *argument) {
    atomic_store((_Atomic int32_t *)argument, (int32_t)syscall(SYS_gettid));
    while (host_clock() < until) host_pause();
    return NULL;
}

/* Who is pinned does not sleep: the kernel waits until it has moved. */
static void stay_awake(host_slot *slot) {
    static _Thread_local _Atomic int32_t tid[2];
    caladan_publisher publisher;
    uint64_t words[CALADAN_WORDS];
    pthread_t other;
    for (int i = 0; i < 2; i++)
        if (pthread_create(&other, NULL, run_on, &tid[i])) exit(2);
    for (unsigned i = 0; host_clock() < until; i++) {
        while (atomic_load(&tid[i % 2]) == 0) host_pause();
        atomic_store(&slot->tid, atomic_load(&tid[i % 2]));
        if (!get_core(slot, &publisher, words)) return;
        words[RUNNING] = words[STARTED] = 0;
        caladan_publish(&publisher, words);
    }
}

static int open_folder(const char *name) {
    char base[HOST_PATH], path[HOST_PATH + HOST_NAME + 2];
    if (!host_base(base)) exit(2);
    snprintf(path, sizeof path, "%s/%s", base, name);
    return host_open_folder(AT_FDCWD, path);
}

static int visit(const char *name, unsigned task) {
    struct sockaddr_un address;
    int folder = open_folder(name), visitor = socket(AF_UNIX, SOCK_SEQPACKET, 0);
    socklen_t length = host_address(&address, folder, task);
    if (connect(visitor, (struct sockaddr *)&address, length)) return perror("misbehave"), 2;
    close(visitor);
    while (host_clock() < until) usleep(1000);
    return 0;
}

/* Who is refused, since the one before is not given up yet, comes again. */
static int attach_again_and_again(const char *name, unsigned task) {
    while (host_clock() < until) {
        segment = host_attach(name, task, &connection);
        if (segment == NULL) continue;
        munmap(segment, sizeof *segment);
        close(connection);
    }
    return 0;
}

/* Twelve connections that say nothing; where one is closed, there is another. */
static int say_nothing(const char *name, unsigned task) {
    struct sockaddr_un address;
    int silent[12], folder = open_folder(name);
    char byte;
    socklen_t length = host_address(&address, folder, task);
    for (int i = 0; i < 12; i++) silent[i] = -1;
    for (; host_clock() < until; usleep(1000))
        for (int i = 0; i < 12; i++) {
            if (silent[i] >= 0 && recv(silent[i], &byte, 1, MSG_DONTWAIT) < 0 && errno == EAGAIN) continue;
            if (silent[i] >= 0) close(silent[i]);
            silent[i] = socket(AF_UNIX, SOCK_SEQPACKET | SOCK_NONBLOCK, 0);
            if (connect(silent[i], (struct sockaddr *)&address, length)) close(silent[i]), silent[i] = -1;
        }
    return 0;
}

static void *live(void *argument) {
    host_slot *slot = argument;
    caladan_publisher publisher;
    uint64_t words[CALADAN_WORDS];
    signal(HOST_SIGNAL, SIG_IGN);
    atomic_store(&slot->tid, (int32_t)(strcmp(how, "foreign") ? syscall(SYS_gettid) : getppid()));
    if (!strcmp(how, "noise")) return lie(slot), NULL;
    if (!strcmp(how, "wordy")) return talk(slot), NULL;
    if (!strcmp(how, "misses")) return miss(slot), NULL;
    if (!strcmp(how, "punches")) return punch(), NULL;
    if (!strcmp(how, "awake")) return stay_awake(slot), NULL;
    if (!strcmp(how, "last_one") && slot != segment->slot) return sleep(1), NULL;
    if (!strncmp(how, "last", 4)) return atomic_store(&slot->page.version, UINT64_MAX - 1), sleep(1), NULL;
    if (!get_core(slot, &publisher, words)) return NULL;
    if (!strcmp(how, "half")) caladan_publish_begin(&publisher);
    if (!strcmp(how, "foreign")) work(slot, &publisher, words);
    if (!strcmp(how, "closes")) close(connection);
    if (!strcmp(how, "dumps")) abort();
    while (host_clock() < until)
        if (strcmp(how, "deaf")) usleep(1000);
    return NULL;
}

int main(int count, char **words) {
    if (count != 5) return 2;
    until = host_clock() + strtoull(words[3], NULL, 10) * 1000000000u;
    how = words[4];
    if (!strcmp(how, "visits")) return visit(words[1], (unsigned)atoi(words[2]));
    if (!strcmp(how, "storms")) return attach_again_and_again(words[1], (unsigned)atoi(words[2]));
    if (!strcmp(how, "silent")) return say_nothing(words[1], (unsigned)atoi(words[2]));
    if (!strcmp(how, "dumps")) fill_memory();
    if (!strcmp(how, "mixed") && setresuid(0, 65534, 0)) return perror("misbehave"), 3;
    segment = host_attach(words[1], (unsigned)atoi(words[2]), &connection);
    if (segment == NULL) return fprintf(stderr, "misbehave: %s\n", host_why(errno)), 2;
    pthread_t thread[HOST_LIMIT];
    unsigned threads = segment->threads;
    for (unsigned i = 0; i < threads; i++)
        if (pthread_create(&thread[i], NULL, live, &segment->slot[i])) return 2;
    for (unsigned i = 0; i < threads; i++) pthread_join(thread[i], NULL);
    return 0;
}
