/* record.c: two buffers: passes write a piece into one of them, while a clerk writes it to its file, and the piece
 * before it from the other. */
#define _GNU_SOURCE
#include "record.h"
#include <errno.h>
#include <fcntl.h>
#include <semaphore.h>
#include <stdatomic.h>
#include <stdlib.h>
#include <string.h>
#include <stdio_ext.h>
#include <sys/mman.h>
#include <sys/stat.h>
#include <time.h>
#include <unistd.h>
#include "caladand.h"

#define OFTEN 250000000 /* how often what is new is written, in nanoseconds */
#define LAST ((uint64_t)5000000000) /* how long the disk is waited for when the run has ended, in nanoseconds */
enum { ROW = 256, ACTION = 64 }; /* more bytes than the longest look and the longest action have */
enum { IS_FREE, GROWS, IS_WHOLE };

typedef struct piece {
    record *of;
    char *room;
    FILE *out;
    uint64_t number;
    atomic_size_t filled;
    _Atomic int state; /* free is set by the clerk, the others by the passes */
} piece;

struct record {
    char path[HOST_PATH];
    int folder;
    uint64_t full; /* bytes of a piece that is to end */
    size_t size;   /* and of its room */
    piece piece[2], *now;
    sem_t bell;
    atomic_bool is_over, is_done; /* no other piece is begun; the clerk has written those that were */
    bool is_given_up;             /* and it is said why */
    _Atomic uint64_t failed;      /* the piece that the clerk could not write, and why; known when `error` is */
    atomic_int error;
};

/* ---- the folder ---- */

static void write_table(const record *r, const char *table) {
    int file = openat(r->folder, "table.toml", O_WRONLY | O_CREAT | O_EXCL | O_NOFOLLOW | O_CLOEXEC, 0600);
    size_t length = strlen(table);
    bool is_written = file >= 0 && write(file, table, length) == (ssize_t)length && fsync(file) == 0;
    if (!is_written || close(file)) fail(r->path, strerror(errno));
}

static void make_folder(record *r, const char *folder, const char *name) {
    int above = open(folder, O_RDONLY | O_DIRECTORY | O_CLOEXEC), made = -1;
    if (above < 0) fail(folder, strerror(errno));
    for (unsigned i = 1; made; i++) {
        if (snprintf(r->path, sizeof r->path, "%s/%s-%u", folder, name, i) >= (int)sizeof r->path)
            fail(folder, "the path is too long");
        made = mkdirat(above, r->path + strlen(folder) + 1, 0700);
        if (made && errno != EEXIST) fail(r->path, strerror(errno));
    }
    r->folder = host_open_folder(above, r->path + strlen(folder) + 1);
    if (r->folder < 0) fail(r->path, strerror(errno));
    close(above);
}

/* ---- a buffer ---- */

static ssize_t into_memory(void *to, const char *from, size_t length) {
    piece *it = to;
    size_t filled = atomic_load(&it->filled);
    if (length > it->of->size - filled) length = it->of->size - filled;
    memcpy(it->room + filled, from, length);
    atomic_store(&it->filled, filled + length);
    return (ssize_t)length;
}

static void make_buffer(record *r, piece *it) {
    static const cookie_io_functions_t functions = {.write = into_memory};
    it->of = r;
    /* MAP_POPULATE: no pass is to wait for memory */
    it->room = mmap(NULL, r->size, PROT_READ | PROT_WRITE, MAP_PRIVATE | MAP_ANONYMOUS | MAP_POPULATE, -1, 0);
    it->out = fopencookie(it, "w", functions);
    if (it->room == MAP_FAILED || it->out == NULL || setvbuf(it->out, NULL, _IOFBF, 1 << 16))
        fail("-r", strerror(ENOMEM));
}

/* ---- its clerk ---- */

static void name_of(uint64_t number, const char *end, char name[64]) {
    snprintf(name, 64, "piece-%06llu%s", (unsigned long long)number, end);
}

static void wait_a_while(record *r) {
    struct timespec until;
    clock_gettime(CLOCK_MONOTONIC, &until);
    until.tv_nsec += OFTEN;
    if (until.tv_nsec >= 1000000000) until.tv_nsec -= 1000000000, until.tv_sec++;
    sem_clockwait(&r->bell, CLOCK_MONOTONIC, &until);
}

static int write_all(const piece *it, int file, size_t *written, size_t filled) {
    while (*written < filled) {
        ssize_t did = write(file, it->room + *written, filled - *written);
        if (did < 0 && errno == EINTR) continue;
        if (did <= 0) return did < 0 ? errno : EIO;
        *written += (size_t)did;
    }
    return 0;
}

/* What is new, again and again. */
static int write_growing(record *r, piece *it, int file) {
    for (size_t written = 0;;) {
        bool is_over = atomic_load(&r->is_over), is_whole = atomic_load(&it->state) == IS_WHOLE;
        int error = write_all(it, file, &written, atomic_load(&it->filled));
        if (error || is_whole) return error;
        if (is_over) return ECANCELED;
        sync_file_range(file, 0, 0, SYNC_FILE_RANGE_WRITE); /* so that little is left to wait for at the end */
        wait_a_while(r);
    }
}

/* A file of a whole piece is whole, also where the machine stops at any moment. */
static int finish_piece(const record *r, int file, const char *part, const char *whole) {
    if (fsync(file)) return errno;
    if (renameat(r->folder, part, r->folder, whole)) return errno;
    return fsync(r->folder) ? errno : 0;
}

static int write_piece(record *r, piece *it) {
    char part[64], whole[64];
    name_of(it->number, ".part", part);
    name_of(it->number, ".history", whole);
    int file = openat(r->folder, part, O_WRONLY | O_CREAT | O_EXCL | O_NOFOLLOW | O_CLOEXEC, 0600);
    if (file < 0) return errno;
    int error = write_growing(r, it, file);
    if (error == 0) error = finish_piece(r, file, part, whole);
    if (close(file) && error == 0) error = errno;
    return error;
}

static bool is_begun(record *r, piece *it) {
    for (;;) {
        bool is_over = atomic_load(&r->is_over);
        if (atomic_load(&it->state) != IS_FREE) return true;
        if (is_over) return false;
        wait_a_while(r);
    }
}

static void write_pieces(void *with) {
    record *r = with;
    int error = 0;
    for (size_t i = 0; error == 0 && is_begun(r, &r->piece[i % 2]); i++) {
        piece *it = &r->piece[i % 2];
        error = write_piece(r, it);
        if (error) atomic_store(&r->failed, it->number), atomic_store(&r->error, error);
        else atomic_store(&it->state, IS_FREE);
    }
    atomic_store(&r->is_done, true);
}

/* ---- what passes see of it ---- */

record *record_open(const char *folder, const char *name, const char *table, uint64_t bytes, unsigned threads,
                    const cpu_set_t *writers) {
    uint64_t pass = ROW + (uint64_t)threads * ROW + CALADAN_MOST_ACTIONS * ACTION,
             end = ROW + (RECORD_END_PASSES + 1) * pass;
    uint64_t most = RECORD_MOST - strlen(table) - end;
    record *r = calloc(1, sizeof *r);
    if (r == NULL) fail("-r", strerror(ENOMEM));
    r->full = bytes < most ? bytes : most;
    r->size = r->full + end;
    for (int i = 0; i < 2; i++) make_buffer(r, &r->piece[i]);
    make_folder(r, folder, name);
    write_table(r, table);
    sem_init(&r->bell, 0, 0);
    if (!start_clerk(write_pieces, r, writers)) fail("-r", "no thread can be begun");
    return r;
}

const char *record_path(const record *r) { return r->path; }
FILE *record_file(record *r) { return r->now->out; }
bool record_is_full(const record *r) { return atomic_load(&r->now->filled) + __fpending(r->now->out) >= r->full; }

/* No other piece is begun. What is whole is still written, if it can be. */
static bool give_in(record *r, uint64_t number, const char *why) {
    complain("%s/piece-%06llu: %s: nothing is recorded any more", r->path, (unsigned long long)number, why);
    r->is_given_up = true;
    atomic_store(&r->is_over, true);
    sem_post(&r->bell);
    return false;
}

bool record_keeps_up(record *r) {
    int error = atomic_load(&r->error);
    return error == 0 ? true : give_in(r, atomic_load(&r->failed), strerror(error));
}

bool record_begin_piece(record *r, uint64_t number) {
    piece *it = r->now == &r->piece[0] ? &r->piece[1] : &r->piece[0];
    if (!record_keeps_up(r)) return false;
    if (atomic_load(&it->state) != IS_FREE) return give_in(r, number, "the disk is too slow for it");
    r->now = it;
    it->number = number;
    atomic_store(&it->filled, 0);
    atomic_store(&it->state, GROWS);
    sem_post(&r->bell);
    return caladan_history_begin(it->out) || give_in(r, number, strerror(EFBIG));
}

bool record_end_piece(record *r, uint64_t passes) {
    if (!caladan_history_end(r->now->out, passes)) return give_in(r, r->now->number, strerror(EFBIG));
    atomic_store(&r->now->state, IS_WHOLE);
    sem_post(&r->bell);
    return true;
}

static bool is_done(const void *of) { return atomic_load(&((const record *)of)->is_done); }
bool record_close(record *r) {
    atomic_store(&r->is_over, true);
    sem_post(&r->bell);
    bool is_in_time = wait_for_clerk(is_done, r, LAST);
    if (r->is_given_up) return false;
    if (is_in_time) return record_keeps_up(r);
    return give_in(r, r->now ? r->now->number : 0, "the disk has not taken it in time");
}
