/* A heap of one's own: the three functions that the library takes memory by, over an arena, without liblibc_c.a. It
 * opens a table and makes passes, in which nothing is asked for; sees that an arena that is too small is no memory; and
 * that what is closed is given back. Prints 'own_heap: ok'. */
#include "caladan.h"
#include "check.h"

enum { ROOM = 1 << 22, HEAD = 16, PASSES = 1000 };
static _Alignas(16) unsigned char arena[ROOM];
static size_t used, room = ROOM, live, asked;

/* Blocks one after the other, each behind its size; what is given back is never used again. */
caladan_block rattle_alloc(size_t size, size_t alignment) {
    caladan_block none = {false, NULL}, block = {true, arena + used + HEAD};
    size_t whole = HEAD + (size + 15) / 16 * 16;
    asked++;
    if (alignment > 16 || size > ROOM || whole > room - used) return none;
    memcpy(arena + used, &size, sizeof size);
    used += whole;
    live++;
    return block;
}

void rattle_dealloc(void *at) {
    CHECK(at && live);
    live--;
}

caladan_block rattle_realloc(void *at, size_t kept, size_t size, size_t alignment) {
    caladan_block block = rattle_alloc(size, alignment);
    if (!block.ok) return block;
    memcpy(block.at, at, kept < size ? kept : size);
    rattle_dealloc(at);
    return block;
}

static const char TABLE[] = "cores = 2\nbandwidth_limit = 1000\n"
                            "[[task]]\nkind = \"lc\"\nguaranteed = 1\nlimit = 1\ndelay = 10\nrequest = 50\n";

static void make_passes(caladan *handle) {
    static caladan_action actions[CALADAN_MOST_ACTIONS];
    caladan_look look = {.room = 1};
    uint8_t judged;
    size_t made, grants = 0, before = asked;
    for (uint64_t now = 100; now < 100 + PASSES; now++) {
        look.number++, look.queued = 1, look.oldest = 1, look.stamp = now;
        CHECK(caladan_pass_each(handle, now, 0, &look, 1, &judged, 1, actions, CALADAN_MOST_ACTIONS, &made) ==
              CALADAN_DONE);
        for (size_t k = 0; k < made; k++) grants += actions[k].kind == CALADAN_GRANT;
    }
    CHECK(grants == 1 && asked == before);
}

int main(void) {
    caladan handle = CALADAN_CLOSED;
    const uint8_t *table = (const uint8_t *)TABLE;
    size_t refused = 0;
    for (room = 0; room < ROOM && !handle.open; room += 512, used = 0) {
        uint8_t answer = caladan_open(table, sizeof TABLE - 1, &handle);
        CHECK(answer == CALADAN_NO_MEMORY || answer == CALADAN_DONE);
        CHECK(answer == CALADAN_DONE || (!handle.open && !live));
        refused += answer == CALADAN_NO_MEMORY;
        if (answer == CALADAN_DONE) break;
    }
    CHECK(refused > 0 && handle.open && live > 0 && asked > 0);
    make_passes(&handle);
    CHECK(caladan_close(&handle) == CALADAN_DONE && !live);
    puts(failed ? "own_heap: failed" : "own_heap: ok");
    return failed;
}
