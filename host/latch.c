/* latch.c: a count that falls to 0, and is waited for. */
#define _GNU_SOURCE
#include <limits.h>
#include "caladan_rt.h"
#include "host.h"

void caladan_latch_begin(caladan_latch *latch, uint32_t count) {
    __atomic_store_n(&latch->left, count, __ATOMIC_RELEASE);
}

/* Who waits may be back, and the latch gone, as soon as it has fallen: it is not looked at any more. */
void caladan_latch_done(caladan_latch *latch) {
    if (__atomic_fetch_sub(&latch->left, 1, __ATOMIC_ACQ_REL) == 1)
        syscall(SYS_futex, &latch->left, FUTEX_WAKE, INT_MAX, NULL, NULL, 0);
}

bool caladan_latch_wait(caladan_latch *latch, uint64_t ns) {
    uint64_t until = host_clock() + ns;
    for (uint32_t left; (left = __atomic_load_n(&latch->left, __ATOMIC_ACQUIRE)) != 0;) {
        uint64_t now = host_clock();
        if (ns && now >= until) return false;
        struct timespec rest = {(time_t)((until - now) / 1000000000u), (long)((until - now) % 1000000000u)};
        syscall(SYS_futex, &latch->left, FUTEX_WAIT, left, ns ? &rest : NULL, NULL, 0);
    }
    return true;
}
