/* later.c: preloaded, it tells a program that the wall clock is an hour further on than it is: what waits until a time
 * of that clock waits as it would where the clock is set back by an hour. */
#define _GNU_SOURCE
#include <sys/syscall.h>
#include <time.h>
#include <unistd.h>

int clock_gettime(clockid_t clock, struct timespec *t) {
    int status = (int)syscall(SYS_clock_gettime, clock, t);
    if (status == 0 && clock == CLOCK_REALTIME) t->tv_sec += 3600;
    return status;
}
