/* watch_test.c: a runtime notices that it has no connection any more, by calls of the test's own: the scheduler closed
 * it, or the process itself did, whether its number is then no file's or another file's; and it looks on while it has
 * one. */
#define _GNU_SOURCE
#include <errno.h>
#include <poll.h>
#include <signal.h>
#include <stdio.h>
#include <stdlib.h>
#include <sys/socket.h>
#include "../runtime.h"

enum { MOST_POLLS = 1000 };
static short shows;        /* what poll finds of the connection */
static ssize_t reads;      /* what recv answers */
static int polls, closed_at; /* the poll from which on it is so; before that it says nothing */

int __wrap_ppoll(struct pollfd *file, nfds_t count, const struct timespec *wait, const sigset_t *mask);
int __wrap_ppoll(struct pollfd *file, nfds_t count, const struct timespec *wait, const sigset_t *mask) {
    (void)count, (void)wait, (void)mask;
    if (++polls >= MOST_POLLS) printf("it does not notice it\n"), exit(1);
    file->revents = polls < closed_at ? POLLIN : shows;
    return 1;
}
ssize_t __wrap_recv(int connection, void *to, size_t length, int how);
ssize_t __wrap_recv(int connection, void *to, size_t length, int how) {
    (void)connection, (void)to, (void)length, (void)how;
    if (polls < closed_at) return 1;
    if (reads < 0) errno = EBADF;
    return reads;
}

static void check(const char *what, short found, ssize_t answer) {
    static caladan_rt rt; /* without threads: there is nobody to tell */
    shows = found, reads = answer, polls = 0, closed_at = 10;
    atomic_store(&rt.is_over, false);
    atomic_store(&rt.is_watched, true);
    host_watch(&rt);
    if (atomic_load(&rt.is_over) && !atomic_load(&rt.is_watched) && polls == closed_at) return;
    printf("%s: noticed after %d looks\n", what, polls), exit(1);
}

int main(void) {
    check("the scheduler closes it", POLLIN | POLLHUP, 0);
    check("the scheduler has ended", POLLHUP | POLLERR, -1);
    check("the process closes it", POLLNVAL, -1);
    check("its number is another file's that has ended", POLLIN, 0);
    return 0;
}
