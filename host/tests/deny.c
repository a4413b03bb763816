/* deny.c: runs a command to which the kernel refuses one thing, as it would for want of rights or of a processor.
 *
 *   deny kill|pin|peer COMMAND WORD..
 *
 *   kill   no process can be killed by its file (EPERM)
 *   pin    no other thread can be pinned (EINVAL)
 *   peer   no socket tells the file of the process at its other end (ENOPROTOOPT), as before Linux 6.5 */
#define _GNU_SOURCE
#include <errno.h>
#include <linux/filter.h>
#include <linux/seccomp.h>
#include <signal.h>
#include <stdbool.h>
#include <stddef.h>
#include <stdio.h>
#include <string.h>
#include <sys/prctl.h>
#include <sys/syscall.h>
#include <unistd.h>

/* The low half of an argument, on machines of either order. */
#if __BYTE_ORDER__ == __ORDER_LITTLE_ENDIAN__
#define LOW(i) ((unsigned)(offsetof(struct seccomp_data, args) + 8 * (i)))
#else
#define LOW(i) ((unsigned)(offsetof(struct seccomp_data, args) + 8 * (i) + 4))
#endif

/* Refuses a call with an error where an argument is so, or where it is not. */
static int refuse(unsigned call, int argument, unsigned value, bool is_so, int error) {
    struct sock_filter steps[] = {
        BPF_STMT(BPF_LD | BPF_W | BPF_ABS, offsetof(struct seccomp_data, nr)),
        BPF_JUMP(BPF_JMP | BPF_JEQ | BPF_K, call, 0, 3),
        BPF_STMT(BPF_LD | BPF_W | BPF_ABS, LOW(argument)),
        BPF_JUMP(BPF_JMP | BPF_JEQ | BPF_K, value, !is_so, is_so),
        BPF_STMT(BPF_RET | BPF_K, SECCOMP_RET_ERRNO | (unsigned)error),
        BPF_STMT(BPF_RET | BPF_K, SECCOMP_RET_ALLOW),
    };
    struct sock_fprog program = {sizeof steps / sizeof *steps, steps};
    return prctl(PR_SET_NO_NEW_PRIVS, 1, 0, 0, 0) || prctl(PR_SET_SECCOMP, SECCOMP_MODE_FILTER, &program);
}

int main(int count, char **words) {
    int refused = 1;
    if (count < 3) return 2;
    if (!strcmp(words[1], "kill")) refused = refuse(SYS_pidfd_send_signal, 1, SIGKILL, true, EPERM);
    if (!strcmp(words[1], "pin")) refused = refuse(SYS_sched_setaffinity, 0, 0, false, EINVAL);
    if (!strcmp(words[1], "peer")) refused = refuse(SYS_getsockopt, 2, 77, true, ENOPROTOOPT);
    if (refused) return perror("deny"), 3;
    execvp(words[2], words + 2);
    return perror(words[2]), 3;
}
