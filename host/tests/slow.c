/* slow.c: runs a command for which a folder lies on a disk that sleeps: each opening, write, sync and renaming of its
 * files there takes so long. Who decides is a process beside it, which the kernel asks for each such call.
 *
 *   slow FOLDER MILLISECONDS COMMAND WORD.. */
#define _GNU_SOURCE
#include <errno.h>
#include <linux/filter.h>
#include <linux/seccomp.h>
#include <poll.h>
#include <pthread.h>
#include <stdbool.h>
#include <stddef.h>
#include <stdio.h>
#include <stdlib.h>
#include <string.h>
#include <sys/ioctl.h>
#include <sys/prctl.h>
#include <sys/socket.h>
#include <sys/syscall.h>
#include <unistd.h>

static const char *folder;
static unsigned milliseconds;
static int listener;

/* ---- the command ---- */

#define ASK(call) BPF_JUMP(BPF_JMP | BPF_JEQ | BPF_K, call, 0, 1), BPF_STMT(BPF_RET | BPF_K, SECCOMP_RET_USER_NOTIF)

static int be_asked_for(void) {
    struct sock_filter steps[] = {
        BPF_STMT(BPF_LD | BPF_W | BPF_ABS, offsetof(struct seccomp_data, nr)),
        ASK(SYS_openat), ASK(SYS_write), ASK(SYS_fsync), ASK(SYS_renameat), ASK(SYS_renameat2),
        BPF_STMT(BPF_RET | BPF_K, SECCOMP_RET_ALLOW),
    };
    struct sock_fprog program = {sizeof steps / sizeof *steps, steps};
    if (prctl(PR_SET_NO_NEW_PRIVS, 1, 0, 0, 0)) return -1;
    return (int)syscall(SYS_seccomp, SECCOMP_SET_MODE_FILTER, SECCOMP_FILTER_FLAG_NEW_LISTENER, &program);
}

/* ---- who decides ---- */

static void *answer_late(void *argument) {
    struct seccomp_notif_resp *answer = argument;
    usleep(milliseconds * 1000);
    ioctl(listener, SECCOMP_IOCTL_NOTIF_SEND, answer);
    free(answer);
    return NULL;
}

/* The first argument of each of these calls is a file, or the folder that a path begins in. */
static bool is_there(const struct seccomp_notif *it) {
    char path[64], file[4096];
    snprintf(path, sizeof path, "/proc/%u/fd/%d", it->pid, (int)it->data.args[0]);
    ssize_t length = readlink(path, file, sizeof file - 1);
    if (length < 0) return false;
    file[length] = 0;
    return !strncmp(file, folder, strlen(folder));
}

static void decide(void) {
    struct seccomp_notif it = {0};
    pthread_t thread;
    if (ioctl(listener, SECCOMP_IOCTL_NOTIF_RECV, &it)) return;
    struct seccomp_notif_resp *answer = calloc(1, sizeof *answer);
    *answer = (struct seccomp_notif_resp){.id = it.id, .flags = SECCOMP_USER_NOTIF_FLAG_CONTINUE};
    if (is_there(&it) && pthread_create(&thread, NULL, answer_late, answer) == 0) return (void)pthread_detach(thread);
    ioctl(listener, SECCOMP_IOCTL_NOTIF_SEND, answer);
    free(answer);
}

/* Until nobody is left who could ask. */
static void decide_each(void) {
    struct pollfd file = {listener, POLLIN, 0};
    while (poll(&file, 1, -1) >= 0 && (file.revents & POLLHUP) == 0) decide();
}

/* ---- a file from one to the other ---- */

static bool pass_on(int to, int *file, bool is_sender) {
    union {
        struct cmsghdr head;
        char room[CMSG_SPACE(sizeof(int))];
    } control = {{0}};
    char byte = 0;
    struct iovec part = {&byte, 1};
    struct msghdr message = {
        .msg_iov = &part, .msg_iovlen = 1, .msg_control = &control, .msg_controllen = sizeof control};
    control.head =
        (struct cmsghdr){.cmsg_level = SOL_SOCKET, .cmsg_type = SCM_RIGHTS, .cmsg_len = CMSG_LEN(sizeof *file)};
    if (is_sender) return memcpy(CMSG_DATA(&control.head), file, sizeof *file), sendmsg(to, &message, 0) == 1;
    if (recvmsg(to, &message, MSG_CMSG_CLOEXEC) != 1 || CMSG_FIRSTHDR(&message) == NULL) return false;
    return memcpy(file, CMSG_DATA(CMSG_FIRSTHDR(&message)), sizeof *file), true;
}

int main(int count, char **words) {
    int ends[2];
    if (count < 4) return 2;
    folder = words[1], milliseconds = (unsigned)atoi(words[2]);
    if (socketpair(AF_UNIX, SOCK_STREAM | SOCK_CLOEXEC, 0, ends)) return perror("slow"), 3;
    if (fork() == 0) {
        close(ends[0]);
        setsid();
        if (pass_on(ends[1], &listener, false)) decide_each();
        _exit(0);
    }
    listener = be_asked_for();
    if (listener < 0 || !pass_on(ends[0], &listener, true)) return perror("slow"), 3;
    close(listener);
    execvp(words[3], words + 3);
    return perror(words[3]), 3;
}
