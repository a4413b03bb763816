/* attach.c: how a process comes to its task's segment. */
#define _GNU_SOURCE
#include <errno.h>
#include <stdio.h>
#include <string.h>
#include <sys/mman.h>
#include <sys/socket.h>
#include <sys/stat.h>
#include "host.h"

const char *host_why(int error) {
    switch (error) {
    case EBUSY: return "the task is taken";
    case EPROTO: return "the scheduler's segment is of another version";
    case ENOENT:
    case EPIPE:
    case ECONNRESET:
    case ECONNREFUSED: return "there is no scheduler of that name, or its table has no such task";
    case EPERM: return "the scheduler, or its folder, is another user's, or others may enter it";
    case HOST_ERROR + HOST_NO_RIGHTS: return "the scheduler may not interrupt this process, which has another user too";
    case HOST_ERROR + HOST_OTHER_NAMESPACE: return "this process is in another pid namespace than the scheduler";
    case HOST_ERROR + HOST_OTHER_GROUP:
        return "this process is in another scheduling group than one that it is to stand under, or "
               "that is to stand under it: SCHED_IDLE says nothing there (cpu.idle; autogroups)";
    case HOST_ERROR + HOST_NO_MEMORY: return "the scheduler has no memory for a segment";
    case EBADMSG: return "what the scheduler handed out is no sealed segment";
    case EAGAIN: return "the scheduler does not answer";
    default: return strerror(error);
    }
}

static int errno_of(uint32_t status) {
    if (status == HOST_TAKEN) return EBUSY;
    if (status == HOST_OTHER_USER) return EPERM;
    return status <= HOST_OTHER_GROUP ? HOST_ERROR + (int)status : EPROTO;
}

/* ---- the socket ---- */

static int open_folder(const char *name) {
    char base[HOST_PATH];
    errno = ENOENT;
    if (!host_is_name(name) || !host_base(base)) return -1;
    int above = host_open_folder(AT_FDCWD, base);
    if (above < 0) return -1;
    int folder = host_open_folder(above, name), error = errno;
    close(above);
    errno = error;
    return folder;
}

/* Who listens at the other end is this user, or it is not spoken to. */
static bool is_own_user(int connection) {
    struct ucred peer = {0, (uid_t)-1, 0};
    socklen_t length = sizeof peer;
    if (getsockopt(connection, SOL_SOCKET, SO_PEERCRED, &peer, &length) == 0 && peer.uid == geteuid()) return true;
    errno = EPERM;
    return false;
}

static int connect_to(int folder, unsigned task) {
    struct sockaddr_un address;
    struct timeval patience = {10, 0};
    socklen_t length = host_address(&address, folder, task);
    int connection = socket(AF_UNIX, SOCK_SEQPACKET | SOCK_CLOEXEC, 0);
    if (connection < 0) return -1;
    setsockopt(connection, SOL_SOCKET, SO_RCVTIMEO, &patience, sizeof patience);
    setsockopt(connection, SOL_SOCKET, SO_SNDTIMEO, &patience, sizeof patience);
    if (connect(connection, (struct sockaddr *)&address, length) == 0 && is_own_user(connection)) return connection;
    int error = errno;
    close(connection);
    errno = error;
    return -1;
}

static bool say(int connection, uint32_t word) {
    host_word said = {HOST_VERSION, word, getpid()};
    return send(connection, &said, sizeof said, MSG_NOSIGNAL) == sizeof said;
}

/* One answer, with the segment's file or -1. There is room for one file: the kernel keeps any other. */
static bool receive(int connection, host_answer *answer, int *file) {
    union {
        struct cmsghdr head;
        char room[CMSG_SPACE(sizeof(int))];
    } control;
    struct iovec part = {answer, sizeof *answer};
    struct msghdr message = {
        .msg_iov = &part, .msg_iovlen = 1, .msg_control = &control, .msg_controllen = CMSG_LEN(sizeof(int))};
    *file = -1;
    ssize_t got = recvmsg(connection, &message, MSG_CMSG_CLOEXEC);
    if (got < 0) return false;
    struct cmsghdr *head = CMSG_FIRSTHDR(&message);
    if (head && head->cmsg_level == SOL_SOCKET && head->cmsg_type == SCM_RIGHTS &&
        head->cmsg_len == CMSG_LEN(sizeof *file))
        memcpy(file, CMSG_DATA(head), sizeof *file);
    errno = got == 0 ? ECONNREFUSED : EPROTO;
    return got == sizeof *answer && answer->version == HOST_VERSION;
}

/* ---- the segment ---- */

/* Nobody can make the file shorter, and it is as long as a segment: so no read of it can end this process. */
static bool is_segment(int file) {
    struct stat is;
    int seals = fcntl(file, F_GET_SEALS);
    return seals >= 0 && (seals & HOST_SEALS) == HOST_SEALS && fstat(file, &is) == 0 &&
           is.st_size == sizeof(host_segment);
}

static host_segment *map(int file) {
    errno = EBADMSG;
    if (file < 0 || !is_segment(file)) return NULL;
    host_segment *segment = mmap(NULL, sizeof *segment, PROT_READ | PROT_WRITE, MAP_SHARED | MAP_POPULATE, file, 0);
    if (segment == MAP_FAILED) return NULL;
    if (segment->version == HOST_VERSION && segment->threads - 1 < HOST_LIMIT) {
        /* A forked child has no kernel threads, and no business on their pages. */
        madvise(segment, sizeof *segment, MADV_DONTFORK);
        return segment;
    }
    munmap(segment, sizeof *segment);
    errno = EPROTO;
    return NULL;
}

static host_segment *greet(int connection) {
    host_answer answer;
    host_segment *segment = NULL;
    int file;
    if (!say(connection, HOST_HELLO)) return NULL;
    bool answered = receive(connection, &answer, &file);
    if (answered && answer.status != HOST_DONE) errno = errno_of(answer.status);
    else if (answered) segment = map(file);
    int error = errno;
    if (file >= 0) close(file);
    errno = error;
    return segment;
}

host_segment *host_meet(const char *name, unsigned task, int *connection) {
    int folder = open_folder(name);
    *connection = folder < 0 ? -1 : connect_to(folder, task);
    int error = errno;
    if (folder >= 0) close(folder);
    errno = error;
    if (*connection < 0) return NULL;
    host_segment *segment = greet(*connection);
    if (segment) return segment;
    error = errno;
    close(*connection);
    errno = error;
    return NULL;
}

bool host_take(host_segment *segment, int connection) {
    if (say(connection, HOST_MAPPED)) return true;
    int error = errno;
    munmap(segment, sizeof *segment);
    close(connection);
    errno = error;
    return false;
}

host_segment *host_attach(const char *name, unsigned task, int *connection) {
    host_segment *segment = host_meet(name, task, connection);
    return segment && host_take(segment, *connection) ? segment : NULL;
}
