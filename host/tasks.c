/* tasks.c: the processes: who attaches, who leaves, who ended. Nothing here waits. */
#define _GNU_SOURCE
#include <errno.h>
#include <poll.h>
#include <string.h>
#include <sys/epoll.h>
#include <sys/socket.h>
#include "caladand.h"

#ifndef SO_PEERPIDFD
#define SO_PEERPIDFD 77
#endif
/* How long who connects may take to say who it is, and that it has mapped its segment. */
#define GREETING ((uint64_t)4000000000)
#define MANNERS ((uint64_t)100000000)   /* and to say who it is, where others wait */
/* How often guests of a task are looked at, of whom at most one attaches then: so a crowd costs passes little. */
#define SELDOM ((uint64_t)10000000)

unsigned number_of(const scheduler *s, const host_task *task) { return (unsigned)(task - s->task); }

/* The thread numbers that a process hands over are its own, or nothing is done to them: the kernel is asked. */
bool is_own_thread(const host_task *task, pid_t tid) {
    return task->pid > 0 && tid > 0 && syscall(SYS_tgkill, task->pid, tid, 0) == 0;
}

/* The kernel refuses another process's thread. */
void interrupt(const host_task *task, const host_slot *slot) {
    pid_t tid = atomic_load(&slot->tid);
    ring_bell((host_slot *)slot); /* who is about to sleep does not; most do not sleep */
    if (tid > 0 && task->pid > 0) syscall(SYS_tgkill, task->pid, tid, HOST_SIGNAL);
}

/* ---- beginning and end ---- */

/* Until the file is closed, what happens to it has its task tended. */
static bool watch(const scheduler *s, const host_task *task, int file) {
    struct epoll_event event = {.events = EPOLLIN, .data.u32 = number_of(s, task)};
    return epoll_ctl(s->events, EPOLL_CTL_ADD, file, &event) == 0;
}

static int listen_for(const scheduler *s, unsigned t) {
    struct sockaddr_un address;
    char name[32];
    socklen_t length = host_address(&address, s->folder, t);
    int on = 1, listener = socket(AF_UNIX, SOCK_SEQPACKET | SOCK_CLOEXEC | SOCK_NONBLOCK, 0);
    snprintf(name, sizeof name, "task-%u", t);
    if (listener < 0 || bind(listener, (struct sockaddr *)&address, length)) fail(name, strerror(errno));
    if (setsockopt(listener, SOL_SOCKET, SO_PASSCRED, &on, sizeof on) || listen(listener, HOST_GUESTS))
        fail(name, strerror(errno));
    if (!watch(s, &s->task[t], listener)) fail(name, strerror(errno));
    return listener;
}

static void open_task(scheduler *s, unsigned t) {
    host_task *task = &s->task[t];
    caladan_table_row row;
    caladan_table_task(&s->handle, t, &row);
    *task = (host_task){.first = row.first_thread, .limit = row.limit};
    task->guaranteed = row.guaranteed, task->cap = row.limit, task->request = row.request;
    task->is_critical = row.kind == CALADAN_LATENCY_CRITICAL;
    task->is_under = s->options.under >> t & 1;
    task->memory = task->file = task->connection = -1;
    for (int i = 0; i < HOST_GUESTS; i++) task->guest[i].connection = -1;
    for (unsigned k = task->first; k < task->first + task->limit; k++) {
        s->thread[k].task = t;
        s->shown[k].task = (uint8_t)t;
        s->shown[k].is_critical = task->is_critical;
    }
    if (!make_segment(s, task)) fail("a segment", strerror(errno));
    task->listener = listen_for(s, t);
}

/* The first task's socket is the last: who sees it finds the others. */
void open_tasks(scheduler *s) {
    s->events = epoll_create1(EPOLL_CLOEXEC);
    if (s->events < 0) fail("epoll", strerror(errno));
    for (unsigned t = s->machine.tasks; t-- > 0;) open_task(s, t);
}

static void send_away(host_guest *guest) {
    if (guest->connection >= 0) close(guest->connection);
    guest->connection = -1;
}

void close_tasks(scheduler *s) {
    for (unsigned t = 0; t < s->machine.tasks; t++) {
        host_task *task = &s->task[t];
        drop_segment(task);
        close(task->listener);
        if (task->file >= 0) close(task->file), close(task->connection);
        for (int i = 0; i < HOST_GUESTS; i++) send_away(&task->guest[i]);
    }
    close(s->events);
}

/* ---- what is said over a connection ---- */

static void answer(int connection, uint32_t status, int file) {
    host_answer said = {HOST_VERSION, status};
    union {
        struct cmsghdr head;
        char room[CMSG_SPACE(sizeof(int))];
    } control = {{0}};
    struct iovec part = {&said, sizeof said};
    struct msghdr message = {.msg_iov = &part, .msg_iovlen = 1};
    if (status == HOST_DONE) {
        message.msg_control = &control, message.msg_controllen = sizeof control;
        control.head =
            (struct cmsghdr){.cmsg_level = SOL_SOCKET, .cmsg_type = SCM_RIGHTS, .cmsg_len = CMSG_LEN(sizeof file)};
        memcpy(CMSG_DATA(&control.head), &file, sizeof file);
    }
    sendmsg(connection, &message, MSG_NOSIGNAL | MSG_DONTWAIT);
}

/* What came: 1, a word, of the process that the kernel says sent it; 0, nothing yet; -1, the connection is closed, or
 * what came is no word. */
static int hear(int connection, host_word *word, pid_t *sender) {
    union {
        struct cmsghdr head;
        char room[CMSG_SPACE(sizeof(struct ucred))];
    } control;
    struct ucred from = {0, 0, 0};
    struct iovec part = {word, sizeof *word};
    struct msghdr message = {
        .msg_iov = &part, .msg_iovlen = 1, .msg_control = &control, .msg_controllen = sizeof control};
    ssize_t got = recvmsg(connection, &message, MSG_DONTWAIT | MSG_CMSG_CLOEXEC);
    if (got < 0) return errno == EAGAIN || errno == EINTR ? 0 : -1;
    struct cmsghdr *head = CMSG_FIRSTHDR(&message);
    if (head && head->cmsg_level == SOL_SOCKET && head->cmsg_type == SCM_CREDENTIALS &&
        head->cmsg_len == CMSG_LEN(sizeof from))
        memcpy(&from, CMSG_DATA(head), sizeof from);
    *sender = from.pid;
    return got == sizeof *word ? 1 : -1;
}

/* ---- who attaches ---- */

/* The process at the other end, as the kernel knows it, not as it says. An older kernel knows it by its number alone:
 * that it is still the same process is seen when it says that it has mapped its segment. */
static int file_of_peer(int connection, pid_t pid) {
    int file = -1;
    socklen_t length = sizeof file;
    if (getsockopt(connection, SOL_SOCKET, SO_PEERPIDFD, &file, &length) == 0) return file;
    return (int)syscall(SYS_pidfd_open, pid, 0);
}

/* Whether it can be interrupted, killed and pinned. */
static bool have_rights(int file, pid_t pid) {
    cpu_set_t cpus;
    if (syscall(SYS_pidfd_send_signal, file, 0, NULL, 0)) return false;
    return sched_getaffinity(pid, sizeof cpus, &cpus) == 0 &&
           (sched_setaffinity(pid, sizeof cpus, &cpus) == 0 || errno != EPERM);
}

static uint32_t judge(const host_task *task, int connection, const host_word *word, pid_t sender, struct ucred *peer) {
    socklen_t length = sizeof *peer;
    if (getsockopt(connection, SOL_SOCKET, SO_PEERCRED, peer, &length)) return HOST_NO_RIGHTS;
    if (peer->uid != geteuid()) return HOST_OTHER_USER;
    if (peer->pid <= 0 || word->process != peer->pid || sender != peer->pid) return HOST_OTHER_NAMESPACE;
    return task->pid ? HOST_TAKEN : HOST_DONE;
}

/* Whether what is said of classes holds between it and each process that is attached: a
 * best-effort one that stands under, and a latency-critical one. -1: it is not known yet. */
static int is_in_fit_group(const scheduler *s, const host_task *task, pid_t pid) {
    host_pair pairs[HOST_TASKS];
    size_t count = 0;
    for (unsigned t = 0; t < s->machine.tasks; t++) {
        const host_task *other = &s->task[t];
        if (other->pid == 0 || other == task) continue;
        if (task->is_under && other->is_critical) pairs[count++] = (host_pair){pid, other->pid};
        if (task->is_critical && other->is_under) pairs[count++] = (host_pair){other->pid, pid};
    }
    return each_gives_way(s->pairs, pairs, count, number_of(s, task), now_of(s));
}

static void dismiss(scheduler *s, host_guest *guest, uint32_t status) {
    answer(guest->connection, status, -1);
    send_away(guest);
    s->counts.refused++;
}

bool has_ended(const host_task *task) {
    struct pollfd file = {task->file, POLLIN, 0};
    return task->pid && poll(&file, 1, 0) > 0;
}

void bury(scheduler *s, host_task *task) {
    s->counts.ended += task->is_attached;
    give_up(s, task);
}

/* What becomes of a guest that has said who it is, or HOST_WAITS. */
static uint32_t judge_guest(scheduler *s, host_task *task, host_guest *guest, struct ucred *peer) {
    const host_word *word = &guest->word;
    bool is_hello = word->version == HOST_VERSION && word->word == HOST_HELLO;
    if (has_ended(task)) bury(s, task); /* its predecessor, which may have ended since we looked */
    uint32_t status = is_hello ? judge(task, guest->connection, word, guest->sender, peer) : HOST_NO_RIGHTS;
    if (status != HOST_DONE) return status;
    int fits = is_in_fit_group(s, task, peer->pid);
    if (fits <= 0) return fits ? HOST_WAITS : HOST_OTHER_GROUP;
    if (task->memory < 0) give_up(s, task); /* there was no memory; there may be some now */
    return task->memory < 0 ? HOST_NO_MEMORY : HOST_DONE;
}

/* Hands over the segment. Until the other end says that it has mapped it, its threads are granted nothing. */
static void hand_over(scheduler *s, host_task *task, host_guest *guest) {
    struct ucred peer = {0, 0, 0};
    uint32_t status = judge_guest(s, task, guest, &peer);
    if (status == HOST_WAITS) return;
    if (status != HOST_DONE) return dismiss(s, guest, status);
    int file = file_of_peer(guest->connection, peer.pid);
    if (file < 0 || !have_rights(file, peer.pid) || !watch(s, task, file)) {
        if (file >= 0) close(file);
        return dismiss(s, guest, HOST_NO_RIGHTS);
    }
    task->pid = peer.pid, task->file = file, task->connection = guest->connection;
    guest->connection = -1;
    task->handed_at = s->run_time + !s->run_time;
    strays_attach(s, task);
    answer(task->connection, HOST_DONE, task->memory);
}

static void hear_guest(scheduler *s, host_task *task, host_guest *guest) {
    int heard = guest->has_said ? 1 : hear(guest->connection, &guest->word, &guest->sender);
    guest->has_said = heard > 0;
    if (heard > 0) hand_over(s, task, guest);
    if (guest->connection < 0) return;
    if (heard < 0 || s->run_time - guest->at >= GREETING) send_away(guest); /* it only looked in */
}

/* The process that has the segment says that it has mapped it, or closes the connection. */
static void hear_owner(scheduler *s, host_task *task) {
    host_word word;
    pid_t sender = 0;
    int heard = hear(task->connection, &word, &sender);
    bool is_late = !task->is_attached && s->run_time - task->handed_at >= GREETING;
    if (heard == 0 && !is_late) return;
    if (heard > 0 && word.word == HOST_MAPPED && sender == task->pid && !task->is_attached && !has_ended(task) &&
        close_segment(task)) {
        task->is_attached = true;
        s->counts.attached++;
        return;
    }
    if (has_ended(task)) return bury(s, task);
    /* A process that is ending closes its connection first, and may count here. */
    s->counts.given_up += task->is_attached;
    give_up(s, task);
}

/* A place for who comes next: one that is free, or that of a guest who was silent for long enough. */
static host_guest *place_of_next(const scheduler *s, host_task *task) {
    host_guest *place = NULL;
    for (int i = 0; i < HOST_GUESTS; i++) {
        host_guest *guest = &task->guest[i];
        if (guest->connection < 0) return guest;
        if (!guest->has_said && (place == NULL || guest->at < place->at)) place = guest;
    }
    return place && s->run_time - place->at >= MANNERS ? place : NULL;
}

static void welcome(scheduler *s, host_task *task) {
    for (host_guest *guest; (guest = place_of_next(s, task));) {
        if (guest->connection >= 0) hear_guest(s, task, guest); /* it may have said something since */
        if (guest->connection >= 0 && guest->has_said) continue;
        int connection = accept4(task->listener, NULL, NULL, SOCK_CLOEXEC | SOCK_NONBLOCK);
        if (connection < 0) break;
        send_away(guest);
        *guest = (host_guest){.connection = connection, .at = s->run_time};
        if (!watch(s, task, connection)) send_away(guest);
    }
    for (int i = 0; i < HOST_GUESTS; i++)
        if (task->guest[i].connection >= 0) hear_guest(s, task, &task->guest[i]);
}

/* Who waits for an answer of ours is not kept waiting. */
static void answer_guests(scheduler *s, host_task *task) {
    for (int i = 0; i < HOST_GUESTS; i++)
        if (task->guest[i].connection >= 0 && task->guest[i].has_said) hear_guest(s, task, &task->guest[i]);
}

static void tend(scheduler *s, host_task *task) {
    uint64_t now = now_of(s);
    if (has_ended(task)) bury(s, task);
    if (task->connection >= 0) hear_owner(s, task);
    if (s->is_closing) return; /* or one after the other would keep a piece open */
    answer_guests(s, task);
    if (now - task->welcomed_at < SELDOM) return;
    task->welcomed_at = now;
    welcome(s, task);
}

/* Something is to come from it in time. */
static bool is_awaited(const host_task *task) {
    bool some = task->pid && !task->is_attached;
    for (int i = 0; i < HOST_GUESTS; i++) some |= task->guest[i].connection >= 0;
    return some;
}

/* One call asks for all of them. */
void tend_each(scheduler *s) {
    struct epoll_event events[64];
    bool is_due[HOST_TASKS] = {false};
    int some = epoll_wait(s->events, events, sizeof events / sizeof *events, 0);
    for (int i = 0; i < some; i++) is_due[events[i].data.u32] = true;
    for (unsigned t = 0; t < s->machine.tasks; t++)
        if (is_due[t] || is_awaited(&s->task[t])) tend(s, &s->task[t]);
}
