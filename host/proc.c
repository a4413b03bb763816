/* proc.c: what the kernel tells in /proc of a process and its threads. A number may be another thread's by the time it
 * is read: whoever asks about a process looks afterwards whether it has ended meanwhile. */
#define _GNU_SOURCE
#include <inttypes.h>
#include <stdlib.h>
#include <string.h>
#include "caladand.h"

/* The text of a file of a thread; "" where there is none. */
static const char *text_of_thread(pid_t pid, pid_t tid, const char *name, char text[256]) {
    char path[64];
    snprintf(path, sizeof path, "/proc/%d/task/%d/%s", pid, tid, name);
    int file = open(path, O_RDONLY | O_CLOEXEC);
    ssize_t length = file < 0 ? 0 : read(file, text, 255);
    if (file >= 0) close(file);
    text[length > 0 ? length : 0] = 0;
    return text;
}

/* The file stays open: this is asked in passes. */
uint64_t run_delay(void) {
    static int file = -1;
    char text[256], *rest;
    if (file < 0) file = open("/proc/thread-self/schedstat", O_RDONLY | O_CLOEXEC);
    ssize_t length = file < 0 ? 0 : pread(file, text, sizeof text - 1, 0);
    text[length > 0 ? length : 0] = 0;
    strtoull(text, &rest, 10);
    return strtoull(rest, NULL, 10);
}

uint64_t on_cpu_time(pid_t pid, pid_t tid) {
    char text[256];
    return strtoull(text_of_thread(pid, tid, "schedstat", text), NULL, 10);
}

/* A name may have any letters, also ')'. */
static char state_of(pid_t pid, pid_t tid) {
    char text[256];
    const char *state = strrchr(text_of_thread(pid, tid, "stat", text), ')');
    return state && state[1] ? state[2] : 0;
}

bool is_runnable(pid_t pid, pid_t tid) { return state_of(pid, tid) == 'R'; }

const char *what_stops(pid_t pid, pid_t tid) {
    char text[256], state = state_of(pid, tid);
    if (state == 'T' || state == 't') return "; it is stopped, by SIGSTOP or a debugger";
    text_of_thread(pid, tid, "wchan", text);
    if (strstr(text, "freez") || strstr(text, "refrigerator")) return "; it is frozen, as docker pause does it";
    return "";
}

bool is_dumping_core(pid_t pid) {
    char path[64], text[4096];
    snprintf(path, sizeof path, "/proc/%d/status", pid);
    int file = open(path, O_RDONLY | O_CLOEXEC);
    ssize_t length = file < 0 ? 0 : read(file, text, sizeof text - 1);
    if (file >= 0) close(file);
    text[length > 0 ? length : 0] = 0;
    return strstr(text, "\nCoreDumping:\t1\n") != NULL;
}
