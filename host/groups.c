/* groups.c: whether SCHED_IDLE means anything between two processes. The kernel divides a
 * processor among scheduling groups first, and among the threads of a group then: so a thread in
 * SCHED_IDLE gives way to those of its own group and of groups below it, and to others only
 * where its own group is one that does (cpu.idle). Groups are control groups with a cpu
 * controller; and each session is one, where autogroups are on, of those in the root's. */
#define _GNU_SOURCE
#include <stdio.h>
#include <stdlib.h>
#include <string.h>
#include "caladand.h"

const char *groups_proc = "/proc";

typedef struct group {
    char mount[HOST_PATH]; /* where the controller's files are; empty: nowhere */
    char path[HOST_PATH];  /* of the group, below it; "/" is the root's */
    bool is_session;       /* the last word of the path is an autogroup's, which has no files */
} group;

/* ---- reading ---- */

static FILE *open_of(const char *of, const char *name) {
    char path[HOST_PATH];
    int length = snprintf(path, sizeof path, "%s/%s/%s", groups_proc, of, name);
    return length < (int)sizeof path ? fopen(path, "re") : NULL;
}

static bool has_word(const char *list, const char *word) {
    size_t length = strlen(word);
    for (const char *at = list; (at = strstr(at, word)); at += length)
        if ((at == list || at[-1] == ',') && (at[length] == 0 || at[length] == ',')) return true;
    return false;
}

/* The mount point of the cpu controller of version 1, or of the tree of version 2. */
static void find_mount(bool is_first, char mount[HOST_PATH]) {
    char line[2 * HOST_PATH], at[HOST_PATH], kind[64], words[HOST_PATH];
    FILE *in = open_of("self", "mountinfo");
    mount[0] = 0;
    while (in && mount[0] == 0 && fgets(line, sizeof line, in)) {
        const char *rest = strstr(line, " - ");
        if (rest == NULL || sscanf(line, "%*s %*s %*s %*s %4095s", at) != 1) continue;
        if (sscanf(rest, " - %63s %*s %4095s", kind, words) != 2) continue;
        bool is_it = !strcmp(kind, is_first ? "cgroup" : "cgroup2");
        if (is_it && (!is_first || has_word(words, "cpu"))) memcpy(mount, at, strlen(at) + 1);
    }
    if (in) fclose(in);
}

/* The path of the process in the tree of the cpu controller: a line of version 1 goes before
 * that of version 2. */
static bool find_path(const char *process, group *g, bool *is_first) {
    char line[2 * HOST_PATH];
    FILE *in = open_of(process, "cgroup");
    g->path[0] = 0;
    *is_first = false;
    while (in && !*is_first && fgets(line, sizeof line, in)) {
        char *list = strchr(line, ':'), *path = list ? strchr(list + 1, ':') : NULL;
        if (path == NULL) continue;
        *path++ = 0;
        path[strcspn(path, "\n")] = 0;
        *is_first = has_word(list + 1, "cpu");
        if (*is_first || list[1] == 0) snprintf(g->path, sizeof g->path, "%s", path);
    }
    if (in) fclose(in);
    return g->path[0] == '/';
}

/* What a file of the group at this path says, or -1. */
static int number_in(const group *g, size_t length, const char *name) {
    char path[3 * HOST_PATH];
    int value = -1;
    snprintf(path, sizeof path, "%s%.*s/%s", g->mount, (int)length, g->path, name);
    FILE *in = g->mount[0] ? fopen(path, "re") : NULL;
    if (in == NULL) return -1;
    if (fscanf(in, "%d", &value) != 1) value = -1;
    fclose(in);
    return value;
}

static bool has_sessions(void) {
    int is = 0;
    FILE *in = open_of("sys/kernel", "sched_autogroup_enabled");
    if (in && fscanf(in, "%d", &is) != 1) is = 0;
    if (in) fclose(in);
    return is != 0;
}

static void add_session(const char *process, group *g) {
    char word[64] = "";
    FILE *in = open_of(process, "autogroup");
    g->is_session = in && fscanf(in, "%63s", word) == 1;
    if (g->is_session) snprintf(g->path, sizeof g->path, "%s", word);
    if (in) fclose(in);
}

/* In version 2 a group has a controller only where the groups above give it one; else it counts
 * as the one above. */
static void go_up(group *g) {
    while (strcmp(g->path, "/") && number_in(g, strlen(g->path), "cpu.idle") < 0) {
        char *last = strrchr(g->path, '/');
        last[last == g->path] = 0;
    }
}

static bool group_of(pid_t pid, group *g) {
    char process[32];
    bool is_first;
    snprintf(process, sizeof process, "%d", pid);
    g->is_session = false;
    /* a kernel without control groups */
    if (!find_path(process, g, &is_first)) strcpy(g->path, "/");
    if (!strncmp(g->path, "/..", 3)) return false; /* outside of what we see */
    find_mount(is_first, g->mount);
    if (!is_first) go_up(g);
    if (!strcmp(g->path, "/") && has_sessions()) add_session(process, g);
    return true;
}

/* ---- comparing ---- */

/* How long the part is that both have, in whole words: 0 is the root alone. */
static size_t shared_part(const char *a, const char *b) {
    size_t part = 0;
    if (!strcmp(a, "/") || !strcmp(b, "/")) return 0;
    for (size_t i = 0;; i++) {
        bool ends_a = a[i] == 0 || a[i] == '/', ends_b = b[i] == 0 || b[i] == '/';
        if (i && ends_a && ends_b) part = i;
        if (a[i] != b[i] || a[i] == 0) return part;
    }
}

/* Whether the first group of this path below that part gives way; -1: the path ends there. */
static int child_is_idle(const group *g, size_t part) {
    if (g->path[part] == 0 || !strcmp(g->path, "/")) return -1;
    if (g->is_session) return 0;
    return number_in(g, part + 1 + strcspn(g->path + part + 1, "/"), "cpu.idle") == 1;
}

bool gives_way(pid_t under, pid_t to) {
    static group a, b;
    if (!group_of(under, &a) || !group_of(to, &b)) return false;
    size_t part = shared_part(a.path, b.path);
    return child_is_idle(&a, part) != 0 && child_is_idle(&b, part) != 1;
}
