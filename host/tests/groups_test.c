/* groups_test.c: between which processes SCHED_IDLE means anything, by files of /proc and of
 * control groups that the test writes into a folder of its own. */
#define _GNU_SOURCE
#include <stdarg.h>
#include <stdio.h>
#include <stdlib.h>
#include <string.h>
#include <sys/stat.h>
#include "caladand.h"

static char folder[64], proc[80];
static int failed;

/* The text is the file's at this path below the folder; folders on the way are made. */
static void put(const char *path, const char *format, ...) {
    char whole[512];
    va_list rest;
    snprintf(whole, sizeof whole, "%s/%s", folder, path);
    for (char *at = whole + strlen(folder) + 1; (at = strchr(at, '/')); *at++ = '/')
        *at = 0, mkdir(whole, 0700);
    FILE *out = fopen(whole, "w");
    if (out == NULL) perror(whole), exit(2);
    va_start(rest, format);
    vfprintf(out, format, rest);
    va_end(rest);
    fclose(out);
}

/* Processes 1 and 2 are in these groups; `first`: of the version that has a tree for each
 * controller. */
static void put_in(bool first, const char *one, const char *two) {
    const char *of = first ? "3:cpuset:/elsewhere\n2:cpu,cpuacct:%s\n0::/\n" : "0::%s\n";
    put("proc/1/cgroup", of, one);
    put("proc/2/cgroup", of, two);
}

static void check(bool is, const char *what) {
    if (gives_way(1, 2) == is) return;
    printf("%s: %s\n", what, is ? "it does not give way" : "it gives way");
    failed = 1;
}

static void sessions(const char *one, const char *two) {
    put("proc/1/autogroup", "/autogroup-%s nice 0\n", one);
    put("proc/2/autogroup", "/autogroup-%s nice 0\n", two);
}

static const char *tree; /* where the groups of the version are that is looked at */

static void set_idle(const char *group, int value) {
    char path[64];
    snprintf(path, sizeof path, "%s/%s/cpu.idle", tree, group);
    put(path, "%d\n", value);
}

static void check_place(bool first) {
    put_in(first, "/", "/");
    check(true, "both in the root's group");
    put_in(first, "/lc", "/lc");
    check(true, "both in one group");
    put_in(first, "/be", "/lc");
    check(false, "groups side by side");
    put_in(first, "/be/low", "/lc");
    check(false, "a group below one beside");
    put_in(first, "/be", "/be/low");
    check(true, "the other one in a group below");
    put_in(first, "/be/low", "/be");
    check(false, "itself in a group below");
    put_in(first, "/", "/lc");
    check(true, "itself in the root's group");
    put_in(first, "/lower", "/low");
    check(false, "a name that begins with the other one");
    put_in(first, "/../x", "/lc");
    check(false, "a group that is not seen");
}

static void check_idle(bool first) {
    set_idle("be", 1);
    put_in(first, "/be", "/lc");
    check(true, "a group with cpu.idle");
    put_in(first, "/be/low", "/lc");
    check(true, "a group below one with cpu.idle");
    put_in(first, "/be/low", "/be");
    check(false, "a group that is below one with cpu.idle, and so is the other one");
    put_in(first, "/be", "/be");
    check(true, "both in one with cpu.idle");
    set_idle("lc", 1);
    put_in(first, "/be", "/lc");
    check(false, "the other one's group has cpu.idle too");
}

static void check_version(bool first) {
    static const char *const groups[] = {"lc", "be", "be/low", "lower", "low"};
    tree = first ? "cpu" : "unified";
    for (size_t i = 0; i < sizeof groups / sizeof *groups; i++) set_idle(groups[i], 0);
    put("proc/sys/kernel/sched_autogroup_enabled", "0\n");
    check_place(first);
    check_idle(first);
}

int main(void) {
    strcpy(folder, "/tmp/groups.XXXXXX");
    if (mkdtemp(folder) == NULL) return perror(folder), 2;
    snprintf(proc, sizeof proc, "%s/proc", folder);
    groups_proc = proc;
    put("proc/self/mountinfo",
        "30 20 0:26 / %s/cpu rw,relatime shared:9 - cgroup cgroup rw,cpu,cpuacct\n"
        "31 20 0:27 / %s/cpuset rw - cgroup cgroup rw,cpuset\n"
        "32 20 0:28 / %s/unified rw - cgroup2 cgroup2 rw\n",
        folder, folder, folder);
    check_version(true);
    check_version(false);
    put_in(false, "/be/none", "/be");
    check(true, "a group to which no controller is given counts as the one above");
    put("proc/sys/kernel/sched_autogroup_enabled", "1\n");
    put_in(true, "/", "/");
    sessions("7", "7");
    check(true, "one session");
    sessions("7", "71");
    check(false, "two sessions with groups of their own");
    put_in(true, "/lc", "/lc");
    check(true, "two sessions, both in a group that is not the root's");
    put("proc/sys/kernel/sched_autogroup_enabled", "0\n");
    put_in(true, "/", "/");
    check(true, "two sessions, and no groups for them");
    char command[128];
    snprintf(command, sizeof command, "rm -r %s", folder);
    return system(command) ? 2 : failed;
}
