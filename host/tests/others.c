/* others.c: what others use of the processors, while the tests run: of all time on the processors that this process may
 * use, that which neither process PID nor any of its descendants had, stolen by a hypervisor or not.
 *
 *   others PID        each second a line: hundredths of a processor that others had since the line before
 *
 * It ends when PID has ended. */
#define _GNU_SOURCE
#include <dirent.h>
#include <sched.h>
#include <signal.h>
#include <stdbool.h>
#include <stdio.h>
#include <stdlib.h>
#include <string.h>
#include <time.h>
#include <unistd.h>

enum { MOST = 1 << 16, INTERVAL = 1000000 };
typedef struct process {
    int pid, parent;
    unsigned long long ticks; /* with those of the children that it has waited for */
    bool is_own;
} process;

static process found[MOST];
static cpu_set_t allowed;

/* Ticks of all processors that may be used on which somebody ran. */
static unsigned long long busy_ticks(void) {
    unsigned long long sum = 0, user, nice, kernel, idle, disk, hard, soft, stolen;
    int cpu;
    char line[512];
    FILE *in = fopen("/proc/stat", "r");
    while (in && fgets(line, sizeof line, in)) {
        int count = sscanf(line, "cpu%d %llu %llu %llu %llu %llu %llu %llu %llu", &cpu, &user, &nice, &kernel, &idle,
                           &disk, &hard, &soft, &stolen);
        if (count == 9 && CPU_ISSET((size_t)cpu, &allowed)) sum += user + nice + kernel + hard + soft + stolen;
    }
    if (in) fclose(in);
    return sum;
}

static bool read_process(int pid, process *it) {
    char path[32], text[1024];
    unsigned long long user, kernel, user_below, kernel_below;
    snprintf(path, sizeof path, "/proc/%d/stat", pid);
    FILE *in = fopen(path, "r");
    if (in == NULL) return false;
    size_t length = fread(text, 1, sizeof text - 1, in);
    fclose(in);
    text[length] = 0;
    const char *rest = strrchr(text, ')'); /* a name may have any letters */
    *it = (process){.pid = pid};
    int count = rest ? sscanf(rest + 1, " %*c %d %*d %*d %*d %*d %*u %*u %*u %*u %*u %llu %llu %llu %llu", &it->parent,
                              &user, &kernel, &user_below, &kernel_below)
                     : 0;
    if (count == 5) it->ticks = user + kernel + user_below + kernel_below;
    return count == 5;
}

static int find_processes(void) {
    int count = 0;
    DIR *all = opendir("/proc");
    for (struct dirent *each; all && (each = readdir(all)) && count < MOST;) {
        int pid = atoi(each->d_name);
        if (pid > 0) count += read_process(pid, &found[count]);
    }
    if (all) closedir(all);
    return count;
}

/* Marks whose parent is marked; whether there were some. */
static bool mark_children(int count, int at) {
    bool some = false;
    for (int i = 0; i < count; i++) {
        if (found[i].is_own || found[i].parent != found[at].pid) continue;
        found[i].is_own = some = true;
    }
    return some;
}

static bool mark_each(int count) {
    bool some = false;
    for (int i = 0; i < count; i++)
        if (found[i].is_own) some |= mark_children(count, i);
    return some;
}

static unsigned long long own_ticks(int root) {
    unsigned long long sum = 0;
    int count = find_processes();
    for (int i = 0; i < count; i++) found[i].is_own = found[i].pid == root;
    while (mark_each(count)) {}
    for (int i = 0; i < count; i++) sum += found[i].is_own ? found[i].ticks : 0;
    return sum;
}

/* What was used so far, and when. */
typedef struct used {
    double at; /* in seconds */
    unsigned long long busy, own;
} used;

/* Who ends while processes are read may be counted twice, or not at all: then they are read again. */
static used used_after(int root, const used *before) {
    struct timespec t;
    used now;
    for (int tries = 0; tries < 5; tries++) {
        now = (used){.busy = busy_ticks(), .own = own_ticks(root)};
        if (before == NULL || (now.own >= before->own && now.own - before->own <= now.busy - before->busy + 5)) break;
    }
    clock_gettime(CLOCK_MONOTONIC, &t);
    now.at = (double)t.tv_sec + (double)t.tv_nsec * 1e-9;
    return now;
}

int main(int count, char **words) {
    if (count != 2) return 2;
    int root = atoi(words[1]);
    double hertz = (double)sysconf(_SC_CLK_TCK);
    sched_getaffinity(0, sizeof allowed, &allowed);
    used before = used_after(root, NULL);
    while (usleep(INTERVAL) == 0 && kill(root, 0) == 0) {
        used now = used_after(root, &before);
        double others = (double)(now.busy - before.busy) - (double)now.own + (double)before.own;
        printf("%.0f\n", others > 0 ? others / hertz / (now.at - before.at) * 100 : 0);
        fflush(stdout);
        before = now;
    }
    return 0;
}
