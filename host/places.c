/* places.c: what only one scheduler may have: the folder of its name, and its processors. */
#define _GNU_SOURCE
#include <dirent.h>
#include <errno.h>
#include <stdlib.h>
#include <string.h>
#include <sys/file.h>
#include <sys/stat.h>
#include "caladand.h"

/* ---- the folder ---- */

static struct {
    int above, folder; /* the folder, open and locked, and the one that it is in */
    const char *name;
} place = {-1, -1, NULL};

static bool is_ours(const char *name) { return !strncmp(name, "task-", 5) || !strncmp(name, "metrics", 7); }

/* What schedulers put there: those of this run, or of one that was killed. */
static void empty_folder(void) {
    int again = openat(place.folder, ".", O_RDONLY | O_DIRECTORY | O_CLOEXEC);
    DIR *list = again < 0 ? NULL : fdopendir(again);
    for (struct dirent *it; list && (it = readdir(list));)
        if (is_ours(it->d_name)) unlinkat(place.folder, it->d_name, 0);
    if (list) closedir(list);
    else if (again >= 0) close(again);
}

/* A clerk that was not waited for may put a last file there. Once: the next scheduler may have the name by then. */
static void leave_folder(void) {
    int tries = 0, folder = place.folder;
    if (folder < 0) return;
    do empty_folder();
    while (unlinkat(place.above, place.name, AT_REMOVEDIR) && errno == ENOTEMPTY && tries++ < 8);
    place.folder = -1;
    close(folder); /* and its lock */
}

static int open_or_fail(int at, const char *path) {
    if (mkdirat(at, path, 0700) && errno != EEXIST) fail(path, strerror(errno));
    int folder = host_open_folder(at, path);
    if (folder < 0)
        fail(path, errno == EPERM ? "the folder is another user's, or others may enter it" : strerror(errno));
    return folder;
}

/* A folder that was left while we opened it is not the one that others find. */
static bool is_still_there(void) {
    struct stat opened, there;
    return fstat(place.folder, &opened) == 0 && fstatat(place.above, place.name, &there, AT_SYMLINK_NOFOLLOW) == 0 &&
           opened.st_ino == there.st_ino;
}

void take_folder(scheduler *s) {
    char base[HOST_PATH];
    if (!host_base(base)) fail("a folder for its sockets", "there is neither CALADAN_FOLDER nor XDG_RUNTIME_DIR");
    place.name = s->options.name;
    place.above = open_or_fail(AT_FDCWD, base);
    place.folder = open_or_fail(place.above, place.name);
    if (flock(place.folder, LOCK_EX | LOCK_NB) || !is_still_there())
        fail(place.name, "another scheduler has this name");
    atexit(leave_folder);
    empty_folder();
    s->folder = place.folder;
}

bool can_be_found(unsigned tasks) {
    char name[32];
    bool is_there = is_still_there();
    for (unsigned t = 0; t < tasks && is_there; t++) {
        snprintf(name, sizeof name, "task-%u", t);
        is_there = faccessat(place.folder, name, F_OK, 0) == 0;
    }
    return is_there;
}

/* ---- the processors ---- */

static int locked[HOST_CORES]; /* the files of the processors that are locked */
static unsigned locks;

/* Held until the process ends. Every scheduler on the machine meets there, whoever runs it. */
static void lock_processor(int cpu) {
    char path[64], word[64];
    snprintf(path, sizeof path, "/sys/devices/system/cpu/cpu%d", cpu);
    snprintf(word, sizeof word, "processor %d", cpu);
    int file = open(path, O_RDONLY | O_DIRECTORY | O_CLOEXEC);
    if (file < 0) return complain("%s: it cannot be locked: %s", word, strerror(errno));
    if (flock(file, LOCK_EX | LOCK_NB)) fail(word, "another scheduler manages it (or has its lock: lslocks says who)");
    locked[locks++] = file;
}

/* A clerk that waits for a disk which never answers would keep the files open, and so the locks. */
static void unlock_processors(void) {
    while (locks) flock(locked[--locks], LOCK_UN);
}

/* Each core has a processor of its own that this process may use, and none is the scheduler's. */
static void check_map(const options *o, unsigned cores, const cpu_set_t *allowed) {
    char word[64];
    if (o->cpus != cores) {
        snprintf(word, sizeof word, "it names %u processors, and the table has %u cores", o->cpus, cores);
        fail("-c", word);
    }
    if (o->mover >= 0 && !CPU_ISSET((size_t)o->mover, allowed))
        fail("-m", "the processor is not there, or not allowed");
    if (o->mover >= 0 && o->mover == o->own) fail("-m", "it is the scheduler's own processor");
    for (unsigned i = 0; i < o->cpus; i++) {
        snprintf(word, sizeof word, "processor %d", o->cpu[i]);
        if (!CPU_ISSET((size_t)o->cpu[i], allowed)) fail(word, "it is not there, or not allowed");
        if (o->cpu[i] == o->own) fail(word, "it is the scheduler's own");
        if (o->cpu[i] == o->mover) fail(word, "it is that of -m");
        for (unsigned j = 0; j < i; j++)
            if (o->cpu[i] == o->cpu[j]) fail(word, "it is named twice");
    }
}

void leave_places(void) {
    leave_folder();
    unlock_processors();
}

/* The scheduler runs on its own processor, else on those that it does not manage. */
void take_processors(scheduler *s) {
    const options *o = &s->options;
    cpu_set_t allowed, own;
    if (sched_getaffinity(0, sizeof allowed, &allowed)) fail("sched_getaffinity", strerror(errno));
    check_map(o, s->machine.cores, &allowed);
    for (unsigned i = 0; i < o->cpus; i++) CPU_CLR((size_t)o->cpu[i], &allowed);
    if (o->mover >= 0 && CPU_COUNT(&allowed) > 1) CPU_CLR((size_t)o->mover, &allowed);
    own = allowed;
    if (o->own >= 0) {
        CPU_ZERO(&own);
        CPU_SET((size_t)o->own, &own);
        if (CPU_COUNT(&allowed) > 1) CPU_CLR((size_t)o->own, &allowed);
    }
    s->others = allowed, s->place = own;
    if (CPU_COUNT(&own) && sched_setaffinity(0, sizeof own, &own)) fail("-o", strerror(errno));
    atexit(unlock_processors);
    for (unsigned i = 0; i < o->cpus; i++) lock_processor(o->cpu[i]);
}

/* The kernel moves a thread whose processor goes away, or whose cpuset has it no more; anyone of its user may. */
void look_after_own_place(scheduler *s) {
    int here = sched_getcpu();
    if (CPU_COUNT(&s->place) == 0 || here < 0 || CPU_ISSET((size_t)here, &s->place)) return;
    int error = sched_setaffinity(0, sizeof s->place, &s->place) ? errno : 0;
    uint64_t now = now_of(s);
    s->counts.displaced++;
    if (s->displaced_at && now - s->displaced_at < 1000000000u) return;
    s->displaced_at = now;
    if (error == 0) complain("the scheduler was moved to processor %d, and went back", here);
    else complain("the scheduler runs on processor %d, and cannot go back: %s", here, strerror(error));
}

/* ---- whoever started it ---- */

void tell_ready(void) {
    const char *to = getenv("NOTIFY_SOCKET");
    struct sockaddr_un address = {.sun_family = AF_UNIX};
    if (to == NULL || *to == 0 || strlen(to) >= sizeof address.sun_path) return;
    memcpy(address.sun_path, to, strlen(to));
    if (*to == '@') address.sun_path[0] = 0;
    int out = socket(AF_UNIX, SOCK_DGRAM | SOCK_CLOEXEC, 0);
    if (out < 0) return;
    sendto(out, "READY=1", 7, MSG_NOSIGNAL, (struct sockaddr *)&address,
           (socklen_t)(offsetof(struct sockaddr_un, sun_path) + strlen(to)));
    close(out);
}
