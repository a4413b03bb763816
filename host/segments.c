/* segments.c: the memory that is shared with a task's process, and what becomes of it when the process is gone. */
#define _GNU_SOURCE
#include <errno.h>
#include <string.h>
#include <sys/mman.h>
#include "caladand.h"

/* Where there is no memory to share, a task has a segment that nobody else sees, and nobody is let in. */
static host_segment unshared[HOST_TASKS];

static host_segment *share(host_task *task) {
    size_t size = sizeof *task->segment;
    task->memory = memfd_create("caladan", MFD_CLOEXEC | MFD_ALLOW_SEALING);
    if (task->memory < 0) return NULL;
    host_segment *segment = MAP_FAILED;
    if (ftruncate(task->memory, (off_t)size) == 0 && fcntl(task->memory, F_ADD_SEALS, HOST_SEALS) == 0)
        segment = mmap(NULL, size, PROT_READ | PROT_WRITE, MAP_SHARED | MAP_POPULATE, task->memory, 0);
    /* Where it may not be locked, it is in memory as long as it is looked at. */
    if (segment != MAP_FAILED) return mlock(segment, size), segment;
    close(task->memory);
    task->memory = -1;
    return NULL;
}

bool make_segment(scheduler *s, host_task *task) {
    task->segment = share(task);
    if (task->segment == NULL) task->segment = memset(&unshared[number_of(s, task)], 0, sizeof unshared[0]);
    task->segment->version = HOST_VERSION;
    task->segment->epoch = s->epoch;
    task->segment->threads = task->limit;
    task->segment->stands_under = task->is_under;
    for (unsigned core = 0; core < s->machine.cores; core++) task->segment->processor[core] = s->options.cpu[core];
    atomic_store(&task->segment->phase, s->phase);
    for (unsigned i = 0; i < task->limit; i++)
        s->thread[task->first + i].seat.slot = &task->segment->slot[i];
    return task->memory >= 0;
}

void beat(scheduler *s) {
    for (unsigned t = 0; t < s->machine.tasks; t++)
        atomic_fetch_add_explicit(&s->task[t].segment->heartbeat, 1, memory_order_relaxed);
}

void drop_segment(host_task *task) {
    if (task->memory < 0) return;
    munmap(task->segment, sizeof *task->segment);
    close(task->memory);
    task->memory = -1;
}

/* From here on the kernel maps the file to nobody else for writing, and punches no page out of it. */
bool close_segment(const host_task *task) {
    int seals = fcntl(task->memory, F_ADD_SEALS, HOST_LAST_SEALS) == 0 ? fcntl(task->memory, F_GET_SEALS) : 0;
    return (seals & HOST_LAST_SEALS) == HOST_LAST_SEALS;
}

/* ---- nobody has it any more ---- */

/* What the page of a thread must show from here on; or, where no page can, what each pass is given. */
static void bury_thread(scheduler *s, size_t k) {
    host_thread *thread = &s->thread[k];
    host_seat *seat = &thread->seat;
    seat->pin.sender = (caladan_sender){&seat->slot->ring, stands_under(s, k) ? 0 : thread->sent};
    seat->pin.tid = seat->pin.idle = 0;
    seat->is_refused = seat->is_unacked = thread->is_deferred = seat->leaving.is_set = false;
    seat->retry_at = seat->left_at = 0;
    seat->pin.slow = 0;
    seat->place = seat->misses = 0;
    seat->from = now_of(s);
    if (stands_under(s, k)) return under_bury(s, k);
    if (thread->by_hand) return;
    thread->gone = (caladan_look){.busy = 1, .number = 1, .second = 1};
    thread->by_hand = caladan_gone(&s->handle, k, &thread->gone) != CALADAN_DONE ||
                      !caladan_bury(&seat->slot->page, &seat->slot->ring, &thread->gone);
    atomic_store(&seat->slot->ring.sent, thread->sent);
    atomic_store(&seat->slot->ring.taken, thread->sent);
    seat->place = atomic_load(&seat->slot->page.version) / 2;
    seat->misses = thread->gone.misses;
    s->counts.worn += thread->by_hand;
}

/* Its threads are put back where the scheduler does not manage, and into the normal class where
 * they may be, if they are still there. */
static void unpin_each(scheduler *s, const host_task *task) {
    struct sched_param none = {0};
    for (unsigned k = task->first; k < task->first + task->limit; k++) {
        pid_t tid = s->thread[k].seat.pin.tid;
        if (tid == 0 || !is_own_thread(task, tid)) continue;
        if (CPU_COUNT(&s->others)) sched_setaffinity(tid, sizeof s->others, &s->others);
        if (task->is_under) sched_setscheduler(tid, SCHED_OTHER, &none);
    }
}

/* On a segment of its own, so that nobody who has the old one can write to its successor's pages. */
void give_up(scheduler *s, host_task *task) {
    wait_for_moves(s);
    unpin_each(s, task);
    for (unsigned i = 0; i < HOST_LIMIT; i++) atomic_store(&s->seated[number_of(s, task)][i], 0);
    strays_give_up(s, task);
    drop_segment(task);
    make_segment(s, task);
    for (unsigned k = task->first; k < task->first + task->limit; k++) bury_thread(s, k);
    if (task->file >= 0) close(task->file);
    if (task->connection >= 0) close(task->connection);
    task->pid = 0, task->file = task->connection = -1;
    task->is_attached = false;
    task->handed_at = task->killed_at = 0;
}
