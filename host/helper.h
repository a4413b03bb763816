/* helper.h: a thread of the runtime that is on no core, and does for kernel threads what they cannot do there. */
#ifndef HELPER_H
#define HELPER_H
#include <pthread.h>
#include <spawn.h>

typedef struct helper helper;

helper *helper_begin(void); /* NULL: errno says why */
void helper_end(helper *h); /* nobody calls the others any more */

/* As pthread_create and posix_spawn, but what is started has the processors and the class that this thread has, and the
 * signal mask of the caller. */
int helper_thread(helper *h, pthread_t *thread, const pthread_attr_t *attributes, void *(*start)(void *), void *with);
int helper_spawn(helper *h, pid_t *pid, const char *path, const posix_spawn_file_actions_t *actions,
                 const posix_spawnattr_t *attributes, char *const *words, char *const *environment);
#endif
