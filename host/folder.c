/* folder.c: the folders in which a scheduler's sockets lie, for both ends. */
#define _GNU_SOURCE
#include <errno.h>
#include <stdlib.h>
#include <string.h>
#include <sys/stat.h>
#include "host.h"

bool host_is_name(const char *name) {
    size_t length = strlen(name),
           plain = strspn(name, "abcdefghijklmnopqrstuvwxyzABCDEFGHIJKLMNOPQRSTUVWXYZ0123456789._-");
    return length > 0 && length <= HOST_NAME && plain == length && name[0] != '.';
}

bool host_base(char base[HOST_PATH]) {
    const char *given = secure_getenv("CALADAN_FOLDER"), *user = secure_getenv("XDG_RUNTIME_DIR");
    int length = -1;
    if (given && *given) length = snprintf(base, HOST_PATH, "%s", given);
    else if (geteuid() == 0) length = snprintf(base, HOST_PATH, "/run/caladan");
    else if (user && *user) length = snprintf(base, HOST_PATH, "%s/caladan", user);
    return length > 0 && length < HOST_PATH;
}

int host_open_folder(int at, const char *path) {
    struct stat is;
    int folder = openat(at, path, O_RDONLY | O_DIRECTORY | O_NOFOLLOW | O_CLOEXEC);
    if (folder < 0) return -1;
    if (fstat(folder, &is) == 0 && is.st_uid == geteuid() && (is.st_mode & 077) == 0) return folder;
    close(folder);
    errno = EPERM;
    return -1;
}
