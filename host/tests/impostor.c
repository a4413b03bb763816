/* impostor.c: poses as a scheduler, and hands out what is no segment, to see that no runtime is harmed.
 *
 *   impostor NAME unsealed|short|version|threads|silent [TASK]
 *
 * It listens in CALADAN_FOLDER/NAME for task 0, or TASK, serves one process, and ends after ten seconds at most. */
#define _GNU_SOURCE
#include <errno.h>
#include <stdlib.h>
#include <string.h>
#include <sys/mman.h>
#include <sys/stat.h>
#include "host.h"

static int make_folder(const char *name) {
    char base[HOST_PATH], path[HOST_PATH + HOST_NAME + 2];
    if (!host_base(base)) return -1;
    snprintf(path, sizeof path, "%s/%s", base, name);
    if (mkdir(path, 0700) && errno != EEXIST) return -1;
    return host_open_folder(AT_FDCWD, path);
}

static int false_segment(const char *how) {
    int file = memfd_create("impostor", MFD_ALLOW_SEALING);
    size_t size = strcmp(how, "short") ? sizeof(host_segment) : 4096;
    if (file < 0 || ftruncate(file, (off_t)size)) return -1;
    host_segment *segment = mmap(NULL, size, PROT_READ | PROT_WRITE, MAP_SHARED, file, 0);
    if (segment == MAP_FAILED) return -1;
    segment->version = strcmp(how, "version") ? HOST_VERSION : HOST_VERSION + 1;
    segment->threads = strcmp(how, "threads") ? 2 : 1000000;
    if (strcmp(how, "unsealed") && fcntl(file, F_ADD_SEALS, HOST_SEALS)) return -1;
    return file;
}

static void hand_out(int connection, int file) {
    host_word word;
    host_answer said = {HOST_VERSION, HOST_DONE};
    union {
        struct cmsghdr head;
        char room[CMSG_SPACE(sizeof(int))];
    } control = {{0}};
    struct iovec part = {&said, sizeof said};
    struct msghdr message = {
        .msg_iov = &part, .msg_iovlen = 1, .msg_control = &control, .msg_controllen = sizeof control};
    control.head =
        (struct cmsghdr){.cmsg_level = SOL_SOCKET, .cmsg_type = SCM_RIGHTS, .cmsg_len = CMSG_LEN(sizeof file)};
    memcpy(CMSG_DATA(&control.head), &file, sizeof file);
    if (recv(connection, &word, sizeof word, 0) == sizeof word) sendmsg(connection, &message, MSG_NOSIGNAL);
    ftruncate(file, 0) ? (void)0 : (void)0; /* as who would harm a runtime that has mapped it */
    recv(connection, &word, sizeof word, 0);
}

int main(int count, char **words) {
    struct sockaddr_un address;
    if (count != 3 && count != 4) return 2;
    unsigned task = count == 4 ? (unsigned)atoi(words[3]) : 0;
    char socket_name[32];
    snprintf(socket_name, sizeof socket_name, "task-%u", task);
    alarm(10);
    int folder = make_folder(words[1]), file = false_segment(words[2]);
    int listener = socket(AF_UNIX, SOCK_SEQPACKET, 0);
    socklen_t length = host_address(&address, folder, task);
    if (folder < 0 || file < 0 || bind(listener, (struct sockaddr *)&address, length) || listen(listener, 1))
        return perror("impostor"), 2;
    int connection = accept(listener, NULL, NULL);
    if (connection >= 0 && !strcmp(words[2], "silent")) printf("silent\n"), fflush(stdout), sleep(8);
    else if (connection >= 0) hand_out(connection, file);
    unlinkat(folder, socket_name, 0);
    return 0;
}
