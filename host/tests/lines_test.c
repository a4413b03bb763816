/* lines_test.c: lines on a standard error that nobody reads hold nobody up; each is written in its order, or counted as
 * lost.
 *
 *   lines_test [unwaited]     unwaited: whoever shares it has told it to wait for nobody (O_NONBLOCK) */
#define _GNU_SOURCE
#include <stdlib.h>
#include <string.h>
#include "caladand.h"

enum { LINES = 2000 };

unsigned stop_signals(void) { return 0; }

static void check(bool is, const char *why) {
    if (is) return;
    printf("%s\n", why);
    exit(1);
}

int main(int count, char **words) {
    int ends[2];
    cpu_set_t anywhere;
    static char text[8192];
    CPU_ZERO(&anywhere);
    check(pipe(ends) == 0 && dup2(ends[1], STDERR_FILENO) == STDERR_FILENO, "no pipe");
    close(ends[1]);
    fcntl(STDERR_FILENO, F_SETPIPE_SZ, 4096);
    if (count > 1 && !strcmp(words[1], "unwaited")) fcntl(STDERR_FILENO, F_SETFL, O_NONBLOCK);
    check(begin_lines(&anywhere), "no clerk");
    for (int i = 0; i < LINES; i++) complain("line %d %0200d", i, 0); /* it would wait here for ever */
    uint64_t lost = lost_lines();
    check(lost > LINES - 200 && lost < LINES, "not most of them were lost");
    FILE *in = fdopen(ends[0], "r");
    int last = -1, number;
    for (uint64_t read = 0; read < LINES - lost; read++) {
        check(fgets(text, sizeof text, in) && sscanf(text, "caladand: line %d ", &number) == 1 && number > last,
              "a line is not in its order");
        size_t digits = number > 999 ? 4 : number > 99 ? 3 : number > 9 ? 2 : 1;
        check(strlen(text) == strlen("caladand: line ") + strlen(" \n") + 200 + digits, "a line is cut");
        last = number;
    }
    complain("the last");
    check(fgets(text, sizeof text, in) && !strcmp(text, "caladand: the last\n"), "a line more came than was counted");
    complain("%04095d: it is full", 0); /* the longest path, and what is said of it */
    check(fgets(text, sizeof text, in) && strlen(text) == strlen("caladand: : it is full\n") + 4095 &&
              strstr(text, "0: it is full\n"),
          "a long line is cut");
    complain("%08000d", 0);
    check(fgets(text, sizeof text, in) && strlen(text) > 4096 && text[strlen(text) - 1] == '\n',
          "a line without an end");
    end_lines();
    check(lost_lines() == lost, "a line was lost that had room");
    return 0;
}
