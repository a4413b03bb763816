/* CHECK(it) says where what a test checks does not hold, and the test goes on; `failed` is then its status. */
#ifndef CHECK_H
#define CHECK_H
#include <stdio.h>

static int failed;
#define CHECK(is)                                                              \
    do {                                                                       \
        if (!(is)) {                                                           \
            fprintf(stderr, "%s: line %d: not %s\n", __FILE__, __LINE__, #is); \
            failed = 1;                                                        \
        }                                                                      \
    } while (0)
#endif
