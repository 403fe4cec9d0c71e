/* test_checks.h: how tests count what holds. */
#ifndef TEST_CHECKS_H
#define TEST_CHECKS_H

#include <errno.h>
#include <stdio.h>

static int passed, failed;

static inline void check(int holds, const char *what)
{
    if (holds) {
        passed++;
    } else {
        failed++;
        fprintf(stderr, "failed: %s (errno %d)\n", what, errno);
    }
}

/* The last line of a test, and its status. */
static inline int checked(void)
{
    printf("%d passed, %d failed\n", passed, failed);
    return failed != 0;
}
#endif
