/* A test that says where it does not hold. */

#include <stdio.h>
#include <stdlib.h>

static unsigned checks;

#define WANT(test) want((test), #test, __LINE__)

static void want(int holds, const char *test, int line)
{
    checks++;
    if (!holds) {
        fprintf(stderr, "line %d: not so: %s\n", line, test);
        exit(1);
    }
}
