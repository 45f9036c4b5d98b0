/* What the programs of this folder check with: what is not so is printed and counted, and main returns the verdict. */
#ifndef PAVRENNI_CHECK_H
#define PAVRENNI_CHECK_H

#include <stdio.h>

static int failures = 0;

#define CHECK(holds) \
    do { \
        if (!(holds)) { \
            fprintf(stderr, "%s:%d: not so: %s\n", __FILE__, __LINE__, #holds); \
            failures++; \
        } \
    } while (0)

static int verdict(const char *what)
{
    printf("%s: %s\n", what, failures == 0 ? "all as it must be" : "not as it must be");
    return failures == 0 ? 0 : 1;
}

#endif
