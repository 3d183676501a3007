/* Checks for test programs in C and C++. The first check that fails ends the program with status 1
   and a message on standard error. */
#ifndef CHECK_H
#define CHECK_H
#include <stdio.h>
#include <stdlib.h>

/* Checks that a condition holds. */
#define CHECK(holds)                                                                               \
    do {                                                                                           \
        if (!(holds)) {                                                                            \
            fprintf(stderr, "%s:%d: %s\n", __FILE__, __LINE__, #holds);                            \
            exit(1);                                                                               \
        }                                                                                          \
    } while (0)

/* Checks that a condition holds in the test case `name`, which the message has. */
#define CHECK_CASE(name, holds)                                                                    \
    do {                                                                                           \
        if (!(holds)) {                                                                            \
            fprintf(stderr, "%s:%d: %s: %s\n", __FILE__, __LINE__, name, #holds);                  \
            exit(1);                                                                               \
        }                                                                                          \
    } while (0)

/* The number of elements of an array, such as a table of test cases. */
#define COUNT_OF(table) (sizeof(table) / sizeof *(table))
#endif
