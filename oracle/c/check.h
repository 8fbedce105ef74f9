/*
 * What the files of the C program share: how a check is counted, and what
 * lent numbers hold before a call.
 */

#ifndef CHECK_H
#define CHECK_H

#include "cefdugar.h"

#include <stdio.h>

extern int checks;
extern int failures;

#define CHECK(condition)                                                          \
    do {                                                                          \
        checks++;                                                                 \
        if (!(condition)) {                                                       \
            failures++;                                                           \
            printf("%s:%d: not so: %s\n", __FILE__, __LINE__, #condition);        \
        }                                                                         \
    } while (0)

/* What a number holds before a call. */
#define LEFT 77

static inline void fill_warnings(size_t warnings[CEF_WARNINGS])
{
    for (int i = 0; i < CEF_WARNINGS; i++)
        warnings[i] = LEFT;
}

/* Whether the ints from `from` on are as they were. */
static inline int ints_left(const int32_t *ints, size_t from, size_t len)
{
    int right = 1;
    for (size_t i = from; i < len; i++)
        right = right && ints[i] == LEFT;
    return right;
}

static inline void fill_ints(int32_t *ints, size_t len)
{
    for (size_t i = 0; i < len; i++)
        ints[i] = LEFT;
}

/* Whether all counts are 0, but for one of this kind. */
static inline int only(const size_t warnings[CEF_WARNINGS], int kind)
{
    int right = 1;
    for (int i = 0; i < CEF_WARNINGS; i++)
        right = right && warnings[i] == (i == kind ? 1 : 0);
    return right;
}

/* The calls on a store and on a manager. */
void check_storage(void);
void check_manager(void);

/* Every call that reads bytes, on padding bits that are set. */
void check_padding(void);

#endif
