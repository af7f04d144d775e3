/* What the examples share: showing an answer, and remembering whether each was as expected. */
#ifndef CHECK_H
#define CHECK_H

#include <stdbool.h>
#include <stdio.h>

#include "oracle.h"

static bool all_as_expected = true;

/* Prints an answer, which is to be this number and value. */
static void show(const char *what, oracle_answer answer, uint64_t number, uint64_t value)
{
    if (answer.number == 0)
        printf("%s: %llu\n", what, (unsigned long long)answer.value);
    else
        printf("%s: refused %llu %llu\n", what, (unsigned long long)answer.number,
               (unsigned long long)answer.value);
    if (answer.number != number || answer.value != value)
        all_as_expected = false;
}

/* Something that has to hold beside the answers. */
static void holds(bool test, const char *what)
{
    if (!test) {
        printf("not as expected: %s\n", what);
        all_as_expected = false;
    }
}

/* Prints a reader's answer, which is to have these numbers. */
static inline void show_head(const char *what, oracle_head head, oracle_head wanted)
{
    show(what, (oracle_answer){head.number, head.value}, wanted.number, wanted.value);
    holds(head.inputs == wanted.inputs, "the number of inputs");
    holds(head.outputs == wanted.outputs, "the number of outputs");
    holds(head.work == wanted.work, "the number of work lines");
}

/* Whether every byte is this one. */
static inline bool filled(const uint8_t *area, size_t length, uint8_t byte)
{
    for (size_t i = 0; i < length; i++)
        if (area[i] != byte)
            return false;
    return true;
}

#endif
