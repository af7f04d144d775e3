/* Runs of the circuits of AND, from every start of their lines. */
#ifndef AND_RUNS_H
#define AND_RUNS_H

#include <stdio.h>
#include <string.h>

#include "check.h"

enum { TWO_LINES = 3, THREE_LINES = 5 };

static void print_lines(const uint8_t *lines, size_t count)
{
    for (size_t i = 0; i < count; i++)
        printf("%d", lines[i]);
}

/* Runs a circuit file forwards from a start and checks every line, then back to the start. */
static void run(const uint8_t *circuit, size_t length, const uint8_t *start, const uint8_t *end,
                size_t count)
{
    uint8_t lines[THREE_LINES];
    memcpy(lines, start, count);

    oracle_answer there = oracle_run_forwards(circuit, length, lines, count);
    holds(there.number == 0 && there.value == 0, "the answer to a run forwards");
    print_lines(start, count);
    printf(" to ");
    print_lines(lines, count);
    printf("\n");
    holds(memcmp(lines, end, count) == 0, "the lines after a run forwards");

    oracle_answer back = oracle_run_backwards(circuit, length, lines, count);
    holds(back.number == 0 && back.value == 0, "the answer to a run backwards");
    holds(memcmp(lines, start, count) == 0, "the lines after a run backwards");
}

/* The circuit of the AND of two inputs. */
static void run_two(const uint8_t *circuit, size_t length)
{
    for (uint8_t bits = 0; bits < 1 << TWO_LINES; bits++) {
        const uint8_t a = bits >> 2 & 1, b = bits >> 1 & 1, target = bits & 1;
        const uint8_t start[TWO_LINES] = {a, b, target};
        const uint8_t end[TWO_LINES] = {a, b, target ^ (a & b)};
        run(circuit, length, start, end, TWO_LINES);
    }
}

/* The circuit of the AND of three inputs. Where the work line starts at 1, another value goes into
 * the target, but the line ends as it started. */
static void run_three(const uint8_t *circuit, size_t length)
{
    for (uint8_t bits = 0; bits < 1 << THREE_LINES; bits++) {
        const uint8_t work = bits >> 4 & 1, a = bits >> 3 & 1, b = bits >> 2 & 1, c = bits >> 1 & 1;
        const uint8_t target = bits & 1;
        const uint8_t start[THREE_LINES] = {a, b, c, target, work};
        const uint8_t end[THREE_LINES] = {a, b, c, target ^ (((a & b) ^ work) & c), work};
        run(circuit, length, start, end, THREE_LINES);
    }
}

#endif
