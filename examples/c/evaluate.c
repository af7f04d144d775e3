/* Links liboracle.a as a loader would: reads a small program file, evaluates its output on every
 * input, and shows refusals. It exits with 1 where an answer is not the one that it expects. */
#include <stdio.h>
#include <string.h>

#include "and.h"
#include "check.h"

int main(void)
{
    const size_t length = sizeof and_program;

    show_head("nodes", oracle_read_program(and_program, length),
              (oracle_head){.value = 3, .inputs = 2, .outputs = 1});

    for (uint8_t a = 0; a < 2; a++) {
        for (uint8_t b = 0; b < 2; b++) {
            const uint8_t inputs[2] = {a, b};
            const uint8_t wanted[4] = {a, b, a && b, 9};
            uint8_t values[4] = {9, 9, 9, 9};
            char what[16];
            snprintf(what, sizeof what, "AND %d %d", a, b);
            show(what, oracle_evaluate(and_program, length, values, 4, inputs, 2, 0), 0, a && b);
            holds(memcmp(values, wanted, 4) == 0, "the nodes' values, and the entry behind them");
        }
    }

    const uint8_t inputs[2] = {1, 1};
    uint8_t values[3] = {9, 9, 9};
    const uint8_t kept[3] = {9, 9, 9};
    show_head("empty file", oracle_read_program(NULL, 0), (oracle_head){.number = 1});
    show("no output 1", oracle_evaluate(and_program, length, values, 3, inputs, 2, 1), 15, 0);
    holds(memcmp(values, kept, 3) == 0, "the value list after a refusal");

    uint8_t damaged[sizeof and_program];
    memcpy(damaged, and_program, length);
    damaged[50] = 2; /* the first operand of node 2 is node 2 itself */
    show_head("AND of itself", oracle_read_program(damaged, length),
              (oracle_head){.number = 5, .value = 2});

    return all_as_expected ? 0 : 1;
}
