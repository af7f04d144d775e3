/* Links liboracle.a as a booking desk would: quotes small program files, compiles them and finds the
 * same numbers in the circuit files, and shows refusals. It exits with 1 where an answer is not the
 * one that it expects. */
#include <stdio.h>
#include <string.h>

#include "and.h"
#include "check.h"

/* A program file with so many nodes, and what its output takes. */
typedef struct {
    const uint8_t *program;
    size_t length;
    size_t nodes;
    oracle_head circuit;
    uint64_t toffolis;
} example;

static const example two_inputs = {
    and_program, sizeof and_program, 3, {.value = 1, .inputs = 2, .outputs = 1, .work = 0}, 1,
};
static const example three_inputs = {
    three_program, sizeof three_program, 5, {.value = 3, .inputs = 3, .outputs = 1, .work = 1}, 3,
};

/* NOR, the AND of two NOTs, with other gates than Toffolis: INPUT 0, INPUT 1, NOT 0, NOT 1, AND 2 3;
 * the output is node 4. */
static const uint8_t nor_program[] = {
    3, 0,
    1, 0, 32, 0, 0, 0, 4,  0, 0, 0,
    2, 0, 36, 0, 0, 0, 30, 0, 0, 0,
    3, 0, 66, 0, 0, 0, 2,  0, 0, 0,
    2, 0, 1, 0,                                     /* inputs, outputs */
    2, 0, 0, 0, 0, 0,                               /* INPUT 0 */
    2, 0, 1, 0, 0, 0,                               /* INPUT 1 */
    3, 0, 0, 0, 0, 0,                               /* NOT 0 */
    3, 0, 1, 0, 0, 0,                               /* NOT 1 */
    5, 0, 2, 0, 3, 0,                               /* AND 2 3 */
    4, 0,                                           /* output 0 is node 4 */
};
static const example nor = {
    nor_program, sizeof nor_program, 5, {.value = 9, .inputs = 2, .outputs = 1, .work = 2}, 1,
};

/* A count entry is eight numbers, an answer three. The lists are longer than needed, and what is
 * behind the numbers needed has to stay. */
enum { MOST_NODES = 5, MOST_GATES = 9, OUTPUTS = 1, ANSWERS = 3 * OUTPUTS };
enum { ALL_COUNTS = 8 * MOST_NODES + 7, ALL_ANSWERS = ANSWERS + 3 };

static uint64_t counts[ALL_COUNTS], answers[ALL_ANSWERS];

static void refill(void)
{
    memset(counts, 9, sizeof counts);
    memset(answers, 9, sizeof answers);
}

/* Whether each byte of so many numbers is this one. */
static bool all_bytes(const uint64_t *numbers, size_t count, uint8_t byte)
{
    return filled((const uint8_t *)numbers, count * sizeof *numbers, byte);
}

/* Shows a refusal, which has to leave both lists. */
static void show_refusal(const char *what, oracle_answer answer, uint64_t number, uint64_t place)
{
    show(what, answer, number, place);
    holds(all_bytes(counts, ALL_COUNTS, 9), "the count list after a refusal");
    holds(all_bytes(answers, ALL_ANSWERS, 9), "the answer list after a refusal");
}

static void show_quote(const char *what, const example *of, size_t counts_length,
                       size_t answers_length)
{
    const size_t used = 8 * of->nodes;
    refill();
    show(what,
         oracle_quote(of->program, of->length, counts, counts_length, answers, answers_length), 0,
         OUTPUTS);
    printf("gates %llu, Toffolis %llu, work lines %llu\n", (unsigned long long)answers[0],
           (unsigned long long)answers[1], (unsigned long long)answers[2]);
    holds(answers[0] == of->circuit.value && answers[1] == of->toffolis
              && answers[2] == of->circuit.work,
          "the numbers of the output");
    holds(all_bytes(answers + ANSWERS, ALL_ANSWERS - ANSWERS, 9), "what is behind the answers");
    holds(all_bytes(counts, used, 0), "the nodes' entries, which end zero");
    holds(all_bytes(counts + used, ALL_COUNTS - used, 9), "what is behind the entries");
}

/* The circuit file has as many gates, Toffolis and work lines as the answer says. */
static void show_circuit(const example *of)
{
    uint8_t area[28 + 8 * MOST_GATES] = {0};
    uint16_t sizes[MOST_NODES];
    uint64_t toffolis = 0;

    const size_t length = 28 + 8 * of->circuit.value;
    show("bytes",
         oracle_compile(of->program, of->length, answers[2], sizes, of->nodes, area, length), 0,
         28 + 8 * answers[0]);
    for (size_t at = 28; at < length; at += 8)
        toffolis += area[at] == 3;
    holds(toffolis == answers[1], "the Toffolis of the circuit file");
    show_head("gates", oracle_read_circuit(area, length), of->circuit);
}

static void show_example(const char *what, const char *what_in_short_lists, const example *of)
{
    show_quote(what, of, ALL_COUNTS, ALL_ANSWERS);
    show_quote(what_in_short_lists, of, 8 * of->nodes, ANSWERS);
    show_circuit(of);
}

static void show_refusals(void)
{
    enum { PROGRAM = sizeof and_program, COUNTS = 8 * 3 };

    refill();
    show_refusal("empty file",
                 oracle_quote(NULL, 0, counts, ALL_COUNTS, answers, ALL_ANSWERS), 1, 0);
    show_refusal("a count list short by a number",
                 oracle_quote(and_program, PROGRAM, counts, COUNTS - 1, answers, ANSWERS), 7, 0);
    show_refusal("an answer list short by a number",
                 oracle_quote(and_program, PROGRAM, counts, COUNTS, answers, ANSWERS - 1), 7, 0);
    show_refusal("no lists", oracle_quote(and_program, PROGRAM, NULL, 0, NULL, 0), 7, 0);

    uint8_t damaged[PROGRAM];
    memcpy(damaged, and_program, PROGRAM);
    damaged[50] = 2; /* the first operand of node 2 is node 2 itself */
    show_refusal("AND of itself",
                 oracle_quote(damaged, PROGRAM, counts, COUNTS, answers, ANSWERS), 5, 2);
}

int main(void)
{
    show_example("outputs, two inputs", "the same, in lists just long enough", &two_inputs);
    show_example("outputs, three inputs", "the same, in lists just long enough", &three_inputs);
    show_example("outputs, NOR", "the same, in lists just long enough", &nor);
    show_refusals();
    return all_as_expected ? 0 : 1;
}
