/* Links liboracle.a as somebody who samples an oracle would: evaluates a small program file on 64
 * questions in one call, compares each with a call of its own, and shows refusals. It exits with 1
 * where an answer is not the one that it expects. */
#include <stdio.h>
#include <string.h>

#include "and.h"
#include "check.h"

/* The list is longer than needed, and what is behind the nodes' words has to stay. */
enum { PROGRAM = sizeof and_program, INPUTS = 2, NODES = 3, ALL = 5, QUESTIONS = 64 };

static uint64_t values[ALL];

static void refill(void)
{
    memset(values, 9, sizeof values);
}

/* Whether the list has what it was filled with from this entry on. */
static bool kept_from(size_t first)
{
    return filled((const uint8_t *)(values + first), (ALL - first) * sizeof *values, 9);
}

static uint8_t bit(uint64_t word, unsigned question)
{
    return word >> question & 1;
}

/* Each bit of the answer, and of each node's word, is what a call with that question alone gives. */
static void compare_each(const uint64_t *inputs, uint64_t word)
{
    for (unsigned k = 0; k < QUESTIONS; k++) {
        const uint8_t bits[INPUTS] = {bit(inputs[0], k), bit(inputs[1], k)};
        uint8_t single[NODES];
        const oracle_answer answer =
            oracle_evaluate(and_program, PROGRAM, single, NODES, bits, INPUTS, 0);
        holds(answer.number == 0 && answer.value == bit(word, k), "the answer to one question");
        for (size_t i = 0; i < NODES; i++)
            holds(single[i] == bit(values[i], k), "a node's value on one question");
    }
}

/* The four inputs are questions 0 to 3, and again each four questions behind them. */
static void show_all_inputs(void)
{
    const uint64_t inputs[INPUTS] = {0xcccccccccccccccc, 0xaaaaaaaaaaaaaaaa};
    const uint64_t wanted = 0x8888888888888888;

    refill();
    const oracle_answer answer =
        oracle_evaluate_words(and_program, PROGRAM, values, ALL, inputs, INPUTS, 0);
    show("64 questions", answer, 0, wanted);
    for (unsigned k = 0; k < 4; k++)
        printf("AND %d %d: %d\n", bit(inputs[0], k), bit(inputs[1], k), bit(answer.value, k));
    for (size_t i = 0; i < ALL; i++)
        printf("entry %zu: %016llx\n", i, (unsigned long long)values[i]);
    holds(values[0] == inputs[0] && values[1] == inputs[1] && values[2] == wanted,
          "the nodes' words");
    holds(kept_from(NODES), "what is behind the nodes' words");
    compare_each(inputs, answer.value);
}

/* Other words, which do not repeat every four questions, with 0 1 and 1 1 as the last two. */
static void show_any_inputs(void)
{
    const uint64_t inputs[INPUTS] = {0x8f1e2d3c4b5a6978, 0xc0ff00ff00ff00ff};

    refill();
    const oracle_answer answer =
        oracle_evaluate_words(and_program, PROGRAM, values, NODES, inputs, INPUTS, 0);
    show("other questions", answer, 0, 0x801e003c005a0078);
    compare_each(inputs, answer.value);
    holds(kept_from(NODES), "what is behind a list just long enough");
}

/* Shows a refusal, which has to leave the list. */
static void show_refusal(const char *what, oracle_answer answer, uint64_t number, uint64_t place)
{
    show(what, answer, number, place);
    holds(kept_from(0), "the list after a refusal");
}

static void show_refusals(void)
{
    const uint64_t inputs[INPUTS + 1] = {1, 1, 1};

    refill();
    show_refusal("empty file", oracle_evaluate_words(NULL, 0, values, ALL, inputs, INPUTS, 0), 1, 0);
    show_refusal("a list short by a word",
                 oracle_evaluate_words(and_program, PROGRAM, values, NODES - 1, inputs, INPUTS, 0),
                 7, 0);
    show_refusal("no list",
                 oracle_evaluate_words(and_program, PROGRAM, NULL, 0, inputs, INPUTS, 0), 7, 0);
    show_refusal("a word too few",
                 oracle_evaluate_words(and_program, PROGRAM, values, ALL, inputs, INPUTS - 1, 0),
                 14, 0);
    show_refusal("a word too many",
                 oracle_evaluate_words(and_program, PROGRAM, values, ALL, inputs, INPUTS + 1, 0),
                 14, 0);
    show_refusal("no words",
                 oracle_evaluate_words(and_program, PROGRAM, values, ALL, NULL, 0, 0), 14, 0);
    show_refusal("no output 1",
                 oracle_evaluate_words(and_program, PROGRAM, values, ALL, inputs, INPUTS, 1),
                 15, 0);
}

int main(void)
{
    /* As many words are to be lent as there are nodes and inputs. */
    show_head("nodes", oracle_read_program(and_program, PROGRAM),
              (oracle_head){.value = NODES, .inputs = INPUTS, .outputs = 1});
    show_all_inputs();
    show_any_inputs();
    show_refusals();
    return all_as_expected ? 0 : 1;
}
