/* Links liboracle.a as somebody who types a function would: parses formulas, finds two of them to be
 * known program files, compiles and runs others on every input, and shows refusals. It exits with 1
 * where an answer is not the one that it expects. */
#include <stdio.h>
#include <string.h>

#include "and.h"
#include "check.h"

/* Longer than any file here, and what is behind a file has to stay. */
enum { ALL = 200, MOST_NODES = 16, MOST_LINES = 16, CIRCUIT = 28 + 8 * 32 };

static uint8_t area[ALL];

static oracle_answer parse_into(const char *text, uint64_t inputs, size_t length)
{
    memset(area, 9, sizeof area);
    return oracle_parse((const uint8_t *)text, strlen(text), inputs, area, length);
}

/* Shows the length of a formula's file, which reads back; what is behind it in the area stays. */
static size_t show_parsed(const char *text, uint64_t inputs, uint64_t nodes)
{
    const size_t length = 38 + 6 * nodes;
    show(text, parse_into(text, inputs, ALL), 0, length);
    show_head("nodes", oracle_read_program(area, length),
              (oracle_head){.value = nodes, .inputs = inputs, .outputs = 1});
    holds(filled(area + length, ALL - length, 9), "what is behind the file");
    return length;
}

/* Compiles the file in the area, and runs the circuit on every input, from a zero target and zero
 * work lines: it ends with the formula's value in the target and every other line as it was. */
static void show_values(size_t length, const char *values)
{
    uint8_t circuit[CIRCUIT];
    uint16_t sizes[MOST_NODES];
    const oracle_answer written =
        oracle_compile(area, length, 1024, sizes, MOST_NODES, circuit, CIRCUIT);
    holds(written.number == 0, "compiling what was parsed");
    const oracle_head head = oracle_read_circuit(circuit, written.value);
    const size_t count = head.inputs + head.outputs + head.work;
    holds(head.outputs == 1 && count <= MOST_LINES, "the lines of the circuit");
    if (!all_as_expected)
        return;
    for (unsigned x = 0; x < 1u << head.inputs; x++) {
        uint8_t lines[MOST_LINES] = {0}, wanted[MOST_LINES] = {0};
        for (unsigned j = 0; j < head.inputs; j++)
            wanted[j] = lines[j] = x >> j & 1;
        wanted[head.inputs] = values[x] == '1';
        holds(oracle_run_forwards(circuit, written.value, lines, count).number == 0, "the run");
        printf("%d", lines[head.inputs]);
        holds(memcmp(lines, wanted, count) == 0, "the lines after the run");
    }
    printf("\n");
}

static void show_formulas(void)
{
    show_parsed("x0&x1", 2, 3);
    holds(memcmp(area, and_program, sizeof and_program) == 0, "the file of AND");
    show_parsed("x0&x1&x2", 3, 5);
    holds(memcmp(area, three_program, sizeof three_program) == 0, "the file of AND of three");

    /* Values in the order of the inputs 000, 100, 010, 110, 001, 101, 011, 111. */
    show_values(show_parsed("x0&x1^!x2", 3, 6), "11100001");
    show_values(show_parsed("x0&(x1^!x2)", 3, 6), "01000001");
    show_values(show_parsed("!x0&!x1", 2, 5), "1000");
    show_values(show_parsed("x0^x1^x2", 3, 5), "01101001");
    show_values(show_parsed("1", 0, 1), "1");
}

/* Shows a refusal that leaves the area. */
static void show_refusal(const char *what, oracle_answer answer, uint64_t number, uint64_t place)
{
    show(what, answer, number, place);
    holds(filled(area, ALL, 9), "the area after a refusal");
}

static void show_refusals(void)
{
    enum { TOO_LONG = 4097, TOO_DEEP = 65 };
    char text[TOO_LONG + 1];

    show_refusal("empty text", parse_into("", 2, ALL), 16, 0);
    show_refusal("x0 & x1", parse_into("x0 & x1", 2, ALL), 16, 2);
    show_refusal("x0&", parse_into("x0&", 2, ALL), 16, 3);
    show_refusal("(x0^x1", parse_into("(x0^x1", 2, ALL), 16, 6);
    show_refusal("x00", parse_into("x00", 2, ALL), 16, 2);
    show_refusal("x0^x2 of two inputs", parse_into("x0^x2", 2, ALL), 5, 1);
    show_refusal("65 inputs", parse_into("x0&", 65, ALL), 4, 0);

    memset(text, '!', sizeof text);
    text[TOO_DEEP] = 0;
    show_refusal("65 times !", parse_into(text, 2, ALL), 18, TOO_DEEP - 1);
    memset(text, '!', sizeof text);
    text[TOO_LONG] = 0;
    show_refusal("4,097 bytes", parse_into(text, 65, ALL), 17, 0);

    const size_t short_by_one = sizeof and_program - 1;
    show("an area short by a byte", parse_into("x0&x1", 2, short_by_one), 11, 3);
    holds(filled(area, short_by_one, 0), "the area after 11");
    holds(filled(area + short_by_one, ALL - short_by_one, 9), "what is behind the area");
    show("no area", oracle_parse((const uint8_t *)"0", 1, 0, NULL, 0), 11, 1);
    show("no text", oracle_parse(NULL, 0, 0, NULL, 0), 16, 0);
}

int main(void)
{
    show_formulas();
    show_refusals();
    return all_as_expected ? 0 : 1;
}
