/* Links liboracle.a as a loader would: compiles small program files, reads the circuit files back,
 * runs them from every start, with the work lines zero and not zero, shows what marks save and cost,
 * and shows refusals. It exits with 1 where an answer is not the one that it expects. */
#include <stdio.h>
#include <string.h>

#include "and.h"
#include "and_runs.h"

enum { PROGRAM = sizeof and_program, CIRCUIT = sizeof and_circuit, NODES = 3 };
enum { THREE_PROGRAM = sizeof three_program, THREE_CIRCUIT = sizeof three_circuit };

/* The areas are longer than needed, and what is behind the last byte written has to stay. */
enum { AREA = THREE_CIRCUIT + 4, SIZES = 6 };

/* What compiling leaves: each input has size 1, and an AND 1 more than its operands together; the
 * entries behind them are as they were. */
static const uint16_t and_sizes[SIZES] = {1, 1, 3, 9, 9, 9};
static const uint16_t three_sizes[SIZES] = {1, 1, 3, 1, 5, 9};
static const uint16_t no_sizes[SIZES] = {9, 9, 9, 9, 9, 9};

static uint8_t area[AREA];
static uint16_t sizes[SIZES];

static void refill(void)
{
    memset(area, 9, AREA);
    memcpy(sizes, no_sizes, sizeof sizes);
}

static bool sizes_are(const uint16_t wanted[SIZES])
{
    return memcmp(sizes, wanted, sizeof sizes) == 0;
}

static void show_circuit(const char *what, oracle_answer answer, const uint8_t *circuit,
                         size_t length, oracle_head wanted)
{
    show(what, answer, 0, length);
    holds(memcmp(area, circuit, length) == 0, "the file written");
    holds(filled(area + length, AREA - length, 9), "the area behind the file written");

    const oracle_head head = oracle_read_circuit(area, length);
    printf("lines %d %d %d\n", (int)head.inputs, (int)head.outputs, (int)head.work);
    show_head("gates", head, wanted);
}

/* The inputs are controls themselves, so no work line has to be granted. */
static void show_two(void)
{
    refill();
    show_circuit("bytes, two inputs",
                 oracle_compile(and_program, PROGRAM, 0, sizes, SIZES, area, AREA), and_circuit,
                 CIRCUIT, (oracle_head){.value = 1, .inputs = 2, .outputs = 1, .work = 0});
    holds(sizes_are(and_sizes), "the nodes' sizes, and the entries behind them");
    printf("the file:");
    for (size_t i = 0; i < CIRCUIT; i++)
        printf(" %02x", area[i]);
    printf("\n");
    run_two(area, CIRCUIT);
}

/* The AND below the other one takes a work line. */
static void show_three(void)
{
    refill();
    show_circuit("bytes, three inputs",
                 oracle_compile(three_program, THREE_PROGRAM, 1, sizes, SIZES, area, AREA),
                 three_circuit, THREE_CIRCUIT,
                 (oracle_head){.value = 3, .inputs = 3, .outputs = 1, .work = 1});
    holds(sizes_are(three_sizes), "the nodes' sizes, and the entry behind them");
    run_three(area, THREE_CIRCUIT);
}

/* The XOR of two ANDs of three inputs each, which share two of them: INPUT 0, INPUT 1, AND 0 1,
 * INPUT 2, AND 2 3, INPUT 3, AND 2 5, XOR 4 6; the output is node 7. */
static const uint8_t sum_program[] = {
    3, 0,
    1, 0, 32, 0, 0, 0, 4,  0, 0, 0,
    2, 0, 36, 0, 0, 0, 48, 0, 0, 0,
    3, 0, 84, 0, 0, 0, 2,  0, 0, 0,
    4, 0, 1, 0,                                     /* inputs, outputs */
    2, 0, 0, 0, 0, 0,                               /* INPUT 0 */
    2, 0, 1, 0, 0, 0,                               /* INPUT 1 */
    5, 0, 0, 0, 1, 0,                               /* AND 0 1 */
    2, 0, 2, 0, 0, 0,                               /* INPUT 2 */
    5, 0, 2, 0, 3, 0,                               /* AND 2 3 */
    2, 0, 3, 0, 0, 0,                               /* INPUT 3 */
    5, 0, 2, 0, 5, 0,                               /* AND 2 5 */
    4, 0, 4, 0, 6, 0,                               /* XOR 4 6 */
    7, 0,                                           /* output 0 is node 7 */
};

enum { SUM_PROGRAM = sizeof sum_program, SUM_NODES = 8, SUM_INPUTS = 4, MOST_LINES = 7 };

/* Where the mark of a node is: its second byte. */
static size_t mark_of(size_t node)
{
    return 36 + 6 * node + 1;
}

/* Runs a circuit of the XOR from every start. Every line but the target ends as it started, and the
 * target has the value in it where the work lines started at zero. */
static void run_sum(const uint8_t *circuit, size_t length, size_t count)
{
    for (unsigned bits = 0; bits < 1u << count; bits++) {
        uint8_t start[MOST_LINES], lines[MOST_LINES];
        for (size_t i = 0; i < count; i++)
            lines[i] = start[i] = bits >> i & 1;
        const uint8_t value = start[0] & start[1] & (start[2] ^ start[3]);
        const bool from_zero = filled(start + SUM_INPUTS + 1, count - SUM_INPUTS - 1, 0);

        holds(oracle_run_forwards(circuit, length, lines, count).number == 0, "a run of the XOR");
        holds(!from_zero || lines[SUM_INPUTS] == (start[SUM_INPUTS] ^ value), "the target");
        lines[SUM_INPUTS] = start[SUM_INPUTS];
        holds(memcmp(lines, start, count) == 0, "the lines beside the target");
    }
    printf("from each of %d starts as it has to be\n", 1 << count);
}

/* Compiles the XOR with just as many work lines as it needs, runs it, and shows that one fewer is
 * refused. */
static void show_sum(const char *what, const uint8_t *program, uint64_t work, uint64_t gates)
{
    uint8_t circuit[28 + 8 * 10];
    uint16_t list[SUM_NODES];
    const size_t length = 28 + 8 * gates;

    show(what, oracle_compile(program, SUM_PROGRAM, work, list, SUM_NODES, circuit, length), 0,
         length);
    show_head("gates", oracle_read_circuit(circuit, length),
              (oracle_head){.value = gates, .inputs = SUM_INPUTS, .outputs = 1, .work = work});
    printf("work lines: %d\n", (int)work);
    run_sum(circuit, length, SUM_INPUTS + 1 + work);
    show("a work line fewer",
         oracle_compile(program, SUM_PROGRAM, work - 1, list, SUM_NODES, circuit, length), 10,
         work);
}

/* With a mark at both ANDs, nodes 4 and 6, the work line of the first one is free again when the
 * second is built. So there is one work line and not two, and there are four gates more. */
static void show_marks(void)
{
    uint8_t marked[SUM_PROGRAM];
    memcpy(marked, sum_program, SUM_PROGRAM);
    show_sum("bytes, XOR of two ANDs", marked, 2, 6);
    marked[mark_of(4)] = marked[mark_of(6)] = 1;
    show_sum("bytes, the same with marks", marked, 1, 10);

    marked[mark_of(6)] = 2;
    show("mark 2", oracle_compile(marked, SUM_PROGRAM, 2, sizes, SIZES, area, AREA), 5, 6);
    marked[mark_of(6)] = 0;
    marked[mark_of(7)] = 1;
    show("mark on XOR", oracle_compile(marked, SUM_PROGRAM, 2, sizes, SIZES, area, AREA), 5, 7);
}

static void show_refusals(void)
{
    refill();
    show("empty file", oracle_compile(NULL, 0, 0, sizes, SIZES, area, AREA), 1, 0);
    show("list of 2",
         oracle_compile(and_program, PROGRAM, 0, sizes, NODES - 1, area, AREA), 7, 0);
    holds(sizes_are(no_sizes), "the size list after refusal 7");
    show("no list", oracle_compile(and_program, PROGRAM, 0, NULL, 0, area, AREA), 7, 0);

    show("grant of 1,025",
         oracle_compile(and_program, PROGRAM, 1025, sizes, SIZES, area, AREA), 9, 0);
    holds(sizes_are(and_sizes), "the size list after refusal 9");
    show("three inputs, grant of 0",
         oracle_compile(three_program, THREE_PROGRAM, 0, sizes, SIZES, area, AREA), 10, 1);
    holds(sizes_are(three_sizes), "the size list after refusal 10");
    holds(filled(area, AREA, 9), "the area after refusal 10");

    refill();
    show("a byte too few",
         oracle_compile(and_program, PROGRAM, 0, sizes, SIZES, area, CIRCUIT - 1), 11, 1);
    holds(sizes_are(and_sizes), "the size list after refusal 11");
    holds(filled(area, CIRCUIT - 1, 0), "the area after refusal 11");
    holds(filled(area + CIRCUIT - 1, AREA - CIRCUIT + 1, 9), "what is behind that area");
    show("no area", oracle_compile(and_program, PROGRAM, 0, sizes, SIZES, NULL, 0), 11, 1);
}

int main(void)
{
    show_two();
    show_three();
    show_marks();
    show_refusals();
    return all_as_expected ? 0 : 1;
}
