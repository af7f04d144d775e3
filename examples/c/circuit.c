/* Links liboracle.a as a loader would: reads small circuit files, runs them on as many lines as
 * their heads say, then from every start forwards and backwards, undoes one except on its target,
 * and shows refusals. It exits with 1 where an answer is not the one that it expects. */
#include <stdlib.h>
#include <string.h>

#include "and.h"
#include "and_runs.h"

/* The circuit of the AND of three inputs without the gate on line 3, from the last gate to the
 * first. */
static const uint8_t undone_circuit[] = {
    2, 0,
    17, 0, 22, 0, 0, 0, 6,  0, 0, 0,
    18, 0, 28, 0, 0, 0, 16, 0, 0, 0,
    3, 0, 1, 0, 1, 0,
    3, 0, 0, 0, 1, 0, 4, 0,                         /* T 0 1 4 */
    3, 0, 0, 0, 1, 0, 4, 0,                         /* T 0 1 4 */
};

/* The gates that build the AND of four inputs, lines 0 to 3, into line 4. Lines 5 and 6 are work lines,
 * and are left as these gates leave them. */
static const uint8_t built_circuit[] = {
    2, 0,
    17, 0, 22, 0, 0, 0, 6,  0, 0, 0,
    18, 0, 28, 0, 0, 0, 24, 0, 0, 0,
    4, 0, 1, 0, 2, 0,
    3, 0, 0, 0, 1, 0, 6, 0,                         /* T 0 1 6 */
    3, 0, 2, 0, 6, 0, 5, 0,                         /* T 2 6 5 */
    3, 0, 3, 0, 5, 0, 4, 0,                         /* T 3 5 4 */
};

/* Their undoing except on line 4, which cleans up: in the other order line 5 would stay dirty. */
static const uint8_t cleaning_circuit[] = {
    2, 0,
    17, 0, 22, 0, 0, 0, 6,  0, 0, 0,
    18, 0, 28, 0, 0, 0, 16, 0, 0, 0,
    4, 0, 1, 0, 2, 0,
    3, 0, 2, 0, 6, 0, 5, 0,                         /* T 2 6 5 */
    3, 0, 0, 0, 1, 0, 6, 0,                         /* T 0 1 6 */
};

enum { LINES = THREE_LINES, LENGTH = sizeof three_circuit, UNDONE = sizeof undone_circuit };

static const uint8_t only_the_target[LINES] = {0, 0, 0, 1, 0};

/* What a loader does that knows nothing of the file: it reads it, and lends just as many line bytes
 * as the head says, here with every input at 1 and all other lines at 0. */
static void show_loading(const uint8_t *file, size_t length, oracle_head wanted)
{
    const oracle_head head = oracle_read_circuit(file, length);
    show_head("gates", head, wanted);
    if (head.number != 0)
        return;

    const size_t count = head.inputs + head.outputs + head.work;
    uint8_t *lines = calloc(count, 1);
    if (lines == NULL)
        exit(1);
    memset(lines, 1, head.inputs);
    show("run on the lines of its head", oracle_run_forwards(file, length, lines, count), 0, 0);
    holds(lines[head.inputs] == 1, "the target after that run");
    holds(filled(lines + head.inputs + head.outputs, head.work, 0), "its work lines");
    show("on one line fewer", oracle_run_forwards(file, length, lines, count - 1), 13, 0);
    free(lines);
}

static void show_undo(void)
{
    uint8_t area[LENGTH];
    memset(area, 9, LENGTH);

    show("undo but line 3",
         oracle_undo(three_circuit, LENGTH, only_the_target, LINES, area, LENGTH), 0, UNDONE);
    holds(memcmp(area, undone_circuit, UNDONE) == 0, "the file written");
    holds(filled(area + UNDONE, LENGTH - UNDONE, 9), "the area behind the file written");
    show_head("its gates", oracle_read_circuit(area, UNDONE),
              (oracle_head){.value = 2, .inputs = 3, .outputs = 1, .work = 1});
}

static void show_cleaning(void)
{
    enum { FOUR_LINES = 7, BUILT = sizeof built_circuit, CLEANING = sizeof cleaning_circuit };
    const uint8_t only_line_4[FOUR_LINES] = {0, 0, 0, 0, 1, 0, 0};
    uint8_t cleaning[CLEANING];

    show("undo of three gates",
         oracle_undo(built_circuit, BUILT, only_line_4, FOUR_LINES, cleaning, CLEANING), 0,
         CLEANING);
    holds(memcmp(cleaning, cleaning_circuit, CLEANING) == 0, "the gates that clean up");

    uint8_t lines[FOUR_LINES] = {1, 1, 1, 1, 0, 0, 0};
    const uint8_t dirty[FOUR_LINES] = {1, 1, 1, 1, 1, 1, 1};
    const uint8_t clean[FOUR_LINES] = {1, 1, 1, 1, 1, 0, 0};
    show("build", oracle_run_forwards(built_circuit, BUILT, lines, FOUR_LINES), 0, 0);
    holds(memcmp(lines, dirty, FOUR_LINES) == 0, "the lines after building");
    show("clean", oracle_run_forwards(cleaning, CLEANING, lines, FOUR_LINES), 0, 0);
    holds(memcmp(lines, clean, FOUR_LINES) == 0, "the lines after cleaning");
    show("clean backwards", oracle_run_backwards(cleaning, CLEANING, lines, FOUR_LINES), 0, 0);
    holds(memcmp(lines, dirty, FOUR_LINES) == 0, "the lines after cleaning backwards");
}

static void show_refusals(void)
{
    uint8_t area[LENGTH], damaged[LENGTH];
    memset(area, 9, LENGTH);
    memcpy(damaged, three_circuit, LENGTH);
    damaged[38] = 4; /* both controls of gate 1 are line 4 */

    show_head("empty file", oracle_read_circuit(NULL, 0), (oracle_head){.number = 1});
    show_head("equal controls", oracle_read_circuit(damaged, LENGTH),
              (oracle_head){.number = 12, .value = 1});
    damaged[40] = 2; /* and now they are lines 4 and 2, the higher one first */
    show_head("exchanged controls", oracle_read_circuit(damaged, LENGTH),
              (oracle_head){.number = 12, .value = 1});
    show("undo of that",
         oracle_undo(damaged, LENGTH, only_the_target, LINES, area, LENGTH), 12, 1);
    holds(filled(area, LENGTH, 9), "the area after refusal 12");

    const uint8_t no_bit[LINES] = {1, 1, 1, 0, 2};
    uint8_t lines[LINES];
    memcpy(lines, no_bit, LINES);
    show("exchanged controls, and line 4 is 2",
         oracle_run_forwards(damaged, LENGTH, lines, LINES), 12, 1);
    show("line 4 is 2", oracle_run_forwards(three_circuit, LENGTH, lines, LINES), 13, 0);
    show("no lines", oracle_run_backwards(three_circuit, LENGTH, NULL, 0), 13, 0);
    holds(memcmp(lines, no_bit, LINES) == 0, "the lines after refusals 12 and 13");
    show("choice 4 is 2", oracle_undo(three_circuit, LENGTH, no_bit, LINES, area, 1), 13, 0);
    holds(filled(area, LENGTH, 9), "the area after refusal 13");

    show("a byte too few",
         oracle_undo(three_circuit, LENGTH, only_the_target, LINES, area, UNDONE - 1), 11, 2);
    holds(filled(area, UNDONE - 1, 0), "the area after refusal 11");
    holds(filled(area + UNDONE - 1, LENGTH - UNDONE + 1, 9), "what is behind that area");
}

int main(void)
{
    show_loading(and_circuit, sizeof and_circuit,
                 (oracle_head){.value = 1, .inputs = 2, .outputs = 1, .work = 0});
    show_loading(three_circuit, LENGTH,
                 (oracle_head){.value = 3, .inputs = 3, .outputs = 1, .work = 1});
    run_two(and_circuit, sizeof and_circuit);
    run_three(three_circuit, LENGTH);
    show_undo();
    show_cleaning();
    show_refusals();
    return all_as_expected ? 0 : 1;
}
