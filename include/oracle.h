/* The services of liboracle.a, for C and C++ and whatever can call C.
 *
 * Every function takes any bytes, any lengths and any numbers, ends, and touches nothing but the
 * areas lent to it. An area is a pointer and its length; where the length is 0 the pointer may be
 * null. Areas of one call must not overlap. Nothing is kept after a call: no heap, no state. A call
 * takes a few hundred bytes of stack; oracle_parse and oracle_compile take more, and say how much.
 */
#ifndef ORACLE_H
#define ORACLE_H

#include <stddef.h>
#include <stdint.h>

/* The version of the library, of the Rust packages and of the command. */
#define ORACLE_VERSION "0.2.0"

#ifdef __cplusplus
extern "C" {
#endif

/* The causes of refusals by name: ORACLE_CAUSE_TABLE is 1, and so on, a line for each in
 * oracle_causes.h. */
enum oracle_cause {
#define ORACLE_CAUSE(number, name, place, text) ORACLE_CAUSE_##name = number,
#include "oracle_causes.h"
#undef ORACLE_CAUSE
    ORACLE_CAUSE_NONE = 0
};

/* Why a service refused, in words, for the number of its answer; an empty text for a number that is
 * no cause's. */
static inline const char *oracle_cause_text(uint64_t number) {
    switch (number) {
#define ORACLE_CAUSE(number, name, place, text) case number: return text;
#include "oracle_causes.h"
#undef ORACLE_CAUSE
    default: return "";
    }
}

/* What the value of such a refusal is, as "at node"; an empty text where it is always 0. */
static inline const char *oracle_place_text(uint64_t number) {
    switch (number) {
#define ORACLE_CAUSE(number, name, place, text) case number: return place;
#include "oracle_causes.h"
#undef ORACLE_CAUSE
    default: return "";
    }
}

/* What a service other than the two readers answers.
 *
 * number  0 for a result, else the number of the cause for which the service refused;
 *         oracle_cause_text has it in words, and docs/FORMATS.md the whole table;
 * value   of a result, what the function says below; of a refusal, its place, 0 where the cause
 *         has none.
 */
typedef struct {
    uint64_t number;
    uint64_t value;
} oracle_answer;

/* What the two readers answer.
 *
 * number   as in oracle_answer;
 * value    of a result, the number of nodes of a program or of gates of a circuit; of a refusal,
 *          its place, 0 where the cause has none;
 * inputs   the number of inputs;
 * outputs  the number of outputs;
 * work     the number of work lines of a circuit; 0 for a program, which has none.
 *
 * The last three are 0 for a refusal. For a circuit, inputs + outputs + work is the number of its
 * lines: as many line bytes are to be lent to oracle_run_forwards and oracle_run_backwards, and as
 * many choice bytes to oracle_undo.
 */
typedef struct {
    uint64_t number;
    uint64_t value;
    uint64_t inputs;
    uint64_t outputs;
    uint64_t work;
} oracle_head;

/* Parses a formula, typed as ASCII text, and writes its program file, with one output and no mark.
 *
 * A text of the language is a sum. A sum is products joined by ^, a product is factors joined by &,
 * and a factor is ! and a factor, a sum in brackets ( and ), 0, 1, or x and the number of an input:
 * one digit, or two not starting with 0. There are no blanks and no newline. ^ is XOR, & is AND, !
 * is NOT; & binds closer than ^, and both group to the left. Each ^, &, !, 0, 1 and input of the
 * text makes a node when its text ends, and the last node is the output; brackets make none, and no
 * node is shared.
 *
 * inputs  the number of inputs of the program, at most 64; the text need not name all of them.
 * area    38 bytes, and 6 for each node, at least. A text makes at most a node for each byte, so
 *         24,614 bytes are always enough, and a text of 4,096 bytes can need them. After a result
 *         the file written is at its start, and the bytes behind it are as they were. After refusal
 *         11 all of it is zero. After any other refusal it is as it was.
 *
 * Result: value is the number of bytes written. Refusals, in this order: 17, the text has over
 * 4,096 bytes; 4, inputs is over 64; then from the first byte on, the first of 16, no text of the
 * language goes on so, the place being the length of the longest prefix with which some text begins
 * (an unfinished text has its own length), 18, the byte opens one more than 64 brackets and !
 * together (a bracket is open up to its ), a ! until its factor ends), the place being that byte,
 * and 5, the number of an input is not below inputs, the place being the node that it would have
 * been; last of all 11, the place being the number of nodes. The text is only read.
 *
 * Stack: the nodes are made beside the area, and what reads sums, products and factors calls itself
 * up to 64 deep. The deepest texts that were tried took 49,152 bytes.
 */
oracle_answer oracle_parse(const uint8_t *text, size_t text_length, uint64_t inputs,
                           uint8_t *area, size_t area_length);

/* Reads and checks a program file.
 *
 * The second byte of a node is its mark: 0, or 1 on an AND. Any other byte, and 1 on any other kind,
 * is refused with 5 at that node. A mark changes what oracle_compile and oracle_quote answer, and
 * nothing else.
 *
 * Result: value is the number of nodes, inputs and outputs are the program's, work is 0. Refusals:
 * 1 to 6. The file is only read.
 */
oracle_head oracle_read_program(const uint8_t *file, size_t file_length);

/* Evaluates one output of a program file on given input bits.
 *
 * inputs  one byte, 0 or 1, for each input; only read.
 * values  a byte for each node at least. After a result, entry i is the value of node i, 0 or 1,
 *         and entries behind the last node are as they were. After a refusal all of it is.
 * output  the output's number, from 0.
 *
 * Result: value is the output's value, 0 or 1. Refusals: 1 to 7, 14, 15.
 */
oracle_answer oracle_evaluate(const uint8_t *file, size_t file_length,
                              uint8_t *values, size_t values_length,
                              const uint8_t *inputs, size_t inputs_length,
                              uint64_t output);

/* Evaluates one output of a program file on 64 questions at once, each node once for all of them.
 * Bit k of a word, from the lowest on, belongs to question k, from 0 to 63: its inputs are bits k of
 * the input words.
 *
 * inputs  one word for each input; every word is allowed; only read.
 * values  a word for each node at least; 4,096 are always enough. After a result, bit k of entry i
 *         is the value of node i on question k, and entries behind the last node are as they were.
 *         After a refusal all of it is.
 * output  the output's number, from 0.
 *
 * values_length and inputs_length are in words. Result: bit k of value is the output's value on
 * question k, which is what oracle_evaluate answers to it. As value uses all 64 bits, only number
 * says whether it is a result. Refusals: 1 to 7, 14, 15; 14 where there are not as many words as
 * inputs. The file is only read.
 */
oracle_answer oracle_evaluate_words(const uint8_t *file, size_t file_length,
                                    uint64_t *values, size_t values_length,
                                    const uint64_t *inputs, size_t inputs_length,
                                    uint64_t output);

/* Quotes a program file: how many gates, Toffolis and work lines the share of each output has,
 * without building it. Whatever oracle_compile refuses with 8 to 11 is quoted too. Gates that are
 * undone at a mark count as often as they are written, and lines are the most in use together.
 *
 * counts   eight numbers for each node at least; 32,768 are always enough. After a result they are
 *          zero over the nodes, and the numbers behind are as they were. After a refusal all of it
 *          is.
 * answers  three numbers for each output at least; 192 are always enough. After a result, numbers
 *          3 k, 3 k + 1 and 3 k + 2 are the gates, the Toffolis and the work lines of output k, each
 *          as 1,000,001 where it is above 1,000,000, and the numbers behind are as they were. After
 *          a refusal all of it is.
 *
 * Both lengths are in numbers. Result: value is the number of outputs. Refusals: 1 to 7. The file is
 * only read.
 */
oracle_answer oracle_quote(const uint8_t *file, size_t file_length,
                           uint64_t *counts, size_t counts_length,
                           uint64_t *answers, size_t answers_length);

/* Compiles a program file to the circuit file that computes its outputs.
 *
 * Behind the gate of a marked AND, the gates built for its two operands follow once more, last to
 * first, and the work lines that they took are free again. A mark can save work lines, costs gates,
 * and changes no value.
 *
 * grant   the number of work lines that the circuit may take, at most 1,024.
 * sizes   an entry for each node at least; 4,096 are always enough. After a result and after
 *         refusals 8 to 11, entry i is the unfolded size of node i (1, and the sizes of its
 *         operands, one that is used twice counted twice), or 16,385 if that is less, and entries
 *         behind the last node are as they were. After refusals 1 to 7 all of it is.
 * area    28 bytes, and 8 for each gate, at least; 64,028 bytes are always enough. After a result
 *         the file written is at its start, and the bytes behind it are as they were. After
 *         refusal 11 all of it is zero. After any other refusal it is as it was.
 *
 * Result: value is the number of bytes written. Refusals: 1 to 11, checked in this order; the place
 * of 8 is the lowest output whose unfolded size is over 16,384, that of 10 the number of work lines
 * needed, the most in use together, and that of 11 the number of gates needed, where there are over
 * 8,000 or the area is too short for them. Nested marks multiply gates: a number over 3,000,000 is
 * given as 3,000,001. The program file is only read.
 *
 * Stack: the construction calls itself, up to 4,096 deep. The deepest programs that were tried took
 * 790,528 bytes; lend a thread at least 2 MiB.
 */
oracle_answer oracle_compile(const uint8_t *file, size_t file_length, uint64_t grant,
                             uint16_t *sizes, size_t sizes_length,
                             uint8_t *area, size_t area_length);

/* Reads and checks a circuit file.
 *
 * A Toffoli's first control has to be lower than its second: this function and the three below
 * refuse a gate that breaks this with 12. Exchanging the two changes nothing that the gate does.
 *
 * Result: value is the number of gates, inputs, outputs and work are the circuit's. Refusals: 1 to
 * 4, 12. The file is only read.
 */
oracle_head oracle_read_circuit(const uint8_t *file, size_t file_length);

/* Runs a circuit file, the first gate first.
 *
 * lines   one byte, 0 or 1, for each line: inputs, then targets, then work lines. How many there
 *         are is said by oracle_read_circuit. After a result they are the lines after the run.
 *         After a refusal they are as they were.
 *
 * Result: value is 0. Refusals: 1 to 4, 12, 13. The file is only read.
 */
oracle_answer oracle_run_forwards(const uint8_t *file, size_t file_length,
                                  uint8_t *lines, size_t lines_length);

/* Runs a circuit file, the last gate first, which takes back a run forwards.
 *
 * lines   as in oracle_run_forwards.
 *
 * Result: value is 0. Refusals: 1 to 4, 12, 13. The file is only read.
 */
oracle_answer oracle_run_backwards(const uint8_t *file, size_t file_length,
                                   uint8_t *lines, size_t lines_length);

/* Writes the circuit file that undoes a circuit except on chosen lines: the gates whose target is
 * not chosen, the last one first, under the same head.
 *
 * choices one byte for each line, 1 if it is chosen, else 0; only read.
 * area    28 bytes, and 8 for each gate that remains, at least; the length of the file undone is
 *         always enough. After a result the file written is at its start, and the bytes behind it
 *         are as they were. After refusal 11 all of it is zero. After any other refusal it is as
 *         it was.
 *
 * Result: value is the number of bytes written. Refusals: 1 to 4, 12, 13, and last of all 11, whose
 * place is the number of gates that remain. The file undone is only read.
 */
oracle_answer oracle_undo(const uint8_t *file, size_t file_length,
                          const uint8_t *choices, size_t choices_length,
                          uint8_t *area, size_t area_length);

#ifdef __cplusplus
}
#endif

#endif
