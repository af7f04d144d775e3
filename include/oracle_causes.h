/* The causes for which a service refuses, a line for each, and the one place where their words stand.
 * oracle.h makes constants and texts of them, and the Rust wrapper reads them too.
 *
 * ORACLE_CAUSE(number, name, what the place of the refusal is, why it is refused)
 *
 * What the place is, is empty where it is always 0. No text has a quotation mark in it.
 */
ORACLE_CAUSE(1, TABLE, "", "the number of entries is missing or wrong, or the table of contents is cut short")
ORACLE_CAUSE(2, CONTENTS, "", "an entry has the wrong tag or start, or the last body does not end with the file")
ORACLE_CAUSE(3, BODY_LENGTH, "", "a body does not have the length of its layout")
ORACLE_CAUSE(4, RANGE, "", "the number of inputs, outputs or work lines is out of range")
ORACLE_CAUSE(5, NODE, "at node", "a node is not in order, or names an input that is not there")
ORACLE_CAUSE(6, OUTPUT, "at output", "an output names no node")
ORACLE_CAUSE(7, LIST_LENGTH, "", "a lent list is too short")
ORACLE_CAUSE(8, SIZE, "at output", "the unfolded size of an output is over 16,384")
ORACLE_CAUSE(9, GRANT, "", "the grant is over 1,024")
ORACLE_CAUSE(10, WORK_LINES, "needed:", "more work lines are needed than granted")
ORACLE_CAUSE(11, ROOM, "needed:", "there are over 8,000 gates, or the area is too short for the file")
ORACLE_CAUSE(12, GATE, "at gate", "a gate is not in order")
ORACLE_CAUSE(13, LINE_BYTES, "", "there is not one byte, 0 or 1, for each line")
ORACLE_CAUSE(14, INPUT_BYTES, "", "there is not one byte, 0 or 1, or not one word, for each input")
ORACLE_CAUSE(15, OUTPUT_NUMBER, "", "there is no output with this number")
ORACLE_CAUSE(16, TEXT, "at byte", "the text is outside the language of formulas")
ORACLE_CAUSE(17, TEXT_LENGTH, "", "the text has over 4,096 bytes")
ORACLE_CAUSE(18, DEPTH, "at byte", "more than 64 brackets and ! are open together")
