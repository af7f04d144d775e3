/* The AND of two inputs and the AND of three, as program files and as circuit files. */
#ifndef AND_H
#define AND_H

#include <stdint.h>

/* Two inputs, one output: INPUT 0, INPUT 1, AND 0 1; the output is node 2. */
static const uint8_t and_program[] = {
    3, 0,                                           /* three entries: tag, start, length */
    1, 0, 32, 0, 0, 0, 4,  0, 0, 0,
    2, 0, 36, 0, 0, 0, 18, 0, 0, 0,
    3, 0, 54, 0, 0, 0, 2,  0, 0, 0,
    2, 0, 1, 0,                                     /* inputs, outputs */
    2, 0, 0, 0, 0, 0,                               /* INPUT 0 */
    2, 0, 1, 0, 0, 0,                               /* INPUT 1 */
    5, 0, 0, 0, 1, 0,                               /* AND 0 1 */
    2, 0,                                           /* output 0 is node 2 */
};

/* Its circuit: lines 0 and 1 are the inputs, 2 is the target. There is no work line. */
static const uint8_t and_circuit[] = {
    2, 0,                                           /* two entries: tag, start, length */
    17, 0, 22, 0, 0, 0, 6,  0, 0, 0,
    18, 0, 28, 0, 0, 0, 8,  0, 0, 0,
    2, 0, 1, 0, 0, 0,                               /* inputs, outputs, work lines */
    3, 0, 0, 0, 1, 0, 2, 0,                         /* T 0 1 2 */
};

/* Three inputs, one output: INPUT 0, INPUT 1, AND 0 1, INPUT 2, AND 2 3; the output is node 4. */
static const uint8_t three_program[] = {
    3, 0,
    1, 0, 32, 0, 0, 0, 4,  0, 0, 0,
    2, 0, 36, 0, 0, 0, 30, 0, 0, 0,
    3, 0, 66, 0, 0, 0, 2,  0, 0, 0,
    3, 0, 1, 0,                                     /* inputs, outputs */
    2, 0, 0, 0, 0, 0,                               /* INPUT 0 */
    2, 0, 1, 0, 0, 0,                               /* INPUT 1 */
    5, 0, 0, 0, 1, 0,                               /* AND 0 1 */
    2, 0, 2, 0, 0, 0,                               /* INPUT 2 */
    5, 0, 2, 0, 3, 0,                               /* AND 2 3 */
    4, 0,                                           /* output 0 is node 4 */
};

/* Its circuit: lines 0 to 2 are the inputs, 3 is the target, 4 is a work line. */
static const uint8_t three_circuit[] = {
    2, 0,
    17, 0, 22, 0, 0, 0, 6,  0, 0, 0,
    18, 0, 28, 0, 0, 0, 24, 0, 0, 0,
    3, 0, 1, 0, 1, 0,                               /* inputs, outputs, work lines */
    3, 0, 0, 0, 1, 0, 4, 0,                         /* T 0 1 4 */
    3, 0, 2, 0, 4, 0, 3, 0,                         /* T 2 4 3 */
    3, 0, 0, 0, 1, 0, 4, 0,                         /* T 0 1 4 */
};

#endif
