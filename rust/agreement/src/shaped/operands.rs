//! Programs with every kind of operand of AND, and their circuits as 02's A5 has them, gate by gate.

use crate::circuit::{cnot, not as flip, toffoli, Circuit, Gate};
use crate::program::{and, input, not, xor, Node, Program, ONE, ZERO};

/// A program, and the circuit that it compiles to.
pub struct Example {
    /// What its ANDs are of.
    pub name: &'static str,
    /// The program.
    pub program: Program,
    /// The circuit.
    pub circuit: Circuit,
}

/// Every example.
pub fn all() -> Vec<Example> {
    let mut examples = of_one_output();
    examples.push(of_several_outputs());
    examples
}

/// The examples of one output, their last node.
pub fn of_one_output() -> Vec<Example> {
    let groups = [two_inputs(), one_input(), nots_of_inputs(), constants(), nested(), sums()];
    groups.into_iter().flatten().collect()
}

/// A program of one output, its last node, with these work lines and gates.
pub(super) fn example(
    name: &'static str,
    inputs: u16,
    nodes: &[Node],
    work: u16,
    gates: &[Gate],
) -> Example {
    let last = nodes.len() as u16 - 1;
    Example {
        name,
        program: Program::new(inputs, nodes, &[last]),
        circuit: Circuit::new(inputs, 1, work, gates),
    }
}

/// The lower control is first, wherever its operand stands.
fn two_inputs() -> Vec<Example> {
    let gates = [toffoli(0, 1, 2)];
    vec![
        example("inputs 0 and 1", 2, &[input(0), input(1), and(0, 1)], 0, &gates),
        example("inputs 1 and 0, by the table", 2, &[input(1), input(0), and(0, 1)], 0, &gates),
        example("inputs 1 and 0, by the node", 2, &[input(0), input(1), and(1, 0)], 0, &gates),
        example("inputs 63 and 0", 64, &[input(63), input(0), and(0, 1)], 0, &[toffoli(0, 63, 64)]),
    ]
}

/// A CNOT, and no line. An AND of an input with itself is no input in its turn.
fn one_input() -> Vec<Example> {
    let nodes = [input(0), and(0, 0), and(1, 0)];
    let gates = [cnot(0, 2), toffoli(0, 2, 1), cnot(0, 2)];
    let below = [input(0), input(1), and(0, 0), and(1, 2)];
    vec![
        example("one input by one node", 2, &[input(1), and(0, 0)], 0, &[cnot(1, 2)]),
        example("one input by two nodes", 2, &[input(1), input(1), and(0, 1)], 0, &[cnot(1, 2)]),
        example(
            "input 63 by two nodes",
            64,
            &[input(63), input(63), and(1, 0)],
            0,
            &[cnot(63, 64)],
        ),
        example("such an AND, and its input", 1, &nodes, 1, &gates),
        example(
            "another input, and such an AND",
            2,
            &below,
            1,
            &[cnot(0, 3), toffoli(1, 3, 2), cnot(0, 3)],
        ),
    ]
}

/// They take a line, and so does every other node that has an input's value.
fn nots_of_inputs() -> Vec<Example> {
    let gates = [flip(3), cnot(1, 3), toffoli(0, 3, 2), cnot(1, 3), flip(3)];
    let own = [flip(2), cnot(0, 2), toffoli(0, 2, 1), cnot(0, 2), flip(2)];
    let build = [flip(2), cnot(0, 2), flip(3), cnot(0, 3), toffoli(2, 3, 1)];
    let clean = [cnot(0, 3), flip(3), cnot(0, 2), flip(2)];
    let twice = [&build[..], &clean].concat();
    let sum = [input(0), ZERO, xor(0, 1), input(1), and(2, 3)];
    vec![
        example("an input and a NOT", 2, &[input(0), input(1), not(1), and(0, 2)], 1, &gates),
        example("a NOT and an input", 2, &[input(0), input(1), not(1), and(2, 0)], 1, &gates),
        example("an input and its own NOT", 1, &[input(0), not(0), and(0, 1)], 1, &own),
        example("a NOT with itself", 1, &[input(0), not(0), and(1, 1)], 2, &twice),
        example(
            "an input XOR ZERO, and another input",
            2,
            &sum,
            1,
            &[cnot(0, 3), toffoli(1, 3, 2), cnot(0, 3)],
        ),
    ]
}

/// They take a line, though ZERO builds nothing there.
fn constants() -> Vec<Example> {
    let one = [flip(2), toffoli(0, 2, 1), flip(2)];
    let both = [flip(2), toffoli(1, 2, 0), flip(2)];
    vec![
        example("ZERO and an input", 1, &[ZERO, input(0), and(0, 1)], 1, &[toffoli(0, 2, 1)]),
        example("an input and ZERO", 1, &[ZERO, input(0), and(1, 0)], 1, &[toffoli(0, 2, 1)]),
        example("ONE and an input", 1, &[ONE, input(0), and(0, 1)], 1, &one),
        example("an input and ONE", 1, &[ONE, input(0), and(1, 0)], 1, &one),
        example("ZERO and ONE", 0, &[ZERO, ONE, and(0, 1)], 2, &both),
        example("ZERO with itself", 0, &[ZERO, and(0, 0)], 2, &[toffoli(1, 2, 0)]),
    ]
}

/// An input is below every work line, so it is the first control. The first operand is built before
/// the second takes its line.
fn nested() -> Vec<Example> {
    let three = [input(0), input(1), input(2)];
    let with = |more: &[Node]| [&three, more].concat();
    let upper = [toffoli(1, 2, 4), toffoli(0, 4, 3), toffoli(1, 2, 4)];
    let lower = [toffoli(0, 1, 4), toffoli(2, 4, 3), toffoli(0, 1, 4)];
    let build = [toffoli(0, 1, 5), toffoli(2, 5, 4), toffoli(0, 1, 7), toffoli(2, 7, 6)];
    let clean = [toffoli(2, 7, 6), toffoli(0, 1, 7), toffoli(2, 5, 4), toffoli(0, 1, 5)];
    let two = [&build[..], &[toffoli(4, 6, 3)], &clean].concat();
    vec![
        example("an input and an AND", 3, &with(&[and(1, 2), and(0, 3)]), 1, &upper),
        example("an AND and an input", 3, &with(&[and(1, 2), and(3, 0)]), 1, &upper),
        example("an AND and a higher input", 3, &with(&[and(0, 1), and(3, 2)]), 1, &lower),
        example("a higher input and an AND", 3, &with(&[and(1, 0), and(2, 3)]), 1, &lower),
        example(
            "two ANDs of three",
            3,
            &with(&[and(0, 1), and(3, 2), and(2, 3), and(4, 5)]),
            4,
            &two,
        ),
    ]
}

/// What stands on the target is not undone, and no line is given back before the share is over.
fn sums() -> Vec<Example> {
    let two = [input(0), input(1), input(2), input(3), and(0, 1), and(3, 2), xor(4, 5)];
    let three = [input(0), input(1), input(2), and(0, 1), and(3, 2), xor(4, 4)];
    let build = [toffoli(0, 1, 4), toffoli(2, 4, 3), toffoli(0, 1, 5), toffoli(2, 5, 3)];
    let clean = [toffoli(0, 1, 5), toffoli(0, 1, 4)];
    let twice = [&build[..], &clean].concat();
    vec![
        example("XOR of two ANDs", 4, &two, 0, &[toffoli(0, 1, 4), toffoli(2, 3, 4)]),
        example("XOR of an AND of three with itself", 3, &three, 2, &twice),
        example(
            "XOR of an input and its AND with itself",
            1,
            &[input(0), and(0, 0), xor(0, 1)],
            0,
            &[cnot(0, 1), cnot(0, 1)],
        ),
    ]
}

/// Each output on its own target, with the work lines behind them all. An input that is no operand of
/// AND is a CNOT.
pub fn of_several_outputs() -> Example {
    let nodes = [input(0), input(1), and(0, 1), and(1, 0), and(1, 1), and(2, 0), xor(0, 1), not(1)];
    let outputs = [2, 3, 4, 5, 0, 6, 7];
    let ands = [toffoli(0, 1, 2), toffoli(0, 1, 3), cnot(1, 4)];
    let nested = [toffoli(0, 1, 9), toffoli(0, 9, 5), toffoli(0, 1, 9)];
    let others = [cnot(0, 6), cnot(0, 7), cnot(1, 7), flip(8), cnot(1, 8)];
    Example {
        name: "several outputs",
        program: Program::new(2, &nodes, &outputs),
        circuit: Circuit::new(2, 7, 1, &[&ands[..], &nested, &others].concat()),
    }
}
