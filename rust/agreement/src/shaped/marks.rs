//! Programs with marks, and their circuits as 02's A7 has them, gate by gate.

use super::operands::{example, Example};
use super::program::two_ands_of_three;
use crate::circuit::{cnot, not as flip, toffoli, Circuit, Gate};
use crate::program::{and, input, marked, not, xor, Node, Program, ZERO};

/// Every example.
pub fn all() -> Vec<Example> {
    let mut examples = of_one_output();
    examples.push(of_several_outputs());
    examples
}

/// The examples of one output, their last node.
pub fn of_one_output() -> Vec<Example> {
    let groups = [nothing_to_undo(), alone(), beside(), nested(), on_both_sides(), orders()];
    groups.into_iter().flatten().collect()
}

/// With no operand built, and with one of no gates, the circuit is that without the mark.
fn nothing_to_undo() -> Vec<Example> {
    let two = [input(0), input(1), marked(1, 0)];
    vec![
        example("marked, two inputs", 2, &two, 0, &[toffoli(0, 1, 2)]),
        example("marked, one input by one node", 2, &[input(1), marked(0, 0)], 0, &[cnot(1, 2)]),
        example(
            "marked, one input by two nodes",
            2,
            &[input(1), input(1), marked(0, 1)],
            0,
            &[cnot(1, 2)],
        ),
        example("marked, ZERO with itself", 0, &[ZERO, marked(0, 0)], 2, &[toffoli(1, 2, 0)]),
    ]
}

/// The gates of the operands are there four times: built and undone, and both again at the end.
fn alone() -> Vec<Example> {
    let one = [flip(3), cnot(1, 3), toffoli(0, 3, 2), cnot(1, 3), flip(3)];
    let one = [&one[..], &[flip(3), cnot(1, 3), cnot(1, 3), flip(3)]].concat();
    let build = [flip(3), cnot(0, 3), flip(4), cnot(1, 4)];
    let undo = [cnot(1, 4), flip(4), cnot(0, 3), flip(3)];
    let nor = [&build[..], &[toffoli(3, 4, 2)], &undo, &build, &undo].concat();
    let three = [toffoli(0, 1, 4), toffoli(2, 4, 3), toffoli(0, 1, 4)];
    let three = [&three[..], &[toffoli(0, 1, 4); 2]].concat();
    let of_nots = [input(0), input(1), not(0), not(1), marked(2, 3)];
    let of_three = [input(0), input(1), and(0, 1), input(2), marked(2, 3)];
    vec![
        example(
            "marked, an input and a NOT",
            2,
            &[input(0), input(1), not(1), marked(0, 2)],
            1,
            &one,
        ),
        example("marked, NOR", 2, &of_nots, 2, &nor),
        example("marked, AND of three", 3, &of_three, 1, &three),
    ]
}

/// A XOR of two ANDs of three inputs: the second takes the line of the first if that is free.
fn beside() -> Vec<Example> {
    let both = two_ands_of_three(true).nodes;
    let none = two_ands_of_three(false).nodes;
    let with = |at: usize| {
        let mut nodes = none.clone();
        nodes[at].mark = 1;
        nodes
    };
    // The lower ANDs, and the upper ones to the target: the second of both on either line.
    let (a, to_target) = (toffoli(0, 1, 7), toffoli(2, 7, 6));
    let (b, b_to_target) = (toffoli(3, 4, 7), toffoli(5, 7, 6));
    let (c, c_to_target) = (toffoli(3, 4, 8), toffoli(5, 8, 6));
    let twice = [input(0), input(1), and(0, 1), input(2), marked(2, 3), xor(4, 4)];
    let shared = [toffoli(0, 1, 4), toffoli(2, 4, 3), toffoli(0, 1, 4)];
    let shared = [&shared[..], &shared, &[toffoli(0, 1, 4); 4]].concat();
    vec![
        example("XOR of two ANDs of three", 6, &none, 2, &[a, to_target, c, c_to_target, c, a]),
        example(
            "marked, both of a XOR",
            6,
            &both,
            1,
            &[a, to_target, a, b, b_to_target, b, b, b, a, a],
        ),
        example("marked, the first", 6, &with(7), 1, &[a, to_target, a, b, b_to_target, b, a, a]),
        example("marked, the second", 6, &with(9), 2, &[a, to_target, c, c_to_target, c, c, c, a]),
        example("marked, used twice", 3, &twice, 1, &shared),
    ]
}

/// The AND of four inputs as a chain: what is undone at the lower AND is undone at the upper one too.
fn nested() -> Vec<Example> {
    let of = |lower: Node, upper: Node| {
        [input(0), input(1), and(0, 1), input(2), lower, input(3), upper]
    };
    let [a, b, c] = [toffoli(0, 1, 6), toffoli(2, 6, 5), toffoli(3, 5, 4)];
    let lower = [a, b, a, c, a, b, a];
    let upper = [a, b, c, b, a, a, b, b, a];
    let both = [a, b, a, c, a, b, a, a, b, a, a, b, a];
    vec![
        example("marked, the lower", 4, &of(marked(2, 3), and(4, 5)), 2, &lower),
        example("marked, the upper", 4, &of(and(2, 3), marked(4, 5)), 2, &upper),
        example("marked, lower and upper", 4, &of(marked(2, 3), marked(4, 5)), 2, &both),
    ]
}

/// An AND of two ANDs of three inputs, and of the XOR of these.
fn on_both_sides() -> Vec<Example> {
    let inner = [input(0), input(1), input(2), and(0, 1)];
    let of = |name, more: &[Node], work, gates: &[&[Gate]]| {
        example(name, 3, &[&inner, more].concat(), work, &gates.concat())
    };
    let first = [toffoli(0, 1, 5), toffoli(2, 5, 4), toffoli(0, 1, 5)];
    let second = [toffoli(0, 1, 6), toffoli(2, 6, 5), toffoli(0, 1, 6)];
    let root = [toffoli(4, 5, 3)];
    let unmarked_second = [&first[..], &second[..2], &root, &[second[1], second[0]], &first];
    let both = [&first[..], &second, &root, &second, &first];
    let again = [&first[..], &second, &second, &first];
    let sum = [&first[..], &first, &[toffoli(0, 4, 3)], &first, &first];
    let (a, b) = (marked(3, 2), marked(2, 3));
    vec![
        of("marked, the first operand", &[a, and(2, 3), and(4, 5)], 3, &unmarked_second),
        of("marked, both operands", &[a, b, and(4, 5)], 3, &both),
        of("marked, both and their AND", &[a, b, marked(4, 5)], 3, &[&both[..], &again].concat()),
        of("marked, both of a XOR below an AND", &[a, b, xor(4, 5), and(6, 0)], 2, &sum),
    ]
}

/// NOR of two inputs, marked, and NOT of a third: with the NOR first, its two lines are free for the
/// NOT, and the most are in use before the NOT is built; with the NOT first its line is in use.
fn orders() -> Vec<Example> {
    let leaves = [input(0), input(1), input(2), not(0), not(1), marked(3, 4), not(2)];
    let nor = |a: u16, b: u16, target: u16| -> Vec<Gate> {
        let build = [flip(a), cnot(0, a), flip(b), cnot(1, b)];
        let undo = [cnot(1, b), flip(b), cnot(0, a), flip(a)];
        [&build[..], &[toffoli(a, b, target)], &undo].concat()
    };
    let negation = |line: u16| [flip(line), cnot(2, line)];
    let undone = |line: u16| [cnot(2, line), flip(line)];
    let root = [toffoli(4, 5, 3)];
    let first = [&nor(5, 6, 4)[..], &negation(5), &root, &undone(5), &nor(5, 6, 4)].concat();
    let second = [&negation(4)[..], &nor(6, 7, 5), &root, &nor(6, 7, 5), &undone(4)].concat();
    vec![
        example("marked, NOR before a NOT", 3, &[&leaves[..], &[and(5, 6)]].concat(), 3, &first),
        example("marked, NOR behind a NOT", 3, &[&leaves[..], &[and(6, 5)]].concat(), 4, &second),
    ]
}

/// The same marked AND as an output, below an AND and twice below a XOR: all lines are free again
/// before each.
pub fn of_several_outputs() -> Example {
    let nodes = [input(0), input(1), not(0), marked(2, 1), and(3, 0), xor(3, 3)];
    let gates = |line: u16, target: u16| {
        [flip(line), cnot(0, line), toffoli(1, line, target), cnot(0, line), flip(line)]
    };
    let again = [flip(5), cnot(0, 5), cnot(0, 5), flip(5)];
    let alone = [&gates(5, 2)[..], &again].concat();
    let below = [&gates(6, 5)[..], &[toffoli(0, 5, 3)], &gates(6, 5)].concat();
    let twice = [&gates(5, 4)[..], &gates(5, 4), &again, &again].concat();
    Example {
        name: "marked, several outputs",
        program: Program::new(2, &nodes, &[3, 4, 5]),
        circuit: Circuit::new(2, 3, 2, &[alone, below, twice].concat()),
    }
}
