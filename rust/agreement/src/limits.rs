//! Programs at the limits of compiling: gates, work lines, sizes, depth and the file itself.

use crate::program::{and, input, marked, not, xor, Node, Program, ZERO};

/// The programs here whose circuits a file can hold.
pub fn accepted() -> Vec<Program> {
    vec![
        most_gates(),
        most_outputs(),
        ands(1_025, false),
        ands(1_025, true),
        ands_of_nots(512),
        most_lines(),
        deepest(),
        longest_file(),
        of_marked_gates(&[8_000]),
        of_marked_gates(&[125; 64]),
        nested_marks(10),
        most_lines_marked(),
        lines_taken_twice(),
    ]
}

/// 8,000 gates on one target: node i has 2^i of them up to node 12.
pub fn most_gates() -> Program {
    let mut nodes = vec![input(0)];
    nodes.extend((0..12).map(|before| xor(before, before)));
    nodes.extend([xor(12, 11), xor(13, 10), xor(14, 9), xor(15, 8), xor(16, 6)]);
    Program::new(1, &nodes, &[17])
}

/// 8,001 gates: an output more, with one gate.
pub fn a_gate_too_many() -> Program {
    Program::new(1, &most_gates().nodes, &[17, 0])
}

/// 64 inputs and 64 outputs, which are two ANDs of all inputs, in turn, one from the first input up
/// and one from the last down: 125 gates an output, 8,000 in all, and 62 work lines.
pub fn most_outputs() -> Program {
    let mut nodes: Vec<Node> = (0..64).map(input).collect();
    nodes.push(and(0, 1));
    nodes.extend((2..64).map(|j| and(62 + j, j)));
    nodes.push(and(63, 62));
    nodes.extend((0..62).rev().map(|j| and(j, 188 - j)));
    Program::new(64, &nodes, &[126, 189].repeat(32))
}

/// So many ANDs, the first of two inputs, each next one of the one before and an input: a work line
/// for each but the first, and 1,024 with 1,025. An input's line is below them all.
pub fn ands(count: u16, input_first: bool) -> Program {
    let mut nodes: Vec<Node> = (0..64).map(input).collect();
    for before in 63..63 + count {
        let j = (before + 1) % 64;
        nodes.push(if input_first { and(j, before) } else { and(before, j) });
    }
    Program::new(64, &nodes, &[63 + count])
}

/// So many ANDs, each of the one before and NOT of an input, the first of two NOTs: two work lines
/// each, and 1,024 with 512.
pub fn ands_of_nots(count: u16) -> Program {
    let mut nodes: Vec<Node> = (0..64).map(input).collect();
    nodes.extend((0..64).map(not));
    nodes.extend((127..127 + count).map(|before| and(before, 64 + before % 63)));
    Program::new(64, &nodes, &[127 + count])
}

/// 1,152 lines, the most: 64 inputs, 64 outputs, and 1,024 work lines, which the last output takes.
pub fn most_lines() -> Program {
    let mut outputs: Vec<u16> = (0..63).collect();
    outputs.push(1_088);
    Program::new(64, &ands(1_025, false).nodes, &outputs)
}

/// The most nodes, each NOT of the one before but the first.
pub fn deepest() -> Program {
    let mut nodes = vec![input(0)];
    nodes.extend((0..4_095).map(not));
    Program::new(1, &nodes, &[4_095])
}

/// So many outputs of the largest size, 16,384. Each has 8,193 gates.
pub fn largest_outputs(count: usize) -> Program {
    let mut nodes = vec![input(0)];
    nodes.extend((0..13).map(|before| xor(before, before)));
    nodes.push(not(13));
    Program::new(1, &nodes, &vec![14; count])
}

/// The longest file, of 24,740 bytes: 4,096 nodes and 64 outputs, the last nodes, each XOR of two
/// inputs.
pub fn longest_file() -> Program {
    let mut nodes: Vec<Node> = (0..64).map(input).collect();
    nodes.extend((64..4_096).map(|i| xor(i % 64, i / 64)));
    let outputs: Vec<u16> = (4_032..4_096).collect();
    Program::new(64, &nodes, &outputs)
}

/// So many ANDs, each next one of the one before and an input, all marked: 2^(n + 1) - 3 gates with n
/// of them, and a work line for each but the first.
pub fn nested_marks(count: u16) -> Program {
    ands(count, false).with_marks(|| true)
}

/// A program whose outputs have these numbers of gates, each as the XOR of nested marked ANDs. In a
/// share, an AND has two times the gates of the one below it, and 3, so that few of them are needed.
pub fn of_marked_gates(gates: &[u128]) -> Program {
    let most = gates.iter().copied().max().unwrap_or(0);
    let (mut nodes, ands) = nested_ands(most, 3);
    let outputs: Vec<u16> = gates.iter().map(|count| sum_of(&mut nodes, &ands, *count)).collect();
    Program::new(2, &nodes, &outputs)
}

/// A marked AND of an input and a node that is built with so many gates, which are there four times: a
/// XOR of nested marked ANDs, each built with two times the gates of the one below it, and 1.
pub fn marked_above(built: u128) -> Program {
    let (mut nodes, ands) = nested_ands(built, 1);
    let sum = sum_of(&mut nodes, &ands, built);
    nodes.push(marked(sum, 0));
    Program::new(2, &nodes, &[sum + 1])
}

/// Two inputs, ZERO, and nested marked ANDs. With the number of each, what it counts for: 1 the
/// lowest, each next one twice the one before and so many more, up to the most.
fn nested_ands(most: u128, more: u128) -> (Vec<Node>, Vec<(u16, u128)>) {
    let mut nodes = vec![input(0), input(1), ZERO, marked(0, 1)];
    let mut ands = vec![(3, 1)];
    while let Some((last, count)) = ands.last().copied() {
        if 2 * count + more > most {
            break;
        }
        nodes.push(marked(last, last % 2));
        ands.push((last + 1, 2 * count + more));
    }
    (nodes, ands)
}

/// Adds the XOR of ANDs that count for so much together, and gives the number of its node.
fn sum_of(nodes: &mut Vec<Node>, ands: &[(u16, u128)], total: u128) -> u16 {
    const NOTHING: u16 = 2;
    let (mut sum, mut rest) = (NOTHING, total);
    for (and, count) in ands.iter().rev() {
        while *count <= rest {
            nodes.push(xor(sum, *and));
            sum = nodes.len() as u16 - 1;
            rest -= count;
        }
    }
    sum
}

/// 1,152 lines with a marked AND at the top of the last output's 1,025, which frees all its lines.
pub fn most_lines_marked() -> Program {
    let mut program = most_lines();
    program.nodes[1_088].mark = 1;
    program
}

/// The XOR of the last of 1,000 ANDs with itself, marked: its 999 lines are taken twice, one time after
/// the other. Without the mark they are 1,998.
pub fn lines_taken_twice() -> Program {
    let mut nodes = ands(1_000, true).nodes;
    nodes[1_063].mark = 1;
    nodes.push(xor(1_063, 1_063));
    Program::new(64, &nodes, &[1_064])
}

#[cfg(test)]
mod tests {
    use super::*;
    use model::construct;

    fn read(program: &Program) -> model::program::Program {
        model::program::read(&program.bytes()).expect("a good program")
    }

    /// The gates, the work lines and the size of the first output.
    fn measures(program: &Program) -> (usize, usize, usize) {
        let program = read(program);
        let circuit = construct::circuit(&program);
        let size = construct::size(&program.nodes, program.outputs[0]);
        (circuit.gates.len(), circuit.work, size)
    }

    #[test]
    fn each_is_where_it_says() {
        assert_eq!(measures(&most_gates()), (8_000, 0, 15_999));
        assert_eq!(measures(&a_gate_too_many()), (8_001, 0, 15_999));
        assert_eq!(measures(&most_outputs()), (8_000, 62, 127));
        for input_first in [false, true] {
            assert_eq!(measures(&ands(1, input_first)), (1, 0, 3));
            assert_eq!(measures(&ands(1_025, input_first)), (2_049, 1_024, 2_051));
            assert_eq!(measures(&ands(1_026, input_first)), (2_051, 1_025, 2_053));
        }
        assert_eq!(measures(&ands_of_nots(512)), (3_075, 1_024, 1_538));
        assert_eq!(measures(&ands_of_nots(513)), (3_081, 1_026, 1_541));
        assert_eq!(measures(&most_lines()), (63 + 2_049, 1_024, 1));
        assert_eq!(measures(&deepest()), (4_096, 0, 4_096));
        assert_eq!(measures(&largest_outputs(64)), (64 * 8_193, 0, 16_384));
        assert_eq!(measures(&longest_file()), (128, 0, 3));
        assert_eq!(longest_file().bytes().len(), 24_740);
        for count in 1..=10 {
            let (gates, lines, size) = ((2 << count) - 3, count - 1, 2 * count + 1);
            assert_eq!(measures(&nested_marks(count as u16)), (gates, lines, size));
        }
        assert_eq!(measures(&most_lines_marked()).0, 63 + 4_097);
        assert_eq!(measures(&most_lines_marked()).1, 1_024);
        assert_eq!(measures(&lines_taken_twice()), (7_994, 999, 4_003));
        let unmarked = lines_taken_twice().with_marks(|| false);
        assert_eq!(measures(&unmarked), (3_998, 1_998, 4_003));
    }

    #[test]
    fn marked_gates_are_as_many_as_asked_for() {
        for gates in (0..200).chain([7_999, 8_000, 8_001]) {
            let program = read(&of_marked_gates(&[gates, 3, gates]));
            let shares = [0, 1, 2].map(|k| construct::share(&program, k).len() as u128);
            assert_eq!(shares, [gates, 3, gates]);
            let above = read(&marked_above(gates));
            assert_eq!(construct::share(&above, 0).len() as u128, 4 * gates + 1);
        }
        for gates in [3_000_000, 3_000_001, 1 << 32, u64::MAX.into()] {
            let program = read(&of_marked_gates(&[gates]));
            assert_eq!(construct::gates_needed(&program) as u128, gates);
        }
        for gates in [749_999, 750_000, 1 << 30, 1 << 61] {
            let program = read(&marked_above(gates));
            assert_eq!(construct::gates_needed(&program) as u128, 4 * gates + 1);
        }
        for program in [of_marked_gates(&[1 << 66]), marked_above(1 << 64)].map(|p| read(&p)) {
            assert_eq!(construct::gates_needed(&program), usize::MAX);
            assert!(construct::size(&program.nodes, program.outputs[0]) < 6_000);
        }
    }
}
