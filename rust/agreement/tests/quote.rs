//! quote: the archive beside the model, both lent lists before and after included.

use agreement::circuit::Circuit;
use agreement::compare::compile::written;
use agreement::compare::quote::{archive, compare, drawn as call, model, numbers, Case, OVER};
use agreement::program::{self, and, input, marked, not, times, xor, Node, Program, ONE, ZERO};
use agreement::random::Random;
use agreement::tally::Tally;
use agreement::{damage, drawn, limits, repository, shaped, Outcome};
use model::circuit::Gate;
use model::construct;

/// The numbers of an entry, and of an answer.
const ENTRY: usize = 8;
const ANSWER: usize = 3;

/// A shaped case on both sides, with what is expected of the answer and of both lists.
fn check(name: &str, case: &Case, expected: Outcome<usize>, counts: &[u64], answers: &[u64]) {
    let sides = [("model", model(case)), ("archive", archive(case))];
    for (side, (outcome, counts_after, answers_after)) in sides {
        assert_eq!(outcome, expected, "{name}, {side}, {}", case.describe());
        assert!(counts_after == counts, "{name}, {side}, the counts, {}", case.describe());
        assert_eq!(answers_after, answers, "{name}, {side}, the answers, {}", case.describe());
    }
}

/// A list whose first numbers are these, and the others as they were.
fn starting(with: &[u64], list: &[u64]) -> Vec<u64> {
    [with, &list[with.len()..]].concat()
}

/// A case that is answered with these numbers: the count list is zero over the nodes, and what is
/// behind them, and behind the answers, stays.
fn answered(name: &str, case: &Case, nodes: usize, numbers: &[[u64; 3]]) {
    let counts = starting(&vec![0; ENTRY * nodes], &case.counts);
    let answers = starting(&numbers.concat(), &case.answers);
    check(name, case, Ok(numbers.len()), &counts, &answers);
}

/// A case that is refused, and leaves both lists.
fn refused(name: &str, case: &Case, refusal: (u64, u64)) {
    check(name, case, Err(refusal), &case.counts, &case.answers);
}

/// Lengths that so many entries have, and longer ones: with a part of an entry behind them, with
/// one entry more, with one and a part, and with many.
fn long_enough(entries: usize, width: usize) -> [usize; 6] {
    [0, 1, width - 1, width, width + 1, 400].map(|more| entries * width + more)
}

/// Lengths that are too short for so many entries, by one number, by one entry, or by more.
fn too_short(entries: usize, width: usize) -> Vec<usize> {
    let needed = entries * width;
    let mut lengths = vec![needed - 1, needed - width + 1, needed - width, needed / 2, 1, 0];
    lengths.retain(|length| *length < needed);
    lengths
}

/// A program has these numbers, an output each: in all lists that are long enough, and in no other.
fn gives(name: &str, program: &Program, numbers: &[[u64; 3]]) {
    let (file, nodes) = (program.bytes(), program.nodes.len());
    let enough = (long_enough(nodes, ENTRY), long_enough(numbers.len(), ANSWER));
    let short = (too_short(nodes, ENTRY), too_short(numbers.len(), ANSWER));
    for counts in enough.0 {
        for answers in enough.1 {
            answered(name, &Case::new(&file, counts, answers), nodes, numbers);
        }
        for answers in &short.1 {
            refused(name, &Case::new(&file, counts, *answers), (7, 0));
        }
    }
    for counts in short.0 {
        for answers in enough.1.iter().chain(&short.1) {
            refused(name, &Case::new(&file, counts, *answers), (7, 0));
        }
    }
}

#[test]
fn the_whole_case() {
    // T 0 1 2 alone.
    gives("the whole case", &shaped::program::whole_case(), &[[1, 1, 0]]);

    let case = |counts, answers| Case::new(&shaped::program::WHOLE_CASE, counts, answers);
    check("24 and 3 numbers", &case(24, 3), Ok(1), &[0; 24], &[1, 1, 0]);
    refused("the counts short by a number", &case(23, 3), (7, 0));
    refused("the answers short by a number", &case(24, 2), (7, 0));
    refused("both short by a number", &case(23, 2), (7, 0));
}

#[test]
fn the_other_examples() {
    gives("NOR", &shaped::program::nor(), &[[9, 1, 2]]);
    gives("AND of three", &shaped::program::and_of_three(), &[[3, 3, 1]]);
    gives("AND of four", &shaped::program::and_of_four(), &[[5, 5, 2]]);
    gives("XOR with itself", &shaped::program::xor_with_itself(), &[[2, 0, 0]]);
    gives("ZERO", &shaped::program::output_zero(), &[[0, 0, 0]]);
    gives("ONE", &Program::new(0, &[ONE], &[0]), &[[1, 0, 0]]);
}

/// The numbers of a circuit of one output.
fn numbers_of(circuit: &Circuit) -> [u64; 3] {
    let numbers = [circuit.gates.len(), circuit.toffolis().len(), circuit.work.into()];
    numbers.map(|number| number as u64)
}

/// The gates of each circuit are written out. Where both operands are one input, it is a CNOT.
#[test]
fn every_kind_of_operand() {
    for example in shaped::operands::of_one_output() {
        gives(example.name, &example.program, &[numbers_of(&example.circuit)]);
    }
    let several = shaped::operands::of_several_outputs();
    let numbers = [[1, 1, 0], [1, 1, 0], [1, 0, 0], [3, 3, 1], [1, 0, 0], [2, 0, 0], [2, 0, 0]];
    gives(several.name, &several.program, &numbers);
}

/// What is undone at a mark is counted, also where it is undone again; lines are the most in use
/// together.
#[test]
fn every_kind_of_mark() {
    for example in shaped::marks::of_one_output() {
        gives(example.name, &example.program, &[numbers_of(&example.circuit)]);
    }
    let several = shaped::marks::of_several_outputs();
    gives(several.name, &several.program, &[[9, 1, 1], [11, 3, 2], [18, 2, 1]]);
}

/// A node is built anew at each use, on new lines. What is built into the target is not undone.
#[test]
fn shared_nodes_and_several_outputs() {
    let nodes = [input(0), input(1), and(0, 1), xor(2, 2), not(3), and(4, 2), xor(5, 4)];
    let numbers = [[1, 0, 0], [1, 1, 0], [2, 2, 0], [3, 2, 0], [9, 7, 2], [12, 9, 2]];
    gives("each node", &Program::new(2, &nodes, &[0, 2, 3, 4, 5, 6]), &numbers);
    gives("the last", &Program::new(2, &nodes, &[6]), &numbers[5..]);
    let mixed = [numbers[4], numbers[0], numbers[4], numbers[2]];
    gives("in another order", &Program::new(2, &nodes, &[5, 0, 5, 3]), &mixed);

    // ZERO as an operand takes a line, even if nothing is built into it.
    let nodes = [ZERO, and(0, 0), and(1, 0), and(0, 1), and(1, 1)];
    let numbers = [[1, 1, 2], [3, 3, 4], [3, 3, 4], [5, 5, 6]];
    gives("ANDs of ZERO", &Program::new(0, &nodes, &[1, 2, 3, 4]), &numbers);

    // An input takes none, on either side.
    let nodes = [input(0), ZERO, ONE, and(0, 1), and(2, 0), and(3, 0), and(0, 4), and(3, 4)];
    let numbers = [[1, 1, 1], [3, 1, 1], [3, 3, 2], [5, 3, 2], [7, 5, 4]];
    gives("ANDs of an input", &Program::new(1, &nodes, &[3, 4, 5, 6, 7]), &numbers);
}

/// The content before has no part in the answers, and what is behind keeps every bit.
#[test]
fn later_entries_keep_their_content() {
    let file = shaped::program::WHOLE_CASE;
    for content in [0, 1, OVER, 0x5555_5555_5555_5555, 0xaaaa_aaaa_aaaa_aaaa, u64::MAX] {
        for (counts, answers) in [(24, 3), (25, 4), (31, 5), (32, 6), (48, 192), (32_768, 9)] {
            let case = Case {
                file: file.to_vec(),
                counts: vec![content; counts],
                answers: vec![content; answers],
            };
            answered("one content", &case, 3, &[[1, 1, 0]]);
        }
    }
}

/// The most nodes, and the most outputs.
#[test]
fn the_longest_lists() {
    gives("the longest file", &limits::longest_file(), &[[2, 0, 0]; 64]);
    gives("4,096 NOTs", &limits::deepest(), &[[4_096, 0, 0]]);
    let mut numbers = [[1, 0, 0]; 64];
    numbers[63] = [2_049, 2_049, 1_024];
    gives("1,152 lines", &limits::most_lines(), &numbers);
}

/// Each node uses the one before twice, so that numbers double up to 2^4000.
fn doubled(first: Node, next: fn(u16, u16) -> Node) -> Vec<Node> {
    let mut nodes = vec![first];
    nodes.extend((0..4_000).map(|before| next(before, before)));
    nodes
}

/// Depths of numbers over 1,000,000, some of them about 2^32 and 2^64.
const DEPTHS: [u16; 16] = [20, 21, 30, 31, 32, 33, 34, 61, 62, 63, 64, 65, 66, 128, 3_999, 4_000];

#[test]
fn xor_of_a_node_with_itself_4000_deep() {
    // Depth d has 2^d gates, none of them a Toffoli: 524,288 with 19, and 1,048,576 with 20.
    let nodes = doubled(input(0), xor);
    let depths: Vec<u16> = (0..20).chain(DEPTHS).collect();
    let mut numbers: Vec<[u64; 3]> = (0..20).map(|depth| [1 << depth, 0, 0]).collect();
    numbers.resize(depths.len(), [OVER, 0, 0]);
    gives("XOR of an input", &Program::new(1, &nodes, &depths), &numbers);

    gives("XOR of ZERO", &Program::new(0, &doubled(ZERO, xor), &[4_000]), &[[0, 0, 0]]);

    // Depth d has 2^d times 5 gates, 1 Toffoli and 2 lines: no Toffoli is undone.
    let of_and = |a: Node, b: Node| {
        let mut nodes = vec![a, b, and(0, 1)];
        nodes.extend((2..4_002).map(|before| xor(before, before)));
        Program::new(2, &nodes, &[17, 18, 19, 20, 62, 63, 64, 4_000].map(|depth| depth + 2))
    };
    let mut numbers = [[OVER; 3]; 8];
    numbers[0] = [655_360, 131_072, 262_144];
    numbers[1] = [OVER, 262_144, 524_288];
    numbers[2] = [OVER, 524_288, OVER];
    gives("XOR of an AND", &of_and(ONE, ONE), &numbers);

    // The same of two inputs is 2^d Toffolis, of one 2^d CNOTs, and neither takes a line.
    let mut numbers = [[OVER, OVER, 0]; 8];
    numbers[0] = [131_072, 131_072, 0];
    numbers[1] = [262_144, 262_144, 0];
    numbers[2] = [524_288, 524_288, 0];
    gives("XOR of an AND of inputs", &of_and(input(1), input(0)), &numbers);
    let numbers = numbers.map(|[gates, ..]| [gates, 0, 0]);
    gives("XOR of an AND of one input", &of_and(input(1), input(1)), &numbers);
}

/// The numbers of an AND of a node with itself so deep, over leaves with so many gates each and over
/// ANDs with two work lines each. All but the last Toffoli are undone.
fn of_depth(depth: u64, leaf_gates: u64) -> [u64; 3] {
    let (leaves, toffolis): (u64, u64) = (1 << depth, (1 << depth) - 1);
    let built = leaf_gates * leaves + toffolis;
    [2 * built - 1, 2 * toffolis - 1, 2 * toffolis].map(|number| number.min(OVER))
}

#[test]
fn and_of_a_node_with_itself_4000_deep() {
    assert_eq!(of_depth(1, 1), [5, 1, 2]);
    assert_eq!(of_depth(17, 1), [524_285, 262_141, 262_142]);
    assert_eq!(of_depth(18, 1), [OVER, 524_285, 524_286]);
    assert_eq!(of_depth(19, 1), [OVER; 3]);
    let nodes = doubled(ONE, and);
    let depths: Vec<u16> = (1..20).chain(DEPTHS).collect();
    let mut numbers: Vec<[u64; 3]> = (1..20).map(|depth| of_depth(depth, 1)).collect();
    numbers.resize(depths.len(), [OVER; 3]);
    gives("AND of ONE", &Program::new(0, &nodes, &depths), &numbers);

    let deepest = Program::new(0, &doubled(ZERO, and), &[18, 19, 4_000]);
    gives("AND of ZERO", &deepest, &[of_depth(18, 0), [OVER; 3], [OVER; 3]]);
    assert_eq!(of_depth(18, 0), [524_285, 524_285, 524_286]);

    // Depth d has 2^(d + 1) - 2 gates and 2^d - 2 Toffolis to undo: -2 in 32 or 64 bits, and 0 or
    // little more with those of a small operand beside it.
    beside_small_operands(&nodes, [31, 32, 63, 64]);
}

/// The ANDs of an input with itself, one deep, are CNOTs and take the place of leaves.
#[test]
fn and_of_an_input_with_itself_4000_deep() {
    let nodes = doubled(input(0), and);
    let depths: Vec<u16> = (1..20).chain(DEPTHS).collect();
    let mut numbers = vec![[1, 0, 0]];
    numbers.extend((1..19).map(|above| of_depth(above, 1)));
    numbers.resize(depths.len(), [OVER; 3]);
    gives("AND of an input", &Program::new(1, &nodes, &depths), &numbers);

    beside_small_operands(&nodes, [32, 33, 64, 65]);
}

/// ANDs of each of these depths with one of the first three nodes.
fn beside_small_operands(nodes: &[Node], depths: [u16; 4]) {
    let mut nodes = nodes[..=65].to_vec();
    nodes.extend(depths.iter().flat_map(|depth| [0, 1, 2].map(|beside| and(*depth, beside))));
    let outputs: Vec<u16> = (66..nodes.len() as u16).collect();
    gives("AND of a small operand", &Program::new(1, &nodes, &outputs), &[[OVER; 3]; 12]);
}

/// The nodes that [`repeated`] starts with: an input, ZERO and ONE, and the ANDs of ZERO with itself,
/// with ONE, with the first of these ANDs and with the input; and those of the input with itself and
/// with another one.
const NODES: [Node; 10] = [
    input(0),
    ZERO,
    ONE,
    input(1),
    and(1, 1),
    and(2, 1),
    and(4, 1),
    and(0, 1),
    and(0, 0),
    and(0, 3),
];

const AN_INPUT: u16 = 0;
const OF_ZEROS: u16 = 4;
const OF_ONE: u16 = 5;
const OF_AND: u16 = 6;
const OF_INPUT: u16 = 7;
const OF_ONE_INPUT: u16 = 8;
const OF_TWO_INPUTS: u16 = 9;

/// One of these nodes so many times, and then more.
fn repeated(node: u16, count: usize, more: &[fn(u16) -> Node]) -> Program {
    let mut nodes = NODES.to_vec();
    let mut last = times(&mut nodes, node, count);
    for next in more {
        nodes.push(next(last));
        last = nodes.len() as u16 - 1;
    }
    Program::new(2, &nodes, &[last])
}

#[test]
fn the_repeated_nodes() {
    let outputs = [AN_INPUT, OF_ZEROS, OF_ONE, OF_AND, OF_INPUT, OF_ONE_INPUT, OF_TWO_INPUTS];
    let numbers = [[1, 0, 0], [1, 1, 2], [3, 1, 2], [3, 3, 4], [1, 1, 1], [1, 0, 0], [1, 1, 0]];
    gives("each", &Program::new(2, &NODES, &outputs), &numbers);
}

#[test]
fn a_million_gates() {
    for node in [AN_INPUT, OF_ONE_INPUT] {
        let into_target = |count| repeated(node, count, &[]);
        gives("999,999", &into_target(999_999), &[[999_999, 0, 0]]);
        gives("1,000,000", &into_target(1_000_000), &[[1_000_000, 0, 0]]);
        gives("1,000,001", &into_target(1_000_001), &[[1_000_001, 0, 0]]);
        gives("1,000,002", &into_target(1_000_002), &[[1_000_001, 0, 0]]);
    }

    // Gates into the first or the second line of an AND, or the only one beside an input, all of them
    // undone, and its Toffoli.
    type Above = fn(u16) -> Node;
    let above: [(Above, u64); 4] =
        [(|a| and(a, 1), 2), (|a| and(1, a), 2), (|a| and(a, 3), 1), (|a| and(3, a), 1)];
    for (above, lines) in above {
        let undone = |count| repeated(AN_INPUT, count, &[above]);
        gives("999,997", &undone(499_998), &[[999_997, 1, lines]]);
        gives("999,999", &undone(499_999), &[[999_999, 1, lines]]);
        gives("1,000,001", &undone(500_000), &[[1_000_001, 1, lines]]);
        gives("1,000,003", &undone(500_001), &[[1_000_001, 1, lines]]);
        for one_more in [not, |a| xor(a, 0), |a| xor(0, a)] {
            let even = |count| repeated(AN_INPUT, count, &[above, one_more]);
            gives("1,000,000", &even(499_999), &[[1_000_000, 1, lines]]);
            gives("1,000,002", &even(500_000), &[[1_000_001, 1, lines]]);
        }
    }

    // As many into the target as into a line, where they are undone.
    let both = |count| repeated(AN_INPUT, count, &[|a| and(a, 1), |a| xor(a, a - 1)]);
    gives("1,000,000", &both(333_333), &[[1_000_000, 1, 2]]);
    gives("1,000,003", &both(333_334), &[[1_000_001, 1, 2]]);
}

/// Every gate here is a Toffoli.
#[test]
fn a_million_toffolis() {
    for (node, lines) in [(OF_ZEROS, OVER), (OF_TWO_INPUTS, 0)] {
        let into_target = |count| repeated(node, count, &[]);
        gives("999,999", &into_target(999_999), &[[999_999, 999_999, lines]]);
        gives("1,000,000", &into_target(1_000_000), &[[1_000_000, 1_000_000, lines]]);
        gives("1,000,001", &into_target(1_000_001), &[[1_000_001, 1_000_001, lines]]);
        gives("1,000,002", &into_target(1_000_002), &[[1_000_001, 1_000_001, lines]]);
    }

    for above in [|a| and(a, 1), |a| and(1, a)] {
        let undone = |count| repeated(OF_ZEROS, count, &[above]);
        gives("999,999", &undone(499_999), &[[999_999, 999_999, 1_000_000]]);
        gives("1,000,001", &undone(500_000), &[[1_000_001, 1_000_001, OVER]]);
        let even = |count| repeated(OF_ZEROS, count, &[above, |a| xor(a, OF_ZEROS)]);
        gives("999,998", &even(499_998), &[[999_998, 999_998, 1_000_000]]);
        gives("1,000,000", &even(499_999), &[[1_000_000, 1_000_000, OVER]]);
        gives("1,000,002", &even(500_000), &[[1_000_001, 1_000_001, OVER]]);
    }
}

/// An AND has two lines, beside an input one.
#[test]
fn a_million_work_lines() {
    let into_target = |count| repeated(OF_ZEROS, count, &[]);
    gives("999,998", &into_target(499_999), &[[499_999, 499_999, 999_998]]);
    gives("1,000,000", &into_target(500_000), &[[500_000, 500_000, 1_000_000]]);
    gives("1,000,002", &into_target(500_001), &[[500_001, 500_001, 1_000_001]]);
    let one_each = |count| repeated(OF_INPUT, count, &[]);
    gives("999,999", &one_each(999_999), &[[999_999; 3]]);
    gives("1,000,000", &one_each(1_000_000), &[[1_000_000; 3]]);
    gives("1,000,001", &one_each(1_000_001), &[[1_000_001; 3]]);

    // The lines of one operand beside those of the other, and those of the last AND.
    let last = |next: fn(u16) -> Node, count| repeated(OF_ZEROS, count, &[next]);
    gives("999,998", &last(|a| and(a, a), 249_999), &[[999_997, 999_997, 999_998]]);
    gives("1,000,002", &last(|a| and(a, a), 250_000), &[[1_000_001; 3]]);
    gives("1,000,000", &last(|a| xor(a, a), 250_000), &[[500_000, 500_000, 1_000_000]]);
    gives("1,000,004", &last(|a| xor(a, a), 250_001), &[[500_002, 500_002, 1_000_001]]);
    gives("1,000,000", &last(|a| and(a, 1), 499_999), &[[999_999, 999_999, 1_000_000]]);
    gives("1,000,002", &last(|a| xor(OF_ZEROS, a), 500_000), &[[500_001, 500_001, 1_000_001]]);
    for beside_an_input in [|a| and(a, 0), |a| and(0, a)] {
        gives("999,999", &last(beside_an_input, 499_999), &[[999_999; 3]]);
        gives("1,000,001", &last(beside_an_input, 500_000), &[[1_000_001; 3]]);
    }
    let one_more = |a| xor(a, OF_INPUT);
    gives("999,999", &last(one_more, 499_999), &[[500_000, 500_000, 999_999]]);
    gives("1,000,001", &last(one_more, 500_000), &[[500_001, 500_001, 1_000_001]]);
}

/// Below a mark each gate is there four times: built and undone, and both again at the end. Below two
/// it is there eight times, and the gate between them four times.
#[test]
fn a_million_gates_under_marks() {
    type Above = fn(u16) -> Node;
    // With the work lines of one such node, and of two of them. Of ZERO first, its line stays in use.
    let above: [(Above, u64, u64); 4] = [
        (|a| marked(a, 1), 2, 3),
        (|a| marked(1, a), 2, 4),
        (|a| marked(a, 3), 1, 2),
        (|a| marked(3, a), 1, 2),
    ];
    for (above, lines, lines_of_two) in above {
        let of = |count| repeated(AN_INPUT, count, &[above]);
        gives("999,997", &of(249_999), &[[999_997, 1, lines]]);
        gives("1,000,001", &of(250_000), &[[1_000_001, 1, lines]]);
        gives("1,000,005", &of(250_001), &[[1_000_001, 1, lines]]);
        let with_nots = |count| [&[above][..], &vec![not as Above; count]].concat();
        let even = |nots| repeated(AN_INPUT, 249_999, &with_nots(nots));
        gives("1,000,000", &even(3), &[[1_000_000, 1, lines]]);
        gives("1,000,001", &even(4), &[[1_000_001, 1, lines]]);
        gives("1,000,002", &even(5), &[[1_000_001, 1, lines]]);

        let toffolis = |count| repeated(OF_TWO_INPUTS, count, &[above]);
        gives("999,997", &toffolis(249_999), &[[999_997, 999_997, lines]]);
        gives("1,000,001", &toffolis(250_000), &[[1_000_001, 1_000_001, lines]]);
        let nested = |count| repeated(OF_TWO_INPUTS, count, &[above, above]);
        gives("999,997", &nested(124_999), &[[999_997, 999_997, lines_of_two]]);
        gives("1,000,005", &nested(125_000), &[[1_000_001, 1_000_001, lines_of_two]]);
    }

    // One mark, at the lower AND and at the upper one.
    let below = |count| repeated(AN_INPUT, count, &[|a| marked(a, 3), |a| and(a, 3)]);
    gives("999,999", &below(249_999), &[[999_999, 3, 2]]);
    gives("1,000,003", &below(250_000), &[[1_000_001, 3, 2]]);
    let above = |count| repeated(AN_INPUT, count, &[|a| and(a, 3), |a| marked(a, 3)]);
    gives("1,000,001", &above(249_999), &[[1_000_001, 5, 2]]);
    gives("999,997", &above(249_998), &[[999_997, 5, 2]]);
}

/// Lines that are given back are taken again, and the most in use together count: those of the first
/// operand, or those of the second and what the first one keeps.
#[test]
fn a_million_work_lines_under_marks() {
    let above = |count, more: &[fn(u16) -> Node]| {
        let first: fn(u16) -> Node = |a| marked(a, 1);
        repeated(OF_ZEROS, count, &[&[first], more].concat())
    };
    gives("1,000,000", &above(499_999, &[]), &[[OVER, OVER, 1_000_000]]);
    gives("1,000,002", &above(500_000, &[]), &[[OVER, OVER, OVER]]);
    gives("twice", &above(499_999, &[|a| xor(a, a)]), &[[OVER, OVER, 1_000_000]]);
    gives("beside two", &above(499_999, &[|a| xor(a, OF_ZEROS)]), &[[OVER, OVER, 1_000_000]]);
    gives("behind two", &above(499_999, &[|a| xor(OF_ZEROS, a)]), &[[OVER, OVER, OVER]]);
    gives("behind two", &above(499_998, &[|a| xor(OF_ZEROS, a)]), &[[OVER, OVER, 1_000_000]]);
    gives("an operand", &above(499_998, &[|a| and(a, 1)]), &[[OVER, OVER, 999_999]]);
    gives("the other one", &above(499_998, &[|a| and(1, a)]), &[[OVER, OVER, 1_000_000]]);
    gives("both operands", &above(499_998, &[|a| and(a, a)]), &[[OVER, OVER, 1_000_000]]);
    gives("both operands", &above(499_999, &[|a| and(a, a)]), &[[OVER, OVER, OVER]]);

    // A million marked ANDs, one after the other, on the same two lines.
    let mut nodes = vec![ZERO, marked(0, 0)];
    let last = times(&mut nodes, 1, 1_000_000);
    gives("2 lines", &Program::new(0, &nodes, &[last]), &[[1_000_000, 1_000_000, 2]]);
}

/// With n nested marks there are 2^(n + 1) - 3 gates, all of them Toffolis.
#[test]
fn nested_marks() {
    let nodes = limits::nested_marks(4_032).nodes;
    let depths: Vec<u16> = (1..=20).chain(DEPTHS).chain([4_032]).collect();
    let outputs: Vec<u16> = depths.iter().map(|depth| 63 + depth).collect();
    let numbers: Vec<[u64; 3]> = depths
        .iter()
        .map(|depth| {
            let gates = if *depth < 19 { (2 << depth) - 3 } else { OVER };
            [gates, gates, u64::from(*depth) - 1]
        })
        .collect();
    gives("marks", &Program::new(64, &nodes, &outputs), &numbers);

    // Of a node with itself each is four times as large, and takes two lines more.
    let nodes = doubled(ONE, marked);
    let outputs = [1, 2, 3, 8, 9, 10, 11, 31, 32, 4_000];
    let mut numbers = [[OVER; 3]; 10];
    numbers[0] = [9, 1, 2];
    numbers[1] = [41, 9, 4];
    numbers[2] = [169, 41, 6];
    numbers[3] = [174_761, 43_689, 16];
    numbers[4] = [699_049, 174_761, 18];
    numbers[5] = [OVER, 699_049, 20];
    for (numbers, depth) in numbers.iter_mut().zip(outputs).skip(6) {
        numbers[2] = 2 * u64::from(depth);
    }
    gives("marks of both operands", &Program::new(0, &nodes, &outputs), &numbers);
}

/// Numbers that are small in 32 or 64 bits, or added to another one there, are over all the same.
#[test]
fn numbers_that_are_small_in_fewer_bits() {
    for power in [31, 32, 62, 63] {
        for count in [(1 << power) - 1, 1 << power, (1 << power) + 1] {
            let of = |node| repeated(node, count, &[]);
            gives("gates on the target", &of(AN_INPUT), &[[OVER, 0, 0]]);
            gives("ANDs of one input", &of(OF_ONE_INPUT), &[[OVER, 0, 0]]);
            gives("Toffolis without lines", &of(OF_TWO_INPUTS), &[[OVER, OVER, 0]]);
            gives("Toffolis on the target", &of(OF_ZEROS), &[[OVER; 3]]);
            gives("Toffolis with one line", &of(OF_INPUT), &[[OVER; 3]]);
            gives("gates on both", &of(OF_ONE), &[[OVER; 3]]);
            gives("Toffolis on both", &of(OF_AND), &[[OVER; 3]]);
            let undone = |node| repeated(node, count, &[|a| and(1, a)]);
            gives("gates on a work line", &undone(AN_INPUT), &[[OVER, 1, 2]]);
            gives("ANDs of one input there", &undone(OF_ONE_INPUT), &[[OVER, 1, 2]]);
            gives("Toffolis on a work line", &undone(OF_ZEROS), &[[OVER; 3]]);
            let beside = |node| repeated(node, count, &[|a| and(a, 0)]);
            gives("gates beside an input", &beside(AN_INPUT), &[[OVER, 1, 1]]);
            gives("Toffolis beside an input", &beside(OF_TWO_INPUTS), &[[OVER, OVER, 1]]);
        }
    }
    for power in [31, 32, 62, 63, 64, 65] {
        for gates in [(1 << power) - 1, 1 << power, (1 << power) + 1] {
            let under_marks = |program: &Program| {
                let lines = construct::most_work_lines(&drawn::read(program)) as u64;
                gives("gates under marks", program, &[[OVER, OVER, lines]]);
            };
            under_marks(&limits::of_marked_gates(&[gates]));
            under_marks(&limits::marked_above(gates));
        }
    }
    let all = |node, more: &[fn(u16) -> Node]| repeated(node, usize::MAX, more);
    gives("2^64 - 1 gates", &all(AN_INPUT, &[]), &[[OVER, 0, 0]]);
    gives("2^64 gates", &all(AN_INPUT, &[not]), &[[OVER, 0, 0]]);
    gives("2^64 Toffolis", &all(OF_ZEROS, &[|a| xor(a, OF_ZEROS)]), &[[OVER; 3]]);
    gives("2^64 gates to undo", &all(AN_INPUT, &[not, |a| and(a, 1)]), &[[OVER, 1, 2]]);
}

/// Programs that compiling refuses, and what they are refused with.
#[test]
fn programs_that_do_not_compile() {
    let refuses = |name: &str, program: &Program, refusal: (u64, u64), numbers: &[[u64; 3]]| {
        assert_eq!(written(&program.bytes(), 1_024), Err(refusal), "{name}, compiled");
        gives(name, program, numbers);
    };
    let chain = shaped::program::xor_chain();
    refuses("size 16,385", &chain, (8, 2), &[[0, 0, 0], [1, 0, 0], [2, 0, 0]]);
    let ands = |leaf: Node, depth: u16| {
        Program::new(1, &doubled(leaf, and)[..=usize::from(depth)], &[depth])
    };
    refuses("size 32,767", &ands(ONE, 14), (8, 0), &[[65_533, 32_765, 32_766]]);
    refuses("the same of an input", &ands(input(0), 14), (8, 0), &[[32_765, 16_381, 16_382]]);

    refuses("16,382 lines", &ands(ONE, 13), (10, 16_382), &[[32_765, 16_381, 16_382]]);
    refuses("8,190 lines", &ands(input(0), 13), (10, 8_190), &[[16_381, 8_189, 8_190]]);
    for input_first in [false, true] {
        let ands = limits::ands(1_026, input_first);
        refuses("1,025 lines", &ands, (10, 1_025), &[[2_051, 2_051, 1_025]]);
        let ands = limits::ands(4_032, input_first);
        refuses("4,031 lines", &ands, (10, 4_031), &[[8_063, 8_063, 4_031]]);
    }
    let ands = limits::ands_of_nots(513);
    refuses("1,026 lines", &ands, (10, 1_026), &[[3_081, 1_025, 1_026]]);

    let numbers = [[8_000, 0, 0], [1, 0, 0]];
    refuses("8,001 gates", &limits::a_gate_too_many(), (11, 8_001), &numbers);
    let numbers = [[8_193, 0, 0]; 64];
    refuses("524,352 gates", &limits::largest_outputs(64), (11, 524_352), &numbers);

    let numbers = [[46_875, 46_875, 13]; 64];
    refuses("3,000,000", &limits::of_marked_gates(&[46_875; 64]), (11, 3_000_000), &numbers);
    let numbers = [[OVER, OVER, 1_024]];
    refuses("2^1026 - 3 gates", &limits::nested_marks(1_025), (11, 3_000_001), &numbers);
    let numbers = [[OVER, OVER, 1_025]];
    refuses("1,025 lines under marks", &limits::nested_marks(1_026), (10, 1_025), &numbers);
}

/// The gates, Toffolis and work lines of the circuit file that a program file compiles to.
fn compiled(file: &[u8]) -> [u64; 3] {
    let circuit = model::circuit::read(&written(file, 1_024).expect("it compiles"));
    let circuit = circuit.expect("a circuit file");
    let toffolis = circuit.gates.iter().filter(|gate| matches!(gate, Gate::Toffoli(..))).count();
    [circuit.gates.len(), toffolis, circuit.work].map(|number| number as u64)
}

/// Gates and Toffolis of a quote add up to those of the circuit, and its w is the most lines.
fn sums_are_those_of_the_circuit(name: &str, file: &[u8]) {
    let numbers = numbers(file);
    let sum = |at: usize| numbers.iter().map(|numbers| numbers[at]).sum();
    let most = numbers.iter().map(|numbers| numbers[2]).max().expect("an output");
    assert_eq!([sum(0), sum(1), most], compiled(file), "{name}, {}", agreement::hex(file));
}

/// The same, and each output has the numbers of a circuit of its own.
fn agrees_with_compiling(name: &str, program: &Program) {
    let file = program.bytes();
    sums_are_those_of_the_circuit(name, &file);
    for (k, (output, numbers)) in program.outputs.iter().zip(numbers(&file)).enumerate() {
        let alone = Program::new(program.inputs, &program.nodes, &[*output]).bytes();
        assert_eq!(numbers, compiled(&alone), "{name}, output {k}, {}", agreement::hex(&file));
    }
}

#[test]
fn accepted_programs_have_the_numbers_of_their_circuits() {
    for program in limits::accepted() {
        agrees_with_compiling("a program at a limit", &program);
    }
    for name in repository::names("examples/functions") {
        if name.ends_with(".program") {
            let file = repository::read(format!("examples/functions/{name}"));
            sums_are_those_of_the_circuit(&name, &file);
        }
    }
    let mut random = Random::new(0x6167_7265);
    for _ in 0..2_000 {
        agrees_with_compiling("a random program", &drawn::accepted(&mut random));
    }
}

/// Where an earlier cause is there as well, it is the one given.
#[test]
fn causes_together() {
    let bad_output = Program::new(2, &[input(0), input(1), and(0, 1)], &[2, 3]).bytes();
    let bad_node = Program::new(2, &[input(0), input(1), and(0, 2)], &[3]).bytes();
    let good = shaped::program::WHOLE_CASE;
    refused("5, 6 and 7", &Case::new(&bad_node, 23, 2), (5, 2));
    refused("6 and 7, both lists", &Case::new(&bad_output, 0, 0), (6, 1));
    refused("6 and 7, the counts", &Case::new(&bad_output, 23, 6), (6, 1));
    refused("6 and 7, the answers", &Case::new(&bad_output, 24, 5), (6, 1));
    refused("7, no lists", &Case::new(&good, 0, 0), (7, 0));
    refused("7, no counts", &Case::new(&good, 0, 1_000), (7, 0));
    refused("7, no answers", &Case::new(&good, 1_000, 0), (7, 0));
}

/// The refusals of reading come through as they are, whatever the lists.
#[test]
fn shaped_files_refused_by_the_reader() {
    shaped::each_refused("quote", shaped::program::all(), |name, file, refusal| {
        for (counts, answers) in [(32_768, 192), (0, 0), (7, 2), (40_000, 2)] {
            refused(name, &Case::new(file, counts, answers), refusal);
        }
    });
}

/// Files that the reader accepts, in lists that are enough or too short by a number.
#[test]
fn shaped_files_accepted_by_the_reader() {
    let mut tally = Tally::new("quote, shaped files");
    shaped::each_accepted(shaped::program::all(), |_, file, head| {
        let (counts, answers) = (ENTRY * head.count, ANSWER * head.outputs);
        for counts in [counts, counts + 1, counts + ENTRY, counts - 1] {
            for answers in [answers, answers + 1, answers + ANSWER, answers - 1] {
                tally.count(&compare(&Case::new(file, counts, answers)));
            }
        }
    });
    tally.finish(500, &[7]);
}

/// Every one-byte change of a small file.
#[test]
fn each_byte_of_the_whole_case_changed() {
    let mut tally = Tally::new("quote, one byte changed");
    for file in damage::each_byte_changed(&shaped::program::WHOLE_CASE) {
        for (counts, answers) in [(24, 3), (31, 5), (23, 3), (24, 2)] {
            tally.count(&compare(&Case::new(&file, counts, answers)));
        }
    }
    tally.finish(56 * 256 * 4, &[1, 2, 3, 4, 5, 6, 7]);
}

/// Every table of four nodes over two inputs, each of them an output: 19,584 programs.
#[test]
fn every_small_table() {
    let mut tally = Tally::new("quote, every small table");
    for nodes in program::every_table(4) {
        let file = Program::new(2, &nodes, &[0, 1, 2, 3]).bytes();
        tally.count(&compare(&Case::new(&file, 4 * ENTRY, 4 * ANSWER)));
    }
    tally.finish(4 * 8 * 18 * 34, &[]);
}

#[test]
fn random_and_damaged_cases() {
    let mut random = Random::new(0x7175_6f74);
    let mut tally = Tally::new("quote");
    // For gates, Toffolis and work lines: how often 0, about a million, and over.
    let mut seen = [[0; 3]; 3];
    for _ in 0..20_000 {
        let case = random_case(&mut random);
        let outcome = compare(&case);
        tally.count(&outcome);
        if outcome.is_ok() {
            numbers(&case.file).iter().for_each(|numbers| count(&mut seen, numbers));
        }
    }
    tally.finish(20_000, &[1, 2, 3, 4, 5, 6, 7]);
    for (name, [none, near, over]) in ["gates", "Toffolis", "work lines"].iter().zip(seen) {
        println!("quote, results: {none} with no {name}, {near} near 1,000,000, {over} over");
        assert!(none > 500 && near > 500 && over > 500, "too few outputs of a kind");
    }
}

fn count(seen: &mut [[u64; 3]; 3], numbers: &[u64; 3]) {
    for (seen, number) in seen.iter_mut().zip(numbers) {
        seen[0] += u64::from(*number == 0);
        seen[1] += u64::from((999_990..=1_000_000).contains(number));
        seen[2] += u64::from(*number == OVER);
    }
}

/// Mostly a good file; then mostly lists that are long enough.
fn random_case(random: &mut Random) -> Case {
    let file = match random.below(10) {
        0..=1 => program::damaged(random),
        2 => program::valid(random).bytes(),
        3 => drawn::large(random).bytes(),
        4..=6 => drawn::repeated(random).bytes(),
        7 => drawn::about_three_million(random).bytes(),
        _ => drawn::any(random).bytes(),
    };
    call(random, file)
}
