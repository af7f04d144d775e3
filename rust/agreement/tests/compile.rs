//! compile: the archive beside the model, both lent areas before and after included.

use agreement::circuit::{cnot, not as flip, toffoli, Circuit};
use agreement::compare::compile::{archive, compare, drawn as call, model, needs, random_list};
use agreement::compare::compile::{Case, OVER, TOO_HIGH};
use agreement::compare::{MOST_BYTES, NO_GATES};
use agreement::program::{self, and, input, marked, not, xor, Node, Program, ONE, ZERO};
use agreement::random::Random;
use agreement::seen::Seen;
use agreement::tally::Tally;
use agreement::{damage, drawn, limits, shaped, Outcome};
use model::construct;

/// A shaped case on both sides, with what is expected of the answer, the list and the area.
fn check(name: &str, case: &Case, expected: Outcome<usize>, sizes: &[u16], area: &[u8]) {
    let sides = [("model", model(case)), ("archive", archive(case))];
    for (side, (outcome, sizes_after, area_after)) in sides {
        assert_eq!(outcome, expected, "{name}, {side}, {}", case.describe());
        assert_eq!(sizes_after, sizes, "{name}, {side}, the list, {}", case.describe());
        assert!(area_after == area, "{name}, {side}, the area, {}", case.describe());
    }
}

/// The list of a case once it is filled with these sizes.
fn filled(case: &Case, sizes: &[u16]) -> Vec<u16> {
    [sizes, &case.sizes[sizes.len()..]].concat()
}

/// A program compiles to this circuit: with grants and areas that are enough, and is refused with
/// those that are not, in the order of the causes.
fn gives(name: &str, program: &Program, sizes: &[u16], circuit: &Circuit) {
    let file = program.bytes();
    let written = circuit.bytes();
    let (work, gates) = (u64::from(circuit.work), circuit.gates.len() as u64);
    assert_eq!(sizes.len(), program.nodes.len(), "{name}: a size for each node");
    for entries in [sizes.len(), sizes.len() + 1, sizes.len() + 40] {
        for grant in [work, (work + 1).min(1_024), 1_023.max(work), 1_024] {
            accepted(name, (&file, grant, entries), sizes, &written);
            for length in too_short(written.len()) {
                let case = Case::new(&file, grant, entries, length);
                let zero = vec![0; length];
                check(name, &case, Err((11, gates)), &filled(&case, sizes), &zero);
            }
        }
        for length in [written.len() + 8, written.len(), written.len() - 1, 0] {
            let too_low = [0, work / 2, work.saturating_sub(1)].map(|grant| (grant, (10, work)));
            let too_low = too_low.into_iter().filter(|_| work > 0);
            let too_high = TOO_HIGH.map(|grant| (grant, (9, 0)));
            for (grant, refusal) in too_low.chain(too_high) {
                let case = Case::new(&file, grant, entries, length);
                check(name, &case, Err(refusal), &filled(&case, sizes), &case.area);
            }
        }
    }
    short_lists(name, &file, sizes.len(), work);
}

/// Areas that are long enough: the file stands at the start, and what is behind stays.
fn accepted(name: &str, call: (&[u8], u64, usize), sizes: &[u16], written: &[u8]) {
    let (file, grant, entries) = call;
    for more in [0, 1, 7, 8, 100, MOST_BYTES] {
        let case = Case::new(file, grant, entries, written.len() + more);
        let area = [written, &case.area[written.len()..]].concat();
        check(name, &case, Ok(written.len()), &filled(&case, sizes), &area);
    }
}

/// Lengths of areas that are too short for a file.
fn too_short(needed: usize) -> [usize; 7] {
    [needed - 1, needed - 7, needed - 8, NO_GATES - 1, 22, 1, 0]
}

/// Lists that are too short: 7, whatever the grant and the area, and both areas stay.
fn short_lists(name: &str, file: &[u8], nodes: usize, work: u64) {
    for entries in [0, 1, nodes / 2, nodes - 1].into_iter().filter(|entries| *entries < nodes) {
        for grant in [0, work, 1_024, 1_025, u64::MAX] {
            for length in [0, 1, NO_GATES, MOST_BYTES] {
                let case = Case::new(file, grant, entries, length);
                check(name, &case, Err((7, 0)), &case.sizes, &case.area);
            }
        }
    }
}

/// The nodes' sizes as the model has them.
fn sizes_of(program: &Program) -> Vec<u16> {
    construct::sizes(&drawn::read(program).nodes).iter().map(|size| *size as u16).collect()
}

/// A program is refused whatever the area; the list is filled and the area as it was, or, at 11,
/// all zero.
fn refuses(name: &str, program: &Program, grant: u64, refusal: (u64, u64)) {
    let file = program.bytes();
    let nodes = program.nodes.len();
    let sizes = sizes_of(program);
    for entries in [nodes, nodes + 1, 5_000] {
        for length in [0, 1, NO_GATES - 1, NO_GATES, MOST_BYTES - 1, MOST_BYTES, 700_000] {
            let case = Case::new(&file, grant, entries, length);
            let area = if refusal.0 == 11 { vec![0; length] } else { case.area.clone() };
            check(name, &case, Err(refusal), &filled(&case, &sizes), &area);
        }
    }
}

#[test]
fn the_whole_case() {
    let circuit = shaped::circuit::whole_case();
    assert_eq!(circuit.bytes().len(), 36);
    gives("the whole case", &shaped::program::whole_case(), &[1, 1, 3], &circuit);

    let file = shaped::program::WHOLE_CASE;
    for grant in 0..=1_024 {
        let case = Case::new(&file, grant, 3, 36);
        check("any grant", &case, Ok(36), &[1, 1, 3], &shaped::circuit::WHOLE_CASE);
        let case = Case::new(&file, grant, 3, 35);
        check("an area of 35", &case, Err((11, 1)), &[1, 1, 3], &[0; 35]);
    }
}

#[test]
fn the_other_examples() {
    gives("NOR", &shaped::program::nor(), &[1, 1, 2, 2, 5], &shaped::circuit::nor());
    assert_eq!((shaped::circuit::nor().gates.len(), shaped::circuit::nor().work), (9, 2));

    gives(
        "AND of three",
        &shaped::program::and_of_three(),
        &[1, 1, 3, 1, 5],
        &shaped::circuit::and_of_three(),
    );
    refuses("AND of three, grant 0", &shaped::program::and_of_three(), 0, (10, 1));

    let circuit = Circuit::new(1, 1, 0, &[cnot(0, 1), cnot(0, 1)]);
    gives("XOR with itself", &shaped::program::xor_with_itself(), &[1, 3], &circuit);

    gives("output ZERO", &shaped::program::output_zero(), &[1], &Circuit::new(0, 1, 0, &[]));
    let one = Program::new(0, &[ONE], &[0]);
    gives("output ONE", &one, &[1], &Circuit::new(0, 1, 0, &[flip(0)]));
}

/// Inputs, by one node or two, their NOTs, constants and ANDs, on either side; and every kind of mark.
#[test]
fn every_kind_of_operand_and_mark() {
    for example in shaped::operands::all().into_iter().chain(shaped::marks::all()) {
        gives(example.name, &example.program, &sizes_of(&example.program), &example.circuit);
    }
}

/// A node is built anew at each use, on new lines, and all lines are free again for the next
/// output.
#[test]
fn shared_nodes_and_several_outputs() {
    let nodes = [input(0), ONE, and(0, 1), xor(2, 2)];
    let build = [flip(2), toffoli(0, 2, 1), flip(3), toffoli(0, 3, 1)];
    let circuit = Circuit::new(1, 1, 2, &[&build[..], &[flip(3), flip(2)]].concat());
    gives("a shared AND", &Program::new(1, &nodes, &[3]), &[1, 1, 3, 7], &circuit);

    // The second of three outputs takes the most lines.
    let nodes = [input(0), ONE, and(0, 1), and(2, 0)];
    let first = [flip(4), toffoli(0, 4, 1), flip(4)];
    let second = [flip(5), toffoli(0, 5, 4), toffoli(0, 4, 2), toffoli(0, 5, 4), flip(5)];
    let circuit = Circuit::new(1, 3, 2, &[&first[..], &second, &[flip(3)]].concat());
    gives("three outputs", &Program::new(1, &nodes, &[2, 3, 1]), &[1, 1, 3, 5], &circuit);

    // An output that is named twice has two shares; the nodes behind it have none.
    let circuit = Circuit::new(3, 2, 0, &[cnot(2, 3), cnot(2, 4)]);
    let twice = Program::new(3, &[input(2), and(0, 0), not(1)], &[0, 0]);
    gives("an output twice", &twice, &[1, 3, 4], &circuit);
}

/// ZERO as an operand takes a line, even if nothing is built into it.
#[test]
fn lines_that_no_gate_targets() {
    let nodes = [ZERO, and(0, 0), and(1, 0)];
    let circuit = Circuit::new(0, 1, 4, &[toffoli(2, 3, 1), toffoli(1, 4, 0), toffoli(2, 3, 1)]);
    gives("AND of ZERO", &Program::new(0, &nodes, &[2]), &[1, 3, 5], &circuit);
}

/// 01's slip: the fourth input's AND, whose line 5 would stay dirty if C were not reversed.
#[test]
fn and_of_four_inputs() {
    let mut circuit = shaped::circuit::and_of_four_built();
    circuit.gates.extend([toffoli(2, 6, 5), toffoli(0, 1, 6)]);
    gives("AND of four", &shaped::program::and_of_four(), &[1, 1, 3, 1, 5, 1, 7], &circuit);
}

/// Sizes of the XOR chain of 01: 2^(i+1) - 1, then NOT of it twice.
fn chain_sizes() -> Vec<u16> {
    let mut sizes: Vec<u16> = (1..=14).map(|power| (1 << power) - 1).collect();
    sizes.extend([16_384, 16_385]);
    sizes
}

#[test]
fn the_largest_size() {
    let chain = |outputs: &[u16]| Program::new(0, &shaped::program::xor_chain().nodes, outputs);
    let none = Circuit::new(0, 1, 0, &[]);
    gives("node 13, 16,383", &chain(&[13]), &chain_sizes(), &none);
    let one = Circuit::new(0, 1, 0, &[flip(0)]);
    gives("NOT of it, 16,384", &chain(&[14]), &chain_sizes(), &one);
    for grant in [0, 1_024, 1_025, u64::MAX] {
        refuses("NOT of that, 16,385", &chain(&[15]), grant, (8, 0));
        refuses("the last output", &chain(&[13, 14, 15]), grant, (8, 2));
        refuses("the first of two", &chain(&[14, 15, 13, 15, 15]), grant, (8, 1));
        let mut outputs = [14; 64];
        outputs[63] = 15;
        refuses("output 63 of 64", &chain(&outputs), grant, (8, 63));
    }
    short_lists("a size over 16,384", &chain(&[15]).bytes(), 16, 0);
}

/// Each kind of node with a size of 16,384 and of 16,385.
#[test]
fn sizes_about_the_limit() {
    // Node 12 has size 8,191, node 13 16,383, nodes 14 and 15 8,192 and 8,193.
    let program = |last: Node| {
        let mut nodes = vec![ZERO];
        nodes.extend((0..13).map(|before| xor(before, before)));
        nodes.extend([not(12), not(14), last]);
        Program::new(0, &nodes, &[0, 16])
    };
    let size = |last: Node| construct::size(&drawn::read(&program(last)).nodes, 16);
    for last in [not(13), xor(12, 14), xor(14, 12), and(12, 14), and(14, 12)] {
        assert_eq!(size(last), 16_384, "{last:?}");
        gives_the_models("16,384", &program(last));
    }
    for last in [xor(13, 0), xor(0, 13), and(13, 0), and(0, 13), xor(14, 14), and(12, 15)] {
        assert_eq!(size(last), 16_385, "{last:?}");
        refuses("16,385", &program(last), 1_024, (8, 1));
    }
    for last in [xor(13, 13), and(13, 13)] {
        assert_eq!(size(last), 32_767, "{last:?}");
        refuses("32,767", &program(last), 1_024, (8, 1));
    }
}

/// Sizes that are 1 in 16, 32 or 64 bits, and the longest chain.
#[test]
fn sizes_far_over_the_limit() {
    let mut nodes = vec![ZERO];
    nodes.extend((0..4_093).map(|before| xor(before, before)));
    nodes.extend([not(4_093), ZERO]);
    let longest = |outputs: &[u16]| Program::new(0, &nodes, outputs);
    let mut sizes = chain_sizes()[..14].to_vec();
    sizes.resize(4_095, 16_385);
    sizes.push(1);
    gives("the longest chain", &longest(&[4_095]), &sizes, &Circuit::new(0, 1, 0, &[]));
    refuses("its last node", &longest(&[4_095, 4_094]), 0, (8, 1));
    for output in [14, 15, 16, 31, 32, 63, 64, 127, 4_093] {
        refuses("a node of the chain", &longest(&[output]), 0, (8, 0));
    }
    // 2^(i + 1) - 1, and two more by NOT of NOT.
    for i in [15, 31, 63] {
        let mut nodes = nodes[..=usize::from(i)].to_vec();
        nodes.extend([not(i), not(i + 1), and(i + 2, i + 2)]);
        refuses("1 in fewer bits", &Program::new(0, &nodes, &[i + 2]), 0, (8, 0));
        refuses("3 in fewer bits", &Program::new(0, &nodes, &[i + 3]), 0, (8, 0));
    }
}

/// A program with the model's circuit, whose gates are too many to be written out here.
fn gives_the_models(name: &str, program: &Program) {
    let circuit = construct::circuit(&drawn::read(program));
    let gates: Vec<_> = circuit.gates.iter().map(fields).collect();
    let [inputs, outputs, work] =
        [circuit.inputs, circuit.outputs, circuit.work].map(|number| number as u16);
    gives(name, program, &sizes_of(program), &Circuit::new(inputs, outputs, work, &gates));
}

fn fields(gate: &model::circuit::Gate) -> agreement::circuit::Gate {
    use model::circuit::Gate::{Cnot, Not, Toffoli};

    match *gate {
        Not(target) => flip(target as u16),
        Cnot(control, target) => cnot(control as u16, target as u16),
        Toffoli(control, second, target) => toffoli(control as u16, second as u16, target as u16),
    }
}

#[test]
fn the_most_gates() {
    let most = limits::most_gates();
    let gates = vec![cnot(0, 1); 8_000];
    gives("8,000 gates", &most, &sizes_of(&most), &Circuit::new(1, 1, 0, &gates));
    gives_the_models("8,000 gates, 64 outputs", &limits::most_outputs());
    for grant in [0, 1, 1_024] {
        refuses("8,001 gates", &limits::a_gate_too_many(), grant, (11, 8_001));
    }

    let with_last_output = |node| {
        let mut program = limits::most_outputs();
        program.nodes.extend([ZERO, xor(0, 126)]);
        program.outputs[63] = node;
        program
    };
    refuses("8,001 gates, 64 outputs", &with_last_output(191), 62, (11, 8_001));
    gives_the_models("7,875 gates, 64 outputs", &with_last_output(190));
}

/// Numbers of gates that are less in 16 bits.
#[test]
fn far_more_gates() {
    // Node i has 2^i gates.
    let mut nodes = vec![input(0)];
    nodes.extend((0..13).map(|before| xor(before, before)));
    let doubled = |outputs: &[u16]| Program::new(1, &nodes, outputs);
    refuses("8,192 gates", &doubled(&[13]), 0, (11, 8_192));
    let mut outputs = vec![12; 15];
    outputs.extend(0..12);
    refuses("65,535 gates", &doubled(&outputs), 0, (11, 65_535));
    refuses("65,536 gates", &doubled(&[13; 8]), 0, (11, 65_536));
    refuses("65,537 gates", &doubled(&[13, 13, 13, 13, 13, 13, 13, 13, 0]), 0, (11, 65_537));
    refuses("524,352 gates", &limits::largest_outputs(64), 1_024, (11, 524_352));

    // The most gates of one output with two lines: 2 C - 1 with C of about its size.
    let mut nodes = vec![input(0)];
    nodes.extend((0..4_000).map(not));
    nodes.extend([xor(4_000, 4_000), and(4_001, 4_001)]);
    let gates = 2 * (4 * 4_001 + 1) - 1;
    let outputs = [4_002; 64];
    refuses("32,009 gates", &Program::new(1, &nodes, &outputs[..1]), 2, (11, gates));
    refuses("64 of them", &Program::new(1, &nodes, &outputs), 2, (11, 64 * gates));
}

/// Numbers of gates under marks: up to 3,000,000 the place is the number, of one output and of the
/// sum of all, and above it is 3,000,001.
#[test]
fn three_million_gates() {
    let of = limits::of_marked_gates;
    gives_the_models("8,000 gates", &of(&[8_000]));
    gives_the_models("8,000 gates in 64 outputs", &of(&[125; 64]));
    refuses("8,001 gates", &of(&[8_001]), 1_024, (11, 8_001));
    refuses("8,001 gates in 64 outputs", &of(&[&[125; 63][..], &[126]].concat()), 7, (11, 8_001));

    for gates in [65_536, 1_000_000, 1_000_001, 1_000_002, 2_999_999, 3_000_000] {
        in_several_outputs(gates, gates as u64);
    }
    for gates in [3_000_001, 3_000_002, 3_000_003, 4_000_000, 6_000_002] {
        in_several_outputs(gates, OVER);
    }
    refuses("in 64 outputs", &of(&[46_875; 64]), 1_024, (11, 3_000_000));
    let mut outputs = [46_875; 64];
    for more in [0, 31, 63] {
        outputs[more] = 46_874;
        refuses("a gate fewer", &of(&outputs), 1_024, (11, 2_999_999));
        outputs[more] = 46_876;
        refuses("a gate more", &of(&outputs), 1_024, (11, OVER));
        outputs[more] = 46_875;
    }

    // The last mark has four times the gates below it, and one.
    let above = limits::marked_above;
    refuses("2,999,997 gates", &above(749_999), 1_024, (11, 2_999_997));
    refuses("3,000,001 gates", &above(750_000), 1_024, (11, OVER));
    refuses("3,000,005 gates", &above(750_001), 1_024, (11, OVER));
    let mut and_three = above(749_999);
    and_three.nodes.extend((0..3).map(|more| not(and_three.outputs[0] + more)));
    and_three.outputs[0] += 3;
    refuses("3,000,000 gates", &and_three, 1_024, (11, 3_000_000));
}

/// So many gates in one output, and parted among two.
fn in_several_outputs(gates: u128, place: u64) {
    let parts = [
        vec![gates],
        vec![gates, 0],
        vec![gates / 3, gates - gates / 3],
        vec![1, gates - 1],
        vec![gates - 1, 1],
    ];
    for part in parts {
        refuses("so many gates", &limits::of_marked_gates(&part), 1_024, (11, place));
    }
}

/// Some of these are few in 32 or 64 bits: the gates of an output, those of a node below it, or those
/// of all outputs.
#[test]
fn numbers_of_gates_that_overflow() {
    let of = limits::of_marked_gates;
    for power in [31, 32, 33, 62, 63, 64, 65] {
        for gates in [(1 << power) - 1, 1 << power, (1 << power) + 1, (1 << power) + 5] {
            refuses("one output", &of(&[gates]), 1_024, (11, OVER));
            refuses("two outputs", &of(&[gates; 2]), 1_024, (11, OVER));
            refuses("a mark above", &limits::marked_above(gates), 1_024, (11, OVER));
        }
        refuses("64 outputs", &of(&[1 << (power - 6); 64]), 1_024, (11, OVER));
        refuses("two outputs", &of(&[(1 << power) - 7, 7]), 1_024, (11, OVER));
    }
    for power in [29, 30, 60, 61] {
        refuses("a mark above", &limits::marked_above(1 << power), 1_024, (11, OVER));
    }

    for marks in [21, 30, 31, 32, 61, 62, 63, 64, 65, 1_025] {
        let nested = limits::nested_marks(marks);
        refuses("nested marks", &nested, 1_024, (11, OVER));
        let outputs = [nested.outputs[0]; 64];
        refuses("64 outputs", &Program::new(64, &nested.nodes, &outputs), 1_024, (11, OVER));
    }
    // Of a node with itself, 13 deep, of size 16,383: 178,956,969 gates and 26 lines.
    let mut nodes = vec![ONE];
    nodes.extend((0..14).map(|before| marked(before, before)));
    refuses("both operands", &Program::new(0, &nodes, &[13]), 26, (11, OVER));
    refuses("both operands, 10", &Program::new(0, &nodes, &[13]), 25, (10, 26));
    refuses("both operands, 8", &Program::new(0, &nodes, &[13, 14]), 25, (8, 1));
}

/// The lines needed are the most that are in use together, within an output and of all of them.
#[test]
fn work_lines_under_marks() {
    gives_the_models("999 lines, twice", &limits::lines_taken_twice());
    refuses("a line fewer", &limits::lines_taken_twice(), 998, (10, 999));
    let unmarked = limits::lines_taken_twice().with_marks(|| false);
    refuses("without the mark", &unmarked, 1_024, (10, 1_998));
    gives_the_models("1,024 lines", &limits::most_lines_marked());
    refuses("a line fewer", &limits::most_lines_marked(), 1_023, (10, 1_024));
    refuses("1,025 lines", &limits::nested_marks(1_026), 1_024, (10, 1_025));
    for grant in [0, 1, 1_023] {
        refuses("1,024 lines of 1,025 marks", &limits::nested_marks(1_025), grant, (10, 1_024));
    }
    for grant in TOO_HIGH {
        refuses("9 before 10 and 11", &limits::nested_marks(1_026), grant, (9, 0));
    }
    // 1,023 lines are given back before 1,023 more are taken, beside one that stays in use.
    let mut program = limits::ands(1_024, false);
    program.nodes[1_087].mark = 1;
    program.nodes.extend([and(1_087, 1_086), and(1_086, 1_087)]);
    program.outputs = vec![1_088];
    gives_the_models("an AND of both", &program);
    refuses("an AND of both", &program, 1_023, (10, 1_024));
    program.outputs = vec![1_089];
    refuses("in the other order", &program, 1_024, (10, 2_047));
}

#[test]
fn the_most_work_lines() {
    for input_first in [false, true] {
        gives_the_models("1,024 lines", &limits::ands(1_025, input_first));
        for grant in [0, 1, 1_023, 1_024] {
            refuses("1,025 lines", &limits::ands(1_026, input_first), grant, (10, 1_025));
        }
        refuses("1,025 lines", &limits::ands(1_026, input_first), 1_025, (9, 0));
        refuses("4,031 lines", &limits::ands(4_032, input_first), 1_024, (10, 4_031));
    }
    gives_the_models("1,024 lines, two an AND", &limits::ands_of_nots(512));
    refuses("1,026 lines, two an AND", &limits::ands_of_nots(513), 1_024, (10, 1_026));

    gives_the_models("1,152 lines in all", &limits::most_lines());

    // XOR of two nodes takes the lines of both.
    let both = |ands: u16, last: u16| {
        let mut program = limits::ands(ands, false);
        program.nodes.push(xor(63 + ands, 63 + last));
        program.outputs = vec![64 + ands];
        program
    };
    gives_the_models("XOR, 1,024 lines", &both(513, 513));
    refuses("XOR, 1,024 lines, grant 1,023", &both(513, 513), 1_023, (10, 1_024));
    refuses("XOR, 1,025 lines", &both(514, 513), 1_024, (10, 1_025));

    // The most lines that a size of at most 16,384 takes, and those of an input instead of ONE.
    let doubled = |leaf: Node| {
        let mut nodes = vec![leaf];
        nodes.extend((0..13).map(|before| and(before, before)));
        Program::new(1, &nodes, &[13])
    };
    for (leaf, lines) in [(ONE, 16_382), (input(0), 8_190)] {
        refuses("AND of a node with itself", &doubled(leaf), 1_024, (10, lines));
        refuses("AND of a node with itself, grant 0", &doubled(leaf), 0, (10, lines));
    }
}

/// Lines are free again for the next output, so w is the most and no sum.
#[test]
fn work_lines_of_several_outputs() {
    let chain = |outputs: &[u16]| {
        let mut program = limits::ands(1_026, false);
        program.outputs = outputs.to_vec();
        program.output_count = outputs.len() as u16;
        program
    };
    // Node 64 + i takes i lines.
    for outputs in [[84, 66, 64], [66, 84, 64], [64, 66, 84], [0, 84, 84]] {
        gives_the_models("20 lines", &chain(&outputs));
        refuses("20 lines, grant 19", &chain(&outputs), 19, (10, 20));
    }
    gives_the_models("three times 1,024 lines", &chain(&[1_088, 1_088, 1_088]));
    for outputs in [[1_089, 66, 64], [66, 1_089, 64], [64, 66, 1_089]] {
        refuses("1,025 lines", &chain(&outputs), 1_024, (10, 1_025));
    }
}

/// One output over each limit. Where an earlier cause is there as well, it is the one given.
#[test]
fn causes_together() {
    // Node 13 has 8,192 gates, node 14 size 32,767, and node 1,040 is the last of 1,026 ANDs, of
    // which all but the first take a line.
    let mut nodes = vec![input(0)];
    nodes.extend((0..14).map(|before| xor(before, before)));
    nodes.push(and(0, 0));
    nodes.extend((15..1_040).map(|before| and(before, 0)));
    let program = |outputs: &[u16]| Program::new(1, &nodes, outputs);
    let (small, gates, large, lines) = (0, 13, 14, 1_040);

    for grant in [0, 1_023, 1_024] {
        refuses("8, 10 and 11", &program(&[gates, lines, large]), grant, (8, 2));
        refuses("8 and 10", &program(&[lines, large]), grant, (8, 1));
        refuses("8 and 11", &program(&[large, gates]), grant, (8, 0));
        refuses("10 and 11", &program(&[gates, lines]), grant, (10, 1_025));
        refuses("10 and 11", &program(&[lines, gates]), grant, (10, 1_025));
        refuses("11 alone", &program(&[small, gates]), grant, (11, 8_193));
    }
    for grant in TOO_HIGH {
        refuses("8 to 11", &program(&[gates, lines, large]), grant, (8, 2));
        refuses("8 and 9", &program(&[large]), grant, (8, 0));
        refuses("9, 10 and 11", &program(&[gates, lines]), grant, (9, 0));
        refuses("9 and 10", &program(&[lines]), grant, (9, 0));
        refuses("9 and 11", &program(&[gates]), grant, (9, 0));
        refuses("9 alone", &program(&[small]), grant, (9, 0));
    }
    short_lists("7 to 11", &program(&[gates, lines, large]).bytes(), nodes.len(), 0);
}

/// The refusals of reading come through as they are, whatever else is wrong.
#[test]
fn shaped_files_refused_by_the_reader() {
    let calls = [(1_024, 4_096, MOST_BYTES), (0, 70_000, 1), (1_025, 2, 0), (u64::MAX, 0, 100)];
    shaped::each_refused("compile", shaped::program::all(), |name, file, refusal| {
        for (grant, entries, length) in calls {
            let case = Case::new(file, grant, entries, length);
            check(name, &case, Err(refusal), &case.sizes, &case.area);
        }
    });
}

/// Files that the reader accepts, at and about what their circuits need.
#[test]
fn shaped_files_accepted_by_the_reader() {
    let mut random = Random::new(0x7368_6170);
    let mut tally = Tally::new("compile, shaped files");
    shaped::each_accepted(shaped::program::all(), |_, file, head| {
        let (work, needed) = needs(file).unwrap_or((0, NO_GATES));
        let nodes = head.count;
        for grant in [work, work.saturating_sub(1), 1_024, 1_025, u64::MAX] {
            for entries in [nodes, nodes + 1, nodes - 1] {
                for length in [needed, needed + 1, needed - 1, 0] {
                    let (sizes, area) = (random_list(&mut random, entries), random.bytes(length));
                    tally.count(&compare(&Case { file: file.to_vec(), grant, sizes, area }));
                }
            }
        }
    });
    tally.finish(1_000, &[7, 8, 9, 10, 11]);
}

/// Every one-byte change of a small file. A line is needed where an input becomes a constant.
#[test]
fn each_byte_of_the_whole_case_changed() {
    let mut tally = Tally::new("compile, one byte changed");
    for file in damage::each_byte_changed(&shaped::program::WHOLE_CASE) {
        for (grant, length) in [(0, 36), (1, 52), (1, 51), (1_024, 35)] {
            tally.count(&compare(&Case::new(&file, grant, 3, length)));
        }
    }
    tally.finish(56 * 256 * 4, &[1, 2, 3, 4, 5, 6, 10, 11]);
}

/// Every one-byte change of a file whose circuit has work lines and gates of every kind.
#[test]
fn each_byte_of_nor_changed() {
    let mut tally = Tally::new("compile, one byte of NOR changed");
    let file = shaped::program::nor().bytes();
    for file in damage::each_byte_changed(&file) {
        for (grant, length) in [(2, 100), (1, 100), (2, 99), (1_024, 67)] {
            tally.count(&compare(&Case::new(&file, grant, 5, length)));
        }
    }
    tally.finish(68 * 256 * 4, &[1, 2, 3, 4, 5, 6, 10, 11]);
}

/// Every table of four nodes over two inputs, each of them an output: 19,584 programs.
#[test]
fn every_small_table() {
    let mut tally = Tally::new("compile, every small table");
    for nodes in program::every_table(4) {
        let file = Program::new(2, &nodes, &[3, 2, 1, 0]).bytes();
        let (work, needed) = needs(&file).expect("a small program");
        tally.count(&compare(&Case::new(&file, work, 4, needed)));
        if work > 0 {
            let short = compare(&Case::new(&file, work - 1, 4, needed));
            assert_eq!(short, Err((10, work)), "{nodes:?}");
        }
    }
    tally.finish(4 * 8 * 18 * 34, &[]);
}

#[test]
fn random_and_damaged_cases() {
    let mut random = Random::new(0x636f_6d70);
    let mut tally = Tally::new("compile");
    let mut seen = Seen::default();
    let mut with_bytes_behind = 0;
    for _ in 0..20_000 {
        let case = random_case(&mut random);
        let outcome = compare(&case);
        tally.count(&outcome);
        if let Ok(length) = outcome {
            count(&mut seen, &case, length);
            with_bytes_behind += u64::from(case.area.len() > length);
        }
    }
    tally.finish(20_000, &[1, 2, 3, 4, 5, 6, 7, 8, 9, 10, 11]);
    seen.print("compile, results");
    println!("compile, results: {with_bytes_behind} with bytes behind the file");
    assert!(seen.with_shared_nodes > 1_000, "too few shared nodes");
    assert!(seen.with_64_inputs_and_64_outputs > 200, "too few wide programs");
    assert!(with_bytes_behind > 1_000, "too few long areas");
    assert!(seen.most_gates > 7_000, "no circuit with many gates");
    assert!(seen.most_work_lines > 1_000, "no circuit with many work lines");
    seen.ands.finish(200);
    seen.marks.finish(200);
}

fn count(seen: &mut Seen, case: &Case, length: usize) {
    let program = model::program::read(&case.file).expect("a result needs a program");
    let work = construct::most_work_lines(&program);
    seen.program(&program, (length - NO_GATES) / 8, work);
}

/// Mostly a good file; then mostly a list, a grant and an area that are enough.
fn random_case(random: &mut Random) -> Case {
    let file = match random.below(9) {
        0..=1 => program::damaged(random),
        2 => drawn::any(random).bytes(),
        3 => drawn::large(random).bytes(),
        4 => drawn::about_three_million(random).bytes(),
        _ => drawn::accepted(random).bytes(),
    };
    call(random, file)
}
