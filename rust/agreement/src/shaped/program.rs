//! Program files at every limit of the format.

use super::contents::{self, Format};
use super::{accepted, circuit, refused, Shaped};
use crate::layout::Layout;
use crate::program::{and, input, marked, node, not, xor, Node, Program, ONE, ZERO};

/// The whole case of 01: n = 2, nodes INPUT 0, INPUT 1, AND 0 1, output 2.
pub const WHOLE_CASE: [u8; 56] = [
    0x03, 0x00, 0x01, 0x00, 0x20, 0x00, 0x00, 0x00, 0x04, 0x00, 0x00, 0x00, 0x02, 0x00, 0x24, 0x00,
    0x00, 0x00, 0x12, 0x00, 0x00, 0x00, 0x03, 0x00, 0x36, 0x00, 0x00, 0x00, 0x02, 0x00, 0x00, 0x00,
    0x02, 0x00, 0x01, 0x00, 0x02, 0x00, 0x00, 0x00, 0x00, 0x00, 0x02, 0x00, 0x01, 0x00, 0x00, 0x00,
    0x05, 0x00, 0x00, 0x00, 0x01, 0x00, 0x02, 0x00,
];

/// A node that no check of nodes accepts.
const BAD: Node = node(6, 0, 0);

/// What program files share with circuit files.
const FORMAT: Format = Format {
    whole_case: &WHOLE_CASE,
    layout: || whole_case().layout(),
    numbers: [2, 1, 0, 3],
    table: 32,
    record: 6,
    other: &circuit::WHOLE_CASE,
    bad_from_3,
    with_numbers: |n, m, _| Program::new(n, &[ONE], &vec![0; usize::from(m)]).bytes(),
    work: &[0],
};

/// Every shaped file.
pub fn all() -> Vec<Shaped> {
    let groups = [
        contents::all(&FORMAT),
        accepted_programs(),
        body_within_another(),
        node_lengths(),
        output_lengths(),
        kinds(),
        marks(),
        unused_fields(),
        operands_of_not(),
        operands_of_xor_and_and(),
        first_and_last_nodes(),
        input_numbers(),
        lowest_bad_nodes(),
        outputs(),
        causes_together(),
    ];
    groups.into_iter().flatten().collect()
}

/// The fields of the whole case.
pub fn whole_case() -> Program {
    Program::new(2, &[input(0), input(1), and(0, 1)], &[2])
}

/// NOR as AND of two NOTs.
pub fn nor() -> Program {
    Program::new(2, &[input(0), input(1), not(0), not(1), and(2, 3)], &[4])
}

/// AND(AND(input 0, input 1), input 2).
pub fn and_of_three() -> Program {
    Program::new(3, &[input(0), input(1), and(0, 1), input(2), and(2, 3)], &[4])
}

/// AND of the three-input case's AND with a fourth input.
pub fn and_of_four() -> Program {
    let nodes = [input(0), input(1), and(0, 1), input(2), and(2, 3), input(3), and(4, 5)];
    Program::new(4, &nodes, &[6])
}

/// The XOR of two ANDs of three inputs, which are marked or not.
pub fn two_ands_of_three(are_marked: bool) -> Program {
    let mut nodes: Vec<Node> = (0..6).map(input).collect();
    nodes.extend([and(0, 1), and(6, 2), and(3, 4), and(8, 5), xor(7, 9)]);
    for outer in [7, 9] {
        nodes[outer].mark = u8::from(are_marked);
    }
    Program::new(6, &nodes, &[10])
}

/// XOR of input 0 with itself.
pub fn xor_with_itself() -> Program {
    Program::new(1, &[input(0), xor(0, 0)], &[1])
}

/// One output, ZERO.
pub fn output_zero() -> Program {
    Program::new(0, &[ZERO], &[0])
}

/// The example of 01 whose node 13 has size 16,383, with NOT of it and NOT of that.
pub fn xor_chain() -> Program {
    let mut nodes = vec![ZERO];
    nodes.extend((0..13).map(|before| xor(before, before)));
    nodes.extend([not(13), not(14)]);
    Program::new(0, &nodes, &[13, 14, 15])
}

/// So many nodes ONE, and one output, the first.
fn ones(count: usize) -> Program {
    Program::new(0, &vec![ONE; count], &[0])
}

fn accepted_programs() -> Vec<Shaped> {
    vec![
        accepted("NOR as AND of two NOTs", nor().bytes(), [2, 1, 0, 5]),
        accepted("AND of three inputs", and_of_three().bytes(), [3, 1, 0, 5]),
        accepted("AND of four inputs", and_of_four().bytes(), [4, 1, 0, 7]),
        accepted("XOR of an input with itself", xor_with_itself().bytes(), [1, 1, 0, 2]),
        accepted("output ZERO", output_zero().bytes(), [0, 1, 0, 1]),
        accepted("the XOR chain", xor_chain().bytes(), [0, 3, 0, 16]),
        accepted("XOR of two marked ANDs", two_ands_of_three(true).bytes(), [6, 1, 0, 11]),
        accepted("the same without marks", two_ands_of_three(false).bytes(), [6, 1, 0, 11]),
    ]
}

/// The whole case with its layout changed.
fn laid(change: impl FnOnce(&mut Layout)) -> Vec<u8> {
    whole_case().layout().changed(change).bytes()
}

fn body_within_another() -> Vec<Shaped> {
    let within = laid(|l| {
        l.bodies[2].clear();
        l.entries[2].start = 42;
    });
    vec![refused("a third body within the second", within, 2, 0)]
}

/// The whole case with a body of another length, and a table that fits.
fn resized(body: usize, length: usize) -> Vec<u8> {
    whole_case().layout().resized(body, length).bytes()
}

fn node_lengths() -> Vec<Shaped> {
    let node_bytes = |length: usize| ones(4096).layout().resized(1, length).bytes();
    vec![
        refused("0 nodes", resized(1, 0), 3, 0),
        refused("node body of 1 byte", resized(1, 1), 3, 0),
        refused("node body of 5 bytes", resized(1, 5), 3, 0),
        accepted("1 node", ones(1).bytes(), [0, 1, 0, 1]),
        refused("node body of 7 bytes", resized(1, 7), 3, 0),
        refused("node body one byte short", resized(1, 17), 3, 0),
        refused("node body one byte long", resized(1, 19), 3, 0),
        accepted("4095 nodes", ones(4095).bytes(), [0, 1, 0, 4095]),
        refused("4096 nodes less a byte", node_bytes(24575), 3, 0),
        accepted("4096 nodes", ones(4096).bytes(), [0, 1, 0, 4096]),
        refused("4096 nodes and a byte", node_bytes(24577), 3, 0),
        refused("4097 nodes", ones(4097).bytes(), 3, 0),
        refused("65536 nodes", ones(65536).bytes(), 3, 0),
        refused("65537 nodes, 1 in 16 bits", ones(65537).bytes(), 3, 0),
    ]
}

fn output_lengths() -> Vec<Shaped> {
    let with_outputs = |m: u16, count: usize| {
        Program::new(0, &[ONE], &vec![0; count]).with_output_count(m).bytes()
    };
    vec![
        refused("output body of 0 bytes", resized(2, 0), 3, 0),
        refused("output body of 1 byte", resized(2, 1), 3, 0),
        refused("output body of 3 bytes", resized(2, 3), 3, 0),
        refused("output body of 4 bytes", resized(2, 4), 3, 0),
        refused("m 2, one output", with_outputs(2, 1), 3, 0),
        accepted("m 2, two outputs", with_outputs(2, 2), [0, 2, 0, 1]),
        refused("m 2, three outputs", with_outputs(2, 3), 3, 0),
        refused("m 64, 63 outputs", with_outputs(64, 63), 3, 0),
        refused("m 64, 65 outputs", with_outputs(64, 65), 3, 0),
        // m is not looked at before its body has the length
        refused("m 0, one output", with_outputs(0, 1), 3, 0),
        refused("m 65, 64 outputs", with_outputs(65, 64), 3, 0),
        refused("m 65535, one output", with_outputs(65535, 1), 3, 0),
        refused("m 65535, 65534 outputs", with_outputs(65535, 65534), 3, 0),
        refused("m 65535, 65535 outputs", with_outputs(65535, 65535), 4, 0),
        // 2 times m is 2 in 16 bits
        refused("m 32769, one output", with_outputs(32769, 1), 3, 0),
        refused("m 32769, 32769 outputs", with_outputs(32769, 32769), 4, 0),
    ]
}

/// Five nodes for two inputs, the fourth as given.
fn at_3(fourth: Node) -> Vec<u8> {
    Program::new(2, &[input(0), input(1), ONE, fourth, ZERO], &[3]).bytes()
}

/// One node for two inputs.
fn at_0(only: Node) -> Vec<u8> {
    Program::new(2, &[only], &[0]).bytes()
}

/// 4,096 nodes for 64 inputs, the last as given.
fn at_4095(last: Node) -> Vec<u8> {
    let mut nodes = vec![ONE; 4095];
    nodes.push(last);
    Program::new(64, &nodes, &[4095]).bytes()
}

/// A good node of each kind for five nodes and two inputs, the fourth.
const EACH_KIND: [(&str, Node); 6] = [
    ("ZERO", ZERO),
    ("ONE", ONE),
    ("INPUT", input(0)),
    ("NOT", not(0)),
    ("XOR", xor(0, 1)),
    ("AND", and(0, 1)),
];

fn kinds() -> Vec<Shaped> {
    let mut files: Vec<Shaped> =
        EACH_KIND.map(|(kind, good)| accepted(kind, at_3(good), [2, 1, 0, 5])).into();
    for kind in [6, 7, 128, 255] {
        files.push(refused(format!("kind {kind}"), at_3(node(kind, 0, 0)), 5, 3));
    }
    files
}

/// The mark 1 is good on an AND, and no other but 0 on any node.
fn marks() -> Vec<Shaped> {
    let mut files = vec![
        accepted("AND, mark 1", at_3(marked(0, 1)), [2, 1, 0, 5]),
        accepted("AND of a node with itself, mark 1", at_3(marked(2, 2)), [2, 1, 0, 5]),
        accepted("node 4095, AND, mark 1", at_4095(marked(0, 4094)), [64, 1, 0, 4096]),
        refused("node 4095, AND, mark 2", at_4095(and(0, 4094).with_mark(2)), 5, 4095),
        refused("node 4095, XOR, mark 1", at_4095(xor(0, 4094).with_mark(1)), 5, 4095),
        refused("ZERO as node 0, mark 1", at_0(ZERO.with_mark(1)), 5, 0),
        refused("ONE as node 0, mark 255", at_0(ONE.with_mark(255)), 5, 0),
        refused("AND, mark 1, a itself", at_3(marked(3, 0)), 5, 3),
        refused("AND, mark 1, b itself", at_3(marked(0, 3)), 5, 3),
        refused("kind 6, mark 1", at_3(BAD.with_mark(1)), 5, 3),
    ];
    for (kind, good) in EACH_KIND {
        for mark in [1, 2, 3, 5, 128, 129, 254, 255] {
            if (kind, mark) != ("AND", 1) {
                let name = format!("{kind}, mark {mark}");
                files.push(refused(name, at_3(good.with_mark(mark)), 5, 3));
            }
        }
    }
    files
}

fn unused_fields() -> Vec<Shaped> {
    vec![
        refused("ZERO, a 1", at_3(node(0, 1, 0)), 5, 3),
        refused("ZERO, a 256", at_3(node(0, 256, 0)), 5, 3),
        refused("ZERO, b 1", at_3(node(0, 0, 1)), 5, 3),
        refused("ZERO, b 256", at_3(node(0, 0, 256)), 5, 3),
        refused("ONE, a 1", at_3(node(1, 1, 0)), 5, 3),
        refused("ONE, a 256", at_3(node(1, 256, 0)), 5, 3),
        refused("ONE, b 1", at_3(node(1, 0, 1)), 5, 3),
        refused("ONE, b 256", at_3(node(1, 0, 256)), 5, 3),
        refused("INPUT, b 1", at_3(node(2, 0, 1)), 5, 3),
        refused("INPUT, b 256", at_3(node(2, 0, 256)), 5, 3),
        refused("NOT, b 1", at_3(node(3, 0, 1)), 5, 3),
        refused("NOT, b 256", at_3(node(3, 0, 256)), 5, 3),
    ]
}

fn operands_of_not() -> Vec<Shaped> {
    vec![
        accepted("NOT of the node before", at_3(not(2)), [2, 1, 0, 5]),
        refused("NOT of itself", at_3(not(3)), 5, 3),
        refused("NOT of the node after", at_3(not(4)), 5, 3),
        refused("NOT of no node", at_3(not(5)), 5, 3),
        refused("NOT of 65535", at_3(not(65535)), 5, 3),
        refused("NOT of 256", at_3(not(256)), 5, 3),
    ]
}

fn operands_of_xor_and_and() -> Vec<Shaped> {
    type Kind = fn(u16, u16) -> Node;
    let mut files = Vec::new();
    for (kind, of) in [("XOR", xor as Kind), ("AND", and)] {
        let good = |name, node| accepted(format!("{kind}{name}"), at_3(node), [2, 1, 0, 5]);
        let bad = |name, node| refused(format!("{kind}{name}"), at_3(node), 5, 3);
        files.extend([
            good(", a the node before", of(2, 0)),
            bad(", a itself", of(3, 0)),
            bad(", a the node after", of(4, 0)),
            bad(", a 65535", of(65535, 0)),
            bad(", a 256", of(256, 0)),
            good(", b the node before", of(0, 2)),
            bad(", b itself", of(0, 3)),
            bad(", b the node after", of(0, 4)),
            bad(", b 65535", of(0, 65535)),
            bad(", b 256", of(0, 256)),
            good(" of a node with itself", of(2, 2)),
            bad(", both itself", of(3, 3)),
        ]);
    }
    files
}

fn first_and_last_nodes() -> Vec<Shaped> {
    vec![
        accepted("INPUT as node 0", at_0(input(1)), [2, 1, 0, 1]),
        refused("NOT as node 0", at_0(not(0)), 5, 0),
        refused("XOR as node 0", at_0(xor(0, 0)), 5, 0),
        refused("AND as node 0", at_0(and(0, 0)), 5, 0),
        refused("kind 6 as node 0", at_0(BAD), 5, 0),
        accepted("node 4095, XOR of 4094", at_4095(xor(4094, 4094)), [64, 1, 0, 4096]),
        refused("node 4095, NOT of itself", at_4095(not(4095)), 5, 4095),
        refused("node 4095, XOR, a itself", at_4095(xor(4095, 0)), 5, 4095),
        refused("node 4095, AND, b itself", at_4095(and(0, 4095)), 5, 4095),
        refused("node 4095, AND, b 4096", at_4095(and(0, 4096)), 5, 4095),
        refused("node 4095, kind 6", at_4095(BAD), 5, 4095),
    ]
}

fn input_numbers() -> Vec<Shaped> {
    let program = |n: u16, nodes: &[Node]| Program::new(n, nodes, &[0]).bytes();
    vec![
        accepted("INPUT n - 1", at_3(input(1)), [2, 1, 0, 5]),
        refused("INPUT n", at_3(input(2)), 5, 3),
        refused("INPUT n + 1", at_3(input(3)), 5, 3),
        refused("INPUT 256", at_3(input(256)), 5, 3),
        refused("INPUT 65535", at_3(input(65535)), 5, 3),
        refused("INPUT 0, n 0", program(0, &[ONE, input(0)]), 5, 1),
        accepted("INPUT 0, n 1", program(1, &[input(0)]), [1, 1, 0, 1]),
        refused("INPUT 1, n 1", program(1, &[input(1)]), 5, 0),
        accepted("INPUT 63, n 64", at_4095(input(63)), [64, 1, 0, 4096]),
        refused("INPUT 64, n 64", at_4095(input(64)), 5, 4095),
        accepted(
            "an INPUT may be at an index up to its number",
            program(64, &[input(63), input(1), input(2)]),
            [64, 1, 0, 3],
        ),
        accepted("an INPUT twice", program(1, &[input(0), input(0)]), [1, 1, 0, 2]),
    ]
}

fn lowest_bad_nodes() -> Vec<Shaped> {
    let program = |n: u16, nodes: &[Node]| Program::new(n, nodes, &[0]).bytes();
    vec![
        refused("nodes 0 and 1 bad", program(2, &[BAD, BAD, ONE]), 5, 0),
        refused("nodes 1 and 2 bad", program(2, &[ONE, BAD, BAD]), 5, 1),
        refused("nodes 0 and 2 bad", program(2, &[BAD, ONE, BAD]), 5, 0),
        refused("all nodes bad", program(2, &[BAD; 4]), 5, 0),
        refused("an operand at 1, then a kind at 2", program(2, &[ONE, not(1), BAD]), 5, 1),
        refused(
            "an input at 1, then a mark at 2, then an unused field at 3",
            program(2, &[ONE, input(2), ONE.with_mark(1), node(0, 1, 0)]),
            5,
            1,
        ),
        refused(
            "a good mark at 1, then a bad one at 2, then a kind at 3",
            program(2, &[ONE, marked(0, 0), xor(0, 0).with_mark(1), BAD]),
            5,
            2,
        ),
        refused("a bad node that no output needs", program(2, &[ONE, ONE, not(2)]), 5, 2),
        refused("a node that uses a bad one", program(2, &[ONE, not(1), not(1)]), 5, 1),
    ]
}

fn outputs() -> Vec<Shaped> {
    // three nodes
    let program = |outputs: &[u16]| Program::new(1, &[input(0), ONE, ZERO], outputs).bytes();
    let full = |output: u16| Program::new(0, &[ONE; 4096], &[output]).bytes();
    let last_of_64 = |output: u16| {
        let mut outputs = [0; 64];
        outputs[63] = output;
        Program::new(0, &[ONE], &outputs).bytes()
    };
    vec![
        accepted("output the first node", program(&[0]), [1, 1, 0, 3]),
        accepted("output the last node", program(&[2]), [1, 1, 0, 3]),
        refused("output the node count", program(&[3]), 6, 0),
        refused("output the node count and one", program(&[4]), 6, 0),
        refused("output 256", program(&[256]), 6, 0),
        refused("output 32768", program(&[32768]), 6, 0),
        refused("output 65535", program(&[65535]), 6, 0),
        accepted("the same output twice", program(&[2, 2]), [1, 2, 0, 3]),
        accepted("outputs out of order", program(&[2, 0, 1]), [1, 3, 0, 3]),
        refused("output 1 bad", program(&[0, 3, 0]), 6, 1),
        refused("output 2 bad", program(&[0, 0, 3]), 6, 2),
        refused("outputs 0 and 1 bad", program(&[3, 3, 0]), 6, 0),
        refused("outputs 1 and 2 bad", program(&[0, 65535, 3]), 6, 1),
        refused("outputs 0 and 2 bad", program(&[3, 0, 65535]), 6, 0),
        refused("all outputs bad", program(&[3; 64]), 6, 0),
        accepted("output 63, the last node", last_of_64(0), [0, 64, 0, 1]),
        refused("output 63, the node count", last_of_64(1), 6, 63),
        accepted("output 4095 of 4096 nodes", full(4095), [0, 1, 0, 4096]),
        refused("output 4096 of 4096 nodes", full(4096), 6, 0),
        refused("output 4097 of 4096 nodes", full(4097), 6, 0),
    ]
}

/// n, the outputs' length, a node and an output are wrong.
fn bad_from_3() -> Layout {
    Program::new(65, &[ONE, not(1)], &[0, 2]).with_output_count(65).layout()
}

/// Files with two causes or more: the lowest number is given.
fn causes_together() -> Vec<Shaped> {
    let program = |n, outputs: &[u16]| Program::new(n, &[ONE, not(1)], outputs).bytes();
    let too_many_nodes = Program::new(65, &[BAD; 4097], &[4097]);
    let mut short_head = Program::new(2, &[ONE, not(1)], &[0, 2]).layout();
    short_head.bodies[0] = vec![65, 0, 2];
    let short_head = short_head.fitted();
    let bad_end = short_head.clone().changed(|l| l.bodies[2].push(0));
    let bad_table = laid(|l| {
        l.entry_count = 2;
        l.entries[0].tag = 17;
    });
    let no_m = Program::new(65, &[ONE], &[0]).with_output_count(0);
    let last_and_first = Program::new(0, &[ONE, ONE, not(2)], &[65535]);
    vec![
        refused("4 to 6 together", program(65, &[0, 2]), 4, 0),
        refused("5 and 6 together", program(2, &[0, 2]), 5, 1),
        refused("5 alone", program(2, &[0]), 5, 1),
        refused("1 and 2: count 2, first tag wrong", bad_table, 1, 0),
        refused("2 and 3: a head of 3 bytes, a byte at the end", bad_end.bytes(), 2, 0),
        refused("3 and 4: a head of 3 bytes, n 65", short_head.bytes(), 3, 0),
        refused("3 to 6: 4097 bad nodes", too_many_nodes.bytes(), 3, 0),
        refused("3 and 4: m 0 with an output, n 65", no_m.bytes(), 3, 0),
        refused("4 and 5: m 0, a bad node", program(2, &[]), 4, 0),
        refused("4 and 6: m 65, each output bad", Program::new(0, &[ONE], &[1; 65]).bytes(), 4, 0),
        refused("4 and 5: n 65, INPUT 65", Program::new(65, &[input(65)], &[0]).bytes(), 4, 0),
        refused("4, not 5: n 65, INPUT 64", Program::new(65, &[input(64)], &[0]).bytes(), 4, 0),
        refused("5 and 6: the last node and the first output", last_and_first.bytes(), 5, 2),
    ]
}
