//! Program files: written from their fields, drawn at random, and damaged.

use crate::damage;
use crate::layout::Layout;
use crate::random::Random;

/// The fields of a node.
#[derive(Debug, Clone, Copy)]
pub struct Node {
    /// The kind, 0 to 5 if good.
    pub kind: u8,
    /// The mark, 0, or 1 of an AND, if good.
    pub mark: u8,
    /// The input's number or the first operand.
    pub a: u16,
    /// The second operand.
    pub b: u16,
}

/// A node from its kind and operands.
pub const fn node(kind: u8, a: u16, b: u16) -> Node {
    Node { kind, mark: 0, a, b }
}

/// The constant 0.
pub const ZERO: Node = node(0, 0, 0);

/// The constant 1.
pub const ONE: Node = node(1, 0, 0);

/// Input j.
pub const fn input(j: u16) -> Node {
    node(2, j, 0)
}

/// NOT a.
pub const fn not(a: u16) -> Node {
    node(3, a, 0)
}

/// a XOR b.
pub const fn xor(a: u16, b: u16) -> Node {
    node(4, a, b)
}

/// a AND b.
pub const fn and(a: u16, b: u16) -> Node {
    node(AND, a, b)
}

/// a AND b, marked.
pub const fn marked(a: u16, b: u16) -> Node {
    and(a, b).with_mark(1)
}

/// The kind that can be marked.
const AND: u8 = 5;

impl Node {
    /// The same with this byte as its mark.
    pub const fn with_mark(mut self, mark: u8) -> Node {
        self.mark = mark;
        self
    }
}

/// The fields of a program file below its table of contents.
#[derive(Debug, Clone)]
pub struct Program {
    /// n as written.
    pub inputs: u16,
    /// m as written.
    pub output_count: u16,
    /// The nodes.
    pub nodes: Vec<Node>,
    /// The node of each output.
    pub outputs: Vec<u16>,
}

impl Program {
    /// A program whose m is the number of its outputs.
    pub fn new(inputs: u16, nodes: &[Node], outputs: &[u16]) -> Program {
        Program {
            inputs,
            output_count: outputs.len() as u16,
            nodes: nodes.to_vec(),
            outputs: outputs.to_vec(),
        }
    }

    /// The same with another m.
    pub fn with_output_count(mut self, output_count: u16) -> Program {
        self.output_count = output_count;
        self
    }

    /// The same with the mark that each AND gets here, the lowest first.
    pub fn with_marks(mut self, mut mark: impl FnMut() -> bool) -> Program {
        for node in self.nodes.iter_mut().filter(|node| node.kind == AND) {
            node.mark = u8::from(mark());
        }
        self
    }

    /// The file laid open.
    pub fn layout(&self) -> Layout {
        let mut head = self.inputs.to_le_bytes().to_vec();
        head.extend(self.output_count.to_le_bytes());

        let mut nodes = Vec::with_capacity(6 * self.nodes.len());
        for node in &self.nodes {
            nodes.extend([node.kind, node.mark]);
            nodes.extend(node.a.to_le_bytes());
            nodes.extend(node.b.to_le_bytes());
        }

        let outputs = self.outputs.iter().flat_map(|index| index.to_le_bytes());
        Layout::new(vec![(1, head), (2, nodes), (3, outputs.collect())])
    }

    /// The file.
    pub fn bytes(&self) -> Vec<u8> {
        self.layout().bytes()
    }
}

/// Adds nodes that XOR a node so many times, at least once, and gives the number of the last.
pub fn times(nodes: &mut Vec<Node>, node: u16, count: usize) -> u16 {
    let mut last = node;
    for bit in (0..count.ilog2()).rev() {
        nodes.push(xor(last, last));
        last = nodes.len() as u16 - 1;
        if count >> bit & 1 == 1 {
            nodes.push(xor(last, node));
            last += 1;
        }
    }
    last
}

/// Every table of so many nodes over two inputs.
pub fn every_table(length: u16) -> Vec<Vec<Node>> {
    let mut tables = vec![vec![]];
    for i in 0..length {
        tables = tables.iter().flat_map(|table| longer_by_one(table, i)).collect();
    }
    tables
}

/// The table with each node that can follow its first i.
fn longer_by_one(table: &[Node], i: u16) -> Vec<Vec<Node>> {
    let mut next = vec![ZERO, ONE, input(0), input(1)];
    next.extend((0..i).map(not));
    let of_two = |a, b| [xor(a, b), and(a, b), marked(a, b)];
    next.extend((0..i).flat_map(|a| (0..i).flat_map(move |b| of_two(a, b))));
    next.into_iter().map(|node| [table, &[node]].concat()).collect()
}

/// A random program that every check accepts: all kinds, nodes used more than once, mostly few of them,
/// and every other time with marks.
pub fn valid(random: &mut Random) -> Program {
    let inputs = match random.below(6) {
        0 => 0,
        1 => 64,
        2 => random.within(0..=64),
        _ => random.within(1..=4),
    };
    let output_count = match random.below(8) {
        0 => 64,
        1 => random.within(1..=64),
        2 => 1,
        _ => random.within(1..=4),
    };
    let node_count = match random.below(256) {
        0 => 4096,
        1 => random.within(1..=4096),
        2..=15 => random.within(1..=300),
        16..=31 => 1,
        _ => random.within(1..=24),
    };

    let program = of_size(random, inputs, output_count, node_count);
    sometimes_marked(random, program)
}

/// The program as it is, or every other time with marks at some or all of its ANDs.
pub fn sometimes_marked(random: &mut Random, program: Program) -> Program {
    if random.once_in(2) {
        return program;
    }
    let once_in = random.pick(&[1, 2, 4, 16, 64]);
    program.with_marks(|| random.once_in(once_in))
}

/// A random program of this size, with nodes of all kinds and no marks.
pub fn of_size(random: &mut Random, inputs: usize, outputs: usize, nodes: usize) -> Program {
    let table: Vec<Node> = (0..nodes).map(|index| valid_node(random, index, inputs)).collect();
    let outputs: Vec<u16> = (0..outputs).map(|_| operand(random, nodes)).collect();
    Program::new(inputs as u16, &table, &outputs)
}

fn valid_node(random: &mut Random, index: usize, inputs: usize) -> Node {
    loop {
        return match random.below(12) {
            0 => ZERO,
            1 => ONE,
            2..=4 if inputs > 0 => input(random.below(inputs) as u16),
            5..=6 if index > 0 => not(operand(random, index)),
            7..=9 if index > 0 => xor(operand(random, index), operand(random, index)),
            10..=11 if index > 0 => and(operand(random, index), operand(random, index)),
            _ => continue,
        };
    }
}

/// An index below a limit, every other time one of the last few, so that programs get deep.
fn operand(random: &mut Random, limit: usize) -> u16 {
    let nearest = if random.once_in(2) { limit.saturating_sub(3) } else { 0 };
    random.within(nearest..=limit - 1) as u16
}

/// A random program file with something changed, mostly so that it is refused.
pub fn damaged(random: &mut Random) -> Vec<u8> {
    let mut program = valid(random);
    // Two damages at a time show that the lowest cause is the one reported.
    if random.once_in(4) {
        damage_fields(random, &mut program);
    }
    match random.below(10) {
        0 => damage_fields(random, &mut program),
        1 => damage_node(random, &mut program),
        _ => return damage::in_some_way(random, program.layout(), 6),
    }
    program.bytes()
}

/// Changes one field of the head, of a node or of an output, mostly to a value next to a limit.
fn damage_fields(random: &mut Random, program: &mut Program) {
    match random.below(4) {
        0 => program.inputs = random.pick(&[0, 1, 63, 64, 65, 256, 65535]),
        1 => {
            program.output_count = random.pick(&[0, 1, 2, 63, 64, 65, 256, 320, 32769, 65535]);
            // With as many outputs as it says, m itself is looked at.
            if program.output_count <= 320 && !random.once_in(4) {
                let count = usize::from(program.output_count);
                program.outputs.resize(count, 0);
            }
        }
        2 if !program.outputs.is_empty() => {
            let count = program.nodes.len() as u16;
            let k = random.below(program.outputs.len());
            program.outputs[k] = random.pick(&[0, count - 1, count, count + 1, 256, 65535]);
        }
        _ => damage_node(random, program),
    }
}

fn damage_node(random: &mut Random, program: &mut Program) {
    let i = random.below(program.nodes.len());
    let index = i as u16;
    let operands = [
        0,
        1,
        index.saturating_sub(1),
        index,
        index + 1,
        program.inputs.saturating_sub(1),
        program.inputs,
        program.nodes.len() as u16,
        256,
        65535,
    ];
    let node = &mut program.nodes[i];
    match random.below(4) {
        0 => node.kind = random.pick(&[0, 1, 2, 3, 4, 5, 6, 17, 255]),
        1 => node.mark = random.pick(&[1, 1, 2, 128, 255]),
        2 => node.a = random.pick(&operands),
        _ => node.b = random.pick(&operands),
    }
}
