//! The services read_program, evaluate and evaluate_words.

use oracle::ProgramHead;

use super::{bodies, u16_at, Refused};

pub const NODE_LENGTH: usize = 6;
pub const MOST_NODES: usize = 4096;

#[derive(Clone, Copy)]
pub enum Node {
    Zero,
    One,
    Input(u16),
    Not(u16),
    Xor(u16, u16),
    And { a: u16, b: u16, marked: bool },
}

/// A program whose file was accepted. The nodes stay in the file.
pub struct Program<'a> {
    pub inputs: u16,
    outputs: &'a [[u8; 2]],
    nodes: &'a [Record],
}

/// The bytes of a node.
pub type Record = [u8; NODE_LENGTH];

impl<'a> Program<'a> {
    pub fn node(&self, index: u16) -> Node {
        let record = &self.nodes[usize::from(index)];
        let (a, b) = (u16_at(record, 2), u16_at(record, 4));
        match record[0] {
            0 => Node::Zero,
            1 => Node::One,
            2 => Node::Input(a),
            3 => Node::Not(a),
            4 => Node::Xor(a, b),
            _ => Node::And { a, b, marked: record[1] == 1 },
        }
    }

    pub fn node_count(&self) -> usize {
        self.nodes.len()
    }

    pub fn outputs(&self) -> impl Iterator<Item = u16> + 'a {
        self.outputs.iter().map(|record| u16::from_le_bytes(*record))
    }

    pub fn output_count(&self) -> u16 {
        self.outputs.len() as u16
    }
}

/// Reads and checks a program file and gives its numbers.
pub fn read_program(file: &[u8]) -> Result<ProgramHead, Refused> {
    let program = read(file)?;
    Ok(ProgramHead {
        inputs: program.inputs.into(),
        outputs: program.output_count().into(),
        nodes: program.node_count(),
    })
}

/// Evaluates one output of a program file.
pub fn evaluate(
    file: &[u8],
    values: &mut [u8],
    inputs: &[u8],
    output: u64,
) -> Result<bool, Refused> {
    let program = read(file)?;
    let values = values.get_mut(..program.node_count()).ok_or((7, 0))?;
    if inputs.len() != usize::from(program.inputs) || inputs.iter().any(|&byte| byte > 1) {
        return Err((14, 0));
    }
    let node = program.outputs().nth(output as usize).ok_or((15, 0))?;
    for i in 0..values.len() {
        let value = |operand: u16| values[usize::from(operand)];
        values[i] = match program.node(i as u16) {
            Node::Zero => 0,
            Node::One => 1,
            Node::Input(j) => inputs[usize::from(j)],
            Node::Not(a) => 1 ^ value(a),
            Node::Xor(a, b) => value(a) ^ value(b),
            Node::And { a, b, .. } => value(a) & value(b),
        };
    }
    Ok(values[usize::from(node)] == 1)
}

/// Evaluates one output of a program file on 64 questions, a bit of each word for each.
pub fn evaluate_words(
    file: &[u8],
    values: &mut [u64],
    inputs: &[u64],
    output: u64,
) -> Result<u64, Refused> {
    let program = read(file)?;
    let values = values.get_mut(..program.node_count()).ok_or((7, 0))?;
    if inputs.len() != usize::from(program.inputs) {
        return Err((14, 0));
    }
    let node = program.outputs().nth(output as usize).ok_or((15, 0))?;
    for i in 0..values.len() {
        let value = |operand: u16| values[usize::from(operand)];
        values[i] = match program.node(i as u16) {
            Node::Zero => 0,
            Node::One => u64::MAX,
            Node::Input(j) => inputs[usize::from(j)],
            Node::Not(a) => !value(a),
            Node::Xor(a, b) => value(a) ^ value(b),
            Node::And { a, b, .. } => value(a) & value(b),
        };
    }
    Ok(values[usize::from(node)])
}

pub fn read(file: &[u8]) -> Result<Program<'_>, Refused> {
    let [head, nodes, outputs] = bodies(file, 1)?;
    if head.len() != 4 {
        return Err((3, 0));
    }
    let (n, m) = (u16_at(head, 0), u16_at(head, 2));
    let (nodes, rest) = nodes.as_chunks();
    if !rest.is_empty()
        || !(1..=MOST_NODES).contains(&nodes.len())
        || outputs.len() != 2 * usize::from(m)
    {
        return Err((3, 0));
    }
    if n > 64 || !(1..=64).contains(&m) {
        return Err((4, 0));
    }
    let mut records = nodes.iter().enumerate();
    if let Some((i, _)) = records.find(|(i, record)| !is_good(record, *i as u16, n)) {
        return Err((5, i as u64));
    }
    let program = Program { inputs: n, outputs: outputs.as_chunks().0, nodes };
    if let Some(k) = program.outputs().position(|index| usize::from(index) >= nodes.len()) {
        return Err((6, k as u64));
    }
    Ok(program)
}

/// AND with its mark, as the two bytes are read.
const MARKED_AND: u16 = 0x105;

/// The kind, whose second byte is the mark, and the fields.
fn is_good(record: &Record, index: u16, n: u16) -> bool {
    let [kind, a, b] = [0, 2, 4].map(|at| u16_at(record, at));
    match kind {
        0 | 1 => a == 0 && b == 0,
        2 => a < n && b == 0,
        3 => a < index && b == 0,
        4 | 5 | MARKED_AND => a < index && b < index,
        _ => false,
    }
}
