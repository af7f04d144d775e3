//! Reading a program file: causes 1 to 6.

use crate::{contents, u16_at, Refusal};

const NODE_LENGTH: usize = 6;
const OUTPUT_LENGTH: usize = 2;

/// A node, with its operands' indices.
#[derive(Debug, Clone, Copy, PartialEq, Eq)]
pub enum Node {
    /// The constant 0.
    Zero,
    /// The constant 1.
    One,
    /// The input of this number.
    Input(usize),
    /// The negation of a node.
    Not(usize),
    /// The exclusive or of two nodes.
    Xor(usize, usize),
    /// The conjunction of two nodes.
    And(usize, usize),
    /// The same with a mark: what is built for its operands is undone behind its gate.
    MarkedAnd(usize, usize),
}

/// A program whose file was accepted.
#[derive(Debug, Clone, PartialEq, Eq)]
pub struct Program {
    /// The number of inputs, n.
    pub inputs: usize,
    /// The nodes, each after its operands.
    pub nodes: Vec<Node>,
    /// The node of each of the m outputs.
    pub outputs: Vec<usize>,
}

/// Reads a program file.
pub fn read(file: &[u8]) -> Result<Program, Refusal> {
    // 1 and 2
    let [head, nodes, outputs] = contents::bodies(file, [1, 2, 3])?;

    // 3 and 4
    let n = inputs(head, nodes, outputs)?;

    // 5: a node, the lowest first
    let nodes = nodes
        .chunks_exact(NODE_LENGTH)
        .enumerate()
        .map(|(i, record)| node(record, i, n).ok_or(Refusal::at(5, i)))
        .collect::<Result<Vec<_>, _>>()?;

    // 6: an output that names no node, the lowest first
    let outputs = outputs
        .chunks_exact(OUTPUT_LENGTH)
        .map(|record| usize::from(u16_at(record, 0)))
        .enumerate()
        .map(|(k, index)| (index < nodes.len()).then_some(index).ok_or(Refusal::at(6, k)))
        .collect::<Result<Vec<_>, _>>()?;

    Ok(Program { inputs: n, nodes, outputs })
}

/// The number of inputs, where every body has a length of its layout and n and m are in range.
fn inputs(head: &[u8], nodes: &[u8], outputs: &[u8]) -> Result<usize, Refusal> {
    // 3: the length of a body
    if head.len() != 4 {
        return Err(Refusal::of(3));
    }
    let n = usize::from(u16_at(head, 0));
    let m = usize::from(u16_at(head, 2));
    if !nodes.len().is_multiple_of(NODE_LENGTH) {
        return Err(Refusal::of(3));
    }
    if !(1..=4096).contains(&(nodes.len() / NODE_LENGTH)) {
        return Err(Refusal::of(3));
    }
    if outputs.len() != OUTPUT_LENGTH * m {
        return Err(Refusal::of(3));
    }

    // 4: n or m out of range
    if n > 64 {
        return Err(Refusal::of(4));
    }
    if !(1..=64).contains(&m) {
        return Err(Refusal::of(4));
    }
    Ok(n)
}

/// The node at an index of a program with n inputs, unless its record is bad.
fn node(record: &[u8], index: usize, n: usize) -> Option<Node> {
    let kind = record[0];
    let mark = record[1];
    let a = usize::from(u16_at(record, 2));
    let b = usize::from(u16_at(record, 4));
    match (kind, mark, a, b) {
        (0, 0, 0, 0) => Some(Node::Zero),
        (1, 0, 0, 0) => Some(Node::One),
        (2, 0, j, 0) if j < n => Some(Node::Input(j)),
        (3, 0, a, 0) if a < index => Some(Node::Not(a)),
        (4, 0, a, b) if a < index && b < index => Some(Node::Xor(a, b)),
        (5, 0, a, b) if a < index && b < index => Some(Node::And(a, b)),
        (5, 1, a, b) if a < index && b < index => Some(Node::MarkedAnd(a, b)),
        _ => None,
    }
}

#[cfg(test)]
pub(crate) mod tests {
    use super::*;

    /// The whole case of 01.
    pub(crate) const AND: [u8; 56] = [
        0x03, 0x00, 0x01, 0x00, 0x20, 0x00, 0x00, 0x00, 0x04, 0x00, 0x00, 0x00, 0x02, 0x00, 0x24,
        0x00, 0x00, 0x00, 0x12, 0x00, 0x00, 0x00, 0x03, 0x00, 0x36, 0x00, 0x00, 0x00, 0x02, 0x00,
        0x00, 0x00, 0x02, 0x00, 0x01, 0x00, 0x02, 0x00, 0x00, 0x00, 0x00, 0x00, 0x02, 0x00, 0x01,
        0x00, 0x00, 0x00, 0x05, 0x00, 0x00, 0x00, 0x01, 0x00, 0x02, 0x00,
    ];

    /// Every table of so many nodes over two inputs.
    pub(crate) fn every_table(length: usize) -> Vec<Vec<Node>> {
        let mut tables = vec![vec![]];
        for i in 0..length {
            let next = each_next(i);
            let longer = |table: &Vec<Node>| {
                next.iter().map(|node| [&table[..], &[*node]].concat()).collect::<Vec<_>>()
            };
            tables = tables.iter().flat_map(longer).collect();
        }
        tables
    }

    /// Each way to go on with a table of i nodes by one.
    fn each_next(i: usize) -> Vec<Node> {
        let mut next = vec![Node::Zero, Node::One, Node::Input(0), Node::Input(1)];
        for a in 0..i {
            next.push(Node::Not(a));
            let of_two = |b| [Node::Xor(a, b), Node::And(a, b), Node::MarkedAnd(a, b)];
            next.extend((0..i).flat_map(of_two));
        }
        next
    }

    fn with(changes: &[(usize, u8)]) -> Result<Program, Refusal> {
        let mut file = AND;
        for &(at, byte) in changes {
            file[at] = byte;
        }
        read(&file)
    }

    fn refused(number: u64, place: u64) -> Result<Program, Refusal> {
        Err(Refusal { number, place })
    }

    #[test]
    fn the_whole_case_is_accepted() {
        let program = Program {
            inputs: 2,
            nodes: vec![Node::Input(0), Node::Input(1), Node::And(0, 1)],
            outputs: vec![2],
        };
        assert_eq!(read(&AND), Ok(program));
    }

    #[test]
    fn each_kind_is_read() {
        assert_eq!(node(&[0, 0, 0, 0, 0, 0], 2, 2), Some(Node::Zero));
        assert_eq!(node(&[1, 0, 0, 0, 0, 0], 2, 2), Some(Node::One));
        assert_eq!(node(&[2, 0, 1, 0, 0, 0], 2, 2), Some(Node::Input(1)));
        assert_eq!(node(&[3, 0, 1, 0, 0, 0], 2, 2), Some(Node::Not(1)));
        assert_eq!(node(&[4, 0, 1, 0, 0, 0], 2, 2), Some(Node::Xor(1, 0)));
        assert_eq!(node(&[5, 0, 0, 0, 1, 0], 2, 2), Some(Node::And(0, 1)));
        assert_eq!(node(&[5, 1, 0, 0, 1, 0], 2, 2), Some(Node::MarkedAnd(0, 1)));
        assert_eq!(node(&[6, 0, 0, 0, 0, 0], 2, 2), None);
    }

    /// Each kind with fields that are good: 0 is a mark of all of them, 1 of AND alone, and no other
    /// byte is one.
    #[test]
    fn only_an_and_is_marked() {
        for kind in 0..=5 {
            for mark in 0..=255 {
                let read = node(&[kind, mark, 0, 0, 0, 0], 1, 1);
                let good = mark == 0 || (kind, mark) == (5, 1);
                assert_eq!(read.is_some(), good, "kind {kind}, mark {mark}");
            }
        }
        assert_eq!(with(&[(49, 1)]).map(|program| program.nodes[2]), Ok(Node::MarkedAnd(0, 1)));
        assert_eq!(with(&[(49, 2)]), refused(5, 2));
        assert_eq!(with(&[(49, 2), (37, 1)]), refused(5, 0));
    }

    #[test]
    fn a_table_that_is_not_there_is_cause_1() {
        for length in [0, 1, 2, 31] {
            assert_eq!(read(&AND[..length]), refused(1, 0));
        }
        assert_eq!(with(&[(0, 2)]), refused(1, 0));
        assert_eq!(with(&[(1, 1)]), refused(1, 0));
    }

    #[test]
    fn a_wrong_tag_start_or_end_is_cause_2() {
        assert_eq!(read(&AND[..32]), refused(2, 0));
        assert_eq!(read(&AND[..55]), refused(2, 0));
        assert_eq!(read(&[&AND[..], &[0]].concat()), refused(2, 0));
        for at in [2, 4, 8, 12, 14, 18, 22, 24, 28] {
            assert_eq!(with(&[(at, AND[at] + 1)]), refused(2, 0));
        }
        // The second body ends at 2^32 + 34, the third starts at 34.
        let wrapped = [(18, 0xfe), (19, 0xff), (20, 0xff), (21, 0xff), (24, 34), (28, 22)];
        assert_eq!(with(&wrapped), refused(2, 0));
    }

    #[test]
    fn a_body_of_the_wrong_length_is_cause_3() {
        // One byte, then six, go from the nodes to the outputs; then all of them.
        assert_eq!(with(&[(18, 17), (24, 53), (28, 3)]), refused(3, 0));
        assert_eq!(with(&[(18, 12), (24, 48), (28, 8)]), refused(3, 0));
        assert_eq!(with(&[(18, 0), (24, 36), (28, 20)]), refused(3, 0));
        // One byte goes from the head to the nodes.
        assert_eq!(with(&[(8, 3), (14, 35), (18, 19)]), refused(3, 0));
        // m is 2, then 0, with one output there, and n is out of range too.
        assert_eq!(with(&[(34, 2), (32, 65)]), refused(3, 0));
        assert_eq!(with(&[(34, 0), (32, 65)]), refused(3, 0));
    }

    #[test]
    fn n_or_m_out_of_range_is_cause_4() {
        assert_eq!(with(&[(32, 65)]), refused(4, 0));
        assert_eq!(with(&[(33, 1)]), refused(4, 0));
        // m is 0 and the last body is empty: an end at 54.
        let mut file = AND;
        file[28] = 0;
        file[34] = 0;
        assert_eq!(read(&file[..54]), refused(4, 0));
    }

    #[test]
    fn the_lowest_bad_node_is_cause_5() {
        assert_eq!(with(&[(38, 2)]), refused(5, 0));
        assert_eq!(with(&[(43, 1)]), refused(5, 1));
        assert_eq!(with(&[(46, 1)]), refused(5, 1));
        assert_eq!(with(&[(50, 2)]), refused(5, 2));
        assert_eq!(with(&[(52, 2)]), refused(5, 2));
        assert_eq!(with(&[(48, 6), (42, 255), (54, 3)]), refused(5, 1));
    }

    #[test]
    fn an_output_that_names_no_node_is_cause_6() {
        assert_eq!(with(&[(54, 3)]), refused(6, 0));
        assert_eq!(with(&[(55, 1)]), refused(6, 0));
    }
}
