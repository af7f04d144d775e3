//! The gates of a circuit file and the nodes of a program file, for who writes them in another form.
//! A file is read and checked by the library first, so that its bytes only have to be told apart.

use crate::{read_circuit, read_program, Refusal};

/// Where the first gate of a circuit file stands, and how long each is.
const FIRST_GATE: usize = 28;
const GATE_LENGTH: usize = 8;

/// Where the first node of a program file stands, and how long each is.
const FIRST_NODE: usize = 36;
const NODE_LENGTH: usize = 6;

/// A gate, with the numbers of its lines.
#[derive(Debug, Clone, Copy, PartialEq, Eq)]
pub enum Gate {
    /// Flips its target.
    Not {
        /// The line that changes.
        target: usize,
    },
    /// XORs its control into its target.
    Cnot {
        /// The line that is looked at.
        control: usize,
        /// The line that changes.
        target: usize,
    },
    /// XORs the AND of its controls into its target.
    Toffoli {
        /// The lines that are looked at, the lower one first.
        controls: [usize; 2],
        /// The line that changes.
        target: usize,
    },
}

/// A node, with the indices of its operands, which are lower than its own.
#[derive(Debug, Clone, Copy, PartialEq, Eq)]
pub enum Node {
    /// 0.
    Zero,
    /// 1.
    One,
    /// The bit of the input with this number.
    Input(usize),
    /// 1 XOR its operand.
    Not(usize),
    /// The XOR of its operands.
    Xor([usize; 2]),
    /// The AND of its operands.
    And {
        /// The indices of both.
        operands: [usize; 2],
        /// Whether what its operands took is cleaned up behind it.
        marked: bool,
    },
}

/// The gates of a circuit file, the first one first. Refusals: those of [`read_circuit`].
pub fn gates(file: &[u8]) -> Result<impl Iterator<Item = Gate> + '_, Refusal> {
    let head = read_circuit(file)?;
    Ok(fields(file, FIRST_GATE, GATE_LENGTH).take(head.gates).map(gate))
}

/// The nodes of a program file, and the index of each output's node. Refusals: those of
/// [`read_program`].
pub fn nodes(
    file: &[u8],
) -> Result<(impl Iterator<Item = Node> + '_, impl Iterator<Item = usize> + '_), Refusal> {
    let head = read_program(file)?;
    let first_output = FIRST_NODE + NODE_LENGTH * head.nodes;
    let nodes = fields(file, FIRST_NODE, NODE_LENGTH).take(head.nodes).map(node);
    let outputs = fields(file, first_output, 2).map(|output| number(output, 0));
    Ok((nodes, outputs))
}

/// The bytes from a place on, in pieces of one length.
fn fields(file: &[u8], first: usize, length: usize) -> impl Iterator<Item = &[u8]> {
    file.get(first..).unwrap_or_default().chunks_exact(length)
}

/// The two bytes at a place as a number.
fn number(field: &[u8], at: usize) -> usize {
    usize::from(u16::from_le_bytes([field[at], field[at + 1]]))
}

fn gate(bytes: &[u8]) -> Gate {
    let [control, second, target] = [2, 4, 6].map(|at| number(bytes, at));
    match bytes[0] {
        1 => Gate::Not { target },
        2 => Gate::Cnot { control, target },
        _ => Gate::Toffoli { controls: [control, second], target },
    }
}

fn node(bytes: &[u8]) -> Node {
    let [a, b] = [2, 4].map(|at| number(bytes, at));
    match bytes[0] {
        0 => Node::Zero,
        1 => Node::One,
        2 => Node::Input(a),
        3 => Node::Not(a),
        4 => Node::Xor([a, b]),
        _ => Node::And { operands: [a, b], marked: bytes[1] == 1 },
    }
}

#[cfg(test)]
mod tests {
    use super::*;

    /// n = 1, m = 1, w = 1; gates N 0, C 0 1, T 0 1 2.
    const CIRCUIT: [u8; 52] = [
        2, 0, 17, 0, 22, 0, 0, 0, 6, 0, 0, 0, 18, 0, 28, 0, 0, 0, 24, 0, 0, 0, 1, 0, 1, 0, 1, 0, 1,
        0, 0, 0, 0, 0, 0, 0, 2, 0, 0, 0, 0, 0, 1, 0, 3, 0, 0, 0, 1, 0, 2, 0,
    ];

    /// n = 2, each kind of node, the AND marked or not, outputs 5 and 0.
    fn program(mark: u8) -> Vec<u8> {
        let contents = [
            3, 0, 1, 0, 32, 0, 0, 0, 4, 0, 0, 0, 2, 0, 36, 0, 0, 0, 36, 0, 0, 0, 3, 0, 72, 0, 0, 0,
            4, 0, 0, 0,
        ];
        let nodes = [
            [0, 0, 0, 0, 0, 0],
            [1, 0, 0, 0, 0, 0],
            [2, 0, 1, 0, 0, 0],
            [3, 0, 2, 0, 0, 0],
            [4, 0, 3, 0, 1, 0],
            [5, mark, 4, 0, 2, 0],
        ];
        [&contents[..], &[2, 0, 2, 0], nodes.as_flattened(), &[5, 0, 0, 0]].concat()
    }

    #[test]
    fn each_kind_of_gate() {
        let wanted = [
            Gate::Not { target: 0 },
            Gate::Cnot { control: 0, target: 1 },
            Gate::Toffoli { controls: [0, 1], target: 2 },
        ];
        assert_eq!(gates(&CIRCUIT).expect("a good file").collect::<Vec<_>>(), wanted);
        let refused = gates(&CIRCUIT[..51]).err();
        assert_eq!(refused, Some(Refusal { number: 2, place: 0 }));
    }

    #[test]
    fn each_kind_of_node() {
        for (mark, marked) in [(0, false), (1, true)] {
            let file = program(mark);
            let (nodes, outputs) = nodes(&file).expect("a good file");
            let and = Node::And { operands: [4, 2], marked };
            let wanted =
                [Node::Zero, Node::One, Node::Input(1), Node::Not(2), Node::Xor([3, 1]), and];
            assert_eq!(nodes.collect::<Vec<_>>(), wanted);
            assert_eq!(outputs.collect::<Vec<_>>(), [5, 0]);
        }
        assert_eq!(nodes(&program(2)).err(), Some(Refusal { number: 5, place: 5 }));
    }

    /// Lines and operands over 255 take their second byte.
    #[test]
    fn both_bytes_of_a_number_count() {
        assert_eq!(gate(&[2, 0, 44, 1, 0, 0, 0, 4]), Gate::Cnot { control: 300, target: 1_024 });
        assert_eq!(node(&[4, 0, 0, 1, 1, 2]), Node::Xor([256, 513]));
    }
}
