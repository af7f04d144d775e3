//! Boolean functions as readable tables of nodes, and the program files of these tables.
//!
//! A table is text. The first line says how many inputs there are. Then each node has a line, with
//! its number, its kind and its operands, and each output has one, with the number of its node.
//!
//! ```text
//! # AND of two inputs
//! inputs 2
//! 0 = INPUT 0
//! 1 = INPUT 1
//! 2 = AND 0 1     # both
//! output 2
//! ```
//!
//! Words are parted by blanks. `#` starts a comment, up to the end of its line. Nodes are numbered
//! from 0, without a gap, and an operand or an output is the number of a node that stands above.
//!
//! | kind | behind it |
//! |---|---|
//! | `ZERO`, `ONE` | nothing |
//! | `INPUT` | the number of the input, from 0 |
//! | `NOT` | an operand |
//! | `XOR`, `AND` | two operands |
//!
//! `marked` behind the operands of an `AND` marks it: what the circuit builds for them is undone there,
//! and its work lines are free again. A mark saves lines and costs gates, and changes no value.
//!
//! At most 64 inputs, 64 outputs and 4,096 nodes. What a circuit needs of gates and work lines is
//! not looked at here; compiling says so.

pub mod functions;
mod text;

pub use text::{read, Fault};

/// The kinds of nodes at their numbers, and how many operands each takes, an input's number counted.
const KINDS: [(&str, usize); 6] =
    [("ZERO", 0), ("ONE", 0), ("INPUT", 1), ("NOT", 1), ("XOR", 2), ("AND", 2)];

/// The places of INPUT and AND among the kinds.
const INPUT: usize = 2;
const AND: usize = 5;

/// The length of a program file's table of contents.
const CONTENTS_LENGTH: u32 = 32;

/// A table that was read.
#[derive(Debug, Clone, PartialEq, Eq)]
pub struct Table {
    inputs: u16,
    nodes: Vec<Node>,
    outputs: Vec<u16>,
}

/// A node, with 0 for an operand that it does not have.
#[derive(Debug, Clone, Copy, PartialEq, Eq)]
struct Node {
    kind: u8,
    marked: bool,
    a: u16,
    b: u16,
}

impl Table {
    /// The program file of the table.
    pub fn program_file(&self) -> Vec<u8> {
        let head = numbers(&[self.inputs, self.outputs.len() as u16]);
        let node = |node: &Node| {
            let kind_and_mark = u16::from_le_bytes([node.kind, u8::from(node.marked)]);
            numbers(&[kind_and_mark, node.a, node.b])
        };
        let nodes = self.nodes.iter().flat_map(node).collect();
        with_contents([head, nodes, numbers(&self.outputs)])
    }
}

/// The numbers, two bytes each.
fn numbers(numbers: &[u16]) -> Vec<u8> {
    numbers.iter().flat_map(|number| number.to_le_bytes()).collect()
}

/// The bodies behind their table of contents.
fn with_contents(bodies: [Vec<u8>; 3]) -> Vec<u8> {
    let mut file = numbers(&[bodies.len() as u16]);
    let mut start = CONTENTS_LENGTH;
    for (tag, body) in (1_u16..).zip(&bodies) {
        let length = body.len() as u32;
        file.extend(tag.to_le_bytes());
        file.extend(start.to_le_bytes());
        file.extend(length.to_le_bytes());
        start += length;
    }
    file.extend(bodies.concat());
    file
}

#[cfg(test)]
mod tests {
    use super::*;

    fn file(text: &str) -> Vec<u8> {
        read(text.as_bytes()).expect("a good table").program_file()
    }

    #[test]
    fn the_whole_case() {
        let and = "inputs 2\n0 = INPUT 0\n1 = INPUT 1\n2 = AND 0 1\noutput 2\n";
        let wanted = [
            0x03, 0x00, 0x01, 0x00, 0x20, 0x00, 0x00, 0x00, 0x04, 0x00, 0x00, 0x00, 0x02, 0x00,
            0x24, 0x00, 0x00, 0x00, 0x12, 0x00, 0x00, 0x00, 0x03, 0x00, 0x36, 0x00, 0x00, 0x00,
            0x02, 0x00, 0x00, 0x00, 0x02, 0x00, 0x01, 0x00, 0x02, 0x00, 0x00, 0x00, 0x00, 0x00,
            0x02, 0x00, 0x01, 0x00, 0x00, 0x00, 0x05, 0x00, 0x00, 0x00, 0x01, 0x00, 0x02, 0x00,
        ];
        assert_eq!(wanted.len(), 56);
        assert_eq!(file(and), wanted);
    }

    #[test]
    fn each_kind_and_two_outputs() {
        let all =
            "inputs 64\n0 = ZERO\n1 = ONE\n2 = INPUT 63\n3 = NOT 2\n4 = XOR 3 1\n5 = AND 4 2\n\
             output 5\noutput 0\n";
        let wanted = [
            3, 0, //
            1, 0, 32, 0, 0, 0, 4, 0, 0, 0, //
            2, 0, 36, 0, 0, 0, 36, 0, 0, 0, //
            3, 0, 72, 0, 0, 0, 4, 0, 0, 0, //
            64, 0, 2, 0, //
            0, 0, 0, 0, 0, 0, //
            1, 0, 0, 0, 0, 0, //
            2, 0, 63, 0, 0, 0, //
            3, 0, 2, 0, 0, 0, //
            4, 0, 3, 0, 1, 0, //
            5, 0, 4, 0, 2, 0, //
            5, 0, 0, 0,
        ];
        assert_eq!(file(all), wanted);
    }

    #[test]
    fn a_marked_and() {
        let text = "inputs 2\n0 = INPUT 0\n1 = INPUT 1\n2 = AND 0 1 marked # both\noutput 2\n";
        let unmarked = file(&text.replace(" marked", ""));
        let mut wanted = unmarked.clone();
        wanted[49] = 1;
        assert_eq!(file(text), wanted);
        assert_ne!(file(text), unmarked);
    }

    /// Lengths, starts and operands over 255 take their second byte.
    #[test]
    fn the_most_nodes() {
        let mut text = String::from("inputs 1\n0 = INPUT 0\n");
        for i in 1..4_096 {
            text += &format!("{i} = NOT {}\n", i - 1);
        }
        text += "output 4095\n";
        let file = file(&text);
        assert_eq!(file.len(), 36 + 6 * 4_096 + 2);
        assert_eq!(file[18..22], [0, 96, 0, 0], "24,576 bytes of nodes");
        assert_eq!(file[24..28], [36, 96, 0, 0], "24,612, where the outputs start");
        assert_eq!(file[36 + 6 * 4_095..], [3, 0, 0xfe, 0x0f, 0, 0, 0xff, 0x0f]);
    }
}
