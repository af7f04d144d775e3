//! Functions as members type them, A6 of 02: causes 4, 5, 11 and 16 to 18.
//!
//! Which byte may come next is told by the two bytes before it and the number of open brackets. The
//! nodes are made in a second pass, with a list of the operators that wait for an operand. A value
//! is found without either, from the innermost brackets outwards.

use crate::contents::put_entry;
use crate::program::Node;
use crate::{put_u16, Refusal};

const MOST_BYTES: usize = 4_096;
const MOST_INPUTS: u64 = 64;
const MOST_OPEN: usize = 64;

const HEAD_LENGTH: usize = 4;
const NODE_LENGTH: usize = 6;
const OUTPUT_LENGTH: usize = 2;
const HEAD_START: usize = 32;
const NODES_START: usize = HEAD_START + HEAD_LENGTH;

/// Reads one output of a program with so many inputs, writes its program file and gives the file's
/// length. Cause 11 makes all of `area` zero; every other refusal leaves it.
pub fn parse(text: &[u8], inputs: u64, area: &mut [u8]) -> Result<usize, Refusal> {
    // 17: the text is too long
    if text.len() > MOST_BYTES {
        return Err(Refusal::of(17));
    }

    // 4: n out of range
    if inputs > MOST_INPUTS {
        return Err(Refusal::of(4));
    }

    // 5, before 16 and 18: it is looked for up to their byte alone
    let bad_byte = bad_byte(text);
    let end = bad_byte.map_or(text.len(), |refusal| refusal.place as usize);
    let making = read(&text[..end], inputs)?;

    // 16 and 18
    if let Some(refusal) = bad_byte {
        return Err(refusal);
    }
    let nodes = making.finish();
    let written = write(inputs, &nodes);

    // 11, here the last: the area is too short
    if area.len() < written.len() {
        area.fill(0);
        return Err(Refusal::at(11, nodes.len()));
    }

    area[..written.len()].copy_from_slice(&written);
    Ok(written.len())
}

/// 16 or 18, whichever has the lower byte. At one byte 16 comes first, so 18 is looked for only
/// before the byte of 16.
fn bad_byte(text: &[u8]) -> Option<Refusal> {
    let outside = outside(text);
    let begun = &text[..outside.unwrap_or(text.len())];
    let too_deep = too_deep(begun).map(|place| Refusal::at(18, place));
    too_deep.or(outside.map(|place| Refusal::at(16, place)))
}

/// The length of the longest prefix that some text of the language begins with, unless all of it is
/// such a text.
fn outside(text: &[u8]) -> Option<usize> {
    let mut open = 0;
    for (place, &byte) in text.iter().enumerate() {
        if !may_follow(&text[..place], open, byte) {
            return Some(place);
        }
        match byte {
            b'(' => open += 1,
            b')' => open -= 1,
            _ => {}
        }
    }
    (!may_end(text, open)).then_some(text.len())
}

/// Whether some text begins with the bytes before, of whose brackets so many are open, and goes on
/// with this one.
fn may_follow(before: &[u8], open: usize, byte: u8) -> bool {
    let begins_factor = matches!(byte, b'!' | b'(' | b'0' | b'1' | b'x');
    let follows_factor = matches!(byte, b'^' | b'&') || (byte == b')' && open > 0);
    match before {
        [] | [.., b'^' | b'&' | b'!' | b'('] => begins_factor,
        [.., b'x'] => byte.is_ascii_digit(),
        // Of two digits the first is not 0.
        [.., b'x', b'1'..=b'9'] => byte.is_ascii_digit() || follows_factor,
        _ => follows_factor,
    }
}

/// Whether the beginning of a text, of whose brackets so many are open, is a text itself.
fn may_end(begun: &[u8], open: usize) -> bool {
    let waits = matches!(begun, [] | [.., b'^' | b'&' | b'!' | b'(' | b'x']);
    open == 0 && !waits
}

/// The first byte of the beginning of a text with which too many brackets are open and `!` pending.
fn too_deep(begun: &[u8]) -> Option<usize> {
    let mut open = Vec::new();
    for (place, &byte) in begun.iter().enumerate() {
        match byte {
            b'(' | b'!' => open.push(byte),
            // The first of two digits counts as an end too: nothing opens before the second.
            b')' | b'0'..=b'9' => end_factor(&mut open, byte),
            _ => {}
        }
        if open.len() > MOST_OPEN {
            return Some(place);
        }
    }
    None
}

/// Takes away what ends with a factor's last byte: its bracket, and each `!` right before it.
fn end_factor(open: &mut Vec<u8>, last: u8) {
    if last == b')' {
        open.pop();
    }
    while open.last() == Some(&b'!') {
        open.pop();
    }
}

/// Makes the nodes that end within the beginning of a text; 5 at an input that is not below n.
fn read(begun: &[u8], inputs: u64) -> Result<Making, Refusal> {
    let mut making = Making::default();
    for word in words(begun) {
        match *word {
            [b'0'] => making.leaf(Node::Zero),
            [b'1'] => making.leaf(Node::One),
            // A letter without its number: no word is behind it.
            [] | [b'x'] => {}
            [b'x', ref digits @ ..] => {
                let number = number(digits);
                if number as u64 >= inputs {
                    return Err(Refusal::at(5, making.nodes.len()));
                }
                making.leaf(Node::Input(number));
            }
            [sign, ..] => making.sign(sign),
        }
    }
    Ok(making)
}

/// Cuts the beginning of a text into signs, constants and inputs: a digit belongs to the letter or
/// the digit before it.
fn words(begun: &[u8]) -> impl Iterator<Item = &[u8]> {
    begun.chunk_by(|before, byte| {
        (*before == b'x' || before.is_ascii_digit()) && byte.is_ascii_digit()
    })
}

fn number(digits: &[u8]) -> usize {
    digits.iter().fold(0, |number, digit| 10 * number + usize::from(digit - b'0'))
}

/// The nodes so far, those among them that are no operand yet, and the operators and open brackets
/// whose text has not ended.
#[derive(Default)]
struct Making {
    nodes: Vec<Node>,
    operands: Vec<usize>,
    waiting: Vec<u8>,
}

impl Making {
    /// A constant or an input: with it the text of every `!` right before it ends.
    fn leaf(&mut self, node: Node) {
        self.push(node);
        self.make_last(b"!");
    }

    /// An operator or a bracket. What waits before a `^` or a `&` and binds as strongly or more
    /// ends there, so both group to the left.
    fn sign(&mut self, sign: u8) {
        match sign {
            b')' => {
                self.make_last(b"^&");
                self.waiting.pop();
                self.make_last(b"!");
                return;
            }
            b'^' => self.make_last(b"^&"),
            b'&' => self.make_last(b"&"),
            _ => {}
        }
        self.waiting.push(sign);
    }

    /// The nodes of a text that is over.
    fn finish(mut self) -> Vec<Node> {
        self.make_last(b"^&");
        self.nodes
    }

    /// Makes the nodes of the operators that wait, the last first, as long as they are among these.
    fn make_last(&mut self, operators: &[u8]) {
        while let Some(operator) = self.waiting.pop_if(|operator| operators.contains(operator)) {
            let last = self.operand();
            let node = match operator {
                b'!' => Node::Not(last),
                b'&' => Node::And(self.operand(), last),
                _ => Node::Xor(self.operand(), last),
            };
            self.push(node);
        }
    }

    fn push(&mut self, node: Node) {
        self.operands.push(self.nodes.len());
        self.nodes.push(node);
    }

    fn operand(&mut self) -> usize {
        self.operands.pop().expect("an operator behind which a factor ended has its operands")
    }
}

/// Writes the program file of one output, the last node.
fn write(inputs: u64, nodes: &[Node]) -> Vec<u8> {
    let nodes_length = NODE_LENGTH * nodes.len();
    let mut file = Vec::new();
    put_u16(&mut file, 3);
    put_entry(&mut file, 1, HEAD_START, HEAD_LENGTH);
    put_entry(&mut file, 2, NODES_START, nodes_length);
    put_entry(&mut file, 3, NODES_START + nodes_length, OUTPUT_LENGTH);
    put_u16(&mut file, inputs as usize);
    put_u16(&mut file, 1);
    for node in nodes {
        let (kind, mark, a, b) = match *node {
            Node::Zero => (0, 0, 0, 0),
            Node::One => (1, 0, 0, 0),
            Node::Input(j) => (2, 0, j, 0),
            Node::Not(a) => (3, 0, a, 0),
            Node::Xor(a, b) => (4, 0, a, b),
            Node::And(a, b) => (5, 0, a, b),
            Node::MarkedAnd(a, b) => (5, 1, a, b),
        };
        file.extend([kind, mark]);
        put_u16(&mut file, a);
        put_u16(&mut file, b);
    }
    put_u16(&mut file, nodes.len() - 1);
    file
}

/// The value of a text of the language on these input bits, by the grammar and through no node.
/// None where the text is outside the language or names an input that has no bit. The limits of
/// length, depth and n do not count here.
pub fn value(text: &[u8], inputs: &[u8]) -> Option<bool> {
    let mut symbols = Vec::new();
    for &byte in text {
        if byte != b')' {
            symbols.push(Symbol::Byte(byte));
            continue;
        }
        // Between this bracket and the last one that opened there is no other.
        let open = symbols.iter().rposition(|symbol| *symbol == Symbol::Byte(b'('))?;
        let value = sum(&symbols[open + 1..], inputs)?;
        symbols.truncate(open);
        symbols.push(Symbol::Bracketed(value));
    }
    sum(&symbols, inputs)
}

/// A byte of a text, or the value of a sum in brackets that stood there.
#[derive(Clone, Copy, PartialEq, Eq)]
enum Symbol {
    Byte(u8),
    Bracketed(bool),
}

fn sum(symbols: &[Symbol], inputs: &[u8]) -> Option<bool> {
    let mut products = symbols.split(|symbol| *symbol == Symbol::Byte(b'^'));
    products.try_fold(false, |sum, part| Some(sum ^ product(part, inputs)?))
}

fn product(symbols: &[Symbol], inputs: &[u8]) -> Option<bool> {
    let mut factors = symbols.split(|symbol| *symbol == Symbol::Byte(b'&'));
    factors.try_fold(true, |product, part| Some(product & factor(part, inputs)?))
}

fn factor(symbols: &[Symbol], inputs: &[u8]) -> Option<bool> {
    let signs = symbols.iter().take_while(|symbol| **symbol == Symbol::Byte(b'!')).count();
    let negated = signs % 2 == 1;
    Some(negated ^ unsigned(&symbols[signs..], inputs)?)
}

/// The value of a factor that does not start with `!`.
fn unsigned(symbols: &[Symbol], inputs: &[u8]) -> Option<bool> {
    use Symbol::{Bracketed, Byte};
    let bit = |number: u8| inputs.get(usize::from(number)).map(|bit| *bit == 1);
    match *symbols {
        [Bracketed(value)] => Some(value),
        [Byte(b'0')] => Some(false),
        [Byte(b'1')] => Some(true),
        [Byte(b'x'), Byte(digit @ b'0'..=b'9')] => bit(digit - b'0'),
        [Byte(b'x'), Byte(first @ b'1'..=b'9'), Byte(second @ b'0'..=b'9')] => {
            bit(10 * (first - b'0') + (second - b'0'))
        }
        _ => None,
    }
}

#[cfg(test)]
mod tests {
    use std::collections::{HashMap, HashSet};

    use super::*;
    use crate::evaluate;
    use crate::program::tests::AND;
    use crate::program::{self, Program};

    use Node::{And, Input, Not, One, Xor, Zero};

    const LONGEST_FILE: usize = 32 + 4 + 6 * 4096 + 2;

    /// The nodes of the file, whose other parts are looked at here.
    fn nodes(text: impl AsRef<[u8]>, n: u64) -> Vec<Node> {
        let mut area = vec![9; LONGEST_FILE + 3];
        let length = parse(text.as_ref(), n, &mut area).expect("a text within the limits");
        assert!(area[length..].iter().all(|byte| *byte == 9));
        let Program { inputs, nodes, outputs } = program::read(&area[..length]).unwrap();
        assert_eq!(inputs as u64, n);
        assert_eq!(outputs, [nodes.len() - 1]);
        nodes
    }

    /// The cause and the place. The area is changed by 11 alone.
    fn refused_with(text: impl AsRef<[u8]>, n: u64, length: usize) -> (u64, u64) {
        let mut area = vec![9; length];
        let Refusal { number, place } = parse(text.as_ref(), n, &mut area).unwrap_err();
        let after = if number == 11 { 0 } else { 9 };
        assert_eq!(area, vec![after; length]);
        (number, place)
    }

    fn refused(text: impl AsRef<[u8]>, n: u64) -> (u64, u64) {
        let with_room = refused_with(&text, n, LONGEST_FILE);
        assert_eq!(refused_with(&text, n, 1), with_room);
        with_room
    }

    #[test]
    fn the_whole_case() {
        let mut area = [9; 56];
        assert_eq!(parse(b"x0&x1", 2, &mut area), Ok(56));
        assert_eq!(area, AND);
    }

    #[test]
    fn each_kind_is_written() {
        let file = [
            3, 0, //
            1, 0, 32, 0, 0, 0, 4, 0, 0, 0, //
            2, 0, 36, 0, 0, 0, 42, 0, 0, 0, //
            3, 0, 78, 0, 0, 0, 2, 0, 0, 0, //
            64, 0, 1, 0, //
            1, 0, 0, 0, 0, 0, //
            2, 0, 63, 0, 0, 0, //
            0, 0, 0, 0, 0, 0, //
            4, 0, 1, 0, 2, 0, //
            3, 0, 3, 0, 0, 0, //
            5, 0, 0, 0, 4, 0, //
            3, 0, 5, 0, 0, 0, //
            6, 0,
        ];
        let mut area = [9; 83];
        assert_eq!(parse(b"!(1&!(x63^0))", 64, &mut area), Ok(80));
        assert_eq!(area[..80], file);
        assert_eq!(area[80..], [9; 3]);
    }

    #[test]
    fn room_is_checked_last_and_alone_clears_the_area() {
        assert_eq!(refused_with("x0&x1", 2, 55), (11, 3));
        assert_eq!(refused_with("x0&x1", 2, 1), (11, 3));
        assert_eq!(refused_with("x0&x1", 2, 0), (11, 3));
        assert_eq!(refused_with("(0)", 0, 43), (11, 1));
        assert_eq!(refused_with("x0&x1", 1, 0), (5, 1));
        assert_eq!(refused_with("x0&x1&", 2, 0), (16, 6));
        for longer in [0, 1, 7] {
            let mut area = vec![9; 56 + longer];
            assert_eq!(parse(b"x0&x1", 2, &mut area), Ok(56));
            assert_eq!(area, [&AND[..], &vec![9; longer]].concat());
        }
    }

    #[test]
    fn operands_come_before_operators_and_left_before_right() {
        let longer = [
            Input(0),
            Input(1),
            Input(12),
            And(1, 2),
            Zero,
            Xor(3, 4),
            Not(5),
            One,
            And(6, 7),
            Xor(0, 8),
            Input(2),
            Xor(9, 10),
        ];
        assert_eq!(nodes("x0^!(x1&x12^0)&1^x2", 13), longer);
        assert_eq!(nodes("0^1^0", 0), [Zero, One, Xor(0, 1), Zero, Xor(2, 3)]);
        assert_eq!(nodes("0^(1^0)", 0), [Zero, One, Zero, Xor(1, 2), Xor(0, 3)]);
        assert_eq!(nodes("0&1&0", 0), [Zero, One, And(0, 1), Zero, And(2, 3)]);
        assert_eq!(nodes("0&(1&0)", 0), [Zero, One, Zero, And(1, 2), And(0, 3)]);
        assert_eq!(nodes("0&1^0", 0), [Zero, One, And(0, 1), Zero, Xor(2, 3)]);
        assert_eq!(nodes("0^1&0", 0), [Zero, One, Zero, And(1, 2), Xor(0, 3)]);
        assert_eq!(nodes("!0&1", 0), [Zero, Not(0), One, And(1, 2)]);
        assert_eq!(nodes("!(0&1)", 0), [Zero, One, And(0, 1), Not(2)]);
        assert_eq!(nodes("!!(!0)", 0), [Zero, Not(0), Not(1), Not(2)]);
    }

    #[test]
    fn brackets_are_no_nodes_and_no_node_is_shared() {
        assert_eq!(nodes("((x0))", 1), [Input(0)]);
        assert_eq!(nodes("(x0)^((x0)&(1))", 1), [Input(0), Input(0), One, And(1, 2), Xor(0, 3)]);
        assert_eq!(nodes("1^1", 0), [One, One, Xor(0, 1)]);
    }

    #[test]
    fn a_number_is_as_long_as_it_can_be() {
        assert_eq!(nodes("x0", 64), [Input(0)]);
        assert_eq!(nodes("x9", 64), [Input(9)]);
        assert_eq!(nodes("x10", 64), [Input(10)]);
        assert_eq!(nodes("x12", 64), [Input(12)]);
        assert_eq!(nodes("x63", 64), [Input(63)]);
        for (text, place) in [("x00", 2), ("x01", 2), ("x09^1", 2), ("(x0", 3), ("x123", 3)] {
            assert_eq!(refused(text, 64), (16, place), "{text}");
        }
        assert_eq!(refused("x100", 64), (16, 3));
        assert_eq!(refused("x", 64), (16, 1));
        assert_eq!(refused("x^0", 64), (16, 1));
        assert_eq!(refused("xx0", 64), (16, 1));
    }

    #[test]
    fn an_unfinished_text_is_cause_16_at_its_length() {
        for text in
            ["", "!", "(", "x", "0^", "0&", "(0", "(x1", "((0)", "(0)^", "1&(x12^!", "x1&!x"]
        {
            assert_eq!(refused(text, 64), (16, text.len() as u64), "{text}");
        }
    }

    #[test]
    fn a_byte_outside_the_language_is_cause_16_at_its_place() {
        for (text, place) in [
            ("2", 0),
            ("^0", 0),
            ("&0", 0),
            (")", 0),
            ("()", 1),
            ("!)", 1),
            ("!^0", 1),
            ("00", 1),
            ("10", 1),
            ("0x1", 1),
            ("0!", 1),
            ("0(1)", 1),
            ("0)", 1),
            ("x1)", 2),
            ("x12)", 3),
            ("x1x2", 2),
            ("x1!", 2),
            ("(0))", 3),
            ("(0)1", 3),
            ("(0)(1)", 3),
            ("(0)x1", 3),
            ("0^^0", 2),
            ("0&^0", 2),
            ("(0^)", 3),
            ("0^1 ", 3),
        ] {
            assert_eq!(refused(text, 64), (16, place), "{text}");
        }
    }

    #[test]
    fn blanks_capitals_and_other_bytes_are_outside() {
        for byte in (0..=255).filter(|byte| !b"^&!()01x".contains(byte)) {
            assert_eq!(refused([byte], 64), (16, 0));
            assert_eq!(refused([b'1', byte], 64), (16, 1));
            assert_eq!(refused([b'0', b'^', byte, b'1'], 64), (16, 2));
            if !byte.is_ascii_digit() {
                assert_eq!(refused([b'x', byte], 64), (16, 1));
                assert_eq!(refused([b'x', b'1', byte], 64), (16, 2));
            }
        }
        for text in
            [" 0", "0 ", "0\n", "\t0", "0\0", "X0", "O", "|", "0|1", "[0]", "0+1", "~0", "\u{e9}"]
        {
            let place = text.starts_with('0') as u64;
            assert_eq!(refused(text, 64), (16, place), "{text}");
        }
    }

    #[test]
    fn an_input_not_below_n_is_cause_5_at_its_node() {
        for (text, n, place) in [
            ("x0", 0, 0),
            ("x1", 1, 0),
            ("x10", 10, 0),
            ("x12", 2, 0),
            ("x99", 64, 0),
            ("(x1)", 1, 0),
            ("!x1", 1, 0),
            ("x0^x1", 1, 1),
            ("!x0^x1", 1, 2),
            ("!!(x0)&x1", 1, 3),
            ("x0&x0^x1", 1, 3),
            ("x0^x0^x1", 1, 3),
            ("x0&x0&x1", 1, 3),
            ("x0^x0&x1", 1, 2),
            ("!(x0^x0&x1)", 1, 2),
            ("(x0^!x0)&x1", 1, 4),
            ("x2^x1", 1, 0),
        ] {
            assert_eq!(refused(text, n), (5, place), "{text}");
        }
    }

    /// 5 belongs to its number's last digit: each 16 and 18 here is at another byte.
    #[test]
    fn the_lowest_byte_decides_between_5_and_16_and_18() {
        let deep = "!".repeat(65);
        for text in
            ["x1@", "x1(", "(x1", "x1^", "x1)", "x12@", "x123", "x1^@", &format!("x1&{deep}")]
        {
            assert_eq!(refused(text, 1), (5, 0), "{text}");
        }
        assert_eq!(refused("x12", 12), (5, 0));
        assert_eq!(refused("x123", 12), (5, 0));
        assert_eq!(refused("x123", 13), (16, 3));
        assert_eq!(refused("x05", 0), (5, 0));
        assert_eq!(refused("x05", 1), (16, 2));
        assert_eq!(refused("x1@", 2), (16, 2));
        assert_eq!(refused("@x1", 1), (16, 0));
        assert_eq!(refused("x0@x1", 1), (16, 2));
        assert_eq!(refused("0^x@1", 0), (16, 3));
        assert_eq!(refused(format!("{deep}x1"), 1), (18, 64));
        assert_eq!(refused(format!("{deep}@"), 1), (18, 64));
    }

    fn bracketed(depth: usize, inner: &str) -> String {
        "(".repeat(depth) + inner + &")".repeat(depth)
    }

    #[test]
    fn sixty_four_may_be_open() {
        let negated = |depth: usize, inner: &str| "!".repeat(depth) + inner;
        assert_eq!(nodes(negated(64, "x12"), 13).len(), 65);
        assert_eq!(refused(negated(65, "0"), 0), (18, 64));
        assert_eq!(nodes(bracketed(64, "0"), 0), [Zero]);
        assert_eq!(refused(bracketed(65, "0"), 0), (18, 64));

        let mixed = |inner: &str| "!(".repeat(32) + inner + &")".repeat(32);
        assert_eq!(nodes(mixed("0"), 0).len(), 33);
        assert_eq!(refused(mixed("!0"), 0), (18, 64));
        assert_eq!(refused(mixed("(0)"), 0), (18, 64));
        assert_eq!(refused(mixed("0^(1)"), 0), (18, 66));
        assert_eq!(nodes(negated(32, &bracketed(32, "0&1")), 0).len(), 35);
        assert_eq!(refused(negated(32, &bracketed(32, "0&!1")), 0), (18, 66));
        assert_eq!(nodes(bracketed(32, &negated(32, "0")), 0).len(), 33);
        assert_eq!(refused(bracketed(32, &negated(33, "0")), 0), (18, 64));
    }

    #[test]
    fn what_has_ended_is_not_open() {
        let full = "!".repeat(32) + &bracketed(32, "0");
        assert_eq!(nodes(format!("{full}^{full}&{full}"), 0).len(), 101);
        let place = full.len() as u64 + 1 + 64;
        assert_eq!(refused(format!("{full}^{}0", "!".repeat(65)), 0), (18, place));

        let row = "!0&!x1^!x12^!(1)&".repeat(100) + "!1";
        assert_eq!(nodes(&row, 13).len(), 1_202);
        assert_eq!(nodes(bracketed(62, &row), 13).len(), 1_202);
        assert_eq!(refused(bracketed(63, "!x12&!(1)"), 13), (18, 69));
        assert_eq!(refused(bracketed(62, "!(0)^!!!1"), 0), (18, 69));
        assert_eq!(nodes(bracketed(62, "!(0&1)^!!1"), 0).len(), 8);
    }

    #[test]
    fn at_one_byte_16_precedes_18() {
        let open = "(".repeat(64);
        assert_eq!(refused(format!("{open}0("), 0), (16, 65));
        assert_eq!(refused(format!("{open}0!"), 0), (16, 65));
        assert_eq!(refused(format!("{open}x("), 0), (16, 65));
        assert_eq!(refused(format!("{open}x1!"), 2), (16, 66));
        assert_eq!(refused(format!("{open}0^("), 0), (18, 66));
        assert_eq!(refused(format!("{open})"), 0), (16, 64));
        assert_eq!(refused(format!("{open}@("), 0), (16, 64));
        assert_eq!(refused(format!("{open}(@"), 0), (18, 64));
        assert_eq!(refused(&open, 0), (16, 64));
        assert_eq!(refused("!".repeat(64), 0), (16, 64));
        assert_eq!(refused("!".repeat(65), 0), (18, 64));
    }

    #[test]
    fn the_length_is_checked_before_all_else() {
        let longest = "!".to_string() + &"0^".repeat(2_047) + "0";
        assert_eq!(longest.len(), 4_096);
        assert_eq!(nodes(&longest, 64).len(), 4_096);
        assert_eq!(refused_with(&longest, 64, LONGEST_FILE - 1), (11, 4_096));

        assert_eq!(refused("0^".repeat(2_048) + "0", 0), (17, 0));
        assert_eq!(refused("0^".repeat(2_048), 0), (16, 4_096));
        for n in [0, 65, u64::MAX] {
            assert_eq!(refused("@".repeat(4_097), n), (17, 0));
            assert_eq!(refused("(".repeat(4_097), n), (17, 0));
        }
        assert_eq!(refused("(".repeat(4_096), 64), (18, 64));
        assert_eq!(refused("@".repeat(4_096), 64), (16, 0));
        assert_eq!(refused("@".repeat(4_096), 65), (4, 0));
    }

    #[test]
    fn n_is_at_most_64() {
        for text in ["", "0", "x0", "x64", "@", "((", &"!".repeat(65)] {
            for n in [65, 256, 65_536, 65_538, 1 << 32, u64::MAX] {
                assert_eq!(refused(text, n), (4, 0), "{text}");
            }
        }
        assert_eq!(nodes("0", 0), [Zero]);
        assert_eq!(refused("x0", 0), (5, 0));
        for n in [1, 10, 11, 63, 64] {
            assert_eq!(nodes("1", n), [One]);
            assert_eq!(nodes(format!("x{}", n - 1), n), [Input(n as usize - 1)]);
            assert_eq!(refused(format!("x{n}"), n), (5, 0));
        }
    }

    /// A text of the language, its nodes, and for each byte in how many brackets and `!` with their
    /// factors it stands: put together by the rules of the grammar.
    #[derive(Clone)]
    struct Derived {
        text: Vec<u8>,
        nodes: Vec<Node>,
        depths: Vec<usize>,
    }

    fn leaf(text: &str, node: Node) -> Derived {
        Derived { text: text.into(), nodes: vec![node], depths: vec![0; text.len()] }
    }

    fn in_brackets(sum: &Derived) -> Derived {
        Derived {
            text: [b"(", &sum.text[..], b")"].concat(),
            nodes: sum.nodes.clone(),
            depths: [&[1], &deeper(&sum.depths)[..], &[1]].concat(),
        }
    }

    fn negated(factor: &Derived) -> Derived {
        let not = Not(factor.nodes.len() - 1);
        Derived {
            text: [b"!", &factor.text[..]].concat(),
            nodes: [&factor.nodes[..], &[not]].concat(),
            depths: [&[1], &deeper(&factor.depths)[..]].concat(),
        }
    }

    fn deeper(depths: &[usize]) -> Vec<usize> {
        depths.iter().map(|depth| depth + 1).collect()
    }

    fn join(left: &Derived, sign: u8, right: &Derived) -> Derived {
        let by = left.nodes.len();
        let moved = right.nodes.iter().map(|node| match *node {
            Not(a) => Not(a + by),
            Xor(a, b) => Xor(a + by, b + by),
            And(a, b) => And(a + by, b + by),
            leaf => leaf,
        });
        let mut nodes: Vec<Node> = left.nodes.iter().copied().chain(moved).collect();
        let (a, b) = (by - 1, nodes.len() - 1);
        nodes.push(if sign == b'^' { Xor(a, b) } else { And(a, b) });
        Derived {
            text: [&left.text[..], &[sign], &right.text[..]].concat(),
            nodes,
            depths: [&left.depths[..], &[0], &right.depths[..]].concat(),
        }
    }

    /// The leaves of this length, with no numbers but these.
    fn leaves(length: usize, numbers: &[usize]) -> Vec<Derived> {
        let constants = [leaf("0", Zero), leaf("1", One)];
        let inputs = numbers.iter().map(|&j| leaf(&format!("x{j}"), Input(j)));
        constants.into_iter().chain(inputs).filter(|leaf| leaf.text.len() == length).collect()
    }

    /// A part alone, or what is to the left of a sign and then a part: all of this length, from
    /// those of each length.
    fn joined(
        lefts: &[Vec<Derived>],
        sign: u8,
        parts: &[Vec<Derived>],
        length: usize,
    ) -> Vec<Derived> {
        let mut all = parts[length].clone();
        for left_length in 1..length - 1 {
            for left in &lefts[left_length] {
                let right = parts[length - 1 - left_length].iter();
                all.extend(right.map(|right| join(left, sign, right)));
            }
        }
        all
    }

    /// Every text up to this length, once for each of its readings.
    fn every_text(most: usize, numbers: &[usize]) -> Vec<Derived> {
        // By their lengths, none of which is 0.
        let (mut factors, mut products, mut sums) = (vec![vec![]], vec![vec![]], vec![vec![]]);
        for length in 1..=most {
            let mut of_length = leaves(length, numbers);
            of_length.extend(factors[length - 1].iter().map(negated));
            of_length.extend(sums[length.saturating_sub(2)].iter().map(in_brackets));
            factors.push(of_length);
            products.push(joined(&products, b'&', &factors, length));
            sums.push(joined(&sums, b'^', &products, length));
        }
        sums.concat()
    }

    /// The numbers of the digits 0, 1 and 2.
    const NUMBERS: [usize; 9] = [0, 1, 2, 10, 11, 12, 20, 21, 22];

    #[test]
    fn each_text_has_one_reading_and_its_nodes() {
        let derived = every_text(8, &NUMBERS);
        let texts: HashSet<&[u8]> = derived.iter().map(|derived| &derived.text[..]).collect();
        assert_eq!(texts.len(), derived.len());
        for Derived { text, nodes: expected, .. } in &derived {
            assert_eq!(nodes(text, 23), *expected, "{}", text.escape_ascii());
        }
    }

    #[test]
    fn the_places_of_18() {
        let mut area = [9; 99];
        for Derived { text, depths, .. } in every_text(7, &NUMBERS) {
            for around in 57..=64 {
                let text = [&vec![b'('; around], &text[..], &vec![b')'; around]].concat();
                let deep = depths.iter().position(|depth| around + depth > 64);
                let expected = deep.map(|place| Refusal::at(18, around + place));
                let refusal = parse(&text, 23, &mut area).err();
                assert_eq!(refusal, expected, "{}", text.escape_ascii());
            }
        }
    }

    /// For each prefix up to this length of a text, the nodes of a text that begins with it. A
    /// number at the prefix's end ends there in that text too.
    fn beginnings(derived: &[Derived], most: usize) -> HashMap<&[u8], &[Node]> {
        let mut beginnings = HashMap::new();
        for Derived { text, nodes, .. } in derived {
            for length in 0..=most.min(text.len()) {
                let (prefix, rest) = text.split_at(length);
                let digit = |byte: Option<&u8>| byte.is_some_and(u8::is_ascii_digit);
                if !(digit(prefix.last()) && digit(rest.first())) {
                    beginnings.insert(prefix, &nodes[..]);
                }
            }
        }
        beginnings
    }

    /// 5 or 16, if a text is refused with one of them.
    fn expected(
        text: &[u8],
        n: usize,
        beginnings: &HashMap<&[u8], &[Node]>,
        whole: &HashSet<&[u8]>,
    ) -> Option<Refusal> {
        let begun = |length: &usize| beginnings.contains_key(&text[..*length]);
        let longest = (0..=text.len()).rev().find(begun).expect("a text begins with nothing");
        let prefix = &text[..longest];
        let is_input = |pair: &&[u8]| pair[0] == b'x' && pair[1].is_ascii_digit();
        let inputs = prefix.windows(2).filter(is_input).count();

        let nodes = beginnings[prefix].iter().enumerate();
        let input = |(i, node): (usize, &Node)| match *node {
            Input(j) => Some((i, j)),
            _ => None,
        };
        let bad = nodes.filter_map(input).take(inputs).find(|(_, j)| *j >= n);
        let five = bad.map(|(i, _)| Refusal::at(5, i));
        five.or((!whole.contains(text)).then_some(Refusal::at(16, longest)))
    }

    /// Every sequence of these bytes up to a length.
    fn every_sequence(bytes: &[u8], most: usize) -> Vec<Vec<u8>> {
        let mut all = vec![vec![]];
        let mut start = 0;
        for _ in 0..most {
            let end = all.len();
            for i in start..end {
                let longer: Vec<_> = bytes.iter().map(|b| [&all[i][..], &[*b]].concat()).collect();
                all.extend(longer);
            }
            start = end;
        }
        all
    }

    /// The shortest text that begins with four open brackets has nine bytes, and no other prefix of
    /// four bytes needs more.
    #[test]
    fn the_places_of_5_and_16() {
        let derived = every_text(9, &NUMBERS);
        let whole: HashSet<&[u8]> = derived.iter().map(|derived| &derived.text[..]).collect();
        let beginnings = beginnings(&derived, 4);
        let mut area = [9; 99];
        for text in every_sequence(b"^&!()012x@", 4) {
            for n in [0, 1, 2, 11, 64] {
                let refusal = parse(&text, n, &mut area).err();
                let expected = expected(&text, n as usize, &beginnings, &whole);
                assert_eq!(refusal, expected, "{} with {n}", text.escape_ascii());
            }
            assert_eq!(value(&text, &[1; 64]).is_some(), whole.contains(&text[..]));
        }
    }

    #[test]
    fn all_bytes_in_texts_of_two() {
        let numbers: Vec<usize> = (0..10).collect();
        let derived = every_text(5, &numbers);
        let whole: HashSet<&[u8]> = derived.iter().map(|derived| &derived.text[..]).collect();
        let beginnings = beginnings(&derived, 2);
        let mut area = [9; 99];
        let bytes: Vec<u8> = (0..=255).collect();
        for text in every_sequence(&bytes, 2) {
            let refusal = parse(&text, 5, &mut area).err();
            let expected = expected(&text, 5, &beginnings, &whole);
            assert_eq!(refusal, expected, "{}", text.escape_ascii());
            assert_eq!(value(&text, &[1; 64]).is_some(), whole.contains(&text[..]));
        }
    }

    #[test]
    fn the_value_is_that_of_the_nodes() {
        let of = |bit: fn(u8) -> bool| (0..23).map(|j| u8::from(bit(j))).collect::<Vec<_>>();
        let inputs = [of(|_| false), of(|_| true), of(|j| j % 2 == 1), of(|j| j % 5 < 2)];
        for Derived { text, nodes, .. } in every_text(8, &NUMBERS) {
            for inputs in &inputs {
                let mut values = vec![9; nodes.len()];
                evaluate::fill(&nodes, inputs, &mut values);
                let last = values.last().map(|value| *value == 1);
                assert_eq!(value(&text, inputs), last, "{}", text.escape_ascii());
            }
        }
    }

    #[test]
    fn values() {
        let on = |text: &str| value(text.as_bytes(), &[0, 1, 0, 1]);
        for text in ["1", "x1", "!0", "!!!x0", "x1^x0", "x1&x3", "!(x1&x2)", "1^1&0", "!0&1^0"] {
            assert_eq!(on(text), Some(true), "{text}");
        }
        for text in ["0", "x0", "!1", "!!x2", "x1^x3", "x1&x2", "!(x1^x2)", "(1^1)&0", "(1^1&0)&0"]
        {
            assert_eq!(on(text), Some(false), "{text}");
        }
        for text in ["", "x", "x4", "x10", "x01", "0&x4", "()", "x(1)", "(x)1", "(0", "0)", ")0("] {
            assert_eq!(on(text), None, "{text}");
        }
        let mut inputs = [0; 100];
        inputs[64] = 1;
        inputs[99] = 1;
        assert_eq!(value(b"x64&x99", &inputs), Some(true));
        assert_eq!(value(b"x64&x99", &inputs[..99]), None);
        assert_eq!(value(b"x100", &inputs), None);
    }

    #[test]
    fn no_limit_is_looked_at_by_the_value() {
        let deep = 100_000;
        assert_eq!(value(bracketed(deep, "1").as_bytes(), &[]), Some(true));
        assert_eq!(value("(".repeat(deep).as_bytes(), &[]), None);
        assert_eq!(value(("!".repeat(deep + 1) + "0").as_bytes(), &[]), Some(true));
        assert_eq!(value(("1^".repeat(deep) + "1").as_bytes(), &[]), Some(true));
        assert_eq!(value(("1&".repeat(deep) + "0").as_bytes(), &[]), Some(false));
    }
}
