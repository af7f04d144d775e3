//! The service parse, by recursive descent: what reads sums, products and factors calls itself in
//! brackets. The node of what was read is always the last one made.

use super::program::{Record, MOST_NODES, NODE_LENGTH};
use super::Refused;

const MOST_TEXT: usize = 4096;
const MOST_INPUTS: u64 = 64;
const MOST_OPEN: usize = 64;
const NODES_START: usize = 36;

/// The kinds of nodes. Those of the constants are 0 and 1.
const INPUT: u8 = 2;
const NOT: u8 = 3;
const XOR: u8 = 4;
const AND: u8 = 5;

/// Parses a formula over so many inputs, writes its program file, and gives its length.
pub fn parse(text: &[u8], inputs: u64, area: &mut [u8]) -> Result<usize, Refused> {
    if text.len() > MOST_TEXT {
        return Err((17, 0));
    }
    if inputs > MOST_INPUTS {
        return Err((4, 0));
    }

    // A text may be refused at its last byte, with the area as it was, so the nodes are made beside
    // it: to read the text twice instead took 1.6 to 1.9 times as long. An array of bytes is
    // cleared at once, one of records one after the other.
    let mut bytes = [0; NODE_LENGTH * MOST_NODES];
    let (nodes, _) = bytes.as_chunks_mut();
    let mut parser = Parser { text, at: 0, inputs: inputs as u16, nodes, made: 0 };
    parser.whole().map_err(|cause| parser.refused(cause))?;
    write(area, parser.inputs, &parser.nodes[..parser.made])
}

/// Why a text is refused. Where, the parser knows.
enum Cause {
    Text,
    Depth,
    Input,
}

/// A text as far as it is read, and the nodes made so far.
struct Parser<'a> {
    text: &'a [u8],
    at: usize,
    inputs: u16,
    nodes: &'a mut [Record],
    made: usize,
}

impl Parser<'_> {
    fn refused(&self, cause: Cause) -> Refused {
        match cause {
            Cause::Text => (16, self.at as u64),
            Cause::Depth => (18, self.at as u64),
            Cause::Input => (5, self.made as u64),
        }
    }

    fn whole(&mut self) -> Result<(), Cause> {
        self.sum(MOST_OPEN)?;
        match self.peek() {
            None => Ok(()),
            Some(_) => Err(Cause::Text),
        }
    }

    /// Products joined by `^`, where so many `!` and brackets may still be opened.
    fn sum(&mut self, left: usize) -> Result<(), Cause> {
        self.product(left)?;
        while self.peek() == Some(b'^') {
            self.at += 1;
            let first = self.last();
            self.product(left)?;
            self.push(XOR, first, self.last());
        }
        Ok(())
    }

    /// Factors joined by `&`.
    fn product(&mut self, left: usize) -> Result<(), Cause> {
        self.factor(left)?;
        while self.peek() == Some(b'&') {
            self.at += 1;
            let first = self.last();
            self.factor(left)?;
            self.push(AND, first, self.last());
        }
        Ok(())
    }

    /// `!` and a factor, a sum in brackets, `0`, `1` or an input.
    fn factor(&mut self, left: usize) -> Result<(), Cause> {
        match self.peek() {
            Some(b'!') => {
                let left = self.open(left)?;
                self.factor(left)?;
                self.push(NOT, self.last(), 0);
            }
            Some(b'(') => {
                let left = self.open(left)?;
                self.sum(left)?;
                self.close()?;
            }
            Some(bit @ (b'0' | b'1')) => {
                self.at += 1;
                self.push(bit - b'0', 0, 0);
            }
            Some(b'x') => {
                self.at += 1;
                let number = self.number()?;
                self.push(INPUT, number, 0);
            }
            _ => return Err(Cause::Text),
        }
        Ok(())
    }

    /// Reads a `!` or an opening bracket, and gives how many more may be opened.
    fn open(&mut self, left: usize) -> Result<usize, Cause> {
        let left = left.checked_sub(1).ok_or(Cause::Depth)?;
        self.at += 1;
        Ok(left)
    }

    fn close(&mut self) -> Result<(), Cause> {
        if self.peek() != Some(b')') {
            return Err(Cause::Text);
        }
        self.at += 1;
        Ok(())
    }

    /// The number of an input: one digit, or two not starting with 0.
    fn number(&mut self) -> Result<u16, Cause> {
        let mut number = self.digit().ok_or(Cause::Text)?;
        self.at += 1;
        if number != 0 {
            if let Some(digit) = self.digit() {
                self.at += 1;
                number = 10 * number + digit;
            }
        }
        if number < self.inputs {
            Ok(number)
        } else {
            Err(Cause::Input)
        }
    }

    fn digit(&self) -> Option<u16> {
        let byte = self.peek()?;
        byte.is_ascii_digit().then(|| u16::from(byte - b'0'))
    }

    fn peek(&self) -> Option<u8> {
        self.text.get(self.at).copied()
    }

    fn last(&self) -> u16 {
        self.made as u16 - 1
    }

    fn push(&mut self, kind: u8, a: u16, b: u16) {
        let [a, b] = [a, b].map(u16::to_le_bytes);
        self.nodes[self.made] = [kind, 0, a[0], a[1], b[0], b[1]];
        self.made += 1;
    }
}

/// Writes the file of these nodes, of which the last is the output.
fn write(area: &mut [u8], inputs: u16, nodes: &[Record]) -> Result<usize, Refused> {
    let body = nodes.as_flattened();
    let length = NODES_START + body.len() + 2;
    let Some(file) = area.get_mut(..length) else {
        area.fill(0);
        return Err((11, nodes.len() as u64));
    };
    let (start, rest) = file.split_at_mut(NODES_START);
    write_start(start, inputs, body.len() as u32);
    let (to, output) = rest.split_at_mut(body.len());
    to.copy_from_slice(body);
    output.copy_from_slice(&(nodes.len() as u16 - 1).to_le_bytes());
    Ok(length)
}

fn write_start(start: &mut [u8], inputs: u16, nodes_length: u32) {
    let outputs_start = NODES_START as u32 + nodes_length;
    start[..12].copy_from_slice(&[3, 0, 1, 0, 32, 0, 0, 0, 4, 0, 0, 0]);
    start[12..18].copy_from_slice(&[2, 0, 36, 0, 0, 0]);
    start[18..22].copy_from_slice(&nodes_length.to_le_bytes());
    start[22..24].copy_from_slice(&[3, 0]);
    start[24..28].copy_from_slice(&outputs_start.to_le_bytes());
    start[28..32].copy_from_slice(&[2, 0, 0, 0]);
    start[32..34].copy_from_slice(&inputs.to_le_bytes());
    start[34..].copy_from_slice(&[1, 0]);
}
