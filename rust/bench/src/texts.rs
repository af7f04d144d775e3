//! Texts for parse, drawn at random by the grammar, with exactly as many bytes as are asked for.

use agreement::random::Random;

/// The most bytes of a text.
pub const MOST_TEXT: usize = 4096;

/// What a text is made of.
#[derive(Clone, Copy)]
struct Shape {
    /// How many in a hundred times an operand starts with `!`, or else with a bracket.
    nots: usize,
    brackets: usize,
    /// How many in a hundred times a bracket ends behind an operand.
    closed: usize,
    /// The most `!` and brackets that are open together.
    open: usize,
    /// How long leaves are: a constant has a byte, an input two or three.
    leaves: &'static [usize],
}

const OF_ALL_KINDS: Shape =
    Shape { nots: 15, brackets: 15, closed: 20, open: 64, leaves: &[1, 2, 3, 3, 3] };
const DEEP: Shape = Shape { nots: 35, brackets: 25, closed: 15, open: 64, leaves: &[1, 2, 3] };
const TOO_DEEP: Shape = Shape { open: 65, ..DEEP };
const WITHOUT_BRACKETS: Shape =
    Shape { nots: 0, brackets: 0, closed: 0, open: 0, leaves: &[1, 2, 3] };
const OF_CONSTANTS: Shape = Shape { leaves: &[1], ..WITHOUT_BRACKETS };

/// All operators, brackets and leaves.
pub fn of_all_kinds(random: &mut Random) -> Vec<u8> {
    of_bytes(random, MOST_TEXT)
}

/// The same with so many bytes.
pub fn of_bytes(random: &mut Random, length: usize) -> Vec<u8> {
    drawn(random, &OF_ALL_KINDS, length)
}

/// Many `!` and brackets, up to 64 of them open together.
pub fn deep(random: &mut Random) -> Vec<u8> {
    drawn(random, &DEEP, MOST_TEXT)
}

/// Leaves and the operators between them only.
pub fn without_brackets(random: &mut Random) -> Vec<u8> {
    drawn(random, &WITHOUT_BRACKETS, MOST_TEXT)
}

/// The same, the leaves constants, and one an input, because 4,096 is even: 4,095 nodes.
pub fn of_constants(random: &mut Random) -> Vec<u8> {
    drawn(random, &OF_CONSTANTS, MOST_TEXT)
}

/// All kinds, and an operator at the end, behind which something is missing.
pub fn unfinished(random: &mut Random) -> Vec<u8> {
    let mut text = of_bytes(random, MOST_TEXT - 1);
    text.push(random.pick(b"^&"));
    text
}

/// A text of any shape and mostly short, as it is or damaged once or twice.
pub fn any(random: &mut Random) -> Vec<u8> {
    let shape =
        random.pick(&[OF_ALL_KINDS, OF_ALL_KINDS, DEEP, TOO_DEEP, WITHOUT_BRACKETS, OF_CONSTANTS]);
    let length = match random.below(40) {
        0 => random.within(MOST_TEXT..=MOST_TEXT + 2),
        1..=4 => random.within(1..=MOST_TEXT),
        _ => random.within(1..=60),
    };
    let mut text = drawn(random, &shape, length);
    for _ in 0..random.below(3) {
        damage(random, &mut text);
    }
    text
}

/// Changes, adds or takes out a byte, or cuts the text.
fn damage(random: &mut Random, text: &mut Vec<u8>) {
    let byte = if random.once_in(8) { random.byte() } else { random.pick(b"^&!()0123456789x") };
    let at = random.below(text.len() + 1);
    match random.below(4) {
        0 => text.insert(at, byte),
        1 => text.truncate(at),
        _ if at == text.len() => text.push(byte),
        2 => text[at] = byte,
        _ => {
            text.remove(at);
        }
    }
}

fn drawn(random: &mut Random, shape: &Shape, length: usize) -> Vec<u8> {
    let mut drawing = Drawing { text: vec![], open: vec![], room: length };
    loop {
        drawing.open(random, shape);
        drawing.leaf(random, shape);
        drawing.close(random, shape);
        if drawing.room == 0 {
            break;
        }
        drawing.add(random.pick(b"^&"), 1);
    }
    assert_eq!(drawing.text.len(), length);
    drawing.text
}

/// A text as far as it is drawn, the `!` and brackets that are open, and how many bytes more are
/// asked for, without the closing brackets of those.
struct Drawing {
    text: Vec<u8>,
    open: Vec<u8>,
    room: usize,
}

impl Drawing {
    /// Adds a byte, and counts those that come with it.
    fn add(&mut self, byte: u8, taken: usize) {
        self.text.push(byte);
        self.room -= taken;
    }

    /// What stands before a leaf, which needs a byte itself.
    fn open(&mut self, random: &mut Random, shape: &Shape) {
        while self.open.len() < shape.open {
            let (byte, taken) = match random.below(100) {
                k if k < shape.nots => (b'!', 1),
                k if k < shape.nots + shape.brackets => (b'(', 2),
                _ => return,
            };
            if self.room <= taken {
                return;
            }
            self.add(byte, taken);
            self.open.push(byte);
        }
    }

    /// A leaf. Behind it there may not be room for a byte only, as an operator needs an operand.
    fn leaf(&mut self, random: &mut Random, shape: &Shape) {
        let mut lengths = if self.room > 4 { shape.leaves } else { &[1, 2, 3] }.to_vec();
        lengths.retain(|length| *length <= self.room && self.room - length != 1);
        let leaf = match random.pick(&lengths) {
            1 => format!("{}", random.below(2)),
            2 => format!("x{}", random.below(10)),
            _ => format!("x{}", random.within(10..=63)),
        };
        leaf.bytes().for_each(|byte| self.add(byte, 1));
        self.end_nots();
    }

    /// Closes brackets, all of them at the end.
    fn close(&mut self, random: &mut Random, shape: &Shape) {
        while !self.open.is_empty() && (self.room == 0 || random.below(100) < shape.closed) {
            self.add(b')', 0);
            self.open.pop();
            self.end_nots();
        }
    }

    /// With its operand a `!` ends.
    fn end_nots(&mut self) {
        while self.open.last() == Some(&b'!') {
            self.open.pop();
        }
    }
}
