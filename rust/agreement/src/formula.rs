//! Formulas: texts written by the grammar of 02, drawn at random, and damaged.

use crate::random::Random;

/// The most bytes of a text.
pub const MOST_TEXT: usize = 4_096;

/// The most brackets and `!` that are open together.
pub const MOST_OPEN: usize = 64;

/// Numbers of inputs over 64, as wide as the parameter. In 8, 16 or 32 bits, some would be 0 or 2.
pub const TOO_MANY: [u64; 11] =
    [65, 66, 128, 256, 258, 1 << 16, (1 << 16) + 2, 1 << 32, (1 << 32) + 2, 1 << 63, u64::MAX];

/// The letters of the language.
const LETTERS: &[u8] = b"0123456789x!&^()";

/// Letters that one might take for some of the language, and others that are in no text.
const FOREIGN: &[u8] = b" \t\n\r\0Xy[]{}<>*+-.,|~/:=@_\"\x7f\x80\xb7\xf8\xff";

/// A text, and the number of inputs that it is parsed with.
#[derive(Debug, Clone)]
pub struct Formula {
    /// The text.
    pub text: Vec<u8>,
    /// The number of inputs.
    pub inputs: u64,
}

/// A random formula that every check accepts: mostly short, sometimes as long or as deep as one can
/// be.
pub fn valid(random: &mut Random) -> Formula {
    let inputs = few_inputs(random);
    let (length, depth) = (random_length(random), random.within(1..=MOST_OPEN));
    let text = match random.below(256) {
        0 => of_most_nodes(random),
        1..=24 => nested(random, inputs, depth),
        25..=48 => nested(random, inputs, MOST_OPEN),
        _ => of_length(random, inputs, length),
    };
    Formula { text, inputs }
}

/// A random formula at the limits and on both sides of them, or damaged.
pub fn any(random: &mut Random) -> Formula {
    let mut formula = match random.below(16) {
        0..=6 => valid(random),
        7 => too_deep(random),
        8 => too_long(random),
        9..=10 => with_any_numbers(random),
        _ => damaged(random),
    };
    if random.once_in(16) {
        formula.inputs = random.pick(&TOO_MANY);
    }
    formula
}

/// A random text of the language of so many bytes, and over so many inputs. Without inputs it may
/// be a few bytes shorter.
pub fn of_length(random: &mut Random, inputs: u64, length: usize) -> Vec<u8> {
    let mut writer = Writer::new(random, inputs);
    writer.sum(length, 0);
    writer.text
}

/// A random text of the language with so many brackets and `!` open at its innermost leaf. Nowhere
/// else are more than 64 open.
pub fn nested(random: &mut Random, inputs: u64, depth: usize) -> Vec<u8> {
    let mut writer = Writer::new(random, inputs);
    writer.nested(0, depth);
    writer.text
}

/// A random text of the language with the most nodes, one for each of its bytes.
fn of_most_nodes(random: &mut Random) -> Vec<u8> {
    let mut writer = Writer::new(random, 0);
    writer.text.push(b'!');
    writer.leaf(1);
    while writer.text.len() < MOST_TEXT {
        writer.operator();
        writer.leaf(1);
    }
    writer.text
}

fn few_inputs(random: &mut Random) -> u64 {
    let any = random.within(0..=64);
    let few = random.within(1..=6);
    random.pick(&[0, few, few, few, few, any, 10, 11, 63, 64]) as u64
}

fn random_length(random: &mut Random) -> usize {
    match random.below(128) {
        0 => MOST_TEXT,
        1 => random.within(1..=MOST_TEXT),
        2..=20 => random.within(1..=300),
        _ => random.within(1..=24),
    }
}

fn too_deep(random: &mut Random) -> Formula {
    let inputs = few_inputs(random);
    let over = random.pick(&[1, 1, 2, 3, 60, 200]);
    Formula { text: nested(random, inputs, MOST_OPEN + over), inputs }
}

fn too_long(random: &mut Random) -> Formula {
    let over = random.pick(&[1, 1, 2, 100]);
    // A text without inputs may not get as long as this.
    let inputs = few_inputs(random).max(1);
    Formula { text: of_length(random, inputs, MOST_TEXT + over), inputs }
}

/// Any number once in a while, whether there is such an input or not.
fn with_any_numbers(random: &mut Random) -> Formula {
    let inputs = few_inputs(random);
    // A number may be two bytes longer than what it stands for.
    let length = random_length(random).min(MOST_TEXT / 3);
    let mut writer = Writer::new(random, inputs);
    writer.any_number_once_in = Some(8);
    writer.sum(length, 0);
    Formula { text: writer.text, inputs }
}

/// A random formula with something changed, mostly so that it is refused.
pub fn damaged(random: &mut Random) -> Formula {
    let Formula { mut text, inputs } =
        if random.once_in(8) { too_deep(random) } else { valid(random) };
    // Two damages at a time show that the first one is reported.
    for _ in 0..random.pick(&[1, 1, 1, 2]) {
        damage(random, &mut text);
    }
    Formula { text, inputs }
}

/// Changes, inserts or removes a byte, cuts the text, goes on behind it, or swaps two bytes.
fn damage(random: &mut Random, text: &mut Vec<u8>) {
    let any = random.below(text.len() + 1);
    let at = random.pick(&[any, any, any, text.len()]);
    let letter = random_letter(random);
    match random.below(7) {
        0..=1 if at < text.len() => text[at] = letter,
        2 if at < text.len() => {
            text.remove(at);
        }
        3 => text.truncate(at),
        4 if at + 1 < text.len() => text.swap(at, at + 1),
        5 => {
            let length = random.within(1..=12);
            text.extend(of_length(random, 2, length));
        }
        _ => text.insert(at, letter),
    }
}

fn random_letter(random: &mut Random) -> u8 {
    let (letter, foreign, any) = (random.pick(LETTERS), random.pick(FOREIGN), random.byte());
    random.pick(&[letter, letter, letter, foreign, any])
}

/// Writes a text from its start to its end.
struct Writer<'a> {
    random: &'a mut Random,
    inputs: usize,
    /// How often the number of an input need not be below that of the inputs.
    any_number_once_in: Option<usize>,
    text: Vec<u8>,
}

impl Writer<'_> {
    fn new(random: &mut Random, inputs: u64) -> Writer<'_> {
        Writer { random, inputs: inputs as usize, any_number_once_in: None, text: vec![] }
    }

    /// The length of the longest leaf: a constant, or an input of one digit or two.
    fn longest_leaf(&self) -> usize {
        match self.inputs {
            0 => 1,
            1..=10 => 2,
            _ => 3,
        }
    }

    fn sum(&mut self, length: usize, open: usize) {
        for (at, length) in parts(self.random, length, length).into_iter().enumerate() {
            if at > 0 {
                self.text.push(b'^');
            }
            self.product(length, open);
        }
    }

    fn product(&mut self, length: usize, open: usize) {
        // Where nothing more can be opened, every factor is a leaf.
        let most = if open < MOST_OPEN { length } else { self.longest_leaf() };
        for (at, length) in parts(self.random, length, most).into_iter().enumerate() {
            if at > 0 {
                self.text.push(b'&');
            }
            self.factor(length, open);
        }
    }

    fn factor(&mut self, length: usize, open: usize) {
        let leaf = length <= self.longest_leaf() && self.random.once_in(2);
        if length == 1 || open >= MOST_OPEN || leaf {
            return self.leaf(length);
        }
        // What is behind `!` is a factor too, and a leaf if nothing more can be opened.
        let can_be_not = open + 1 < MOST_OPEN || length - 1 <= self.longest_leaf();
        if length == 2 || can_be_not && self.random.once_in(2) {
            self.text.push(b'!');
            return self.factor(length - 1, open + 1);
        }
        self.text.push(b'(');
        self.sum(length - 2, open + 1);
        self.text.push(b')');
    }

    fn leaf(&mut self, length: usize) {
        if self.any_number_once_in.is_some_and(|times| self.random.once_in(times)) {
            let number = self.random.below(100);
            return self.input(number);
        }
        match length {
            2 if self.inputs > 0 => self.one_of(0, self.inputs.min(10) - 1),
            3 => self.one_of(10, self.inputs - 1),
            _ => {
                let constant = self.random.pick(b"01");
                self.text.push(constant);
            }
        }
    }

    /// One of these inputs, often the last.
    fn one_of(&mut self, first: usize, last: usize) {
        let any = self.random.within(first..=last);
        let number = self.random.pick(&[any, any, any, last]);
        self.input(number);
    }

    fn input(&mut self, number: usize) {
        self.text.extend(format!("x{number}").bytes());
    }

    /// A factor with so many more open at its innermost leaf, and others beside its inner ones.
    fn nested(&mut self, open: usize, depth: usize) {
        if depth == 0 {
            let length = self.random.within(1..=self.longest_leaf());
            return self.leaf(length);
        }
        if self.random.once_in(2) {
            self.text.push(b'!');
            return self.nested(open + 1, depth - 1);
        }
        self.text.push(b'(');
        if self.random.once_in(4) {
            self.beside(open + 1);
            self.operator();
        }
        self.nested(open + 1, depth - 1);
        if self.random.once_in(4) {
            self.operator();
            self.beside(open + 1);
        }
        self.text.push(b')');
    }

    fn beside(&mut self, open: usize) {
        let length = self.random.within(1..=6);
        self.product(length, open);
    }

    fn operator(&mut self) {
        let operator = self.random.pick(b"^&");
        self.text.push(operator);
    }
}

/// Random lengths of operands, none over the most, that together with an operator between each two
/// make this length. Only where a byte would be left over, an operand is longer.
fn parts(random: &mut Random, length: usize, most: usize) -> Vec<usize> {
    let mut parts = vec![];
    let mut left = length;
    loop {
        let part = next_part(random, left, most);
        parts.push(part);
        if part == left {
            return parts;
        }
        left -= part + 1;
    }
}

fn next_part(random: &mut Random, left: usize, most: usize) -> usize {
    if left <= most && random.once_in(3) {
        return left;
    }
    let most = most.min(left);
    let (any, few) = (random.within(1..=most), random.within(1..=most.min(6)));
    let part = random.pick(&[any, few]);
    match left - part {
        1 if part > 1 => part - 1,
        1 => left,
        _ => part,
    }
}

#[cfg(test)]
mod tests {
    use super::*;

    /// The most brackets and `!` open together in a text of the language.
    fn most_open(text: &[u8]) -> usize {
        // With each bracket, the `!` before it; and those before the byte.
        let (mut brackets, mut pending, mut most) = (vec![], 0, 0);
        for letter in text {
            match letter {
                b'!' => pending += 1,
                b'(' => {
                    brackets.push(pending + 1);
                    pending = 0;
                }
                b')' => {
                    brackets.pop();
                }
                _ => pending = 0,
            }
            most = most.max(brackets.iter().sum::<usize>() + pending);
        }
        most
    }

    fn refusal(formula: &Formula) -> Option<u64> {
        let mut area = vec![0; oracle::LONGEST_PARSED];
        let answer = model::parse::parse(&formula.text, formula.inputs, &mut area);
        answer.err().map(|refusal| refusal.number)
    }

    #[test]
    fn texts_are_as_long_as_asked_for() {
        let mut random = Random::new(0x6c65_6e67);
        for inputs in [1, 2, 10, 11, 64] {
            for length in (1..=300).chain([4_095, 4_096, 4_097, 10_000]) {
                let text = of_length(&mut random, inputs, length);
                assert_eq!(text.len(), length, "{inputs} inputs");
            }
        }
        for length in 1..=300 {
            let text = of_length(&mut random, 0, length);
            assert!(text.len() <= length && text.len() + 9 > length, "{length} bytes");
        }
    }

    #[test]
    fn texts_are_as_deep_as_asked_for() {
        let mut random = Random::new(0x6465_6570);
        for depth in (1..=80).chain([300]) {
            let text = nested(&mut random, 2, depth);
            let most = most_open(&text);
            assert!(most == depth || depth < most && most <= MOST_OPEN, "{most} for {depth}");
            let formula = Formula { text, inputs: 2 };
            let expected = (depth > MOST_OPEN).then_some(18);
            assert_eq!(refusal(&formula), expected, "{depth}");
        }
    }

    #[test]
    fn valid_formulas_are_accepted_and_meet_the_limits() {
        let mut random = Random::new(0x7661_6c69);
        let (mut longest, mut deepest, mut last) = (0, 0, 0);
        for _ in 0..8_000 {
            let formula = valid(&mut random);
            assert_eq!(refusal(&formula), None, "{}", formula.text.escape_ascii());
            longest += u32::from(formula.text.len() == MOST_TEXT);
            deepest += u32::from(most_open(&formula.text) == MOST_OPEN);
            last += u32::from(formula.text.windows(3).any(|input| input == b"x63"));
        }
        println!("{longest} of 4,096 bytes, {deepest} with 64 open, {last} with input 63");
        assert!(longest > 20 && deepest > 200 && last > 100, "too few at the limits");
    }

    /// Each refusal of a text, mostly of one that was made for it.
    #[test]
    fn others_are_refused_for_what_they_are() {
        let mut random = Random::new(0x6f74_6865);
        let mut damages = 0;
        for _ in 0..1_000 {
            assert_eq!(refusal(&too_deep(&mut random)), Some(18));
            assert_eq!(refusal(&too_long(&mut random)), Some(17));
            assert!(matches!(refusal(&with_any_numbers(&mut random)), None | Some(5)));
            damages += u32::from(refusal(&damaged(&mut random)) == Some(16));
        }
        assert!(damages > 500, "{damages} damaged texts are outside the language");
    }
}
