//! Tables of functions on numbers, for any number of bits, and of the AND of many inputs. Of two
//! numbers a and b, the bits of a are the first inputs, those of b the next, the lowest bit of each
//! first.
//!
//! A node is built anew at each use, so a chain of carries must use the carry before only once. Both
//! chains here do; otherwise their gates would double with each bit. A mark doubles the gates below
//! it, so each chain has one of them.

use std::fmt::Write;

/// The most bits of a number: two of them have 64 inputs.
pub const MOST_BITS: usize = 32;

/// The most inputs of an AND.
pub const MOST_INPUTS: usize = 64;

/// Whether a table has marks.
#[derive(Debug, Clone, Copy, PartialEq, Eq)]
pub enum Form {
    /// It has none.
    Plain,
    /// It has marks where they save work lines for few gates.
    Marked,
}

/// The text of a table as far as it is written.
struct Text {
    text: String,
    nodes: usize,
}

impl Text {
    /// A table of two numbers with so many bits each, up to the nodes of their inputs.
    fn of_two_numbers(what: &str, bits: usize, form: Form) -> Text {
        let mut text = Text { text: String::new(), nodes: 0 };
        text.say(what);
        let (last_a, first_b, inputs) = (bits - 1, bits, 2 * bits);
        let last_b = inputs - 1;
        text.say(&format!("inputs 0 to {last_a} are a, {first_b} to {last_b} are b, lowest first"));
        if let Some(bit) = marked_bit(bits, form) {
            text.say(&format!(
                "the mark at bit {bit} gives back the work lines of the bits up to it"
            ));
        }
        text.inputs(inputs);
        text
    }

    fn inputs(&mut self, count: usize) {
        let _ = writeln!(self.text, "inputs {count}");
        for j in 0..count {
            self.node("INPUT", &[j], "");
        }
    }

    fn say(&mut self, comment: &str) {
        let _ = writeln!(self.text, "# {comment}");
    }

    /// Adds a node, with a comment if there is one, and gives its number.
    fn node(&mut self, kind: &str, operands: &[usize], comment: &str) -> usize {
        let operands: String = operands.iter().map(|operand| format!(" {operand}")).collect();
        self.line(&format!("{kind}{operands}"), comment)
    }

    /// The same of an AND, marked or not.
    fn and(&mut self, [a, b]: [usize; 2], marked: bool, comment: &str) -> usize {
        let mark = if marked { " marked" } else { "" };
        self.line(&format!("AND {a} {b}{mark}"), comment)
    }

    fn line(&mut self, node: &str, comment: &str) -> usize {
        let index = self.nodes;
        let behind = if comment.is_empty() { "" } else { "  # " };
        let _ = writeln!(self.text, "{index} = {node}{behind}{comment}");
        self.nodes += 1;
        index
    }

    fn outputs(&mut self, nodes: &[usize]) {
        for node in nodes {
            let _ = writeln!(self.text, "output {node}");
        }
    }

    /// The AND of a node of a bit and one that has the bits below in it.
    ///
    /// With marks the second one comes first. It is made on lines that the AND at the mark gives back,
    /// and the other one, whose line would be in use all that time, is made when they are free.
    fn and_of_bit(&mut self, own: usize, below: usize, bit: usize, marked: Option<usize>) -> usize {
        match marked {
            None => self.and([own, below], false, ""),
            Some(marked) => self.and([below, own], bit == marked, ""),
        }
    }
}

/// The bit whose AND has the mark of a chain. When the lowest bit is made, each bit above the mark has
/// a line in use, and each other bit two. Behind the mark these two are free, and each bit above it
/// takes a second one. With the mark at a third, both times are about as many lines in use.
fn marked_bit(bits: usize, form: Form) -> Option<usize> {
    (form == Form::Marked).then_some((bits - 1) / 3)
}

/// The table of a + b for numbers of so many bits, 1 to 32: the bits of the sum, the lowest first,
/// and the last carry.
///
/// The next carry is the majority of a, b and the carry, as a XOR (a XOR b) AND (a XOR carry).
pub fn adder(bits: usize, form: Form) -> String {
    let mut text = Text::of_two_numbers(&format!("a + b, {bits} bits each"), bits, form);
    let marked = marked_bit(bits, form);
    text.say("bit 0");
    let mut outputs = vec![text.node("XOR", &[0, bits], "sum 0")];
    let mut carry = text.and([0, bits], marked == Some(0), "carry into bit 1");
    for i in 1..bits {
        text.say(&format!("bit {i}"));
        let (a, b) = (i, bits + i);
        let differ = text.node("XOR", &[a, b], "");
        outputs.push(text.node("XOR", &[differ, carry], &format!("sum {i}")));
        let with_carry = text.node("XOR", &[a, carry], "");
        let changed = text.and_of_bit(differ, with_carry, i, marked);
        carry = text.node("XOR", &[a, changed], &format!("carry into bit {}", i + 1));
    }
    outputs.push(carry);
    text.say("the sum, lowest bit first, and the last carry");
    text.outputs(&outputs);
    text.text
}

/// The table of a < b for numbers of so many bits, 1 to 32.
///
/// From the lowest bit on, the answer is that of the bits below where a and b agree, otherwise b:
/// b XOR (a and b agree) AND (b XOR the answer below).
pub fn less(bits: usize, form: Form) -> String {
    let mut text = Text::of_two_numbers(&format!("a < b, {bits} bits each"), bits, form);
    let marked = marked_bit(bits, form);
    text.say("bit 0");
    let not_a = text.node("NOT", &[0], "");
    let mut answer = text.and([not_a, bits], marked == Some(0), "a < b in bit 0");
    for i in 1..bits {
        text.say(&format!("bit {i}"));
        let (a, b) = (i, bits + i);
        let differ = text.node("XOR", &[a, b], "");
        let agree = text.node("NOT", &[differ], "");
        let change = text.node("XOR", &[b, answer], "");
        let changed = text.and_of_bit(agree, change, i, marked);
        answer = text.node("XOR", &[b, changed], &format!("a < b in bits 0 to {i}"));
    }
    text.outputs(&[answer]);
    text.text
}

/// The table of the AND of so many inputs, 2 to 64, as a tree that is as flat as can be.
///
/// With marks, each AND that is a first operand and is not of two inputs gives its lines back, so that
/// the second one takes them again. A second operand keeps its own: nothing is made behind it.
pub fn and(inputs: usize, form: Form) -> String {
    let mut text = Text { text: String::new(), nodes: 0 };
    text.say(&format!("the AND of {inputs} inputs"));
    if form == Form::Marked {
        text.say("the marked ANDs give back their work lines, which their neighbours take again");
    }
    text.inputs(inputs);
    let mut row: Vec<usize> = (0..inputs).collect();
    while row.len() > 1 {
        text.say(&format!("row of {}", row.len() / 2));
        let last = row.len().div_ceil(2) - 1;
        let mut next = Vec::new();
        for (at, pair) in row.chunks(2).enumerate() {
            let first_of_two = at % 2 == 0 && at < last;
            next.push(match *pair {
                [a, b] => text.and([a, b], form == Form::Marked && first_of_two && a >= inputs, ""),
                _ => pair[0],
            });
        }
        row = next;
    }
    text.outputs(&row);
    text.text
}

#[cfg(test)]
mod tests {
    use super::*;

    use Form::{Marked, Plain};

    #[test]
    fn every_number_of_bits_gives_a_table() {
        for form in [Plain, Marked] {
            for bits in 1..=MOST_BITS {
                for text in [adder(bits, form), less(bits, form)] {
                    assert!(crate::read(text.as_bytes()).is_ok(), "{bits} bits: {text}");
                }
            }
            for inputs in 2..=MOST_INPUTS {
                let text = and(inputs, form);
                assert!(crate::read(text.as_bytes()).is_ok(), "{inputs} inputs: {text}");
                assert_eq!(text.matches(" = AND ").count(), inputs - 1);
            }
            assert!(crate::read(adder(33, form).as_bytes()).is_err(), "66 inputs");
            assert!(crate::read(and(65, form).as_bytes()).is_err(), "65 inputs");
        }
    }

    #[test]
    fn one_bit() {
        let start = "inputs 0 to 0 are a, 1 to 1 are b, lowest first\ninputs 2\n\
                     0 = INPUT 0\n1 = INPUT 1\n# bit 0\n";
        let sum = "2 = XOR 0 1  # sum 0\n3 = AND 0 1  # carry into bit 1\n";
        let end = "# the sum, lowest bit first, and the last carry\noutput 2\noutput 3\n";
        assert_eq!(adder(1, Plain), format!("# a + b, 1 bits each\n# {start}{sum}{end}"));
        let answer = "2 = NOT 0\n3 = AND 2 1  # a < b in bit 0\noutput 3\n";
        assert_eq!(less(1, Plain), format!("# a < b, 1 bits each\n# {start}{answer}"));
    }

    /// A chain has one mark, at a third of its bits, and a tree one at each first operand but those
    /// of two inputs.
    #[test]
    fn the_marks_of_each_table() {
        let marks = |text: String| {
            let marked = text.lines().filter(|line| line.ends_with(" marked"));
            marked.map(str::to_string).collect::<Vec<_>>()
        };
        assert_eq!(marks(adder(8, Marked)), ["26 = AND 25 23 marked"]);
        assert_eq!(marks(less(8, Marked)), ["26 = AND 25 24 marked"]);
        assert_eq!(marks(and(8, Marked)), ["12 = AND 8 9 marked"]);
        assert_eq!(marks(and(16, Marked)).len(), 3);
        assert_eq!(marks(and(32, Marked)).len(), 7);
        for plain in [adder(8, Plain), less(8, Plain), and(32, Plain)] {
            assert_eq!(marks(plain), [""; 0]);
        }
    }

    /// The last of five inputs is alone in two rows.
    #[test]
    fn five_inputs() {
        let inputs = "0 = INPUT 0\n1 = INPUT 1\n2 = INPUT 2\n3 = INPUT 3\n4 = INPUT 4\n";
        let ands = "# row of 2\n5 = AND 0 1\n6 = AND 2 3\n# row of 1\n7 = AND 5 6\n\
                    # row of 1\n8 = AND 7 4\n";
        let wanted = format!("# the AND of 5 inputs\ninputs 5\n{inputs}{ands}output 8\n");
        assert_eq!(and(5, Plain), wanted);
    }
}
