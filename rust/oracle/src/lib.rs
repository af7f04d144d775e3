//! The oracle compiler's services for Rust: one function per service, over the C functions of
//! `liboracle.a`.
//!
//! A slice is lent for the time of the call only. No function here allocates, keeps a pointer or
//! panics, and every input is answered: by a result or by a [`Refusal`].

use std::error::Error;
use std::fmt;

mod archive;
mod parts;

use archive::Answer;
pub use parts::{gates, nodes, Gate, Node};

/// The version of the library and of this wrapper, as in `oracle.h`.
pub const VERSION: &str = env!("ORACLE_VERSION");

/// The causes of refusals by name, and, for [`Refusal`], in words, as in `oracle_causes.h`.
pub mod cause {
    include!(concat!(env!("OUT_DIR"), "/causes.rs"));
}

/// Why a service gave no result.
#[derive(Debug, Clone, Copy, PartialEq, Eq)]
pub struct Refusal {
    /// The cause, one of those of [`mod@cause`].
    pub number: u64,
    /// Where the cause lies: the index of the lowest bad node (5), output (6, 8) or gate (12), or of
    /// a byte of a text (16, where it may be the text's length, and 18), the number of work lines
    /// (10) or of gates needed (11; 3,000,001 stands for every number over 3,000,000; of [`parse`] the
    /// nodes needed), otherwise 0.
    pub place: u64,
}

impl Refusal {
    /// The cause in words, without the place. No service gives a number that has none.
    pub fn text(&self) -> &'static str {
        self.cause().1
    }

    /// What the place is, as "at node", or nothing where it is always 0.
    pub fn place_text(&self) -> &'static str {
        self.cause().0
    }

    /// The refusal as it is printed for a reader: its number, its cause in words, and its place if the
    /// cause has one.
    pub fn in_words(self) -> InWords {
        InWords(self)
    }

    fn cause(&self) -> (&'static str, &'static str) {
        let index = self.number.checked_sub(1).and_then(|index| usize::try_from(index).ok());
        index.and_then(|index| cause::WORDS.get(index)).copied().unwrap_or_default()
    }
}

impl fmt::Display for Refusal {
    fn fmt(&self, f: &mut fmt::Formatter<'_>) -> fmt::Result {
        write!(f, "refused {} {}", self.number, self.place)
    }
}

impl Error for Refusal {}

/// A refusal that is printed in words: [`Refusal::in_words`].
#[derive(Debug, Clone, Copy, PartialEq, Eq)]
pub struct InWords(Refusal);

impl fmt::Display for InWords {
    fn fmt(&self, f: &mut fmt::Formatter<'_>) -> fmt::Result {
        let InWords(refusal) = self;
        write!(f, "refused {}: {}", refusal.number, refusal.text())?;
        match refusal.place_text() {
            "" => Ok(()),
            place => write!(f, "; {place} {}", refusal.place),
        }
    }
}

/// How many inputs, outputs and nodes a program file has.
#[derive(Debug, Clone, Copy, PartialEq, Eq)]
pub struct ProgramHead {
    /// The number of inputs, at most 64: [`evaluate`] takes a byte and [`evaluate_words`] a word for
    /// each.
    pub inputs: usize,
    /// The number of outputs, 1 to 64: [`quote`] needs an answer for each.
    pub outputs: usize,
    /// The number of nodes, 1 to 4,096: [`evaluate`], [`evaluate_words`], [`compile`] and [`quote`]
    /// need an entry for each.
    pub nodes: usize,
}

/// How many inputs, outputs, work lines and gates a circuit file has.
#[derive(Debug, Clone, Copy, PartialEq, Eq)]
pub struct CircuitHead {
    /// The number of inputs, at most 64.
    pub inputs: usize,
    /// The number of outputs, 1 to 64. Each has a target, which is a line.
    pub outputs: usize,
    /// The number of work lines, at most 1,024.
    pub work: usize,
    /// The number of gates, at most 8,000.
    pub gates: usize,
}

impl CircuitHead {
    /// The number of lines, inputs, targets and work lines together: as many bytes are to be lent
    /// to [`run_forwards`], [`run_backwards`] and [`undo`].
    pub fn lines(&self) -> usize {
        self.inputs + self.outputs + self.work
    }
}

/// How many questions [`evaluate_words`] answers at once: one with each bit of a word.
pub const QUESTIONS: usize = 64;

/// How many numbers [`quote`] needs in its count list for each node.
pub const COUNT_ENTRY: usize = 8;

/// How many numbers [`quote`] needs in its answer list for each output.
pub const ANSWER_ENTRY: usize = 3;

/// The largest number that a quote gives as it is. For every larger one it gives this and 1.
pub const LARGEST_EXACT: u64 = 1_000_000;

/// What the share of one output takes. A number over [`LARGEST_EXACT`] is not known: see [`exact`].
#[derive(Debug, Clone, Copy, PartialEq, Eq)]
pub struct Quote {
    /// The number of gates.
    pub gates: u64,
    /// The number of Toffolis among them.
    pub toffolis: u64,
    /// The most work lines that are in use together. Each output starts with all of them free, so a
    /// circuit needs the most of any output.
    pub work: u64,
}

/// A number of a quote, or none where it only says that there are more than [`LARGEST_EXACT`].
pub fn exact(number: u64) -> Option<u64> {
    (number <= LARGEST_EXACT).then_some(number)
}

/// The most inputs of a program.
pub const MOST_INPUTS: u64 = 64;

/// The most nodes of a program.
pub const MOST_NODES: usize = 4_096;

/// The most work lines of a circuit, and the largest grant.
pub const MOST_WORK_LINES: u64 = 1_024;

/// The most gates of a circuit file.
pub const MOST_GATES: usize = 8_000;

/// The length of the longest circuit file, of [`MOST_GATES`]. An area as long as this is always
/// enough for [`compile`] and [`undo`].
pub const LONGEST_CIRCUIT: usize = 64_028;

/// The length of the longest program file that [`parse`] writes, of [`MOST_NODES`]. An area as long as
/// this is always enough.
pub const LONGEST_PARSED: usize = 24_614;

/// Parses a formula over so many inputs, writes its program file, and gives its length.
///
/// A text of the language is a sum. A sum is products joined by `^`, a product is factors joined by
/// `&`, and a factor is `!` and a factor, a sum in brackets, `0`, `1`, or `x` and the number of an
/// input. A number has one digit, or two not starting with 0, and there are no blanks. Operators
/// group to the left. The file has one output, no mark, and a node for each `^`, `&`, `!`, `0`, `1`
/// and input of the text, none of them shared, each made when its text ends.
///
/// - `text` is only read; at most 4,096 bytes.
/// - `inputs` is the number of inputs that the program has, at most 64.
/// - `area` needs 38 bytes, and 6 for each node: [`LONGEST_PARSED`] bytes are always enough. On a
///   result the file is at its start, and the bytes past it are as they were. On refusal 11 all of
///   it is zero, on any other it is as it was.
///
/// Refusals, in this order: 17, `text` is too long; 4, `inputs` is over 64; then, byte by byte, the
/// first of 16, the text is outside the language, the place being the length of its longest prefix
/// that some text of the language begins with, 18, a byte opens one more than 64 brackets and `!`
/// together (a bracket is open up to its `)`, a `!` until its factor ends), the place being that
/// byte, and 5, an input's number is not below `inputs`, the place being the index of its node; and
/// last, 11, `area` is too short, the place being the number of nodes.
///
/// Stack: the deepest texts that were tried took 49,152 bytes.
pub fn parse(text: &[u8], inputs: u64, area: &mut [u8]) -> Result<usize, Refusal> {
    let length = result(archive::parse(text, inputs, area))?;
    Ok(length as usize)
}

/// Reads and checks a program file and gives its numbers.
///
/// The second byte of a node is its mark: 0, or 1 on an AND; anything else is refused with 5. Only
/// [`compile`] and [`quote`] look at marks.
///
/// `file` is only read. Refusals: 1 to 6.
pub fn read_program(file: &[u8]) -> Result<ProgramHead, Refusal> {
    let head = archive::read_program(file);
    let nodes = result(head.answer())? as usize;
    Ok(ProgramHead { inputs: head.inputs as usize, outputs: head.outputs as usize, nodes })
}

/// Evaluates one output of a program file on the given input bits.
///
/// - `file` is only read.
/// - `values` needs a byte for each node. On a result, byte i is the value of node i, 0 or 1, and
///   the bytes past the last node are as they were. On a refusal all of it is as it was.
/// - `inputs` is only read: one byte, 0 or 1, for each input.
/// - `output` is the output's number, from 0.
///
/// Refusals: 1 to 6 of the file; 7, `values` is too short; 14, `inputs` has the wrong length or a
/// byte that is no bit; 15, there is no such output.
pub fn evaluate(
    file: &[u8],
    values: &mut [u8],
    inputs: &[u8],
    output: u64,
) -> Result<bool, Refusal> {
    let bit = result(archive::evaluate(file, values, inputs, output))?;
    Ok(bit != 0)
}

/// Evaluates one output of a program file on [`QUESTIONS`] inputs at once, and gives the answers as
/// a word. Bit k, from the lowest on, belongs to question k in every word here: its inputs are bits k
/// of the input words, and bit k of the answer is what [`evaluate`] gives for them.
///
/// - `file` is only read.
/// - `values` needs a word for each node. On a result, word i has the values of node i, and the
///   words past the last node are as they were. On a refusal all of it is as it was.
/// - `inputs` is only read: one word, any, for each input.
/// - `output` is the output's number, from 0.
///
/// Refusals: 1 to 6 of the file; 7, `values` is too short; 14, `inputs` has the wrong length; 15,
/// there is no such output.
pub fn evaluate_words(
    file: &[u8],
    values: &mut [u64],
    inputs: &[u64],
    output: u64,
) -> Result<u64, Refusal> {
    result(archive::evaluate_words(file, values, inputs, output))
}

/// Compiles a program file to the circuit file that computes its outputs, and gives its length.
///
/// Behind the gate of a marked AND, the gates built for its two operands follow once more, last to
/// first, and the work lines that they took are free again.
///
/// - `file` is only read.
/// - `grant` is the number of work lines that the circuit may take, at most 1,024.
/// - `sizes` needs an entry for each node, at most [`MOST_NODES`]. On a result and on refusals 8 to 11, entry i is the
///   unfolded size of node i, or 16,385 if that is less, and the entries past the last node are as
///   they were. On refusals 1 to 7 all of it is as it was.
/// - `area` needs 28 bytes, and 8 for each gate: [`LONGEST_CIRCUIT`] bytes are always enough. On a
///   result the file is at its start, and the bytes past it are as they were. On refusal 11 all of it
///   is zero, on any other it is as it was.
///
/// Refusals: 1 to 6 of the file; 7, `sizes` is too short; 8, an output's unfolded size is over
/// 16,384; 9, `grant` is over 1,024; 10, more work lines are needed than granted; 11, more than
/// 8,000 gates are needed, or `area` is too short.
///
/// Stack: the construction calls itself, up to 4,096 deep. The deepest programs that were tried took
/// 790,528 bytes, so a thread that calls this needs at least 2 MiB, which is what Rust gives one.
pub fn compile(
    file: &[u8],
    grant: u64,
    sizes: &mut [u16],
    area: &mut [u8],
) -> Result<usize, Refusal> {
    let length = result(archive::compile(file, grant, sizes, area))?;
    Ok(length as usize)
}

/// Counts what each output of a program file takes, without building it, and gives the number of
/// outputs. What [`compile`] refuses with 8 to 11 is counted too. Gates that are undone at a mark
/// count as often as they are written, and work lines are the most in use together.
///
/// - `file` is only read.
/// - `counts` needs [`COUNT_ENTRY`] numbers for each node. On a result these are zero, and the
///   numbers past them are as they were. On a refusal all of it is as it was.
/// - `answers` needs [`ANSWER_ENTRY`] numbers for each output. On a result these are the gates,
///   Toffolis and work lines of output 0, then those of output 1, and so on, as [`quotes`] reads
///   them, and the numbers past them are as they were. On a refusal all of it is as it was.
///
/// Refusals: 1 to 6 of the file; 7, `counts` or `answers` is too short.
pub fn quote(file: &[u8], counts: &mut [u64], answers: &mut [u64]) -> Result<usize, Refusal> {
    let outputs = result(archive::quote(file, counts, answers))?;
    Ok(outputs as usize)
}

/// What [`quote`] left in an answer list, output by output. Where the list is longer than there are
/// outputs, the numbers past theirs are read too, as far as they make whole answers.
pub fn quotes(answers: &[u64]) -> impl Iterator<Item = Quote> + '_ {
    let (answers, _) = answers.as_chunks::<ANSWER_ENTRY>();
    answers.iter().map(|&[gates, toffolis, work]| Quote { gates, toffolis, work })
}

/// Reads and checks a circuit file and gives its numbers.
///
/// A Toffoli's first control has to be lower than its second: this and the three functions below
/// refuse a gate that breaks this with 12. Exchanging the two changes nothing that the gate does.
///
/// `file` is only read. Refusals: 1 to 4 and 12.
pub fn read_circuit(file: &[u8]) -> Result<CircuitHead, Refusal> {
    let head = archive::read_circuit(file);
    let gates = result(head.answer())? as usize;
    Ok(CircuitHead {
        inputs: head.inputs as usize,
        outputs: head.outputs as usize,
        work: head.work as usize,
        gates,
    })
}

/// Runs a circuit file on the given lines, the first gate first.
///
/// - `file` is only read.
/// - `lines` is one byte, 0 or 1, for each line: inputs, then targets, then work lines. How many
///   there are is said by [`CircuitHead::lines`]. On a result they are the lines after the run. On a
///   refusal they are as they were.
///
/// Refusals: 1 to 4 and 12 of the file; 13, `lines` has the wrong length or a byte that is no bit.
pub fn run_forwards(file: &[u8], lines: &mut [u8]) -> Result<(), Refusal> {
    result(archive::run_forwards(file, lines)).map(|_| ())
}

/// Runs a circuit file on the given lines, the last gate first, and so takes back what
/// [`run_forwards`] did.
///
/// The parameters and the refusals are those of [`run_forwards`].
pub fn run_backwards(file: &[u8], lines: &mut [u8]) -> Result<(), Refusal> {
    result(archive::run_backwards(file, lines)).map(|_| ())
}

/// Writes the circuit file that undoes a circuit except on chosen lines, and gives its length: the
/// gates whose target is not chosen, the last one first, under the same head.
///
/// - `file` is only read.
/// - `choices` is only read: one byte for each line, 1 if the line is chosen, otherwise 0.
/// - `area` needs 28 bytes, and 8 for each gate that remains. On a result the file is at its start,
///   and the bytes past it are as they were. On refusal 11 all of it is zero, on any other it is as
///   it was.
///
/// Refusals: 1 to 4 and 12 of the file; 13, `choices` has the wrong length or a byte that is no
/// bit; and, checked last, 11, `area` is too short.
pub fn undo(file: &[u8], choices: &[u8], area: &mut [u8]) -> Result<usize, Refusal> {
    let length = result(archive::undo(file, choices, area))?;
    Ok(length as usize)
}

/// Parts a result's value from a refusal.
fn result(answer: Answer) -> Result<u64, Refusal> {
    match answer.number {
        0 => Ok(answer.value),
        number => Err(Refusal { number, place: answer.value }),
    }
}

#[cfg(test)]
mod tests {
    use super::*;

    #[test]
    fn a_refusal_says_its_cause_in_words() {
        let said = |number, place| Refusal { number, place }.in_words().to_string();
        assert_eq!((cause::WORDS.len(), cause::TABLE, cause::GATE, cause::DEPTH), (18, 1, 12, 18));
        assert_eq!(said(9, 0), "refused 9: the grant is over 1,024");
        let node =
            "refused 5: a node is not in order, or names an input that is not there; at node 2";
        assert_eq!(said(5, 2), node);
        assert_eq!(said(10, 16), "refused 10: more work lines are needed than granted; needed: 16");
        assert_eq!(
            said(18, 64),
            "refused 18: more than 64 brackets and ! are open together; at byte 64"
        );
        for number in [0, 19, u64::MAX] {
            assert_eq!(said(number, 0), format!("refused {number}: "));
        }
        // Each other text is there.
        for number in 1..=18 {
            assert!(!Refusal { number, place: 0 }.text().is_empty(), "{number}");
        }
    }

    #[test]
    fn a_refusal_is_its_two_numbers() {
        assert_eq!(Refusal { number: 10, place: 16 }.to_string(), "refused 10 16");
        assert_eq!(Refusal { number: 9, place: 0 }.to_string(), "refused 9 0");
    }

    #[test]
    fn quotes_are_read_in_threes() {
        let read = |answers: &[u64]| quotes(answers).collect::<Vec<_>>();
        let first = Quote { gates: 5, toffolis: 1, work: 2 };
        let second = Quote { gates: 9, toffolis: 7, work: 8 };
        assert_eq!(read(&[]), []);
        assert_eq!(read(&[5, 1]), []);
        assert_eq!(read(&[5, 1, 2]), [first]);
        assert_eq!(read(&[5, 1, 2, 9, 7]), [first]);
        assert_eq!(read(&[5, 1, 2, 9, 7, 8]), [first, second]);
    }

    #[test]
    fn a_million_is_the_largest_exact_number() {
        assert_eq!(exact(0), Some(0));
        assert_eq!(exact(999_999), Some(999_999));
        assert_eq!(exact(1_000_000), Some(1_000_000));
        assert_eq!(exact(1_000_001), None);
    }
}
