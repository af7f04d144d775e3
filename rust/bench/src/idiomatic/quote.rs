//! The service quote: each node's counts from those of its operands, in the lent list.

use super::program::{read, Node, Program};
use super::Refused;

/// The largest number shown, which stands for every one above 1,000,000.
const OVER: u64 = 1_000_001;

/// The numbers of a count entry and of an answer.
type Entry = [u64; 8];
type Quote = [u64; 3];

/// Quotes the outputs of a program file and gives their number.
pub fn quote(file: &[u8], counts: &mut [u64], answers: &mut [u64]) -> Result<usize, Refused> {
    let program = read(file)?;
    let (entries, _) = counts.as_chunks_mut::<8>();
    let entries = entries.get_mut(..program.node_count()).ok_or((7, 0))?;
    let (answers, _) = answers.as_chunks_mut::<3>();
    let answers = answers.get_mut(..program.output_count().into()).ok_or((7, 0))?;

    fill(&program, entries);
    for (answer, output) in answers.iter_mut().zip(program.outputs()) {
        *answer = Count::from(&entries[usize::from(output)]).quote();
    }
    entries.fill([0; 8]);
    Ok(answers.len())
}

fn fill(program: &Program, entries: &mut [Entry]) {
    for i in 0..entries.len() {
        let count = |operand: u16| Count::from(&entries[usize::from(operand)]);
        let count = match program.node(i as u16) {
            Node::Zero => Count::default(),
            Node::One => Count { own: 1, ..Count::default() },
            Node::Input(j) => Count { own: 1, input: u64::from(j) + 1, ..Count::default() },
            Node::Not(a) => count(a).not(),
            Node::Xor(a, b) => count(a).xor(count(b)),
            Node::And { a, b, marked } => count(a).and(count(b), marked),
        };
        entries[i] = count.entry();
    }
}

fn capped(count: u64) -> u64 {
    count.min(OVER)
}

/// What building a node takes, each number capped: gates on the target it is built into and gates
/// on work lines, the same of Toffolis, the most work lines that are in use together, and those that
/// stay in use. And the input that the node is, from 1, or 0 for any other node: what it takes as an
/// operand of AND is known without looking at it again.
#[derive(Default)]
struct Count {
    own: u64,
    others: u64,
    own_toffolis: u64,
    other_toffolis: u64,
    lines: u64,
    kept: u64,
    input: u64,
}

impl Count {
    fn from(&[own, others, own_toffolis, other_toffolis, lines, kept, input, _]: &Entry) -> Count {
        Count { own, others, own_toffolis, other_toffolis, lines, kept, input }
    }

    fn entry(self) -> Entry {
        let Count { own, others, own_toffolis, other_toffolis, lines, kept, input } = self;
        [own, others, own_toffolis, other_toffolis, lines, kept, input, 0]
    }

    fn gates(&self) -> u64 {
        self.own + self.others
    }

    fn toffolis(&self) -> u64 {
        self.own_toffolis + self.other_toffolis
    }

    fn not(self) -> Count {
        Count { own: capped(self.own + 1), input: 0, ..self }
    }

    fn xor(self, b: Count) -> Count {
        Count {
            own: capped(self.own + b.own),
            others: capped(self.others + b.others),
            own_toffolis: capped(self.own_toffolis + b.own_toffolis),
            other_toffolis: capped(self.other_toffolis + b.other_toffolis),
            lines: self.lines.max(capped(self.kept + b.lines)),
            kept: capped(self.kept + b.kept),
            input: 0,
        }
    }

    /// The last gate is a Toffoli, unless both operands are one input. With a mark the others are
    /// there once more, and no line stays in use.
    fn and(self, b: Count, marked: bool) -> Count {
        let is_toffoli = self.input == 0 || self.input != b.input;
        let (a, b) = (self.control(), b.control());
        let times = 1 + u64::from(marked);
        Count {
            own: 1,
            others: capped(times * (a.gates + b.gates)),
            own_toffolis: u64::from(is_toffoli),
            other_toffolis: capped(times * (a.toffolis + b.toffolis)),
            lines: capped(a.lines.max(a.kept + b.lines)),
            kept: if marked { 0 } else { capped(a.kept + b.kept) },
            input: 0,
        }
    }

    /// What it takes as an operand of AND: an input nothing, any other node a line that it is built
    /// into.
    fn control(self) -> Control {
        if self.input == 0 {
            let (gates, toffolis) = (self.gates(), self.toffolis());
            Control { gates, toffolis, lines: self.lines + 1, kept: self.kept + 1 }
        } else {
            Control::default()
        }
    }

    /// Gates, Toffolis and lines of a share: what is on work lines is undone.
    fn quote(self) -> Quote {
        let gates = self.gates() + self.others;
        let toffolis = self.toffolis() + self.other_toffolis;
        [capped(gates), capped(toffolis), self.lines]
    }
}

/// Gates, Toffolis and work lines of an operand of AND, and those of the lines that stay in use.
#[derive(Default)]
struct Control {
    gates: u64,
    toffolis: u64,
    lines: u64,
    kept: u64,
}
