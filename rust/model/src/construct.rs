//! The construction, from 01 with 02's A5 and A7 and section 4.1 of 001: the gates of each output's
//! share, and their numbers.
//!
//! A node is unfolded at each use, so the time that building and counting gates take grows with the
//! unfolded size; that of building under marks grows with the gates, which may be many more.

use std::cmp::Ordering::{Equal, Greater, Less};
use std::ops::Range;

use crate::circuit::{Circuit, Gate};
use crate::program::{Node, Program};

/// The gates that XOR node i into line t, with the work lines from f on all free: C.
pub fn build(nodes: &[Node], i: usize, t: usize, f: usize) -> Vec<Gate> {
    built(nodes, i, t, f).gates
}

fn built(nodes: &[Node], i: usize, t: usize, f: usize) -> Building<'_> {
    let lines = WorkLines { first: f, in_use: Vec::new(), most: 0 };
    let mut building = Building { nodes, lines, gates: Vec::new(), cleaned: Vec::new() };
    building.xor_into(i, t);
    building
}

/// The gates of output k: C, then C reversed without the gates whose target is the output's.
pub fn share(program: &Program, k: usize) -> Vec<Gate> {
    share_and_lines(program, k).0
}

/// The same, and the most work lines that were in use together.
pub(crate) fn share_and_lines(program: &Program, k: usize) -> (Vec<Gate>, usize) {
    let target = program.inputs + k;
    let Building { mut gates, lines, .. } = output_built(program, k);
    let undone: Vec<Gate> =
        gates.iter().rev().filter(|gate| gate.target() != target).copied().collect();
    gates.extend(undone);
    (gates, lines.most)
}

fn output_built(program: &Program, k: usize) -> Building<'_> {
    let target = program.inputs + k;
    let first_work_line = program.inputs + program.outputs.len();
    built(&program.nodes, program.outputs[k], target, first_work_line)
}

/// The marked ANDs of output k, each as often as it is built anew, in the order in which they end.
/// Their gates are counted from the share's first.
pub fn cleaned(program: &Program, k: usize) -> Vec<Cleaned> {
    output_built(program, k).cleaned
}

/// A marked AND as it was built.
#[derive(Debug, Clone, PartialEq, Eq)]
pub struct Cleaned {
    /// Its gates: those of its operands, its own, and those of its operands undone.
    pub gates: Range<usize>,
    /// The lines that are free again behind them.
    pub freed: Vec<usize>,
}

/// The gates of the first j outputs, one share after the other.
pub fn shares(program: &Program, j: usize) -> Vec<Gate> {
    (0..j).flat_map(|k| share(program, k)).collect()
}

/// The circuit of a program, whether a file can hold it or not.
pub fn circuit(program: &Program) -> Circuit {
    let (mut gates, mut work) = (Vec::new(), 0);
    for k in 0..program.outputs.len() {
        let (share, lines) = share_and_lines(program, k);
        gates.extend(share);
        work = work.max(lines);
    }
    Circuit { inputs: program.inputs, outputs: program.outputs.len(), work, gates }
}

/// The work lines from the first on: which are in use, and the most that were in use together.
struct WorkLines {
    first: usize,
    in_use: Vec<bool>,
    most: usize,
}

impl WorkLines {
    fn take_lowest_free(&mut self) -> usize {
        let lowest = self.in_use.iter().position(|used| !used).unwrap_or(self.in_use.len());
        match self.in_use.get_mut(lowest) {
            Some(used) => *used = true,
            None => self.in_use.push(true),
        }
        let together = self.in_use.iter().filter(|used| **used).count();
        self.most = self.most.max(together);
        self.first + lowest
    }

    /// Makes just those lines in use that were so before, and gives those that are free by that.
    fn back_to(&mut self, before: Vec<bool>) -> Vec<usize> {
        let was_free = |line: &usize| !before.get(*line).copied().unwrap_or(false);
        let freed: Vec<usize> =
            (0..self.in_use.len()).filter(|line| self.in_use[*line]).filter(was_free).collect();
        self.in_use = before;
        freed.into_iter().map(|line| self.first + line).collect()
    }
}

/// The gates so far, and the marked ANDs among them. No line is given back before the share is over
/// but at these.
struct Building<'a> {
    nodes: &'a [Node],
    lines: WorkLines,
    gates: Vec<Gate>,
    cleaned: Vec<Cleaned>,
}

impl Building<'_> {
    fn xor_into(&mut self, i: usize, t: usize) {
        match self.nodes[i] {
            Node::Zero => {}
            Node::One => self.gates.push(Gate::Not(t)),
            Node::Input(j) => self.gates.push(Gate::Cnot(j, t)),
            Node::Not(a) => {
                self.gates.push(Gate::Not(t));
                self.xor_into(a, t);
            }
            Node::Xor(a, b) => {
                self.xor_into(a, t);
                self.xor_into(b, t);
            }
            Node::And(a, b) => self.xor_and_into(a, b, t),
            Node::MarkedAnd(a, b) => self.xor_marked_and_into(a, b, t),
        }
    }

    fn xor_and_into(&mut self, a: usize, b: usize, t: usize) {
        let first = self.control(a);
        let second = self.control(b);
        self.gates.push(and_into(first, second, t));
    }

    /// Behind the AND's gate, those of its operands follow again, the last one first. So the lines
    /// that it took hold what they held before, and are free.
    fn xor_marked_and_into(&mut self, a: usize, b: usize, t: usize) {
        let (before, start) = (self.lines.in_use.clone(), self.gates.len());
        self.xor_and_into(a, b, t);
        let own = self.gates.len() - 1;
        let undone: Vec<Gate> = self.gates[start..own].iter().rev().copied().collect();
        self.gates.extend(undone);
        let freed = self.lines.back_to(before);
        self.cleaned.push(Cleaned { gates: start..self.gates.len(), freed });
    }

    /// The line that holds an operand of AND: an input's own, for any other node a work line that is
    /// taken and built into.
    fn control(&mut self, operand: usize) -> usize {
        if let Node::Input(j) = self.nodes[operand] {
            return j;
        }
        let line = self.lines.take_lowest_free();
        self.xor_into(operand, line);
        line
    }
}

/// The gate that XORs the AND of two lines into t: the lower control comes first, and of a line with
/// itself the AND is the line.
fn and_into(first: usize, second: usize, t: usize) -> Gate {
    match first.cmp(&second) {
        Less => Gate::Toffoli(first, second, t),
        Equal => Gate::Cnot(first, t),
        Greater => Gate::Toffoli(second, first, t),
    }
}

/// The unfolded size of node i.
pub fn size(nodes: &[Node], i: usize) -> usize {
    match nodes[i] {
        Node::Zero | Node::One | Node::Input(_) => 1,
        Node::Not(a) => 1 + size(nodes, a),
        Node::Xor(a, b) | Node::And(a, b) | Node::MarkedAnd(a, b) => {
            1 + size(nodes, a) + size(nodes, b)
        }
    }
}

/// Each node's unfolded size, or 16,385 if that is less.
pub fn sizes(nodes: &[Node]) -> Vec<usize> {
    let mut sizes: Vec<usize> = Vec::new();
    for node in nodes {
        let size = match *node {
            Node::Zero | Node::One | Node::Input(_) => 1,
            Node::Not(a) => 1 + sizes[a],
            Node::Xor(a, b) | Node::And(a, b) | Node::MarkedAnd(a, b) => 1 + sizes[a] + sizes[b],
        };
        sizes.push(size.min(16_385));
    }
    sizes
}

/// How many gates build node i, or `usize::MAX` if that is less: nested marks multiply them.
pub fn gate_count(nodes: &[Node], i: usize) -> usize {
    let count = |operand| gate_count(nodes, operand);
    match nodes[i] {
        Node::Zero => 0,
        Node::One | Node::Input(_) => 1,
        Node::Not(a) => count(a).saturating_add(1),
        Node::Xor(a, b) => count(a).saturating_add(count(b)),
        Node::And(a, b) => operands_gate_count(nodes, a, b).saturating_add(1),
        Node::MarkedAnd(a, b) => {
            operands_gate_count(nodes, a, b).saturating_mul(2).saturating_add(1)
        }
    }
}

/// The same of both operands of an AND, without those that are inputs.
fn operands_gate_count(nodes: &[Node], a: usize, b: usize) -> usize {
    let count = |operand| match nodes[operand] {
        Node::Input(_) => 0,
        _ => gate_count(nodes, operand),
    };
    count(a).saturating_add(count(b))
}

/// How many of them have the line that node i is built into as their target.
pub fn own_gate_count(nodes: &[Node], i: usize) -> usize {
    match nodes[i] {
        Node::Zero => 0,
        Node::One | Node::Input(_) => 1,
        Node::Not(a) => 1 + own_gate_count(nodes, a),
        Node::Xor(a, b) => own_gate_count(nodes, a) + own_gate_count(nodes, b),
        Node::And(_, _) | Node::MarkedAnd(_, _) => 1,
    }
}

/// How many gates the share of an output has whose node is i: those that build it, and all but its
/// own again; or `usize::MAX` if that is less.
pub fn share_gate_count(nodes: &[Node], i: usize) -> usize {
    let (all, own) = (gate_count(nodes, i), own_gate_count(nodes, i));
    all.saturating_add(all - own)
}

/// The circuit's gates, counted, or `usize::MAX` if that is less.
pub fn gates_needed(program: &Program) -> usize {
    let count = |i: &usize| share_gate_count(&program.nodes, *i);
    program.outputs.iter().map(count).fold(0, usize::saturating_add)
}

/// The work lines that building a node takes, or `usize::MAX` if that is less.
#[derive(Debug, Clone, Copy, Default, PartialEq, Eq)]
pub struct LineCount {
    /// The most that are in use together.
    pub most: usize,
    /// Those that are still in use when it is built.
    pub kept: usize,
}

impl LineCount {
    /// Of one node and then another, which finds the lines of the first in use.
    fn then(self, next: LineCount) -> LineCount {
        LineCount {
            most: self.most.max(self.kept.saturating_add(next.most)),
            kept: self.kept.saturating_add(next.kept),
        }
    }
}

/// The same of each node, counted from its operands.
pub fn line_counts(nodes: &[Node]) -> Vec<LineCount> {
    let mut counts: Vec<LineCount> = Vec::new();
    for node in nodes {
        // An operand of AND, which has its own line before the others, unless it is an input.
        let control = |operand: usize| match nodes[operand] {
            Node::Input(_) => LineCount::default(),
            _ => LineCount { most: 1, kept: 1 }.then(counts[operand]),
        };
        let count = match *node {
            Node::Zero | Node::One | Node::Input(_) => LineCount::default(),
            Node::Not(a) => counts[a],
            Node::Xor(a, b) => counts[a].then(counts[b]),
            Node::And(a, b) => control(a).then(control(b)),
            Node::MarkedAnd(a, b) => LineCount { kept: 0, ..control(a).then(control(b)) },
        };
        counts.push(count);
    }
    counts
}

/// How many work lines building node i takes: the most that are in use together.
pub fn work_lines(nodes: &[Node], i: usize) -> usize {
    line_counts(&nodes[..=i])[i].most
}

/// The circuit's w, counted: the most work lines that any output takes.
pub fn most_work_lines(program: &Program) -> usize {
    let counts = line_counts(&program.nodes);
    program.outputs.iter().map(|i| counts[*i].most).max().unwrap_or(0)
}

#[cfg(test)]
mod tests {
    use super::*;
    use crate::program::tests::every_table;
    use crate::{circuit, evaluate, run};

    use Gate::{Cnot, Not, Toffoli};

    fn program(inputs: usize, nodes: &[Node], outputs: &[usize]) -> Program {
        Program { inputs, nodes: nodes.to_vec(), outputs: outputs.to_vec() }
    }

    /// AND of the three-input case's AND with a fourth input.
    fn four() -> Program {
        let nodes = [
            Node::Input(0),
            Node::Input(1),
            Node::And(0, 1),
            Node::Input(2),
            Node::And(2, 3),
            Node::Input(3),
            Node::And(4, 5),
        ];
        program(4, &nodes, &[6])
    }

    /// The circuit has this w and these gates, and the numbers say so.
    fn gives(program: &Program, work: usize, gates: &[Gate]) {
        let circuit = circuit(program);
        assert_eq!((circuit.inputs, circuit.outputs), (program.inputs, program.outputs.len()));
        assert_eq!((circuit.work, &circuit.gates[..]), (work, gates));
        assert_eq!(gates_needed(program), gates.len());
        assert_eq!(most_work_lines(program), work);
    }

    /// The lines after the circuit's file has run forwards.
    fn ran(circuit: &Circuit, start: &[u8]) -> Vec<u8> {
        let mut lines = start.to_vec();
        assert_eq!(run::forwards(&circuit::write(circuit), &mut lines), Ok(()));
        lines
    }

    /// A line that was given back is taken before any higher one, and does not count while it is free.
    #[test]
    fn the_lowest_line_not_in_use_is_taken() {
        let mut lines = WorkLines { first: 10, in_use: vec![true, false, true, false], most: 2 };
        assert_eq!((lines.take_lowest_free(), lines.most), (11, 3));
        assert_eq!((lines.take_lowest_free(), lines.most), (13, 4));
        assert_eq!((lines.take_lowest_free(), lines.most), (14, 5));
        assert_eq!(lines.back_to(vec![true, false, false, true]), [11, 12, 14]);
        assert_eq!((lines.take_lowest_free(), lines.most), (11, 5));
        assert_eq!(lines.back_to(vec![]), [10, 11, 13]);
        assert_eq!((lines.take_lowest_free(), lines.most), (10, 5));
    }

    #[test]
    fn the_whole_case() {
        let and = program(2, &[Node::Input(0), Node::Input(1), Node::And(0, 1)], &[2]);
        gives(&and, 0, &[Toffoli(0, 1, 2)]);
        assert_eq!(circuit::write(&circuit(&and)).len(), 36);
        assert_eq!(ran(&circuit(&and), &[1, 1, 1]), [1, 1, 0]);
        assert_eq!(build(&and.nodes, 2, 2, 3), [Toffoli(0, 1, 2)]);
        assert_eq!(build(&and.nodes, 2, 7, 20), [Toffoli(0, 1, 7)]);
    }

    /// Input 1 as the first operand, by its place in the table or in the node.
    #[test]
    fn the_lower_input_is_the_first_control() {
        let falling = [Node::Input(1), Node::Input(0), Node::And(0, 1)];
        gives(&program(2, &falling, &[2]), 0, &[Toffoli(0, 1, 2)]);
        let exchanged = [Node::Input(0), Node::Input(1), Node::And(1, 0)];
        gives(&program(2, &exchanged, &[2]), 0, &[Toffoli(0, 1, 2)]);
        let far = [Node::Input(63), Node::Input(2), Node::And(0, 1)];
        gives(&program(64, &far, &[2]), 0, &[Toffoli(2, 63, 64)]);
    }

    /// By one node, and by two that name it.
    #[test]
    fn and_of_an_input_with_itself_is_a_cnot() {
        gives(&program(2, &[Node::Input(1), Node::And(0, 0)], &[1]), 0, &[Cnot(1, 2)]);
        let twice = [Node::Input(1), Node::Input(1), Node::And(0, 1)];
        gives(&program(2, &twice, &[2]), 0, &[Cnot(1, 2)]);
        // Below an AND it is built into a work line, and undone.
        let below = [Node::Input(0), Node::Input(1), Node::And(0, 0), Node::And(1, 2)];
        gives(&program(2, &below, &[3]), 1, &[Cnot(0, 3), Toffoli(1, 3, 2), Cnot(0, 3)]);
        // Of any other node, each operand has a line of its own.
        let nodes = [Node::Input(0), Node::Not(0), Node::And(1, 1)];
        let build = [Not(2), Cnot(0, 2), Not(3), Cnot(0, 3), Toffoli(2, 3, 1)];
        let clean = [Cnot(0, 3), Not(3), Cnot(0, 2), Not(2)];
        gives(&program(1, &nodes, &[2]), 2, &[&build[..], &clean].concat());
    }

    #[test]
    fn nor_as_and_of_two_nots() {
        let nodes = [Node::Input(0), Node::Input(1), Node::Not(0), Node::Not(1), Node::And(2, 3)];
        let build = [Not(3), Cnot(0, 3), Not(4), Cnot(1, 4), Toffoli(3, 4, 2)];
        let clean = [Cnot(1, 4), Not(4), Cnot(0, 3), Not(3)];
        gives(&program(2, &nodes, &[4]), 2, &[&build[..], &clean].concat());
    }

    /// A NOT of an input is no input: it takes a line, on either side.
    #[test]
    fn and_of_an_input_with_a_not_of_an_input() {
        let gates = [Not(3), Cnot(1, 3), Toffoli(0, 3, 2), Cnot(1, 3), Not(3)];
        for and in [Node::And(0, 2), Node::And(2, 0)] {
            let nodes = [Node::Input(0), Node::Input(1), Node::Not(1), and];
            gives(&program(2, &nodes, &[3]), 1, &gates);
        }
        // Also of the input that is the other operand.
        let itself = [Node::Input(0), Node::Not(0), Node::And(0, 1)];
        let gates = [Not(2), Cnot(0, 2), Toffoli(0, 2, 1), Cnot(0, 2), Not(2)];
        gives(&program(1, &itself, &[2]), 1, &gates);
    }

    /// Constants take a line each, though ZERO builds nothing there.
    #[test]
    fn and_of_constants() {
        for and in [Node::And(0, 1), Node::And(1, 0)] {
            gives(&program(1, &[Node::Zero, Node::Input(0), and], &[2]), 1, &[Toffoli(0, 2, 1)]);
            let gates = [Not(2), Toffoli(0, 2, 1), Not(2)];
            gives(&program(1, &[Node::One, Node::Input(0), and], &[2]), 1, &gates);
        }
        gives(&program(0, &[Node::Zero, Node::And(0, 0)], &[1]), 2, &[Toffoli(1, 2, 0)]);
        let both = program(0, &[Node::Zero, Node::One, Node::And(0, 1)], &[2]);
        gives(&both, 2, &[Not(2), Toffoli(1, 2, 0), Not(2)]);
    }

    fn three() -> Program {
        let nodes =
            [Node::Input(0), Node::Input(1), Node::And(0, 1), Node::Input(2), Node::And(2, 3)];
        program(3, &nodes, &[4])
    }

    #[test]
    fn and_of_three_inputs() {
        gives(&three(), 1, &[Toffoli(0, 1, 4), Toffoli(2, 4, 3), Toffoli(0, 1, 4)]);
    }

    /// With line 4 starting at 1 the target stays 1, and line 4 ends 1.
    #[test]
    fn and_of_three_inputs_with_a_work_line_at_1() {
        assert_eq!(ran(&circuit(&three()), &[1, 1, 1, 1, 0]), [1, 1, 1, 0, 0]);
        assert_eq!(ran(&circuit(&three()), &[1, 1, 1, 1, 1]), [1, 1, 1, 1, 1]);
    }

    #[test]
    fn and_of_an_input_and_an_and() {
        let nodes =
            [Node::Input(0), Node::Input(1), Node::Input(2), Node::And(1, 2), Node::And(0, 3)];
        gives(
            &program(3, &nodes, &[4]),
            1,
            &[Toffoli(1, 2, 4), Toffoli(0, 4, 3), Toffoli(1, 2, 4)],
        );
    }

    /// The first operand is built, on lines of its own, before the second takes its line.
    #[test]
    fn and_of_two_ands_of_three_inputs() {
        let nodes = [
            Node::Input(0),
            Node::Input(1),
            Node::Input(2),
            Node::And(0, 1),
            Node::And(3, 2),
            Node::And(2, 3),
            Node::And(4, 5),
        ];
        let build = [
            Toffoli(0, 1, 5),
            Toffoli(2, 5, 4),
            Toffoli(0, 1, 7),
            Toffoli(2, 7, 6),
            Toffoli(4, 6, 3),
        ];
        let clean = [Toffoli(2, 7, 6), Toffoli(0, 1, 7), Toffoli(2, 5, 4), Toffoli(0, 1, 5)];
        gives(&program(3, &nodes, &[6]), 4, &[&build[..], &clean].concat());
    }

    #[test]
    fn and_of_four_inputs() {
        let build = [Toffoli(0, 1, 6), Toffoli(2, 6, 5), Toffoli(3, 5, 4)];
        let clean = [Toffoli(2, 6, 5), Toffoli(0, 1, 6)];
        gives(&four(), 2, &[&build[..], &clean].concat());
    }

    /// Why C is reversed: in its own order, the gate on line 5 runs when line 6, its control, is 0
    /// again.
    #[test]
    fn undone_in_forward_order_line_5_stays_dirty() {
        let start = [1, 1, 1, 1, 0, 0, 0];
        assert_eq!(ran(&circuit(&four()), &start), [1, 1, 1, 1, 1, 0, 0]);

        let mut gates = build(&four().nodes, 6, 4, 5);
        let again: Vec<Gate> = gates.iter().filter(|gate| gate.target() != 4).copied().collect();
        assert_eq!(again, [Toffoli(0, 1, 6), Toffoli(2, 6, 5)]);
        gates.extend(again);
        let forward = Circuit { gates, ..circuit(&four()) };
        assert_eq!(ran(&forward, &start), [1, 1, 1, 1, 1, 1, 0]);
    }

    /// From every start of a circuit with one output: its value is XORed into the target where the
    /// work lines start at zero, and every other line ends as it started.
    fn holds_from_every_start(program: &Program) {
        let circuit = circuit(program);
        let (target, lines) = (program.inputs, circuit.lines());
        for state in 0..1_usize << lines {
            let start: Vec<u8> = (0..lines).map(|line| (state >> line & 1) as u8).collect();
            let mut after = start.clone();
            circuit.gates.iter().for_each(|gate| run::step(*gate, &mut after));
            if !start[target + 1..].contains(&1) {
                let mut values = vec![0; program.nodes.len()];
                evaluate::fill(&program.nodes, &start[..target], &mut values);
                let value = values[program.outputs[0]];
                assert_eq!(after[target], start[target] ^ value, "{start:?}, {program:?}");
            }
            after[target] = start[target];
            assert_eq!(after, start, "{program:?}");
        }
    }

    #[test]
    fn the_right_order_restores_every_work_line() {
        holds_from_every_start(&three());
        holds_from_every_start(&four());
    }

    /// Every table of four nodes over two inputs, its last as output, but for those with more than
    /// six work lines.
    fn small_tables() -> Vec<Vec<Node>> {
        let mut tables = every_table(4);
        assert_eq!(tables.len(), 4 * 8 * 18 * 34);
        tables.retain(|nodes| work_lines(nodes, 3) <= 6);
        assert_eq!(tables.len(), 19_474);
        tables
    }

    #[test]
    fn every_small_table_computes_its_value() {
        for nodes in small_tables() {
            holds_from_every_start(&program(2, &nodes, &[3]));
        }
    }

    /// From every start, each line that a marked AND frees holds behind its last gate what it held
    /// before its first, and so does every other line but the AND's target.
    #[test]
    fn every_marked_and_of_a_small_table_cleans_its_lines() {
        let (mut ands, mut freed) = (0, 0);
        for nodes in small_tables() {
            let program = program(2, &nodes, &[3]);
            let circuit = circuit(&program);
            for cleaned in cleaned(&program, 0) {
                cleans(&circuit, &cleaned);
                ands += 1;
                freed += cleaned.freed.len();
            }
        }
        assert!(ands > 9_000 && freed > 14_000, "{ands} marked ANDs, {freed} lines");
    }

    fn cleans(circuit: &Circuit, cleaned: &Cleaned) {
        let gates = &circuit.gates[cleaned.gates.clone()];
        let target = gates[gates.len() / 2].target();
        for state in 0..1_usize << circuit.lines() {
            let before: Vec<u8> =
                (0..circuit.lines()).map(|line| (state >> line & 1) as u8).collect();
            let mut after = before.clone();
            gates.iter().for_each(|gate| run::step(*gate, &mut after));
            assert!(cleaned.freed.iter().all(|line| after[*line] == before[*line]), "{cleaned:?}");
            after[target] = before[target];
            assert_eq!(after, before, "{cleaned:?}");
        }
    }

    /// The table without its marks.
    fn unmarked(nodes: &[Node]) -> Vec<Node> {
        let unmarked = |node: &Node| match *node {
            Node::MarkedAnd(a, b) => Node::And(a, b),
            node => node,
        };
        nodes.iter().map(unmarked).collect()
    }

    /// At most s - 1 work lines for a size s, and without marks 2 s - 1 gates, and some tables reach
    /// each of them. Marks take no more lines, and no fewer gates.
    #[test]
    fn the_size_bounds_lines_and_gates() {
        let mut reached = [0, 0];
        for nodes in every_table(4) {
            let without = unmarked(&nodes);
            let (size, gates) = (size(&nodes, 3), share_gate_count(&without, 3));
            let work = work_lines(&without, 3);
            assert!(work < size && gates < 2 * size, "{work} and {gates} of {size}, {nodes:?}");
            reached[0] += usize::from(size > 1 && work == size - 1);
            reached[1] += usize::from(size > 1 && gates == 2 * size - 1);
            assert!(work_lines(&nodes, 3) <= work, "{nodes:?}");
            assert!(share_gate_count(&nodes, 3) >= gates, "{nodes:?}");
        }
        assert!(reached.iter().all(|count| *count > 100), "{reached:?}");
    }

    /// Such an AND has nothing to undo, and frees no line.
    #[test]
    fn a_marked_and_of_inputs() {
        let nodes = [Node::Input(0), Node::Input(1), Node::MarkedAnd(1, 0), Node::MarkedAnd(1, 1)];
        let program = program(2, &nodes, &[2, 3]);
        gives(&program, 0, &[Toffoli(0, 1, 2), Cnot(1, 3)]);
        assert_eq!(cleaned(&program, 0), [Cleaned { gates: 0..1, freed: vec![] }]);
    }

    /// XOR of AND(AND(input 0, input 1), input 2) and AND(input 2, AND(input 1, input 0)), by these
    /// two nodes.
    fn two_of_three(first: Node, second: Node) -> Program {
        let [and, xor] = [Node::And(0, 1), Node::Xor(4, 5)];
        let nodes = [Node::Input(0), Node::Input(1), Node::Input(2), and, first, second, xor];
        program(3, &nodes, &[6])
    }

    /// The second AND takes the line that the first one has given back, and what was undone once is
    /// undone again at the end.
    #[test]
    fn xor_of_two_marked_ands() {
        let (first, second) = (Toffoli(0, 1, 4), Toffoli(2, 4, 3));
        let build = [first, second, first];
        let both = two_of_three(Node::MarkedAnd(3, 2), Node::MarkedAnd(2, 3));
        gives(&both, 1, &[&build[..], &build, &[first; 4]].concat());
        let cleaned_at = |gates| Cleaned { gates, freed: vec![4] };
        assert_eq!(cleaned(&both, 0), [cleaned_at(0..3), cleaned_at(3..6)]);

        let only_first = two_of_three(Node::MarkedAnd(3, 2), Node::And(2, 3));
        gives(&only_first, 1, &[&build[..], &[first, second], &[first; 3]].concat());
        // The line of the first one stays in use, and the second one's alone is given back.
        let only_second = two_of_three(Node::And(3, 2), Node::MarkedAnd(2, 3));
        let (third, fourth) = (Toffoli(0, 1, 5), Toffoli(2, 5, 3));
        gives(&only_second, 2, &[first, second, third, fourth, third, third, third, first]);
        assert_eq!(cleaned(&only_second, 0), [Cleaned { gates: 2..5, freed: vec![5] }]);
        let none = two_of_three(Node::And(3, 2), Node::And(2, 3));
        gives(&none, 2, &[first, second, third, fourth, third, first]);
    }

    /// AND of four inputs, the lower two of its three ANDs marked or not. The first AND has nothing
    /// to undo.
    #[test]
    fn marks_below_an_and() {
        let [a, b, c] = [Toffoli(0, 1, 6), Toffoli(2, 6, 5), Toffoli(3, 5, 4)];
        let mut four = four();
        four.nodes[4] = Node::MarkedAnd(2, 3);
        gives(&four, 2, &[a, b, a, c, a, b, a]);
        four.nodes[6] = Node::MarkedAnd(4, 5);
        gives(&four, 2, &[a, b, a, c, a, b, a, a, b, a, a, b, a]);
        let at = |gates, freed| Cleaned { gates, freed: vec![freed] };
        assert_eq!(cleaned(&four, 0), [at(0..3, 6), at(0..7, 5)]);
        four.nodes[4] = Node::And(2, 3);
        gives(&four, 2, &[a, b, c, b, a, a, b, b, a]);
        assert_eq!(cleaned(&four, 0), [Cleaned { gates: 0..5, freed: vec![5, 6] }]);
    }

    /// The second operand takes the line behind those in use: one where the first has given its own
    /// back, three where it has not. The most were in use within the first, and not at the end.
    #[test]
    fn the_most_lines_are_those_in_use_together() {
        let inputs: Vec<Node> = (0..4).map(Node::Input).collect();
        let three = |and: Node| [&inputs[..], &[Node::Not(0), Node::Not(1), and]].concat();
        let of = |and: Node| {
            program(4, &[three(and), vec![Node::Not(2), Node::And(6, 7)]].concat(), &[8])
        };
        let build = [Not(6), Cnot(0, 6), Not(7), Cnot(1, 7), Toffoli(6, 7, 5)];
        let undo = [Cnot(1, 7), Not(7), Cnot(0, 6), Not(6)];
        let last = |line| [Not(line), Cnot(2, line), Toffoli(5, line, 4), Cnot(2, line), Not(line)];
        let marked = of(Node::MarkedAnd(4, 5));
        gives(&marked, 3, &[&build[..], &undo, &last(6), &build[..4], &build[4..], &undo].concat());
        assert_eq!(line_counts(&marked.nodes)[8], LineCount { most: 3, kept: 2 });
        let unmarked = of(Node::And(4, 5));
        gives(&unmarked, 4, &[&build[..], &last(8), &build[4..], &undo].concat());
        assert_eq!(line_counts(&unmarked.nodes)[8], LineCount { most: 4, kept: 4 });
    }

    /// A marked node is built and undone anew at each use, on the same line.
    #[test]
    fn a_shared_marked_and_takes_its_lines_again() {
        let mut nodes = [&three().nodes[..], &[Node::Xor(4, 4)]].concat();
        nodes[4] = Node::MarkedAnd(2, 3);
        let build = [Toffoli(0, 1, 4), Toffoli(2, 4, 3), Toffoli(0, 1, 4)];
        let gates = [&build[..], &build, &[Toffoli(0, 1, 4); 4]].concat();
        gives(&program(3, &nodes, &[5]), 1, &gates);
    }

    /// With n ANDs, each of the one before, all marked, a share has 2^(n + 1) - 3 gates.
    #[test]
    fn counts_of_nested_marks_do_not_overflow() {
        let mut nodes = vec![Node::Input(0), Node::MarkedAnd(0, 0)];
        nodes.extend((1..8_000).map(|before| Node::MarkedAnd(before, 0)));
        for n in 1..=62 {
            assert_eq!(share_gate_count(&nodes, n), (1_usize << (n + 1)) - 3);
        }
        assert_eq!(share_gate_count(&nodes, 63), usize::MAX - 2);
        for n in [64, 65, 8_000] {
            assert_eq!(gate_count(&nodes, n), usize::MAX);
            assert_eq!(share_gate_count(&nodes, n), usize::MAX);
        }
        assert_eq!(gates_needed(&program(1, &nodes, &[62, 62, 2, 1])), usize::MAX);
        assert_eq!(gates_needed(&program(1, &nodes, &[62, 61, 61, 2, 1])), usize::MAX - 2);
        assert_eq!(work_lines(&nodes, 8_000), 7_999);
    }

    #[test]
    fn constants_inputs_and_xor() {
        gives(&program(1, &[Node::Input(0), Node::Xor(0, 0)], &[1]), 0, &[Cnot(0, 1); 2]);
        gives(&program(0, &[Node::Zero], &[0]), 0, &[]);
        gives(&program(0, &[Node::One], &[0]), 0, &[Not(0)]);
        gives(&program(0, &[Node::One, Node::Not(0)], &[1]), 0, &[Not(0), Not(0)]);
        gives(&program(2, &[Node::Input(1)], &[0]), 0, &[Cnot(1, 2)]);
        let not =
            program(2, &[Node::Input(0), Node::Not(0), Node::Input(1), Node::Xor(1, 2)], &[3]);
        gives(&not, 0, &[Not(2), Cnot(0, 2), Cnot(1, 2)]);
    }

    /// What stands on the target is not undone.
    #[test]
    fn xor_of_two_ands() {
        let mut nodes: Vec<Node> = (0..4).map(Node::Input).collect();
        nodes.extend([Node::And(0, 1), Node::And(3, 2), Node::Xor(4, 5)]);
        gives(&program(4, &nodes, &[6]), 0, &[Toffoli(0, 1, 4), Toffoli(2, 3, 4)]);
        let same = [Node::Input(0), Node::And(0, 0), Node::Xor(1, 1)];
        gives(&program(1, &same, &[2]), 0, &[Cnot(0, 1); 2]);
    }

    /// A node is built anew at each use, and its lines are not given back in between.
    #[test]
    fn a_shared_and_takes_new_lines_at_each_use() {
        let nodes = [&three().nodes[..], &[Node::Xor(4, 4)]].concat();
        let build = [Toffoli(0, 1, 4), Toffoli(2, 4, 3), Toffoli(0, 1, 5), Toffoli(2, 5, 3)];
        let clean = [Toffoli(0, 1, 5), Toffoli(0, 1, 4)];
        gives(&program(3, &nodes, &[5]), 2, &[&build[..], &clean].concat());
    }

    /// Each output has its own target, and all work lines are free again before the next.
    #[test]
    fn shares_follow_in_output_order() {
        let nodes = [Node::Input(0), Node::One, Node::And(0, 1), Node::And(2, 0)];
        let three = program(1, &nodes, &[2, 3, 1]);
        let first = [Not(4), Toffoli(0, 4, 1), Not(4)];
        let second = [Not(5), Toffoli(0, 5, 4), Toffoli(0, 4, 2), Toffoli(0, 5, 4), Not(5)];
        gives(&three, 2, &[&first[..], &second, &[Not(3)]].concat());

        assert_eq!(shares(&three, 0), []);
        assert_eq!(shares(&three, 1), first);
        assert_eq!(shares(&three, 2), [&first[..], &second].concat());
        assert_eq!(share(&three, 1), second);
    }

    #[test]
    fn the_xor_chain_has_no_gates_and_size_16383() {
        let mut nodes = vec![Node::Zero];
        nodes.extend((0..13).map(|before| Node::Xor(before, before)));
        assert_eq!(size(&nodes, 13), 16_383);
        gives(&program(0, &nodes, &[13]), 0, &[]);

        nodes.extend([Node::Not(13), Node::Not(14), Node::Not(15), Node::And(15, 15)]);
        assert_eq!((size(&nodes, 14), size(&nodes, 15)), (16_384, 16_385));
        assert_eq!((size(&nodes, 16), size(&nodes, 17)), (16_386, 32_771));
        let sizes = sizes(&nodes);
        assert_eq!(sizes[..4], [1, 3, 7, 15]);
        assert_eq!(sizes[12..], [8_191, 16_383, 16_384, 16_385, 16_385, 16_385]);
    }
}
