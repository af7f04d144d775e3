//! What a run of random programs has met, so that a test can fail where it was too little.

use model::construct;
use model::program::Node::{And, Input, MarkedAnd, Not, One, Xor, Zero};
use model::program::{Node, Program};

/// Counts and largest numbers of a run.
#[derive(Debug, Default)]
pub struct Seen {
    /// How many programs.
    pub programs: u64,
    /// How many outputs of them.
    pub shares: u64,
    /// Programs with a size above the number of nodes, so that one is built more than once.
    pub with_shared_nodes: u64,
    /// Programs as wide as can be.
    pub with_64_inputs_and_64_outputs: u64,
    /// The most gates of a circuit.
    pub most_gates: usize,
    /// The most work lines of a circuit.
    pub most_work_lines: usize,
    /// The most lines of a circuit.
    pub most_lines: usize,
    /// The largest size of an output.
    pub largest_size: usize,
    /// The most nodes on an output's way down to a leaf.
    pub deepest: usize,
    /// What the ANDs that are built were of.
    pub ands: Ands,
    /// How those of them that are marked stood.
    pub marks: Marks,
    /// Runs with the work lines zero at the start.
    pub runs_from_zero: u64,
    /// Runs with another start.
    pub other_runs: u64,
    /// How many values were 0, how many 1, in the runs from zero.
    pub values: [u64; 2],
}

/// How many ANDs had such operands.
#[derive(Debug, Default, PartialEq, Eq)]
pub struct Ands {
    /// Two inputs, the lower one first.
    pub rising: u64,
    /// Two inputs, the higher one first.
    pub falling: u64,
    /// One input by one node.
    pub by_one_node: u64,
    /// One input by two nodes.
    pub by_two_nodes: u64,
    /// An input first, and another node.
    pub input_first: u64,
    /// Another node, and an input second.
    pub input_second: u64,
    /// No input.
    pub no_input: u64,
    /// NOT of an input, on either side.
    pub not_of_input: u64,
    /// A constant, on either side.
    pub constant: u64,
}

impl Ands {
    fn count(&mut self, nodes: &[Node], a: usize, b: usize) {
        let kind = match (nodes[a], nodes[b]) {
            (Input(_), Input(_)) if a == b => &mut self.by_one_node,
            (Input(j), Input(k)) if j == k => &mut self.by_two_nodes,
            (Input(j), Input(k)) if j < k => &mut self.rising,
            (Input(_), Input(_)) => &mut self.falling,
            (Input(_), _) => &mut self.input_first,
            (_, Input(_)) => &mut self.input_second,
            _ => &mut self.no_input,
        };
        *kind += 1;
        let not_of_input = |i: usize| matches!(nodes[i], Not(c) if matches!(nodes[c], Input(_)));
        let constant = |i: usize| matches!(nodes[i], Zero | One);
        self.not_of_input += u64::from([a, b].into_iter().any(not_of_input));
        self.constant += u64::from([a, b].into_iter().any(constant));
    }

    /// Fails unless operands of each kind were met so often.
    pub fn finish(&self, at_least: u64) {
        let counts = [
            self.rising,
            self.falling,
            self.by_one_node,
            self.by_two_nodes,
            self.input_first,
            self.input_second,
            self.no_input,
            self.not_of_input,
            self.constant,
        ];
        assert!(counts.iter().all(|count| *count >= at_least), "too few of a kind: {self:?}");
    }
}

/// How many marked ANDs stood so.
#[derive(Debug, Default, PartialEq, Eq)]
pub struct Marks {
    /// With no operand built, and so with nothing to undo.
    pub of_inputs: u64,
    /// With one operand built.
    pub of_one: u64,
    /// With both operands built.
    pub of_two: u64,
    /// With another marked AND below.
    pub above_a_mark: u64,
    /// With an AND below that is not marked.
    pub above_an_and: u64,
    /// As an operand of another AND.
    pub operand: u64,
}

impl Marks {
    fn count(&mut self, nodes: &[Node], a: usize, b: usize) {
        match (nodes[a], nodes[b]) {
            (Input(_), Input(_)) => self.of_inputs += 1,
            (Input(_), _) | (_, Input(_)) => self.of_one += 1,
            _ => self.of_two += 1,
        }
    }

    /// Fails unless marked ANDs of each kind were met so often.
    pub fn finish(&self, at_least: u64) {
        let Marks { of_inputs, of_one, of_two, above_a_mark, above_an_and, operand } = self;
        let counts = [of_inputs, of_one, of_two, above_a_mark, above_an_and, operand];
        assert!(counts.iter().all(|count| **count >= at_least), "too few of a kind: {self:?}");
    }
}

impl Seen {
    /// Counts a program whose circuit has so many gates and work lines.
    pub fn program(&mut self, program: &Program, gates: usize, work: usize) {
        let sizes = construct::sizes(&program.nodes);
        let depths = depths(&program.nodes);
        let most = |of: &[usize]| program.outputs.iter().map(|i| of[*i]).max().unwrap_or(0);
        let outputs = program.outputs.len();
        let largest = most(&sizes);
        self.programs += 1;
        self.shares += outputs as u64;
        self.with_shared_nodes += u64::from(largest > program.nodes.len());
        self.with_64_inputs_and_64_outputs += u64::from((program.inputs, outputs) == (64, 64));
        self.most_gates = self.most_gates.max(gates);
        self.most_work_lines = self.most_work_lines.max(work);
        self.most_lines = self.most_lines.max(program.inputs + outputs + work);
        self.largest_size = self.largest_size.max(largest);
        self.deepest = self.deepest.max(most(&depths));
        self.count_ands(program);
    }

    fn count_ands(&mut self, program: &Program) {
        let nodes = &program.nodes;
        let below = below(nodes);
        for (i, built) in built(program).into_iter().enumerate() {
            if let (true, And(a, b) | MarkedAnd(a, b)) = (built, nodes[i]) {
                self.ands.count(nodes, a, b);
                let is_marked = |operand: &usize| matches!(nodes[*operand], MarkedAnd(..));
                self.marks.operand += [a, b].iter().filter(|a| is_marked(a)).count() as u64;
            }
            if let (true, MarkedAnd(a, b)) = (built, nodes[i]) {
                self.marks.count(nodes, a, b);
                self.marks.above_a_mark += u64::from(below[i].marked);
                self.marks.above_an_and += u64::from(below[i].unmarked);
            }
        }
    }

    /// Counts so many runs from a start with these work lines, and the values that they showed.
    pub fn runs(&mut self, count: u64, work_lines: &[u8], values: &[u8]) {
        if work_lines.contains(&1) {
            self.other_runs += count;
            return;
        }
        self.runs_from_zero += count;
        for value in values {
            self.values[usize::from(*value)] += 1;
        }
    }

    /// Prints the run.
    pub fn print(&self, name: &str) {
        println!(
            "{name}: {} programs, {} shares, {} programs with shared nodes, {} with 64 inputs and \
             64 outputs",
            self.programs, self.shares, self.with_shared_nodes, self.with_64_inputs_and_64_outputs
        );
        println!(
            "{name}: at most {} gates, {} work lines, {} lines, size {}, depth {}",
            self.most_gates, self.most_work_lines, self.most_lines, self.largest_size, self.deepest
        );
        println!("{name}: {:?}", self.ands);
        println!("{name}: {:?}", self.marks);
        println!(
            "{name}: {} runs with the work lines zero, {} others; {} values 0, {} values 1",
            self.runs_from_zero, self.other_runs, self.values[0], self.values[1]
        );
    }
}

/// For each node, whether an output is made of it.
fn built(program: &Program) -> Vec<bool> {
    let mut built = vec![false; program.nodes.len()];
    for output in &program.outputs {
        built[*output] = true;
    }
    for (i, node) in program.nodes.iter().enumerate().rev() {
        if built[i] {
            match *node {
                Zero | One | Input(_) => {}
                Not(a) => built[a] = true,
                Xor(a, b) | And(a, b) | MarkedAnd(a, b) => (built[a], built[b]) = (true, true),
            }
        }
    }
    built
}

/// For each node, the nodes on its longest way down to a leaf.
fn depths(nodes: &[Node]) -> Vec<usize> {
    let mut depths: Vec<usize> = Vec::new();
    for node in nodes {
        depths.push(match *node {
            Zero | One | Input(_) => 1,
            Not(a) => 1 + depths[a],
            Xor(a, b) | And(a, b) | MarkedAnd(a, b) => 1 + depths[a].max(depths[b]),
        });
    }
    depths
}

/// Whether there is a marked AND below a node, and one that is not marked.
#[derive(Clone, Copy, Default)]
struct Below {
    marked: bool,
    unmarked: bool,
}

fn below(nodes: &[Node]) -> Vec<Below> {
    let mut below: Vec<Below> = Vec::new();
    for node in nodes {
        // The operand itself counts as well.
        let with = |a: usize| Below {
            marked: below[a].marked || matches!(nodes[a], MarkedAnd(..)),
            unmarked: below[a].unmarked || matches!(nodes[a], And(..)),
        };
        below.push(match *node {
            Zero | One | Input(_) => Below::default(),
            Not(a) => with(a),
            Xor(a, b) | And(a, b) | MarkedAnd(a, b) => Below {
                marked: with(a).marked || with(b).marked,
                unmarked: with(a).unmarked || with(b).unmarked,
            },
        });
    }
    below
}

#[cfg(test)]
mod tests {
    use super::*;

    #[test]
    fn programs_and_runs_are_counted() {
        let mut seen = Seen::default();
        let nodes = vec![Input(0), And(0, 0), Xor(1, 1), Not(0)];
        seen.program(&Program { inputs: 1, nodes, outputs: vec![2, 3] }, 12, 4);
        seen.program(&Program { inputs: 0, nodes: vec![One], outputs: vec![0] }, 1, 0);
        seen.runs(3, &[0, 0], &[1, 0, 1]);
        seen.runs(2, &[0, 1], &[1]);
        assert_eq!((seen.programs, seen.shares, seen.with_shared_nodes), (2, 3, 1));
        assert_eq!((seen.most_gates, seen.most_work_lines, seen.most_lines), (12, 4, 7));
        assert_eq!((seen.largest_size, seen.deepest), (7, 3));
        assert_eq!((seen.runs_from_zero, seen.other_runs, seen.values), (3, 2, [1, 2]));
        assert_eq!(seen.ands, Ands { by_one_node: 1, ..Ands::default() });
    }

    #[test]
    fn operands_of_ands_are_counted() {
        let leaves = [Input(0), Input(1), Input(1), Not(0), One];
        let of = |and: Node| {
            let nodes = [&leaves[..], &[And(0, 1), Xor(5, 5), and]].concat();
            let mut seen = Seen::default();
            seen.program(&Program { inputs: 2, nodes: nodes.clone(), outputs: vec![7] }, 0, 0);
            seen.program(&Program { inputs: 2, nodes, outputs: vec![0] }, 0, 0);
            seen.ands
        };
        let none = Ands::default;
        assert_eq!(of(And(0, 2)), Ands { rising: 1, ..none() });
        assert_eq!(of(And(2, 0)), Ands { falling: 1, ..none() });
        assert_eq!(of(And(1, 1)), Ands { by_one_node: 1, ..none() });
        assert_eq!(of(And(2, 1)), Ands { by_two_nodes: 1, ..none() });
        assert_eq!(of(And(0, 3)), Ands { input_first: 1, not_of_input: 1, ..none() });
        assert_eq!(of(And(4, 0)), Ands { input_second: 1, constant: 1, ..none() });
        assert_eq!(of(And(3, 4)), Ands { no_input: 1, not_of_input: 1, constant: 1, ..none() });
        // With the AND of two inputs that the XOR has below it.
        assert_eq!(of(And(6, 6)), Ands { no_input: 1, rising: 1, ..none() });
        assert_eq!(of(MarkedAnd(0, 2)), of(And(0, 2)));
    }

    #[test]
    fn marked_ands_are_counted() {
        let of = |nodes: &[Node]| {
            let mut seen = Seen::default();
            let nodes = [&[Input(0), Input(1), Not(0)], nodes].concat();
            let outputs = vec![nodes.len() - 1];
            seen.program(&Program { inputs: 2, nodes, outputs }, 0, 0);
            seen.marks
        };
        let none = Marks::default;
        assert_eq!(of(&[And(0, 2)]), none());
        assert_eq!(of(&[MarkedAnd(0, 1)]), Marks { of_inputs: 1, ..none() });
        assert_eq!(of(&[MarkedAnd(0, 2)]), Marks { of_one: 1, ..none() });
        assert_eq!(of(&[MarkedAnd(2, 2)]), Marks { of_two: 1, ..none() });
        assert_eq!(of(&[MarkedAnd(2, 2), Not(0)]), none());
        let above = Marks { of_inputs: 1, of_two: 1, above_a_mark: 1, ..none() };
        assert_eq!(of(&[MarkedAnd(0, 0), Not(3), MarkedAnd(4, 2)]), above);
        assert_eq!(of(&[MarkedAnd(0, 0), And(3, 3)]), Marks { of_inputs: 1, operand: 2, ..none() });
        let above = Marks { of_one: 1, above_an_and: 1, ..none() };
        assert_eq!(of(&[And(0, 0), MarkedAnd(3, 1)]), above);
    }
}
