//! Circuits in formats of other tools, a file for each.

pub mod blif;
pub mod qasm;
pub mod real;

use oracle::CircuitHead;

/// What a line is for, and its number among those of its kind.
#[derive(Debug, Clone, Copy, PartialEq, Eq)]
pub enum Line {
    Input(usize),
    Target(usize),
    Work(usize),
}

impl Line {
    pub fn of(head: CircuitHead, line: usize) -> Line {
        let first_work = head.inputs + head.outputs;
        match line {
            _ if line < head.inputs => Line::Input(line),
            _ if line < first_work => Line::Target(line - head.inputs),
            _ => Line::Work(line - first_work),
        }
    }

    /// Its name in formats without registers.
    pub fn name(self) -> String {
        match self {
            Line::Input(j) => format!("input_{j}"),
            Line::Target(k) => format!("target_{k}"),
            Line::Work(i) => format!("work_{i}"),
        }
    }
}

#[cfg(test)]
mod tests {
    use super::*;

    #[test]
    fn lines_are_inputs_then_targets_then_work_lines() {
        let head = CircuitHead { inputs: 2, outputs: 1, work: 2, gates: 0 };
        let names: Vec<String> =
            (0..head.lines()).map(|line| Line::of(head, line).name()).collect();
        assert_eq!(names, ["input_0", "input_1", "target_0", "work_0", "work_1"]);
        let bare = CircuitHead { inputs: 0, outputs: 1, work: 0, gates: 0 };
        assert_eq!(Line::of(bare, 0), Line::Target(0));
    }
}
