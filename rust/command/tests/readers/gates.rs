//! The gates of a circuit that is written as a BLIF model.
//!
//! Each line has a signal, at first `input_0`, or `target_0_0` and `work_0_0`, which are 0. Behind its
//! k-th gate it is `input_0_k`, `target_0_k` or `work_0_k`, made by NOT of the signal before, by its
//! XOR with a control's, or by its XOR with the AND of two. `target_0` is the last signal of its line.

use std::collections::HashMap;

use model::circuit::{Circuit, Gate};

use super::blif::{self, Table};
use super::{gate, Read};

pub fn read(text: &str) -> Read<Circuit> {
    let network = blif::read(text)?;
    let (inputs, outputs) = (network.inputs.len(), network.outputs.len());
    let is_named = network.model == "circuit"
        && network.inputs == numbered("input", "", inputs)
        && network.outputs == numbered("target", "", outputs);
    if !is_named {
        return Err("the model, an input or an output has another name".to_string());
    }
    let (constants, others): (Vec<_>, Vec<_>) =
        network.tables.iter().partition(|table| table.inputs.is_empty());
    let (ends, gates): (Vec<_>, Vec<_>) =
        others.into_iter().partition(|table| network.outputs.contains(&table.output));
    let work = constants.len().checked_sub(outputs).ok_or("a target has no start")?;
    check_starts(&constants, outputs, work)?;
    let mut lines = Lines::new(inputs, outputs, work);
    let gates = gates.iter().map(|table| lines.gate(table)).collect::<Read<Vec<Gate>>>()?;
    for (output, line) in network.outputs.iter().zip(inputs..) {
        lines.check_end(&ends, output, line)?;
    }
    Ok(Circuit { inputs, outputs, work, gates })
}

/// Names of a group with their numbers, and something behind them.
fn numbered(group: &str, behind: &str, count: usize) -> Vec<String> {
    (0..count).map(|at| format!("{group}_{at}{behind}")).collect()
}

/// Each target and each work line starts at 0, in any order.
fn check_starts(constants: &[&Table], outputs: usize, work: usize) -> Read<()> {
    let wanted = [numbered("target", "_0", outputs), numbered("work", "_0", work)].concat();
    for table in constants {
        if !wanted.contains(&table.output) || table.evaluate(&[]) != 0 {
            return Err(format!("{} is no start of a line", table.output));
        }
    }
    // No signal is made twice, so these are all of them.
    Ok(())
}

/// The lines as far as the gates are read: their names, how many gates they have, and the line of
/// each signal that is not overwritten yet.
struct Lines {
    names: Vec<String>,
    gates: Vec<usize>,
    now: HashMap<String, usize>,
}

impl Lines {
    fn new(inputs: usize, outputs: usize, work: usize) -> Lines {
        let group = |name, count| numbered(name, "", count);
        let names =
            [group("input", inputs), group("target", outputs), group("work", work)].concat();
        let start = |(line, name): (usize, &String)| {
            (if line < inputs { name.clone() } else { format!("{name}_0") }, line)
        };
        let now = names.iter().enumerate().map(start).collect();
        Lines { gates: vec![0; names.len()], names, now }
    }

    fn line(&self, signal: &String) -> Read<usize> {
        self.now.get(signal).copied().ok_or(format!("{signal} is no line's signal now"))
    }

    /// The gate of a table: its controls, and the target's signal, which it makes anew.
    fn gate(&mut self, table: &Table) -> Read<Gate> {
        let lines = table.inputs.iter().map(|signal| self.line(signal));
        let lines = lines.collect::<Read<Vec<usize>>>()?;
        let (Some(target), Some(old)) = (lines.last(), table.inputs.last()) else {
            return Err(format!("{} has no start", table.output));
        };
        self.gates[*target] += 1;
        let new = format!("{}_{}", self.names[*target], self.gates[*target]);
        if table.output != new || !flips(table) {
            return Err(format!("{} is no gate that makes {new}", table.output));
        }
        self.now.remove(old);
        self.now.insert(new, *target);
        gate(&lines)
    }

    /// The output is the last signal of this line.
    fn check_end(&self, ends: &[&Table], output: &String, line: usize) -> Read<()> {
        let end = ends.iter().find(|end| end.output == *output).ok_or(format!("no {output}"))?;
        match &end.inputs[..] {
            [signal] if self.line(signal)? == line && end.evaluate(&[0b10]) & 0b11 == 0b10 => {
                Ok(())
            }
            _ => Err(format!("{output} is not the end of its line")),
        }
    }
}

/// Whether a table gives its last signal, flipped where all signals before it are 1.
fn flips(table: &Table) -> bool {
    let words = &[0b1010_1010, 0b1100_1100, 0b1111_0000][..];
    let Some(words) = words.get(..table.inputs.len()) else { return false };
    let Some((old, controls)) = words.split_last() else { return false };
    let wanted = old ^ controls.iter().fold(u64::MAX, |all, control| all & control);
    let asked = (1 << (1 << words.len())) - 1;
    (table.evaluate(words) ^ wanted) & asked == 0
}

#[cfg(test)]
mod tests {
    use super::*;
    use crate::readers::is_strict;

    const GOOD: &str = "\
.model circuit
.inputs input_0 input_1
.outputs target_0
.names target_0_0
.names work_0_0
.names work_1_0
.names target_0_0 target_0_1
0 1
.names input_0 work_0_0 work_0_1
10 1
01 1
.names input_0 work_0_1 input_1 input_1_1
110 1
0-1 1
-01 1
.names input_1_1 work_0_1 input_0 input_0_1
110 1
0-1 1
-01 1
.names work_1_0 target_0_1 target_0_2
10 1
01 1
.names work_1_0 work_1_1
0 1
.names target_0_2 target_0
1 1
.end
";

    #[test]
    fn it_is_read_strictly() {
        let damaged = [
            (".model circuit", ".model program"),
            (".inputs input_0 input_1", ".inputs input_1 input_0"),
            (".inputs input_0 input_1", ".inputs input_0 input_1 input_3"),
            (".names target_0_0\n", ".names target_0_0\n1\n"),
            (".names work_1_0\n", ".names work_1_0\n.names work_3_0\n"),
            (".names work_1_0\n", ".names work_1_0\n.names spare\n"),
            ("target_0_1\n0 1", "target_0_1\n1 1"),
            ("target_0_1\n0 1", "target_0_2\n0 1"),
            (".names input_0 work_0_0 work_0_1", ".names work_0_0 input_0 work_0_1"),
            (".names input_0 work_0_0 work_0_1", ".names input_0 work_1_0 work_0_1"),
            ("10 1\n01 1", "11 1"),
            ("10 1\n01 1", "1- 1\n-1 1"),
            ("10 1\n01 1", "11 1\n00 1"),
            (".names input_1_1 work_0_1 input_0 ", ".names input_1 work_0_1 input_0 "),
            (".names input_1_1 work_0_1 input_0 ", ".names input_1_1 work_0_0 input_0 "),
            (".names input_1_1 work_0_1 input_0 ", ".names input_1_1 input_1_1 input_0 "),
            ("110 1\n0-1 1\n-01 1", "11- 1\n--1 1"),
            ("110 1\n0-1 1\n-01 1", "110 1\n0-1 1"),
            ("110 1\n0-1 1\n-01 1", "111 1"),
            (".names work_1_0 work_1_1", ".names work_1_0 work_1_2"),
            (".names work_1_0 work_1_1", ".names work_1_0 spare"),
            (".names target_0_2 target_0\n1 1", ".names target_0_1 target_0\n1 1"),
            (".names target_0_2 target_0\n1 1", ".names target_0_2 target_0\n0 1"),
            (".names target_0_2 target_0\n1 1", ".names work_1_1 target_0\n1 1"),
        ];
        is_strict(read, GOOD, &damaged);
    }

    #[test]
    fn a_cover_counts_by_what_it_makes() {
        let other = GOOD.replace("110 1\n0-1 1\n-01 1", "111 0\n0-0 0\n-00 0");
        assert_ne!(other, GOOD);
        assert_eq!(read(&other), read(GOOD));
    }
}
