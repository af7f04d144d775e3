//! Reading the text of a table.

use std::fmt;

use crate::{Node, Table, AND, INPUT, KINDS};

const MOST_INPUTS: usize = 64;
const MOST_OUTPUTS: usize = 64;
const MOST_NODES: usize = 4_096;

/// What is wrong with a table, and on which of its lines.
#[derive(Debug, Clone, PartialEq, Eq)]
pub struct Fault {
    /// The line, from 1; the last one where something is missing.
    pub line: usize,
    /// What is wrong there.
    pub what: String,
}

impl fmt::Display for Fault {
    fn fmt(&self, f: &mut fmt::Formatter<'_>) -> fmt::Result {
        write!(f, "line {}: {}", self.line, self.what)
    }
}

impl std::error::Error for Fault {}

/// Reads the text of a table.
pub fn read(text: &[u8]) -> Result<Table, Fault> {
    let mut reading = Reading { inputs: None, nodes: Vec::new(), outputs: Vec::new() };
    let mut last = 1;
    for (line, bytes) in (1..).zip(text.split(|byte| *byte == b'\n')) {
        reading.line(bytes).map_err(|what| Fault { line, what })?;
        // The end of the text is no line of its own.
        if !bytes.is_empty() {
            last = line;
        }
    }
    reading.finish().map_err(|what| Fault { line: last, what })
}

/// The table so far.
struct Reading {
    inputs: Option<usize>,
    nodes: Vec<Node>,
    outputs: Vec<u16>,
}

impl Reading {
    fn line(&mut self, bytes: &[u8]) -> Result<(), String> {
        let line = std::str::from_utf8(bytes).map_err(|_| "this is no text")?;
        let content = line.split('#').next().unwrap_or("");
        let words: Vec<&str> = content.split_whitespace().collect();
        match words[..] {
            [] => Ok(()),
            ["inputs", count] => self.count_inputs(count),
            ["output", node] => self.add_output(node),
            [index, "=", kind, ref operands @ ..] => self.add_node(index, kind, operands),
            _ => Err("a line is `inputs N`, `I = KIND ..` or `output I`".to_string()),
        }
    }

    fn count_inputs(&mut self, count: &str) -> Result<(), String> {
        let count = number(count)?;
        if self.inputs.is_some() {
            return Err("`inputs` stands here for the second time".to_string());
        }
        if count > MOST_INPUTS {
            return Err(format!("{count} inputs are too many, {MOST_INPUTS} are the most"));
        }
        self.inputs = Some(count);
        Ok(())
    }

    fn add_node(&mut self, index: &str, kind: &str, operands: &[&str]) -> Result<(), String> {
        let inputs = self.inputs.ok_or("`inputs` has to come first")?;
        let next = self.nodes.len();
        let index = number(index)?;
        if index != next {
            return Err(format!("node {next} comes next, not {index}"));
        }
        if next == MOST_NODES {
            return Err(format!("there are too many nodes, {MOST_NODES} are the most"));
        }
        let kind = kind_named(kind)?;
        let (operands, marked) = without_mark(kind, operands)?;
        let limit = if kind == INPUT { inputs } else { next };
        let operands = operands_of(kind, operands, limit)?;
        let operand = |at: usize| operands.get(at).copied().unwrap_or(0);
        self.nodes.push(Node { kind: kind as u8, marked, a: operand(0), b: operand(1) });
        Ok(())
    }

    fn add_output(&mut self, node: &str) -> Result<(), String> {
        let node = number(node)?;
        if node >= self.nodes.len() {
            return Err(format!("output {node}: no such node stands above"));
        }
        if self.outputs.len() == MOST_OUTPUTS {
            return Err(format!("there are too many outputs, {MOST_OUTPUTS} are the most"));
        }
        self.outputs.push(node as u16);
        Ok(())
    }

    fn finish(self) -> Result<Table, String> {
        let inputs = self.inputs.ok_or("the table ends without `inputs`")?;
        if self.outputs.is_empty() {
            return Err("the table ends without an output".to_string());
        }
        Ok(Table { inputs: inputs as u16, nodes: self.nodes, outputs: self.outputs })
    }
}

/// The number of a kind.
fn kind_named(name: &str) -> Result<usize, String> {
    let place = KINDS.iter().position(|(kind, _)| *kind == name);
    place.ok_or_else(|| {
        let names = KINDS.map(|(kind, _)| kind).join(", ");
        format!("unknown kind `{name}`, the kinds are {names}")
    })
}

/// The words behind a kind without the mark at their end, and whether it is there.
fn without_mark<'a>(kind: usize, words: &'a [&'a str]) -> Result<(&'a [&'a str], bool), String> {
    match words {
        [operands @ .., "marked"] if kind == AND => Ok((operands, true)),
        [.., "marked"] => Err(format!("{} cannot be marked, only AND can", KINDS[kind].0)),
        _ => Ok((words, false)),
    }
}

/// The operands of a node of this kind, each below the limit: the node itself or, for an input, n.
fn operands_of(kind: usize, words: &[&str], limit: usize) -> Result<Vec<u16>, String> {
    let (name, count) = KINDS[kind];
    if words.len() != count {
        let wanted = ["no number", "one number", "two numbers"][count];
        return Err(format!("{name} takes {wanted}, not {}", words.len()));
    }
    words.iter().map(|word| operand(kind, number(word)?, limit)).collect()
}

fn operand(kind: usize, operand: usize, limit: usize) -> Result<u16, String> {
    match kind {
        _ if operand < limit => Ok(operand as u16),
        INPUT => Err(format!("input {operand} is not below {limit}, the number of inputs")),
        _ => Err(format!("operand {operand} is not lower than its node, {limit}")),
    }
}

/// A number in decimal digits.
fn number(word: &str) -> Result<usize, String> {
    if !word.bytes().all(|byte| byte.is_ascii_digit()) {
        return Err(format!("`{word}` is no number"));
    }
    word.parse().map_err(|_| format!("{word} is out of range"))
}

#[cfg(test)]
mod tests {
    use super::*;

    const AND: &str = "inputs 2\n0 = INPUT 0\n1 = INPUT 1\n2 = AND 0 1\noutput 2\n";

    fn table(text: &str) -> Table {
        read(text.as_bytes()).expect("a good table")
    }

    /// The AND with a line changed is refused on that line, with these words.
    fn refused(line: usize, to: &str, what: &str) {
        let mut lines: Vec<&str> = AND.lines().collect();
        lines[line - 1] = to;
        let fault = read(lines.join("\n").as_bytes()).expect_err(to);
        assert_eq!(fault, Fault { line, what: what.to_string() });
    }

    #[test]
    fn blanks_and_comments_count_for_nothing() {
        let spread = "# AND\n\n  inputs\t2 # of them\r\n0 = INPUT 0\r\n\r\n1 =  INPUT 1#\n\
                      \t2 = AND 0 1\n\noutput 2\n# output 1";
        assert_eq!(table(spread), table(AND));
        assert_ne!(table(&AND.replace("AND", "XOR")), table(AND));
    }

    /// An output may stand between nodes, as long as its node stands above it.
    #[test]
    fn outputs_between_nodes() {
        let between = "inputs 0\n0 = ONE\noutput 0\n1 = NOT 0\noutput 1\n";
        let behind = "inputs 0\n0 = ONE\n1 = NOT 0\noutput 0\noutput 1\n";
        assert_eq!(table(between), table(behind));
    }

    #[test]
    fn lines_that_are_none() {
        let line = "a line is `inputs N`, `I = KIND ..` or `output I`";
        refused(4, "2 AND 0 1", line);
        refused(4, "2 =", line);
        refused(4, "2= AND 0 1", line);
        refused(1, "inputs", line);
        refused(1, "inputs 2 3", line);
        refused(5, "output", line);
        refused(5, "output 2 1", line);
        refused(5, "outputs 2", line);
    }

    #[test]
    fn kinds() {
        let kinds = "the kinds are ZERO, ONE, INPUT, NOT, XOR, AND";
        refused(4, "2 = OR 0 1", &format!("unknown kind `OR`, {kinds}"));
        refused(4, "2 = and 0 1", &format!("unknown kind `and`, {kinds}"));
    }

    #[test]
    fn numbers_of_operands() {
        refused(4, "2 = ZERO 0", "ZERO takes no number, not 1");
        refused(4, "2 = ONE 0", "ONE takes no number, not 1");
        refused(4, "2 = INPUT", "INPUT takes one number, not 0");
        refused(4, "2 = NOT 0 1", "NOT takes one number, not 2");
        refused(4, "2 = XOR 0", "XOR takes two numbers, not 1");
        refused(4, "2 = AND 0 1 1", "AND takes two numbers, not 3");
    }

    #[test]
    fn marks() {
        let marked = AND.replace("AND 0 1", "AND 0 1 marked");
        assert_ne!(table(&marked), table(AND));
        assert_eq!(table(&AND.replace("AND 0 1", " AND  0 1\tmarked# so")), table(&marked));
        refused(4, "2 = XOR 0 1 marked", "XOR cannot be marked, only AND can");
        refused(4, "2 = NOT 0 marked", "NOT cannot be marked, only AND can");
        refused(4, "2 = INPUT 0 marked", "INPUT cannot be marked, only AND can");
        refused(4, "2 = ONE marked", "ONE cannot be marked, only AND can");
        refused(4, "2 = ZERO marked", "ZERO cannot be marked, only AND can");
        refused(2, "0 = ONE marked", "ONE cannot be marked, only AND can");
        // It stands once, in small letters, and behind two numbers.
        refused(4, "2 = AND 0 1 marked marked", "AND takes two numbers, not 3");
        refused(4, "2 = AND 0 1 Marked", "AND takes two numbers, not 3");
        refused(4, "2 = AND 0 marked", "AND takes two numbers, not 1");
        refused(4, "2 = AND marked 0", "`marked` is no number");
        refused(4, "2 = AND 0 2 marked", "operand 2 is not lower than its node, 2");
        refused(5, "output 2 marked", "a line is `inputs N`, `I = KIND ..` or `output I`");
    }

    #[test]
    fn nodes_out_of_order() {
        refused(4, "3 = AND 0 1", "node 2 comes next, not 3");
        refused(4, "1 = AND 0 0", "node 2 comes next, not 1");
        refused(2, "1 = INPUT 0", "node 0 comes next, not 1");
    }

    #[test]
    fn operands_that_are_not_lower() {
        refused(4, "2 = AND 2 1", "operand 2 is not lower than its node, 2");
        refused(4, "2 = AND 0 3", "operand 3 is not lower than its node, 2");
        refused(4, "2 = XOR 0 65536", "operand 65536 is not lower than its node, 2");
        refused(4, "2 = NOT 2", "operand 2 is not lower than its node, 2");
        refused(2, "0 = NOT 0", "operand 0 is not lower than its node, 0");
    }

    #[test]
    fn inputs_that_are_not_there() {
        refused(3, "1 = INPUT 2", "input 2 is not below 2, the number of inputs");
        refused(3, "1 = INPUT 65537", "input 65537 is not below 2, the number of inputs");
        refused(1, "inputs 65", "65 inputs are too many, 64 are the most");
        refused(1, "inputs 65538", "65538 inputs are too many, 64 are the most");
        refused(3, "inputs 2", "`inputs` stands here for the second time");
        assert!(read(b"inputs 64\n0 = INPUT 63\noutput 0").is_ok());
    }

    #[test]
    fn words_that_are_no_numbers() {
        refused(1, "inputs two", "`two` is no number");
        refused(4, "x = AND 0 1", "`x` is no number");
        refused(4, "2 = AND +0 1", "`+0` is no number");
        refused(4, "2 = AND 0 -1", "`-1` is no number");
        refused(5, "output 2.", "`2.` is no number");
        refused(5, "output 99999999999999999999", "99999999999999999999 is out of range");
    }

    #[test]
    fn outputs_that_name_no_node() {
        refused(5, "output 3", "output 3: no such node stands above");
        refused(5, "output 65538", "output 65538: no such node stands above");
        refused(4, "output 2", "output 2: no such node stands above");
    }

    #[test]
    fn what_is_missing() {
        let missing = |text: &str, line: usize, what: &str| {
            let fault = Fault { line, what: what.to_string() };
            assert_eq!(read(text.as_bytes()), Err(fault), "{text}");
        };
        missing("", 1, "the table ends without `inputs`");
        missing("# nothing\n\n", 1, "the table ends without `inputs`");
        missing("0 = ONE\noutput 0\n", 1, "`inputs` has to come first");
        missing("inputs 1\n0 = INPUT 0\n", 2, "the table ends without an output");
        missing("inputs 1\n0 = INPUT 0\n# end", 3, "the table ends without an output");
    }

    #[test]
    fn too_many_nodes_or_outputs() {
        let nodes = |count: usize| (0..count).map(|i| format!("{i} = ONE\n")).collect::<String>();
        let text = |count: usize| format!("inputs 0\n{}output 0\n", nodes(count));
        assert!(read(text(4_096).as_bytes()).is_ok());
        let what = "there are too many nodes, 4096 are the most".to_string();
        assert_eq!(read(text(4_097).as_bytes()), Err(Fault { line: 4_098, what }));

        let text = |count: usize| format!("inputs 0\n0 = ONE\n{}", "output 0\n".repeat(count));
        assert!(read(text(64).as_bytes()).is_ok());
        let what = "there are too many outputs, 64 are the most".to_string();
        assert_eq!(read(text(65).as_bytes()), Err(Fault { line: 67, what }));
    }

    #[test]
    fn bytes_that_are_no_text() {
        let what = "this is no text".to_string();
        assert_eq!(read(b"inputs 1\n0 = INPUT \xff\n"), Err(Fault { line: 2, what }));
    }

    #[test]
    fn a_fault_is_shown_with_its_line() {
        let fault = Fault { line: 3, what: "so".to_string() };
        assert_eq!(fault.to_string(), "line 3: so");
    }
}
