//! BLIF, as far as models without latches go.
//!
//! A model is `.model` and its name, `.inputs` and `.outputs` with the names of signals, then `.names`
//! for each signal that is no input, and `.end`. `.names` has the signals that it looks at and the
//! one that it makes. Its rows have `0`, `1` or `-` for each signal that it looks at, and the value
//! that it makes where one row fits; where none fits it makes the other value, and 0 if there is no
//! row. `#` starts a comment, and `\` at the end of a line says that it goes on with the next one.

use std::collections::{HashMap, HashSet};

use super::{name, Read};

#[derive(Debug, Clone, PartialEq, Eq)]
pub struct Network {
    pub model: String,
    pub inputs: Vec<String>,
    pub outputs: Vec<String>,
    pub tables: Vec<Table>,
}

/// A signal, what it looks at, and its rows with their value.
#[derive(Debug, Clone, PartialEq, Eq)]
pub struct Table {
    pub inputs: Vec<String>,
    pub output: String,
    rows: Vec<String>,
    value: bool,
}

pub fn read(text: &str) -> Read<Network> {
    let lines = lines(text)?;
    let lines: Vec<Vec<&str>> = lines.iter().map(|line| line.split(' ').collect()).collect();
    let [first, body @ .., last] = &lines[..] else {
        return Err("the model is cut short".to_string());
    };
    let ([".model", model], [".end"]) = (&first[..], &last[..]) else {
        return Err(format!("from {first:?} to {last:?} is no model"));
    };
    let (model, none) = (name(model)?.to_string(), Vec::new);
    let mut network = Network { model, inputs: none(), outputs: none(), tables: Vec::new() };
    for words in body {
        network.line(words)?;
    }
    network.check()?;
    Ok(network)
}

/// The lines, each as words parted by one blank, without comments and with what goes on joined.
fn lines(text: &str) -> Read<Vec<String>> {
    let (mut lines, mut words, mut goes_on) = (Vec::new(), Vec::new(), false);
    for line in text.lines() {
        let line = line.split('#').next().unwrap_or("");
        let joined = line.strip_suffix('\\');
        goes_on = joined.is_some();
        words.extend(joined.unwrap_or(line).split_whitespace());
        if !goes_on && !words.is_empty() {
            lines.push(words.join(" "));
            words.clear();
        }
    }
    if goes_on {
        return Err("the last line goes on".to_string());
    }
    Ok(lines)
}

impl Network {
    fn line(&mut self, words: &[&str]) -> Read<()> {
        let signals = |words: &[&str]| {
            words.iter().map(|word| name(word).map(str::to_string)).collect::<Read<Vec<String>>>()
        };
        match words {
            [".inputs", rest @ ..] if self.tables.is_empty() => self.inputs.extend(signals(rest)?),
            [".outputs", rest @ ..] if self.tables.is_empty() => {
                self.outputs.extend(signals(rest)?)
            }
            [".names", inputs @ .., output] => {
                let (inputs, output) = (signals(inputs)?, name(output)?.to_string());
                self.tables.push(Table { inputs, output, rows: Vec::new(), value: true });
            }
            _ => match self.tables.last_mut() {
                Some(table) => table.row(words)?,
                None => return Err(format!("{words:?} stands before every .names")),
            },
        }
        Ok(())
    }

    /// Every signal is made once, and what is looked at or given out is made.
    fn check(&self) -> Read<()> {
        let mut made = HashSet::new();
        for signal in self.inputs.iter().chain(self.tables.iter().map(|table| &table.output)) {
            if !made.insert(signal) {
                return Err(format!("{signal} is made twice"));
            }
        }
        let outputs: HashSet<&String> = self.outputs.iter().collect();
        if outputs.is_empty() || outputs.len() != self.outputs.len() {
            return Err("there is no output, or one twice".to_string());
        }
        let used = self.tables.iter().flat_map(|table| &table.inputs).chain(&self.outputs);
        match used.into_iter().find(|signal| !made.contains(signal)) {
            Some(signal) => Err(format!("nothing makes {signal}")),
            None => Ok(()),
        }
    }

    /// The outputs' words for these words of the inputs, in which each bit is a question of its own.
    /// A signal has its value when all that it looks at have theirs, in any order.
    pub fn evaluate(&self, inputs: &[u64]) -> Read<Vec<u64>> {
        assert_eq!(inputs.len(), self.inputs.len());
        let mut values: HashMap<&String, u64> = self.inputs.iter().zip(inputs.to_vec()).collect();
        let mut waiting: Vec<&Table> = self.tables.iter().collect();
        while !waiting.is_empty() {
            let before = waiting.len();
            waiting.retain(|table| {
                let inputs: Option<Vec<u64>> =
                    table.inputs.iter().map(|signal| values.get(signal).copied()).collect();
                let value = inputs.map(|inputs| table.evaluate(&inputs));
                value.is_none_or(|value| values.insert(&table.output, value).is_some())
            });
            if waiting.len() == before {
                return Err(format!("{} looks at itself", waiting[0].output));
            }
        }
        Ok(self.outputs.iter().map(|signal| values[signal]).collect())
    }
}

impl Table {
    fn row(&mut self, words: &[&str]) -> Read<()> {
        let (row, value) = match *words {
            [value] if self.inputs.is_empty() => ("", value),
            [row, value] if !self.inputs.is_empty() => (row, value),
            _ => return Err(format!("{words:?} is no row of {}", self.output)),
        };
        let is_cover = row.len() == self.inputs.len() && row.bytes().all(|at| b"01-".contains(&at));
        let value = ["0", "1"].iter().position(|known| *known == value).map(|known| known == 1);
        let others = self.rows.first().map_or(value, |_| Some(self.value));
        if !is_cover || value.is_none() || value != others || self.rows.iter().any(|r| r == row) {
            return Err(format!("{words:?} is no new row of {}", self.output));
        }
        self.value = value == Some(true);
        self.rows.push(row.to_string());
        Ok(())
    }

    /// The signal's word for the words of what it looks at.
    pub fn evaluate(&self, inputs: &[u64]) -> u64 {
        let fits = |row: &String| {
            row.bytes().zip(inputs).fold(u64::MAX, |fits, (wanted, word)| match wanted {
                b'1' => fits & word,
                b'0' => fits & !word,
                _ => fits,
            })
        };
        let any = self.rows.iter().fold(0, |any, row| any | fits(row));
        if self.value {
            any
        } else {
            !any
        }
    }
}

#[cfg(test)]
mod tests {
    use super::*;

    /// A full adder; the carry is made before what it looks at, and by the rows where it is 0.
    const GOOD: &str =
        "# two outputs\n.model adder\n.inputs a b \\\n  c\n.outputs sum carry # both\n\
                        .names c differ a carry\n01- 0\n-00 0\n\
                        .names a b differ\n10 1\n01 1\n.names differ c sum\n10 1\n01 1\n\
                        .names none\n.names one\n1\n.end\n";

    #[test]
    fn a_network_is_read_and_evaluated() {
        let network = read(GOOD).unwrap();
        assert_eq!(network.inputs, ["a", "b", "c"]);
        assert_eq!(network.tables.len(), 5);
        let inputs = [0b1010_1010, 0b1100_1100, 0b1111_0000];
        let [sum, carry] = network.evaluate(&inputs).unwrap()[..] else { panic!("two outputs") };
        assert_eq!(sum & 0xff, 0b1001_0110);
        assert_eq!(carry & 0xff, 0b1110_1000);
        let constants: Vec<u64> = network.tables[3..].iter().map(|t| t.evaluate(&[])).collect();
        assert_eq!(constants, [0, u64::MAX]);
    }

    #[test]
    fn damaged_text_is_refused() {
        let damaged = [
            (".model adder\n", ""),
            (".model adder", ".model"),
            (".outputs sum carry", ".outputs"),
            (".outputs sum carry", ".outputs sum sum"),
            (".outputs sum carry", ".outputs sum other"),
            (".inputs a b", ".inputs a"),
            (".inputs a b", ".inputs a b b"),
            (".inputs a b", ".inputs a b sum"),
            (".inputs a b", ".inputs a b 1"),
            ("  c\n", "\n"),
            (".names none", ".names sum"),
            (".names none", ".names"),
            (".names none", ".latch a none"),
            (".names none", "10 1\n.names none"),
            (".names none", ".inputs d\n.names none"),
            (".names a b differ", ".names a other differ"),
            ("10 1", "10 2"),
            ("10 1", "10 0"),
            ("10 1", "1x 1"),
            ("10 1", "100 1"),
            ("10 1", "1 1"),
            ("10 1", "101"),
            ("10 1", "1 0 1"),
            (".names one\n1", ".names one\n1 1"),
            (".end\n", ""),
            (".end\n", ".end\n.end\n"),
            (".end\n", ".end\n.names d\n"),
            (".end\n", ".end\\\n"),
        ];
        for (old, new) in damaged {
            let text = GOOD.replacen(old, new, 1);
            assert_ne!(text, GOOD, "`{old}` is not in the good text");
            assert!(read(&text).is_err(), "`{new}` for `{old}` is read");
        }
        assert!(read("").is_err());
    }

    #[test]
    fn a_circle_has_no_value() {
        let circle = ".model m\n.inputs a\n.outputs b\n.names c a b\n1- 1\n.names b c\n1 1\n.end\n";
        assert!(read(circle).unwrap().evaluate(&[0]).is_err());
    }
}
