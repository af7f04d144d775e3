//! `oracle quote`: what to book for a function.

use std::fmt::Write;

use oracle::{exact, Quote, ANSWER_ENTRY, COUNT_ENTRY, MOST_GATES, MOST_WORK_LINES};

use super::{Verb, INPUTS};
use crate::arguments::Arguments;
use crate::failure::Result;
use crate::files::Program;
use crate::output::Output;

pub const VERB: Verb = Verb {
    name: "quote",
    takes: "INPUT",
    about: "says how many gates, Toffolis and work lines a function takes",
    more: "\
Each output has a row. Gates and Toffolis add up, and of the work lines the most of any output are needed,
as the outputs take the same ones. Nothing is compiled, so a circuit that would be too large is quoted too.
",
    options: &[INPUTS],
    act,
};

fn act(arguments: &Arguments) -> Result<Output> {
    let [argument] = arguments.plain(["INPUT"])?;
    let quotes = quoted(&Program::read(arguments, argument)?)?;
    Ok(Output::Text(shown(&quotes)))
}

fn quoted(Program { head, file }: &Program) -> Result<Vec<Quote>> {
    let mut counts = vec![0; COUNT_ENTRY * head.nodes];
    let mut answers = vec![0; ANSWER_ENTRY * head.outputs];
    oracle::quote(file, &mut counts, &mut answers)?;
    Ok(oracle::quotes(&answers).collect())
}

fn shown(quotes: &[Quote]) -> String {
    let gates = quotes.iter().map(|quote| exact(quote.gates)).sum();
    let toffolis = quotes.iter().map(|quote| exact(quote.toffolis)).sum();
    let work = quotes.iter().map(|quote| quote.work).max().and_then(exact);

    let mut rows = vec![["output", "gates", "Toffolis", "work lines"].map(str::to_string)];
    rows.extend(quotes.iter().enumerate().map(|(k, quote)| {
        let numbers = [quote.gates, quote.toffolis, quote.work].map(|number| count(exact(number)));
        row(k.to_string(), numbers)
    }));
    rows.push(row("total".to_string(), [gates, toffolis, work].map(count)));
    format!("{}{}", aligned(&rows), booking(gates, work))
}

/// A number if it is known.
fn count(number: Option<u64>) -> String {
    number.map_or_else(|| "over 1,000,000".to_string(), |number| number.to_string())
}

fn row(name: String, [gates, toffolis, work]: [String; 3]) -> [String; 4] {
    [name, gates, toffolis, work]
}

/// The rows with their columns to the right, two blanks between them.
fn aligned(rows: &[[String; 4]]) -> String {
    let width = |column: usize| rows.iter().map(|row| row[column].len()).max().unwrap_or(0);
    let widths: [usize; 4] = std::array::from_fn(width);
    let mut text = String::new();
    for row in rows {
        let cells: Vec<String> =
            row.iter().zip(widths).map(|(cell, width)| format!("{cell:>width$}")).collect();
        let _ = writeln!(text, "{}", cells.join("  "));
    }
    text
}

/// What to ask for, and what stands in the way of it.
fn booking(gates: Option<u64>, work: Option<u64>) -> String {
    let mut text = match work {
        Some(work) if work <= MOST_WORK_LINES => format!("grant to ask for: {work}\n"),
        _ => "no grant is enough: at most 1,024 work lines can be granted\n".to_string(),
    };
    if gates.is_none_or(|gates| gates > MOST_GATES as u64) {
        text.push_str("too many gates for a circuit file, which has at most 8,000\n");
    }
    text
}

#[cfg(test)]
mod tests {
    use super::*;

    #[test]
    fn small_numbers_are_added_and_a_large_one_is_not_known() {
        let small = Quote { gates: 3, toffolis: 1, work: 2 };
        let other = Quote { gates: 8, toffolis: 0, work: 1 };
        let text =
            "output  gates  Toffolis  work lines\n     0      3         1           2\n     \
                    1      8         0           1\n total     11         1           2\n\
                    grant to ask for: 2\n";
        assert_eq!(shown(&[small, other]), text);

        let large = Quote { gates: 1_000_001, toffolis: 1_000_000, work: 1_025 };
        let text = "output           gates  Toffolis  work lines\n     \
                    0               3         1           2\n     \
                    1  over 1,000,000   1000000        1025\n \
                    total  over 1,000,000   1000001        1025\n\
                    no grant is enough: at most 1,024 work lines can be granted\n\
                    too many gates for a circuit file, which has at most 8,000\n";
        assert_eq!(shown(&[small, large]), text);
    }

    #[test]
    fn the_limits_of_a_booking() {
        let grant = "grant to ask for: 1024\n";
        let none = "no grant is enough: at most 1,024 work lines can be granted\n";
        let many = "too many gates for a circuit file, which has at most 8,000\n";
        assert_eq!(booking(Some(8_000), Some(1_024)), grant);
        assert_eq!(booking(Some(8_001), Some(1_024)), format!("{grant}{many}"));
        assert_eq!(booking(Some(8_000), Some(1_025)), none);
        assert_eq!(booking(None, None), format!("{none}{many}"));
    }
}
