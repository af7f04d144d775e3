//! Refusals in words: what the library says of a cause, and what to do about it.

use oracle::{cause, CircuitHead, Refusal, MOST_GATES, MOST_INPUTS, MOST_WORK_LINES};

use crate::failure::Failure;
use crate::input::Kind;

/// The place of 11 only says that there are more where it is over this.
const MOST_GATES_TOLD: u64 = 3_000_000;

/// How much of a text is shown on each side of a caret.
const SHOWN: usize = 30;

/// The refusal, and what to do about it.
fn advised(refusal: Refusal, advice: &str) -> Failure {
    Failure::Refused(format!("{}; {advice}", refusal.in_words()))
}

/// A file that is no program file.
pub fn no_program(refusal: Refusal, kind: Kind, file: &[u8]) -> Failure {
    match kind {
        Kind::Circuit => {
            let advice =
                "this is a circuit file, and a program file, a table or a formula is wanted";
            advised(refusal, advice)
        }
        _ => damaged(refusal, kind, file),
    }
}

/// A file that is not in order.
pub fn damaged(refusal: Refusal, kind: Kind, file: &[u8]) -> Failure {
    let advice = match kind {
        Kind::Unknown if file.is_empty() => "there is nothing in it",
        Kind::Unknown => "this is no program file, no circuit file and no text",
        _ => "the file was cut or changed, or another tool wrote it: make it anew",
    };
    advised(refusal, advice)
}

/// A formula that is refused at a byte, under which a caret is shown where the cause has a place.
pub fn formula(refusal: Refusal, text: &[u8], at: usize, named: u64) -> Failure {
    let advice = match refusal.number {
        cause::RANGE => format!("; a program has at most {MOST_INPUTS} inputs"),
        cause::NODE if named > MOST_INPUTS => {
            format!("; the inputs are x0 to x{}", MOST_INPUTS - 1)
        }
        cause::NODE => format!("; try --inputs {named}"),
        cause::TEXT if at == text.len() => "; it ends too early".to_string(),
        cause::TEXT_LENGTH => "; write a table instead".to_string(),
        cause::DEPTH => "; write a table instead, which has no brackets".to_string(),
        _ => String::new(),
    };
    let caret = match refusal.place_text() {
        "" => String::new(),
        _ => format!("\n{}", with_caret(text, at)),
    };
    Failure::Refused(format!("{}{advice}{caret}", refusal.in_words()))
}

/// The text around a byte, and a caret below it. Each byte that cannot be shown is a `?`.
fn with_caret(text: &[u8], at: usize) -> String {
    let first = at.saturating_sub(SHOWN);
    let last = (at + SHOWN).min(text.len());
    let show =
        |byte: &u8| if byte.is_ascii_graphic() || *byte == b' ' { char::from(*byte) } else { '?' };
    let shown: String = text[first..last].iter().map(show).collect();
    let (before, behind) = (mark_cut(first > 0), mark_cut(last < text.len()));
    let blanks = " ".repeat(before.len() + at - first);
    format!("  {before}{shown}{behind}\n  {blanks}^")
}

fn mark_cut(cut: bool) -> &'static str {
    match cut {
        true => "..",
        false => "",
    }
}

/// A program that does not compile.
pub fn compiling(refusal: Refusal, grant: u64) -> Failure {
    match refusal.number {
        cause::SIZE => {
            advised(refusal, "a node counts as often as it is used: use nodes less often")
        }
        cause::GRANT => advised(refusal, &format!("try --grant {MOST_WORK_LINES}")),
        cause::WORK_LINES => Failure::Refused(too_few_lines(refusal.place, grant)),
        cause::ROOM => Failure::Refused(too_many_gates(refusal.place)),
        _ => refusal.into(),
    }
}

fn too_few_lines(needed: u64, granted: u64) -> String {
    let remedy = match needed > MOST_WORK_LINES {
        true => format!("{MOST_WORK_LINES} are the most: mark ANDs"),
        false => format!("try --grant {needed}, or mark ANDs"),
    };
    let needed = counted(needed, "work line");
    format!("refused {}: {needed} needed and {granted} granted; {remedy}", cause::WORK_LINES)
}

/// The command's areas are long enough, so that only the gates can be too many.
fn too_many_gates(needed: u64) -> String {
    let needed = match needed > MOST_GATES_TOLD {
        true => format!("over {MOST_GATES_TOLD} gates are"),
        false => counted(needed, "gate"),
    };
    format!(
        "refused {}: {needed} needed, and a circuit file has at most {MOST_GATES}; oracle quote says \
         what each output takes",
        cause::ROOM
    )
}

fn counted(number: u64, what: &str) -> String {
    match number {
        1 => format!("1 {what} is"),
        _ => format!("{number} {what}s are"),
    }
}

/// Digits that are not the bits of a circuit's lines.
pub fn lines(refusal: Refusal, head: CircuitHead) -> Failure {
    let CircuitHead { inputs, outputs, work, .. } = head;
    let lines = head.lines();
    advised(
        refusal,
        &format!(
            "the lines are 0 to {}: inputs {inputs}, targets {outputs}, work lines {work}",
            lines - 1
        ),
    )
}

/// Digits that are not the bits of a program's inputs.
pub fn input_bits(refusal: Refusal, inputs: usize, line: Option<usize>) -> Failure {
    let line = line.map_or_else(String::new, |line| format!("line {line}: "));
    advised(refusal, &format!("{line}one digit, 0 or 1, is wanted for each of {inputs} inputs"))
}

#[cfg(test)]
mod tests {
    use super::*;

    #[test]
    fn a_caret_stands_under_its_byte() {
        assert_eq!(with_caret(b"x0&&x1", 3), "  x0&&x1\n     ^");
        assert_eq!(with_caret(b"", 0), "  \n  ^");
        assert_eq!(with_caret(b"x0&", 3), "  x0&\n     ^");
        assert_eq!(with_caret(b"x\xc3\xa4\t1", 1), "  x???1\n   ^");
    }

    #[test]
    fn a_long_text_is_shown_around_its_byte() {
        let text = [b"0^".repeat(50), b"y".to_vec(), b"^1".repeat(50)].concat();
        let shown = with_caret(&text, 100);
        let [above, below] = shown.lines().collect::<Vec<_>>()[..] else { panic!("two lines") };
        assert_eq!(above, format!("  ..{}y{}..", "0^".repeat(15), "^1".repeat(15).split_at(29).0));
        assert_eq!(above.as_bytes()[below.len() - 1], b'y');
    }

    #[test]
    fn one_and_many() {
        assert_eq!(counted(0, "gate"), "0 gates are");
        assert_eq!(counted(1, "work line"), "1 work line is");
        assert_eq!(counted(16, "work line"), "16 work lines are");
    }
}
