//! Readers of the formats that `export` writes, each by the definition of its format and not by the
//! command's code. They are strict: what is not known to be right is refused, with a word on why.

use model::circuit::{Circuit, Gate};

pub mod blif;
pub mod gates;
pub mod qasm;
pub mod real;

/// What was read, or what is wrong with the text.
pub type Read<T> = Result<T, String>;

/// A number in decimal digits, without a sign or zeros before it.
pub fn number(word: &str) -> Read<usize> {
    let is_written_so = |number: &usize| number.to_string() == word;
    word.parse().ok().filter(is_written_so).ok_or(format!("`{word}` is no number"))
}

/// A name: a letter, then letters, digits and `_`.
pub fn name(word: &str) -> Read<&str> {
    let is_part = |byte: u8| byte.is_ascii_alphanumeric() || byte == b'_';
    match word.as_bytes() {
        [b'a'..=b'z' | b'A'..=b'Z', rest @ ..] if rest.iter().all(|byte| is_part(*byte)) => {
            Ok(word)
        }
        _ => Err(format!("`{word}` is no name")),
    }
}

/// The gate of these lines, the target last, which are all different.
pub fn gate(lines: &[usize]) -> Read<Gate> {
    match *lines {
        [target] => Ok(Gate::Not(target)),
        [control, target] if control != target => Ok(Gate::Cnot(control, target)),
        [a, b, target] if a != b && a != target && b != target => Ok(Gate::Toffoli(a, b, target)),
        _ => Err(format!("no gate has the lines {lines:?}")),
    }
}

/// What is tried on every reader: it reads the good text of the circuit below, and no text where a
/// line of it is missing or stands twice; and it reads none of the damaged ones, where the first
/// words are replaced by the second.
pub fn is_strict(read: fn(&str) -> Read<Circuit>, good: &str, damaged: &[(&str, &str)]) {
    assert_eq!(read(good), Ok(example()));
    let lines: Vec<&str> = good.lines().collect();
    for at in 0..lines.len() {
        let (before, behind) = lines.split_at(at);
        let missing = [before, &behind[1..]].concat().join("\n") + "\n";
        let twice = [before, &behind[..1], behind].concat().join("\n") + "\n";
        for text in [missing, twice] {
            assert_ne!(read(&text), Ok(example()), "line {at}, `{}`:\n{text}", lines[at]);
        }
    }
    for (old, new) in damaged {
        let text = good.replacen(old, new, 1);
        assert_ne!(text, good, "`{old}` is not in the good text");
        let read = read(&text);
        assert!(read.is_err(), "`{new}` for `{old}` is read as {read:?}");
    }
}

/// The circuit of the readers' good texts: every kind of gate, targets above, between and below
/// their controls, and on every kind of line.
pub fn example() -> Circuit {
    use Gate::{Cnot, Not, Toffoli};
    let gates = vec![Not(2), Cnot(0, 3), Toffoli(0, 3, 1), Toffoli(1, 3, 0), Cnot(4, 2), Not(4)];
    Circuit { inputs: 2, outputs: 1, work: 2, gates }
}

#[test]
fn numbers_and_names() {
    assert_eq!(number("0"), Ok(0));
    assert_eq!(number("1151"), Ok(1151));
    for word in ["", "+1", "-1", "01", "1.", " 1", "1 ", "x", "99999999999999999999999"] {
        assert!(number(word).is_err(), "{word}");
    }
    assert_eq!(name("work_0_12"), Ok("work_0_12"));
    for word in ["", "0", "_a", "a b", "a[0", "a-b", "ä"] {
        assert!(name(word).is_err(), "{word}");
    }
}

#[test]
fn gates_have_one_to_three_lines_that_differ() {
    assert_eq!(gate(&[2, 1, 0]), Ok(Gate::Toffoli(2, 1, 0)));
    for lines in [&[][..], &[1, 1], &[1, 1, 2], &[1, 2, 1], &[2, 1, 1], &[0, 1, 2, 3]] {
        assert!(gate(lines).is_err(), "{lines:?}");
    }
}
