//! Holds `liboracle.a` against the model: each service on both sides, and for that the program and
//! circuit files, written field by field, shaped at every limit of the formats and of compiling, or
//! drawn at random, whole and damaged, and formulas, by the grammar or damaged; and the cases of the
//! listing program.

pub mod circuit;
pub mod compare;
pub mod damage;
pub mod drawn;
pub mod formula;
pub mod fuzz;
pub mod layout;
pub mod lent;
pub mod limits;
pub mod listing_cases;
pub mod program;
pub mod random;
pub mod repository;
pub mod seen;
pub mod shaped;
pub mod tally;

/// What both sides are brought to before they are compared: a result, or a refusal's number and
/// place.
pub type Outcome<T> = Result<T, (u64, u64)>;

/// The first of a file's bytes for a message, in hex.
pub fn hex(bytes: &[u8]) -> String {
    let shown = bytes.len().min(512);
    let rest = if shown < bytes.len() { " .." } else { "" };
    format!("{} bytes:{}{rest}", bytes.len(), digits(&bytes[..shown]))
}

/// Every byte as two hex digits behind a blank.
pub fn digits(bytes: &[u8]) -> String {
    bytes.iter().map(|byte| format!(" {byte:02x}")).collect()
}

/// The first of a text's bytes for a message, those that are not to be printed escaped.
pub fn escaped(text: &[u8]) -> String {
    let shown = text.len().min(512);
    let rest = if shown < text.len() { " .." } else { "" };
    format!("{} bytes: {}{rest}", text.len(), text[..shown].escape_ascii())
}

/// The lowest bits of a number, a byte each, the lowest first.
pub fn bits(number: u64, count: usize) -> Vec<u8> {
    (0..count).map(|at| (number >> at & 1) as u8).collect()
}

/// Bit k of each word, a byte each: a question, or its values.
pub fn bit_of_each(words: &[u64], k: usize) -> Vec<u8> {
    words.iter().map(|word| (word >> k & 1) as u8).collect()
}
