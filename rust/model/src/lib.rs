//! A second reading of documents 01 and 02, in plain Rust and without the compiler's code: the
//! services are held against it. Each check stands in the order of the table of causes, except that
//! undo has 11 last and parse an order of its own.

pub mod circuit;
pub mod compile;
pub mod construct;
mod contents;
pub mod evaluate;
pub mod listing;
mod natural;
pub mod parse;
pub mod program;
pub mod quote;
pub mod run;
pub mod undo;
pub mod words;

/// A cause's number, and its place where the table of causes gives one.
#[derive(Debug, Clone, Copy, PartialEq, Eq)]
pub struct Refusal {
    /// The cause.
    pub number: u64,
    /// The place, or 0.
    pub place: u64,
}

impl Refusal {
    fn of(number: u64) -> Refusal {
        Refusal { number, place: 0 }
    }

    fn at(number: u64, place: usize) -> Refusal {
        let place = place as u64;
        Refusal { number, place }
    }
}

fn u16_at(bytes: &[u8], at: usize) -> u16 {
    u16::from_le_bytes([bytes[at], bytes[at + 1]])
}

fn u32_at(bytes: &[u8], at: usize) -> u32 {
    u32::from(u16_at(bytes, at)) | u32::from(u16_at(bytes, at + 2)) << 16
}

fn put_u16(file: &mut Vec<u8>, number: usize) {
    file.extend((number as u16).to_le_bytes());
}
