//! The services as one would write them in Rust with the same interface: the same checks, answers
//! and areas, nodes and gates left in the file, no heap and no unsafe code. The package is built in
//! one unit (`Cargo.toml` of the workspace), so that what a loop calls for each node or gate stands
//! in the loop.

pub mod circuit;
pub mod compile;
pub mod formula;
pub mod program;
pub mod quote;

/// A refusal's number and place.
pub type Refused = (u64, u64);

/// The bytes of a gate.
type Gate = [u8; GATE_LENGTH];

const GATE_LENGTH: usize = 8;
const GATES_START: usize = 28;
const MOST_GATES: usize = 8000;

/// The bodies of a file, whose tags follow one another from the first.
fn bodies<const N: usize>(file: &[u8], first_tag: u16) -> Result<[&[u8]; N], Refused> {
    let table_length = 2 + 10 * N;
    if file.len() < table_length || usize::from(u16_at(file, 0)) != N {
        return Err((1, 0));
    }
    let (table, mut rest) = file.split_at(table_length);
    let mut at = table_length as u64;
    let mut bodies = [&[][..]; N];
    let (entries, _) = table[2..].as_chunks::<10>();
    for ((entry, body), tag) in entries.iter().zip(&mut bodies).zip(first_tag..) {
        let (start, length) = (u64::from(u32_at(entry, 2)), u64::from(u32_at(entry, 6)));
        if u16_at(entry, 0) != tag || start != at || length > rest.len() as u64 {
            return Err((2, 0));
        }
        (*body, rest) = rest.split_at(length as usize);
        at += length;
    }
    if rest.is_empty() {
        Ok(bodies)
    } else {
        Err((2, 0))
    }
}

fn u16_at(bytes: &[u8], at: usize) -> u16 {
    u16::from_le_bytes([bytes[at], bytes[at + 1]])
}

fn u32_at(bytes: &[u8], at: usize) -> u32 {
    u32::from_le_bytes([bytes[at], bytes[at + 1], bytes[at + 2], bytes[at + 3]])
}
