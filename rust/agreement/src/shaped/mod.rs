//! Files at every limit of both formats, each with what reading it has to give. The answers are
//! written out from the table of causes in 01 and come from neither side.

pub mod bad_calls;
pub mod circuit;
mod contents;
pub mod marks;
pub mod operands;
pub mod program;

use crate::compare::read::Head;
use crate::Outcome;

/// A named file and its outcome: its numbers, or a refusal's number and place.
pub struct Shaped {
    /// What the file shows.
    pub name: String,
    /// The file.
    pub file: Vec<u8>,
    /// What reading it gives.
    pub expected: Outcome<Head>,
}

/// A file with its numbers of inputs, outputs and work lines, and of nodes or gates.
fn accepted(name: impl Into<String>, file: Vec<u8>, numbers: [usize; 4]) -> Shaped {
    let [inputs, outputs, work, count] = numbers;
    let head = Head { inputs, outputs, work, count };
    Shaped { name: name.into(), file, expected: Ok(head) }
}

fn refused(name: impl Into<String>, file: Vec<u8>, number: u64, place: u64) -> Shaped {
    Shaped { name: name.into(), file, expected: Err((number, place)) }
}

/// Tries each file that reading accepts, with its numbers.
pub fn each_accepted(files: Vec<Shaped>, mut call: impl FnMut(&str, &[u8], Head)) {
    for shaped in files {
        if let Ok(head) = shaped.expected {
            call(&shaped.name, &shaped.file, head);
        }
    }
}

/// Tries each file that reading refuses with a call of a service: whatever else the call is given,
/// the refusal has to come through as it is.
pub fn each_refused(
    service: &str,
    files: Vec<Shaped>,
    mut refuses: impl FnMut(&str, &[u8], (u64, u64)),
) {
    let mut count = 0;
    for shaped in files {
        if let Err(refusal) = shaped.expected {
            refuses(&shaped.name, &shaped.file, refusal);
            count += 1;
        }
    }
    println!("{service}: {count} shaped files");
    assert!(count > 100, "{service}: too few shaped files");
}

#[cfg(test)]
mod tests {
    use std::collections::BTreeSet;

    use super::*;

    #[test]
    fn the_builders_write_the_whole_cases() {
        assert_eq!(program::whole_case().bytes(), program::WHOLE_CASE);
        assert_eq!(circuit::whole_case().bytes(), circuit::WHOLE_CASE);
    }

    #[test]
    fn each_name_is_given_once() {
        for files in [program::all(), circuit::all()] {
            let count = files.len();
            let names: BTreeSet<String> = files.into_iter().map(|shaped| shaped.name).collect();
            assert_eq!(names.len(), count);
        }
    }
}
