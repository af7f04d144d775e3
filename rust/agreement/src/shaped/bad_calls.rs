//! Calls with a circuit file and line or choice bytes that running and undoing refuse.

use super::circuit::{and_of_copies, and_of_four_built, nots, whole_case, BAD};
use crate::circuit::{cnot, Circuit};

/// A call that is refused.
pub struct BadCall {
    /// What is wrong.
    pub name: String,
    /// The file.
    pub file: Vec<u8>,
    /// The bytes.
    pub bits: Vec<u8>,
    /// The refusal.
    pub refusal: (u64, u64),
}

/// Good files with bytes of every kind that is refused with 13, and bad files with such bytes, those
/// with controls in the wrong order also with good ones.
pub fn all() -> Vec<BadCall> {
    let groups = [
        too_few_or_too_many_bits(),
        bytes_that_are_no_bits(),
        causes_together_with_13(),
        controls_exchanged(),
    ];
    groups.into_iter().flatten().collect()
}

fn too_few_or_too_many_bits() -> Vec<BadCall> {
    let lengths: [(Circuit, &[usize]); 4] = [
        (whole_case(), &[0, 1, 2, 4, 64, 259, 65539]),
        (and_of_copies(), &[0, 1, 4, 6, 64, 261, 65541]),
        (nots(1), &[0, 2]),
        (Circuit::new(64, 64, 1024, &[]), &[1151, 1153]),
    ];
    let bad = |circuit: &Circuit, length: usize, bit: u8| BadCall {
        name: format!("{length} bytes of {bit} for {} lines", circuit.lines()),
        file: circuit.bytes(),
        bits: vec![bit; length],
        refusal: (13, 0),
    };
    let of_length = |circuit: &Circuit, length| [0, 1].map(|bit| bad(circuit, length, bit));
    lengths
        .iter()
        .flat_map(|(circuit, lengths)| lengths.iter().flat_map(|at| of_length(circuit, *at)))
        .collect()
}

fn bytes_that_are_no_bits() -> Vec<BadCall> {
    // Lines that no gate uses are checked all the same.
    let places: [(Circuit, &[usize]); 4] = [
        (whole_case(), &[0, 1, 2]),
        (and_of_copies(), &[0, 1, 2, 3, 4]),
        (nots(1), &[0]),
        (Circuit::new(64, 64, 1024, &[]), &[0, 63, 64, 127, 128, 256, 1151]),
    ];
    let bad = |circuit: &Circuit, at: usize, byte: u8| {
        let mut bits: Vec<u8> = (0..circuit.lines()).map(|line| line as u8 & 1).collect();
        bits[at] = byte;
        let name = format!("byte {at} is {byte}");
        BadCall { name, file: circuit.bytes(), bits, refusal: (13, 0) }
    };
    let at_place = |circuit: &Circuit, at| [2, 3, 128, 254, 255].map(|byte| bad(circuit, at, byte));
    places
        .iter()
        .flat_map(|(circuit, places)| places.iter().flat_map(|at| at_place(circuit, *at)))
        .collect()
}

/// A file of 5 lines for each cause of the reader, with bytes that are refused with 13 as well.
/// Each has the faults of the later ones too, as far as it can.
fn causes_together_with_13() -> Vec<BadCall> {
    let good = and_of_copies().bytes();
    let bad_range = Circuit::new(2, 1, 1025, &[BAD]);
    let bad_length = bad_range.layout().resized(0, 7);
    let faults = [
        (good[..21].to_vec(), (1, 0)),
        (good[..67].to_vec(), (2, 0)),
        (bad_length.bytes(), (3, 0)),
        (bad_range.bytes(), (4, 0)),
        (Circuit::new(2, 1, 2, &[cnot(0, 3), BAD]).bytes(), (12, 1)),
    ];
    let bad = |file: &[u8], refusal: (u64, u64), bits: &[u8]| BadCall {
        name: format!("cause {} with {bits:?}", refusal.0),
        file: file.to_vec(),
        bits: bits.to_vec(),
        refusal,
    };
    let all_bits: [&[u8]; 3] = [&[0, 0, 0, 0, 2], &[0, 0], &[]];
    faults
        .iter()
        .flat_map(|(file, refusal)| all_bits.map(|bits| bad(file, *refusal, bits)))
        .collect()
}

/// Circuits with the controls of some of their Toffolis exchanged, refused at the first of these:
/// with good bytes, with a byte too few or too many, with one that is no bit, and with none.
fn controls_exchanged() -> Vec<BadCall> {
    let mut calls = Vec::new();
    for circuit in [whole_case(), and_of_copies(), and_of_four_built()] {
        let lines = circuit.lines();
        let in_turn = |count: usize| (0..count).map(|line| line as u8 & 1).collect::<Vec<u8>>();
        let no_bit = [in_turn(lines - 1), vec![2]].concat();
        let good = [vec![0; lines], vec![1; lines], in_turn(lines)];
        let bad = [in_turn(lines - 1), in_turn(lines + 1), no_bit, vec![]];
        for (exchanged, writing) in &circuit.writings()[1..] {
            calls.extend(good.iter().chain(&bad).map(|bits| BadCall {
                name: format!("controls of {exchanged:?} exchanged with {bits:?}"),
                file: writing.bytes(),
                bits: bits.clone(),
                refusal: (12, exchanged[0] as u64),
            }));
        }
    }
    calls
}
