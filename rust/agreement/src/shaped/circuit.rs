//! Circuit files at every limit of the format.

use super::contents::{self, Format};
use super::{accepted, program, refused, Shaped};
use crate::circuit::{cnot, gate, not, sorted_toffoli, toffoli, Circuit, Gate};

/// The circuit of 01's whole case, as 02's A5 has it: n = 2, m = 1, w = 0, and T 0 1 2.
pub const WHOLE_CASE: [u8; 36] = [
    0x02, 0x00, 0x11, 0x00, 0x16, 0x00, 0x00, 0x00, 0x06, 0x00, 0x00, 0x00, 0x12, 0x00, 0x1c, 0x00,
    0x00, 0x00, 0x08, 0x00, 0x00, 0x00, 0x02, 0x00, 0x01, 0x00, 0x00, 0x00, 0x03, 0x00, 0x00, 0x00,
    0x01, 0x00, 0x02, 0x00,
];

/// A gate that no check of gates accepts.
pub(super) const BAD: Gate = gate(4, 0, 0, 0);

/// Two of 1,152 lines, the lower first: neighbours, and such that low bytes fall, are equal or
/// have their high bit set, or bytes read in the other order fall.
const PAIRS: [(u16, u16); 16] = [
    (0, 1),
    (1, 2),
    (127, 128),
    (254, 255),
    (0x00ff, 0x0100),
    (0x0100, 0x0101),
    (0x017f, 0x0180),
    (0x01ff, 0x0200),
    (0x03ff, 0x0400),
    (1150, 1151),
    (0, 1151),
    (1, 256),
    (0x0100, 0x0200),
    (0x00ff, 0x0101),
    (0x00ff, 0x047f),
    (0x0102, 0x0201),
];

/// What circuit files share with program files.
const FORMAT: Format = Format {
    whole_case: &WHOLE_CASE,
    layout: || whole_case().layout(),
    numbers: [2, 1, 0, 1],
    table: 22,
    record: 8,
    other: &program::WHOLE_CASE,
    bad_from_3: || bad_range().layout().resized(0, 7),
    with_numbers: |n, m, w| Circuit::new(n, m, w, &[not(0)]).bytes(),
    work: &[0, 2],
};

/// Every shaped file.
pub fn all() -> Vec<Shaped> {
    let groups = [
        contents::all(&FORMAT),
        body_over_the_head(),
        accepted_circuits(),
        gate_lengths(),
        gate_counts(),
        work_lines(),
        kinds(),
        zero_bytes(),
        unused_controls(),
        line_limits(),
        line_counts(),
        equal_lines(),
        control_orders(),
        writings(),
        falling_among_bad_gates(),
        lowest_bad_gates(),
        causes_together(),
    ];
    groups.into_iter().flatten().collect()
}

/// The fields of the whole case.
pub fn whole_case() -> Circuit {
    Circuit::new(2, 1, 0, &[toffoli(0, 1, 2)])
}

/// The AND of two inputs from copies of them, which is no circuit of the compiler: the same from
/// both ends, with work lines, and with gates of two kinds.
pub fn and_of_copies() -> Circuit {
    let gates = [cnot(0, 3), cnot(1, 4), toffoli(3, 4, 2), cnot(1, 4), cnot(0, 3)];
    Circuit::new(2, 1, 2, &gates)
}

/// NOR as AND of two NOTs.
pub fn nor() -> Circuit {
    let build = [not(3), cnot(0, 3), not(4), cnot(1, 4)];
    let clean = [cnot(1, 4), not(4), cnot(0, 3), not(3)];
    Circuit::new(2, 1, 2, &[&build[..], &[toffoli(3, 4, 2)], &clean].concat())
}

/// AND(AND(input 0, input 1), input 2).
pub fn and_of_three() -> Circuit {
    Circuit::new(3, 1, 1, &[toffoli(0, 1, 4), toffoli(2, 4, 3), toffoli(0, 1, 4)])
}

/// AND of the three inputs' AND with a fourth: the building half only, which leaves its work lines
/// as they are until it is undone.
pub fn and_of_four_built() -> Circuit {
    Circuit::new(4, 1, 2, &[toffoli(0, 1, 6), toffoli(2, 6, 5), toffoli(3, 5, 4)])
}

/// A 1 on line 0 goes down all the lines, if the first gate runs first.
pub fn chain(inputs: u16, outputs: u16, work: u16) -> Circuit {
    let mut circuit = Circuit::new(inputs, outputs, work, &[]);
    let last = circuit.lines() as u16 - 1;
    circuit.gates = (0..last).map(|line| cnot(line, line + 1)).collect();
    circuit
}

/// Every kind with the first, a middle and the last line in each place that it may have.
pub fn every_place(inputs: u16, outputs: u16, work: u16) -> Circuit {
    let mut circuit = Circuit::new(inputs, outputs, work, &[]);
    let last = circuit.lines() as u16 - 1;
    let places = [0, last / 2, last];
    for (a, b, c) in [(0, 1, 2), (0, 2, 1), (1, 0, 2), (1, 2, 0), (2, 0, 1), (2, 1, 0)] {
        let (a, b, c) = (places[a], places[b], places[c]);
        circuit.gates.extend([sorted_toffoli(a, b, c), cnot(a, b), not(a)]);
    }
    circuit
}

/// So many NOTs of the only target of a circuit without inputs.
pub fn nots(count: usize) -> Circuit {
    Circuit::new(0, 1, 0, &vec![not(0); count])
}

/// Gates that start 2 bytes early, at w: read so, the circuit would be as it is without that, as its
/// w and its first gate's kind are both 2.
fn body_over_the_head() -> Vec<Shaped> {
    let file = and_of_copies().layout().with_overlap(1, 2).bytes();
    vec![refused("gates that start at w, which is their first kind", file, 2, 0)]
}

fn accepted_circuits() -> Vec<Shaped> {
    let itself = Circuit::new(1, 1, 0, &[cnot(0, 1), cnot(0, 1)]);
    // What the compiler never writes: inputs as targets, outputs as controls.
    let free = Circuit::new(2, 1, 1, &[cnot(2, 0), toffoli(2, 3, 1), not(1), cnot(0, 3)]);
    vec![
        accepted("AND of copies of two inputs", and_of_copies().bytes(), [2, 1, 2, 5]),
        accepted("NOR", nor().bytes(), [2, 1, 2, 9]),
        accepted("AND of three inputs", and_of_three().bytes(), [3, 1, 1, 3]),
        accepted("AND of four inputs, built", and_of_four_built().bytes(), [4, 1, 2, 3]),
        accepted("XOR of an input with itself", itself.bytes(), [1, 1, 0, 2]),
        accepted("output ZERO", Circuit::new(0, 1, 0, &[]).bytes(), [0, 1, 0, 0]),
        accepted("any line as target", free.bytes(), [2, 1, 1, 4]),
        accepted("one line, one NOT", nots(1).bytes(), [0, 1, 0, 1]),
        accepted("two lines", chain(1, 1, 0).bytes(), [1, 1, 0, 1]),
        accepted("every place of 3 lines", every_place(1, 1, 1).bytes(), [1, 1, 1, 18]),
        accepted("every place of 5 lines", every_place(0, 5, 0).bytes(), [0, 5, 0, 18]),
        accepted("every place of 257 lines", every_place(0, 1, 256).bytes(), [0, 1, 256, 18]),
        accepted(
            "every place of 1152 lines",
            every_place(64, 64, 1024).bytes(),
            [64, 64, 1024, 18],
        ),
        accepted("a chain of 1152 lines", chain(64, 64, 1024).bytes(), [64, 64, 1024, 1151]),
    ]
}

fn gate_lengths() -> Vec<Shaped> {
    let body = |length: usize| and_of_copies().layout().resized(1, length).bytes();
    let name = |length: usize| format!("gate body of {length} bytes");
    let mut files =
        vec![accepted(name(0), body(0), [2, 1, 2, 0]), accepted(name(8), body(8), [2, 1, 2, 1])];
    for length in [1, 2, 4, 6, 7, 9, 12, 39, 41] {
        files.push(refused(name(length), body(length), 3, 0));
    }
    files
}

fn gate_counts() -> Vec<Shaped> {
    let gate_bytes = |length: usize| nots(8000).layout().resized(1, length).bytes();
    vec![
        accepted("0 gates", nots(0).bytes(), [0, 1, 0, 0]),
        accepted("1 gate", nots(1).bytes(), [0, 1, 0, 1]),
        accepted("256 gates", nots(256).bytes(), [0, 1, 0, 256]),
        accepted("7999 gates", nots(7999).bytes(), [0, 1, 0, 7999]),
        refused("8000 gates less a byte", gate_bytes(63999), 3, 0),
        accepted("8000 gates", nots(8000).bytes(), [0, 1, 0, 8000]),
        refused("8000 gates and a byte", gate_bytes(64001), 3, 0),
        refused("8001 gates", nots(8001).bytes(), 3, 0),
        refused("8192 gates, 0 bytes in 16 bits", nots(8192).bytes(), 3, 0),
        refused("8193 gates, 8 bytes in 16 bits", nots(8193).bytes(), 3, 0),
        refused("65536 gates, 0 in 16 bits", nots(65536).bytes(), 3, 0),
        refused("65537 gates, 1 in 16 bits", nots(65537).bytes(), 3, 0),
    ]
}

fn work_lines() -> Vec<Shaped> {
    let head = |n: u16, m: u16, w: u16| Circuit::new(n, m, w, &[not(0)]).bytes();
    vec![
        accepted("w 0", head(2, 1, 0), [2, 1, 0, 1]),
        accepted("w 1", head(2, 1, 1), [2, 1, 1, 1]),
        accepted("w 1023", head(2, 1, 1023), [2, 1, 1023, 1]),
        accepted("w 1024", head(2, 1, 1024), [2, 1, 1024, 1]),
        refused("w 1025", head(2, 1, 1025), 4, 0),
        refused("w 1280", head(2, 1, 1280), 4, 0),
        refused("w 2048", head(2, 1, 2048), 4, 0),
        refused("w 65535", head(2, 1, 65535), 4, 0),
        accepted("n 64, m 64, w 1024", head(64, 64, 1024), [64, 64, 1024, 1]),
        refused("n 65, m 0, w 1025", head(65, 0, 1025), 4, 0),
        refused("n 65, m 1, w 1024", head(65, 1, 1024), 4, 0),
    ]
}

/// Four gates on five lines, the third as given.
fn at_2(third: Gate) -> Vec<u8> {
    Circuit::new(2, 1, 2, &[not(4), cnot(4, 0), third, toffoli(3, 4, 2)]).bytes()
}

fn kinds() -> Vec<Shaped> {
    vec![
        accepted("NOT", at_2(not(2)), [2, 1, 2, 4]),
        accepted("CNOT", at_2(cnot(1, 2)), [2, 1, 2, 4]),
        accepted("Toffoli", at_2(toffoli(0, 1, 2)), [2, 1, 2, 4]),
        refused("kind 0, NOT's lines", at_2(gate(0, 0, 0, 2)), 12, 2),
        refused("kind 0, CNOT's lines", at_2(gate(0, 1, 0, 2)), 12, 2),
        refused("kind 0, Toffoli's lines", at_2(gate(0, 0, 1, 2)), 12, 2),
        refused("kind 0, all zero", at_2(gate(0, 0, 0, 0)), 12, 2),
        refused("kind 4, NOT's lines", at_2(gate(4, 0, 0, 2)), 12, 2),
        refused("kind 4, CNOT's lines", at_2(gate(4, 1, 0, 2)), 12, 2),
        refused("kind 4, Toffoli's lines", at_2(gate(4, 0, 1, 2)), 12, 2),
        refused("kind 5", at_2(gate(5, 0, 1, 2)), 12, 2),
        refused("kind 129, 1 in its low bits", at_2(gate(129, 0, 0, 2)), 12, 2),
        refused("kind 255", at_2(gate(255, 0, 1, 2)), 12, 2),
    ]
}

fn zero_bytes() -> Vec<Shaped> {
    vec![
        refused("NOT, zero byte 1", at_2(not(2).with_zero_byte(1)), 12, 2),
        refused("CNOT, zero byte 1", at_2(cnot(1, 2).with_zero_byte(1)), 12, 2),
        refused("Toffoli, zero byte 1", at_2(toffoli(0, 1, 2).with_zero_byte(1)), 12, 2),
        refused("NOT, zero byte 128", at_2(not(2).with_zero_byte(128)), 12, 2),
        refused("CNOT, zero byte 255", at_2(cnot(1, 2).with_zero_byte(255)), 12, 2),
        refused("Toffoli, zero byte 16", at_2(toffoli(0, 1, 2).with_zero_byte(16)), 12, 2),
    ]
}

fn unused_controls() -> Vec<Shaped> {
    vec![
        refused("NOT, control 1", at_2(gate(1, 1, 0, 2)), 12, 2),
        refused("NOT, control 256", at_2(gate(1, 256, 0, 2)), 12, 2),
        refused("NOT, second control 1", at_2(gate(1, 0, 1, 2)), 12, 2),
        refused("NOT, second control 256", at_2(gate(1, 0, 256, 2)), 12, 2),
        refused("NOT, both controls", at_2(gate(1, 1, 3, 2)), 12, 2),
        refused("NOT, control its target", at_2(gate(1, 2, 0, 2)), 12, 2),
        refused("CNOT, second control 1", at_2(gate(2, 0, 1, 2)), 12, 2),
        refused("CNOT, second control 256", at_2(gate(2, 1, 256, 2)), 12, 2),
        refused("CNOT, second control its first", at_2(gate(2, 1, 1, 2)), 12, 2),
        // An unused control is no line, so its 0 is not equal to line 0.
        accepted("NOT of line 0", at_2(not(0)), [2, 1, 2, 4]),
        accepted("CNOT, control 0", at_2(cnot(0, 1)), [2, 1, 2, 4]),
        accepted("CNOT, target 0", at_2(cnot(1, 0)), [2, 1, 2, 4]),
        // Read as CNOT 0 1, the lines left over would be accepted.
        refused("CNOT, first control zero, second not", at_2(gate(2, 0, 3, 1)), 12, 2),
    ]
}

fn line_limits() -> Vec<Shaped> {
    type Place = fn(u16) -> Gate;
    let places: [(&str, Place); 5] = [
        ("NOT, target", not),
        ("CNOT, control", |line| cnot(line, 0)),
        ("CNOT, target", |line| cnot(0, line)),
        ("Toffoli, second control", |line| toffoli(0, line, 1)),
        ("Toffoli, target", |line| toffoli(0, 1, line)),
    ];
    let mut files = Vec::new();
    for (name, place) in places {
        files.push(accepted(format!("{name} 4 of 5 lines"), at_2(place(4)), [2, 1, 2, 4]));
        for line in [5, 6, 256, 258, 32770, 65535] {
            files.push(refused(format!("{name} {line} of 5 lines"), at_2(place(line)), 12, 2));
        }
    }
    // A first control that is too high has a second one that is too, or that is lower.
    files.push(accepted(
        "Toffoli, controls 3 and 4 of 5 lines",
        at_2(toffoli(3, 4, 1)),
        [2, 1, 2, 4],
    ));
    for line in [4, 5, 255, 256, 258, 32770, 65534] {
        let name = format!("Toffoli, controls {line} and {} of 5 lines", line + 1);
        files.push(refused(name, at_2(toffoli(line, line + 1, 1)), 12, 2));
        let name = format!("Toffoli, controls {} and 0 of 5 lines", line + 1);
        files.push(refused(name, at_2(toffoli(line + 1, 0, 1)), 12, 2));
    }
    files
}

/// The last line, and the one after it, where n, m or w gives the lines.
fn line_counts() -> Vec<Shaped> {
    let mut files = Vec::new();
    for (n, m, w) in [(0, 1, 0), (3, 1, 0), (0, 4, 0), (0, 1, 3), (64, 64, 0), (64, 64, 1024)] {
        let lines = n + m + w;
        let with = |gate: Gate| Circuit::new(n, m, w, &[not(0), gate]).bytes();
        let name = |line: u16| format!("NOT {line} with n {n}, m {m}, w {w}");
        let numbers = [n, m, w, 2].map(usize::from);
        files.push(accepted(name(lines - 1), with(not(lines - 1)), numbers));
        files.push(refused(name(lines), with(not(lines)), 12, 1));
        let control = format!("CNOT {lines} 0 with n {n}, m {m}, w {w}");
        files.push(refused(control, with(cnot(lines, 0)), 12, 1));
    }
    files
}

fn equal_lines() -> Vec<Shaped> {
    vec![
        refused("CNOT 0 0", at_2(cnot(0, 0)), 12, 2),
        refused("CNOT 1 1", at_2(cnot(1, 1)), 12, 2),
        refused("CNOT 4 4", at_2(cnot(4, 4)), 12, 2),
        refused("Toffoli, equal controls", at_2(toffoli(1, 1, 2)), 12, 2),
        refused("Toffoli, equal controls 0", at_2(toffoli(0, 0, 2)), 12, 2),
        refused("Toffoli, control its target", at_2(toffoli(2, 3, 2)), 12, 2),
        refused("Toffoli, control its target 0", at_2(toffoli(0, 1, 0)), 12, 2),
        refused("Toffoli, second control its target", at_2(toffoli(1, 2, 2)), 12, 2),
        refused("Toffoli, second control its target 4", at_2(toffoli(0, 4, 4)), 12, 2),
        refused("Toffoli, falling to its target 0", at_2(toffoli(1, 0, 0)), 12, 2),
        refused("Toffoli, falling from its target 2", at_2(toffoli(2, 1, 2)), 12, 2),
        refused("Toffoli, all equal", at_2(toffoli(3, 3, 3)), 12, 2),
        refused("Toffoli, equal and too high", at_2(toffoli(5, 5, 2)), 12, 2),
        accepted("two equal gates", at_2(cnot(4, 0)), [2, 1, 2, 4]),
    ]
}

/// The lower control first, which is right, and second.
fn in_both_orders((n, m, w): (u16, u16, u16), a: u16, b: u16, target: u16) -> [Shaped; 2] {
    let name = |a: u16, b: u16| format!("Toffoli {a} {b} {target} of {} lines", n + m + w);
    let file = |a: u16, b: u16| Circuit::new(n, m, w, &[not(0), toffoli(a, b, target)]).bytes();
    let numbers = [n, m, w, 2].map(usize::from);
    [accepted(name(a, b), file(a, b), numbers), refused(name(b, a), file(b, a), 12, 1)]
}

/// The target of a Toffoli is above its controls, between them and below, as far as it can. A CNOT
/// may have its one control on either side.
fn control_orders() -> Vec<Shaped> {
    let mut files = Vec::new();
    for (n, m, w) in [(1, 1, 1), (2, 1, 2), (0, 1, 256), (64, 64, 1024)] {
        let last = n + m + w - 1;
        let middle = last / 2;
        for (a, b, target) in [(0, middle, last), (0, last, middle), (middle, last, 0)] {
            files.extend(in_both_orders((n, m, w), a, b, target));
        }
    }
    for (a, b) in PAIRS {
        for target in [0, a + 1, 1151] {
            if target != a && target != b {
                files.extend(in_both_orders((64, 64, 1024), a, b, target));
            }
        }
    }
    let cnots = |gates: [Gate; 16]| Circuit::new(64, 64, 1024, &gates).bytes();
    let numbers = [64, 64, 1024, 16];
    files.push(accepted("CNOTs to higher lines", cnots(PAIRS.map(|(a, b)| cnot(a, b))), numbers));
    files.push(accepted("CNOTs to lower lines", cnots(PAIRS.map(|(a, b)| cnot(b, a))), numbers));
    files
}

/// Circuits with several Toffolis, in all of their writings: those of one vendor have the lower
/// control first, those of the other the higher one, and some have both.
fn writings() -> Vec<Shaped> {
    let toffolis = [toffoli(0, 1, 2), toffoli(0, 2, 1), toffoli(1, 2, 0)];
    let circuits = [
        ("AND of three inputs", and_of_three()),
        ("AND of four inputs, built", and_of_four_built()),
        ("three Toffolis", Circuit::new(1, 1, 1, &toffolis)),
    ];
    let mut files = vec![accepted("three Toffolis", circuits[2].1.bytes(), [1, 1, 1, 3])];
    for (name, circuit) in circuits {
        for (exchanged, writing) in &circuit.writings()[1..] {
            let name = format!("{name}, controls of {exchanged:?} exchanged");
            files.push(refused(name, writing.bytes(), 12, exchanged[0] as u64));
        }
    }
    files
}

/// A Toffoli with its higher control first before, at and behind a gate with any other fault, and
/// as one of 8,000.
fn falling_among_bad_gates() -> Vec<Shaped> {
    let falling = toffoli(4, 3, 2);
    let faults = [
        ("a kind", BAD),
        ("a zero byte", not(0).with_zero_byte(1)),
        ("an unused control", gate(2, 0, 3, 1)),
        ("a line", not(5)),
        ("equal lines", cnot(1, 1)),
    ];
    let circuit = |gates: &[Gate]| Circuit::new(2, 1, 2, gates).bytes();
    let mut files = Vec::new();
    for (fault, bad) in faults {
        let before = circuit(&[not(0), bad, falling]);
        files.push(refused(format!("{fault} at 1, then controls falling at 2"), before, 12, 1));
        let behind = circuit(&[not(0), falling, bad]);
        files.push(refused(format!("controls falling at 1, then {fault} at 2"), behind, 12, 1));
    }
    let at_once = [
        ("a kind", gate(4, 4, 3, 2)),
        ("a zero byte", falling.with_zero_byte(1)),
        ("a line", toffoli(4, 3, 5)),
        ("equal lines", toffoli(4, 3, 3)),
    ];
    for (fault, bad) in at_once {
        let file = circuit(&[not(0), bad]);
        files.push(refused(format!("controls falling and {fault} at 1"), file, 12, 1));
    }

    let of_8000 = || Circuit::new(0, 3, 0, &[toffoli(0, 1, 2); 8000]);
    files.push(accepted("8000 Toffolis", of_8000().bytes(), [0, 3, 0, 8000]));
    for exchanged in [&[0][..], &[255], &[256], &[7999], &[4096, 7999]] {
        let file = of_8000().with_exchanged(exchanged).bytes();
        let name = format!("8000 Toffolis, controls of {exchanged:?} exchanged");
        files.push(refused(name, file, 12, exchanged[0] as u64));
    }
    files
}

fn lowest_bad_gates() -> Vec<Shaped> {
    let circuit = |gates: &[Gate]| Circuit::new(2, 1, 2, gates).bytes();
    let at_of_8000 = |at: usize, more: Option<usize>| {
        let mut circuit = nots(8000);
        circuit.gates[at] = BAD;
        circuit.gates[more.unwrap_or(at)] = BAD;
        circuit.bytes()
    };
    let good = not(0);
    vec![
        refused("the only gate bad", circuit(&[BAD]), 12, 0),
        refused("gates 0 and 1 bad", circuit(&[BAD, BAD, good]), 12, 0),
        refused("gates 1 and 2 bad", circuit(&[good, BAD, BAD]), 12, 1),
        refused("gates 0 and 2 bad", circuit(&[BAD, good, BAD]), 12, 0),
        refused("all gates bad", circuit(&[BAD; 4]), 12, 0),
        refused("a line at 1, then a kind at 2", circuit(&[good, not(5), BAD]), 12, 1),
        refused(
            "equal lines at 1, then a zero byte at 2, then an unused control at 3",
            circuit(&[good, cnot(1, 1), good.with_zero_byte(1), gate(1, 1, 0, 0)]),
            12,
            1,
        ),
        refused("gate 0 of 8000 bad", at_of_8000(0, None), 12, 0),
        refused("gate 255 of 8000 bad", at_of_8000(255, None), 12, 255),
        refused("gate 256 of 8000 bad", at_of_8000(256, None), 12, 256),
        refused("gate 7999 of 8000 bad", at_of_8000(7999, None), 12, 7999),
        refused("gates 4096 and 7999 of 8000 bad", at_of_8000(4096, Some(7999)), 12, 4096),
    ]
}

/// n and a gate are wrong.
fn bad_range() -> Circuit {
    Circuit::new(65, 1, 0, &[not(0), BAD])
}

/// Files with several causes: the lowest number is given.
fn causes_together() -> Vec<Shaped> {
    let circuit = |n, m, w, gates: &[Gate]| Circuit::new(n, m, w, gates).bytes();
    let short_gates = bad_range().layout().resized(1, 15);
    let bad_end = short_gates.clone().changed(|l| l.bodies[1].push(0));
    vec![
        refused("4 and 12 together", bad_range().bytes(), 4, 0),
        refused("12 alone", circuit(64, 1, 0, &[not(0), BAD]), 12, 1),
        refused("1 and 2: a table cut short, first tag 0", vec![2, 0, 0, 0], 1, 0),
        refused("2 and 3: a gate body short, a byte at the end", bad_end.bytes(), 2, 0),
        refused("3 and 4: a gate body short, n 65", short_gates.bytes(), 3, 0),
        refused("3 and 4: 8001 gates, m 0", circuit(0, 0, 1, &[not(0); 8001]), 3, 0),
        refused("3 and 12: 8001 bad gates", circuit(0, 1, 0, &[BAD; 8001]), 3, 0),
        refused("4 and 12: m 0, a bad gate", circuit(2, 0, 2, &[BAD]), 4, 0),
        refused("4 and 12: n 65, controls falling", circuit(65, 1, 0, &[toffoli(2, 1, 0)]), 4, 0),
        refused("4 and 12: w 1025, NOT 1026", circuit(0, 1, 1025, &[not(1026)]), 4, 0),
        refused("4, not 12: w 1025, NOT 1025", circuit(0, 1, 1025, &[not(1025)]), 4, 0),
    ]
}

/// Every gate of kinds 0 to 4 on so many lines and on the one after them, with each field of the
/// gate any of these: behind a good gate, its zero byte zero or not.
pub fn every_gate(lines: u16) -> Vec<Shaped> {
    let work = lines / 2;
    let inputs = lines - 1 - work;
    let numbers = [inputs, 1, work, 2].map(usize::from);
    let shaped = |gate: Gate| {
        let name = format!("{gate:?} of {lines} lines");
        let file = Circuit::new(inputs, 1, work, &[not(0), gate]).bytes();
        if in_order(gate, lines) {
            accepted(name, file, numbers)
        } else {
            refused(name, file, 12, 1)
        }
    };
    let fields = || 0..=lines;
    let controls = || fields().flat_map(move |a| fields().map(move |b| (a, b)));
    let places = move || controls().flat_map(move |(a, b)| fields().map(move |t| (a, b, t)));
    (0..=4)
        .flat_map(|kind| places().map(move |(a, b, t)| gate(kind, a, b, t)))
        .flat_map(|gate| [gate, gate.with_zero_byte(1)])
        .map(shaped)
        .collect()
}

/// Whether a file with so many lines may have this gate.
fn in_order(gate: Gate, lines: u16) -> bool {
    let Gate { kind, zero, control: a, second: b, target: t } = gate;
    match (kind, zero) {
        (1, 0) => a == 0 && b == 0 && t < lines,
        (2, 0) => b == 0 && a < lines && t < lines && a != t,
        (3, 0) => a < lines && b < lines && t < lines && a < b && t != a && t != b,
        _ => false,
    }
}
