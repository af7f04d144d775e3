//! undo: the archive beside the model, the area before and after included.

use agreement::circuit::{self, cnot, gate, not, toffoli, Circuit, Gate};
use agreement::compare::run::after;
use agreement::compare::undo::{archive, compare, drawn, model, written as undone, Case};
use agreement::compare::NO_GATES;
use agreement::random::Random;
use agreement::tally::Tally;
use agreement::{bits, damage, hex, shaped, Outcome};

/// A shaped case on both sides, with the area expected.
fn check(name: &str, case: &Case, expected: Outcome<usize>, area: &[u8]) {
    let length = case.area.len();
    for (side, given) in [("model", model(case)), ("archive", archive(case))] {
        assert_eq!(given.0, expected, "{name}, area of {length}, {side}");
        assert!(given.1 == area, "{name}, area of {length}, {side}: the area");
    }
}

/// Undoing a circuit with these lines chosen leaves these gates: in areas that are long enough,
/// and refused in those that are not.
fn leaves(name: &str, circuit: &Circuit, chosen: &[usize], gates: &[Gate]) {
    let mut choices = vec![0; circuit.lines()];
    for line in chosen {
        choices[*line] = 1;
    }
    let written = Circuit::new(circuit.inputs, circuit.outputs, circuit.work, gates).bytes();
    let case = |length: usize| Case {
        file: circuit.bytes(),
        choices: choices.clone(),
        area: (0..length).map(|at| at as u8 | 0x80).collect(),
    };
    for more in [0, 1, 7, 8, 100] {
        let case = case(written.len() + more);
        let area = [&written[..], &case.area[written.len()..]].concat();
        check(name, &case, Ok(written.len()), &area);
    }
    for length in [written.len() - 1, written.len() - 8, NO_GATES - 1, 22, 1, 0] {
        check(name, &case(length), Err((11, gates.len() as u64)), &vec![0; length]);
    }
}

/// A shaped case that is refused and leaves the area, long enough or not.
fn refuses(name: &str, file: &[u8], choices: &[u8], refusal: (u64, u64)) {
    for length in [100_000, NO_GATES, 1, 0] {
        let area = vec![9; length];
        let case = Case { file: file.to_vec(), choices: choices.to_vec(), area: area.clone() };
        check(name, &case, Err(refusal), &area);
    }
}

#[test]
fn the_whole_case() {
    let circuit = shaped::circuit::whole_case();
    let only = [toffoli(0, 1, 2)];
    leaves("none chosen", &circuit, &[], &only);
    leaves("line 0 chosen", &circuit, &[0], &only);
    leaves("line 1 chosen", &circuit, &[1], &only);
    leaves("line 2 chosen", &circuit, &[2], &[]);
    leaves("lines 0 and 1 chosen", &circuit, &[0, 1], &only);
    leaves("all chosen", &circuit, &[0, 1, 2], &[]);
}

#[test]
fn and_of_copies_of_two_inputs() {
    let circuit = shaped::circuit::and_of_copies();
    let (first, second, toffoli) = (cnot(0, 3), cnot(1, 4), toffoli(3, 4, 2));
    let all = [first, second, toffoli, second, first];
    leaves("none chosen", &circuit, &[], &all);
    leaves("line 0 chosen", &circuit, &[0], &all);
    leaves("line 1 chosen", &circuit, &[1], &all);
    leaves("line 2 chosen", &circuit, &[2], &[first, second, second, first]);
    leaves("line 3 chosen", &circuit, &[3], &[second, toffoli, second]);
    leaves("line 4 chosen", &circuit, &[4], &[first, toffoli, first]);
    leaves("lines 2 and 3 chosen", &circuit, &[2, 3], &[second, second]);
    leaves("lines 3 and 4 chosen", &circuit, &[3, 4], &[toffoli]);
    leaves("all chosen", &circuit, &[0, 1, 2, 3, 4], &[]);
}

/// The second half of a share is its first half undone except on the target.
#[test]
fn a_share_is_cleaned_by_undoing() {
    let three = shaped::circuit::and_of_three();
    let (build, clean) = three.gates.split_at(2);
    leaves("AND of three, target chosen", &Circuit::new(3, 1, 1, build), &[3], clean);

    let nor = shaped::circuit::nor();
    let (build, clean) = nor.gates.split_at(5);
    leaves("NOR, target chosen", &Circuit::new(2, 1, 2, build), &[2], clean);

    let four = shaped::circuit::and_of_four_built();
    let clean = [toffoli(2, 6, 5), toffoli(0, 1, 6)];
    leaves("AND of four, target chosen", &four, &[4], &clean);
}

#[test]
fn gates_are_left_out_by_their_target_alone() {
    let gates = [not(0), cnot(0, 1), toffoli(0, 1, 2), cnot(2, 0), not(3), toffoli(2, 3, 1)];
    let circuit = Circuit::new(1, 2, 1, &gates);
    let [a, b, c, d, e, f] = gates;
    leaves("none chosen", &circuit, &[], &[f, e, d, c, b, a]);
    leaves("line 0 chosen", &circuit, &[0], &[f, e, c, b]);
    leaves("line 1 chosen", &circuit, &[1], &[e, d, c, a]);
    leaves("line 2 chosen", &circuit, &[2], &[f, e, d, b, a]);
    leaves("line 3 chosen", &circuit, &[3], &[f, d, c, b, a]);
    leaves("lines 0 and 3 chosen", &circuit, &[0, 3], &[f, c, b]);
    leaves("all but line 2 chosen", &circuit, &[0, 1, 3], &[c]);
    leaves("all chosen", &circuit, &[0, 1, 2, 3], &[]);
}

#[test]
fn no_gates() {
    for (n, m, w) in [(0, 1, 0), (64, 64, 1024), (2, 3, 4)] {
        let circuit = Circuit::new(n, m, w, &[]);
        let all: Vec<usize> = (0..circuit.lines()).collect();
        leaves("no gates, none chosen", &circuit, &[], &[]);
        leaves("no gates, all chosen", &circuit, &all, &[]);
    }
}

/// Every kind with the first, a middle and the last line in each place, each line chosen alone.
#[test]
fn every_kind_in_every_place() {
    for (n, m, w) in [(1, 1, 1), (0, 5, 0), (0, 1, 256), (64, 64, 1024)] {
        let circuit = shaped::circuit::every_place(n, m, w);
        let last = circuit.lines() - 1;
        for chosen in [0, last / 2, last] {
            let kept = |gate: &&Gate| usize::from(gate.target) != chosen;
            let gates: Vec<Gate> = circuit.gates.iter().rev().filter(kept).copied().collect();
            assert_eq!(gates.len(), 12, "each line is the target of a third of the gates");
            leaves(&format!("line {chosen} chosen"), &circuit, &[chosen], &gates);
        }
    }
}

/// Every gate in order, and every gate that is not. For these, choices that are no bits or too few
/// do not matter, nor that the gate would be left out.
#[test]
fn every_gate_of_few_lines() {
    for count in 2..=5 {
        let files = || shaped::circuit::every_gate(count as u16);
        shaped::each_accepted(files(), |name, file, _| {
            for choices in (0..1 << count).map(|choice| bits(choice, count)) {
                let case = Case { file: file.to_vec(), choices, area: vec![9; file.len()] };
                assert!(compare(&case).is_ok(), "{name}");
            }
        });
        shaped::each_refused("undo, every gate", files(), |name, file, refusal| {
            for choices in [vec![0; count], vec![1; count], vec![2; count], vec![1; count - 1]] {
                refuses(name, file, &choices, refusal);
            }
        });
    }
}

/// In a chain of 1,152 lines, line i is the target of gate i - 1 and of no other.
#[test]
fn each_of_1152_lines_chosen() {
    let circuit = shaped::circuit::chain(64, 64, 1024);
    let (file, lines) = (circuit.bytes(), circuit.lines());
    let reversed: Vec<Gate> = circuit.gates.iter().rev().copied().collect();
    for chosen in 0..lines {
        let mut gates = reversed.clone();
        if chosen > 0 {
            gates.remove(reversed.len() - chosen);
        }
        let written = Circuit::new(64, 64, 1024, &gates).bytes();
        let mut choices = vec![0; lines];
        choices[chosen] = 1;
        let area = vec![9; written.len()];
        let case = Case { file: file.clone(), choices, area };
        check(&format!("line {chosen} chosen"), &case, Ok(written.len()), &written);
    }
}

#[test]
fn all_of_8000_gates() {
    let mut gates = vec![not(0), cnot(0, 1)];
    gates.extend([toffoli(0, 1, 2); 7996]);
    gates.extend([cnot(2, 1), not(2)]);
    let circuit = Circuit::new(1, 1, 1, &gates);
    gates.reverse();
    leaves("8000 gates, none chosen", &circuit, &[], &gates);
    leaves("8000 gates, line 0 chosen", &circuit, &[0], &gates[..7999]);
    leaves("8000 gates, line 2 chosen", &circuit, &[2], &[cnot(2, 1), cnot(0, 1), not(0)]);
    leaves("8000 gates, all chosen", &circuit, &[0, 1, 2], &[]);
}

/// 13 comes before 11: refuses lends areas that are long enough and areas that are not.
#[test]
fn choice_bytes_and_causes_together() {
    for bad in shaped::bad_calls::all() {
        refuses(&bad.name, &bad.file, &bad.bits, bad.refusal);
    }
    let bad_gate = Circuit::new(2, 1, 2, &[cnot(0, 3), gate(4, 0, 0, 0)]);
    refuses("12, with good choices", &bad_gate.bytes(), &[0; 5], (12, 1));
    // A gate that would be left out is checked all the same.
    let left_out = Circuit::new(2, 1, 2, &[cnot(0, 3), cnot(3, 3)]);
    refuses("12, left out", &left_out.bytes(), &[0, 0, 0, 1, 0], (12, 1));
}

/// The refusals of reading come through as they are, whatever else is wrong.
#[test]
fn shaped_files_refused_by_the_reader() {
    shaped::each_refused("undo", shaped::circuit::all(), |name, file, refusal| {
        for choices in [vec![0; 5], vec![1; 1152], vec![2], vec![]] {
            refuses(name, file, &choices, refusal);
        }
    });
}

/// Files that the reader accepts, with all lines chosen, none, and some, in several areas.
#[test]
fn shaped_files_accepted_by_the_reader() {
    let mut random = Random::new(0x7570_6c6f);
    let mut tally = Tally::new("undo, shaped files");
    shaped::each_accepted(shaped::circuit::all(), |_, file, head| {
        let lines = head.lines();
        for choices in [vec![0; lines], vec![1; lines], random.bits(lines)] {
            for length in [file.len() + 9, file.len(), file.len() - 1, NO_GATES, NO_GATES - 1] {
                let area = random.bytes(length);
                let case = Case { file: file.to_vec(), choices: choices.clone(), area };
                tally.count(&compare(&case));
            }
        }
    });
    tally.finish(500, &[11]);
}

/// Every one-byte change of a small file, with this line chosen and an area long enough or shorter
/// than what then remains, and with none chosen. No such change gives cause 3.
fn each_byte_changed(service: &'static str, circuit: &Circuit, chosen: usize, short: usize) {
    let mut tally = Tally::new(service);
    let file = circuit.bytes();
    let length = file.len();
    for file in damage::each_byte_changed(&file) {
        // As many choices as the changed file has lines, where it is one.
        let read = model::circuit::read(&file);
        let lines = read.map_or(circuit.lines(), |circuit| circuit.lines());
        let mut choices = vec![0; lines.max(chosen + 1)];
        choices[chosen] = 1;
        let none = vec![0; circuit.lines()];
        for (choices, length) in [(choices.clone(), length), (choices, short), (none, length)] {
            let area = vec![9; length];
            tally.count(&compare(&Case { file: file.clone(), choices, area }));
        }
    }
    tally.finish(length as u64 * 256 * 3, &[1, 2, 4, 11, 12, 13]);
}

#[test]
fn each_byte_of_the_whole_case_changed() {
    each_byte_changed("undo, one byte changed", &shaped::circuit::whole_case(), 1, 35);
}

/// The same of a file with work lines and gates of every kind.
#[test]
fn each_byte_of_nor_changed() {
    each_byte_changed("undo, one byte of NOR changed", &shaped::circuit::nor(), 3, 67);
}

/// 01's slip: undone in forward order, line 5 would stay 1.
#[test]
fn the_work_lines_of_four_inputs_are_cleaned() {
    let built = shaped::circuit::and_of_four_built();
    let lines = after(&built.bytes(), &[1, 1, 1, 1, 0, 0, 0]);
    assert_eq!(lines, [1; 7]);
    let cleaned = after(&undone(&built.bytes(), &[0, 0, 0, 0, 1, 0, 0]), &lines);
    assert_eq!(cleaned, [1, 1, 1, 1, 1, 0, 0]);
    let forward = Circuit::new(4, 1, 2, &built.gates[..2]);
    assert_eq!(after(&forward.bytes(), &lines), [1, 1, 1, 1, 1, 1, 0]);
}

/// A random circuit and choices such that no chosen line is a control.
fn controls_not_chosen(random: &mut Random) -> (Circuit, Vec<u8>) {
    let mut circuit = circuit::valid(random);
    let times = random.within(2..=4);
    let choices: Vec<u8> = (0..circuit.lines()).map(|_| u8::from(random.once_in(times))).collect();
    let chosen = |line: &u16| choices[usize::from(*line)] == 1;
    circuit.gates.retain(|gate| !gate.controls().iter().any(chosen));
    (circuit, choices)
}

/// Where no chosen line is a control, the other lines do not depend on the chosen ones: a circuit
/// and then its undo restores them, and the chosen lines keep what the circuit gave them. Holds for
/// the archive by itself, whatever the model says.
#[test]
fn a_circuit_and_its_undo_move_only_chosen_lines() {
    let mut random = Random::new(0x756e_646f);
    let (mut restored, mut kept) = (0, 0);
    for _ in 0..4_000 {
        let (circuit, choices) = controls_not_chosen(&mut random);
        let file = circuit.bytes();
        let start = random.bits(circuit.lines());
        let between = after(&file, &start);
        let end = after(&undone(&file, &choices), &between);
        for line in 0..start.len() {
            let moved = u32::from(between[line] != start[line]);
            if choices[line] == 1 {
                kept += moved;
                assert_eq!(end[line], between[line], "chosen line {line}, {}", hex(&file));
            } else {
                restored += moved;
                assert_eq!(end[line], start[line], "line {line}, {}", hex(&file));
            }
        }
    }
    println!("undo: {restored} lines moved and restored, {kept} chosen ones moved and kept");
    assert!(restored > 2_000 && kept > 2_000, "too few lines moved");
}

/// With no line chosen, the undo runs as the file does backwards, and its undo is the file.
#[test]
fn undoing_with_no_line_chosen_reverses() {
    let mut random = Random::new(0x7265_7673);
    for _ in 0..4_000 {
        let circuit = circuit::valid(&mut random);
        let file = circuit.bytes();
        let choices = vec![0; circuit.lines()];
        let reversed = undone(&file, &choices);
        assert!(undone(&reversed, &choices) == file, "undone twice: {}", hex(&file));

        let start = random.bits(circuit.lines());
        let mut back = start.clone();
        oracle::run_backwards(&file, &mut back).expect("good lines");
        assert_eq!(after(&reversed, &start), back, "{}", hex(&file));
    }
}

#[test]
fn random_and_damaged_cases() {
    let mut random = Random::new(0x7261_6e64);
    let mut tally = Tally::new("undo");
    let mut left_out = 0;
    for _ in 0..32_000 {
        let case = random_case(&mut random);
        let outcome = compare(&case);
        tally.count(&outcome);
        if let Ok(length) = outcome {
            left_out += u32::from(length > NO_GATES && length < case.file.len());
        }
    }
    tally.finish(20_000, &[1, 2, 3, 4, 11, 12, 13]);
    println!("undo: {left_out} times some gates remained and some did not");
    assert!(left_out > 1_000, "too few circuits lost a part of their gates");
}

/// Mostly a good file; then mostly good choices and an area that is long enough.
fn random_case(random: &mut Random) -> Case {
    let file =
        if random.once_in(3) { circuit::damaged(random) } else { circuit::valid(random).bytes() };
    drawn(random, file)
}
