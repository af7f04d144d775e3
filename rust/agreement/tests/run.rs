//! run_forwards and run_backwards: the archive beside the model, the lines before and after
//! included.

use agreement::circuit::{self, cnot, every_toffoli, gate, not, sorted_toffoli, Circuit, Gate};
use agreement::compare::run::Direction::{self, Backwards, Forwards};
use agreement::compare::run::{archive, compare, drawn, model};
use agreement::random::Random;
use agreement::tally::Tally;
use agreement::{bits, damage, hex, shaped};
use model::circuit::Gate::Toffoli;
use model::run::step;

/// A shaped run, with the lines given and those expected.
fn gives(name: &str, direction: Direction, circuit: &Circuit, lines: &[u8], after: &[u8]) {
    let file = circuit.bytes();
    let expected = (Ok(()), after.to_vec());
    assert_eq!(model(direction, &file, lines), expected, "{name}, {direction:?}, model");
    assert_eq!(archive(direction, &file, lines), expected, "{name}, {direction:?}, archive");
}

/// A shaped run that is refused both ways and leaves the lines.
fn refuses(name: &str, file: &[u8], lines: &[u8], refusal: (u64, u64)) {
    let expected = (Err(refusal), lines.to_vec());
    for direction in [Forwards, Backwards] {
        assert!(model(direction, file, lines) == expected, "{name}, {direction:?}, model");
        let given = archive(direction, file, lines);
        assert_eq!(given.0, expected.0, "{name}, {direction:?}, archive");
        assert!(given.1 == lines, "{name}, {direction:?}, archive, the lines");
    }
}

/// A circuit that is the same from both ends, so that both directions give the same.
fn gives_both_ways(name: &str, circuit: &Circuit, lines: &[u8], after: &[u8]) {
    for direction in [Forwards, Backwards] {
        gives(name, direction, circuit, lines, after);
    }
}

#[test]
fn the_whole_case_on_all_inputs() {
    let circuit = shaped::circuit::whole_case();
    let check = |lines: [u8; 3], after: [u8; 3]| {
        gives_both_ways("the whole case", &circuit, &lines, &after);
    };
    check([0, 0, 0], [0, 0, 0]);
    check([0, 1, 0], [0, 1, 0]);
    check([1, 0, 0], [1, 0, 0]);
    check([1, 1, 0], [1, 1, 1]);
    check([0, 0, 1], [0, 0, 1]);
    check([0, 1, 1], [0, 1, 1]);
    check([1, 0, 1], [1, 0, 1]);
    check([1, 1, 1], [1, 1, 0]);
}

#[test]
fn and_of_three_inputs() {
    let circuit = shaped::circuit::and_of_three();
    let check = |lines: [u8; 5], after: [u8; 5]| {
        gives_both_ways("AND of three", &circuit, &lines, &after);
    };
    check([1, 1, 1, 0, 0], [1, 1, 1, 1, 0]);
    check([1, 1, 1, 1, 0], [1, 1, 1, 0, 0]);
    check([1, 1, 0, 0, 0], [1, 1, 0, 0, 0]);
    check([1, 0, 1, 0, 0], [1, 0, 1, 0, 0]);
    check([0, 1, 1, 1, 0], [0, 1, 1, 1, 0]);
    // A work line that starts at 1 stays 1, and the AND is not that of the inputs.
    check([1, 1, 1, 1, 1], [1, 1, 1, 1, 1]);
    check([1, 1, 1, 0, 1], [1, 1, 1, 0, 1]);
    check([0, 1, 1, 0, 1], [0, 1, 1, 1, 1]);
    check([0, 0, 1, 1, 1], [0, 0, 1, 0, 1]);
    check([0, 0, 0, 1, 1], [0, 0, 0, 1, 1]);
}

#[test]
fn and_of_copies_of_two_inputs() {
    let circuit = shaped::circuit::and_of_copies();
    let check = |lines: [u8; 5], after: [u8; 5]| {
        gives_both_ways("AND of copies", &circuit, &lines, &after);
    };
    check([0, 1, 0, 0, 0], [0, 1, 0, 0, 0]);
    check([1, 0, 1, 0, 0], [1, 0, 1, 0, 0]);
    check([1, 1, 0, 0, 0], [1, 1, 1, 0, 0]);
    check([1, 1, 1, 0, 0], [1, 1, 0, 0, 0]);
    check([1, 1, 1, 1, 0], [1, 1, 1, 1, 0]);
    check([0, 1, 0, 1, 0], [0, 1, 1, 1, 0]);
    check([1, 1, 0, 0, 1], [1, 1, 0, 0, 1]);
    check([0, 0, 0, 1, 1], [0, 0, 1, 1, 1]);
}

#[test]
fn the_other_examples() {
    let nor = shaped::circuit::nor();
    gives("NOR 0 0", Forwards, &nor, &[0, 0, 0, 0, 0], &[0, 0, 1, 0, 0]);
    gives("NOR 0 1", Forwards, &nor, &[0, 1, 0, 0, 0], &[0, 1, 0, 0, 0]);
    gives("NOR 1 0", Forwards, &nor, &[1, 0, 1, 0, 0], &[1, 0, 1, 0, 0]);
    gives("NOR 1 1", Forwards, &nor, &[1, 1, 1, 0, 0], &[1, 1, 1, 0, 0]);

    let four = shaped::circuit::and_of_four_built();
    let built = [1, 1, 1, 1, 1, 1, 1];
    let inputs = [1, 1, 1, 1, 0, 0, 0];
    gives("AND 1 1 1 1, built", Forwards, &four, &inputs, &built);
    gives("AND 1 1 1 1, built", Backwards, &four, &built, &inputs);
    // Backwards from the inputs, each gate runs before what it needs.
    gives("AND 1 1 1 1", Backwards, &four, &inputs, &[1, 1, 1, 1, 0, 0, 1]);

    let zero = Circuit::new(0, 1, 0, &[]);
    gives("output ZERO", Forwards, &zero, &[1], &[1]);
    gives("output ZERO", Backwards, &zero, &[0], &[0]);
}

/// The gates of every kind on three lines, with their controls and their target.
fn on_lines(a: u16, b: u16, c: u16) -> [(Gate, Vec<u16>, u16); 3] {
    [(not(a), vec![], a), (cnot(a, b), vec![a], b), (sorted_toffoli(a, b, c), vec![a, b], c)]
}

/// Each kind alone, with the first, a middle and the last line in each place and at each value,
/// once with every other line 0 and once with every other line 1.
#[test]
fn every_kind_in_every_place() {
    let orders = [(0, 1, 2), (0, 2, 1), (1, 0, 2), (1, 2, 0), (2, 0, 1), (2, 1, 0)];
    for (n, m, w) in [(1, 1, 1), (0, 5, 0), (2, 1, 2), (0, 1, 256), (64, 64, 1024)] {
        let last = n + m + w - 1;
        let places = [0, last / 2, last];
        for (a, b, c) in orders {
            for (gate, controls, target) in on_lines(places[a], places[b], places[c]) {
                let circuit = Circuit::new(n, m, w, &[gate]);
                for state in 0..16 {
                    let mut lines = vec![state >> 3; circuit.lines()];
                    for (i, place) in places.iter().enumerate() {
                        lines[usize::from(*place)] = state >> i & 1;
                    }
                    let mut after = lines.clone();
                    if controls.iter().all(|control| lines[usize::from(*control)] == 1) {
                        after[usize::from(target)] = 1 - lines[usize::from(target)];
                    }
                    let name = format!("{gate:?} of {} lines, state {state}", circuit.lines());
                    gives(&name, Forwards, &circuit, &lines, &after);
                    gives(&name, Backwards, &circuit, &lines, &after);
                }
            }
        }
    }
}

/// Every gate in order, from every start, and every gate that is not. For these, bytes that are no
/// bits or too few do not matter, and the good gate before has not run.
#[test]
fn every_gate_of_few_lines() {
    for count in 2..=5 {
        let files = || shaped::circuit::every_gate(count as u16);
        shaped::each_accepted(files(), |name, file, _| {
            for start in (0..1 << count).map(|state| bits(state, count)) {
                for direction in [Forwards, Backwards] {
                    assert_eq!(compare(direction, file, &start).0, Ok(()), "{name}");
                }
            }
        });
        shaped::each_refused("run, every gate", files(), |name, file, refusal| {
            for lines in [vec![0; count], vec![1; count], vec![2; count], vec![1; count - 1]] {
                refuses(name, file, &lines, refusal);
            }
        });
    }
}

/// A Toffoli with its controls exchanged is refused, and would do what it does without: on 3 to 5
/// lines, from every start.
#[test]
fn exchanged_controls_would_do_the_same() {
    for count in 3..=5 {
        for gate in every_toffoli(count as u16) {
            let of = |gate: Gate| Circuit::new(0, count as u16, 0, &[gate]);
            let [a, b, target] = [gate.control, gate.second, gate.target].map(usize::from);
            let name = format!("{gate:?} of {count} lines");
            for start in (0..1 << count).map(|state| bits(state, count)) {
                refuses(&name, &of(gate.exchanged()).bytes(), &start, (12, 0));
                let mut after = start.clone();
                step(Toffoli(b, a, target), &mut after);
                gives(&name, Forwards, &of(gate), &start, &after);
                gives(&name, Backwards, &of(gate), &start, &after);
            }
        }
    }
}

#[test]
fn gates_run_in_order() {
    let three = shaped::circuit::chain(1, 1, 1);
    gives("a chain of 3", Forwards, &three, &[1, 0, 0], &[1, 1, 1]);
    gives("a chain of 3", Backwards, &three, &[1, 0, 0], &[1, 1, 0]);

    let long = shaped::circuit::chain(64, 64, 1024);
    let mut start = vec![0; 1152];
    start[0] = 1;
    gives("a chain of 1152", Forwards, &long, &start, &[1; 1152]);
    let mut after = start.clone();
    after[1] = 1;
    gives("a chain of 1152", Backwards, &long, &start, &after);
    gives("a chain of 1152, back", Backwards, &long, &[1; 1152], &start);
}

/// 7,999 gates flip the line, 8,000 do not; the last two are told from the first by their lines.
#[test]
fn all_of_8000_gates_run() {
    for (count, after) in [(0, 0), (1, 1), (256, 0), (7999, 1), (8000, 0)] {
        let circuit = shaped::circuit::nots(count);
        gives(&format!("{count} gates"), Forwards, &circuit, &[0], &[after]);
        gives(&format!("{count} gates"), Backwards, &circuit, &[0], &[after]);
    }

    let mut gates = vec![not(0); 7998];
    gates.extend([not(1), cnot(1, 2)]);
    let circuit = Circuit::new(0, 3, 0, &gates);
    gives("the last gates", Forwards, &circuit, &[0, 0, 0], &[0, 1, 1]);
    gives("the last gates", Backwards, &circuit, &[0, 0, 0], &[0, 1, 0]);
}

#[test]
fn line_bytes_and_causes_together() {
    for bad in shaped::bad_calls::all() {
        refuses(&bad.name, &bad.file, &bad.bits, bad.refusal);
    }
    let bad_gate = Circuit::new(2, 1, 2, &[cnot(0, 3), gate(4, 0, 0, 0)]);
    // The first gate is good and has not run.
    refuses("12 alone", &bad_gate.bytes(), &[1, 1, 0, 0, 0], (12, 1));
}

/// The refusals of reading come through as they are, whatever the lines.
#[test]
fn shaped_files_refused_by_the_reader() {
    shaped::each_refused("run", shaped::circuit::all(), |name, file, refusal| {
        for lines in [vec![1, 0, 1, 0, 1], vec![1; 1152], vec![2], vec![]] {
            refuses(name, file, &lines, refusal);
        }
    });
}

/// Files that the reader accepts, with lines all alike, at random, and one too few.
#[test]
fn shaped_files_accepted_by_the_reader() {
    let mut random = Random::new(0x6c69_6e65);
    let mut tally = Tally::new("run, shaped files");
    shaped::each_accepted(shaped::circuit::all(), |name, file, head| {
        let count = head.lines();
        for lines in [vec![0; count], vec![1; count], random.bits(count), random.bits(count)] {
            for direction in [Forwards, Backwards] {
                let (outcome, _) = compare(direction, file, &lines);
                assert!(outcome.is_ok(), "{name}");
                tally.count(&outcome);
            }
            refuses(name, file, &lines[1..], (13, 0));
        }
    });
    tally.finish(400, &[]);
}

/// Every one-byte change of a small file. No such change gives cause 3.
fn each_byte_changed(service: &'static str, file: &[u8], lines: &[u8]) {
    let mut tally = Tally::new(service);
    for file in damage::each_byte_changed(file) {
        // As many lines as the changed file has, where it is one.
        let count = model::circuit::read(&file).map_or(lines.len(), |circuit| circuit.lines());
        let mut fitting = vec![1; count];
        fitting[count / 2] = 0;
        for direction in [Forwards, Backwards] {
            tally.count(&compare(direction, &file, &fitting).0);
            tally.count(&compare(direction, &file, lines).0);
        }
    }
    tally.finish(file.len() as u64 * 256 * 4, &[1, 2, 4, 12, 13]);
}

#[test]
fn each_byte_of_the_whole_case_changed() {
    each_byte_changed("run, one byte changed", &shaped::circuit::WHOLE_CASE, &[1, 1, 0]);
}

/// The same of a file with work lines and gates of every kind.
#[test]
fn each_byte_of_nor_changed() {
    let nor = shaped::circuit::nor().bytes();
    each_byte_changed("run, one byte of NOR changed", &nor, &[1, 1, 0, 1, 0]);
}

/// Holds for the archive by itself, whatever the model says.
#[test]
fn running_back_restores_the_lines() {
    let mut random = Random::new(0x7265_7374);
    let mut moved = 0;
    for _ in 0..4_000 {
        let circuit = circuit::valid(&mut random);
        let file = circuit.bytes();
        let start = random.bits(circuit.lines());
        for (there, back) in [(Forwards, Backwards), (Backwards, Forwards)] {
            let (outcome, after) = archive(there, &file, &start);
            assert_eq!(outcome, Ok(()), "{there:?} on {}", hex(&file));
            moved += u32::from(after != start);
            let (outcome, again) = archive(back, &file, &after);
            assert_eq!(outcome, Ok(()), "{back:?} on {}", hex(&file));
            assert_eq!(again, start, "{there:?}, then {back:?}, on {}", hex(&file));
        }
    }
    println!("run: lines moved and restored {moved} times");
    assert!(moved > 4_000, "too few runs moved a line");
}

#[test]
fn random_and_damaged_cases_forwards() {
    random_cases("run_forwards", Forwards, Backwards, 0x666f_7277);
}

#[test]
fn random_and_damaged_cases_backwards() {
    random_cases("run_backwards", Backwards, Forwards, 0x6261_636b);
}

fn random_cases(service: &'static str, direction: Direction, other: Direction, seed: u64) {
    let mut random = Random::new(seed);
    let mut tally = Tally::new(service);
    let mut differ = 0;
    for _ in 0..32_000 {
        let (file, lines) = random_case(&mut random);
        let ran = compare(direction, &file, &lines);
        tally.count(&ran.0);
        differ += u32::from(ran != model(other, &file, &lines));
    }
    tally.finish(20_000, &[1, 2, 3, 4, 12, 13]);
    println!("{service}: {differ} times the direction mattered");
    assert!(differ > 1_000, "too few circuits tell the directions apart");
}

/// Every other time a damaged file; then mostly good lines.
fn random_case(random: &mut Random) -> (Vec<u8>, Vec<u8>) {
    let file =
        if random.once_in(2) { circuit::damaged(random) } else { circuit::valid(random).bytes() };
    let lines = drawn(random, &file);
    (file, lines)
}
