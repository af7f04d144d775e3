//! read_program and read_circuit: the archive beside the model.

use agreement::circuit::{self, every_toffoli, toffoli, Circuit, Gate};
use agreement::compare::read::{head_of, Reader, CIRCUIT, PROGRAM};
use agreement::damage::each_byte_changed;
use agreement::random::Random;
use agreement::shaped::Shaped;
use agreement::tally::Tally;
use agreement::{hex, program, shaped};

/// Shaped files give what is written beside them.
fn gives_what_is_written(reader: &Reader, files: Vec<Shaped>) {
    for shaped in &files {
        assert_eq!(reader.model(&shaped.file), shaped.expected, "{}, model", shaped.name);
        assert_eq!(reader.archive(&shaped.file), shaped.expected, "{}, archive", shaped.name);
    }
    println!("{}: {} shaped files", reader.name, files.len());
}

#[test]
fn shaped_programs() {
    gives_what_is_written(&PROGRAM, shaped::program::all());
}

#[test]
fn shaped_circuits() {
    gives_what_is_written(&CIRCUIT, shaped::circuit::all());
}

/// On 1 to 5 lines so many gates are in order: NOTs, CNOTs, and Toffolis with the lower control
/// first.
#[test]
fn every_gate_of_few_lines() {
    for (lines, count) in (1..).zip([1, 2 + 2, 3 + 6 + 3, 4 + 12 + 12, 5 + 20 + 30]) {
        let files = shaped::circuit::every_gate(lines);
        let read = files.iter().filter(|shaped| CIRCUIT.archive(&shaped.file).is_ok());
        assert_eq!(read.count(), count, "{lines} lines");
        gives_what_is_written(&CIRCUIT, files);
    }
}

/// What running and undoing refuse for the file's sake, reading refuses alike.
#[test]
fn files_of_bad_calls() {
    for bad in shaped::bad_calls::all() {
        let refusal = Some(bad.refusal).filter(|(number, _)| *number != 13);
        assert_eq!(CIRCUIT.compare(&bad.file).err(), refusal, "{}", bad.name);
    }
}

/// On 3 to 7 lines, each Toffoli on three different lines is accepted in one of its two writings,
/// the one with the lower control first.
#[test]
fn of_two_writings_of_a_toffoli_one_is_read() {
    for lines in 3..=7 {
        let alone = |gate: Gate| Circuit::new(0, lines, 0, &[gate]).bytes();
        let read = |gate: Gate| CIRCUIT.archive(&alone(gate)).map(|head| head.count);
        let toffolis = every_toffoli(lines);
        assert_eq!(toffolis.len(), usize::from(lines * (lines - 1) * (lines - 2) / 2));
        for gate in toffolis {
            assert_eq!(read(gate), Ok(1), "{gate:?} of {lines} lines");
            assert_eq!(read(gate.exchanged()), Err((12, 0)), "{gate:?} of {lines}, exchanged");
        }
    }
}

/// Any two of 1,152 lines, and the one after them, as controls: nothing is left to chance here.
#[test]
fn each_pair_of_controls() {
    let lines = 0..=1152;
    let mut file = Circuit::new(64, 64, 1024, &[toffoli(0, 0, 0)]).bytes();
    let mut accepted = 0;
    for (a, b) in lines.clone().flat_map(|a| lines.clone().map(move |b| (a, b))) {
        let target = (0..3).find(|target| ![a, b].contains(target)).expect("one of three");
        file[30..].copy_from_slice(&[a, b, target].map(u16::to_le_bytes).concat());
        let read = oracle::read_circuit(&file).map(|head| head.gates);
        let good = a < b && b < 1152;
        let expected = if good { Ok(1) } else { Err(oracle::Refusal { number: 12, place: 0 }) };
        assert_eq!(read, expected, "controls {a} and {b}");
        accepted += u32::from(good);
    }
    assert_eq!(accepted, 1152 * 1151 / 2);
}

/// Of all the writings of a circuit, which differ in the order of controls, one is accepted, and the
/// others are refused at their first Toffoli that is not as in it.
#[test]
fn of_all_writings_of_a_circuit_one_is_read() {
    let mut random = Random::new(0x6f6e_6521);
    let mut refused = 0;
    for _ in 0..1_000 {
        let gates: Vec<Gate> = (0..8).map(|_| circuit::valid_gate(&mut random, 6)).collect();
        for (exchanged, writing) in Circuit::new(2, 2, 2, &gates).writings() {
            let read = CIRCUIT.compare(&writing.bytes()).map(|head| head.count);
            let expected = exchanged.first().map_or(Ok(8), |first| Err((12, *first as u64)));
            assert_eq!(read, expected, "{exchanged:?} exchanged, {}", hex(&writing.bytes()));
            refused += u32::from(read.is_err());
        }
    }
    println!("read_circuit: {refused} writings refused");
    assert!(refused > 4_000, "too few circuits with several Toffolis");
}

/// Every one-byte change and every truncation of a small file: nothing is left to chance here.
fn each_change(reader: &Reader, file: &[u8], refusals: &[usize]) {
    let mut tally = Tally::new(reader.name);
    let cut = (0..file.len()).map(|length| file[..length].to_vec());
    for changed in each_byte_changed(file).chain(cut) {
        tally.count(&reader.compare(&changed));
    }
    tally.finish(file.len() as u64 * 257, refusals);
}

#[test]
fn each_byte_of_a_program_changed() {
    each_change(&PROGRAM, &shaped::program::WHOLE_CASE, &[1, 2, 3, 4, 5, 6]);
}

/// No such change moves the border of the bodies alone, so none gives cause 3.
#[test]
fn each_byte_of_a_circuit_changed() {
    each_change(&CIRCUIT, &shaped::circuit::WHOLE_CASE, &[1, 2, 4, 12]);
    // With work lines, and gates of every kind.
    each_change(&CIRCUIT, &shaped::circuit::nor().bytes(), &[1, 2, 4, 12]);
}

/// Good files, which the model has to accept, and damaged ones.
fn random_and_damaged(
    reader: &Reader,
    seed: u64,
    valid: fn(&mut Random) -> Vec<u8>,
    damaged: fn(&mut Random) -> Vec<u8>,
    refusals: &[usize],
) {
    let mut random = Random::new(seed);
    let mut tally = Tally::new(reader.name);
    for i in 0..32_000 {
        let good = i % 4 == 0;
        let file = if good { valid(&mut random) } else { damaged(&mut random) };
        let outcome = reader.compare(&file);
        assert!(!good || outcome.is_ok(), "a good file is refused: {}", hex(&file));
        tally.count(&outcome);
    }
    tally.finish(20_000, refusals);
}

#[test]
fn random_and_damaged_programs() {
    let valid = |random: &mut Random| program::valid(random).bytes();
    random_and_damaged(&PROGRAM, 0x7265_6164, valid, program::damaged, &[1, 2, 3, 4, 5, 6]);
}

#[test]
fn random_and_damaged_circuits() {
    let valid = |random: &mut Random| circuit::valid(random).bytes();
    random_and_damaged(&CIRCUIT, 0x6369_7263, valid, circuit::damaged, &[1, 2, 3, 4, 12]);
}

/// What the model has to read from a good file with these fields.
fn fields_read(circuit: &Circuit) -> model::circuit::Circuit {
    let gate = |gate: &Gate| {
        let (control, second) = (usize::from(gate.control), usize::from(gate.second));
        let target = usize::from(gate.target);
        match gate.kind {
            1 => model::circuit::Gate::Not(target),
            2 => model::circuit::Gate::Cnot(control, target),
            _ => model::circuit::Gate::Toffoli(control, second, target),
        }
    };
    model::circuit::Circuit {
        inputs: usize::from(circuit.inputs),
        outputs: usize::from(circuit.outputs),
        work: usize::from(circuit.work),
        gates: circuit.gates.iter().map(gate).collect(),
    }
}

/// The model reads the fields that were drawn, and writes them to the same bytes.
#[test]
fn random_circuits_read_and_written() {
    let mut random = Random::new(0x7772_6974);
    for _ in 0..4_000 {
        let circuit = circuit::valid(&mut random);
        let file = circuit.bytes();
        let fields = fields_read(&circuit);
        assert!(model::circuit::read(&file) == Ok(fields.clone()), "read: {}", hex(&file));
        assert!(model::circuit::write(&fields) == file, "written: {}", hex(&file));
        assert_eq!(CIRCUIT.archive(&file), Ok(head_of(&fields)), "{}", hex(&file));
    }
}

/// A loader lends as many line bytes as the head says: no byte more and no byte fewer is right.
#[test]
fn the_head_says_how_many_lines_to_lend() {
    let mut random = Random::new(0x6865_6164);
    let wrong = oracle::Refusal { number: 13, place: 0 };
    for _ in 0..1_000 {
        let file = circuit::valid(&mut random).bytes();
        let run = |lines: usize| oracle::run_forwards(&file, &mut vec![0; lines]);
        let lines = oracle::read_circuit(&file).expect("a good file").lines();
        assert_eq!(run(lines), Ok(()), "{lines} lines, {}", hex(&file));
        assert_eq!(run(lines - 1), Err(wrong), "{lines} lines less one, {}", hex(&file));
        assert_eq!(run(lines + 1), Err(wrong), "{lines} lines and one, {}", hex(&file));
    }
}
