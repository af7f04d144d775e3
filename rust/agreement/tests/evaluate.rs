//! evaluate: the archive beside the model, the value list before and after included.

use agreement::compare::evaluate::{archive, compare, drawn, model, Case};
use agreement::program::{and, input, not, xor, Program, ONE, ZERO};
use agreement::random::Random;
use agreement::tally::Tally;
use agreement::{program, shaped, Outcome};

/// A shaped case, with the value list given and the one expected.
fn check(
    name: &str,
    (program, values, inputs, output): (&Program, &[u8], &[u8], u64),
    expected: Outcome<bool>,
    expected_values: &[u8],
) {
    let case =
        Case { file: program.bytes(), values: values.to_vec(), inputs: inputs.to_vec(), output };
    let expected = (expected, expected_values.to_vec());
    assert_eq!(model(&case), expected, "{name}, model");
    assert_eq!(archive(&case), expected, "{name}, archive");
}

#[test]
fn the_whole_case_on_all_inputs() {
    let program = shaped::program::whole_case();
    let check = |inputs: &[u8], expected, values: &[u8]| {
        check("the whole case", (&program, &[9; 3], inputs, 0), expected, values);
    };
    check(&[0, 0], Ok(false), &[0, 0, 0]);
    check(&[0, 1], Ok(false), &[0, 1, 0]);
    check(&[1, 0], Ok(false), &[1, 0, 0]);
    check(&[1, 1], Ok(true), &[1, 1, 1]);
}

#[test]
fn the_other_examples() {
    let nor = shaped::program::nor();
    check("NOR 0 0", (&nor, &[9; 5], &[0, 0], 0), Ok(true), &[0, 0, 1, 1, 1]);
    check("NOR 0 1", (&nor, &[9; 5], &[0, 1], 0), Ok(false), &[0, 1, 1, 0, 0]);
    check("NOR 1 0", (&nor, &[9; 5], &[1, 0], 0), Ok(false), &[1, 0, 0, 1, 0]);
    check("NOR 1 1", (&nor, &[9; 5], &[1, 1], 0), Ok(false), &[1, 1, 0, 0, 0]);

    let three = Program::new(3, &[input(0), input(1), input(2), and(0, 1), and(3, 2)], &[4]);
    check("AND 1 1 1", (&three, &[9; 5], &[1, 1, 1], 0), Ok(true), &[1, 1, 1, 1, 1]);
    check("AND 1 1 0", (&three, &[9; 5], &[1, 1, 0], 0), Ok(false), &[1, 1, 0, 1, 0]);
    check("AND 0 1 1", (&three, &[9; 5], &[0, 1, 1], 0), Ok(false), &[0, 1, 1, 0, 0]);

    let itself = shaped::program::xor_with_itself();
    check("XOR with itself, 0", (&itself, &[9; 2], &[0], 0), Ok(false), &[0, 0]);
    check("XOR with itself, 1", (&itself, &[9; 2], &[1], 0), Ok(false), &[1, 0]);

    let zero = shaped::program::output_zero();
    check("output ZERO", (&zero, &[9], &[], 0), Ok(false), &[0]);
}

/// The unfolded sizes are over the compiler's limit from node 15 on; values have no such limit.
#[test]
fn the_xor_chain() {
    let chain = shaped::program::xor_chain();
    let after = [0, 0, 0, 0, 0, 0, 0, 0, 0, 0, 0, 0, 0, 0, 1, 0];
    check("node 13", (&chain, &[9; 16], &[], 0), Ok(false), &after);
    check("NOT of node 13", (&chain, &[9; 16], &[], 1), Ok(true), &after);
    check("NOT of that", (&chain, &[9; 16], &[], 2), Ok(false), &after);

    // The chain as long as a program can be, from ONE, with NOT for its last.
    let mut nodes = vec![ONE];
    nodes.extend((0..4094).map(|before| and(before, before)));
    nodes.push(not(4094));
    let long = Program::new(0, &nodes, &[4094, 4095]);
    let mut after = [1; 4096];
    after[4095] = 0;
    check("node 4094", (&long, &[9; 4096], &[], 0), Ok(true), &after);
    check("node 4095", (&long, &[9; 4096], &[], 1), Ok(false), &after);
    check("4096 nodes, 4095 entries", (&long, &[9; 4095], &[], 0), Err((7, 0)), &[9; 4095]);
}

/// Every kind on every pair of operand values.
#[test]
fn truth_tables() {
    let nodes = [input(0), input(1), ZERO, ONE, not(0), xor(0, 1), and(0, 1), not(1)];
    let program = Program::new(2, &nodes, &[2, 3, 4, 5, 6]);
    let check = |inputs: &[u8], output, expected, values: &[u8]| {
        let name = format!("output {output} on {inputs:?}");
        check(&name, (&program, &[9; 8], inputs, output), Ok(expected), values);
    };
    check(&[0, 0], 0, false, &[0, 0, 0, 1, 1, 0, 0, 1]);
    check(&[0, 0], 1, true, &[0, 0, 0, 1, 1, 0, 0, 1]);
    check(&[0, 0], 2, true, &[0, 0, 0, 1, 1, 0, 0, 1]);
    check(&[0, 0], 3, false, &[0, 0, 0, 1, 1, 0, 0, 1]);
    check(&[0, 0], 4, false, &[0, 0, 0, 1, 1, 0, 0, 1]);
    check(&[0, 1], 3, true, &[0, 1, 0, 1, 1, 1, 0, 0]);
    check(&[0, 1], 4, false, &[0, 1, 0, 1, 1, 1, 0, 0]);
    check(&[1, 0], 2, false, &[1, 0, 0, 1, 0, 1, 0, 1]);
    check(&[1, 0], 3, true, &[1, 0, 0, 1, 0, 1, 0, 1]);
    check(&[1, 0], 4, false, &[1, 0, 0, 1, 0, 1, 0, 1]);
    check(&[1, 1], 3, false, &[1, 1, 0, 1, 0, 0, 1, 0]);
    check(&[1, 1], 4, true, &[1, 1, 0, 1, 0, 0, 1, 0]);
}

#[test]
fn value_lists() {
    let program = shaped::program::whole_case();
    let check = |name: &str, values: &[u8], expected, after: &[u8]| {
        check(name, (&program, values, &[1, 0], 0), expected, after);
    };
    check("no entry", &[], Err((7, 0)), &[]);
    check("one entry", &[5], Err((7, 0)), &[5]);
    check("one entry short", &[5, 6], Err((7, 0)), &[5, 6]);
    check("as many entries as nodes", &[5, 6, 7], Ok(false), &[1, 0, 0]);
    check("one entry more", &[5, 6, 7, 8], Ok(false), &[1, 0, 0, 8]);
    check("later entries 255", &[255; 6], Ok(false), &[1, 0, 0, 255, 255, 255]);

    // 256 and 65536 would be 0 in 8 and in 16 bits.
    for length in [256, 5000, 65536] {
        let mut after = vec![3; length];
        after[..3].copy_from_slice(&[1, 0, 0]);
        check(&format!("{length} entries"), &vec![3; length], Ok(false), &after);
    }
}

#[test]
fn input_bytes() {
    let program = shaped::program::whole_case();
    let refused = |name, inputs: &[u8]| {
        check(name, (&program, &[9; 4], inputs, 0), Err((14, 0)), &[9; 4]);
    };
    refused("no inputs", &[]);
    refused("one input short", &[1]);
    refused("one input more", &[1, 1, 1]);
    refused("64 inputs", &[0; 64]);
    refused("258 inputs", &[0; 258]);
    refused("65538 inputs", &[0; 65538]);
    refused("input 0 is 2", &[2, 0]);
    refused("input 1 is 2", &[0, 2]);
    refused("input 0 is 255", &[255, 0]);
    refused("input 1 is 255", &[0, 255]);
    refused("input 1 is 128", &[0, 128]);
    refused("both are 3", &[3, 3]);

    let none = Program::new(0, &[ONE], &[0]);
    check("n 0, no inputs", (&none, &[9], &[], 0), Ok(true), &[1]);
    check("n 0, one input", (&none, &[9], &[0], 0), Err((14, 0)), &[9]);

    // An input that no node uses is checked all the same.
    let unused = Program::new(64, &[input(63)], &[0]);
    let mut inputs = [0; 64];
    inputs[63] = 1;
    check("input 63 is 1", (&unused, &[9], &inputs, 0), Ok(true), &[1]);
    check("63 inputs", (&unused, &[9], &inputs[1..], 0), Err((14, 0)), &[9]);
    check("65 inputs", (&unused, &[9], &[0; 65], 0), Err((14, 0)), &[9]);
    inputs[62] = 2;
    check("input 62 is 2", (&unused, &[9], &inputs, 0), Err((14, 0)), &[9]);
    inputs[62] = 0;
    inputs[63] = 2;
    check("input 63 is 2", (&unused, &[9], &inputs, 0), Err((14, 0)), &[9]);
}

#[test]
fn output_numbers() {
    let one = shaped::program::whole_case();
    let check_one = |output, expected, after: &[u8]| {
        let name = format!("m 1, output {output}");
        check(&name, (&one, &[9; 3], &[1, 1], output), expected, after);
    };
    check_one(0, Ok(true), &[1, 1, 1]);
    check_one(1, Err((15, 0)), &[9; 3]);
    check_one(2, Err((15, 0)), &[9; 3]);
    check_one(256, Err((15, 0)), &[9; 3]);
    check_one(65536, Err((15, 0)), &[9; 3]);
    check_one(4294967296, Err((15, 0)), &[9; 3]);
    check_one(9223372036854775808, Err((15, 0)), &[9; 3]);
    check_one(18446744073709551615, Err((15, 0)), &[9; 3]);

    // Outputs 0 to 62 name ZERO, output 63 names ONE.
    let mut outputs = [0; 64];
    outputs[63] = 1;
    let all = Program::new(0, &[ZERO, ONE], &outputs);
    let check_all = |output, expected, after: &[u8]| {
        let name = format!("m 64, output {output}");
        check(&name, (&all, &[9; 2], &[], output), expected, after);
    };
    check_all(0, Ok(false), &[0, 1]);
    check_all(62, Ok(false), &[0, 1]);
    check_all(63, Ok(true), &[0, 1]);
    check_all(64, Err((15, 0)), &[9, 9]);
    check_all(65, Err((15, 0)), &[9, 9]);
    check_all(18446744073709551615, Err((15, 0)), &[9, 9]);
}

#[test]
fn causes_together() {
    let good = shaped::program::whole_case();
    let bad_output = Program::new(2, &[input(0), input(1), and(0, 1)], &[2, 3]);
    let check = |name, (program, values, inputs, output): (&Program, &[u8], &[u8], u64), number| {
        check(name, (program, values, inputs, output), Err(number), values);
    };
    check("6, 7, 14 and 15", (&bad_output, &[9], &[2], 5), (6, 1));
    check("7, 14 and 15", (&good, &[9; 2], &[2, 0], 1), (7, 0));
    check("7 and 14, a byte", (&good, &[9; 2], &[2, 0], 0), (7, 0));
    check("7 and 14, the length", (&good, &[9; 2], &[1], 0), (7, 0));
    check("7 and 15", (&good, &[9; 2], &[1, 1], 1), (7, 0));
    check("14 and 15, a byte", (&good, &[9; 3], &[2, 0], 1), (14, 0));
    check("14 and 15, the length", (&good, &[9; 3], &[1], 1), (14, 0));
    check("15 alone", (&good, &[9; 3], &[1, 0], 1), (15, 0));
}

/// The refusals of reading come through as they are, whatever else is wrong.
#[test]
fn shaped_files_refused_by_the_reader() {
    shaped::each_refused("evaluate", shaped::program::all(), |name, file, refusal| {
        for (length, inputs, output) in [(70_000, vec![1, 0], 0), (0, vec![2], u64::MAX)] {
            let case = Case { file: file.to_vec(), values: vec![9; length], inputs, output };
            let expected = (Err(refusal), case.values.clone());
            assert!(model(&case) == expected, "{name}, model");
            assert!(archive(&case) == expected, "{name}, archive");
        }
    });
}

/// Files that the reader accepts, evaluated at their first and last output.
#[test]
fn shaped_files_accepted_by_the_reader() {
    let mut tally = Tally::new("evaluate, shaped files");
    shaped::each_accepted(shaped::program::all(), |name, file, head| {
        for output in [0, head.outputs as u64 - 1] {
            for bit in [0, 1] {
                let (values, inputs) = (vec![9; head.count + 1], vec![bit; head.inputs]);
                let outcome = compare(&Case { file: file.to_vec(), values, inputs, output });
                assert!(outcome.is_ok(), "{name}");
                tally.count(&outcome);
            }
        }
    });
    tally.finish(100, &[]);
}

#[test]
fn random_and_damaged_cases() {
    let mut random = Random::new(0x6576_616c);
    let mut tally = Tally::new("evaluate");
    let mut bits = [0; 2];
    for _ in 0..32_000 {
        let outcome = compare(&random_case(&mut random));
        tally.count(&outcome);
        if let Ok(bit) = outcome {
            bits[usize::from(bit)] += 1;
        }
    }
    tally.finish(20_000, &[1, 2, 3, 4, 5, 6, 7, 14, 15]);
    println!("evaluate: {} results 0, {} results 1", bits[0], bits[1]);
    assert!(bits[0] > 0 && bits[1] > 0);
}

/// Mostly a good file; then mostly good arguments, otherwise any of them wrong.
fn random_case(random: &mut Random) -> Case {
    let file =
        if random.once_in(3) { program::damaged(random) } else { program::valid(random).bytes() };
    drawn(random, file)
}
