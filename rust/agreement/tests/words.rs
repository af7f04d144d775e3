//! evaluate_words: the archive beside the model, the value list before and after included, and each
//! of the 64 questions beside the archive's single evaluation.

use agreement::compare::words::{archive, compare, drawn as call, model, Case};
use agreement::program::{self, and, input, marked, not, xor, Program, ONE, ZERO};
use agreement::random::Random;
use agreement::tally::Tally;
use agreement::{damage, drawn, hex, limits, shaped, Outcome};

/// Words whose first four questions, and each next four, are 0 0, 0 1, 1 0 and 1 1.
const A: u64 = 0xcccc_cccc_cccc_cccc;
const B: u64 = 0xaaaa_aaaa_aaaa_aaaa;

const ALL: u64 = u64::MAX;

/// A shaped case, with the value list given and the one expected.
fn check(
    name: &str,
    (program, values, inputs, output): (&Program, &[u64], &[u64], u64),
    expected: Outcome<u64>,
    expected_values: &[u64],
) {
    let case =
        Case { file: program.bytes(), values: values.to_vec(), inputs: inputs.to_vec(), output };
    for (side, (outcome, values)) in [("model", model(&case)), ("archive", archive(&case))] {
        assert_eq!(outcome, expected, "{name}, {side}");
        assert!(values == expected_values, "{name}, {side}, the list");
    }
}

#[test]
fn the_whole_case_on_all_inputs() {
    let program = shaped::program::whole_case();
    check("four questions", (&program, &[9; 3], &[0b1100, 0b1010], 0), Ok(8), &[12, 10, 8]);
    let and = 0x8888_8888_8888_8888;
    check("64 questions", (&program, &[9; 3], &[A, B], 0), Ok(and), &[A, B, and]);
    check("all 0 0", (&program, &[9; 3], &[0, 0], 0), Ok(0), &[0, 0, 0]);
    check("all 0 1", (&program, &[9; 3], &[0, ALL], 0), Ok(0), &[0, ALL, 0]);
    check("all 1 0", (&program, &[9; 3], &[ALL, 0], 0), Ok(0), &[ALL, 0, 0]);
    check("all 1 1", (&program, &[9; 3], &[ALL, ALL], 0), Ok(ALL), &[ALL, ALL, ALL]);
}

/// NOR on its four inputs as the first four questions, and AND of three on its eight.
#[test]
fn the_other_examples() {
    let nor = shaped::program::nor();
    let after = [12, 10, ALL - 12, ALL - 10, ALL - 14];
    check("NOR", (&nor, &[9; 5], &[12, 10], 0), Ok(ALL - 14), &after);

    let three = shaped::program::and_of_three();
    let inputs = [0xaa, 0xcc, 0xf0];
    check("AND", (&three, &[9; 5], &inputs, 0), Ok(0x80), &[0xaa, 0xcc, 0x88, 0xf0, 0x80]);

    let itself = shaped::program::xor_with_itself();
    check("XOR with itself", (&itself, &[9; 2], &[B], 0), Ok(0), &[B, 0]);

    let zero = shaped::program::output_zero();
    check("output ZERO", (&zero, &[9], &[], 0), Ok(0), &[0]);
}

/// Every kind on every pair of operand bits, in every four questions, with operands in both orders.
/// The last question is 1 1 in the first pair of words, and 0 0 in the second.
#[test]
fn truth_tables() {
    let of_two = [xor(0, 1), and(0, 1), xor(1, 0), and(1, 0), xor(1, 1), and(1, 1), marked(0, 1)];
    let nodes = [&[input(0), input(1), ZERO, ONE, not(0), not(1)], &of_two[..]].concat();
    let outputs: Vec<u16> = (0..nodes.len() as u16).collect();
    let program = Program::new(2, &nodes, &outputs);
    // A digit for each node, which its word repeats.
    let digits: [[u64; 13]; 2] = [
        [0xc, 0xa, 0, 0xf, 0x3, 0x5, 0x6, 0x8, 0x6, 0x8, 0, 0xa, 0x8],
        [0x3, 0x5, 0, 0xf, 0xc, 0xa, 0x6, 0x1, 0x6, 0x1, 0, 0x5, 0x1],
    ];
    for digits in digits {
        let words = digits.map(|digit| digit * 0x1111_1111_1111_1111);
        for (output, word) in (0..).zip(words) {
            let name = format!("node {output}");
            check(&name, (&program, &[9; 13], &words[..2], output), Ok(word), &words);
        }
    }
}

/// NOT, XOR and AND of words that differ at each end of the word and in its middle, and of others
/// that show no pattern.
#[test]
fn each_bit_is_a_question_of_its_own() {
    let nodes = [input(0), input(1), not(0), xor(0, 1), and(0, 1)];
    let program = Program::new(2, &nodes, &[2, 3, 4]);
    let check = |name: &str, a: u64, b: u64, [not, xor, and]: [u64; 3]| {
        for (output, word) in [(0, not), (1, xor), (2, and)] {
            let after = [a, b, not, xor, and];
            check(name, (&program, &[9; 5], &[a, b], output), Ok(word), &after);
        }
    };
    let bit_0 = [0xffff_ffff_ffff_fffe, 0x0000_0000_0000_0002, 0x0000_0000_0000_0001];
    check("0", 0x0000_0000_0000_0001, 0x0000_0000_0000_0003, bit_0);
    let bit_31 = [0xffff_ffff_7fff_ffff, 0x0000_0001_0000_0000, 0x0000_0000_8000_0000];
    check("31", 0x0000_0000_8000_0000, 0x0000_0001_8000_0000, bit_31);
    let bit_32 = [0xffff_fffe_ffff_ffff, 0x0000_0000_8000_0000, 0x0000_0001_0000_0000];
    check("32", 0x0000_0001_0000_0000, 0x0000_0001_8000_0000, bit_32);
    let bit_62 = [0xbfff_ffff_ffff_ffff, 0x8000_0000_0000_0000, 0x4000_0000_0000_0000];
    check("62", 0x4000_0000_0000_0000, 0xc000_0000_0000_0000, bit_62);
    let bit_63 = [0x7fff_ffff_ffff_ffff, 0x4000_0000_0000_0000, 0x8000_0000_0000_0000];
    check("63", 0x8000_0000_0000_0000, 0xc000_0000_0000_0000, bit_63);

    let any = [0xf0e1_d2c3_b4a5_9687, 0x0fe1_2dc3_4ba5_6987, 0x001e_003c_005a_0078];
    check("any", 0x0f1e_2d3c_4b5a_6978, 0x00ff_00ff_00ff_00ff, any);
    let any = [0xfedc_ba98_7654_3210, 0x5476_7654_86a4_cd10, 0x0101_0123_090b_00ef];
    check("any", 0x0123_4567_89ab_cdef, 0x5555_3333_0f0f_00ff, any);
}

#[test]
fn no_inputs() {
    let program = Program::new(0, &[ZERO, ONE, xor(0, 1), and(2, 1), not(1)], &[0, 1, 3, 4]);
    let after = [0, ALL, ALL, ALL, 0];
    for (output, word) in (0..).zip([0, ALL, ALL, 0]) {
        let name = format!("n 0, output {output}");
        check(&name, (&program, &[9; 5], &[], output), Ok(word), &after);
        check(&name, (&program, &[9; 5], &[0], output), Err((14, 0)), &[9; 5]);
        check(&name, (&program, &[9; 5], &[ALL], output), Err((14, 0)), &[9; 5]);
    }
}

/// Input j has the word 100 + j.
#[test]
fn sixty_four_inputs() {
    let inputs: Vec<u64> = (100..164).collect();
    let last = Program::new(64, &[input(63), input(0), xor(0, 1), input(62)], &[0, 1, 2, 3]);
    // 163 is 0xa3, and 100 is 0x64.
    let after = [163, 100, 0xc7, 162];
    check("input 63", (&last, &[9; 4], &inputs, 0), Ok(163), &after);
    check("input 0", (&last, &[9; 4], &inputs, 1), Ok(100), &after);
    check("their XOR", (&last, &[9; 4], &inputs, 2), Ok(0xc7), &after);
    check("input 62", (&last, &[9; 4], &inputs, 3), Ok(162), &after);

    let alone = Program::new(64, &[input(63)], &[0]);
    let mut inputs = [0; 64];
    check("all 0", (&alone, &[9], &inputs, 0), Ok(0), &[0]);
    inputs[63] = 1 << 63;
    check("question 63 of input 63", (&alone, &[9], &inputs, 0), Ok(1 << 63), &[1 << 63]);
    check("63 words", (&alone, &[9], &inputs[1..], 0), Err((14, 0)), &[9]);
    check("65 words", (&alone, &[9], &[0; 65], 0), Err((14, 0)), &[9]);
}

#[test]
fn value_lists() {
    let program = shaped::program::whole_case();
    let check = |name: &str, values: &[u64], expected, after: &[u64]| {
        check(name, (&program, values, &[A, 0xff], 0), expected, after);
    };
    check("no entry", &[], Err((7, 0)), &[]);
    check("one entry", &[5], Err((7, 0)), &[5]);
    check("one entry short", &[5, 6], Err((7, 0)), &[5, 6]);
    check("as many entries as nodes", &[5, 6, 7], Ok(0xcc), &[A, 0xff, 0xcc]);
    check("one entry more", &[5, 6, 7, 8], Ok(0xcc), &[A, 0xff, 0xcc, 8]);
    check("all bits set before", &[ALL; 6], Ok(0xcc), &[A, 0xff, 0xcc, ALL, ALL, ALL]);
    check("none set before", &[0; 5], Ok(0xcc), &[A, 0xff, 0xcc, 0, 0]);

    // 256 and 65536 would be 0 in 8 and in 16 bits.
    for length in [256, 5000, 65536] {
        let before: Vec<u64> = (1 << 63..).take(length).collect();
        let mut after = before.clone();
        after[..3].copy_from_slice(&[A, 0xff, 0xcc]);
        check(&format!("{length} entries"), &before, Ok(0xcc), &after);
    }
}

#[test]
fn word_counts() {
    let program = shaped::program::whole_case();
    for count in [0, 1, 3, 4, 16, 63, 64, 65, 128, 258, 65538] {
        for word in [0, 1, ALL] {
            let name = format!("{count} words {word:#x}");
            let inputs = vec![word; count];
            check(&name, (&program, &[9; 4], &inputs, 0), Err((14, 0)), &[9; 4]);
        }
    }
}

/// A byte that is no bit is refused by the single evaluation, and no word is here.
#[test]
fn every_word_is_allowed() {
    let program = shaped::program::whole_case();
    for word in [0, 1, 2, 3, 128, 254, 255, 256, 1 << 31, 1 << 32, 1 << 62, 1 << 63, ALL - 1, ALL] {
        let name = format!("{word:#x}");
        check(&name, (&program, &[9; 3], &[word, ALL], 0), Ok(word), &[word, ALL, word]);
        check(&name, (&program, &[9; 3], &[ALL, word], 0), Ok(word), &[ALL, word, word]);
        check(&name, (&program, &[9; 3], &[word, 0], 0), Ok(0), &[word, 0, 0]);
    }
    // Also where no node uses the input.
    let unused = Program::new(3, &[input(1)], &[0]);
    check("unused", (&unused, &[9], &[ALL, 5, 1 << 63], 0), Ok(5), &[5]);
}

#[test]
fn output_numbers() {
    let one = shaped::program::whole_case();
    let check_one = |output, expected, after: &[u64]| {
        let name = format!("m 1, output {output}");
        check(&name, (&one, &[9; 3], &[6, 3], output), expected, after);
    };
    check_one(0, Ok(2), &[6, 3, 2]);
    for output in [1, 2, 256, 65536, 1 << 32, 1 << 63, u64::MAX] {
        check_one(output, Err((15, 0)), &[9; 3]);
    }

    // Outputs 0 to 62 name ZERO, output 63 names ONE.
    let mut outputs = [0; 64];
    outputs[63] = 1;
    let all = Program::new(0, &[ZERO, ONE], &outputs);
    let check_all = |output, expected, after: &[u64]| {
        let name = format!("m 64, output {output}");
        check(&name, (&all, &[9; 2], &[], output), expected, after);
    };
    check_all(0, Ok(0), &[0, ALL]);
    check_all(62, Ok(0), &[0, ALL]);
    check_all(63, Ok(ALL), &[0, ALL]);
    for output in [64, 65, 319, 65599, (1 << 32) + 63, (1 << 63) + 63, u64::MAX] {
        check_all(output, Err((15, 0)), &[9, 9]);
    }
}

#[test]
fn causes_together() {
    let good = shaped::program::whole_case();
    let bad_node = Program::new(2, &[input(0), input(1), and(0, 2)], &[2, 3]);
    let bad_output = Program::new(2, &[input(0), input(1), and(0, 1)], &[2, 3]);
    type Given<'a> = (&'a Program, &'a [u64], &'a [u64], u64);
    let check = |name, given: Given, refusal| check(name, given, Err(refusal), given.1);
    check("5, 6, 7, 14 and 15", (&bad_node, &[9], &[2], 5), (5, 2));
    check("6, 7, 14 and 15", (&bad_output, &[9], &[2], 5), (6, 1));
    check("7, 14 and 15", (&good, &[9; 2], &[2], 1), (7, 0));
    check("7 and 14, a word short", (&good, &[9; 2], &[2], 0), (7, 0));
    check("7 and 14, a word more", (&good, &[9; 2], &[2, 2, 2], 0), (7, 0));
    check("7 and 15", (&good, &[9; 2], &[1, 1], 1), (7, 0));
    check("7 with no list, 14 and 15", (&good, &[], &[], u64::MAX), (7, 0));
    check("14 and 15, a word short", (&good, &[9; 3], &[1], 1), (14, 0));
    check("14 and 15, a word more", (&good, &[9; 4], &[1; 3], u64::MAX), (14, 0));
    check("14 alone", (&good, &[9; 3], &[1], 0), (14, 0));
    check("15 alone", (&good, &[9; 3], &[1, 0], 1), (15, 0));
}

/// As many nodes as there can be, each with one of two words.
#[test]
fn the_longest_programs() {
    let mut nodes = vec![ONE];
    nodes.extend((0..4094).map(|before| and(before, before)));
    nodes.push(not(4094));
    let long = Program::new(0, &nodes, &[4094, 4095]);
    let mut after = [ALL; 4096];
    after[4095] = 0;
    check("node 4094", (&long, &[9; 4096], &[], 0), Ok(ALL), &after);
    check("node 4095", (&long, &[9; 4096], &[], 1), Ok(0), &after);
    check("4096 nodes, 4095 entries", (&long, &[9; 4095], &[], 0), Err((7, 0)), &[9; 4095]);

    // INPUT 0, and 4,095 NOTs.
    let word = 0x0f1e_2d3c_4b5a_6978;
    let after = [[word, 0xf0e1_d2c3_b4a5_9687]; 2048].concat();
    let nots = limits::deepest();
    check("NOTs", (&nots, &[9; 4096], &[word], 0), Ok(0xf0e1_d2c3_b4a5_9687), &after);
}

/// 64 inputs, of which input j is 1 in question j alone, and XORs of two of them.
#[test]
fn the_longest_file() {
    let file = limits::longest_file();
    let inputs: Vec<u64> = (0..64).map(|j| 1 << j).collect();
    let mut after = inputs.clone();
    after.extend((64..4_096).map(|i| (1 << (i % 64)) ^ (1 << (i / 64))));
    // Node 4,032 is input 0 and 63, node 4,094 is 62 and 63, and node 4,095 is 63 twice.
    let expected = [(0, 0x8000_0000_0000_0001), (62, 0xc000_0000_0000_0000), (63, 0)];
    for (output, word) in expected {
        let name = format!("output {output}");
        check(&name, (&file, &[9; 4096], &inputs, output), Ok(word), &after);
    }
}

/// The refusals of reading come through as they are, whatever else is right or wrong.
#[test]
fn shaped_files_refused_by_the_reader() {
    shaped::each_refused("evaluate_words", shaped::program::all(), |name, file, refusal| {
        for (length, count, output) in [(70_000, 2, 0), (0, 1, u64::MAX), (70_000, 65, 1)] {
            let (values, inputs) = (vec![9; length], vec![A; count]);
            let case = Case { file: file.to_vec(), values, inputs, output };
            let expected = (Err(refusal), case.values.clone());
            assert!(model(&case) == expected, "{name}, model");
            assert!(archive(&case) == expected, "{name}, archive");
        }
    });
}

/// Files that the reader accepts, evaluated at their first and last output.
#[test]
fn shaped_files_accepted_by_the_reader() {
    let mut tally = Tally::new("evaluate_words, shaped files");
    shaped::each_accepted(shaped::program::all(), |name, file, head| {
        for output in [0, head.outputs as u64 - 1] {
            for words in [[0, 0], [ALL, ALL], [A, B]] {
                let inputs = (0..head.inputs).map(|j| words[j % 2]).collect();
                let values = vec![9; head.count + 1];
                let outcome = compare(&Case { file: file.to_vec(), values, inputs, output });
                assert!(outcome.is_ok(), "{name}");
                tally.count(&outcome);
            }
        }
    });
    tally.finish(100, &[]);
}

/// Every one-byte change of a small file.
#[test]
fn each_byte_of_the_whole_case_changed() {
    let mut tally = Tally::new("evaluate_words, one byte changed");
    for file in damage::each_byte_changed(&shaped::program::WHOLE_CASE) {
        for (length, count, output) in [(3, 2, 0), (4, 2, 0), (2, 2, 0), (3, 1, 0), (3, 2, 1)] {
            let (file, values, inputs) = (file.clone(), vec![9; length], [A, B][..count].to_vec());
            tally.count(&compare(&Case { file, values, inputs, output }));
        }
    }
    tally.finish(56 * 256 * 5, &[1, 2, 3, 4, 5, 6, 7, 14, 15]);
}

/// Every table of four nodes over two inputs, on every pair of bits: 19,584 programs.
#[test]
fn every_small_table() {
    let mut tally = Tally::new("evaluate_words, every small table");
    for nodes in program::every_table(4) {
        let file = Program::new(2, &nodes, &[3]).bytes();
        let (values, inputs) = (vec![9; 4], vec![A, B]);
        tally.count(&compare(&Case { file, values, inputs, output: 0 }));
    }
    tally.finish(4 * 8 * 18 * 34, &[]);
}

/// Random programs on random words, of which each question is held to a call of its own.
#[test]
fn sixty_four_single_evaluations() {
    let mut random = Random::new(0x3634_3634);
    let (mut answers, mut neither) = (0, 0);
    for i in 0..1_500 {
        let draw = if i % 3 == 0 { drawn::any } else { program::valid };
        let program = draw(&mut random);
        let inputs = random.numbers(program.inputs.into());
        // Of many outputs, a few.
        let step = program.outputs.len().div_ceil(4);
        for output in (0..program.outputs.len() as u64).step_by(step) {
            let (values, inputs) = (vec![9; program.nodes.len()], inputs.clone());
            let word = compare(&Case { file: program.bytes(), values, inputs, output });
            answers += 1;
            neither += u64::from(![0, ALL].contains(&word.expect("a good call")));
        }
    }
    println!("evaluate_words: {answers} answers one by one, {neither} neither all 0 nor all 1");
    assert!(answers > 3_000 && neither > 1_000, "too few answers");
}

/// The same answer and list with marks at some ANDs, at all of them and at none.
#[test]
fn marks_change_nothing() {
    let mut random = Random::new(0x6d61_726b);
    let mut with_marks = 0;
    for _ in 0..2_000 {
        let none = program::valid(&mut random).with_marks(|| false);
        let some = none.clone().with_marks(|| random.once_in(2));
        let all = none.clone().with_marks(|| true);
        let inputs = random.numbers(none.inputs.into());
        let output = random.below(none.outputs.len()) as u64;
        let evaluated = |program: &Program| {
            let (values, inputs) = (vec![9; program.nodes.len() + 1], inputs.clone());
            let case = Case { file: program.bytes(), values, inputs, output };
            assert_eq!(archive(&case), model(&case), "{}", hex(&case.file));
            archive(&case)
        };
        let expected = evaluated(&none);
        assert!(expected.0.is_ok(), "{}", hex(&none.bytes()));
        assert_eq!(evaluated(&some), expected, "{}", hex(&some.bytes()));
        assert_eq!(evaluated(&all), expected, "{}", hex(&all.bytes()));
        with_marks += u64::from(some.bytes() != none.bytes());
    }
    println!("evaluate_words: {with_marks} programs with marks");
    assert!(with_marks > 1_000, "too few programs with marks");
}

#[test]
fn random_and_damaged_cases() {
    let mut random = Random::new(0x776f_7264);
    let mut tally = Tally::new("evaluate_words");
    // How often each question was answered with 0 and with 1.
    let mut seen = [[0; 2]; 64];
    for _ in 0..24_000 {
        let outcome = compare(&random_case(&mut random));
        tally.count(&outcome);
        if let Ok(word) = outcome {
            for (k, seen) in seen.iter_mut().enumerate() {
                seen[usize::from(word >> k & 1 == 1)] += 1;
            }
        }
    }
    tally.finish(20_000, &[1, 2, 3, 4, 5, 6, 7, 14, 15]);
    let least = seen.iter().flatten().min().expect("64 questions");
    println!("evaluate_words: each question {least} times or more with each answer");
    assert!(*least > 1_000, "too few answers of a question");
}

/// Mostly a good file; then mostly good arguments, otherwise any of them wrong.
fn random_case(random: &mut Random) -> Case {
    let file = match random.below(9) {
        0..=2 => program::damaged(random),
        3 => drawn::any(random).bytes(),
        _ => program::valid(random).bytes(),
    };
    call(random, file)
}
