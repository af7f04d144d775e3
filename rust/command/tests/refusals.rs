//! Every cause for which the command refuses files, tables and bits: status 1, the number and the
//! words on standard error, nothing on standard output, and no file. Those of formulas have tests of
//! their own. Causes 7 and 15 cannot be reached: the command lends long enough lists, and asks for
//! outputs that are there.

mod common;

use common::functions::{compiled, file, of_table, path, MOST_WORK};
use common::refusing::refuses;
use common::{each_verb, Folder};

/// The verbs with their arguments, of these alone.
fn verbs_of(verbs: &[&str]) -> Vec<Vec<&'static str>> {
    each_verb("-").into_iter().filter(|arguments| verbs.contains(&arguments[0])).collect()
}

/// The program file of the AND of two inputs, with bytes changed.
fn program_with(changes: &[(usize, u8)]) -> Vec<u8> {
    with(file("and", "program"), changes)
}

/// The circuit file of the majority of three inputs, with bytes changed. Gate 0 starts at byte 28.
fn circuit_with(changes: &[(usize, u8)]) -> Vec<u8> {
    with(compiled(&file("majority", "program"), MOST_WORK).unwrap(), changes)
}

fn with(mut file: Vec<u8>, changes: &[(usize, u8)]) -> Vec<u8> {
    for (at, byte) in changes {
        file[*at] = *byte;
    }
    file
}

#[test]
fn causes_of_program_files() {
    let good = program_with(&[]);
    let long = [&good[..], &[0]].concat();
    let cases: [(&[u8], u64, Option<u64>); 12] = [
        (&[], 1, None),
        (&[3], 1, None),
        (&good[..2], 1, None),
        (&good[..31], 1, None),
        (&good[..32], 2, None),
        (&long, 2, None),
        (&program_with(&[(2, 9)]), 2, None),
        (&program_with(&[(34, 2)]), 3, None),
        (&program_with(&[(32, 65)]), 4, None),
        (&program_with(&[(50, 2)]), 5, Some(2)),
        (&program_with(&[(36, 6), (50, 2)]), 5, Some(0)),
        (&program_with(&[(54, 3)]), 6, Some(0)),
    ];
    for arguments in each_verb("-") {
        for (content, number, place) in cases {
            refuses(&arguments, content, number, place);
        }
        let message = refuses(&arguments, program_with(&[(50, 2)]), 5, Some(2));
        assert!(message.contains("; at node 2"), "{message}");
    }
}

/// What is neither a file of the library nor text is taken for a program file.
#[test]
fn bytes_that_are_no_text() {
    let texts: [&[u8]; 5] = [b"\xff\xfe\x00", b"x0\x7f", b"x0\x01", b"x0&\0", b"\x1b[0m"];
    for arguments in each_verb("-") {
        for text in texts {
            refuses(&arguments, text, 1, None);
        }
    }
}

/// A letter in whatever encoding is text, and is refused where it stands.
#[test]
fn letters_that_no_formula_has() {
    refuses(&["check", "-"], b"\xff\xfe", 16, Some(0));
    refuses(&["check", "-"], b"x0^\xe9", 16, Some(3));
    refuses(&["check", "-"], "x0^é", 16, Some(3));
    let folder = Folder::new();
    folder.refused(&["check", "-"], b"inputs 1\n0 = \xe9\n", "refused: line 2: this is no text\n");
}

#[test]
fn causes_of_circuit_files() {
    let good = circuit_with(&[]);
    let (long, cut) = ([&good[..], &[0]].concat(), &good[..good.len() - 1]);
    let part_of_a_gate = with(cut.to_vec(), &[(18, 8 * 10 - 1)]);
    let cases: [(&[u8], u64, Option<u64>); 10] = [
        (&good[..2], 1, None),
        (&good[..21], 1, None),
        (&good[..22], 2, None),
        (&long, 2, None),
        (cut, 2, None),
        (&part_of_a_gate, 3, None),
        (&circuit_with(&[(26, 1), (27, 4)]), 4, None),
        (&circuit_with(&[(28, 0)]), 12, Some(0)),
        (&circuit_with(&[(28 + 8 * 9, 4)]), 12, Some(9)),
        (&circuit_with(&[(34 + 8 * 3, 6)]), 12, Some(3)),
    ];
    for arguments in verbs_of(&["check", "run", "back", "undo", "export"]) {
        for (content, number, place) in cases {
            refuses(&arguments, content, number, place);
        }
    }
}

#[test]
fn a_circuit_file_is_no_program() {
    for arguments in verbs_of(&["make", "list", "quote", "compile", "evaluate"]) {
        refuses(&arguments, circuit_with(&[]), 1, None);
    }
    refuses(&["evaluate", "-", "--all"], circuit_with(&[]), 1, None);
}

/// A table in which each node is made of the one before twice. Output 1 is the last one.
fn doubling(first: &str, kind: &str, last: usize) -> String {
    let nodes = (1..=last).map(|i| format!("{i} = {kind} {} {}\n", i - 1, i - 1));
    format!("inputs 1\n0 = {first}\n{}output 0\noutput {last}\n", nodes.collect::<String>())
}

#[test]
fn causes_of_circuits_that_are_too_large() {
    for arguments in verbs_of(&["list", "compile", "run", "back", "undo", "export"]) {
        let with_grant = |grant| [&arguments[..], &["--grant", grant]].concat();
        // Unfolded sizes of 2^15 - 1 and 2^14 - 1.
        refuses(&arguments, doubling("INPUT 0", "XOR", 14), 8, Some(1));
        refuses(&arguments, doubling("INPUT 0", "XOR", 13), 11, Some(8_193));
        refuses(&with_grant("1025"), "x0&x1", 9, None);
        refuses(&with_grant("18446744073709551615"), "x0&x1", 9, None);
        refuses(&with_grant("0"), file("nor", "program"), 10, Some(2));
        refuses(&with_grant("1"), file("nor", "program"), 10, Some(2));
        refuses(&arguments, doubling("ONE", "AND", 10), 10, Some(2_046));
        // What is wrong with the file comes first.
        refuses(&with_grant("1025"), program_with(&[(54, 3)]), 6, Some(0));
    }
}

/// The advice names a grant that is enough, where there is one.
#[test]
fn the_advice_for_too_few_work_lines() {
    let folder = Folder::new();
    let path = path("and32", "program");
    let advice = "try --grant 30, or mark ANDs\n";
    for verb in ["list", "compile", "undo"] {
        for granted in ["0", "8", "29"] {
            let words = format!("refused 10: 30 work lines are needed and {granted} granted");
            let message = folder.refused(&[verb, &path, "--grant", granted], "", "");
            assert_eq!(message, format!("{words}; {advice}"));
        }
        let message = refuses(&[verb, "-"], doubling("ONE", "AND", 10), 10, Some(2_046));
        assert!(!message.contains("--grant"), "no grant is enough: {message}");
    }
    folder.printed(&["list", &path, "--grant", "30"], "");
}

/// The command's areas are long enough, so that only gates can be too many.
#[test]
fn the_words_for_too_many_gates() {
    let folder = Folder::new();
    let words =
        "refused 11: 8193 gates are needed, and a circuit file has at most 8000; oracle quote \
                 says what each output takes\n";
    folder.refused(&["compile", "-"], doubling("INPUT 0", "XOR", 13), words);
}

#[test]
fn causes_of_bits() {
    for verb in ["run", "back"] {
        for bits in ["1111", "0000", "111 1", "2", "012", "11x", "1,1", "١"] {
            refuses(&[verb, "x0&x1", bits], "", 13, None);
        }
        refuses(&[verb, "-", "000000 0"], circuit_with(&[]), 13, None);
    }
    for bits in ["", "1", "111", "12", "x1", "١١"] {
        refuses(&["evaluate", "x0&x1", bits], "", 14, None);
    }
    refuses(&["evaluate", "1", "0"], "", 14, None);
    // Lines 0 to 5.
    for keep in ["6", "0,6", "targets,99", "work,1151"] {
        refuses(&["undo", "-", "--keep", keep], circuit_with(&[]), 13, None);
    }
}

/// The answers before a question that is none are not printed.
#[test]
fn causes_of_questions() {
    for before in [0, 1, 63, 64, 129] {
        for wrong in ["1", "111", "12", "x1", ""] {
            for behind in ["11\n", "11\n11\n"] {
                let questions = "10\n".repeat(before) + wrong + "\n" + behind;
                refuses(&["evaluate", "x0&x1", "--questions", "-"], questions, 14, None);
            }
        }
    }
    refuses(&["evaluate", "1", "--questions", "-"], "\n0\n", 14, None);
}

#[test]
fn wrong_tables() {
    let five = "# AND\ninputs 2\n0 = INPUT 0\n1 = INPUT 1\n2 = AND 0 3\noutput 2\n";
    let words = "refused: line 5: operand 3 is not lower than its node, 2\n";
    assert_eq!(Folder::new().refused(&["make", "-"], five, ""), words);
    let tables =
        [five, "# x0\nx0\n", "inputs 2\n", "output 0\n", "inputs", "0 = TWO", "#", "a = b c"];
    for text in tables {
        let fault = table::read(text.as_bytes()).expect_err("a wrong table");
        for arguments in each_verb("-") {
            let folder = Folder::new();
            let writing = [&arguments[..], &["-o", "out"]].concat();
            for arguments in [&arguments, &writing] {
                let message = folder.refused(arguments, text, "");
                assert_eq!(message, format!("refused: {fault}\n"), "{arguments:?}");
            }
            assert_eq!(folder.names(), [""; 0]);
        }
    }
}

/// What tells a table from a formula may stand on any line, behind blanks too.
#[test]
fn tables_are_told_by_a_line() {
    let folder = Folder::new();
    let good = of_table("inputs 0\n0 = ONE\noutput 0");
    folder.gives(&["make", "-"], "\n\n  inputs 0 # none\n\n0 = ONE\noutput 0", good);
    for text in ["x0\n# x1", "x0\n0 = x0", "x0\ninputs 1", "x0\noutput 0", "&\n0 = x1 # a"] {
        folder.refused(&["make", "-"], text, "refused: line 1: ");
    }
    // A word that only starts so, or stands further back, is none.
    for text in ["inputsx", "outputs 0", "x0 = # 1 inputs", "x0=1", "a b = c", "x0 #"] {
        let is_table = text.starts_with("x0 = ");
        let start = if is_table { "refused: line 1: " } else { "refused 16: " };
        folder.refused(&["make", "-"], text, start);
    }
}
