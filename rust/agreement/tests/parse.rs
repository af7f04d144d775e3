//! parse: the archive beside the model, the area before and after included, and the truth value of
//! each text beside its file and its circuit.

use agreement::compare::compile;
use agreement::compare::parse::{
    archive, compare, drawn as call, model, questions, Case, NODE, NO_NODES,
};
use agreement::compare::run::after;
use agreement::formula::{self, Formula, MOST_TEXT, TOO_MANY};
use agreement::listing_cases::GRANT;
use agreement::program::{and, input, not, xor, Node, Program, ONE, ZERO};
use agreement::random::Random;
use agreement::tally::Tally;
use agreement::{damage, Outcome};
use oracle::LONGEST_PARSED;

/// A shaped case on both sides, with the area expected.
fn check(case: &Case, expected: Outcome<usize>, area: &[u8]) {
    for (side, given) in [("model", model(case)), ("archive", archive(case))] {
        assert_eq!(given.0, expected, "{side}, {}", case.describe());
        assert!(given.1 == area, "{side}: the area, {}", case.describe());
    }
}

/// A text has these nodes, the last one its output: in areas that are long enough, and refused in
/// those that are not.
fn writes(text: impl AsRef<[u8]>, inputs: u16, nodes: &[Node]) {
    let file = Program::new(inputs, nodes, &[nodes.len() as u16 - 1]).bytes();
    let case = |length: usize| Case::new(&text, inputs.into(), length);
    for more in [0, 1, 5, 6, 100] {
        let case = case(file.len() + more);
        let area = [&file[..], &case.area[file.len()..]].concat();
        check(&case, Ok(file.len()), &area);
    }
    for length in [file.len() - 1, file.len() - NODE, NO_NODES, 37, 31, 1, 0] {
        check(&case(length), Err((11, nodes.len() as u64)), &vec![0; length]);
    }
    runs(&case(0), &file);
}

/// A text that is refused, and leaves the area, long enough or not.
fn refuses(text: impl AsRef<[u8]>, inputs: u64, refusal: (u64, u64)) {
    for length in [LONGEST_PARSED, NO_NODES + NODE, NO_NODES, 1, 0] {
        let case = Case::new(&text, inputs, length);
        check(&case, Err(refusal), &case.area);
    }
}

/// A text that is accepted, with its truth value in its file and its circuit.
fn accepts(text: impl AsRef<[u8]>, inputs: u64) {
    let case = Case::new(&text, inputs, LONGEST_PARSED);
    let outcome = compare(&case);
    let length = outcome.unwrap_or_else(|refusal| panic!("{refusal:?}, {}", case.describe()));
    runs(&case, &archive(&case).1[..length]);
}

/// The file of a text compiled, and run with the target and the work lines zero: the target ends as
/// the text's truth value, and every other line as it started. Gives how often the value was 0 and
/// how often 1, or nothing where the circuit needs too many lines or gates.
fn runs(case: &Case, file: &[u8]) -> Option<[u64; 2]> {
    let circuit = match compile::written(file, GRANT) {
        Err((10 | 11, _)) => return None,
        compiled => compiled.unwrap_or_else(|refusal| panic!("{refusal:?}, {}", case.describe())),
    };
    let work = vec![0; oracle::read_circuit(&circuit).expect("a compiled circuit").work];
    let mut values = [0; 2];
    for inputs in questions(case) {
        let value = model::parse::value(&case.text, &inputs).expect("a text of the language");
        let lines = |target: u8| [&inputs[..], &[target], &work].concat();
        let end = after(&circuit, &lines(0));
        assert_eq!(end, lines(u8::from(value)), "run, {}", case.describe());
        values[usize::from(value)] += 1;
    }
    Some(values)
}

#[test]
fn leaves() {
    for inputs in [0, 1, 64] {
        writes("0", inputs, &[ZERO]);
        writes("1", inputs, &[ONE]);
    }
    for j in 0..64 {
        writes(format!("x{j}"), 64, &[input(j)]);
        writes(format!("1^x{j}"), 64, &[ONE, input(j), xor(0, 1)]);
        writes(format!("(x{j}&0)"), 64, &[input(j), ZERO, and(0, 1)]);
    }
}

/// Slices that are nowhere in memory.
#[test]
fn nothing_is_lent() {
    let refused = |number, place| Err(oracle::Refusal { number, place });
    assert_eq!(oracle::parse(&[], 0, &mut []), refused(16, 0));
    assert_eq!(oracle::parse(&[], 65, &mut []), refused(4, 0));
    assert_eq!(oracle::parse(b"x0", 1, &mut []), refused(11, 1));
}

#[test]
fn one_operator() {
    writes("!x0", 1, &[input(0), not(0)]);
    writes("x0^x1", 2, &[input(0), input(1), xor(0, 1)]);
    writes("x1^x0", 2, &[input(1), input(0), xor(0, 1)]);
    writes("x0&x1", 2, &[input(0), input(1), and(0, 1)]);
    writes("x1&x0", 2, &[input(1), input(0), and(0, 1)]);
    writes("0^1", 0, &[ZERO, ONE, xor(0, 1)]);
    writes("1&0", 0, &[ONE, ZERO, and(0, 1)]);
}

/// A node for each leaf and operator, also where two are alike.
#[test]
fn nothing_is_shared() {
    writes("x0&x0", 1, &[input(0), input(0), and(0, 1)]);
    writes("x0^x0", 1, &[input(0), input(0), xor(0, 1)]);
    writes("1^1", 0, &[ONE, ONE, xor(0, 1)]);
    writes("!x0&!x0", 1, &[input(0), not(0), input(0), not(2), and(1, 3)]);
    let nodes = [input(0), input(1), and(0, 1), input(0), input(1), and(3, 4), xor(2, 5)];
    writes("x0&x1^x0&x1", 2, &nodes);
}

#[test]
fn brackets_make_no_node() {
    writes("(x0)", 1, &[input(0)]);
    writes("(((0)))", 0, &[ZERO]);
    writes("(x0)&((x1))", 2, &[input(0), input(1), and(0, 1)]);
    writes("(x0^x1)", 2, &[input(0), input(1), xor(0, 1)]);
    writes("!(x0)", 1, &[input(0), not(0)]);
    writes("(!(x0))", 1, &[input(0), not(0)]);
}

/// `!` before `&`, and `&` before `^`.
#[test]
fn precedence() {
    let [a, b, c] = [0, 1, 2].map(input);
    writes("x0^x1&x2", 3, &[a, b, c, and(1, 2), xor(0, 3)]);
    writes("x0&x1^x2", 3, &[a, b, and(0, 1), c, xor(2, 3)]);
    writes("(x0^x1)&x2", 3, &[a, b, xor(0, 1), c, and(2, 3)]);
    writes("x0&(x1^x2)", 3, &[a, b, c, xor(1, 2), and(0, 3)]);
    writes("x0^(x1&x2)", 3, &[a, b, c, and(1, 2), xor(0, 3)]);
    writes("!x0&x1", 2, &[a, not(0), b, and(1, 2)]);
    writes("!x0^x1", 2, &[a, not(0), b, xor(1, 2)]);
    writes("x0&!x1", 2, &[a, b, not(1), and(0, 2)]);
    writes("x0^!x1", 2, &[a, b, not(1), xor(0, 2)]);
    writes("!(x0&x1)", 2, &[a, b, and(0, 1), not(2)]);
    writes("!(x0^x1)", 2, &[a, b, xor(0, 1), not(2)]);
    writes("!!x0", 1, &[a, not(0), not(1)]);
    writes("!!(x0^!x1)", 2, &[a, b, not(1), xor(0, 2), not(3), not(4)]);
}

#[test]
fn operators_group_to_the_left() {
    let [a, b, c, d] = [0, 1, 2, 3].map(input);
    writes("x0^x1^x2", 3, &[a, b, xor(0, 1), c, xor(2, 3)]);
    writes("x0&x1&x2", 3, &[a, b, and(0, 1), c, and(2, 3)]);
    writes("x0^(x1^x2)", 3, &[a, b, c, xor(1, 2), xor(0, 3)]);
    writes("x0&(x1&x2)", 3, &[a, b, c, and(1, 2), and(0, 3)]);
    writes("x0^x1^x2^x3", 4, &[a, b, xor(0, 1), c, xor(2, 3), d, xor(4, 5)]);
    writes("x0&x1&x2&x3", 4, &[a, b, and(0, 1), c, and(2, 3), d, and(4, 5)]);
    writes("x0^x1&x2^x3", 4, &[a, b, c, and(1, 2), xor(0, 3), d, xor(4, 5)]);
    writes("x0&x1^x2&x3", 4, &[a, b, and(0, 1), c, d, and(3, 4), xor(2, 5)]);
    writes("x0^x1&x2&x3", 4, &[a, b, c, and(1, 2), d, and(3, 4), xor(0, 5)]);
    writes("x3^x2^(x1^x0)", 4, &[d, c, xor(0, 1), b, a, xor(3, 4), xor(2, 5)]);
}

/// Each node where its text ends: operands before operators, left before right.
#[test]
fn the_order_of_nodes() {
    let product = [input(0), input(11), not(2), and(1, 3), input(2), ZERO, xor(5, 6), and(4, 7)];
    let nodes = [&[ONE], &product[..], &[xor(0, 8), input(3), xor(9, 10)]].concat();
    writes("1^x0&!x11&(x2^0)^x3", 12, &nodes);

    let left = [input(9), input(8), xor(0, 1), not(2)];
    let right = [ZERO, ONE, input(7), and(5, 6), not(7), xor(4, 8)];
    let nodes = [&left[..], &right, &[and(3, 9)]].concat();
    writes("!(x9^x8)&(0^!(1&x7))", 10, &nodes);
}

/// Prefixes, and the letters that may follow them.
const PREFIXES: [(&str, &[u8]); 16] = [
    ("", b"01x!("),
    ("!", b"01x!("),
    ("(", b"01x!("),
    ("0^", b"01x!("),
    ("1&", b"01x!("),
    ("(x1)^!(", b"01x!("),
    ("x", b"0123456789"),
    ("x0", b"^&"),
    ("x1", b"0123456789^&"),
    ("x63", b"^&"),
    ("0", b"^&"),
    ("(0)", b"^&"),
    ("(1", b"^&)"),
    ("(x0", b"^&)"),
    ("(x6", b"0123456789^&)"),
    ("(0^x10", b"^&)"),
];

/// Where a byte may not follow, it is the place of 16. Behind one that may, the text goes on.
#[test]
fn every_byte_behind_each_prefix() {
    let mut tally = Tally::new("parse, every byte behind each prefix");
    for (prefix, letters) in PREFIXES {
        for byte in 0..=255 {
            let text = [prefix.as_bytes(), &[byte]].concat();
            let outcome = compare(&Case::new(&text, 64, 100));
            tally.count(&outcome);
            let expected = if letters.contains(&byte) { text.len() } else { prefix.len() };
            match outcome {
                Err((16, place)) => assert_eq!(place, expected as u64, "{text:?}"),
                // Numbers from 64 to 69, and what is finished.
                Err((5, _)) | Ok(_) => assert!(letters.contains(&byte), "{text:?}"),
                Err(refusal) => panic!("{refusal:?} {text:?}"),
            }
        }
    }
    tally.finish(16 * 256, &[5, 16]);
}

/// Texts outside the language, and their places.
const OUTSIDE: [(&str, u64); 62] = [
    // unfinished
    ("", 0),
    ("x", 1),
    ("!", 1),
    ("(", 1),
    ("0^", 2),
    ("0&", 2),
    ("(0", 2),
    ("((0)", 4),
    ("x1^(x2&!", 8),
    // no factor
    ("^0", 0),
    ("&", 0),
    (")", 0),
    ("()", 1),
    ("!)", 1),
    ("(!)", 2),
    ("(0^)", 3),
    ("0^^1", 2),
    ("0&&1", 2),
    ("0^&1", 2),
    // no operator
    ("0)", 1),
    ("(0))", 3),
    ("(0)(1)", 3),
    ("0!", 1),
    ("0!1", 1),
    ("x0!", 2),
    ("x1x2", 2),
    ("00", 1),
    ("01", 1),
    ("10", 1),
    ("0x0", 1),
    ("0(1)", 1),
    // no number
    ("x00", 2),
    ("x01", 2),
    ("x100", 3),
    ("x12x", 3),
    ("xx1", 1),
    ("x^", 1),
    ("x!1", 1),
    ("x-1", 1),
    ("x\u{b2}", 1),
    ("2", 0),
    ("9^0", 0),
    // no letter
    ("X0", 0),
    ("0^X0", 2),
    (" 0", 0),
    ("0 ", 1),
    ("0 ^1", 1),
    ("0^ 1", 2),
    ("x 1", 1),
    ("x1 ", 2),
    ("0\n", 1),
    ("x1\n", 2),
    ("\n", 0),
    ("0\0", 1),
    ("\0", 0),
    ("0\u{2295}1", 1),
    ("[0]", 0),
    ("{0}", 0),
    ("~0", 0),
    ("-1", 0),
    ("0|1", 1),
    ("0*1", 1),
];

#[test]
fn texts_outside_the_language() {
    for (text, place) in OUTSIDE {
        refuses(text, 64, (16, place));
        refuses(format!("1^{text}"), 64, (16, place + 2));
    }
}

/// What stands between so many of one letter and so many of another.
fn between(times: usize, open: &str, text: &str, close: &str) -> String {
    format!("{}{text}{}", open.repeat(times), close.repeat(times))
}

/// Up to 64 brackets and `!` may be open together.
#[test]
fn sixty_four_open() {
    let nots: Vec<Node> = [ONE].into_iter().chain((0..64).map(not)).collect();
    writes(between(64, "!", "1", ""), 0, &nots);
    refuses(between(65, "!", "1", ""), 0, (18, 64));
    writes(between(64, "(", "1", ")"), 0, &[ONE]);
    refuses(between(65, "(", "1", ")"), 0, (18, 64));

    writes(between(32, "!(", "1", ")"), 0, &nots[..33]);
    refuses(between(32, "!(", "!1", ")"), 0, (18, 64));
    refuses(between(32, "!(", "(1)", ")"), 0, (18, 64));
    writes(between(32, "(!", "1", ")"), 0, &nots[..33]);
    refuses(between(32, "(!", "!1", ")"), 0, (18, 64));
    refuses(between(32, "(!", "(1)", ")"), 0, (18, 64));

    writes(between(1, &"!".repeat(63), "(1)", ""), 0, &nots[..64]);
    refuses(between(1, &"!".repeat(64), "(1)", ""), 0, (18, 64));
    writes(between(63, "(", "!1", ")"), 0, &nots[..2]);
    refuses(between(64, "(", "!1", ")"), 0, (18, 64));
    refuses(between(1_000, "!", "1", ""), 0, (18, 64));
    refuses(between(1_000, "(", "1", ")"), 0, (18, 64));
}

/// A `!` is pending until its factor ends, and a bracket is open until it is closed.
#[test]
fn what_has_ended_is_not_open() {
    for text in ["!x1^", "!x1&", "(0)^", "!(!0)&"] {
        accepts(text.repeat(600) + "!1", 2);
    }
    let within = |times: usize, text: &str| between(times, "(", text, ")");
    accepts(within(63, "!0^(1)&!x0^!1"), 2);
    refuses(within(63, "!0^(1)&!x0^!!1"), 2, (18, 63 + 12));
    refuses(within(63, "!0^(1)&!x0^((1))"), 2, (18, 63 + 12));
    refuses(within(63, "!(0)"), 2, (18, 63 + 1));

    // A closed bracket ends every `!` before it.
    accepts(within(61, "!!(0)^!!!0"), 2);
    refuses(within(61, "!!(0)^!!!!0"), 2, (18, 61 + 9));
    accepts(within(61, "!!(0)&(!!0)"), 2);
    refuses(within(61, "!!(0)&(!!(0))"), 2, (18, 61 + 9));
    // And only those: the others stay pending in the bracket that they are before.
    accepts(between(31, "(!", "(0^(1))", ")"), 2);
    refuses(between(31, "(!", "(0^(1)&(!0))", ")"), 2, (18, 62 + 8));
    refuses(between(31, "(!", "(0^!(1))", ")"), 2, (18, 62 + 4));

    // After 64 have ended, there may be 64 more.
    let deep = |times: usize| between(times, "(", "0", ")");
    accepts(format!("{}^{}", deep(64), deep(64)), 2);
    refuses(format!("{}^{}", deep(64), deep(65)), 2, (18, 130 + 64));
    let deep = |text: &str| between(21, "!!(", text, ")");
    accepts(format!("{}&{}", deep("!0"), deep("!0")), 2);
    refuses(format!("{}&{}", deep("!0"), deep("!(0)")), 2, (18, 87 + 64));
}

/// The most bytes, and with them the most nodes: one for each byte.
#[test]
fn the_longest_text() {
    let text = format!("!0{}", "^0".repeat(2_047));
    let mut nodes = vec![ZERO, not(0)];
    for last in (1..4_095).step_by(2) {
        nodes.extend([ZERO, xor(last, last + 1)]);
    }
    assert_eq!((text.len(), nodes.len(), LONGEST_PARSED), (4_096, 4_096, 24_614));
    writes(&text, 0, &nodes);
    writes(&text, 64, &nodes);
    check(&Case::new(&text, 0, 24_613), Err((11, 4_096)), &[0; 24_613]);
    assert_eq!(compare(&Case::new(&text, 0, 24_614)), Ok(24_614));

    accepts(format!("!1{}", "&1".repeat(2_047)), 0);
    accepts(format!("!x63{}", "^x63".repeat(1_023)), 64);
    accepts(format!("(x0){}", "&(x0)^0&(x1)".repeat(341)), 2);
    refuses("0^".repeat(2_048), 0, (16, 4_096));
    refuses("0".repeat(4_096), 0, (16, 1));
    refuses("(".repeat(4_096), 0, (18, 64));
    refuses(format!("x1&{}", "!".repeat(4_093)), 1, (5, 0));
}

/// 17 comes before all else.
#[test]
fn over_4096_bytes() {
    let good = format!("0{}", "^0".repeat(2_048));
    assert_eq!((good.len(), good[..4_095].len()), (MOST_TEXT + 1, MOST_TEXT - 1));
    accepts(&good[..4_095], 0);
    let letters = ["0", "(", "!", "@", "x9^", "\0"].map(|letters| letters.repeat(4_097));
    for text in letters.iter().chain([&good, &good.repeat(25)]) {
        for inputs in [0, 1, 64].into_iter().chain(TOO_MANY) {
            refuses(text, inputs, (17, 0));
            refuses(&text[..4_097], inputs, (17, 0));
        }
        for inputs in TOO_MANY {
            refuses(&text[..4_096], inputs, (4, 0));
        }
    }
}

#[test]
fn numbers_of_inputs() {
    for inputs in [0, 1, 2, 9, 10, 11, 63, 64] {
        for j in 0..100 {
            let (text, not_of) = (format!("x{j}"), format!("1&!x{j}"));
            if j < inputs {
                writes(text, inputs, &[input(j)]);
                writes(not_of, inputs, &[ONE, input(j), not(1), and(0, 2)]);
            } else {
                refuses(text, inputs.into(), (5, 0));
                refuses(not_of, inputs.into(), (5, 1));
            }
        }
    }
    for inputs in TOO_MANY {
        for text in ["0", "x0", "x64", "x99", "", "@", "0^", &"!".repeat(65)] {
            refuses(text, inputs, (4, 0));
        }
    }
}

/// The place of 5 is the number of nodes whose text has ended.
#[test]
fn the_node_that_an_input_would_have_been() {
    let places = [
        ("x1", 0),
        ("(((!!x1", 0),
        ("x0^x1", 1),
        ("x0&x1", 1),
        ("!x0^x1", 2),
        ("!!(x0)&x1", 3),
        ("0&(1^x1)", 2),
        ("x0^x0^x1", 3),
        ("x0&x0&x1", 3),
        ("x0&x0^x1", 3),
        ("x0^x0&x1", 2),
        ("x0^0&1^x1", 5),
        ("x0^0&1&x1", 4),
        ("(x0^x0)&x1", 3),
        ("!(x0^x0)&x1", 4),
        ("x0^(x0&!x1", 2),
        ("x0^x0^(x0&x0^x1", 6),
    ];
    for (text, place) in places {
        refuses(text, 1, (5, place));
        refuses(text.replace("x1", "x10"), 10, (5, place));
        refuses(text.replace("x1", "x99"), 64, (5, place));
    }
}

/// A text, a number of inputs, and a refusal.
type Refused = (String, u64, (u64, u64));

/// The first byte with a cause counts. A number's is its last digit.
fn first_bytes() -> Vec<Refused> {
    let (nots, open) = ("!".repeat(64), "(".repeat(64));
    vec![
        // 5, and then 16, 18 or another 5
        ("x1@".into(), 1, (5, 0)),
        ("x1^".into(), 1, (5, 0)),
        ("x1)".into(), 1, (5, 0)),
        ("x123".into(), 12, (5, 0)),
        ("x00".into(), 0, (5, 0)),
        ("(x0".into(), 0, (5, 0)),
        ("x0&x2x".into(), 2, (5, 1)),
        (format!("x1^{nots}!0"), 1, (5, 0)),
        (format!("{nots}x1"), 1, (5, 0)),
        ("x0&x5^x6".into(), 5, (5, 1)),
        // 16, and then 18 or 5
        (format!("@{nots}!0"), 1, (16, 0)),
        (format!("0^^{open}("), 1, (16, 2)),
        ("@x1".into(), 1, (16, 0)),
        ("0x1".into(), 1, (16, 1)),
        ("x00^x1".into(), 1, (16, 2)),
        ("x123^x64".into(), 13, (16, 3)),
        // 18, and then 16 or 5
        (format!("{nots}!"), 1, (18, 64)),
        (format!("{nots}!@"), 1, (18, 64)),
        (format!("{open}()"), 1, (18, 64)),
        (format!("{nots}!x1"), 1, (18, 64)),
        (format!("x0^{open}(x1"), 1, (18, 67)),
        // 16 and 18 at one byte
        (format!("{open}0("), 1, (16, 65)),
        (format!("{open}0!"), 1, (16, 65)),
        (format!("{nots}x("), 1, (16, 65)),
        (format!("{open}x0!"), 1, (16, 66)),
        // 16, where as many are open as may be
        (open.clone(), 1, (16, 64)),
        (format!("{open})"), 1, (16, 64)),
        (format!("{nots}^"), 1, (16, 64)),
        (format!("{open}0"), 1, (16, 65)),
    ]
}

#[test]
fn the_first_byte_with_a_cause_counts() {
    for (text, inputs, refusal) in first_bytes() {
        refuses(&text, inputs, refusal);
        // 4 comes before each of them, and 17 before that.
        refuses(&text, 65, (4, 0));
        refuses(format!("{text}{}", "0".repeat(4_096)), 65, (17, 0));
    }
}

/// Letters of the language, one of them a digit that is no constant, and one that is in no text.
const LETTERS: &[u8; 10] = b"01x!&^()2@";

/// How many texts of each length the grammar has, of these letters and with numbers below that of
/// the inputs: as many as readings, since each text has one.
fn readings(inputs: u64, longest: usize) -> Vec<u64> {
    let inputs_of = |numbers: &[u64]| numbers.iter().filter(|j| **j < inputs).count() as u64;
    let leaves = [0, 2, inputs_of(&[0, 1, 2]), inputs_of(&[10, 11, 12, 20, 21, 22])];
    let mut factors = vec![0];
    let mut products = vec![0];
    let mut sums = vec![0];
    for length in 1..=longest {
        let in_brackets = if length > 2 { sums[length - 2] } else { 0 };
        let leaf = leaves.get(length).unwrap_or(&0);
        factors.push(leaf + factors[length - 1] + in_brackets);
        // The last operand, and all before it.
        let joined = |left: &[u64], right: &[u64]| -> u64 {
            (1..length).map(|at| left[at - 1] * right[length - at]).sum()
        };
        products.push(factors[length] + joined(&products, &factors));
        sums.push(products[length] + joined(&sums, &products));
    }
    sums
}

/// The text of this length with this number, its letters as digits.
fn numbered(number: usize, length: usize) -> Vec<u8> {
    (0..length as u32).map(|at| LETTERS[number / 10_usize.pow(at) % 10]).collect()
}

/// Every text of these letters up to this length, run where it is accepted. Of each length as many
/// are accepted as the grammar has.
fn every_text(tally: &mut Tally, inputs: u64, longest: usize) {
    let readings = readings(inputs, longest);
    for (length, expected) in readings.iter().enumerate() {
        let mut accepted = 0;
        for number in 0..10_usize.pow(length as u32) {
            let case = Case::new(numbered(number, length), inputs, NO_NODES + NODE * longest);
            let outcome = compare(&case);
            tally.count(&outcome);
            if let Ok(length) = outcome {
                accepted += 1;
                runs(&case, &archive(&case).1[..length]).expect("few lines and gates");
            }
        }
        assert_eq!(accepted, *expected, "{inputs} inputs, texts of {length} bytes");
    }
    println!("parse, every text: {inputs} inputs, {readings:?} accepted, by length");
}

#[test]
fn every_text_of_five_letters() {
    let mut tally = Tally::new("parse, every text of up to 5 letters");
    for inputs in [0, 1, 3, 11, 64] {
        every_text(&mut tally, inputs, 5);
    }
    tally.finish(5 * 111_111, &[5, 16]);
}

#[test]
fn every_text_of_six_letters() {
    let mut tally = Tally::new("parse, every text of up to 6 letters");
    every_text(&mut tally, 2, 6);
    tally.finish(1_111_111, &[5, 16]);
}

/// Texts with one byte changed, added or removed, in every way, in an area that is long enough and
/// in one that is not.
#[test]
fn each_byte_changed() {
    let mut tally = Tally::new("parse, one byte changed");
    for (text, inputs) in [("x0^!(x12&1)^0", 13), ("!!(x2&x1)", 3), ("(0^x63)&(x9)", 64)] {
        let text = text.as_bytes();
        let mut texts: Vec<Vec<u8>> = damage::each_byte_changed(text).collect();
        for at in 0..=text.len() {
            texts.extend((0..=255).map(|byte| [&text[..at], &[byte], &text[at..]].concat()));
        }
        texts.extend((0..text.len()).map(|at| [&text[..at], &text[at + 1..]].concat()));
        for text in texts {
            for length in [200, NO_NODES + 2 * NODE] {
                tally.count(&compare(&Case::new(&text, inputs, length)));
            }
        }
    }
    tally.finish(35_000, &[5, 11, 16]);
}

/// A byte of no text at each place of the longest ones.
#[test]
fn a_foreign_byte_at_each_place() {
    let mut random = Random::new(0x666f_7265);
    for byte in [b' ', b'\n', 0, 0x80, 0xff] {
        let inputs = random.within(1..=64) as u64;
        let good = formula::of_length(&mut random, inputs, MOST_TEXT);
        accepts(&good, inputs);
        for at in 0..good.len() {
            let mut text = good.clone();
            text[at] = byte;
            let case = Case::new(&text, inputs, 1);
            check(&case, Err((16, at as u64)), &case.area);
        }
    }
}

/// A text cut short is refused, if at all, for its end, as a text begins with it. Holds for the
/// archive by itself, whatever the model says.
#[test]
fn each_prefix_of_a_text() {
    let mut random = Random::new(0x7072_6566);
    let (mut finished, mut unfinished) = (0, 0);
    for _ in 0..4_000 {
        let Formula { text, inputs } = formula::valid(&mut random);
        for length in 0..text.len().min(100) {
            match archive(&Case::new(&text[..length], inputs, NO_NODES + NODE * length)).0 {
                Ok(_) => finished += 1,
                outcome => {
                    assert_eq!(outcome, Err((16, length as u64)), "{:?}", &text[..length]);
                    unfinished += 1;
                }
            }
        }
    }
    println!("parse, prefixes: {finished} finished, {unfinished} unfinished");
    assert!(finished > 5_000 && unfinished > 20_000, "too few of a kind");
}

/// The place of 16 is the length of a prefix that some text begins with: it can be finished, with a
/// leaf or without, and with brackets. Holds for the archive by itself.
#[test]
fn a_text_begins_with_what_is_before_the_place() {
    let mut random = Random::new(0x706c_6163);
    let mut cut = 0;
    for _ in 0..20_000 {
        let Formula { text, inputs } = formula::damaged(&mut random);
        let Err((16, place)) = archive(&Case::new(&text, inputs, 0)).0 else { continue };
        let prefix = &text[..place as usize];
        let count = |letter: u8| prefix.iter().filter(|byte| **byte == letter).count();
        let close = ")".repeat(count(b'(') - count(b')'));
        let accepted = |end: &str| {
            let text = [prefix, end.as_bytes(), close.as_bytes()].concat();
            text.len() <= MOST_TEXT && archive(&Case::new(&text, 64, LONGEST_PARSED)).0.is_ok()
        };
        let too_long = prefix.len() + 1 + close.len() > MOST_TEXT;
        assert!(too_long || accepted("") || accepted("0"), "{prefix:?}");
        cut += u64::from(!prefix.is_empty() && prefix.len() < text.len());
    }
    println!("parse: {cut} texts refused with 16 in their middle");
    assert!(cut > 5_000, "too few texts");
}

#[test]
fn random_and_damaged_texts() {
    let mut random = Random::new(0x7061_7273);
    let mut tally = Tally::new("parse");
    for _ in 0..40_000 {
        let formula = formula::any(&mut random);
        tally.count(&compare(&call(&mut random, formula)));
    }
    tally.finish(40_000, &[4, 5, 11, 16, 17, 18]);
    assert!(tally.least() > 1_000, "too few results or refusals of a cause");
}

/// From a text to the lines after a run, of few inputs on all of them.
#[test]
fn circuits_compute_what_the_texts_say() {
    let mut random = Random::new(0x7275_6e73);
    let (mut compiled, mut too_large, mut values) = (0, 0, [0; 2]);
    for _ in 0..6_000 {
        let Formula { text, inputs } = formula::valid(&mut random);
        let case = Case::new(&text, inputs, LONGEST_PARSED);
        let (outcome, area) = archive(&case);
        let length = outcome.unwrap_or_else(|refusal| panic!("{refusal:?}, {}", case.describe()));
        let Some([zeros, ones]) = runs(&case, &area[..length]) else {
            too_large += 1;
            continue;
        };
        compiled += 1;
        values = [values[0] + zeros, values[1] + ones];
    }
    println!("parse: {compiled} compiled, {too_large} too large, {values:?} values of 0 and 1");
    assert!(compiled > 5_500, "too few circuits");
    assert!(values.iter().all(|count| *count > 10_000), "too few values of one kind");
}
