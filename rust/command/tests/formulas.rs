//! The causes for which formulas are refused, 4, 5, 16, 17 and 18, and the carets that show where.

mod common;

use common::functions::{file, of_formula};
use common::refusing::refuses;
use common::{each_verb, Folder};

#[test]
fn causes_of_formulas() {
    for arguments in each_verb("-") {
        let with_inputs = |inputs| [&arguments[..], &["--inputs", inputs]].concat();
        refuses(&with_inputs("65"), "x0&x1", 4, None);
        refuses(&with_inputs("1"), "x0&x1", 5, Some(1));
        refuses(&arguments, "x0&x64", 5, Some(1));
        refuses(&arguments, "x0&&x1", 16, Some(3));
        refuses(&arguments, "x0^".repeat(1_365) + "x0", 17, None);
        refuses(&arguments, "x0^".repeat(20) + &"(".repeat(65), 18, Some(124));
    }
}

/// One newline at the end is not part of a formula. A second one is, or another one.
#[test]
fn newlines() {
    for arguments in each_verb("-") {
        for (text, byte) in [("x0\n\n", 2), ("x0\n^x1\n", 2), ("x0\r\n\r\n", 2), ("x0\r", 2)] {
            refuses(&arguments, text, 16, Some(byte));
        }
        for (text, byte) in [("\nx0", 0), ("x0\t", 2), ("\n", 0), ("\r\n", 0), (" x0", 0)] {
            refuses(&arguments, text, 16, Some(byte));
        }
    }
}

#[test]
fn the_longest_formula() {
    let folder = Folder::new();
    let most = "x0^".repeat(1_365) + "1";
    assert_eq!(most.len(), 4_096);
    for end in ["", "\n", "\r\n"] {
        folder.gives(&["make", "-"], most.clone() + end, of_formula(&most, 1));
        refuses(&["make", "-"], format!("{most}^{end}"), 17, None);
    }
    folder.gives(&["make", &most], "", of_formula(&most, 1));
    refuses(&["make", &(most + "^")], "", 17, None);
}

/// An argument that is no file and has a sign of formulas in it is taken for one.
#[test]
fn arguments_that_are_no_file() {
    for argument in ["a&b", "x0^y", "!x0|x1", "(a)", "x0 && x1", "no/such^file"] {
        refuses(&["make", argument], "", 16, None);
    }
    let folder = Folder::new();
    folder.put("a&b", file("and", "program"));
    folder.gives(&["list", "a&b"], "", file("and", "listing"));
}

/// The column of the caret, and the line above it.
fn caret(message: &str) -> (usize, &str) {
    let lines: Vec<&str> = message.lines().collect();
    let [_, text, caret] = lines[..] else { panic!("three lines are wanted, not\n{message}") };
    assert_eq!(caret.trim_start_matches(' '), "^", "{message}");
    (caret.len() - 1, text)
}

/// A text is refused, as the argument where it is one and on standard input, and the caret is under
/// this byte of it, which may be behind the last one.
fn points_at(text: &str, inputs: Option<&str>, number: u64, byte: usize) {
    let inputs: Vec<&str> = inputs.into_iter().flat_map(|inputs| ["--inputs", inputs]).collect();
    let is_argument = text.bytes().all(|byte| b"x0123456789^&!() ".contains(&byte));
    for (argument, stdin) in [("-", text), (text, "")] {
        if argument == "-" && text.is_empty() || argument != "-" && !is_argument {
            continue;
        }
        let message = refuses(&[&["make", argument], &inputs[..]].concat(), stdin, number, None);
        let (column, shown) = caret(&message);
        assert_eq!(column, 2 + byte, "{message}");
        // What a terminal makes of other characters is not looked at.
        let shown_whole = if text.is_ascii() { text } else { &text[..byte] };
        assert!(shown.starts_with(&format!("  {shown_whole}")), "{message}");
        assert!(!text.is_ascii() || shown.len() == 2 + text.len(), "{message}");
    }
}

#[test]
fn the_caret_of_16() {
    let words = "refused 16: the text is outside the language of formulas; at byte 3\n";
    let whole = format!("{words}  x0&&x1\n     ^\n");
    assert_eq!(refuses(&["make", "x0&&x1"], "", 16, Some(3)), whole);
    assert_eq!(refuses(&["list", "-"], "x0&&x1\n", 16, Some(3)), whole);
    for (text, byte) in [("", 0), ("&", 0), ("X0", 0), ("|", 0), ("x", 1), ("!", 1), ("x0&", 3)] {
        points_at(text, None, 16, byte);
    }
    for (text, byte) in [("(x0", 3), ("x0)", 2), ("x01", 2), ("x0 ^ x1", 2), ("2", 0), ("x0x1", 2)]
    {
        points_at(text, None, 16, byte);
    }
    for (text, byte) in [("x123", 3), ("10", 1), ("x0^é", 3), ("(x0^x1)&(", 9), ("x0∧x1", 2)] {
        points_at(text, None, 16, byte);
    }
}

#[test]
fn the_caret_of_18() {
    for (opened, byte) in [("(".repeat(64), "("), ("!".repeat(64), "!"), ("!(".repeat(32), "!")] {
        let message = refuses(&["make", "-"], format!("{opened}{byte}x0"), 18, Some(64));
        let (column, shown) = caret(&message);
        assert_eq!(&shown[column..], format!("{byte}x0"), "{message}");
    }
}

/// The caret of 5 is under the digit with which the number of an input is too large: the first one
/// where it can only get larger, else the last. The message names the node.
#[test]
fn the_caret_of_5() {
    points_at("x0", Some("0"), 5, 1);
    points_at("x0&x1", Some("1"), 5, 4);
    points_at("x0^!x2&x12", Some("5"), 5, 9);
    points_at("x0^!x2&x70", Some("5"), 5, 8);
    points_at("!(x0^x1)&x7", Some("7"), 5, 10);
    points_at("x10&x1", Some("9"), 5, 2);
    points_at("x10&x1", Some("1"), 5, 1);
    points_at("x64", None, 5, 2);
    points_at("x63^x99", None, 5, 6);
    points_at("x0&x64&&", None, 5, 5);
    let message = refuses(&["list", "!(x0^x1)&x7", "--inputs", "7"], "", 5, Some(4));
    assert!(message.contains("; at node 4"), "{message}");
}

/// So many bytes of a sum of the first two inputs.
fn sum(length: usize) -> String {
    "x0^x1^".repeat(700)[..length].to_string()
}

/// Of a long text a part is shown, with the right byte above the caret: a `%` that stands there once,
/// an input of another name, a `!` behind brackets.
#[test]
fn carets_in_long_texts() {
    for before in [0, 3, 30, 60, 120, 600, 2_046, 3_600, 4_080, 4_089] {
        let texts = [
            (sum(before) + "%" + &sum(4_095 - before), 16, "%"),
            (sum(before) + "x9" + &sum(4_094 - before), 5, "9"),
        ];
        for (text, number, wanted) in texts {
            assert_eq!(text.len(), 4_096);
            let message = refuses(&["make", "-", "--inputs", "2"], &text, number, None);
            let (column, shown) = caret(&message);
            assert!(shown[column..].starts_with(wanted), "{before}: {message}");
            assert!(shown.len() < 200, "{before}: a part is to be shown, not all of it");
        }
    }
    let deep = sum(3_000) + &"(".repeat(64) + "!" + &sum(1_031);
    let message = refuses(&["make", "-"], &deep, 18, Some(3_064));
    let (column, shown) = caret(&message);
    assert!(shown[column..].starts_with("!x0^"), "{message}");
    let message = refuses(&["make", "-"], sum(4_092) + "x1&(", 16, Some(4_096));
    let (column, shown) = caret(&message);
    assert!(shown.len() == column && shown.ends_with("x1&("), "{message}");
}
