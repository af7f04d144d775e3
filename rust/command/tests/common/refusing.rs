//! Refusals, with the words of `include/oracle_causes.h`.

use std::fs;

use super::functions::repository;
use super::Folder;

/// What the place of a cause is, and the cause in words.
fn cause(number: u64) -> (String, String) {
    let header = fs::read_to_string(repository("include/oracle_causes.h")).expect("the causes");
    let start = format!("ORACLE_CAUSE({number}, ");
    let line = header.lines().find(|line| line.starts_with(&start));
    let quoted: Vec<&str> = line.expect("a line for each cause").split('"').collect();
    let [_, place, _, words, _] = quoted[..] else { panic!("two texts are wanted: {line:?}") };
    assert!(!words.is_empty());
    (place.to_string(), words.to_string())
}

/// The arguments are refused with this number, its words and the place, if one is given, also where a
/// file is to be written, which is then not made. Gives the message. What is needed of work lines and
/// gates may be said in other words; it is looked for in the first line.
pub fn refuses(
    arguments: &[&str],
    stdin: impl AsRef<[u8]>,
    number: u64,
    place: Option<u64>,
) -> String {
    let (of_place, words) = cause(number);
    let start = match place {
        _ if [10, 11].contains(&number) => format!("refused {number}: "),
        Some(place) => format!("refused {number}: {words}; {of_place} {place}"),
        None => format!("refused {number}: {words}"),
    };
    let folder = Folder::new();
    let message = folder.refused(arguments, &stdin, &start);
    let (first, behind) = (message.lines().next().unwrap_or(""), &message[start.len()..]);
    if start.ends_with(": ") {
        let mut numbers = first[start.len()..].split(|char: char| !char.is_ascii_digit());
        assert!(numbers.any(|part| place.is_some_and(|p| p.to_string() == part)), "{message}");
    } else {
        let is_over = behind.starts_with("; ") || behind.starts_with('\n');
        assert!(is_over, "{arguments:?}: not `{start}` but `{message}`");
    }
    let writing = [arguments, &["-o", "out"]].concat();
    assert_eq!(folder.refused(&writing, &stdin, &start), message);
    assert_eq!(folder.names(), [""; 0], "{arguments:?}");
    message
}
