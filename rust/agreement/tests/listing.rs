//! The listing program's cases: the data files are what their names say, the text expected for them
//! is the model's, and what the archive compiles gives the same text.

use std::collections::BTreeSet;

use agreement::compare::compile::written;
use agreement::listing_cases::{self, Case, GRANT, MOST_INPUT};
use agreement::{hex, repository, shaped};
use model::listing::{listing, text};

/// The two lines of the whole case, as 02 has them.
const WHOLE_CASE: &str = "lines 2 1 0 gates 1\nT 0 1 2\n";

#[test]
fn every_file_is_as_it_is_made() {
    for (name, content) in listing_cases::files() {
        let file = repository::read(&name);
        let lengths = (file.len(), content.len());
        assert!(file == content, "{}: not as it is made, {lengths:?} bytes", name.display());
    }
}

/// No case is missing, and no file is there that is no case.
#[test]
fn the_data_folder_holds_the_cases_alone() {
    let found = repository::names("crates/listing_cases/data");
    let cases = listing_cases::all();
    let names: BTreeSet<String> = cases.iter().map(|case| case.name.to_string()).collect();
    assert_eq!(names.len(), cases.len(), "each name is given once");
    assert_eq!(found, names, "the files, then the cases");
}

/// The first lines are written out beside the cases and come from no code.
#[test]
fn each_case_starts_as_01_says() {
    let mut causes = BTreeSet::new();
    let mut results = 0;
    for case in listing_cases::all() {
        let text = listing(&case.file, GRANT);
        assert_eq!(text.lines().next(), Some(case.first_line), "{}", case.name);
        assert!(text.ends_with('\n'), "{}: the last line ends", case.name);
        match case.first_line.strip_prefix("refused ") {
            Some(refusal) => {
                assert_eq!(text.lines().count(), 1, "{}: a refusal is one line", case.name);
                causes.insert(refusal.split(' ').next().expect("a number").to_string());
            }
            None => {
                let gates = case.first_line.split(' ').next_back().expect("a number");
                let gates: usize = gates.parse().expect("a number");
                assert_eq!(text.lines().count(), 1 + gates, "{}: a line a gate", case.name);
                results += 1;
            }
        }
    }
    println!("listing: {} cases, {results} of them results", listing_cases::all().len());
    let expected = [1, 2, 3, 4, 5, 6, 8, 10, 11].map(|cause: u64| cause.to_string());
    assert_eq!(causes, expected.into_iter().collect(), "the causes seen, then those wanted");
}

#[test]
fn the_whole_case() {
    assert_eq!(listing(&shaped::program::WHOLE_CASE, GRANT), WHOLE_CASE);
    assert_eq!(repository::read("crates/listing/stdin"), shaped::program::WHOLE_CASE);
    assert_eq!(repository::text("crates/listing/stdout"), WHOLE_CASE);
}

/// The gates of 01's examples and of a XOR of two marked ANDs, as the stdout of all cases holds them.
#[test]
fn the_other_examples() {
    let stdout = repository::text("crates/listing_cases/stdout");
    assert!(stdout.starts_with("refused 1 0\n"), "empty input comes first");
    for text in [
        WHOLE_CASE,
        "lines 2 1 2 gates 9\nN 3\nC 0 3\nN 4\nC 1 4\nT 3 4 2\nC 1 4\nN 4\nC 0 3\nN 3\n",
        "lines 3 1 1 gates 3\nT 0 1 4\nT 2 4 3\nT 0 1 4\n",
        "lines 4 1 2 gates 5\nT 0 1 6\nT 2 6 5\nT 3 5 4\nT 2 6 5\nT 0 1 6\n",
        "lines 1 1 0 gates 2\nC 0 1\nC 0 1\nlines 0 1 0 gates 0\nlines 0 1 0 gates 1\nN 0\n",
        "lines 6 1 2 gates 6\nT 0 1 7\nT 2 7 6\nT 3 4 8\nT 5 8 6\nT 3 4 8\nT 0 1 7\n",
        "lines 6 1 1 gates 10\nT 0 1 7\nT 2 7 6\nT 0 1 7\nT 3 4 7\nT 5 7 6\nT 3 4 7\n\
         T 3 4 7\nT 3 4 7\nT 0 1 7\nT 0 1 7\n",
    ] {
        assert_eq!(stdout.matches(text).count(), 1, "{text}");
    }
}

/// The text of what the archive compiles from a case.
fn archive(case: &Case) -> String {
    let file = &case.file[..case.file.len().min(MOST_INPUT)];
    match written(file, GRANT) {
        Ok(circuit) => text(&model::circuit::read(&circuit).expect("what was compiled reads back")),
        Err((number, place)) => format!("refused {number} {place}\n"),
    }
}

#[test]
fn what_the_archive_compiles_is_listed_alike() {
    for case in listing_cases::all() {
        let expected = listing(&case.file, GRANT);
        assert!(archive(&case) == expected, "{}, {}", case.name, hex(&case.file));
    }
}
