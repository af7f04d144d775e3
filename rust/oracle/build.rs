//! Tells cargo where liboracle.a is: in the folder named by ORACLE_LIB_DIR, or else where the
//! repository builds it. A relative folder counts from this package. And takes the version and the
//! causes of refusals from the C header, where alone they stand.

use std::env;
use std::fmt::Write;
use std::fs;
use std::path::{Path, PathBuf};

fn main() {
    let package = PathBuf::from(env::var_os("CARGO_MANIFEST_DIR").expect("cargo sets it"));
    link(&package);
    take_over(&package.join("../../include"));
}

fn link(package: &Path) {
    println!("cargo:rerun-if-env-changed=ORACLE_LIB_DIR");
    let folder = env::var_os("ORACLE_LIB_DIR").unwrap_or("../../target/staticlib".into());
    let folder = package.join(folder);
    let archive = folder.join("liboracle.a");

    println!("cargo:rerun-if-changed={}", archive.display());
    println!("cargo:rustc-link-search=native={}", folder.display());
    println!("cargo:rustc-link-lib=static=oracle");

    // Checking and documenting need no archive, so its absence stops only what links.
    if !archive.exists() {
        println!(
            "cargo:warning={} is missing: build it, or set ORACLE_LIB_DIR to its folder",
            archive.display()
        );
    }
}

/// Writes what the header says as Rust.
fn take_over(include: &Path) {
    let read = |name: &str| {
        let path = include.join(name);
        println!("cargo:rerun-if-changed={}", path.display());
        fs::read_to_string(&path).unwrap_or_else(|error| panic!("{}: {error}", path.display()))
    };

    let header = read("oracle.h");
    let line = header.lines().find_map(|line| line.strip_prefix("#define ORACLE_VERSION "));
    let version = line.expect("oracle.h has a version").trim_matches('"');
    assert_eq!(version, env!("CARGO_PKG_VERSION"), "the versions of oracle.h and of Cargo.toml");
    println!("cargo:rustc-env=ORACLE_VERSION={version}");

    let causes = causes(&read("oracle_causes.h"));
    let folder = PathBuf::from(env::var_os("OUT_DIR").expect("cargo sets it"));
    fs::write(folder.join("causes.rs"), causes).expect("the build folder takes a file");
}

/// A constant for each cause, and then a row for each, in order: what its place is, and its text.
fn causes(list: &str) -> String {
    let (mut constants, mut rows) = (String::new(), String::new());
    let lines = list.lines().filter_map(|line| line.strip_prefix("ORACLE_CAUSE("));
    for (line, number) in lines.zip(1..) {
        let parts: Vec<&str> = line.split('"').collect();
        let [front, place, ", ", text, ")"] = parts[..] else { panic!("a cause: {line}") };
        let name =
            front.strip_prefix(&format!("{number}, ")).and_then(|name| name.strip_suffix(", "));
        let name = name.unwrap_or_else(|| panic!("cause {number} is next: {line}"));
        let _ = writeln!(constants, "/// {number}: {text}.\npub const {name}: u64 = {number};");
        let _ = writeln!(rows, "    ({place:?}, {text:?}),");
    }
    format!("{constants}\npub(crate) const WORDS: &[(&str, &str)] = &[\n{rows}];\n")
}
