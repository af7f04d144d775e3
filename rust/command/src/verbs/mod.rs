//! The verbs, a file for each, and what is said about them.

mod check;
mod compile;
mod evaluate;
mod export;
mod list;
mod make;
mod quote;
mod run;
mod undo;

use std::fmt::Write;

use crate::arguments::Arguments;
use crate::failure::Result;
use crate::output::Output;

pub struct Opt {
    pub name: &'static str,
    /// The name of its value, empty where it takes none.
    pub value: &'static str,
    pub about: &'static str,
}

pub struct Verb {
    pub name: &'static str,
    /// What stands behind it.
    pub takes: &'static str,
    /// What it does, in a line.
    pub about: &'static str,
    /// What else there is to know.
    pub more: &'static str,
    pub options: &'static [Opt],
    pub act: fn(&Arguments) -> Result<Output>,
}

pub const VERBS: [Verb; 10] = [
    check::VERB,
    make::VERB,
    list::VERB,
    quote::VERB,
    compile::VERB,
    evaluate::VERB,
    run::RUN,
    run::BACK,
    undo::VERB,
    export::VERB,
];

const OUTPUT: Opt = Opt {
    name: "-o",
    value: "FILE",
    about: "write to FILE, all of it or nothing, and not to standard output",
};

const INPUTS: Opt = Opt {
    name: "--inputs",
    value: "N",
    about: "a formula has N inputs, and not just as many as it names",
};

const GRANT: Opt = Opt {
    name: "--grant",
    value: "N",
    about: "allow N work lines in the circuit of a function; 1024 are the most, and allowed if nothing is said",
};

const HELP: Opt = Opt { name: "--help", value: "", about: "say this" };

/// What can be given to a verb.
const INPUT: &str = "\
INPUT is the name of a file, `-` for standard input, or a formula, as 'x0&x1^!x2' in quotes. A file
is a program file, a circuit file, a table as text or a formula, and told by its content. A file whose
name looks like a formula is written with its folder, as ./x0.
";

impl Verb {
    /// Its own options, and that of every verb.
    pub fn options(&self) -> impl Iterator<Item = &Opt> {
        self.options.iter().chain([&OUTPUT])
    }

    pub fn help(&self) -> String {
        let Verb { name, takes, about, more, .. } = self;
        let mut text = format!("oracle {name} {takes} [OPTIONS]: {about}.\n\n{more}\n{INPUT}\n");
        for Opt { name, value, about } in self.options().chain([&HELP]) {
            let _ = writeln!(text, "  {:<18} {about}", format!("{name} {value}"));
        }
        text
    }
}

/// What the command is, and its verbs.
pub fn overview() -> String {
    let mut text = String::from(
        "oracle VERB INPUT [OPTIONS]: from a Boolean function to a circuit of NOT, CNOT and Toffoli gates.\n\n",
    );
    for Verb { name, takes, about, .. } in &VERBS {
        let _ = writeln!(text, "  {:<32} {about}", format!("{name} {takes}"));
    }
    let _ = write!(
        text,
        "\n{INPUT}\noracle VERB --help says more of a verb, oracle --version which version this is. The exit\n\
         status is 0, 1 where something is refused, 2 for a wrong use, 3 for an error of reading or writing.\n"
    );
    text
}
