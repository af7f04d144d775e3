//! RevLib's .real, version 2.0, as far as Toffoli gates go.
//!
//! A line is a word and what belongs to it. The head says how many variables there are, their names,
//! what their ends are called, and which are constant or garbage, a character each. Then the gates
//! stand between `.begin` and `.end`: `t` and the number of lines, then the lines, the target last.
//! `#` starts a comment, up to the end of its line.

use model::circuit::{Circuit, Gate};

use super::{gate, name, number, Read};

pub fn read(text: &str) -> Read<Circuit> {
    let lines: Vec<Vec<&str>> = text
        .lines()
        .map(|line| line.split('#').next().unwrap_or("").split_whitespace().collect())
        .filter(|words: &Vec<&str>| !words.is_empty())
        .collect();
    let [version, numvars, variables, inputs, outputs, constants, garbage, begin, rest @ ..] =
        &lines[..]
    else {
        return Err("the head is cut short".to_string());
    };
    is(behind(version, ".version")?, &["2.0"])?;
    let variables = behind(variables, ".variables")?;
    is(behind(numvars, ".numvars")?, &[&variables.len().to_string()])?;
    is(behind(inputs, ".inputs")?, variables)?;
    is(behind(outputs, ".outputs")?, variables)?;
    let [inputs, outputs, work] = groups(variables)?;
    let kept = "-".repeat(inputs + outputs);
    is(behind(constants, ".constants")?, &[&(kept.clone() + &"0".repeat(work))])?;
    is(behind(garbage, ".garbage")?, &[&(kept + &"-".repeat(work))])?;
    is(behind(begin, ".begin")?, &[])?;
    let Some((end, gates)) = rest.split_last() else {
        return Err("there is no end".to_string());
    };
    is(behind(end, ".end")?, &[])?;
    let gates = gates.iter().map(|words| gate_of(words, variables)).collect::<Read<Vec<_>>>()?;
    Ok(Circuit { inputs, outputs, work, gates })
}

/// What stands behind the first word of a line.
fn behind<'a>(words: &'a [&'a str], first: &str) -> Read<&'a [&'a str]> {
    match words {
        [word, rest @ ..] if *word == first => Ok(rest),
        _ => Err(format!("{first} is wanted, not {words:?}")),
    }
}

fn is(words: &[&str], wanted: &[&str]) -> Read<()> {
    if words == wanted {
        return Ok(());
    }
    Err(format!("{wanted:?} is wanted, not {words:?}"))
}

/// How many variables are inputs, targets and work lines. Each group is numbered from 0 on, and they
/// stand in this order.
fn groups(variables: &[&str]) -> Read<[usize; 3]> {
    let mut rest = variables;
    let counts = ["input", "target", "work"].map(|group| {
        let is_next = |(at, variable): &(usize, &&str)| **variable == format!("{group}_{at}");
        let count = rest.iter().enumerate().take_while(is_next).count();
        rest = &rest[count..];
        count
    });
    for variable in variables {
        name(variable)?;
    }
    rest.first().map_or(Ok(counts), |variable| Err(format!("the variable {variable}")))
}

fn gate_of(words: &[&str], variables: &[&str]) -> Read<Gate> {
    let (kind, names) = words.split_first().ok_or("an empty line")?;
    let size = kind.strip_prefix('t').ok_or(format!("{kind} is no Toffoli"))?;
    if number(size)? != names.len() {
        return Err(format!("{kind} with {} lines", names.len()));
    }
    let line = |name: &&str| {
        let at = variables.iter().position(|variable| variable == name);
        at.ok_or(format!("there is no variable {name}"))
    };
    gate(&names.iter().map(line).collect::<Read<Vec<usize>>>()?)
}

#[cfg(test)]
mod tests {
    use super::*;
    use crate::readers::is_strict;

    const GOOD: &str = "\
.version 2.0
.numvars 5
.variables input_0 input_1 target_0 work_0 work_1
.inputs input_0 input_1 target_0 work_0 work_1
.outputs input_0 input_1 target_0 work_0 work_1
.constants ---00
.garbage -----
.begin
t1 target_0
t2 input_0 work_0
t3 input_0 work_0 input_1
t3 input_1 work_0 input_0
t2 work_1 target_0
t1 work_1
.end
";

    #[test]
    fn it_is_read_strictly() {
        let damaged = [
            (".version 2.0", ".version 1.0"),
            (".version 2.0\n.numvars 5", ".numvars 5\n.version 2.0"),
            (".numvars 5", ".numvars 4"),
            (".numvars 5", ".numvars 6"),
            (".numvars 5", ".numvars"),
            (".variables input_0 input_1", ".variables input_1 input_0"),
            (".variables input_0 input_1", ".variables input_0 input_0"),
            (".variables input_0 input_1", ".variables input_0"),
            (".inputs input_0 input_1", ".inputs input_1 input_0"),
            (".outputs input_0 input_1", ".outputs input_0"),
            (".constants ---00", ".constants ---0"),
            (".constants ---00", ".constants -----"),
            (".constants ---00", ".constants --000"),
            (".garbage -----", ".garbage ----"),
            (".garbage -----", ".garbage ----1"),
            (".begin", ".begin t1"),
            (".end", ".end\nt1 work_1"),
            (".end", ".end here"),
            ("t1 target_0", "t1 target_1"),
            ("t1 target_0", "t1 target"),
            ("t1 target_0", "t2 target_0"),
            ("t1 target_0", "t target_0"),
            ("t1 target_0", "f1 target_0"),
            ("t1 target_0", "t1"),
            ("t2 input_0 work_0", "t2 work_0 work_0"),
            ("t3 input_0 work_0 input_1", "t3 input_0 work_0"),
            ("t3 input_0 work_0 input_1", "t4 input_0 work_0 input_1 work_1"),
        ];
        is_strict(read, GOOD, &damaged);
        assert!(read("").is_err());
        assert!(read(&GOOD.replace("work_1", "spare_1")).is_err());
        assert!(read(&GOOD.replace("input_1", "input_2")).is_err());
    }

    #[test]
    fn comments_and_empty_lines_are_passed_over() {
        let text = GOOD.replace(".begin", "# here\n\n.begin # it begins");
        assert_eq!(read(&text), read(GOOD));
    }
}
