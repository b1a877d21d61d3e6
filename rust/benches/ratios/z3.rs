//! Z3 on the same questions: each listing as a formula over 16 Boolean constants, in SMT-LIB 2.

use std::io::{ErrorKind, Write};
use std::process::{Command, Stdio};

/// Whether there is a Z3 to ask.
pub fn found() -> bool {
    match Command::new("z3").arg("--version").stdout(Stdio::null()).status() {
        Err(error) if error.kind() == ErrorKind::NotFound => false,
        status => status.expect("z3 runs").success(),
    }
}

/// The question whether a sound listing gives yes on a permitted set.
pub fn yes_question(words: &[u32]) -> String {
    let (pairs, formula) = formula(words);
    format!("{}{pairs}(assert {formula})\n(check-sat)\n", constants())
}

/// The question whether two sound listings differ on a permitted set.
pub fn difference_question(one: &[u32], two: &[u32]) -> String {
    let ((pairs, first), (others, second)) = (formula(one), formula(two));
    format!("{}{pairs}{others}(assert (xor {first} {second}))\n(check-sat)\n", constants())
}

/// Runs Z3 on a question, from its start to its end, and returns whether there is such a set.
pub fn answer(question: &str) -> bool {
    let mut command = Command::new("z3");
    let mut child = command.arg("-in").stdin(Stdio::piped()).stdout(Stdio::piped()).spawn().expect("z3 starts");
    child.stdin.take().expect("it is piped").write_all(question.as_bytes()).expect("z3 reads all");
    let output = child.wait_with_output().expect("z3 ends");
    match output.stdout.as_slice() {
        b"sat\n" => true,
        b"unsat\n" => false,
        other => panic!("z3 says {}", String::from_utf8_lossy(other)),
    }
}

fn constants() -> String {
    (0..16).map(|signal| format!("(declare-const s{signal} Bool)\n")).collect()
}

/// A sound listing's excluded pairs as assertions, and what it says as a formula.
fn formula(words: &[u32]) -> (String, String) {
    let (mut pairs, mut values) = (String::new(), Vec::new());
    let mut records = words.as_chunks::<4>().0.iter().peekable();
    while let Some(&[kind, mask, ..]) = records.next() {
        let mut last = || values.pop().expect("a join has two values");
        let value = match kind {
            5 => {
                pairs += &format!("(assert (not {}))\n", all_of(mask));
                continue;
            }
            2 | 3 => {
                let (right, left) = (last(), last());
                format!("({} {left} {right})", if kind == 2 { "and" } else { "or" })
            }
            _ => {
                let lines = std::iter::from_fn(|| records.next_if(|record| record[0] == 4));
                let found = joined("or", "false", lines.map(|record| all_of(record[1])).collect());
                let turned = if kind & 2 == 0 { found } else { format!("(not {found})") };
                format!("(ite {} {turned} {})", joined("or", "false", signals(mask)), kind & 1 == 1)
            }
        };
        values.push(value);
    }
    (pairs, values.pop().expect("a sound listing leaves one value"))
}

fn signals(mask: u32) -> Vec<String> {
    (0..16).filter(|signal| mask >> signal & 1 == 1).map(|signal| format!("s{signal}")).collect()
}

fn all_of(mask: u32) -> String {
    joined("and", "true", signals(mask))
}

fn joined(operator: &str, none: &str, mut parts: Vec<String>) -> String {
    match parts.len() {
        0 => none.to_string(),
        1 => parts.remove(0),
        _ => format!("({operator} {})", parts.join(" ")),
    }
}
