//! The program `listing` itself, as `tools/build.sh listing` builds it.

use crate::inputs::random::Random;
use crate::samples::{Sample, listing_text, samples};
use std::env;
use std::io::Write;
use std::path::{Path, PathBuf};
use std::process::{Command, Stdio};

/// The file that the variable CERAHUPO_LISTING names, or the program in the repository's target folder.
fn program() -> PathBuf {
    let built = Path::new(env!("CARGO_MANIFEST_DIR")).join("../target/bin/listing");
    let program = env::var_os("CERAHUPO_LISTING").map_or(built, PathBuf::from);
    assert!(
        program.is_file(),
        "{} is missing: `tools/build.sh listing` in the folder above builds the program, or CERAHUPO_LISTING names it",
        program.display()
    );
    program
}

/// What the program prints for a book.
fn printed(book: &[u8]) -> String {
    let mut child =
        Command::new(program()).stdin(Stdio::piped()).stdout(Stdio::piped()).spawn().expect("the program can be run");
    // A pipe holds more than a book has, so this does not wait for the program.
    child.stdin.take().expect("standard input is piped").write_all(book).expect("the book is taken");
    let output = child.wait_with_output().expect("the program ends");
    assert!(output.status.success(), "the program ends with {}", output.status);
    String::from_utf8(output.stdout).expect("it prints words and digits")
}

#[test]
fn sample_books() {
    for Sample { path, book, listing } in samples() {
        assert_eq!(printed(&book), listing, "{}", path.display());
    }
}

/// Ten scores of 1 and six of 3 have 4,086 minimal sets above 9: condition 0 has 4,087 records and one for each pair.
/// Condition 1 needs all sixteen signals, and so is never met.
fn book_with_pairs(count: usize) -> Vec<u8> {
    let pairs: String = (1..=count).map(|signal| format!("x 0 {signal}\n")).collect();
    let rules: String = (0..16).map(|signal| format!("r {signal} {}\n", if signal < 10 { 1 } else { 3 })).collect();
    format!("{pairs}p sum\n{rules}c 9 < p0\nc 27 < p0\n").into_bytes()
}

/// The program has room for 4,096 records, those of pairs among them; a condition that does not fit is refused alone.
#[test]
fn records_that_just_fit() {
    let mut random = Random::of("program");
    for (pairs, first_line) in [(9, "condition 0 records 4096"), (10, "refused 8 0")] {
        let book = book_with_pairs(pairs);
        let expected = listing_text(&book, &mut random).expect("the book is accepted");
        assert_eq!(expected.lines().next(), Some(first_line));
        assert!(expected.ends_with("\nnever\n"), "condition 1 with {pairs} pairs");
        assert!(printed(&book) == expected, "the program on {pairs} pairs");
    }
}
