//! The sample books in `books/`, each listed by the calls as the program `listing` prints it, and held against the file
//! beside it.

use crate::agreed;
use crate::inputs::Inside;
use crate::inputs::random::Random;
use cerahupo::{Choice, Refusal};
use std::fmt::Write;
use std::fs;
use std::path::{Path, PathBuf};

/// The program has room for 4,096 records.
const LENT: [u32; 4 * 4096] = [77; 4 * 4096];

fn condition_text(book: &[u8], condition: u32, random: &mut Random) -> Result<String, Refusal> {
    let mut lent = Inside::new(&LENT, random, |_| 77);
    let records = agreed::compile(book, condition, &mut lent)?;
    let words = &lent.slice()[..4 * records as usize];
    let mut text = format!("condition {condition} records {records}\n");
    for record in words.chunks(4) {
        writeln!(text, "{} {} {} {}", record[0], record[1], record[2], record[3]).expect("a string has room");
    }
    text += &match agreed::choice(words)?.choice {
        Choice::Always => "always\n".to_string(),
        Choice::Never => "never\n".to_string(),
        Choice::Both { yes, no } => format!("both {yes} {no}\n"),
    };
    Ok(text)
}

/// What the program prints for an accepted book.
pub fn listing_text(book: &[u8], random: &mut Random) -> Result<String, Refusal> {
    let conditions = agreed::check(book)?.conditions as u32;
    let texts = (0..conditions)
        .map(|condition| condition_text(book, condition, random).unwrap_or_else(|refusal| format!("{refusal}\n")));
    Ok(texts.collect())
}

pub struct Sample {
    pub path: PathBuf,
    pub book: Vec<u8>,
    pub listing: String,
}

/// The sample books, and the listings beside them.
pub fn samples() -> Vec<Sample> {
    let folder = Path::new(env!("CARGO_MANIFEST_DIR")).join("../books");
    let mut samples = Vec::new();
    for entry in fs::read_dir(folder).expect("the sample books are there") {
        let path = entry.expect("the folder can be read").path();
        if path.extension().is_some_and(|extension| extension == "book") {
            let book = fs::read(&path).expect("a book can be read");
            let listing = fs::read_to_string(path.with_extension("listing")).expect("each book has a listing");
            samples.push(Sample { path, book, listing });
        }
    }
    assert_eq!(samples.len(), 7, "sample books");
    samples
}

#[test]
fn books_and_their_listings() {
    let mut random = Random::of("samples");
    for Sample { path, book, listing } in samples() {
        assert_eq!(listing_text(&book, &mut random), Ok(listing), "{}", path.display());
    }
}
