//! The calls of Cerahupo's static library, with types for what they tell.
//!
//! Nothing is refused here. Each slice is handed on whatever it holds, and what the call told is returned.
//! "Document 01" is the office's scope paper; a signal set is a 16-bit number, signal S its bit S.
//!
//! An excluded pair is two signals that never occur together, as a book's line `x A B` says; a listing carries it as a
//! record of kind 5. A policy whose default is left out (`p OP`) has 100 for min and mul, 0 for sum and max; in a book
//! whose first line is `o`, 0 for all four.
//!
//! ```
//! let book = b"p sum 0\nr 0 40\nr 1 30\nr 2 30\nc 50 < p0\n";
//! let mut words = [0; 64];
//! let records = cerahupo::compile(book, 0, &mut words)?;
//! let listing = &words[..4 * records as usize];
//! assert_eq!(cerahupo::read(listing, 3), cerahupo::decide(book, 0, 3));
//! # Ok::<(), cerahupo::Refusal>(())
//! ```

pub mod raw;

use raw::Told;
use std::fmt;

/// A refusal by document 01's table, or by 11 where the slices of a traverse are not equally long: its number, and the
/// line or record beside it, 0 where there is none.
#[derive(Clone, Copy, Debug, PartialEq, Eq)]
pub struct Refusal {
    pub number: u8,
    pub value: u64,
}

/// How many policies and conditions an accepted book has.
#[derive(Clone, Copy, Debug, PartialEq, Eq)]
pub struct Counts {
    pub policies: u64,
    pub conditions: u64,
}

/// What the scores or the rod say of one signal set.
#[derive(Clone, Copy, Debug, PartialEq, Eq)]
pub enum Decision {
    Yes,
    No,
}

/// The score of a condition's expression, exact: hundredths, rounded toward minus infinity, and what is left in parts of
/// which a hundredth has 10 to the 14. A threshold T is less than it exactly when the hundredths exceed T, or equal it
/// with a remainder above zero. `<` and `==` on two scores go by their value; printed, a score is an exact decimal.
#[derive(Clone, Copy, Debug, PartialEq, Eq, PartialOrd, Ord)]
pub struct Score {
    pub hundredths: i64,
    pub remainder: u64,
}

/// What a listing says over all signal sets that hold no excluded pair of it; the sets named are the lowest that give
/// yes and no.
#[derive(Clone, Copy, Debug, PartialEq, Eq)]
pub enum Choice {
    Always,
    Never,
    Both { yes: u16, no: u16 },
}

/// What the choice check found, and how many signal sets it judged for that: of those that hold no excluded pair all, or
/// where there are both answers those up to the higher of the two sets, which is one of them.
#[derive(Clone, Copy, Debug, PartialEq, Eq)]
pub struct Chosen {
    pub choice: Choice,
    pub judged: u32,
}

/// One of the two listings that are compared.
#[derive(Clone, Copy, Debug, PartialEq, Eq)]
pub enum Listing {
    First,
    Second,
}

/// Whether two listings say the same of every signal set that holds no excluded pair of either, or the lowest such set
/// where they differ and which says yes there.
#[derive(Clone, Copy, Debug, PartialEq, Eq)]
pub enum Comparison {
    Alike,
    Differ { set: u16, yes: Listing },
}

/// Which listing the comparison declined, and why.
#[derive(Clone, Copy, Debug, PartialEq, Eq)]
pub struct Declined {
    pub listing: Listing,
    pub refusal: Refusal,
}

/// Checks a book.
pub fn check(book: &[u8]) -> Result<Counts, Refusal> {
    raw::check(book).result().map(Counts::told)
}

/// The scored decision of a book's condition, counted from 0; a set that holds an excluded pair is decided too.
pub fn decide(book: &[u8], condition: u32, set: u16) -> Result<Decision, Refusal> {
    raw::decide(book, condition, set).result().map(Decision::told)
}

/// The score by which `decide` decides: that of the condition's expression on the set.
///
/// ```
/// let score = cerahupo::score(b"p mul\nr 0 75\nr 1 50\nc 30 < p0\n", 0, 3)?;
/// assert_eq!((score.hundredths, score.remainder), (37, 50_000_000_000_000));
/// assert_eq!(score.to_string(), "37.5 hundredths");
/// # Ok::<(), cerahupo::Refusal>(())
/// ```
pub fn score(book: &[u8], condition: u32, set: u16) -> Result<Score, Refusal> {
    let mut remainder = 0;
    let told = raw::score(book, condition, set, &mut remainder);
    told.result().map(|value| Score::told(value, remainder))
}

/// Compiles a condition into the lent words and returns the number of records, those of the book's excluded pairs among
/// them, four words each. Words beyond the records, and on a refusal all words, are unchanged.
pub fn compile(book: &[u8], condition: u32, words: &mut [u32]) -> Result<u64, Refusal> {
    raw::compile(book, condition, words).result()
}

/// The rod's reading of a listing; excluded pairs change no answer.
pub fn read(words: &[u32], set: u16) -> Result<Decision, Refusal> {
    raw::read(words, set).result().map(Decision::told)
}

/// A whole traverse: for each of the sets, in their order, 1 or 0 is written among the answers, as `read` would say yes or
/// no of it. The listing is examined once, also where there are no sets. Returns the number of answers.
///
/// If sets and answers are not equally many this is refused by 11, before the listing is examined. On a refusal the
/// answers are unchanged.
///
/// ```
/// // yes where signals 0 and 2 are present
/// let listing = [16, 5, 2, 0, 4, 5, 0, 0];
/// let mut answers = [0; 4];
/// assert_eq!(cerahupo::traverse(&listing, &[5, 1, 7, 0], &mut answers)?, 4);
/// assert_eq!(answers, [1, 0, 1, 0]);
/// # Ok::<(), cerahupo::Refusal>(())
/// ```
pub fn traverse(words: &[u32], sets: &[u16], answers: &mut [u8]) -> Result<u64, Refusal> {
    raw::traverse(words, sets, answers).result()
}

/// The choice check of a listing, over all signal sets that hold no excluded pair of it: one pass in rising order, which
/// ends when it has a yes and a no.
///
/// ```
/// use cerahupo::{Choice, Chosen};
///
/// // yes where signals 0 and 2 are present: of sets 0 to 5 each is judged
/// let found = cerahupo::choice(&[16, 5, 2, 0, 4, 5, 0, 0])?;
/// assert_eq!(found, Chosen { choice: Choice::Both { yes: 5, no: 0 }, judged: 6 });
/// // signals 0 and 1 exclude each other: set 3 is passed over
/// let found = cerahupo::choice(&[5, 3, 0, 2, 16, 5, 3, 0, 4, 5, 0, 0])?;
/// assert_eq!(found.judged, 5);
/// # Ok::<(), cerahupo::Refusal>(())
/// ```
pub fn choice(words: &[u32]) -> Result<Chosen, Refusal> {
    raw::choice(words).result().map(Chosen::told)
}

/// Compares two listings over all signal sets that hold no excluded pair of either.
///
/// Listings of one policy each that this library compiled, without excluded pairs and with equal kind and mask, are alike
/// exactly if they have the same lines, in whatever order; otherwise the set is the lowest line that only one of them has.
pub fn compare(one: &[u32], two: &[u32]) -> Result<Comparison, Declined> {
    let told = raw::compare(one, two);
    match told.result() {
        Ok(value) => Ok(Comparison::told(value)),
        Err(refusal) => Err(Declined { listing: told.declined(), refusal }),
    }
}

impl Told {
    fn result(self) -> Result<u64, Refusal> {
        match self.number() {
            0 => Ok(self.value()),
            number => Err(Refusal { number, value: self.value() }),
        }
    }

    fn declined(self) -> Listing {
        if self.second() { Listing::Second } else { Listing::First }
    }
}

/// The signal set that stands in a result from a bit on.
fn set_at(value: u64, bit: u32) -> u16 {
    (value >> bit) as u16
}

impl Counts {
    fn told(value: u64) -> Counts {
        Counts { policies: value % 2048, conditions: value / 2048 }
    }
}

impl Decision {
    fn told(value: u64) -> Decision {
        if value == 1 { Decision::Yes } else { Decision::No }
    }
}

impl Score {
    /// So many parts make a hundredth.
    const PARTS: u64 = 10u64.pow(14);

    /// No accepted book has a lower score, in hundredths; a value counts from it.
    const LOWEST: i64 = -10_000;

    fn told(value: u64, remainder: u64) -> Score {
        Score { hundredths: Score::LOWEST + value as i64, remainder }
    }
}

impl Choice {
    fn told(value: u64) -> Choice {
        match value % 4 {
            0 => Choice::Always,
            1 => Choice::Never,
            _ => Choice::Both { yes: set_at(value, 11), no: set_at(value, 27) },
        }
    }
}

impl Chosen {
    fn told(value: u64) -> Chosen {
        Chosen { choice: Choice::told(value), judged: (value >> 43) as u32 + 1 }
    }
}

impl Comparison {
    fn told(value: u64) -> Comparison {
        match value % 4 {
            0 => Comparison::Alike,
            1 => Comparison::Differ { set: set_at(value, 11), yes: Listing::Second },
            _ => Comparison::Differ { set: set_at(value, 11), yes: Listing::First },
        }
    }
}

impl fmt::Display for Score {
    fn fmt(&self, out: &mut fmt::Formatter) -> fmt::Result {
        let hundredth = u128::from(Score::PARTS);
        let parts = i128::from(self.hundredths) * i128::from(Score::PARTS) + i128::from(self.remainder);
        let (sign, size) = (if parts < 0 { "-" } else { "" }, parts.unsigned_abs());
        write!(out, "{sign}{}", size / hundredth)?;
        let digits = format!("{:014}", size % hundredth);
        match digits.trim_end_matches('0') {
            "" => {}
            fraction => write!(out, ".{fraction}")?,
        }
        write!(out, "{}", if size == hundredth { " hundredth" } else { " hundredths" })
    }
}

impl fmt::Display for Refusal {
    fn fmt(&self, out: &mut fmt::Formatter) -> fmt::Result {
        write!(out, "refused {} {}", self.number, self.value)
    }
}

impl fmt::Display for Declined {
    fn fmt(&self, out: &mut fmt::Formatter) -> fmt::Result {
        let listing = match self.listing {
            Listing::First => "first",
            Listing::Second => "second",
        };
        write!(out, "{listing} listing {}", self.refusal)
    }
}

impl std::error::Error for Refusal {}
impl std::error::Error for Declined {}
