//! The calls as one would write them in Rust for speed: one pass over the bytes, `Vec`s, 64-bit numbers, a pruned
//! search. The functions have the signatures of the calls.

mod book;
mod compiling;
mod groups;
pub mod listing;
mod scoring;

use cerahupo::{Counts, Decision, Refusal, Score};

pub use compiling::compile;
pub use groups::{choice, compare};
pub use listing::{read, traverse};

fn refused<T>(number: u8, value: usize) -> Result<T, Refusal> {
    Err(Refusal { number, value: value as u64 })
}

fn decision(yes: bool) -> Decision {
    if yes { Decision::Yes } else { Decision::No }
}

pub fn check(bytes: &[u8]) -> Result<Counts, Refusal> {
    let book = book::Book::read(bytes)?;
    Ok(Counts { policies: book.policies.len() as u64, conditions: book.conditions.len() as u64 })
}

pub fn decide(bytes: &[u8], condition: u32, set: u16) -> Result<Decision, Refusal> {
    let book = book::Book::read(bytes)?;
    Ok(decision(scoring::meets(&book, book.condition(condition)?, set)))
}

pub fn score(bytes: &[u8], condition: u32, set: u16) -> Result<Score, Refusal> {
    let book = book::Book::read(bytes)?;
    Ok(scoring::shown(&book, book.condition(condition)?, set))
}
