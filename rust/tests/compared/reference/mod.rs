//! Document 01 once more, written from the paper alone, as plainly as can be: every set is tried, nothing is saved.
//! The functions have the signatures of the calls.

mod book;
mod listing;
mod score;
mod translation;

use cerahupo::{Choice, Chosen, Comparison, Counts, Decision, Declined, Listing, Refusal, Score};

pub use translation::{Node, words_of};

fn refused<T>(number: u8, value: usize) -> Result<T, Refusal> {
    Err(Refusal { number, value: value as u64 })
}

fn decision(yes: bool) -> Decision {
    if yes { Decision::Yes } else { Decision::No }
}

fn condition_of(book: &book::Book, number: u32) -> Result<&book::Condition, Refusal> {
    match book.conditions.get(number as usize) {
        Some(condition) => Ok(condition),
        None => refused(7, 0),
    }
}

pub fn check(bytes: &[u8]) -> Result<Counts, Refusal> {
    let book = book::read(bytes)?;
    Ok(Counts { policies: book.policies.len() as u64, conditions: book.conditions.len() as u64 })
}

pub fn decide(bytes: &[u8], condition: u32, set: u16) -> Result<Decision, Refusal> {
    let book = book::read(bytes)?;
    Ok(decision(score::meets(&book, condition_of(&book, condition)?, set)))
}

pub fn score(bytes: &[u8], condition: u32, set: u16) -> Result<Score, Refusal> {
    let book = book::read(bytes)?;
    Ok(score::shown(&book, condition_of(&book, condition)?, set))
}

pub fn compile(bytes: &[u8], condition: u32, lent: &mut [u32]) -> Result<u64, Refusal> {
    let words = listing_of(bytes, condition)?;
    if words.len() > lent.len() {
        return refused(8, 0);
    }
    lent[..words.len()].copy_from_slice(&words);
    Ok(words.len() as u64 / 4)
}

/// The listing of a condition, as long as it is.
pub fn listing_of(bytes: &[u8], condition: u32) -> Result<Vec<u32>, Refusal> {
    let book = book::read(bytes)?;
    Ok(translation::listing(&book, condition_of(&book, condition)?))
}

pub fn read(words: &[u32], set: u16) -> Result<Decision, Refusal> {
    Ok(decision(listing::take(words)?.tree.says(set)))
}

/// Unequal slices, a declined listing, or single readings one after the other.
pub fn traverse(words: &[u32], sets: &[u16], answers: &mut [u8]) -> Result<u64, Refusal> {
    if sets.len() != answers.len() {
        return refused(11, 0);
    }
    let listing = listing::take(words)?;
    for (place, &set) in sets.iter().enumerate() {
        answers[place] = if listing.tree.says(set) { 1 } else { 0 };
    }
    Ok(sets.len() as u64)
}

/// Set by set in rising order, until there is a yes and a no.
pub fn choice(words: &[u32]) -> Result<Chosen, Refusal> {
    let listing = listing::take(words)?;
    let (mut yes, mut no, mut judged) = (None, None, 0);
    for set in (0..=u16::MAX).filter(|&set| listing.permits(set)) {
        judged += 1;
        let lowest = if listing.tree.says(set) { &mut yes } else { &mut no };
        lowest.get_or_insert(set);
        if yes.is_some() && no.is_some() {
            break;
        }
    }
    let choice = match (yes, no) {
        (Some(yes), Some(no)) => Choice::Both { yes, no },
        (Some(_), None) => Choice::Always,
        (None, _) => Choice::Never,
    };
    Ok(Chosen { choice, judged })
}

pub fn compare(one: &[u32], two: &[u32]) -> Result<Comparison, Declined> {
    let first = listing::take(one).map_err(|refusal| Declined { listing: Listing::First, refusal })?;
    let second = listing::take(two).map_err(|refusal| Declined { listing: Listing::Second, refusal })?;
    let permitted = |set| first.permits(set) && second.permits(set);
    Ok(match (0..=u16::MAX).find(|&set| permitted(set) && first.tree.says(set) != second.tree.says(set)) {
        None => Comparison::Alike,
        Some(set) => {
            let yes = if first.tree.says(set) { Listing::First } else { Listing::Second };
            Comparison::Differ { set, yes }
        }
    })
}
