//! Each call, its number, the optimised Rust of the bench and the reference on one input: all must say the same.

use crate::inputs::Inside;
use crate::{optimised, reference};
use cerahupo::{Choice, Chosen, Comparison, Counts, Decision, Declined, Listing, Refusal, Score, raw};

pub fn check(book: &[u8]) -> Result<Counts, Refusal> {
    let expected = reference::check(book);
    let book_text = String::from_utf8_lossy(book);
    assert_eq!(cerahupo::check(book), expected, "check of {book_text:?}");
    assert_eq!(raw::check(book).0, number(expected, |counts| counts.policies + 2048 * counts.conditions));
    assert_eq!(optimised::check(book), expected, "optimised check of {book_text:?}");
    expected
}

pub fn decide(book: &[u8], condition: u32, set: u16) -> Result<Decision, Refusal> {
    let expected = reference::decide(book, condition, set);
    let input = format!("condition {condition} set {set} of {:?}", String::from_utf8_lossy(book));
    assert_eq!(cerahupo::decide(book, condition, set), expected, "decide {input}");
    assert_eq!(raw::decide(book, condition, set).0, number(expected, yes_number));
    assert_eq!(optimised::decide(book, condition, set), expected, "optimised decide {input}");
    expected
}

/// The number beside the call's is lent with something in it, which a refusal leaves.
pub fn score(book: &[u8], condition: u32, set: u16) -> Result<Score, Refusal> {
    const LENT: u64 = u64::MAX;
    let expected = reference::score(book, condition, set);
    let input = format!("condition {condition} set {set} of {:?}", String::from_utf8_lossy(book));
    assert_eq!(cerahupo::score(book, condition, set), expected, "score {input}");
    let mut remainder = LENT;
    let told = raw::score(book, condition, set, &mut remainder).0;
    assert_eq!(told, number(expected, |score| (score.hundredths + 10_000) as u64));
    assert_eq!(remainder, expected.map_or(LENT, |score| score.remainder), "remainder of score {input}");
    assert_eq!(optimised::score(book, condition, set), expected, "optimised score {input}");
    expected
}

/// Compiles into the lent part; every word of the whole is compared.
pub fn compile(book: &[u8], condition: u32, lent: &mut Inside<u32>) -> Result<u64, Refusal> {
    let (mut by_call, mut by_number, mut by_rust) = (lent.clone(), lent.clone(), lent.clone());
    let expected = reference::compile(book, condition, lent.lent());
    let input = format!("condition {condition} into {} of {:?}", lent.slice().len(), String::from_utf8_lossy(book));
    assert_eq!(cerahupo::compile(book, condition, by_call.lent()), expected, "compile {input}");
    assert!(by_call.whole == lent.whole, "words of compile {input}");
    assert_eq!(raw::compile(book, condition, by_number.lent()).0, number(expected, |records| records));
    assert!(by_number.whole == lent.whole, "words of the raw compile {input}");
    assert_eq!(optimised::compile(book, condition, by_rust.lent()), expected, "optimised compile {input}");
    assert!(by_rust.whole == lent.whole, "words of the optimised compile {input}");
    expected
}

pub fn read(words: &[u32], set: u16) -> Result<Decision, Refusal> {
    let expected = reference::read(words, set);
    assert_eq!(cerahupo::read(words, set), expected, "read set {set} of {words:?}");
    assert_eq!(raw::read(words, set).0, number(expected, yes_number));
    assert_eq!(optimised::read(words, set), expected, "optimised read set {set} of {words:?}");
    expected
}

/// Answers into the lent part; every byte of the whole is compared, and every answer with that of a single call.
pub fn traverse(words: &[u32], sets: &[u16], lent: &mut Inside<u8>) -> Result<u64, Refusal> {
    let (mut by_call, mut by_number, mut by_rust) = (lent.clone(), lent.clone(), lent.clone());
    let expected = reference::traverse(words, sets, lent.lent());
    let input = format!("traverse of {sets:?} with {} answers by {words:?}", lent.slice().len());
    assert_eq!(cerahupo::traverse(words, sets, by_call.lent()), expected, "{input}");
    assert!(by_call.whole == lent.whole, "answers of the {input}");
    assert_eq!(raw::traverse(words, sets, by_number.lent()).0, number(expected, |answers| answers));
    assert!(by_number.whole == lent.whole, "answers of the raw {input}");
    assert_eq!(optimised::traverse(words, sets, by_rust.lent()), expected, "optimised {input}");
    assert!(by_rust.whole == lent.whole, "answers of the optimised {input}");
    if expected.is_ok() {
        let single: Vec<u64> = sets.iter().map(|&set| cerahupo::read(words, set).map_or(2, yes_number)).collect();
        assert!(lent.slice().iter().copied().map(u64::from).eq(single), "single calls of the {input}");
    }
    expected
}

pub fn choice(words: &[u32]) -> Result<Chosen, Refusal> {
    let expected = reference::choice(words);
    assert_eq!(cerahupo::choice(words), expected, "choice of {words:?}");
    assert_eq!(raw::choice(words).0, number(expected, chosen_number));
    assert_eq!(optimised::choice(words), expected, "optimised choice of {words:?}");
    expected
}

pub fn compare(one: &[u32], two: &[u32]) -> Result<Comparison, Declined> {
    let expected = reference::compare(one, two);
    assert_eq!(cerahupo::compare(one, two), expected, "compare {one:?} with {two:?}");
    let of_second = matches!(expected, Err(Declined { listing: Listing::Second, .. }));
    let plain = number(expected.map_err(|declined| declined.refusal), comparison_number);
    assert_eq!(raw::compare(one, two).0, plain + 16 * u64::from(of_second));
    assert_eq!(optimised::compare(one, two), expected, "optimised compare {one:?} with {two:?}");
    expected
}

/// The number that a call returns for an answer.
fn number<T>(answer: Result<T, Refusal>, value: impl Fn(T) -> u64) -> u64 {
    match answer {
        Ok(result) => 32 * value(result),
        Err(refusal) => u64::from(refusal.number) + 32 * refusal.value,
    }
}

fn yes_number(decision: Decision) -> u64 {
    match decision {
        Decision::Yes => 1,
        Decision::No => 0,
    }
}

fn chosen_number(chosen: Chosen) -> u64 {
    let choice = match chosen.choice {
        Choice::Always => 0,
        Choice::Never => 1,
        Choice::Both { yes, no } => 2 + 2048 * u64::from(yes) + 134_217_728 * u64::from(no),
    };
    choice + 8_796_093_022_208 * (u64::from(chosen.judged) - 1)
}

fn comparison_number(comparison: Comparison) -> u64 {
    match comparison {
        Comparison::Alike => 0,
        Comparison::Differ { set, yes: Listing::First } => 3 + 2048 * u64::from(set),
        Comparison::Differ { set, yes: Listing::Second } => 1 + 2048 * u64::from(set),
    }
}
