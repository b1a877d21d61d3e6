//! Books checked, decided and scored.

use crate::agreed;
use crate::inputs::random::{Random, rounds};
use crate::inputs::{Inside, books, damage};
use crate::reference;
use crate::tally::Tally;
use cerahupo::{Counts, Decision, Refusal, Score};

/// A book inside other bytes that would change it if they were read.
fn book(random: &mut Random) -> Inside<u8> {
    let bytes = match random.below(8) {
        0..3 => books::valid(random),
        3..7 => damage::damaged(random),
        _ => damage::soup(random),
    };
    Inside::new(&bytes, random, |random| *random.pick(b"\n\n pr01"))
}

/// Counts a refused exclusion, and apart one whose numbers are refused too; and a rule that an exclusion keeps from its
/// policy.
fn count_exclusion(refusal: Refusal, book: &[u8], tally: &mut Tally) {
    let lines: Vec<&[u8]> = book.split_inclusive(|&byte| byte == b'\n').take(refusal.value as usize).collect();
    let number = refusal.number;
    let has_policy = lines.iter().any(|line| line.starts_with(b"p "));
    match lines[..] {
        [.., line] if line.starts_with(b"x ") => {
            tally.count(&format!("refusal {number} at x"));
            if number < 5 && reference::check(line).is_err_and(|alone| alone.number == 5) {
                tally.count(&format!("refusal {number} at x before 5"));
            }
        }
        [.., above, line] if has_policy && above.starts_with(b"x ") && line.starts_with(b"r ") => {
            tally.count(&format!("refusal {number} at r after x"));
        }
        _ => {}
    }
}

/// Counts an accepted book that begins with `o`; and a refused line that does, a second one apart.
fn count_old_zero(answer: Result<Counts, Refusal>, book: &[u8], tally: &mut Tally) {
    let begins_with_o = book.starts_with(b"o\n");
    let Err(Refusal { number, value }) = answer else {
        return tally.count(if begins_with_o { "accepted with o" } else { "accepted without o" });
    };
    let refused = book.split(|&byte| byte == b'\n').nth((value as usize).wrapping_sub(1)).unwrap_or_default();
    if refused.starts_with(b"o") {
        let again = if begins_with_o && number == 3 { "a second " } else { "" };
        tally.count(&format!("refusal {number} at {again}o"));
    }
}

#[test]
fn check() {
    let mut random = Random::of("check");
    let mut tally = Tally::new("check");
    for _ in 0..rounds(60_000) {
        let book = book(&mut random);
        let answer = agreed::check(book.slice());
        tally.count_answer(answer, |_| "accepted");
        count_old_zero(answer, book.slice(), &mut tally);
        if let Err(refusal) = answer {
            count_exclusion(refusal, book.slice(), &mut tally);
        }
    }
    tally.finish(&[
        "accepted",
        "refusal 1",
        "refusal 2",
        "refusal 3",
        "refusal 4",
        "refusal 5",
        "refusal 6",
        "refusal 2 at x",
        "refusal 3 at x",
        "refusal 3 at r after x",
        "refusal 4 at x",
        "refusal 4 at x before 5",
        "refusal 5 at x",
        "refusal 6 at x",
        "accepted with o",
        "accepted without o",
        "refusal 2 at o",
        "refusal 3 at o",
        "refusal 3 at a second o",
    ]);
}

#[test]
fn check_of_plain_corners() {
    let ending = |bytes: usize| [b"p sum\n".as_slice(), &vec![b'x'; bytes - 7], b"\n"].concat();
    for book in [b"".as_slice(), b"\n", b"p", b"c 0 < p0\n", b"p sum\np sum", &[b'\n'; 8_192], &[b'\n'; 8_193]] {
        _ = agreed::check(book);
    }
    for bytes in [134, 135, 136, 137, 8_192, 8_193] {
        _ = agreed::check(&ending(bytes));
        _ = agreed::check(&ending(bytes)[..bytes - 1]);
    }
}

/// Counts a decision that would be another one with an `o` in front, or without the one that is there.
fn count_default(decision: Decision, book: &[u8], condition: u32, set: u16, tally: &mut Tally) {
    let (other, kind) = match book.strip_prefix(b"o\n") {
        Some(rest) => (rest.to_vec(), "another answer without o"),
        None => ([b"o\n", book].concat(), "another answer with o"),
    };
    if reference::decide(&other, condition, set).is_ok_and(|answer| answer != decision) {
        tally.count(kind);
    }
}

/// What a book's decision and its score may be refused by.
const REFUSALS: [&str; 7] = ["refusal 1", "refusal 2", "refusal 3", "refusal 4", "refusal 5", "refusal 6", "refusal 7"];

/// A condition of the book, or a number that it has none of, and a set.
fn question(book: &[u8], random: &mut Random) -> (u32, u16) {
    let conditions = reference::check(book).map_or(1, |counts| counts.conditions);
    (books::condition_number(conditions, random), random.set())
}

#[test]
fn decide() {
    let mut random = Random::of("decide");
    let mut tally = Tally::new("decide");
    for _ in 0..rounds(40_000) {
        let book = book(&mut random);
        let (condition, set) = question(book.slice(), &mut random);
        let answer = agreed::decide(book.slice(), condition, set);
        tally.count_answer(answer, |decision| match decision {
            Decision::Yes => "yes",
            Decision::No => "no",
        });
        if let Ok(decision) = answer {
            count_default(decision, book.slice(), condition, set, &mut tally);
        }
    }
    tally.finish(&[&REFUSALS[..], &["yes", "no", "another answer with o", "another answer without o"]].concat());
}

/// The threshold and the sign of a condition of an accepted book.
fn limit(book: &[u8], condition: u32) -> (i64, String) {
    let text = std::str::from_utf8(book).expect("an accepted book is text");
    let line = text.lines().filter(|line| line.starts_with('c')).nth(condition as usize).expect("it has the condition");
    let [_, threshold, sign, _] = line.split(' ').collect::<Vec<_>>()[..] else { panic!("{line} is no condition") };
    (threshold.parse().expect("a threshold is a number"), sign.to_string())
}

/// The decision that the shown pair tells: T is less than it where the hundredths exceed T, or equal it with a remainder.
fn told_by(score: Score, book: &[u8], condition: u32) -> Decision {
    let (threshold, sign) = limit(book, condition);
    let less = score.hundredths > threshold || (score.hundredths == threshold && score.remainder > 0);
    if less == (sign == "<") { Decision::Yes } else { Decision::No }
}

/// Each score, and beside it the decision, which it must tell.
#[test]
fn score() {
    let mut random = Random::of("score");
    let mut tally = Tally::new("score");
    for _ in 0..rounds(40_000) {
        let book = book(&mut random);
        let (condition, set) = question(book.slice(), &mut random);
        let answer = agreed::score(book.slice(), condition, set);
        let decision = cerahupo::decide(book.slice(), condition, set);
        assert_eq!(answer.map(|score| told_by(score, book.slice(), condition)), decision);
        tally.count_answer(answer, |score| match (score.hundredths, score.remainder) {
            (..0, _) => "below zero",
            (_, 0) => "whole",
            _ => "with a remainder",
        });
        if answer.is_ok_and(|score| score.hundredths == limit(book.slice(), condition).0) {
            tally.count(if answer.is_ok_and(|score| score.remainder > 0) { "just above T" } else { "at T" });
        }
    }
    tally.finish(&[&REFUSALS[..], &["below zero", "whole", "with a remainder", "at T", "just above T"]].concat());
}
