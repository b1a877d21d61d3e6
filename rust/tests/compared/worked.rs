//! Document 01's book in full and its corners a to j as the change requests amend them, by the calls and by the reference.

use crate::agreed;
use crate::inputs::Inside;
use crate::inputs::random::Random;
use cerahupo::{Choice, Chosen, Decision, Decision::No, Decision::Yes, Score};

const BOOK_A: &str = "p sum 0\nr 0 40\nr 1 30\nr 2 30\np min 100\nr 3 20\n";

fn with(policies: &str, condition: &str) -> Vec<u8> {
    format!("{policies}{condition}\n").into_bytes()
}

/// The listing of condition 0.
fn listing(book: &[u8]) -> Vec<u32> {
    let mut lent = Inside::new(&[77; 100], &mut Random::of("worked"), |_| 77);
    let records = agreed::compile(book, 0, &mut lent).expect("there is room");
    lent.slice()[..4 * records as usize].to_vec()
}

/// What the scores and the rod say.
fn say(book: &[u8], set: u16) -> Decision {
    let decision = agreed::decide(book, 0, set).expect("the book is accepted");
    assert_eq!(agreed::read(&listing(book), set), Ok(decision));
    decision
}

#[test]
fn one_book_in_full() {
    let book = with(BOOK_A, "c 50 < min(p0,p1)");
    let words = listing(&book);
    assert_eq!(words, [16, 7, 2, 5, 4, 5, 0, 3, 4, 3, 0, 4, 4, 6, 0, 0, 19, 8, 6, 7, 4, 8, 0, 0, 2, 0, 0, 0]);
    assert_eq!(agreed::choice(&words), Ok(Chosen { choice: Choice::Both { yes: 3, no: 0 }, judged: 4 }));
}

#[test]
fn corners_of_book_a() {
    let book = with(BOOK_A, "c 50 < min(p0,p1)");
    assert_eq!([say(&book, 3), say(&book, 0), say(&book, 11)], [Yes, No, No]);
    assert_eq!(say(&with(BOOK_A, "c 60 < p0"), 6), No);
    assert_eq!(say(&with(BOOK_A, "c 60 >= p0"), 6), Yes);
    assert_eq!(listing(&with(BOOK_A, "c -1 < p0")), [17, 7, 2, 0, 4, 1, 0, 3, 4, 4, 0, 4, 4, 2, 0, 0]);
}

#[test]
fn corners_of_products() {
    let policy = "p mul 100\nr 0 50\nr 1 50\n";
    assert_eq!(say(&with(policy, "c 25 >= p0"), 3), Yes);
    assert_eq!(listing(&with(policy, "c 25 >= p0")), [16, 3, 2, 0, 4, 3, 0, 0]);
    assert_eq!(say(&with(policy, "c 24 >= p0"), 3), No);
    assert_eq!(listing(&with(policy, "c 24 >= p0")), [16, 3, 0, 0]);
}

#[test]
fn corners_of_single_rules() {
    let book = with("p max -5\nr 0 -20\n", "c -10 < p0");
    assert_eq!([say(&book, 0), say(&book, 1)], [Yes, No]);
    assert_eq!(listing(&book), [17, 1, 0, 0]);
    assert_eq!(listing(&with("p min 0\n", "c 0 < p0")), [18, 0, 0, 0]);
}

/// Change request 1: the pair stands in front, the choice check passes over set 3, and rod and logger say yes on it.
#[test]
fn signals_apart() {
    let book = b"x 0 1\np sum 0\nr 0 40\nr 1 30\nr 2 30\nc 50 < p0\n";
    let words = listing(book);
    assert_eq!(words, [5, 3, 0, 2, 16, 7, 3, 0, 4, 5, 0, 4, 4, 3, 0, 5, 4, 6, 0, 0]);
    assert_eq!(agreed::choice(&words), Ok(Chosen { choice: Choice::Both { yes: 5, no: 0 }, judged: 5 }));
    assert_eq!(say(book, 3), Yes);
}

/// Change request 2: corner j with its default left out, and the same book after an `o`; and all four operators.
#[test]
fn missing_defaults() {
    let (bare, old) = (with("p min\n", "c 0 < p0"), with("o\np min\n", "c 0 < p0"));
    assert_eq!((listing(&bare), say(&bare, 0)), (vec![19, 0, 0, 0], Yes));
    assert_eq!((listing(&old), say(&old, 0)), (vec![18, 0, 0, 0], No));
    for (operator, default) in [("min", 100), ("max", 0), ("sum", 0), ("mul", 100)] {
        let says =
            |mark: &str, threshold: i32| say(format!("{mark}p {operator}\nr 0 50\nc {threshold} < p0\n").as_bytes(), 0);
        assert_eq!([says("", default - 1), says("", default)], [Yes, No], "{operator}");
        assert_eq!([says("o\n", -1), says("o\n", 0)], [Yes, No], "{operator} after an o");
    }
}

/// The score of condition 0: hundredths and remainder.
fn score(book: &[u8], set: u16) -> (i64, u64) {
    let Score { hundredths, remainder } = agreed::score(book, 0, set).expect("the book is accepted");
    (hundredths, remainder)
}

/// A product of rules 0 to 7 with these scores.
fn product(scores: [i64; 8]) -> String {
    let rules: String = (0..8).map(|signal| format!("r {signal} {}\n", scores[signal])).collect();
    format!("p mul\n{rules}")
}

/// Change request 3: the score of corner c, the finest products, a score below zero, the lowest and the highest.
#[test]
fn scores() {
    assert_eq!(score(&with(BOOK_A, "c 50 < min(p0,p1)"), 11), (20, 0));
    assert_eq!(score(&with(&product([1; 8]), "c 0 < p0"), 255), (0, 1));
    assert_eq!(score(&with(&product([99; 8]), "c 0 < p0"), 255), (92, 27_446_944_279_201));
    assert_eq!(score(&with("p max -5\nr 0 -20\n", "c -10 < p0"), 0), (-5, 0));
    assert_eq!(score(&with("p max -10000\n", "c 0 < p0"), 0), (-10_000, 0));
    let rules: String = (0..16).map(|signal| format!("r {signal} 10000\n")).collect();
    assert_eq!(score(&with(&format!("p sum\n{rules}"), "c 0 < p0"), u16::MAX), (160_000, 0));
}

/// Change request 6: corners a, b and c of book A in one call, then a set that holds three lines, one that holds none, and
/// corner a again.
#[test]
fn a_whole_traverse() {
    let words = listing(&with(BOOK_A, "c 50 < min(p0,p1)"));
    let mut answers = Inside::new(&[77; 6], &mut Random::of("whole traverse"), |_| 77);
    assert_eq!(agreed::traverse(&words, &[3, 0, 11, 7, 4, 3], &mut answers), Ok(6));
    assert_eq!(answers.slice(), [1, 0, 0, 1, 0, 1]);
}

/// Two products of 25 hundredths that differ in the remainder alone: min and max tell them apart, and so does T.
#[test]
fn scores_that_differ_in_the_remainder() {
    let policies = "p mul\nr 0 50\nr 1 50\np mul\nr 0 51\nr 1 50\n";
    let says = |condition: &str| (score(&with(policies, condition), 3), say(&with(policies, condition), 3));
    assert_eq!(says("c 25 < min(p0,p1)"), ((25, 0), No));
    assert_eq!(says("c 25 < max(p0,p1)"), ((25, 50_000_000_000_000), Yes));
    assert_eq!(says("c 25 >= min(p1,p0)"), ((25, 0), Yes));
    assert_eq!(says("c 25 >= max(p1,p0)"), ((25, 50_000_000_000_000), No));
}

#[test]
fn scores_printed() {
    let printed = |hundredths, remainder| Score { hundredths, remainder }.to_string();
    assert_eq!(printed(20, 0), "20 hundredths");
    assert_eq!(printed(1, 0), "1 hundredth");
    assert_eq!(printed(0, 1), "0.00000000000001 hundredths");
    assert_eq!(printed(92, 27_446_944_279_201), "92.27446944279201 hundredths");
    assert_eq!(printed(25, 50_000_000_000_000), "25.5 hundredths");
    assert_eq!(printed(-5, 0), "-5 hundredths");
    // No accepted book has such a score: rounded toward minus infinity, -6 and a fourth is -5.75.
    assert_eq!(printed(-6, 25_000_000_000_000), "-5.75 hundredths");
}

/// Change request 4: where the empty set has the property, each rule is a line, and without rules there is none.
#[test]
fn lines_that_demand_something() {
    let unit = "p mul 100\nr 0 50\nr 1 100\n";
    assert_eq!(listing(&with(unit, "c 100 >= p0")), [17, 3, 2, 0, 4, 1, 0, 3, 4, 2, 0, 0]);
    assert_eq!(listing(&with(unit, "c 100 < p0")), [18, 3, 2, 0, 4, 1, 0, 3, 4, 2, 0, 0]);
    assert_eq!(listing(&with(unit, "c 99 >= p0")), [16, 3, 2, 0, 4, 1, 0, 0]);
    assert_eq!(listing(&with("p sum 0\nr 0 0\n", "c -1 < p0")), [17, 1, 2, 0, 4, 1, 0, 0]);
    assert_eq!(listing(&with("p sum 0\nr 0 0\n", "c 0 < p0")), [16, 1, 0, 0]);
    for bare in [with("p sum 0\n", "c -1 < p0"), with("p mul 100\n", "c 100 >= p0")] {
        assert_eq!((listing(&bare), say(&bare, 0), say(&bare, 3)), (vec![17, 0, 0, 0], Yes, Yes));
    }
}
