//! Conditions compiled into lent words, and the rod on what was compiled.

use crate::inputs::random::{Random, rounds};
use crate::inputs::{Inside, books, damage};
use crate::tally::Tally;
use crate::{agreed, reference};
use cerahupo::{Comparison, Decision};

/// A length to lend for a listing of so many words: exact, a word or a record too few or too many, or any.
fn lent_length(words: usize, random: &mut Random) -> usize {
    match random.below(6) {
        0 => words,
        1 => words.saturating_sub(1 + random.below(4)),
        2 => words + 1 + random.below(4),
        3 => words + random.below(100),
        4 => random.below(words + 1),
        _ => words + 4 * random.below(3),
    }
}

fn lent(words: usize, random: &mut Random) -> Inside<u32> {
    let slice: Vec<u32> = (0..words).map(|_| random.next() as u32).collect();
    Inside::new(&slice, random, |random| random.next() as u32)
}

#[test]
fn compile() {
    let mut random = Random::of("compile");
    let mut tally = Tally::new("compile");
    for _ in 0..rounds(10_000) {
        let book = if random.one_in(4) { damage::damaged(&mut random) } else { books::valid(&mut random) };
        let conditions = reference::check(&book).map_or(1, |counts| counts.conditions);
        let condition = books::condition_number(conditions, &mut random);
        let words = reference::listing_of(&book, condition).map_or(40, |words| words.len());
        let mut lent = lent(lent_length(words, &mut random), &mut random);
        tally.count_answer(agreed::compile(&book, condition, &mut lent), |records| match records {
            1 => "1 record",
            2..10 => "2 to 9 records",
            10..100 => "10 to 99 records",
            100..1_000 => "100 to 999 records",
            _ => "more records",
        });
    }
    tally.finish(&[
        "1 record",
        "10 to 99 records",
        "100 to 999 records",
        "refusal 2",
        "refusal 5",
        "refusal 7",
        "refusal 8",
    ]);
}

/// On what was compiled the rod never refuses, and says what the scores say.
fn compare_rod(book: &[u8], sets: &[u16], words: &mut [u32], tally: &mut Tally) {
    for condition in 0..cerahupo::check(book).map_or(0, |counts| counts.conditions as u32) {
        let Ok(records) = cerahupo::compile(book, condition, words) else { continue };
        tally.count("listings");
        for &set in sets {
            let read = cerahupo::read(&words[..4 * records as usize], set);
            let text = String::from_utf8_lossy(book);
            assert_eq!(read, cerahupo::decide(book, condition, set), "condition {condition} set {set} of {text:?}");
            tally.count(if read == Ok(Decision::Yes) { "yes" } else { "no" });
        }
    }
}

#[test]
fn rod_and_scores() {
    let mut random = Random::of("rod and scores");
    let mut tally = Tally::new("rod and scores");
    let mut words = vec![0; 100_000];
    for _ in 0..rounds(4_000) {
        let sets: Vec<u16> = (0..20).map(|_| random.set()).collect();
        compare_rod(&books::valid(&mut random), &sets, &mut words, &mut tally);
    }
    tally.finish(&["listings", "yes", "no"]);
}

/// A book that can be decided 65,536 times for each of its conditions.
fn short_book(random: &mut Random) -> Vec<u8> {
    loop {
        let book = books::valid(random);
        if book.len() < 150 && book.contains(&b'c') {
            return book;
        }
    }
}

#[test]
fn rod_and_scores_on_all_sets() {
    let mut random = Random::of("rod and scores on all sets");
    let mut tally = Tally::new("rod and scores on all sets");
    let sets: Vec<u16> = (0..=u16::MAX).collect();
    let mut words = vec![0; 2_000];
    for _ in 0..rounds(5) {
        compare_rod(&short_book(&mut random), &sets, &mut words, &mut tally);
    }
    tally.finish(&["listings"]);
}

/// A sum of 16 equal scores has 12,870 lines of eight rules; 16 mentions of it make the longest listing tried here.
#[test]
fn many_records() {
    let rules: String = (0..16).map(|signal| format!("r {signal} 1\n")).collect();
    let sixteen = (1..16).fold("p0".to_string(), |set, _| format!("min({set},p0)"));
    let book = format!("p sum\n{rules}c 0 < p0\nc 7 < p0\nc 7 < {sixteen}\n");
    for (condition, records) in [(0, 17), (1, 12_871), (2, 205_951)] {
        for words in [4 * records, 4 * records - 1, 4 * records + 3] {
            let mut lent = lent(words, &mut Random::of("many records"));
            let answer = agreed::compile(book.as_bytes(), condition, &mut lent);
            assert_eq!(answer.ok(), (words >= 4 * records).then_some(records as u64));
        }
    }
}

/// A policy whose empty set has the property, and so each rule alone: a sum under a threshold below 0, or a mul under one of 100
/// or more. It is mentioned once, under either sense.
fn undemanding_book(random: &mut Random, tally: &mut Tally) -> (String, Vec<u32>) {
    let sum = random.one_in(2);
    let (operator, most_rules, idle) = if sum { ("sum", 16, 0) } else { ("mul", 8, 100) };
    let edge = random.one_in(2);
    let threshold = match (sum, edge) {
        (true, true) => -1,
        (true, false) => random.within(-200_000..=-1),
        (false, true) => 100,
        (false, false) => random.within(100..=200_000),
    };
    let mut signals: Vec<u32> = (0..16).collect();
    random.shuffle(&mut signals);
    signals.truncate(random.below(most_rules + 1));
    let scores: Vec<i64> = signals.iter().map(|_| *random.pick(&[0, 1, 50, 99, 100])).collect();
    let rules: String = signals.iter().zip(&scores).map(|(signal, score)| format!("r {signal} {score}\n")).collect();
    let sense = *random.pick(&["<", ">="]);
    tally.count(operator);
    tally.count(sense);
    tally.count(if signals.is_empty() { "no rules" } else { "rules" });
    tally.count(if scores.contains(&idle) { "a rule that changes nothing" } else { "none such" });
    let default = random.within(-300..=300);
    (format!("p {operator} {default}\n{rules}c {threshold} {sense} p0\n"), signals)
}

/// Change request 4: the lines are the single rules, and each demands its signal.
#[test]
fn each_rule_a_line() {
    let mut random = Random::of("each rule a line");
    let mut tally = Tally::new("each rule a line");
    for _ in 0..rounds(4_000) {
        let (book, signals) = undemanding_book(&mut random, &mut tally);
        let mut lent = lent(4 * 17, &mut random);
        let records = agreed::compile(book.as_bytes(), 0, &mut lent).expect("there is room");
        let words = &lent.slice()[..4 * records as usize];
        let mut lines: Vec<u32> = words.chunks(4).skip(1).map(|line| line[1]).collect();
        let mut rules: Vec<u32> = signals.iter().map(|signal| 1 << signal).collect();
        lines.sort();
        rules.sort();
        assert_eq!(lines, rules, "lines of {book:?}");
    }
    tally.finish(&["sum", "mul", "<", ">=", "no rules", "rules", "a rule that changes nothing"]);
}

/// Before change request 4 such a listing had one line of mask 0. It is sound, and says the same of every set.
#[test]
fn older_lines_answer_alike() {
    let mut random = Random::of("older lines");
    let mut tally = Tally::new("older lines");
    for _ in 0..rounds(40) {
        let (book, _) = undemanding_book(&mut random, &mut tally);
        let mut lent = lent(4 * 17, &mut random);
        let records = agreed::compile(book.as_bytes(), 0, &mut lent).expect("there is room");
        let newer = &lent.slice()[..4 * records as usize];
        let older = [newer[0], newer[1], 2, 0, 4, 0, 0, 0];
        assert_eq!(agreed::compare(&older, newer), Ok(Comparison::Alike), "listings of {book:?}");
    }
    tally.finish(&["sum", "mul", "<", ">=", "rules"]);
}
