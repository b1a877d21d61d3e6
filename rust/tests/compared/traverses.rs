//! Whole traverses: one listing, many sets.

use crate::agreed;
use crate::inputs::random::{Random, rounds};
use crate::inputs::{Inside, books, listings};
use crate::tally::Tally;
use cerahupo::{Decision, Refusal};

/// So many lent answers, none of them 0 or 1, and more around them.
fn lent(count: usize, random: &mut Random) -> Inside<u8> {
    let slice: Vec<u8> = (0..count).map(|_| 2 + random.below(254) as u8).collect();
    Inside::new(&slice, random, |random| 2 + random.below(254) as u8)
}

/// So many sets, of which some come again.
fn asked(count: usize, random: &mut Random) -> Vec<u16> {
    let mut sets: Vec<u16> = Vec::with_capacity(count);
    for _ in 0..count {
        let set = if sets.is_empty() || random.one_in(2) { random.set() } else { *random.pick(&sets) };
        sets.push(set);
    }
    sets
}

/// A number of answers for so many sets: the same, one fewer or more, none, or any.
fn lent_length(sets: usize, random: &mut Random) -> usize {
    match random.below(12) {
        0 => sets.saturating_sub(1),
        1 => sets + 1,
        2 => 0,
        3 => random.below(20),
        _ => sets,
    }
}

#[test]
fn traverse() {
    let mut random = Random::of("traverse");
    let mut tally = Tally::new("traverse");
    for _ in 0..rounds(60_000) {
        let most_lines = *random.pick(&[0, 3, 20]);
        let words = match random.below(5) {
            0 => listings::soup(&mut random),
            1 => listings::damaged(most_lines, &mut random),
            _ => listings::sound(most_lines, &mut random),
        };
        let inside = Inside::new(&words, &mut random, |random| *random.pick(&[0, 2, 4, 16, 19]));
        let sets = asked(random.mostly_few(20), &mut random);
        let around = Inside::new(&sets, &mut random, Random::set);
        let mut lent = lent(lent_length(sets.len(), &mut random), &mut random);
        let answer = agreed::traverse(inside.slice(), around.slice(), &mut lent);
        tally.count_answer(answer, |answers| if answers == 0 { "no sets" } else { "answered" });
        count_refusal(answer, inside.slice(), sets.is_empty(), &mut tally);
        if answer.is_err_and(|refusal| refusal.number == 11) {
            tally.count(if lent.slice().len() > sets.len() {
                "more answers than sets"
            } else {
                "fewer answers than sets"
            });
        }
    }
    tally.finish(&[
        "no sets",
        "answered",
        "refusal 9",
        "refusal 10",
        "refusal 11",
        "refusal 9 with no sets",
        "refusal 10 with no sets",
        "refusal 11 with no sets",
        "refusal 11 with an unsound listing",
        "more answers than sets",
        "fewer answers than sets",
    ]);
}

/// Counts apart what is refused though there is nothing to answer, and unequal slices whose listing is at fault too.
fn count_refusal(answer: Result<u64, Refusal>, words: &[u32], no_sets: bool, tally: &mut Tally) {
    let Err(Refusal { number, .. }) = answer else { return };
    if no_sets {
        tally.count(&format!("refusal {number} with no sets"));
    }
    if number == 11 && cerahupo::read(words, 0).is_err() {
        tally.count("refusal 11 with an unsound listing");
    }
}

/// Every signal set once, in rising and in falling order.
#[test]
fn traverse_of_all_sets() {
    let mut random = Random::of("traverse of all sets");
    let rising: Vec<u16> = (0..=u16::MAX).collect();
    let falling: Vec<u16> = rising.iter().rev().copied().collect();
    for _ in 0..rounds(20) {
        let words = listings::sound(10, &mut random);
        for sets in [&rising, &falling] {
            let mut lent = lent(sets.len(), &mut random);
            assert_eq!(agreed::traverse(&words, sets, &mut lent), Ok(65_536));
        }
    }
}

/// A sound listing of at least a thousand records.
fn long_listing(random: &mut Random) -> Vec<u32> {
    loop {
        let words = listings::sound(2_000, random);
        if words.len() >= 4_000 {
            return words;
        }
    }
}

/// More sets than there are different ones; and many sets by many records.
#[test]
fn long_traverses() {
    let mut random = Random::of("long traverses");
    for (words, count) in [(listings::sound(3, &mut random), 200_000), (long_listing(&mut random), 1_000)] {
        let sets: Vec<u16> = (0..count).map(|_| random.set()).collect();
        let mut lent = lent(count, &mut random);
        assert_eq!(agreed::traverse(&words, &sets, &mut lent), Ok(count as u64));
    }
}

/// A traverse by a compiled listing writes 1 exactly where the scores say yes.
#[test]
fn traverse_and_scores() {
    let mut random = Random::of("traverse and scores");
    let mut tally = Tally::new("traverse and scores");
    let mut words = vec![0; 100_000];
    for _ in 0..rounds(4_000) {
        let book = books::valid(&mut random);
        for condition in 0..cerahupo::check(&book).map_or(0, |counts| counts.conditions as u32) {
            let Ok(records) = cerahupo::compile(&book, condition, &mut words) else { continue };
            let sets = asked(20, &mut random);
            let mut answers = [9; 20];
            assert_eq!(cerahupo::traverse(&words[..4 * records as usize], &sets, &mut answers), Ok(20));
            for (&set, answer) in sets.iter().zip(answers) {
                let yes = cerahupo::decide(&book, condition, set) == Ok(Decision::Yes);
                assert_eq!(answer, u8::from(yes), "set {set} of {:?}", String::from_utf8_lossy(&book));
                tally.count(if yes { "1" } else { "0" });
            }
        }
    }
    tally.finish(&["1", "0"]);
}
