//! Listings judged and read.

use crate::agreed;
use crate::inputs::random::{Random, rounds};
use crate::inputs::{Inside, listings};
use crate::reference;
use crate::tally::Tally;
use cerahupo::{Decision, Refusal};

/// Counts a refused record of kind 5, and apart what alone is at fault with it.
fn count_pair(refusal: Refusal, words: &[u32], tally: &mut Tally) {
    let records = words.as_chunks::<4>().0;
    let number = refusal.value as usize;
    if number == 0 || records[number - 1][0] != 5 {
        return;
    }
    tally.count("refusal 10 at kind 5");
    tally.count(&format!("refusal 10 at kind 5, {}", fault_of_pair(records, number)));
}

/// A word is alone at fault where the record, with the right word instead, is not refused.
fn fault_of_pair(records: &[[u32; 4]], number: usize) -> &'static str {
    let mends = |field: usize, word: u32| {
        let mut mended = records.to_vec();
        mended[number - 1][field] = word;
        reference::read(mended.as_flattened(), 0) != reference::read(records.as_flattened(), 0)
    };
    match records[number - 1] {
        [_, mask, ..] if mask.count_ones() == 2 && mends(1, 3) => "a signal above 15",
        _ if mends(1, 3) => "its mask",
        _ if mends(2, 0) => "its lines",
        _ if mends(3, number as u32 + 1) => "its next",
        _ if records[..number - 1].iter().any(|record| record[0] != 5) => "after other kinds",
        _ if number == 17 => "the seventeenth",
        _ if number == records.len() => "the last record",
        _ => "several faults",
    }
}

#[test]
fn read() {
    let mut random = Random::of("read");
    let mut tally = Tally::new("read");
    for _ in 0..rounds(80_000) {
        let most_lines = *random.pick(&[0, 3, 20, 60]);
        let words = match random.below(4) {
            0 => listings::sound(most_lines, &mut random),
            1 => listings::soup(&mut random),
            _ => listings::damaged(most_lines, &mut random),
        };
        // What lies after the listing looks like more of it.
        let inside = Inside::new(&words, &mut random, |random| *random.pick(&[0, 2, 4, 16, 19]));
        let answer = agreed::read(inside.slice(), random.set());
        tally.count_answer(answer, |decision| match decision {
            Decision::Yes => "yes",
            Decision::No => "no",
        });
        if let Err(refusal) = answer {
            count_pair(refusal, inside.slice(), &mut tally);
        }
    }
    tally.finish(&[
        "yes",
        "no",
        "refusal 9",
        "refusal 10",
        "refusal 10 at kind 5",
        "refusal 10 at kind 5, its mask",
        "refusal 10 at kind 5, a signal above 15",
        "refusal 10 at kind 5, its lines",
        "refusal 10 at kind 5, its next",
        "refusal 10 at kind 5, after other kinds",
        "refusal 10 at kind 5, the seventeenth",
        "refusal 10 at kind 5, the last record",
    ]);
}

#[test]
fn read_of_long_listings() {
    let mut random = Random::of("long listings");
    let mut tally = Tally::new("read of long listings");
    for _ in 0..rounds(60) {
        let damaged = random.one_in(2);
        let words = if damaged { listings::damaged(20_000, &mut random) } else { listings::sound(20_000, &mut random) };
        let answer = agreed::read(&words, random.set());
        tally.count_answer(answer, |_| if words.len() / 4 > 65_536 { "over 65,536 records" } else { "fewer records" });
    }
    tally.finish(&["fewer records", "refusal 10"]);
}

#[test]
fn read_of_every_small_change() {
    every_small_change(&[16, 7, 2, 5, 4, 5, 0, 3, 4, 3, 0, 4, 4, 6, 0, 0, 19, 8, 6, 7, 4, 8, 0, 0, 2, 0, 0, 0]);
    every_small_change(&[5, 3, 0, 2, 5, 6, 0, 3, 16, 7, 4, 0, 4, 5, 0, 0]);
}

/// Every value of every word of a small listing around the right one, and every shorter slice.
fn every_small_change(words: &[u32]) {
    for length in 0..=words.len() {
        _ = agreed::read(&words[..length], 3);
    }
    for place in 0..words.len() {
        let mut changed = words.to_vec();
        for word in (0..=70).chain([255, 256, 65_535, 65_536, 65_537, 65_540, 1 << 31, u32::MAX]) {
            changed[place] = word;
            for set in [0, 3, 8, 11, 15, u16::MAX] {
                _ = agreed::read(&changed, set);
            }
        }
    }
}
