//! The choice check and the comparison.

use crate::agreed;
use crate::inputs::random::{Random, rounds};
use crate::inputs::{books, listings};
use crate::reference::listing_of;
use crate::tally::Tally;
use cerahupo::{Choice, Chosen, Comparison, Declined, Listing, Refusal};

/// The listing of a random book's condition, if that is short enough to walk all sets often.
fn compiled(random: &mut Random) -> Vec<u32> {
    loop {
        let book = books::valid(random);
        match listing_of(&book, 0) {
            Ok(words) if words.len() <= 400 => return words,
            _ => continue,
        }
    }
}

fn listing(random: &mut Random) -> Vec<u32> {
    match random.below(4) {
        0 => compiled(random),
        1 => listings::sound(2, random),
        2 => listings::sound(12, random),
        _ => listings::damaged(12, random),
    }
}

#[test]
fn choice() {
    let mut random = Random::of("choice");
    let mut tally = Tally::new("choice");
    for _ in 0..rounds(1_200) {
        tally.count_answer(agreed::choice(&listing(&mut random)), |chosen| {
            match (chosen.choice, passed_over(chosen)) {
                (Choice::Always, 0) => "always",
                (Choice::Always, _) => "always, sets passed over",
                (Choice::Never, 0) => "never",
                (Choice::Never, _) => "never, sets passed over",
                (Choice::Both { yes: 0, .. }, 0) => "both, no later",
                (Choice::Both { yes: 0, .. }, _) => "both, no later, sets passed over",
                (Choice::Both { .. }, 0) => "both, yes later",
                (Choice::Both { .. }, _) => "both, yes later, sets passed over",
            }
        });
    }
    tally.finish(&[
        "always",
        "always, sets passed over",
        "never",
        "never, sets passed over",
        "both, no later",
        "both, no later, sets passed over",
        "both, yes later",
        "both, yes later, sets passed over",
        "refusal 9",
        "refusal 10",
    ]);
}

/// How many sets the pass came to and did not judge.
fn passed_over(chosen: Chosen) -> u32 {
    let last = match chosen.choice {
        Choice::Both { yes, no } => yes.max(no),
        _ => u16::MAX,
    };
    u32::from(last) + 1 - chosen.judged
}

fn two_listings(random: &mut Random) -> (Vec<u32>, Vec<u32>) {
    let nodes = listings::nodes(10, random);
    let same = listings::alike(&nodes, random);
    let near = listings::nearly_alike(same.clone(), random);
    match random.below(8) {
        0..2 => (listings::after_pairs(&nodes, random), listings::after_pairs(&same, random)),
        2..4 => (listings::after_pairs(&nodes, random), listings::after_pairs(&near, random)),
        4..6 => (listings::after_pairs(&near, random), listings::after_pairs(&nodes, random)),
        6 => (compiled(random), compiled(random)),
        _ => (listing(random), listings::damaged(12, random)),
    }
}

#[test]
fn compare() {
    let mut random = Random::of("compare");
    let mut tally = Tally::new("compare");
    for _ in 0..rounds(1_000) {
        let (one, two) = two_listings(&mut random);
        tally.count(match agreed::compare(&one, &two) {
            Ok(Comparison::Alike) => "alike",
            Ok(Comparison::Differ { yes: Listing::First, .. }) => "first says yes",
            Ok(Comparison::Differ { yes: Listing::Second, .. }) => "second says yes",
            Err(Declined { listing: Listing::First, .. }) => "first declined",
            Err(Declined { listing: Listing::Second, .. }) => "second declined",
        });
    }
    tally.finish(&["alike", "first says yes", "second says yes", "first declined", "second declined"]);
}

/// Both answers, where no set was passed over.
fn both(yes: u16, no: u16) -> Result<Chosen, Refusal> {
    Ok(Chosen { choice: Choice::Both { yes, no }, judged: u32::from(yes.max(no)) + 1 })
}

/// Listings that give one answer up to the last set.
#[test]
fn answers_of_the_last_set() {
    let only_last = |kind| [kind, 0xffff, 2, 0, 4, 0xffff, 0, 0];
    let never = [16, 0xffff, 0, 0];
    assert_eq!(agreed::choice(&only_last(16)), both(0xffff, 0));
    assert_eq!(agreed::choice(&only_last(19)), both(0, 0xffff));
    let differ = |yes| Ok(Comparison::Differ { set: 0xffff, yes });
    assert_eq!(agreed::compare(&only_last(16), &never), differ(Listing::First));
    assert_eq!(agreed::compare(&never, &only_last(16)), differ(Listing::Second));
}

/// A listing of one policy over all signals, with these lines.
fn policy_of(kind: u32, lines: &[u32]) -> Vec<u32> {
    let mut words = vec![kind, 0xffff, 2, 0];
    for (place, &line) in lines.iter().enumerate() {
        let next = if place + 1 < lines.len() { place as u32 + 3 } else { 0 };
        words.extend([4, line, 0, next]);
    }
    words
}

/// The lowest set that holds a line is that line: for every set, so at each end of every block and group too.
#[test]
fn every_set_as_the_lowest() {
    let never = [16, 0xffff, 0, 0];
    for set in 1..=u16::MAX {
        let (holding, turned) = (policy_of(16, &[set.into()]), policy_of(19, &[set.into()]));
        assert_eq!(cerahupo::choice(&holding), both(set, 0));
        assert_eq!(cerahupo::choice(&turned), both(0, set));
        let differ = |yes| Ok(Comparison::Differ { set, yes });
        assert_eq!(cerahupo::compare(&holding, &never), differ(Listing::First));
        assert_eq!(cerahupo::compare(&never, &holding), differ(Listing::Second));
    }
}

/// Among up to nine lines, the one that decides stands at every place.
#[test]
fn a_line_at_every_place() {
    for set in [1, 0x20, 0x3f, 0x40, 0x41, 0x200, 0x3ff, 0x400, 0x401, 0x8000, 0x8421, 0xfffe] {
        for count in 1..=9 {
            for place in 0..count {
                let mut lines = vec![0xffff; count];
                lines[place] = set;
                assert_eq!(agreed::choice(&policy_of(16, &lines)), both(set as u16, 0));
            }
        }
    }
}

/// Sets that hold the pair in the higher set's block, in its group, before both, just below it, and only beyond it.
#[test]
fn judged_up_to_the_higher_set() {
    let cases = [
        (3, 62, 48),
        (192, 256, 193),
        (513, 1022, 768),
        (768, 1024, 769),
        (24_576, 32_768, 24_577),
        (49_152, 49_151, 49_152),
    ];
    for (pair, set, judged) in cases {
        let line = u32::from(set);
        let words = [5, pair, 0, 2, 16, line, 3, 0, 4, line, 0, 0];
        assert_eq!(agreed::choice(&words), Ok(Chosen { choice: Choice::Both { yes: set, no: 0 }, judged }));
    }
}

/// A pair bars every set that holds it, whichever two signals it has, so a line of both is never met, and of each four
/// sets three are judged.
#[test]
fn every_pair_bars() {
    for first in 0..16 {
        for second in 0..first {
            let pair = 1 << first | 1 << second;
            let mut words = vec![5, pair, 0, 2];
            words.extend(policy_of(16, &[pair]).chunks(4).flat_map(|record| {
                let moved = |number: u32| if number == 0 { 0 } else { number + 1 };
                [record[0], record[1], moved(record[2]), moved(record[3])]
            }));
            assert_eq!(agreed::choice(&words), Ok(Chosen { choice: Choice::Never, judged: 49_152 }));
        }
    }
}
