//! Same lines, same policy: what the lines of two compiled listings of one policy each tell of their answers.

use crate::agreed;
use crate::inputs::Inside;
use crate::inputs::random::{Random, rounds};
use crate::tally::Tally;
use cerahupo::{Comparison, Listing};
use std::collections::BTreeSet;

/// A compiled listing of one policy, after its excluded pairs if it has any.
struct OnePolicy {
    words: Vec<u32>,
    kind: u32,
    mask: u32,
    lines: Vec<u32>,
}

fn compiled(book: &str, random: &mut Random) -> OnePolicy {
    let mut lent = Inside::new(&[77; 400], random, |_| 77);
    let records = agreed::compile(book.as_bytes(), 0, &mut lent).expect("the book is good, and its listing short");
    let words = lent.slice()[..4 * records as usize].to_vec();
    let mut records = words.chunks(4).skip_while(|record| record[0] == 5);
    let policy = records.next().expect("a listing has a policy");
    let (kind, mask) = (policy[0], policy[1]);
    let lines = records.map(|line| line[1]).collect();
    OnePolicy { words, kind, mask, lines }
}

impl OnePolicy {
    fn set_of_lines(&self) -> BTreeSet<u32> {
        let lines: BTreeSet<u32> = self.lines.iter().copied().collect();
        assert_eq!(lines.len(), self.lines.len(), "each line stands once in {:?}", self.words);
        lines
    }
}

const OPERATORS: [&str; 4] = ["min", "max", "sum", "mul"];

/// A book of one policy with a rule for each of these signals and one condition. Scores are few, so lines are often the same.
fn book(operator: &str, signals: &[u32], random: &mut Random) -> String {
    let scores: &[i64] = if operator == "mul" { &[30, 50, 70, 100] } else { &[10, 20, 30, 40] };
    let mut text = format!("p {operator} {}\n", random.pick(&[0, 100]));
    for signal in signals {
        text += &format!("r {signal} {}\n", random.pick(scores));
    }
    let sense = random.pick(&["<", ">="]);
    text + &format!("c {} {sense} p0\n", random.within(-1..=101))
}

/// Two policies of equal kind and mask, or of equal kind 16 or 19, are alike exactly if their lines are the same, order
/// aside; otherwise the lowest set where they differ is the lowest line that only one of them has.
fn told_by_lines(one: &OnePolicy, two: &OnePolicy, answer: Comparison) -> &'static str {
    let (lines, others) = (one.set_of_lines(), two.set_of_lines());
    let lowest = lines.symmetric_difference(&others).next();
    match answer {
        Comparison::Alike => {
            assert_eq!(lowest, None, "{:?} and {:?} are alike", one.words, two.words);
            if one.lines == two.lines { "alike" } else { "alike, in another order" }
        }
        Comparison::Differ { set, yes } => {
            assert_eq!(lowest, Some(&set.into()), "{:?} and {:?} differ", one.words, two.words);
            let has_line = if lines.contains(&set.into()) { Listing::First } else { Listing::Second };
            let turned = one.kind >= 18;
            assert_eq!(yes == has_line, !turned, "the one that has the line says yes, or no if it is turned");
            "they differ"
        }
    }
}

/// With kinds that differ in quiet the empty set tells them apart. With kinds that differ in turned alone, equal masks and the
/// same lines, every set does that shares a signal with the mask.
fn told_by_kinds(one: &OnePolicy, two: &OnePolicy, answer: Comparison) -> &'static str {
    let quiet = |policy: &OnePolicy| policy.kind % 2 == 1;
    if quiet(one) != quiet(two) {
        let yes = if quiet(one) { Listing::First } else { Listing::Second };
        assert_eq!(answer, Comparison::Differ { set: 0, yes });
        return "another quiet";
    }
    if one.mask != two.mask || one.set_of_lines() != two.set_of_lines() {
        return "another kind";
    }
    let lowest_signal = one.mask & one.mask.wrapping_neg();
    match answer {
        Comparison::Alike => assert_eq!(one.mask, 0),
        Comparison::Differ { set, .. } => assert_eq!(u32::from(set), lowest_signal),
    }
    "another turned, the same lines"
}

#[test]
fn lines_tell_the_answers() {
    let mut random = Random::of("lines_tell_the_answers");
    let mut tally = Tally::new("lines_tell_the_answers");
    for _ in 0..rounds(8_000) {
        let mut signals: Vec<u32> = (0..16).collect();
        random.shuffle(&mut signals);
        let (first, second) = (*random.pick(&OPERATORS), *random.pick(&OPERATORS));
        let count = random.below(5);
        let other_count = if random.one_in(4) { random.below(5) } else { count };
        let one = compiled(&book(first, &signals[..count], &mut random), &mut random);
        let two = compiled(&book(second, &signals[..other_count], &mut random), &mut random);
        let answer = agreed::compare(&one.words, &two.words).expect("both are sound");
        let case = match (one.kind == two.kind, one.mask == two.mask) {
            (false, _) => told_by_kinds(&one, &two, answer).to_string(),
            (true, true) => {
                told_by_lines(&one, &two, answer).to_string() + if first == second { "" } else { " (operators too)" }
            }
            (true, false) if [16, 19].contains(&one.kind) => {
                told_by_lines(&one, &two, answer).to_string() + " (masks too)"
            }
            (true, false) => "another mask".to_string(),
        };
        tally.count(&case);
    }
    tally.finish(&[
        "alike",
        "alike (operators too)",
        "alike (masks too)",
        "alike, in another order",
        "alike, in another order (operators too)",
        "another quiet",
        "another turned, the same lines",
        "they differ",
        "they differ (operators too)",
        "they differ (masks too)",
    ]);
}

/// What two books with one policy each come to: the kind and mask of both, whether the lines are the same, the comparison.
type Compared = ([u32; 2], [u32; 2], bool, Comparison);

fn compared(first: &str, second: &str, random: &mut Random) -> Compared {
    let (one, two) = (compiled(first, random), compiled(second, random));
    let answer = agreed::compare(&one.words, &two.words).expect("both are sound");
    ([one.kind, one.mask], [two.kind, two.mask], one.set_of_lines() == two.set_of_lines(), answer)
}

/// With another kind or mask the same lines do not mean the same answers, nor other lines others.
#[test]
fn kind_and_mask_matter() {
    let mut random = Random::of("kind_and_mask_matter");
    let mut compared = |first, second| compared(first, second, &mut random);
    let differ = |set, yes| Comparison::Differ { set, yes };
    let plain = "p sum 0\nr 0 40\nc 20 < p0\n";
    let quiet = "p sum 100\nr 0 40\nc 20 < p0\n";
    let turned = "p sum 100\nr 0 40\nc 20 >= p0\n";
    let wide = "p sum 100\nr 0 40\nr 1 10\nc 20 < p0\n";
    assert_eq!(compared(plain, quiet), ([16, 1], [17, 1], true, differ(0, Listing::Second)));
    assert_eq!(compared(plain, turned), ([16, 1], [18, 1], true, differ(1, Listing::First)));
    assert_eq!(compared(quiet, wide), ([17, 1], [17, 3], true, differ(2, Listing::First)));
    let (no_rules, always) = ("p sum 0\nc -1 < p0\n", "p sum 0\nr 0 0\nc -1 < p0\n");
    let always_turned = "p max 0\nr 0 40\nc 50 >= p0\n";
    assert_eq!(compared(always, always_turned), ([17, 1], [19, 1], false, Comparison::Alike));
    assert_eq!(compared(no_rules, always), ([17, 0], [17, 1], false, Comparison::Alike));
}

/// The comparison passes over a line that holds an excluded pair.
#[test]
fn exclusions_matter() {
    let mut random = Random::of("exclusions_matter");
    let mut compared = |first, second| compared(first, second, &mut random);
    let (line, none) = ("p sum 0\nr 0 30\nr 1 30\nc 50 < p0\n", "p sum 0\nr 0 20\nr 1 20\nc 50 < p0\n");
    let differ = Comparison::Differ { set: 3, yes: Listing::First };
    assert_eq!(compared(line, none), ([16, 3], [16, 3], false, differ));
    let excluding = |book: &str| format!("x 0 1\n{book}");
    assert_eq!(compared(&excluding(line), &excluding(none)), ([16, 3], [16, 3], false, Comparison::Alike));
}

/// Two of three marks, by a sum and by a mul (books/two_of_three.book): the same lines in another order.
#[test]
fn another_operator() {
    let mut random = Random::of("another_operator");
    let finds = "p sum 0\nr 0 30\nr 1 30\nr 2 30\nc 50 < p0\n";
    let doubt = |score: u32| format!("p mul 100\nr 0 {score}\nr 1 50\nr 2 50\nc 30 >= p0\n");
    assert_eq!(compared(finds, &doubt(40), &mut random), ([16, 7], [16, 7], true, Comparison::Alike));
    let differ = Comparison::Differ { set: 1, yes: Listing::Second };
    assert_eq!(compared(finds, &doubt(20), &mut random), ([16, 7], [16, 7], false, differ));
}
