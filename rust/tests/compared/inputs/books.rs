//! Valid books, with thresholds near what their policies can score.

use super::random::Random;

struct Policy {
    operator: &'static str,
    default: i64,
    scores: Vec<i64>,
}

/// Which scores a book likes: ties, edges or anything.
#[derive(Clone, Copy)]
enum Style {
    Any,
    Small,
    Equal(i64),
    Edges,
}

pub fn valid(random: &mut Random) -> Vec<u8> {
    let style = match random.below(4) {
        0 => Style::Any,
        1 => Style::Small,
        2 => Style::Equal(random.within(0..=100)),
        _ => Style::Edges,
    };
    let old_zero = random.one_in(4);
    let mut text = String::from(if old_zero { "o\n" } else { "" });
    let count = if random.one_in(16) { 0 } else { 1 + random.mostly_few(15) };
    let mut exclusions = exclusions(random);
    let mut policies = Vec::new();
    for _ in 0..count {
        while random.one_in(3) {
            text += &exclusions.pop().unwrap_or_default();
        }
        policies.push(put_policy(&mut text, old_zero, style, random));
    }
    text += &exclusions.concat();
    if !policies.is_empty() {
        let conditions = if random.one_in(8) { 0 } else { 1 + random.mostly_few(7) };
        for _ in 0..conditions {
            text += &condition(&policies, random);
        }
    }
    text.into_bytes()
}

/// Lines of different pairs, each in either order.
fn exclusions(random: &mut Random) -> Vec<String> {
    let mut pairs: Vec<(u32, u32)> = (0..16).flat_map(|b| (0..b).map(move |a| (a, b))).collect();
    random.shuffle(&mut pairs);
    pairs.truncate(if random.one_in(2) { 0 } else { random.mostly_few(16) });
    let line = |(a, b)| if random.one_in(2) { format!("x {a} {b}\n") } else { format!("x {b} {a}\n") };
    pairs.into_iter().map(line).collect()
}

fn put_policy(text: &mut String, old_zero: bool, style: Style, random: &mut Random) -> Policy {
    let operator = *random.pick(&["min", "max", "sum", "mul"]);
    let (line, default) = if random.one_in(4) {
        (format!("p {operator}\n"), if old_zero || ["max", "sum"].contains(&operator) { 0 } else { 100 })
    } else {
        let default = if random.one_in(8) { 0 } else { score(style, -10_000, 10_000, random) };
        (format!("p {operator} {default}\n"), default)
    };
    *text += &line;
    let (least, most) = match operator {
        "sum" => (0, 10_000),
        "mul" => (0, 100),
        _ => (-10_000, 10_000),
    };
    let mut signals: Vec<u32> = (0..16).collect();
    random.shuffle(&mut signals);
    let most_rules = if operator == "mul" { 8 } else { *random.pick(&[6, 10, 16]) };
    let count = random.below(most_rules + 1);
    let scores: Vec<i64> = (0..count).map(|_| score(style, least, most, random)).collect();
    for (score, signal) in scores.iter().zip(signals) {
        *text += &format!("r {signal} {score}\n");
    }
    Policy { operator, default, scores }
}

fn score(style: Style, least: i64, most: i64, random: &mut Random) -> i64 {
    match style {
        Style::Any => random.within(least..=most),
        Style::Small => random.within(-3..=7).max(least),
        Style::Equal(score) => score,
        Style::Edges => (*random.pick(&[-10_000, -9_999, -1, 0, 1, 50, 99, 100, 9_999, 10_000])).clamp(least, most),
    }
}

fn condition(policies: &[Policy], random: &mut Random) -> String {
    let threshold = threshold(policies, random);
    let sense = random.pick(&["<", ">="]);
    let mut mentions = 1 + random.mostly_few(15);
    loop {
        let line = format!("c {threshold} {sense} {}\n", expression(mentions, policies.len(), random));
        if line.len() <= 129 {
            return line;
        }
        mentions -= 1;
    }
}

/// Any threshold, or one at or beside a score that some policy can have.
fn threshold(policies: &[Policy], random: &mut Random) -> i64 {
    if random.one_in(8) {
        return *random.pick(&[-200_000, -1, 0, 1, 99, 100, 101, 200_000]);
    }
    if random.one_in(8) {
        return random.within(-200_000..=200_000);
    }
    let policy = random.pick(policies);
    let present: Vec<i64> = policy.scores.iter().copied().filter(|_| random.one_in(2)).collect();
    let reached = match policy.operator {
        _ if present.is_empty() => policy.default,
        "min" => present.iter().copied().min().unwrap_or_default(),
        "max" => present.iter().copied().max().unwrap_or_default(),
        "sum" => present.iter().sum(),
        _ => present.iter().fold(10i64.pow(16), |product, score| product / 100 * score) / 10i64.pow(14),
    };
    reached + random.within(-1..=1)
}

/// An expression with so many mentions.
pub fn expression(mentions: usize, policies: usize, random: &mut Random) -> String {
    if mentions == 1 {
        return format!("p{}", random.below(policies));
    }
    let left = 1 + random.below(mentions - 1);
    let name = random.pick(&["min", "max"]);
    let (left, right) = (expression(left, policies, random), expression(mentions - left, policies, random));
    format!("{name}({left},{right})")
}

/// A number that asks for a condition, mostly one that the book has.
pub fn condition_number(conditions: u64, random: &mut Random) -> u32 {
    match random.below(8) {
        0 => *random.pick(&[conditions as u32, 7, 8, 255, 256, 65_536, u32::MAX]),
        _ => random.below(conditions.max(1) as usize) as u32,
    }
}
