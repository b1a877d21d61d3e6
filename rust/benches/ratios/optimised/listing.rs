//! Judging and reading listings.

use super::{decision, refused};
use cerahupo::{Choice, Decision, Refusal};

pub type Record = [u32; 4];

/// The records of a sound listing, or its refusal.
pub fn check(words: &[u32]) -> Result<&[Record], Refusal> {
    let (records, rest) = words.as_chunks::<4>();
    if records.is_empty() || !rest.is_empty() {
        return refused(9, 0);
    }
    let mut at = 0;
    let (mut values, mut policies) = (0, 0);
    while at < records.len() {
        let [kind, mask, lines, next] = records[at];
        match kind {
            16..=19 => {
                let behind = records[at + 1..].iter().take_while(|record| record[0] == 4).count();
                let node = at + 1 + behind;
                let right_lines = if behind == 0 { 0 } else { at + 2 };
                let right_next = if node == records.len() { 0 } else { node + 1 };
                policies += 1;
                if mask > 65_535 || policies > 16 || lines as usize != right_lines || next as usize != right_next {
                    return refused(10, at + 1);
                }
                check_lines(&records[at + 1..node], mask, at + 2)?;
                values += 1;
                at = node;
            }
            2 | 3 => {
                let right_next = if at + 1 == records.len() { 0 } else { at + 2 };
                if mask != 0 || lines != 0 || next as usize != right_next || values < 2 {
                    return refused(10, at + 1);
                }
                values -= 1;
                at += 1;
            }
            5 => {
                let in_front = policies == 0 && at < 16 && at + 1 < records.len();
                let pair = mask <= 65_535 && mask.count_ones() == 2;
                if !in_front || !pair || lines != 0 || next as usize != at + 2 {
                    return refused(10, at + 1);
                }
                at += 1;
            }
            _ => return refused(10, at + 1),
        }
    }
    if values == 1 { Ok(records) } else { refused(10, records.len()) }
}

/// Judges the lines of a policy; the first has the number given.
fn check_lines(lines: &[Record], policy: u32, first: usize) -> Result<(), Refusal> {
    for (index, &[_, mask, none, next]) in lines.iter().enumerate() {
        let right_next = if index + 1 == lines.len() { 0 } else { first + index + 1 };
        if mask & !policy != 0 || none != 0 || next as usize != right_next {
            return refused(10, first + index);
        }
    }
    Ok(())
}

pub fn read(words: &[u32], set: u16) -> Result<Decision, Refusal> {
    Ok(decision(says(check(words)?, set)))
}

pub fn traverse(words: &[u32], sets: &[u16], answers: &mut [u8]) -> Result<u64, Refusal> {
    if sets.len() != answers.len() {
        return refused(11, 0);
    }
    let records = check(words)?;
    for (answer, &set) in answers.iter_mut().zip(sets) {
        *answer = u8::from(says(records, set));
    }
    Ok(sets.len() as u64)
}

/// What a sound listing says of one set.
pub fn says(records: &[Record], set: u16) -> bool {
    let mut values = 0u32;
    let mut at = 0;
    loop {
        let [kind, mask, lines, next] = records[at];
        values = match kind {
            2 => join(values, |left, right| left & right),
            3 => join(values, |left, right| left | right),
            5 => values,
            _ => {
                let behind = if lines == 0 { &[] } else { &records[lines as usize - 1..] };
                let own = behind.iter().take_while(|record| record[0] == 4);
                values << 1 | u32::from(policy_says(kind, mask, set, own.map(|record| record[1])))
            }
        };
        if next == 0 {
            return values == 1;
        }
        at = next as usize - 1;
    }
}

/// Takes the last two values, the lowest bits, and puts back their join.
pub fn join(values: u32, with: impl Fn(u32, u32) -> u32) -> u32 {
    values >> 2 << 1 | with(values >> 1 & 1, values & 1)
}

pub fn policy_says(kind: u32, mask: u32, set: u16, mut lines: impl Iterator<Item = u32>) -> bool {
    let absent = !u32::from(set);
    if mask & !absent == 0 { kind & 1 == 1 } else { lines.any(|line| line & absent == 0) != (kind & 2 != 0) }
}

/// The choice, from whether the empty set gives yes and from the lowest set that gives the other answer.
pub fn choice_of(first: bool, other: Option<u16>) -> Choice {
    match other {
        None if first => Choice::Always,
        None => Choice::Never,
        Some(no) if first => Choice::Both { yes: 0, no },
        Some(yes) => Choice::Both { yes, no: 0 },
    }
}
