//! A traverse, the choice check and the comparison as a loop over single signal sets, on a listing whose masks are copied
//! together first. It tells what the two checks gain by taking many sets at a time, and what a traverse would by the copy.

use crate::optimised::listing::{check, choice_of, join, policy_says};
use cerahupo::{Chosen, Comparison, Declined, Listing, Refusal};

/// A listing made ready for many readings.
struct Ready {
    pairs: Vec<u16>,
    nodes: Vec<Node>,
    lines: Vec<u16>,
}

/// A node; a policy's lines are a part of all lines.
struct Node {
    kind: u32,
    mask: u32,
    from: usize,
    to: usize,
}

impl Ready {
    fn new(words: &[u32]) -> Result<Ready, Refusal> {
        let records = check(words)?;
        let lines = Vec::with_capacity(records.len());
        let mut ready = Ready { pairs: Vec::new(), nodes: Vec::with_capacity(31), lines };
        for &[kind, mask, ..] in records {
            if kind == 5 {
                ready.pairs.push(mask as u16);
            } else if kind == 4 {
                ready.lines.push(mask as u16);
                if let Some(node) = ready.nodes.last_mut() {
                    node.to += 1;
                }
            } else {
                let from = ready.lines.len();
                ready.nodes.push(Node { kind, mask, from, to: from });
            }
        }
        Ok(ready)
    }

    fn permits(&self, set: u16) -> bool {
        self.pairs.iter().all(|pair| pair & !set != 0)
    }

    fn says(&self, set: u16) -> bool {
        let mut values = 0;
        for node in &self.nodes {
            values = match node.kind {
                2 => join(values, |left, right| left & right),
                3 => join(values, |left, right| left | right),
                kind => {
                    let lines = self.lines[node.from..node.to].iter().map(|&line| line.into());
                    values << 1 | u32::from(policy_says(kind, node.mask, set, lines))
                }
            };
        }
        values == 1
    }
}

pub fn traverse(words: &[u32], sets: &[u16], answers: &mut [u8]) -> Result<u64, Refusal> {
    if sets.len() != answers.len() {
        return Err(Refusal { number: 11, value: 0 });
    }
    let listing = Ready::new(words)?;
    for (answer, &set) in answers.iter_mut().zip(sets) {
        *answer = u8::from(listing.says(set));
    }
    Ok(sets.len() as u64)
}

pub fn choice(words: &[u32]) -> Result<Chosen, Refusal> {
    let listing = Ready::new(words)?;
    let first = listing.says(0);
    let mut judged = 1;
    let other = (1..=u16::MAX).find(|&set| {
        let permitted = listing.permits(set);
        judged += u32::from(permitted);
        permitted && listing.says(set) != first
    });
    Ok(Chosen { choice: choice_of(first, other), judged })
}

pub fn compare(one: &[u32], two: &[u32]) -> Result<Comparison, Declined> {
    let first = Ready::new(one).map_err(|refusal| Declined { listing: Listing::First, refusal })?;
    let second = Ready::new(two).map_err(|refusal| Declined { listing: Listing::Second, refusal })?;
    for set in 0..=u16::MAX {
        if !first.permits(set) || !second.permits(set) {
            continue;
        }
        let yes = first.says(set);
        if yes != second.says(set) {
            let yes = if yes { Listing::First } else { Listing::Second };
            return Ok(Comparison::Differ { set, yes });
        }
    }
    Ok(Comparison::Alike)
}
