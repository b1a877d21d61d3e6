//! Listings handed in: judged record by record, then a tree to read.

use super::refused;
use cerahupo::Refusal;

pub enum Tree {
    Policy { quiet: bool, turned: bool, mask: u32, lines: Vec<u32> },
    And(Box<Tree>, Box<Tree>),
    Or(Box<Tree>, Box<Tree>),
}

impl Tree {
    /// The rod's reading on a set.
    pub fn says(&self, set: u16) -> bool {
        let set = u32::from(set);
        match self {
            Tree::And(left, right) => left.says(set as u16) & right.says(set as u16),
            Tree::Or(left, right) => left.says(set as u16) | right.says(set as u16),
            Tree::Policy { quiet, mask, .. } if mask & set == 0 => *quiet,
            Tree::Policy { turned, lines, .. } => lines.iter().any(|line| line & set == *line) != *turned,
        }
    }
}

/// A sound listing: the pairs that it excludes, and its tree.
pub struct Sound {
    pub pairs: Vec<u32>,
    pub tree: Tree,
}

impl Sound {
    /// The set holds no excluded pair.
    pub fn permits(&self, set: u16) -> bool {
        self.pairs.iter().all(|pair| pair & u32::from(set) != *pair)
    }
}

type Record = [u32; 4];

/// What the records so far leave: excluded pairs, trees that no join has taken, and the mask of the policy that a line
/// here belongs to.
#[derive(Default)]
struct SoFar {
    pairs: Vec<u32>,
    values: Vec<Tree>,
    owner: Option<u32>,
}

/// A sound listing, or its refusal.
pub fn take(words: &[u32]) -> Result<Sound, Refusal> {
    let (records, []) = words.as_chunks::<4>() else { return refused(9, 0) };
    if records.is_empty() {
        return refused(9, 0);
    }
    let mut so_far = SoFar::default();
    for place in 0..records.len() {
        if take_record(records, place, &mut so_far).is_none() {
            return refused(10, place + 1);
        }
    }
    match so_far.values.pop() {
        Some(tree) if so_far.values.is_empty() => Ok(Sound { pairs: so_far.pairs, tree }),
        _ => refused(10, records.len()),
    }
}

/// Takes the record at a place, counted from 0; nothing if it breaks the layout.
fn take_record(records: &[Record], place: usize, so_far: &mut SoFar) -> Option<()> {
    match records[place][0] {
        4 => take_line(records, place, so_far.owner?),
        16..=19 => take_policy(records, place, so_far),
        2 | 3 => take_join(records, place, so_far),
        5 => take_pair(records, place, so_far),
        _ => None,
    }
}

fn take_policy(records: &[Record], place: usize, so_far: &mut SoFar) -> Option<()> {
    let [kind, mask, first, next] = records[place];
    let lines: Vec<u32> = records[place + 1..].iter().take_while(|record| record[0] == 4).map(|line| line[1]).collect();
    let earlier = records[..place].iter().filter(|record| (16..=19).contains(&record[0])).count();
    require(mask <= 65_535 && earlier < 16)?;
    require(first as usize == if lines.is_empty() { 0 } else { place + 2 })?;
    require(next as usize == number_at(records, place + 1 + lines.len()))?;
    so_far.owner = Some(mask);
    so_far.values.push(Tree::Policy { quiet: kind % 2 == 1, turned: kind >= 18, mask, lines });
    Some(())
}

fn take_line(records: &[Record], place: usize, owner: u32) -> Option<()> {
    let [_, mask, lines, next] = records[place];
    let line_follows = records.get(place + 1).is_some_and(|record| record[0] == 4);
    require(mask & owner == mask && lines == 0 && next as usize == if line_follows { place + 2 } else { 0 })
}

fn take_join(records: &[Record], place: usize, so_far: &mut SoFar) -> Option<()> {
    let [kind, mask, lines, next] = records[place];
    require(mask == 0 && lines == 0 && next as usize == number_at(records, place + 1))?;
    let (right, left) = (Box::new(so_far.values.pop()?), Box::new(so_far.values.pop()?));
    so_far.owner = None;
    so_far.values.push(if kind == 2 { Tree::And(left, right) } else { Tree::Or(left, right) });
    Some(())
}

/// A pair stands below pairs alone, and has a record after it.
fn take_pair(records: &[Record], place: usize, so_far: &mut SoFar) -> Option<()> {
    let [_, mask, lines, next] = records[place];
    require(so_far.pairs.len() == place && place < 16)?;
    require(mask <= 65_535 && mask.count_ones() == 2)?;
    require(lines == 0 && next as usize == place + 2 && place + 1 < records.len())?;
    so_far.pairs.push(mask);
    Some(())
}

/// The number of the record at a place, 0 after the last.
fn number_at(records: &[Record], place: usize) -> usize {
    if place < records.len() { place + 1 } else { 0 }
}

fn require(holds: bool) -> Option<()> {
    holds.then_some(())
}
