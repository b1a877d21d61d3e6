//! The choice check and the comparison, 1,024 signal sets at a time.
//!
//! A block is 64 neighbouring sets, and bit j of a word stands for set 64 * block + j. A group is 16 blocks. The lowest
//! six signals tell the sets of a block apart, the next four the blocks of a group, the highest six the groups.

use super::listing::{Record, check, choice_of, says};
use cerahupo::{Chosen, Comparison, Declined, Listing, Refusal};

const BLOCKS: usize = 16;

/// How many sets a group has.
const SETS: u32 = 64 * BLOCKS as u32;

/// A word for each block of a group.
type Table = [u64; BLOCKS];

/// For each of the six lowest signals, the sets of a block that have it.
const HAVING: [u64; 6] = [
    0xaaaa_aaaa_aaaa_aaaa,
    0xcccc_cccc_cccc_cccc,
    0xf0f0_f0f0_f0f0_f0f0,
    0xff00_ff00_ff00_ff00,
    0xffff_0000_ffff_0000,
    0xffff_ffff_0000_0000,
];

/// A sound listing made ready for many groups.
struct Ready<'a> {
    records: &'a [Record],
    pairs: &'a [Record],
    nodes: Vec<Node<'a>>,
}

enum Node<'a> {
    Policy(Policy<'a>),
    And,
    Or,
}

struct Policy<'a> {
    /// The mask's signals that tell groups apart, as a group.
    high: u32,
    /// The sets that share a signal with the mask, in a group that shares none of the high ones.
    overlap: Table,
    quiet: u64,
    turned: u64,
    lines: &'a [Record],
}

impl<'a> Ready<'a> {
    fn new(words: &'a [u32]) -> Result<Ready<'a>, Refusal> {
        let records = check(words)?;
        let (pairs, mut rest) = split_run(records, 5);
        let mut nodes = Vec::with_capacity(31);
        while let [[kind, mask, ..], behind @ ..] = rest {
            let (lines, after) = split_run(behind, 4);
            nodes.push(match kind {
                2 => Node::And,
                3 => Node::Or,
                _ => Node::Policy(Policy::new(*kind, *mask, lines)),
            });
            rest = after;
        }
        Ok(Ready { records, pairs, nodes })
    }

    /// The sets of a group inside which an excluded pair lies.
    fn barred(&self, group: u32) -> Table {
        some_inside(self.pairs, group)
    }

    /// How many sets of a group are not barred, up to the one of place `last`.
    fn permitted(&self, barred: &Table, last: u32) -> u32 {
        if self.pairs.is_empty() {
            return last + 1;
        }
        let (whole, rest) = (last as usize / 64, last % 64);
        let before: u32 = barred[..whole].iter().map(|word| word.count_zeros()).sum();
        before + (!barred[whole] << (63 - rest)).count_ones()
    }

    /// The sets of a group that give yes. Values that wait are kept on the stack handed in.
    fn yes(&self, group: u32, values: &mut Vec<Table>) -> Table {
        for node in &self.nodes {
            match node {
                Node::Policy(policy) => values.push(policy.value(group)),
                Node::And => join(values, |left, right| left & right),
                Node::Or => join(values, |left, right| left | right),
            }
        }
        values.pop().expect("a sound listing leaves one value")
    }
}

/// Parts off the records of a kind that stand in front.
fn split_run(records: &[Record], kind: u32) -> (&[Record], &[Record]) {
    records.split_at(records.iter().take_while(|record| record[0] == kind).count())
}

/// Takes the last two values, and puts back their join.
fn join(values: &mut Vec<Table>, with: impl Fn(u64, u64) -> u64) {
    let right = values.pop().expect("a join has two values");
    let left = values.last_mut().expect("a join has two values");
    *left = both(*left, right, with);
}

fn both(one: Table, two: Table, with: impl Fn(u64, u64) -> u64) -> Table {
    std::array::from_fn(|block| with(one[block], two[block]))
}

/// All sets of a block, or none.
fn all_if(yes: bool) -> u64 {
    if yes { u64::MAX } else { 0 }
}

impl<'a> Policy<'a> {
    fn new(kind: u32, mask: u32, lines: &'a [Record]) -> Policy<'a> {
        let low = (0..6).filter(|signal| mask >> signal & 1 == 1).fold(0, |sets, signal| sets | HAVING[signal]);
        let overlap = std::array::from_fn(|block| low | all_if((mask / 64) & block as u32 != 0));
        Policy { high: mask / SETS, overlap, quiet: all_if(kind & 1 != 0), turned: all_if(kind & 2 != 0), lines }
    }

    /// The sets of a group on which the policy gives yes.
    fn value(&self, group: u32) -> Table {
        let found = some_inside(self.lines, group).map(|found| found ^ self.turned);
        if self.high & group != 0 {
            return found;
        }
        both(found, self.overlap, |found, overlap| found & overlap | self.quiet & !overlap)
    }
}

/// The sets of a group inside which some mask lies.
#[inline]
fn some_inside(masks: &[Record], group: u32) -> Table {
    let mut table = [0; BLOCKS];
    if !masks.is_empty() {
        gather(&mut table, masks, !((group * SETS) | (SETS - 1)));
        spread(&mut table);
    }
    table
}

/// Adds the masks that have none of the signals outside a group, each as one set. It takes four records a turn, and not
/// one, so that it matters less where the linker puts the loop.
fn gather(table: &mut Table, masks: &[Record], outside: u32) {
    let mut add = |&[_, mask, ..]: &Record| {
        if mask & outside == 0 {
            table[mask as usize / 64 % BLOCKS] |= 1 << (mask % 64);
        }
    };
    let (fours, rest) = masks.as_chunks::<4>();
    fours.iter().for_each(|four| four.iter().for_each(&mut add));
    rest.iter().for_each(add);
}

/// Each set gets what the table has of the sets inside it: first from block to block, then within each.
fn spread(table: &mut Table) {
    for signal in 6..SETS.ilog2() {
        let weight = 1 << (signal - 6);
        for blocks in table.chunks_exact_mut(2 * weight) {
            let (without, with) = blocks.split_at_mut(weight);
            with.iter_mut().zip(without).for_each(|(word, inside)| *word |= *inside);
        }
    }
    for (signal, having) in HAVING.iter().enumerate() {
        for word in table.iter_mut() {
            *word |= *word << (1 << signal) & having;
        }
    }
}

/// The lowest set that the tables have.
fn lowest(mut table: impl FnMut(u32) -> Table) -> Option<u16> {
    (0..65_536 / SETS).find_map(|group| lowest_in(table(group), group))
}

/// The lowest set of a group that its table has.
fn lowest_in(table: Table, group: u32) -> Option<u16> {
    let block = table.iter().position(|&word| word != 0)?;
    Some((SETS * group + 64 * block as u32 + table[block].trailing_zeros()) as u16)
}

pub fn choice(words: &[u32]) -> Result<Chosen, Refusal> {
    let listing = Ready::new(words)?;
    let mut values = Vec::with_capacity(16);
    let (mut first, mut judged) = (false, 0);
    for group in 0..65_536 / SETS {
        let yes = listing.yes(group, &mut values);
        let barred = listing.barred(group);
        if group == 0 {
            first = yes[0] & 1 == 1;
        }
        let other = both(yes, barred, |yes, barred| (yes ^ all_if(first)) & !barred);
        if let Some(set) = lowest_in(other, group) {
            judged += listing.permitted(&barred, u32::from(set) % SETS);
            return Ok(Chosen { choice: choice_of(first, Some(set)), judged });
        }
        judged += listing.permitted(&barred, SETS - 1);
    }
    Ok(Chosen { choice: choice_of(first, None), judged })
}

pub fn compare(one: &[u32], two: &[u32]) -> Result<Comparison, Declined> {
    let first = Ready::new(one).map_err(|refusal| Declined { listing: Listing::First, refusal })?;
    let second = Ready::new(two).map_err(|refusal| Declined { listing: Listing::Second, refusal })?;
    let mut values = Vec::with_capacity(16);
    let differ = lowest(|group| {
        let barred = both(first.barred(group), second.barred(group), |one, two| one | two);
        let apart = both(first.yes(group, &mut values), second.yes(group, &mut values), |one, two| one ^ two);
        both(apart, barred, |apart, barred| apart & !barred)
    });
    Ok(match differ {
        None => Comparison::Alike,
        Some(set) => {
            let yes = if says(first.records, set) { Listing::First } else { Listing::Second };
            Comparison::Differ { set, yes }
        }
    })
}
