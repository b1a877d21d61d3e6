//! Listings: sound ones, others that say the same or nearly the same, and broken ones.

use super::random::Random;
use crate::reference::{Node, words_of};

/// A sound listing of at most so many lines a policy.
pub fn sound(most_lines: usize, random: &mut Random) -> Vec<u32> {
    let nodes = nodes(most_lines, random);
    after_pairs(&nodes, random)
}

/// The listing of nodes after excluded pairs, or after none.
pub fn after_pairs(nodes: &[Node], random: &mut Random) -> Vec<u32> {
    let count = if random.one_in(2) { 0 } else { random.mostly_few(16) };
    let pairs: Vec<u32> = (0..count).map(|_| pair(random)).collect();
    words_of(&pairs, nodes)
}

fn pair(random: &mut Random) -> u32 {
    let (first, step) = (random.below(16), 1 + random.below(15));
    1 << first | 1 << ((first + step) % 16)
}

/// Nodes in the order left, right, join: each join takes two earlier values, one remains.
pub fn nodes(most_lines: usize, random: &mut Random) -> Vec<Node> {
    let policies = 1 + random.mostly_few(15);
    let mut nodes = Vec::new();
    let (mut put, mut values) = (0, 0);
    while put < policies || values > 1 {
        if put < policies && (values < 2 || random.one_in(2)) {
            nodes.push(policy(most_lines, random));
            put += 1;
            values += 1;
        } else {
            nodes.push(Node::Join { kind: *random.pick(&[2, 3]) });
            values -= 1;
        }
    }
    nodes
}

fn policy(most_lines: usize, random: &mut Random) -> Node {
    let mask = u32::from(random.set());
    let lines = (0..random.mostly_few(most_lines)).map(|_| line_inside(mask, random)).collect();
    Node::Policy { kind: 16 + random.below(4) as u32, mask, lines }
}

/// A set inside a mask: few signals more often than many, as lines of books have them.
fn line_inside(mask: u32, random: &mut Random) -> u32 {
    match random.below(4) {
        0 => *random.pick(&[0, mask, mask & mask.wrapping_neg()]),
        1 => mask & random.next() as u32,
        _ => mask & random.next() as u32 & random.next() as u32,
    }
}

/// Nodes that say the same of every set: lines in another order, repeated, or joined by sets that hold one of them; and
/// a policy doubled and joined with itself.
pub fn alike(nodes: &[Node], random: &mut Random) -> Vec<Node> {
    let mut room = 16 - nodes.iter().filter(|node| matches!(node, Node::Policy { .. })).count();
    let mut out = Vec::new();
    for node in nodes {
        let node = with_more_lines(node.clone(), random);
        let double = matches!(node, Node::Policy { .. }) && room > 0 && random.one_in(3);
        out.push(node.clone());
        if double {
            room -= 1;
            out.extend([node, Node::Join { kind: *random.pick(&[2, 3]) }]);
        }
    }
    out
}

fn with_more_lines(node: Node, random: &mut Random) -> Node {
    let Node::Policy { kind, mask, mut lines } = node else { return node };
    for _ in 0..random.below(3) {
        if !lines.is_empty() {
            let line = *random.pick(&lines);
            lines.push(line | mask & random.next() as u32);
        }
    }
    random.shuffle(&mut lines);
    Node::Policy { kind, mask, lines }
}

/// One policy changed in one point: a line more, mostly of many signals, so that a difference shows late if at all;
/// a line less; or the other answer where none of its signals is present.
pub fn nearly_alike(mut nodes: Vec<Node>, random: &mut Random) -> Vec<Node> {
    let mut policies: Vec<&mut Node> = nodes.iter_mut().filter(|node| matches!(node, Node::Policy { .. })).collect();
    let place = random.below(policies.len());
    if let Node::Policy { kind, mask, lines } = &mut *policies[place] {
        match random.below(3) {
            0 => lines.push(*mask & (random.next() | random.next()) as u32),
            1 => drop(lines.pop()),
            _ => *kind ^= 1,
        }
    }
    nodes
}

/// A sound listing with one to three things done to it; some of them do no harm.
pub fn damaged(most_lines: usize, random: &mut Random) -> Vec<u32> {
    let mut records = records_of(&sound(most_lines, random));
    for _ in 0..1 + random.mostly_few(2) {
        damage_records(&mut records, random);
    }
    if random.one_in(2) {
        repair(&mut records);
    }
    if random.one_in(2) {
        damage_word(&mut records, random);
    }
    let mut words = records.concat();
    if random.one_in(12) {
        words.truncate(words.len().saturating_sub(1 + random.below(5)));
    }
    words
}

/// Records of any kind, fields as they would have to be, but for one word or none.
pub fn soup(random: &mut Random) -> Vec<u32> {
    let kinds = [2, 2, 3, 4, 4, 4, 16, 17, 18, 19, 16, 17, 18, 19, *random.pick(&[0, 1, 5, 15, 20, 32, u32::MAX, 4])];
    let mask = if random.one_in(4) { pair(random) } else { random.next() as u32 & 0xffff };
    let mut records = vec![[*random.pick(&[16, 17, 18, 19, 16, 17, 18, 19, 4, 5]), mask, 0, 0]];
    let most = *random.pick(&[4, 12, 40]);
    for _ in 0..random.below(most) {
        let mask = *random.pick(&[0, 1, 3, 0xffff]);
        records.push([*random.pick(&kinds), mask, 0, 0]);
    }
    repair(&mut records);
    if random.one_in(4) {
        damage_word(&mut records, random);
    }
    records.concat()
}

fn records_of(words: &[u32]) -> Vec<[u32; 4]> {
    words.as_chunks::<4>().0.to_vec()
}

fn damage_records(records: &mut Vec<[u32; 4]>, random: &mut Random) {
    if records.is_empty() {
        return;
    }
    let (one, two) = (random.below(records.len()), random.below(records.len()));
    match random.below(8) {
        0 => drop(records.remove(one)),
        1 => records.insert(one, records[two]),
        2 => records.swap(one, two),
        3 => records.push([*random.pick(&[2, 3, 4, 16]), 0, 0, 0]),
        4 => records[one][0] = *random.pick(&[0, 1, 2, 3, 4, 5, 16, 19, 20]),
        5 if random.one_in(2) => records.extend([[17, 1, 0, 0]; 15]),
        5 => drop(records.splice(0..0, vec![[5, 3, 0, 0]; random.below(18)])),
        6 => drop(records.pop()),
        _ => damage_word(records, random),
    }
}

fn damage_word(records: &mut [[u32; 4]], random: &mut Random) {
    if records.is_empty() {
        return;
    }
    let place = random.below(records.len());
    let number = place as u32 + 1;
    let field = random.below(4);
    let word = &mut records[place][field];
    *word = match random.below(5) {
        0 => *random.pick(&[0, number, number + 1, number + 2, 65_535, 65_536, u32::MAX]),
        1 => *word ^ 1 << random.below(32),
        2 => word.rotate_left(random.below(32) as u32),
        3 => word.wrapping_add(1),
        _ => word.wrapping_sub(1),
    };
}

/// Gives each record the fields that the kinds around it ask for, so that only masks, counts and order can be at fault.
fn repair(records: &mut [[u32; 4]]) {
    let mut policy = 0;
    for place in 0..records.len() {
        let following = if place + 1 == records.len() { 0 } else { place as u32 + 2 };
        let line_follows = records.get(place + 1).is_some_and(|record| record[0] == 4);
        let line = if line_follows { following } else { 0 };
        let lines = records[place + 1..].iter().take_while(|record| record[0] == 4).count();
        let node = if place + 1 + lines == records.len() { 0 } else { (place + lines) as u32 + 2 };
        let [kind, mask, ..] = records[place];
        records[place] = match kind {
            4 => [4, mask & policy, 0, line],
            5 => [5, mask, 0, following],
            16..=19 => [kind, mask & 0xffff, line, node],
            _ => [kind, 0, 0, following],
        };
        if kind != 4 {
            policy = records[place][1];
        }
    }
}
