//! From condition to listing: every set of rules is tried.

use super::book::{Book, Condition, Expression, Operator, Policy, Rule, Sense};
use super::score;

#[derive(Clone)]
pub enum Node {
    Policy { kind: u32, mask: u32, lines: Vec<u32> },
    Join { kind: u32 },
}

pub fn listing(book: &Book, condition: &Condition) -> Vec<u32> {
    let mut nodes = Vec::new();
    put_nodes(book, condition, &condition.expression, &mut nodes);
    let pairs: Vec<u32> = book.exclusions.iter().map(|[first, second]| (1 << first) + (1 << second)).collect();
    words_of(&pairs, &nodes)
}

/// The words of excluded pairs, and of nodes that stand in the order left, right, join.
pub fn words_of(pairs: &[u32], nodes: &[Node]) -> Vec<u32> {
    let mut records: Vec<[u32; 4]> = Vec::new();
    for pair in pairs {
        records.push([5, *pair, 0, records.len() as u32 + 2]);
    }
    for (place, node) in nodes.iter().enumerate() {
        put_records(node, place + 1 == nodes.len(), &mut records);
    }
    records.concat()
}

fn put_nodes(book: &Book, condition: &Condition, expression: &Expression, nodes: &mut Vec<Node>) {
    let (kind, left, right) = match (expression, condition.sense) {
        (Expression::Policy(number), _) => {
            return nodes.push(policy_node(&book.policies[*number as usize], condition));
        }
        (Expression::Min(left, right), Sense::Less) | (Expression::Max(left, right), Sense::AtMost) => (2, left, right),
        (Expression::Max(left, right), Sense::Less) | (Expression::Min(left, right), Sense::AtMost) => (3, left, right),
    };
    put_nodes(book, condition, left, nodes);
    put_nodes(book, condition, right, nodes);
    nodes.push(Node::Join { kind });
}

fn policy_node(policy: &Policy, condition: &Condition) -> Node {
    let quiet = score::default_meets(condition, policy);
    let turned = match (policy.operator, condition.sense) {
        (Operator::Sum | Operator::Max, Sense::AtMost) | (Operator::Mul | Operator::Min, Sense::Less) => 1,
        _ => 0,
    };
    let kind = 16 + u32::from(quiet) + 2 * turned;
    Node::Policy { kind, mask: mask_of(&policy.rules), lines: lines(policy, condition.threshold) }
}

fn put_records(node: &Node, last: bool, records: &mut Vec<[u32; 4]>) {
    let number = records.len() as u32 + 1;
    let next = |behind: usize| if last { 0 } else { number + behind as u32 + 1 };
    match node {
        Node::Join { kind } => records.push([*kind, 0, 0, next(0)]),
        Node::Policy { kind, mask, lines } => {
            let first = if lines.is_empty() { 0 } else { number + 1 };
            records.push([*kind, *mask, first, next(lines.len())]);
            for (place, line) in lines.iter().enumerate() {
                let following = if place + 1 == lines.len() { 0 } else { number + place as u32 + 2 };
                records.push([4, *line, 0, following]);
            }
        }
    }
}

fn mask_of(rules: &[Rule]) -> u32 {
    rules.iter().map(|rule| 1 << rule.signal).sum()
}

/// The lines of a policy, in falling order of the sum of 2 to the rank.
fn lines(policy: &Policy, threshold: i64) -> Vec<u32> {
    let ranked = ranked(policy);
    match policy.operator {
        Operator::Max => singles(&ranked, |score| score > threshold),
        Operator::Min => singles(&ranked, |score| score <= threshold),
        Operator::Sum => minimal_sets(&ranked, |rules| rules.iter().map(|rule| rule.score).sum::<i64>() > threshold),
        Operator::Mul => {
            let limit = i128::from(threshold) * 10i128.pow(14);
            minimal_sets(&ranked, |rules| score::product(rules) <= limit)
        }
    }
}

/// The rules by rank.
fn ranked(policy: &Policy) -> Vec<Rule> {
    let mut rules = policy.rules.clone();
    rules.sort_by_key(|rule| match policy.operator {
        Operator::Sum | Operator::Max => (rule.score, rule.signal),
        Operator::Mul | Operator::Min => (-rule.score, rule.signal),
    });
    rules
}

fn singles(ranked: &[Rule], has: impl Fn(i64) -> bool) -> Vec<u32> {
    ranked.iter().rev().filter(|rule| has(rule.score)).map(|rule| mask_of(&[*rule])).collect()
}

/// A set of rules is a number here, bit k for rank k. Minimal sets are sought among those that are not empty: such a set is
/// minimal if it has the property and no smaller one inside it has.
fn minimal_sets(ranked: &[Rule], has: impl Fn(&[Rule]) -> bool) -> Vec<u32> {
    let rules_of = |set: usize| (0..ranked.len()).filter(|k| set >> k & 1 == 1).map(|k| ranked[k]).collect::<Vec<_>>();
    let mut some_inside = vec![false; 1 << ranked.len()];
    let mut minimal = Vec::new();
    for set in 1..some_inside.len() {
        let smaller = (0..ranked.len()).any(|k| set >> k & 1 == 1 && some_inside[set - (1 << k)]);
        some_inside[set] = smaller || has(&rules_of(set));
        if some_inside[set] && !smaller {
            minimal.push(mask_of(&rules_of(set)));
        }
    }
    minimal.reverse();
    minimal
}
