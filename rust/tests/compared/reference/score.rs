//! The scored decision. A score is a whole number of parts, 10 to the 16 a unit, so that a product of eight is exact.

use super::book::{Book, Condition, Expression, Operator, Policy, Rule, Sense};
use cerahupo::Score;

const HUNDREDTH: i128 = 10i128.pow(14);

pub fn meets(book: &Book, condition: &Condition, set: u16) -> bool {
    passes(condition, expression_score(book, &condition.expression, set))
}

/// The score of the condition's expression: hundredths rounded toward minus infinity, and the parts that are left.
pub fn shown(book: &Book, condition: &Condition, set: u16) -> Score {
    let parts = expression_score(book, &condition.expression, set);
    let hundredths = parts.div_euclid(HUNDREDTH) as i64;
    Score { hundredths, remainder: (parts - i128::from(hundredths) * HUNDREDTH) as u64 }
}

/// Whether a score meets the condition.
fn passes(condition: &Condition, score: i128) -> bool {
    let threshold = i128::from(condition.threshold) * HUNDREDTH;
    match condition.sense {
        Sense::Less => threshold < score,
        Sense::AtMost => score <= threshold,
    }
}

/// Whether a policy's default meets the condition.
pub fn default_meets(condition: &Condition, policy: &Policy) -> bool {
    passes(condition, i128::from(policy.default) * HUNDREDTH)
}

fn expression_score(book: &Book, expression: &Expression, set: u16) -> i128 {
    let score = |inner| expression_score(book, inner, set);
    match expression {
        Expression::Policy(number) => policy_score(&book.policies[*number as usize], set),
        Expression::Min(left, right) => score(left).min(score(right)),
        Expression::Max(left, right) => score(left).max(score(right)),
    }
}

fn policy_score(policy: &Policy, set: u16) -> i128 {
    let present: Vec<Rule> = policy.rules.iter().copied().filter(|rule| set >> rule.signal & 1 == 1).collect();
    if present.is_empty() {
        return i128::from(policy.default) * HUNDREDTH;
    }
    let scores = present.iter().map(|rule| i128::from(rule.score));
    match policy.operator {
        Operator::Min => scores.min().unwrap() * HUNDREDTH,
        Operator::Max => scores.max().unwrap() * HUNDREDTH,
        Operator::Sum => scores.sum::<i128>() * HUNDREDTH,
        Operator::Mul => product(&present),
    }
}

/// The product in units, times 10 to the 16.
pub fn product(rules: &[Rule]) -> i128 {
    let product: i128 = rules.iter().map(|rule| i128::from(rule.score)).product();
    product * 10i128.pow(16) / 100i128.pow(rules.len() as u32)
}
