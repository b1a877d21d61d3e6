//! The score and the scored decision, in parts of 10 to the 16 a unit.

use super::book::{Book, Condition, Operator, Part, Policy};
use cerahupo::Score;

const HUNDREDTH: i128 = 10i128.pow(14);

pub fn meets(book: &Book, condition: &Condition, set: u16) -> bool {
    (expression_score(book, condition, set) > i128::from(condition.threshold) * HUNDREDTH) == condition.above
}

pub fn shown(book: &Book, condition: &Condition, set: u16) -> Score {
    let parts = expression_score(book, condition, set);
    // Scores below zero are whole hundredths, so this rounds none of them.
    Score { hundredths: (parts / HUNDREDTH) as i64, remainder: (parts % HUNDREDTH) as u64 }
}

fn expression_score(book: &Book, condition: &Condition, set: u16) -> i128 {
    let mut scores = [0i128; 16];
    let mut waiting = 0;
    for part in &condition.parts {
        if let Part::Policy(number) = *part {
            scores[waiting] = score(&book.policies[number as usize], set);
            waiting += 1;
            continue;
        }
        let (left, right) = (scores[waiting - 2], scores[waiting - 1]);
        waiting -= 1;
        scores[waiting - 1] = if matches!(part, Part::Min) { left.min(right) } else { left.max(right) };
    }
    scores[0]
}

fn score(policy: &Policy, set: u16) -> i128 {
    if policy.mask & set == 0 {
        return i128::from(policy.default) * HUNDREDTH;
    }
    let scores = policy.rules.iter().filter(|rule| set >> rule.signal & 1 == 1).map(|rule| rule.score);
    let hundredths = match policy.operator {
        Operator::Min => scores.min().unwrap_or_default(),
        Operator::Max => scores.max().unwrap_or_default(),
        Operator::Sum => scores.sum(),
        // At most eight scores of at most 100: each division is exact, and every product stays below 2 to the 63.
        Operator::Mul => return scores.fold(10i64.pow(16), |product, score| product / 100 * i64::from(score)).into(),
    };
    i128::from(hundredths) * HUNDREDTH
}
