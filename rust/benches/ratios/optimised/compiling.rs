//! Compiling: lines are counted by a pruned search, and if there is room written by the same search.

use super::book::{Book, Condition, Operator, Part, Policy, Rule};
use super::refused;
use cerahupo::Refusal;

pub fn compile(bytes: &[u8], condition: u32, words: &mut [u32]) -> Result<u64, Refusal> {
    let book = Book::read(bytes)?;
    let condition = book.condition(condition)?;
    let mut searches = [const { None }; 16];
    let mut records = book.pairs.len() + condition.parts.len();
    for part in &condition.parts {
        if let Part::Policy(number) = *part {
            let search = || Search::new(&book.policies[number as usize], condition.threshold);
            records += searches[number as usize].get_or_insert_with(search).lines;
        }
    }
    if 4 * records > words.len() {
        return refused(8, 0);
    }
    let mut writer = Writer { words: &mut words[..4 * records], number: 1 };
    for &pair in &book.pairs {
        writer.put(5, pair, 0, writer.number + 1);
    }
    for part in &condition.parts {
        match *part {
            Part::Policy(number) => {
                let policy = &book.policies[number as usize];
                if let Some(search) = &searches[number as usize] {
                    writer.policy(kind(policy, condition), policy.mask, search);
                }
            }
            Part::Min => writer.join(if condition.above { 2 } else { 3 }),
            Part::Max => writer.join(if condition.above { 3 } else { 2 }),
        }
    }
    Ok(records as u64)
}

fn kind(policy: &Policy, condition: &Condition) -> u32 {
    let quiet = (policy.default > condition.threshold) == condition.above;
    let turned = matches!(policy.operator, Operator::Sum | Operator::Max) != condition.above;
    16 + u32::from(quiet) + 2 * u32::from(turned)
}

/// The words of a listing, as many as it has, and the number of the record that is written next.
struct Writer<'a> {
    words: &'a mut [u32],
    number: usize,
}

impl Writer<'_> {
    fn put(&mut self, kind: u32, mask: u16, lines: usize, next: usize) {
        let from = 4 * (self.number - 1);
        self.words[from..from + 4].copy_from_slice(&[kind, mask.into(), lines as u32, next as u32]);
        self.number += 1;
    }

    /// The number of the node after so many lines, or 0 at the end.
    fn node_behind(&self, lines: usize) -> usize {
        if 4 * (self.number + lines) == self.words.len() { 0 } else { self.number + lines + 1 }
    }

    fn join(&mut self, kind: u32) {
        self.put(kind, 0, 0, self.node_behind(0));
    }

    fn policy(&mut self, kind: u32, mask: u16, search: &Search) {
        let last = self.number + search.lines;
        let first = if search.lines == 0 { 0 } else { self.number + 1 };
        self.put(kind, mask, first, self.node_behind(search.lines));
        search.each_line(&mut |line| {
            let next = if self.number == last { 0 } else { self.number + 1 };
            self.put(4, line, 0, next);
        });
    }
}

/// The search for a policy's lines; rules in falling rank. What is added up, or multiplied, is `value`; a set is a line
/// as soon as it is beyond the limit. `rest` is what all rules from one on would add, or leave of a unit.
struct Search {
    operator: Operator,
    limit: i64,
    rules: Vec<Rule>,
    rest: Vec<i64>,
    lines: usize,
}

const UNIT: i64 = 10i64.pow(16);

impl Search {
    fn new(policy: &Policy, threshold: i32) -> Search {
        let operator = policy.operator;
        let mut rules = policy.rules.clone();
        match operator {
            Operator::Sum | Operator::Max => rules.sort_unstable_by_key(|rule| (-rule.score, u8::MAX - rule.signal)),
            Operator::Mul | Operator::Min => rules.sort_unstable_by_key(|rule| (rule.score, u8::MAX - rule.signal)),
        }
        let limit = match operator {
            // A product lies between 0 and a unit, so nothing is lost.
            Operator::Mul => i64::from(threshold.clamp(-1, 100)) * (UNIT / 100),
            _ => i64::from(threshold),
        };
        let mut search = Search { operator, limit, rest: vec![0; rules.len()], rules, lines: 0 };
        let mut value = search.start();
        for index in (0..search.rules.len()).rev() {
            value = search.with(value, search.rules[index].score);
            search.rest[index] = value;
        }
        search.lines = search.count();
        search
    }

    fn start(&self) -> i64 {
        if self.operator == Operator::Mul { UNIT } else { 0 }
    }

    fn with(&self, value: i64, score: i32) -> i64 {
        match self.operator {
            Operator::Mul => value / 100 * i64::from(score),
            _ => value + i64::from(score),
        }
    }

    fn is_line(&self, value: i64) -> bool {
        if self.operator == Operator::Mul { value <= self.limit } else { value > self.limit }
    }

    /// Whether taking all rules from one on would make a line.
    fn in_reach(&self, value: i64, from: usize) -> bool {
        match self.operator {
            Operator::Mul => {
                i128::from(value) * i128::from(self.rest[from]) <= i128::from(self.limit) * i128::from(UNIT)
            }
            _ => value + self.rest[from] > self.limit,
        }
    }

    fn count(&self) -> usize {
        let mut lines = 0;
        self.each_line(&mut |_| lines += 1);
        lines
    }

    /// Tells the masks of the lines, in their order.
    fn each_line(&self, tell: &mut impl FnMut(u16)) {
        match self.operator {
            Operator::Max => self.singles(|score| score > self.limit, tell),
            Operator::Min => self.singles(|score| score <= self.limit, tell),
            _ => self.extend(0, self.start(), 0, tell),
        }
    }

    fn singles(&self, has: impl Fn(i64) -> bool, tell: &mut impl FnMut(u16)) {
        for rule in self.rules.iter().filter(|rule| has(rule.score.into())) {
            tell(1 << rule.signal);
        }
    }

    fn extend(&self, from: usize, value: i64, mask: u16, tell: &mut impl FnMut(u16)) {
        for index in from..self.rules.len() {
            if !self.in_reach(value, index) {
                return;
            }
            let rule = self.rules[index];
            let (value, mask) = (self.with(value, rule.score), mask | 1 << rule.signal);
            if self.is_line(value) { tell(mask) } else { self.extend(index + 1, value, mask, tell) }
        }
    }
}
