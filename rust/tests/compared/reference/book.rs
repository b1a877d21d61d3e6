//! Reading a book: lines, their forms, and the tests 1 to 6 in their order.

use super::refused;
use cerahupo::Refusal;

#[derive(Clone, Copy, PartialEq)]
pub enum Operator {
    Min,
    Max,
    Sum,
    Mul,
}

#[derive(Clone, Copy)]
pub struct Rule {
    pub signal: i64,
    pub score: i64,
}

pub struct Policy {
    pub operator: Operator,
    pub default: i64,
    pub rules: Vec<Rule>,
}

pub enum Expression {
    Policy(i64),
    Min(Box<Expression>, Box<Expression>),
    Max(Box<Expression>, Box<Expression>),
}

/// `Less` for `c T < E`, `AtMost` for `c T >= E`: how the threshold or the score stands to the other.
#[derive(Clone, Copy)]
pub enum Sense {
    Less,
    AtMost,
}

pub struct Condition {
    pub threshold: i64,
    pub sense: Sense,
    pub expression: Expression,
}

#[derive(Default)]
pub struct Book {
    pub policies: Vec<Policy>,
    pub exclusions: Vec<[i64; 2]>,
    pub conditions: Vec<Condition>,
}

enum Form {
    OldZero,
    Policy(Operator, Option<i64>),
    Rule(Rule),
    Exclusion([i64; 2]),
    Condition(Condition),
}

pub fn read(bytes: &[u8]) -> Result<Book, Refusal> {
    if bytes.len() > 8192 {
        return refused(1, 0);
    }
    let mut book = Book::default();
    let old_zero = bytes.starts_with(b"o\n");
    let mut rule_may_follow = false;
    for (above, line) in bytes.split_inclusive(|&byte| byte == 10).enumerate().skip(old_zero as usize) {
        match take_line(&mut book, old_zero, rule_may_follow, line) {
            Ok(may) => rule_may_follow = may,
            Err(number) => return refused(number, above + 1),
        }
    }
    Ok(book)
}

/// Adds a line, with its end if it has one, but not the `o` that a book may begin with; tells whether a rule may follow, or
/// the number that refuses the line.
fn take_line(book: &mut Book, old_zero: bool, rule_may_follow: bool, line: &[u8]) -> Result<bool, u8> {
    let ended = line.last() == Some(&10);
    let text = if ended { &line[..line.len() - 1] } else { line };
    if text.len() > 128 {
        return Err(1);
    }
    let form = if ended { form(text) } else { None };
    match form.ok_or(2)? {
        Form::OldZero => return Err(3),
        Form::Policy(operator, default) => {
            let default = default.unwrap_or(if old_zero { 0 } else { missing_default(operator) });
            add_policy(book, Policy { operator, default, rules: Vec::new() })?
        }
        Form::Rule(rule) if rule_may_follow => add_rule(book.policies.last_mut().ok_or(3)?, rule)?,
        Form::Rule(_) => return Err(3),
        Form::Exclusion(signals) => {
            add_exclusion(book, signals)?;
            return Ok(false);
        }
        Form::Condition(condition) => {
            add_condition(book, condition)?;
            return Ok(false);
        }
    }
    Ok(true)
}

/// The default of a policy that gives none, in a book that does not begin with `o`.
fn missing_default(operator: Operator) -> i64 {
    match operator {
        Operator::Min | Operator::Mul => 100,
        Operator::Sum | Operator::Max => 0,
    }
}

fn add_policy(book: &mut Book, policy: Policy) -> Result<(), u8> {
    refuse_if(!book.conditions.is_empty(), 3)?;
    refuse_if(book.policies.len() == 16, 4)?;
    refuse_if(policy.default.abs() > 10_000, 5)?;
    book.policies.push(policy);
    Ok(())
}

fn add_rule(policy: &mut Policy, rule: Rule) -> Result<(), u8> {
    let scores = match policy.operator {
        Operator::Sum => 0..=10_000,
        Operator::Mul => 0..=100,
        Operator::Min | Operator::Max => -10_000..=10_000,
    };
    refuse_if(policy.operator == Operator::Mul && policy.rules.len() == 8, 4)?;
    refuse_if(rule.signal > 15 || !scores.contains(&rule.score), 5)?;
    refuse_if(policy.rules.iter().any(|other| other.signal == rule.signal), 6)?;
    policy.rules.push(rule);
    Ok(())
}

fn add_exclusion(book: &mut Book, signals: [i64; 2]) -> Result<(), u8> {
    let [first, second] = signals;
    refuse_if(!book.conditions.is_empty(), 3)?;
    refuse_if(book.exclusions.len() == 16, 4)?;
    refuse_if(first > 15 || second > 15 || first == second, 5)?;
    refuse_if(book.exclusions.contains(&[first, second]) || book.exclusions.contains(&[second, first]), 6)?;
    book.exclusions.push(signals);
    Ok(())
}

fn add_condition(book: &mut Book, condition: Condition) -> Result<(), u8> {
    refuse_if(book.conditions.len() == 8, 4)?;
    refuse_if(condition.threshold.abs() > 200_000, 5)?;
    refuse_if(!belongs(&condition.expression, book.policies.len() as i64), 5)?;
    book.conditions.push(condition);
    Ok(())
}

fn refuse_if(bad: bool, number: u8) -> Result<(), u8> {
    if bad { Err(number) } else { Ok(()) }
}

fn belongs(expression: &Expression, policies: i64) -> bool {
    match expression {
        Expression::Policy(number) => *number < policies,
        Expression::Min(left, right) | Expression::Max(left, right) => {
            belongs(left, policies) && belongs(right, policies)
        }
    }
}

fn form(line: &[u8]) -> Option<Form> {
    let text = std::str::from_utf8(line).ok()?;
    match text.split(' ').collect::<Vec<_>>()[..] {
        ["o"] => Some(Form::OldZero),
        ["p", name] => Some(Form::Policy(operator(name)?, None)),
        ["p", name, default] => Some(Form::Policy(operator(name)?, Some(number(default)?))),
        ["r", signal, score] => Some(Form::Rule(Rule { signal: natural(signal)?, score: number(score)? })),
        ["x", first, second] => Some(Form::Exclusion([natural(first)?, natural(second)?])),
        ["c", threshold, "<", set] => condition(threshold, Sense::Less, set),
        ["c", threshold, ">=", set] => condition(threshold, Sense::AtMost, set),
        _ => None,
    }
}

fn operator(name: &str) -> Option<Operator> {
    match name {
        "min" => Some(Operator::Min),
        "max" => Some(Operator::Max),
        "sum" => Some(Operator::Sum),
        "mul" => Some(Operator::Mul),
        _ => None,
    }
}

fn condition(threshold: &str, sense: Sense, set: &str) -> Option<Form> {
    let (expression, "") = expression(set)? else { return None };
    Some(Form::Condition(Condition { threshold: number(threshold)?, sense, expression }))
}

/// An expression from the front of a text, and the text after it.
fn expression(text: &str) -> Option<(Expression, &str)> {
    if let Some(inner) = text.strip_prefix("min(") {
        let (left, right, rest) = pair(inner)?;
        return Some((Expression::Min(left, right), rest));
    }
    if let Some(inner) = text.strip_prefix("max(") {
        let (left, right, rest) = pair(inner)?;
        return Some((Expression::Max(left, right), rest));
    }
    let digits = text.strip_prefix('p')?;
    let end = digits.find(|c: char| !c.is_ascii_digit()).unwrap_or(digits.len());
    Some((Expression::Policy(natural(&digits[..end])?), &digits[end..]))
}

fn pair(text: &str) -> Option<(Box<Expression>, Box<Expression>, &str)> {
    let (left, rest) = expression(text)?;
    let (right, rest) = expression(rest.strip_prefix(',')?)?;
    Some((Box::new(left), Box::new(right), rest.strip_prefix(')')?))
}

/// A number is spelled as it would be printed: no `+`, no leading zero, no `-0`.
fn number(text: &str) -> Option<i64> {
    let value: i64 = text.parse().ok()?;
    (value.to_string() == text && value.abs() <= 999_999).then_some(value)
}

fn natural(text: &str) -> Option<i64> {
    number(text).filter(|&value| value >= 0)
}
