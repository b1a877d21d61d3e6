//! Reading a book in one pass.

use super::refused;
use cerahupo::Refusal;

#[derive(Clone, Copy, PartialEq)]
pub enum Operator {
    Min,
    Max,
    Sum,
    Mul,
}

#[derive(Clone, Copy)]
pub struct Rule {
    pub signal: u8,
    pub score: i32,
}

pub struct Policy {
    pub operator: Operator,
    pub default: i32,
    pub mask: u16,
    pub rules: Vec<Rule>,
}

/// A part of an expression, in the order left, right, join.
#[derive(Clone, Copy)]
pub enum Part {
    Policy(u8),
    Min,
    Max,
}

pub struct Condition {
    pub threshold: i32,
    /// Whether the score must be above the threshold, or at most the threshold.
    pub above: bool,
    pub parts: Vec<Part>,
}

#[derive(Default)]
pub struct Book {
    pub policies: Vec<Policy>,
    /// The masks of the excluded pairs.
    pub pairs: Vec<u16>,
    pub conditions: Vec<Condition>,
    /// Whether it begins with `o`.
    old_zero: bool,
}

impl Book {
    pub fn read(bytes: &[u8]) -> Result<Book, Refusal> {
        if bytes.len() > 8192 {
            return refused(1, 0);
        }
        let mut book = Book::default();
        let mut rest = bytes;
        let mut line = 0;
        let mut rules_may_follow = false;
        if let Some(below) = bytes.strip_prefix(b"o\n") {
            book.old_zero = true;
            rest = below;
            line = 1;
        }
        while !rest.is_empty() {
            line += 1;
            let length = rest.iter().position(|&byte| byte == b'\n').unwrap_or(rest.len());
            if length > 128 {
                return refused(1, line);
            }
            if length == rest.len() {
                return refused(2, line);
            }
            match book.take_line(&rest[..length], &mut rules_may_follow) {
                Ok(()) => rest = &rest[length + 1..],
                Err(number) => return refused(number, line),
            }
        }
        Ok(book)
    }

    pub fn condition(&self, number: u32) -> Result<&Condition, Refusal> {
        match self.conditions.get(number as usize) {
            Some(condition) => Ok(condition),
            None => refused(7, 0),
        }
    }

    fn take_line(&mut self, line: &[u8], rules_may_follow: &mut bool) -> Result<(), u8> {
        let fields = Cursor { bytes: line.get(2..).unwrap_or(&[]) };
        match line {
            [b'r', b' ', ..] => self.take_rule(fields, *rules_may_follow),
            [b'p', b' ', ..] => {
                self.take_policy(fields)?;
                *rules_may_follow = true;
                Ok(())
            }
            [b'x', b' ', ..] => {
                self.take_exclusion(fields)?;
                *rules_may_follow = false;
                Ok(())
            }
            [b'c', b' ', ..] => {
                self.take_condition(fields)?;
                *rules_may_follow = false;
                Ok(())
            }
            b"o" => Err(3),
            _ => Err(2),
        }
    }

    fn take_policy(&mut self, mut fields: Cursor) -> Result<(), u8> {
        let operator = fields.operator().ok_or(2)?;
        let default = match fields.bytes {
            [] if matches!(operator, Operator::Min | Operator::Mul) && !self.old_zero => 100,
            [] => 0,
            _ => fields.byte(b' ').and_then(|()| fields.number()).ok_or(2)?,
        };
        fields.end()?;
        if !self.conditions.is_empty() {
            return Err(3);
        }
        if self.policies.len() == 16 {
            return Err(4);
        }
        if default.abs() > 10_000 {
            return Err(5);
        }
        self.policies.push(Policy { operator, default, mask: 0, rules: Vec::new() });
        Ok(())
    }

    fn take_rule(&mut self, mut fields: Cursor, may_follow: bool) -> Result<(), u8> {
        let (signal, score) = fields.rule().ok_or(2)?;
        fields.end()?;
        let policy = self.policies.last_mut().filter(|_| may_follow).ok_or(3)?;
        let (least, most) = match policy.operator {
            Operator::Sum => (0, 10_000),
            Operator::Mul => (0, 100),
            Operator::Min | Operator::Max => (-10_000, 10_000),
        };
        if policy.operator == Operator::Mul && policy.rules.len() == 8 {
            return Err(4);
        }
        if signal > 15 || score < least || score > most {
            return Err(5);
        }
        if policy.mask >> signal & 1 == 1 {
            return Err(6);
        }
        policy.mask |= 1 << signal;
        policy.rules.push(Rule { signal: signal as u8, score });
        Ok(())
    }

    fn take_exclusion(&mut self, mut fields: Cursor) -> Result<(), u8> {
        let (first, second) = fields.signals().ok_or(2)?;
        fields.end()?;
        if !self.conditions.is_empty() {
            return Err(3);
        }
        if self.pairs.len() == 16 {
            return Err(4);
        }
        if first > 15 || second > 15 || first == second {
            return Err(5);
        }
        let pair = 1 << first | 1 << second;
        if self.pairs.contains(&pair) {
            return Err(6);
        }
        self.pairs.push(pair);
        Ok(())
    }

    fn take_condition(&mut self, mut fields: Cursor) -> Result<(), u8> {
        let (threshold, above) = fields.comparison().ok_or(2)?;
        let mut expression = Expression { parts: Vec::with_capacity(31), highest: 0 };
        fields.expression(&mut expression).ok_or(2)?;
        fields.end()?;
        if self.conditions.len() == 8 {
            return Err(4);
        }
        if threshold.abs() > 200_000 || expression.highest >= self.policies.len() as i32 {
            return Err(5);
        }
        self.conditions.push(Condition { threshold, above, parts: expression.parts });
        Ok(())
    }
}

struct Expression {
    parts: Vec<Part>,
    highest: i32,
}

/// The unread bytes of a line.
struct Cursor<'a> {
    bytes: &'a [u8],
}

impl Cursor<'_> {
    fn byte(&mut self, byte: u8) -> Option<()> {
        self.text(&[byte])
    }

    fn text(&mut self, text: &[u8]) -> Option<()> {
        self.bytes = self.bytes.strip_prefix(text)?;
        Some(())
    }

    fn end(&self) -> Result<(), u8> {
        if self.bytes.is_empty() { Ok(()) } else { Err(2) }
    }

    fn operator(&mut self) -> Option<Operator> {
        let (name, rest) = self.bytes.split_first_chunk::<3>()?;
        self.bytes = rest;
        match name {
            b"min" => Some(Operator::Min),
            b"max" => Some(Operator::Max),
            b"sum" => Some(Operator::Sum),
            b"mul" => Some(Operator::Mul),
            _ => None,
        }
    }

    fn rule(&mut self) -> Option<(i32, i32)> {
        let signal = self.natural()?;
        self.byte(b' ')?;
        Some((signal, self.number()?))
    }

    fn signals(&mut self) -> Option<(i32, i32)> {
        let first = self.natural()?;
        self.byte(b' ')?;
        Some((first, self.natural()?))
    }

    fn comparison(&mut self) -> Option<(i32, bool)> {
        let threshold = self.number()?;
        let above = self.text(b" < ").is_some();
        if !above {
            self.text(b" >= ")?;
        }
        Some((threshold, above))
    }

    fn expression(&mut self, into: &mut Expression) -> Option<()> {
        match self.bytes {
            [b'p', ..] => {
                self.byte(b'p')?;
                let policy = self.natural()?;
                into.highest = into.highest.max(policy);
                into.parts.push(Part::Policy(policy as u8));
                Some(())
            }
            [b'm', b'i', ..] => self.join(b"min(", Part::Min, into),
            _ => self.join(b"max(", Part::Max, into),
        }
    }

    fn join(&mut self, opening: &[u8], part: Part, into: &mut Expression) -> Option<()> {
        self.text(opening)?;
        self.expression(into)?;
        self.byte(b',')?;
        self.expression(into)?;
        into.parts.push(part);
        self.byte(b')')
    }

    fn number(&mut self) -> Option<i32> {
        if self.byte(b'-').is_none() {
            return self.natural();
        }
        self.natural().filter(|&value| value != 0).map(|value| -value)
    }

    fn natural(&mut self) -> Option<i32> {
        let digits = self.bytes.iter().take_while(|byte| byte.is_ascii_digit()).count();
        if digits == 0 || digits > 6 || (digits > 1 && self.bytes[0] == b'0') {
            return None;
        }
        let (number, rest) = self.bytes.split_at(digits);
        self.bytes = rest;
        Some(number.iter().fold(0, |value, &byte| 10 * value + i32::from(byte - b'0')))
    }
}
