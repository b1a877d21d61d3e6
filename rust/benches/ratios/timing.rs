//! Times a call and its counterpart side by side, and prints a row for both.

use std::cell::Cell;
use std::fmt::Debug;
use std::time::Instant;

/// Each round repeats a call for about so many nanoseconds: less than a busy machine gives a process at a time.
const ROUND: f64 = 1e6;

/// Whether the command line names this part of the bench, or none.
pub fn asked(part: &str) -> bool {
    std::env::args().skip(1).find(|word| !word.starts_with('-')).is_none_or(|word| word == part)
}

/// Rows whose calls are timed against the same kind of counterpart.
pub struct Table {
    rounds: usize,
    other: &'static str,
    quotient: Quotient,
    begun: Cell<bool>,
}

/// What is told of the two times of a round.
#[derive(Clone, Copy)]
pub enum Quotient {
    /// The call's time by the other's.
    Ratio,
    /// How many times as long the other takes.
    Times,
}

/// What an input is and how large, in the unit that its cost is told by.
pub struct Input<'a> {
    pub call: &'a str,
    pub name: &'a str,
    pub size: usize,
    pub unit: &'a str,
}

impl Table {
    /// Where the counterpart takes long, a share of the rounds is enough: one in so many.
    pub fn new(other: &'static str, quotient: Quotient, share: usize) -> Table {
        let rounds = std::env::var("CERAHUPO_ROUNDS").ok().and_then(|text| text.parse().ok()).unwrap_or(41usize);
        Table { rounds: rounds.div_ceil(share), other, quotient, begun: Cell::new(false) }
    }

    /// Both must answer alike; they take turns, each the first in every other round, so that a busy machine slows both.
    pub fn row<A: PartialEq + Debug>(&self, input: Input, mut call: impl FnMut() -> A, mut other: impl FnMut() -> A) {
        assert_eq!(call(), other(), "{} {}", input.call, input.name);
        let once = time(1, &mut call).max(time(1, &mut other)).max(1.0);
        let repeats = (ROUND / once).clamp(1.0, 100_000.0) as usize;
        let mut times = Vec::new();
        for round in 0..self.rounds {
            let early = (round % 2 == 1).then(|| time(repeats, &mut other));
            let by_call = time(repeats, &mut call);
            times.push((by_call, early.unwrap_or_else(|| time(repeats, &mut other))));
        }
        if !self.begun.replace(true) {
            self.print_heading();
        }
        self.print_row(&input, &times);
    }

    fn print_heading(&self) {
        let (name, meaning) = match self.quotient {
            Quotient::Ratio => ("ratio", format!("call / {}", self.other)),
            Quotient::Times => ("times", format!("{} / call", self.other)),
        };
        println!("medians of {} rounds; {name}: {meaning} of a round; low and high: its quartiles", self.rounds);
        println!(
            "{:8} {:44} {:>15} {:>11} {:>11} {:>6} {:>5} {:>5} {:>10}",
            "call",
            "input",
            "size",
            "call ns",
            format!("{} ns", self.other),
            name,
            "low",
            "high",
            "ns a unit"
        );
    }

    fn print_row(&self, input: &Input, times: &[(f64, f64)]) {
        let call = sorted(times.iter().map(|time| time.0));
        let other = sorted(times.iter().map(|time| time.1));
        let quotients = sorted(times.iter().map(|&(call, other)| match self.quotient {
            Quotient::Ratio => call / other,
            Quotient::Times => other / call,
        }));
        let middle = times.len() / 2;
        println!(
            "{:8} {:44} {:>15} {:>11.0} {:>11.0} {:>6} {:>5} {:>5} {:>10.2}",
            input.call,
            input.name,
            format!("{} {}", input.size, input.unit),
            call[middle],
            other[middle],
            short(quotients[middle]),
            short(quotients[times.len() / 4]),
            short(quotients[3 * times.len() / 4]),
            call[middle] / input.size as f64
        );
    }
}

/// Nanoseconds for one run, out of so many.
fn time<A>(repeats: usize, run: &mut impl FnMut() -> A) -> f64 {
    let start = Instant::now();
    for _ in 0..repeats {
        std::hint::black_box(run());
    }
    start.elapsed().as_nanos() as f64 / repeats as f64
}

fn sorted(times: impl Iterator<Item = f64>) -> Vec<f64> {
    let mut times: Vec<f64> = times.collect();
    times.sort_by(f64::total_cmp);
    times
}

/// Three digits of a quotient, or all before its point.
fn short(quotient: f64) -> String {
    if quotient < 10.0 { format!("{quotient:.2}") } else { format!("{quotient:.0}") }
}
