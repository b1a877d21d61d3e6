//! A small generator (splitmix64), and the two variables that steer a run.

use std::io::Write;
use std::ops::RangeInclusive;
use std::sync::OnceLock;
use std::time::SystemTime;

pub struct Random(u64);

impl Random {
    /// The run's generator for one test: every test has a stream of its own, whichever others run.
    pub fn of(test: &str) -> Random {
        let name = test.bytes().fold(0u64, |hash, byte| hash.wrapping_mul(131).wrapping_add(byte.into()));
        Random(seed() ^ name)
    }

    pub fn next(&mut self) -> u64 {
        self.0 = self.0.wrapping_add(0x9e37_79b9_7f4a_7c15);
        let mixed = (self.0 ^ self.0 >> 30).wrapping_mul(0xbf58_476d_1ce4_e5b9);
        let mixed = (mixed ^ mixed >> 27).wrapping_mul(0x94d0_49bb_1331_11eb);
        mixed ^ mixed >> 31
    }

    pub fn below(&mut self, limit: usize) -> usize {
        (self.next() % limit as u64) as usize
    }

    pub fn within(&mut self, range: RangeInclusive<i64>) -> i64 {
        range.start() + self.below((range.end() - range.start() + 1) as usize) as i64
    }

    /// Small numbers more often than large ones.
    pub fn mostly_few(&mut self, most: usize) -> usize {
        let limit = self.below(most + 1);
        self.below(limit + 1)
    }

    pub fn one_in(&mut self, count: usize) -> bool {
        self.below(count) == 0
    }

    pub fn pick<'a, T>(&mut self, items: &'a [T]) -> &'a T {
        &items[self.below(items.len())]
    }

    pub fn shuffle<T>(&mut self, items: &mut [T]) {
        for last in (1..items.len()).rev() {
            items.swap(last, self.below(last + 1));
        }
    }

    pub fn set(&mut self) -> u16 {
        match self.below(4) {
            0 => *self.pick(&[0, 1, 0x8000, u16::MAX]),
            1 => (self.next() & self.next()) as u16,
            2 => (self.next() | self.next()) as u16,
            _ => self.next() as u16,
        }
    }
}

/// How often to do what is done so many times by default; CERAHUPO_ROUNDS multiplies.
pub fn rounds(default: usize) -> usize {
    default * variable("CERAHUPO_ROUNDS").unwrap_or(1) as usize
}

/// Says it even where the test harness keeps what passing tests print to itself; in one write, since tests run side by
/// side.
pub fn say(text: &str) {
    std::io::stderr().write_all(format!("{text}\n").as_bytes()).expect("standard error can be written");
}

fn seed() -> u64 {
    static SEED: OnceLock<u64> = OnceLock::new();
    *SEED.get_or_init(|| {
        let clock = || SystemTime::UNIX_EPOCH.elapsed().map_or(0, |time| time.as_nanos() as u64);
        let seed = variable("CERAHUPO_SEED").unwrap_or_else(clock);
        say(&format!("CERAHUPO_SEED={seed}"));
        seed
    })
}

fn variable(name: &str) -> Option<u64> {
    let text = std::env::var(name).ok()?;
    Some(text.parse().unwrap_or_else(|_| panic!("{name} must be a whole number")))
}
