//! Books and listings of growing size.

/// Document 01's book.
pub const SAMPLE: &str = "p sum 0\nr 0 40\nr 1 30\nr 2 30\np min 100\nr 3 20\nc 50 < min(p0,p1)\n";

/// A policy with so many rules.
pub fn policy(operator: &str, rules: usize, score: impl Fn(usize) -> i64) -> String {
    let rules: String = (0..rules).map(|signal| format!("r {signal} {}\n", score(signal))).collect();
    format!("p {operator} 5\n{rules}")
}

/// So many policies of 16 rules, and as many conditions, eight at most, each over 13 mentions.
pub fn wide_book(policies: usize) -> String {
    let operators = ["sum", "max", "min"];
    let text: String =
        (0..policies).map(|p| policy(operators[p % 3], 16, |signal| 9_000 + (37 * signal) as i64)).collect();
    let conditions: String =
        (1..=policies.min(8)).map(|c| format!("c {c}000 < {}\n", mentions(13, policies))).collect();
    text + &conditions
}

/// An expression that mentions policies in turn, joined from the left.
pub fn mentions(count: usize, policies: usize) -> String {
    (1..count).fold("p0".to_string(), |set, mention| {
        let name = if mention % 2 == 0 { "min" } else { "max" };
        format!("{name}({set},p{})", mention % policies)
    })
}

/// One sum of so many equal scores, of which more than half must be present: the most lines that so many rules have.
pub fn sum_book(rules: usize) -> String {
    format!("{}c {} < p0\n", policy("sum", rules, |_| 1), rules / 2 - 1)
}

/// The same with a second policy that never lets the condition be met, so that every set is walked.
pub fn never_book(rules: usize) -> String {
    format!("{}p min 0\nc {} < min(p0,p1)\n", policy("sum", rules, |_| 1), rules / 2 - 1)
}

/// A sum of so many scores of 100 and a little more: a limit just below N hundred asks for N rules. What is above 100
/// decides nothing but the order of the lines.
fn hundreds(rules: usize, above: fn(usize) -> i64) -> String {
    policy("sum", rules, |signal| 100 + above(signal))
}

/// Scores that rank the rules in another order than their signals.
pub fn mixed(signal: usize) -> i64 {
    (5 * signal % 16) as i64
}

/// At least so many of 16 rules: 4,369 records for five, 11,441 for seven, 12,871 for eight.
pub fn count_book(present: usize, above: fn(usize) -> i64) -> String {
    format!("{}c {} < p0\n", hundreds(16, above), 100 * present - 1)
}

/// At least seven of 16 rules, or at least seven of the first eight, which changes nothing: 11,451 records.
pub fn idle_book(above: fn(usize) -> i64) -> String {
    format!("{}{}c 699 < max(p0,p1)\n", hundreds(16, above), hundreds(8, above))
}

/// At least nine of 16 rules, and none of the first eight, so never: 11,451 records.
pub fn vain_book() -> String {
    let none: String = (0..8).map(|signal| format!("r {signal} 0\n")).collect();
    format!("{}p min 1000\n{none}c 899 < min(p0,p1)\n", hundreds(16, |_| 0))
}

/// Sixteen exclusions: of each signal and the next one, and of the last and the first.
pub fn exclusions() -> String {
    (0..16).map(|signal| format!("x {signal} {}\n", (signal + 1) % 16)).collect()
}

/// 15 mentions of one sum, and again one that never lets the condition be met.
pub fn never_mentions(rules: usize) -> String {
    format!("{}p min 0\nc {} < min({},p1)\n", policy("sum", rules, |_| 1), rules / 2 - 1, mentions(15, 1))
}

/// 16 mentions of one sum.
pub fn many_mentions(rules: usize) -> String {
    format!("{}c {} < {}\n", policy("sum", rules, |_| 1), rules / 2 - 1, mentions(16, 1))
}

/// The signal sets of so many corners, spread over all that there are.
pub fn corners(count: usize) -> Vec<u16> {
    (0..count).map(|corner| (corner * 40_503 + 12_345) as u16).collect()
}

/// The listing of a book's condition 0.
pub fn listing(book: &str) -> Vec<u32> {
    let mut words = vec![0; 1 << 20];
    let records = cerahupo::compile(book.as_bytes(), 0, &mut words).expect("there is room");
    words.truncate(4 * records as usize);
    words
}

/// One policy with 4,095 lines, none of which lies inside any set but 65,535.
pub fn long_listing() -> Vec<u32> {
    let lines = (2..=4096).flat_map(|record| [4, 65_535, 0, if record == 4096 { 0 } else { record + 1 }]);
    [16, 65_535, 2, 0].into_iter().chain(lines).collect()
}
