//! Each call against optimised Rust for the same call: `cargo bench`, or `cargo bench -- read` for one of them.
//! `traverse` also against a loop of `read`, and against Rust that copies the masks together first; `choice` and `compare`
//! also against a loop over single sets, and with `z3` against Z3 where there is one.
//! Lent words are not cleared between calls unless a row says so.

mod optimised;
mod samples;
mod single;
mod timing;
mod z3;

use cerahupo::{Choice, Chosen, Comparison, Decision, Declined, Refusal};
use samples::{
    SAMPLE, corners, count_book, exclusions, idle_book, listing, long_listing, many_mentions, mixed, never_book,
    never_mentions, policy, sum_book, vain_book, wide_book,
};
use timing::{Input, Quotient, Table, asked};

/// Prints the rows of a call.
type Rows = fn(&Table);

fn main() {
    let calls: [(&str, Rows); 8] = [
        ("check", check),
        ("decide", decide),
        ("score", score),
        ("compile", compile),
        ("read", read),
        ("traverse", traverse),
        ("choice", choice),
        ("compare", compare),
    ];
    let table = Table::new("Rust", Quotient::Ratio, 1);
    calls.iter().filter(|call| asked(call.0)).for_each(|call| call.1(&table));
    if asked("traverse") {
        traverse_by_copied_masks(&Table::new("copied", Quotient::Ratio, 1));
    }
    let table = Table::new("single", Quotient::Times, 4);
    if asked("traverse") {
        traverse_by_single_calls(&table);
    }
    if asked("choice") {
        choice_by_single_sets(&table);
    }
    if asked("compare") {
        compare_by_single_sets(&table);
    }
    if asked("z3") {
        by_z3(&Table::new("z3", Quotient::Times, 9));
    }
}

fn check(table: &Table) {
    let row = |name: &str, book: &[u8]| {
        let input = Input { call: "check", name, size: book.len(), unit: "bytes" };
        table.row(input, || cerahupo::check(book), || optimised::check(book));
    };
    row("the sample", SAMPLE.as_bytes());
    for policies in [1, 2, 4, 8, 16] {
        row(&format!("policies of 16 rules: {policies}, and conditions"), wide_book(policies).as_bytes());
    }
    row("the same, last line not ended", wide_book(16).trim_end().as_bytes());
    row("products of 8 rules: 16", policy("mul", 8, |score| 90 + score as i64).repeat(16).as_bytes());
    row("the sample with 16 exclusions", (exclusions() + SAMPLE).as_bytes());
}

fn decide(table: &Table) {
    for (name, book, set) in scored() {
        let input = Input { call: "decide", name: &name, size: book.len(), unit: "bytes" };
        let book = book.as_bytes();
        table.row(input, || cerahupo::decide(book, 0, set), || optimised::decide(book, 0, set));
    }
}

fn score(table: &Table) {
    for (name, book, set) in scored() {
        let input = Input { call: "score", name: &name, size: book.len(), unit: "bytes" };
        let book = book.as_bytes();
        table.row(input, || cerahupo::score(book, 0, set), || optimised::score(book, 0, set));
    }
}

/// Books whose condition 0 is scored on a set.
fn scored() -> Vec<(String, String, u16)> {
    let mut rows = vec![("the sample, set 11".to_string(), SAMPLE.to_string(), 11)];
    for policies in [1, 2, 4, 8, 16] {
        rows.push((format!("policies of 16 rules: {policies}, all present"), wide_book(policies), u16::MAX));
    }
    rows.push(("the same, none present".to_string(), wide_book(16), 0));
    rows.push(("one product of 8".to_string(), policy("mul", 8, |score| 90 + score as i64) + "c 40 < p0\n", 255));
    rows
}

fn compile(table: &Table) {
    compile_row(table, "the sample", SAMPLE, 0, false);
    compile_row(table, "the sample with 16 exclusions", &(exclusions() + SAMPLE), 0, false);
    compile_row(table, "one max of 16", &(policy("max", 16, |score| score as i64) + "c 2 < p0\n"), 0, false);
    compile_row(table, "one product of 8", &(policy("mul", 8, |score| 50 + score as i64) + "c 10 >= p0\n"), 0, false);
    compile_row(
        table,
        "a sum of 16, each a line",
        &(policy("sum", 16, |score| score as i64) + "c -1 < p0\n"),
        0,
        false,
    );
    for rules in [8, 12, 16] {
        compile_row(table, &format!("a sum of {rules} equal rules"), &sum_book(rules), 0, false);
    }
    compile_row(
        table,
        "a sum of 16 different rules",
        &(policy("sum", 16, |v| 90 + 7 * v as i64) + "c 1000 < p0\n"),
        0,
        false,
    );
    compile_row(table, "16 mentions of a sum of 12 rules", &many_mentions(12), 0, false);
    compile_row(table, "16 mentions of a sum of 16 rules", &many_mentions(16), 0, false);
    compile_row(table, "a sum of 16 equal rules, words cleared", &sum_book(16), 0, true);
    compile_row(table, "a sum of 16 equal rules, a word too few", &sum_book(16), 1, false);
}

/// Compiles into a slice that is so many words too short, each side into one of its own.
fn compile_row(table: &Table, name: &str, book: &str, short: usize, clear: bool) {
    let words = listing(book).len();
    let (mut one, mut two) = (vec![0; words - short], vec![0; words - short]);
    let input = Input { call: "compile", name, size: words / 4, unit: "records" };
    let prepare = |lent: &mut [u32]| {
        if clear {
            lent.fill(0);
        }
    };
    let call = || {
        prepare(&mut one);
        cerahupo::compile(book.as_bytes(), 0, &mut one)
    };
    let rust = || {
        prepare(&mut two);
        optimised::compile(book.as_bytes(), 0, &mut two)
    };
    table.row(input, call, rust);
    assert!(one == two, "words of {name}");
}

fn read(table: &Table) {
    let row = |name: &str, book: &str, set: u16| {
        let words = listing(book);
        let input = Input { call: "read", name, size: words.len() / 4, unit: "records" };
        table.row(input, || cerahupo::read(&words, set), || optimised::read(&words, set));
    };
    row("the sample, set 11", SAMPLE, 11);
    for rules in [8, 12, 16] {
        row(&format!("a sum of {rules} rules, no line inside"), &sum_book(rules), 1);
        row(&format!("a sum of {rules} rules, first line inside"), &sum_book(rules), u16::MAX);
    }
    row("the sample with 16 exclusions, set 11", &(exclusions() + SAMPLE), 11);
    row("16 mentions of a sum of 12, no line inside", &many_mentions(12), 1);
    row("16 mentions of a sum of 16, no line inside", &many_mentions(16), 1);
}

fn traverse(table: &Table) {
    traverse_rows(table, optimised::traverse);
}

fn traverse_by_copied_masks(table: &Table) {
    traverse_rows(table, single::traverse);
}

/// A call of `read` for each corner.
fn traverse_by_single_calls(table: &Table) {
    traverse_rows(table, |words, sets, answers| {
        for (answer, &set) in answers.iter_mut().zip(sets) {
            *answer = u8::from(cerahupo::read(words, set)? == Decision::Yes);
        }
        Ok(sets.len() as u64)
    });
}

type Traverse = fn(&[u32], &[u16], &mut [u8]) -> Result<u64, Refusal>;

/// Small and large listings for one corner and for many, each side with answers of its own.
fn traverse_rows(table: &Table, rust: Traverse) {
    for (name, book) in [("the sample", SAMPLE), ("a sum of 8", &sum_book(8)), ("a sum of 12", &sum_book(12))] {
        let words = listing(book);
        for count in [1, 100, 10_000] {
            let sets = corners(count);
            let (mut one, mut two) = (vec![7; count], vec![8; count]);
            let name = format!("{name}, records: {}", words.len() / 4);
            let input = Input { call: "traverse", name: &name, size: count, unit: "corners" };
            table.row(input, || cerahupo::traverse(&words, &sets, &mut one), || rust(&words, &sets, &mut two));
            assert!(one == two, "answers of {name}");
        }
    }
}

fn choice(table: &Table) {
    let row = |name: &str, words: &[u32]| choice_row(table, name, words, optimised::choice);
    row("the sample, yes at set 3", &listing(SAMPLE));
    row("a sum of 16, yes at set 255", &listing(&sum_book(16)));
    walked_choices().iter().for_each(|(name, words)| row(name, words));
}

fn choice_by_single_sets(table: &Table) {
    walked_choices().iter().for_each(|(name, words)| choice_row(table, name, words, single::choice));
}

fn choice_row(table: &Table, name: &str, words: &[u32], rust: fn(&[u32]) -> Result<Chosen, Refusal>) {
    let input = Input { call: "choice", name, size: words.len() / 4, unit: "records" };
    table.row(input, || cerahupo::choice(words), || rust(words));
}

/// Listings all of whose sets are walked.
fn walked_choices() -> Vec<(String, Vec<u32>)> {
    let mut rows = vec![("no lines, all sets walked".to_string(), listing("p sum\nc 5 < p0\n"))];
    for rules in [4, 8, 10, 12, 14, 16] {
        rows.push((format!("a sum of {rules} and never, all sets walked"), listing(&never_book(rules))));
    }
    // Of the 65,536 sets, 2,207 hold none of the pairs.
    rows.push(("a sum of 8, never, 16 exclusions, all walked".to_string(), listing(&(exclusions() + &never_book(8)))));
    rows.push(("4,095 lines, yes at set 65,535".to_string(), long_listing()));
    rows.push(("15 mentions of a sum of 6, never, all walked".to_string(), listing(&never_mentions(6))));
    rows
}

fn compare(table: &Table) {
    let (one, two) = (listing(SAMPLE), listing(&sum_book(16)));
    compare_row(table, "the sample with a sum of 16, differ early", &one, &two, optimised::compare);
    for (name, words) in walked_comparisons() {
        compare_row(table, &name, &words, &words.clone(), optimised::compare);
    }
}

fn compare_by_single_sets(table: &Table) {
    for (name, words) in walked_comparisons() {
        compare_row(table, &name, &words, &words.clone(), single::compare);
    }
}

type Compare = fn(&[u32], &[u32]) -> Result<Comparison, Declined>;

fn compare_row(table: &Table, name: &str, one: &[u32], two: &[u32], rust: Compare) {
    let input = Input { call: "compare", name, size: (one.len() + two.len()) / 4, unit: "records" };
    table.row(input, || cerahupo::compare(one, two), || rust(one, two));
}

/// Listings that are compared with themselves, so that all sets are walked.
fn walked_comparisons() -> Vec<(String, Vec<u32>)> {
    let sum = |rules: usize| (format!("a sum of {rules} with itself, all sets walked"), listing(&sum_book(rules)));
    let count = |present: usize| {
        (format!("at least {present} of 16 with itself, all walked"), listing(&count_book(present, |_| 0)))
    };
    let mut rows = [4, 8, 10, 12].map(sum).to_vec();
    rows.extend([5, 7, 8].map(count));
    let apart = exclusions() + &sum_book(8);
    rows.push(("a sum of 8 with itself, 16 pairs, all walked".to_string(), listing(&apart)));
    rows
}

/// Two listings that are alike, or one that never gives yes, put to Z3 as formulas.
fn by_z3(table: &Table) {
    if !z3::found() {
        println!("z3 is not on the path: its rows are left out");
        return;
    }
    println!("z3: its whole process, to which the question, made ready before, is written through a pipe");
    for present in [5, 7] {
        let (one, two) = (count_book(present, |_| 0), count_book(present, mixed));
        z3_comparison(table, &format!("at least {present} of 16, the same twice"), &one, &one);
        z3_comparison(table, &format!("at least {present} of 16, lines in another order"), &one, &two);
    }
    z3_comparison(table, "7 of 16 or 7 of 8, the same twice", &idle_book(|_| 0), &idle_book(|_| 0));
    z3_comparison(table, "7 of 16 or 7 of 8, lines in another order", &idle_book(|_| 0), &idle_book(mixed));
    z3_comparison(table, "7 of 16 or 7 of 8 with 7 of 16", &idle_book(|_| 0), &count_book(7, |_| 0));
    let words = listing(&vain_book());
    let question = z3::yes_question(&words);
    let input = Input { call: "choice", name: "9 of 16 and none of 8: never", size: words.len() / 4, unit: "records" };
    table.row(
        input,
        || cerahupo::choice(&words).map(|chosen| chosen.choice) != Ok(Choice::Never),
        || z3::answer(&question),
    );
}

fn z3_comparison(table: &Table, name: &str, one: &str, two: &str) {
    let (one, two) = (listing(one), listing(two));
    let question = z3::difference_question(&one, &two);
    let input = Input { call: "compare", name, size: (one.len() + two.len()) / 4, unit: "records" };
    table.row(input, || cerahupo::compare(&one, &two) != Ok(Comparison::Alike), || z3::answer(&question));
}
