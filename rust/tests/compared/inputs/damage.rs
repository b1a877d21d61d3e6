//! Damaged books.

use super::books::{expression, valid};
use super::random::Random;
use std::ops::Range;

/// A valid book with one to three things done to it; some of them do no harm.
pub fn damaged(random: &mut Random) -> Vec<u8> {
    let mut book = valid(random);
    for _ in 0..1 + random.mostly_few(2) {
        book = match random.below(8) {
            0 | 1 => damage_byte(book, random),
            2 | 3 => damage_field(book, random),
            4 | 5 => damage_lines(book, random),
            6 => lengthen_line(book, random),
            _ => too_many(book, random),
        };
    }
    if random.one_in(32) { lengthen_book(book, random) } else { book }
}

/// Words of books in any order.
pub fn soup(random: &mut Random) -> Vec<u8> {
    const WORDS: &str = "p |r |x |c |o|p|min|max|sum|mul|min(|,|)|p0|p1|<|>=| |0|1|15|16|-|100|\n|\n|\r";
    const LINES: &str = "o\n|\np sum\n|p min\n|r 1 1\n|x 0 1\n|x 1 0\n|c 0 < p0\n";
    let words: Vec<&str> = [WORDS, LINES].iter().flat_map(|text| text.split('|')).collect();
    (0..random.below(20)).flat_map(|_| random.pick(&words).bytes()).collect()
}

fn damage_byte(mut book: Vec<u8>, random: &mut Random) -> Vec<u8> {
    const BYTES: &[u8] = b"\n\n  0019-+.,()<>=pqrcominaxsul\r\t\0P\x80\xff";
    let byte = if random.one_in(8) { random.next() as u8 } else { *random.pick(BYTES) };
    let place = random.below(book.len() + 1);
    match random.below(4) {
        0 => book.insert(place, byte),
        1 if place < book.len() => book[place] = byte,
        2 if place < book.len() => drop(book.remove(place)),
        _ if random.one_in(4) => book.truncate(place),
        _ => drop(book.pop()),
    }
    book
}

fn lines_of(book: &[u8]) -> Vec<Vec<u8>> {
    book.split_inclusive(|&byte| byte == b'\n').map(<[u8]>::to_vec).collect()
}

/// A field at or beside a limit, misspelled, or of another kind of line.
fn random_field(random: &mut Random) -> &'static str {
    const NUMBERS: &str = "0|-1|1|7|15|16|17|100|101|-100|9999|10000|10001|-10000|-10001|200000|200001|-200000|-200001";
    const SPELLINGS: &str = "-0|00|01|1.0|999999|-999999|1000000|0000000|+1||-";
    const WORDS: &str = "min|max|sum|mul|<|>=|<=|p0|p15|p16|min(p0,p999999)";
    let fields: Vec<&str> = [NUMBERS, SPELLINGS, WORDS].iter().flat_map(|text| text.split('|')).collect();
    fields[random.below(fields.len())]
}

fn damage_field(book: Vec<u8>, random: &mut Random) -> Vec<u8> {
    let new = random_field(random);
    let mut lines = lines_of(&book);
    if lines.is_empty() {
        return book;
    }
    let line = random.below(lines.len());
    let text = lines[line].strip_suffix(b"\n").unwrap_or(&lines[line]);
    let mut fields: Vec<&[u8]> = text.split(|&byte| byte == b' ').collect();
    let field = random.below(fields.len());
    match random.below(6) {
        0 => fields.insert(field, new.as_bytes()),
        1 => drop(fields.remove(field)),
        _ => fields[field] = new.as_bytes(),
    }
    lines[line] = [fields.join(&b' '), b"\n".to_vec()].concat();
    lines.concat()
}

fn damage_lines(book: Vec<u8>, random: &mut Random) -> Vec<u8> {
    const LINES: &str =
        "\n|o\n|o\n|o 1\n|o \n|r 3 1\n|p mul\n|x 2 1\n|x 3 3\n|x 16 2\n|x 2 16\n|c 0 < p0\n|c 1 >= p16\n";
    let mut lines = lines_of(&book);
    if lines.is_empty() {
        return b"\n".to_vec();
    }
    let (one, two) = (random.below(lines.len()), random.below(lines.len()));
    match random.below(5) {
        0 => lines.swap(one, two),
        1 => drop(lines.remove(one)),
        2 => lines.insert(one, lines[two].clone()),
        3 => lines.insert(one + 1, lines[one].clone()),
        _ => {
            let new: Vec<&str> = LINES.split('|').collect();
            lines.insert(one, random.pick(&new).as_bytes().to_vec());
        }
    }
    lines.concat()
}

/// Makes a line about 128 bytes long: by nesting, which may stay valid, or by bytes that have no form.
fn lengthen_line(book: Vec<u8>, random: &mut Random) -> Vec<u8> {
    let mut lines = lines_of(&book);
    let length = random.within(126..=130) as usize;
    let nested = random.one_in(2);
    let mut line = if nested { nested_line(length, random) } else { vec![*random.pick(b"p 0"); length] };
    if !random.one_in(8) {
        line.push(b'\n');
    }
    let end = lines.len();
    let place = if nested || random.one_in(2) { end } else { random.below(end + 1) };
    lines.insert(place, line);
    lines.concat()
}

/// A condition line of so many bytes: 15 joins and 16 mentions, then the threshold's digits and the sense fill it up.
fn nested_line(length: usize, random: &mut Random) -> Vec<u8> {
    let set = expression(16, 1, random);
    let threshold = "1".repeat(length.saturating_sub(5 + set.len()));
    format!("c {threshold} < {set}").into_bytes()
}

/// Puts lines in until a limit is nearly reached, reached or passed by one.
fn too_many(book: Vec<u8>, random: &mut Random) -> Vec<u8> {
    let lines = lines_of(&book);
    let held = |letter: u8| lines.iter().filter(|line| line.first() == Some(&letter)).count();
    let near = |limit: usize, random: &mut Random| limit - 1 + random.below(3);
    let front = match random.below(4) {
        0 => "p sum 5\n".repeat(near(16, random).saturating_sub(held(b'p'))),
        1 => {
            let more = near(8, random).saturating_sub(held(b'c'));
            return [book, "c 3 < p0\n".repeat(more).into_bytes()].concat();
        }
        2 => {
            let more = held(b'x')..near(16, random);
            return with_exclusions(lines, more, random);
        }
        _ => {
            let operator = random.pick(&["min", "max", "sum", "mul", "mul", "mul"]);
            let rules = if *operator == "mul" { near(8, random) } else { near(16, random) };
            (0..rules).fold(format!("p {operator}\n"), |text, signal| text + &format!("r {signal} 1\n"))
        }
    };
    let (old_zero, rest) = book.split_at(if book.starts_with(b"o\n") { 2 } else { 0 });
    [old_zero, front.as_bytes(), rest].concat()
}

/// Puts exclusions in front, but after an `o`, or before the first condition; the last one may also be out of range, or repeat a
/// pair.
fn with_exclusions(mut lines: Vec<Vec<u8>>, numbers: Range<usize>, random: &mut Random) -> Vec<u8> {
    let mut more: Vec<String> = numbers.map(|pair| format!("x {} {}\n", pair % 4, 4 + pair / 4)).collect();
    if random.one_in(2) && more.pop().is_some() {
        more.push(random.pick(&["x 3 3\n", "x 16 2\n", "x 2 16\n", "x 4 0\n"]).to_string());
    }
    let before_conditions = lines.iter().position(|line| line.starts_with(b"c")).unwrap_or(lines.len());
    let after_old_zero = usize::from(lines.first().is_some_and(|line| line == b"o\n"));
    let place = if random.one_in(2) { after_old_zero } else { before_conditions };
    lines.splice(place..place, more.into_iter().map(String::into_bytes));
    lines.concat()
}

/// Fills a book up to about 8,192 bytes.
fn lengthen_book(mut book: Vec<u8>, random: &mut Random) -> Vec<u8> {
    let length = random.within(8_190..=8_194) as usize;
    while book.len() < length {
        let line = (length - book.len()).min(128);
        book.extend(std::iter::repeat_n(b'x', line - 1));
        book.push(b'\n');
    }
    book
}
