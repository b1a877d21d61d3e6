//! The numbers themselves, written out: the code in bits 0 to 4 and the value from bit 5 on.
//! Those without an excluded pair are the numbers of the interface that had a refusal of four bits and a bit for the
//! second listing: none has changed, but for how many sets the choice check judged, from bit 48 on.

use cerahupo::raw::{self, Told};

const SAMPLE: &[u8] = b"p sum 0\nr 0 40\nr 1 30\nr 2 30\np min 100\nr 3 20\nc 50 < min(p0,p1)\n";

/// A policy of signal 0 whose one line is its mask, and one without lines: yes on set 1, and never.
const HELD: [u32; 8] = [16, 1, 2, 0, 4, 1, 0, 0];
const NEVER: [u32; 4] = [16, 1, 0, 0];
const ALWAYS: [u32; 4] = [19, 1, 0, 0];

/// Signals 0 and 1 give yes only together, and never occur together: a book, its listing, and that without the pair.
const APART_BOOK: &[u8] = b"x 0 1\np sum\nr 0 1\nr 1 1\nc 1 < p0\n";
const APART: [u32; 12] = [5, 3, 0, 2, 16, 3, 3, 0, 4, 3, 0, 0];
const TOGETHER: [u32; 8] = [16, 3, 2, 0, 4, 3, 0, 0];

/// Sound words but for the second record, whose mask lies outside its policy's.
const SECOND_RECORD_BROKEN: [u32; 8] = [16, 1, 2, 0, 4, 2, 0, 0];

#[test]
fn results() {
    let mut words = [0; 28];
    assert_eq!(raw::check(SAMPLE).0, 65_600);
    assert_eq!(raw::decide(SAMPLE, 0, 3).0, 32);
    assert_eq!(raw::decide(SAMPLE, 0, 0).0, 0);
    assert_eq!(raw::compile(SAMPLE, 0, &mut words).0, 224);
    assert_eq!(raw::read(&words, 3).0, 32);
    assert_eq!(raw::read(&words, 11).0, 0);
    assert_eq!(raw::choice(&words).0, 844_424_930_328_640);
    assert_eq!(raw::choice(&HELD).0, 281_474_976_776_256);
    assert_eq!(raw::choice(&ALWAYS).0, 18_446_462_598_732_840_960);
    assert_eq!(raw::choice(&NEVER).0, 18_446_462_598_732_840_992);
}

/// The number of a score, and the remainder that is lent to the call.
fn scored(book: &[u8], condition: u32, set: u16) -> (u64, u64) {
    let mut remainder = 77;
    (raw::score(book, condition, set, &mut remainder).0, remainder)
}

/// Hundredths count from the lowest score; on a refusal the lent number is as it was.
#[test]
fn scores() {
    assert_eq!(scored(SAMPLE, 0, 11), (320_640, 0));
    assert_eq!(scored(b"p sum -10000\nc 0 < p0\n", 0, 0), (0, 0));
    assert_eq!(scored(b"p min -5\nc 0 < p0\n", 0, 0), (319_840, 0));
    assert_eq!(scored(b"p mul\nr 0 75\nr 1 50\nc 0 < p0\n", 0, 3), (321_184, 50_000_000_000_000));
    assert_eq!(scored(SAMPLE, 1, 0), (7, 77));
    assert_eq!(scored(b"p sum\nr 0 1\nr 0 1\n", 0, 0), (102, 77));
}

#[test]
fn comparisons() {
    assert_eq!(raw::compare(&HELD, &HELD).0, 0);
    assert_eq!(raw::compare(&HELD, &NEVER).0, 65_632);
    assert_eq!(raw::compare(&NEVER, &HELD).0, 65_568);
}

/// The pair is among the records; rod and logger decide on it, choice and comparison pass over it.
#[test]
fn results_with_a_pair() {
    let mut words = [0; 12];
    assert_eq!(raw::check(APART_BOOK).0, 65_568);
    assert_eq!(raw::compile(APART_BOOK, 0, &mut words).0, 96);
    assert_eq!(words, APART);
    assert_eq!(raw::compile(APART_BOOK, 0, &mut [0; 11]).0, 8);
    assert_eq!(raw::decide(APART_BOOK, 0, 3).0, 32);
    assert_eq!(raw::read(&APART, 3).0, 32);
    assert_eq!(raw::choice(&APART).0, 13_834_776_580_305_453_088);
    assert_eq!(raw::choice(&TOGETHER).0, 844_424_930_328_640);
    assert_eq!(raw::compare(&APART, &NEVER).0, 0);
    assert_eq!(raw::compare(&NEVER, &APART).0, 0);
    assert_eq!(raw::compare(&TOGETHER, &NEVER).0, 196_704);
}

#[test]
fn results_with_an_o() {
    let (bare, old) = (b"p min\nc 0 < p0\n", b"o\np min\nc 0 < p0\n");
    assert_eq!(raw::check(b"o\n").0, 0);
    assert_eq!([raw::check(bare).0, raw::check(old).0], [65_568, 65_568]);
    assert_eq!([raw::decide(bare, 0, 0).0, raw::decide(old, 0, 0).0], [32, 0]);
    assert_eq!(raw::compile(old, 0, &mut [0; 3]).0, 8);
}

/// What a traverse returned, and the answers that it left: 7 and 8 were lent.
fn traversed(words: &[u32], sets: &[u16]) -> (u64, [u8; 2]) {
    let mut answers = [7, 8];
    (raw::traverse(words, sets, &mut answers).0, answers)
}

#[test]
fn traverses() {
    assert_eq!(raw::traverse(&HELD, &[], &mut []).0, 0);
    assert_eq!(traversed(&HELD, &[1, 2]), (64, [1, 0]));
    assert_eq!(traversed(&ALWAYS, &[0, 0]), (64, [1, 1]));
    assert_eq!(traversed(&HELD, &[1]), (11, [7, 8]));
    assert_eq!(traversed(&HELD, &[1, 2, 3]), (11, [7, 8]));
    assert_eq!(traversed(&[], &[1]), (11, [7, 8]));
    assert_eq!(traversed(&[], &[1, 2]), (9, [7, 8]));
    assert_eq!(traversed(&SECOND_RECORD_BROKEN, &[1, 2]), (74, [7, 8]));
    assert_eq!(raw::traverse(&SECOND_RECORD_BROKEN, &[], &mut []).0, 74);
}

#[test]
fn refusals_of_books() {
    let refusals: [(&[u8], u64); 14] = [
        (&[b'p'; 8193], 1),
        (&[b'p'; 129], 33),
        (b"p sum", 34),
        (b"p sum\nc 1 < p0\nr 0 1\n", 99),
        (b"p mul\nr 0 1\nr 1 1\nr 2 1\nr 3 1\nr 4 1\nr 5 1\nr 6 1\nr 7 1\nr 8 1\n", 324),
        (b"p sum\nr 16 1\n", 69),
        (b"p sum\nr 0 1\nr 0 1\n", 102),
        (b"x 0 01\n", 34),
        (b"p sum\nx 0 1\nr 0 1\n", 99),
        (b"x 1 1\n", 37),
        (b"x 0 1\nx 1 0\n", 70),
        (b"o 1\n", 34),
        (b"o\no\n", 67),
        (b"p sum\no\n", 67),
    ];
    for (book, number) in refusals {
        assert_eq!(raw::check(book).0, number);
        assert_eq!(raw::decide(book, 0, 0).0, number);
        assert_eq!(scored(book, 0, 0), (number, 77));
        assert_eq!(raw::compile(book, 0, &mut []).0, number);
    }
    assert_eq!(raw::decide(SAMPLE, 1, 0).0, 7);
    assert_eq!(raw::compile(SAMPLE, 1, &mut []).0, 7);
    assert_eq!(raw::compile(SAMPLE, 0, &mut [0; 27]).0, 8);
}

#[test]
fn refusals_of_listings() {
    let refusals: [(&[u32], u64); 6] = [
        (&[], 9),
        (&HELD[..7], 9),
        (&[5, 0, 0, 0], 42),
        (&[5, 65_537, 0, 2, 16, 1, 0, 0], 42),
        (&APART[..4], 42),
        (&SECOND_RECORD_BROKEN, 74),
    ];
    for (words, number) in refusals {
        assert_eq!(raw::read(words, 0).0, number);
        assert_eq!(raw::choice(words).0, number);
        assert_eq!(raw::compare(words, &HELD).0, number);
        assert_eq!(raw::compare(words, words).0, number);
    }
}

/// Refusals 9 and 10 of the second listing have the codes 25 and 26.
#[test]
fn refusals_of_second_listings() {
    assert_eq!(raw::compare(&HELD, &[]).0, 25);
    assert_eq!(raw::compare(&HELD, &HELD[..7]).0, 25);
    assert_eq!(raw::compare(&HELD, &[5, 0, 0, 0]).0, 58);
    assert_eq!(raw::compare(&HELD, &SECOND_RECORD_BROKEN).0, 90);
}

#[test]
fn numbers_taken_apart() {
    let parts = |number| {
        let told = Told(number);
        (told.code(), told.number(), told.second(), told.value())
    };
    assert_eq!(parts(32), (0, 0, false, 1));
    for refusal in 1..=20 {
        assert_eq!(parts(u64::from(refusal) + 32 * 129), (refusal, refusal, false, 129));
    }
    assert_eq!(parts(25), (25, 9, true, 0));
    assert_eq!(parts(90), (26, 10, true, 2));
}
