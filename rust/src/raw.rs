//! The C interface: each call on slices, and the number that it returns, for those who pass it on as it is.

mod library {
    unsafe extern "C" {
        pub fn cerahupo_check(book: *const u8, bytes: usize) -> u64;
        pub fn cerahupo_decide(book: *const u8, bytes: usize, condition: u32, set: u16) -> u64;
        pub fn cerahupo_score(book: *const u8, bytes: usize, condition: u32, set: u16, remainder: *mut u64) -> u64;
        pub fn cerahupo_compile(book: *const u8, bytes: usize, condition: u32, words: *mut u32, count: usize) -> u64;
        pub fn cerahupo_read(words: *const u32, count: usize, set: u16) -> u64;
        pub fn cerahupo_traverse(
            words: *const u32,
            count: usize,
            sets: *const u16,
            set_count: usize,
            answers: *mut u8,
            answer_count: usize,
        ) -> u64;
        pub fn cerahupo_choice(words: *const u32, count: usize) -> u64;
        pub fn cerahupo_compare(one: *const u32, ones: usize, two: *const u32, twos: usize) -> u64;
    }
}

/// What a call returned, C + 32 * V. The code C is 0 where the call was accepted, and else the refusal's number, 1 to 20;
/// 25 and 26 are refusals 9 and 10 of the second listing of a comparison. V is the result, or the line or record of the refusal.
#[derive(Clone, Copy)]
pub struct Told(pub u64);

/// The highest number that a refusal may have.
const HIGHEST_REFUSAL: u8 = 20;

/// By so much the code of a refusal is higher where it is the second listing's.
const OF_SECOND: u8 = 16;

impl Told {
    pub fn code(self) -> u8 {
        (self.0 % 32) as u8
    }

    /// The refusal's number whichever listing it is of, or 0.
    pub fn number(self) -> u8 {
        if self.second() { self.code() - OF_SECOND } else { self.code() }
    }

    /// A code above every refusal's number tells of the second listing.
    pub fn second(self) -> bool {
        self.code() > HIGHEST_REFUSAL
    }

    pub fn value(self) -> u64 {
        self.0 / 32
    }
}

// Each call below is safe because the library takes every slice whatever, reads only what it was handed, keeps no
// pointer, and writes only the lent words, the lent number and the lent answers, which nobody else can reach.

pub fn check(book: &[u8]) -> Told {
    // SAFETY: as above.
    Told(unsafe { library::cerahupo_check(book.as_ptr(), book.len()) })
}

pub fn decide(book: &[u8], condition: u32, set: u16) -> Told {
    // SAFETY: as above.
    Told(unsafe { library::cerahupo_decide(book.as_ptr(), book.len(), condition, set) })
}

/// The value is the hundredths counted from the lowest score, -10,000; the remainder is written only where it is accepted.
pub fn score(book: &[u8], condition: u32, set: u16, remainder: &mut u64) -> Told {
    // SAFETY: as above.
    Told(unsafe { library::cerahupo_score(book.as_ptr(), book.len(), condition, set, remainder) })
}

pub fn compile(book: &[u8], condition: u32, words: &mut [u32]) -> Told {
    // SAFETY: as above.
    Told(unsafe { library::cerahupo_compile(book.as_ptr(), book.len(), condition, words.as_mut_ptr(), words.len()) })
}

pub fn read(words: &[u32], set: u16) -> Told {
    // SAFETY: as above.
    Told(unsafe { library::cerahupo_read(words.as_ptr(), words.len(), set) })
}

/// The value is the number of answers, modulo 2 to the 59; each answer is 1 or 0, and on a refusal none is written.
pub fn traverse(words: &[u32], sets: &[u16], answers: &mut [u8]) -> Told {
    let (lent, count) = (answers.as_mut_ptr(), answers.len());
    // SAFETY: as above.
    Told(unsafe { library::cerahupo_traverse(words.as_ptr(), words.len(), sets.as_ptr(), sets.len(), lent, count) })
}

/// The value has which it is in its lowest eleven bits, then sixteen bits each for the lowest yes, the lowest no, and how
/// many sets were judged, less one.
pub fn choice(words: &[u32]) -> Told {
    // SAFETY: as above.
    Told(unsafe { library::cerahupo_choice(words.as_ptr(), words.len()) })
}

pub fn compare(one: &[u32], two: &[u32]) -> Told {
    // SAFETY: as above.
    Told(unsafe { library::cerahupo_compare(one.as_ptr(), one.len(), two.as_ptr(), two.len()) })
}
