//! The one plate reader, for Rust.
//!
//! A cell is a byte 0 or 1, and the first cell of a word is the highest power of x. A generator or a divisor is a number whose bit i is the coefficient
//! of x^i. Every call takes any numbers and any cells; what can't be used is refused by number (see `include/plate.h` for the numbers and limits). Beside a
//! refusal lent cells hold what they held.

/// A number handed back other than 0.
#[derive(Clone, Copy, Debug, PartialEq, Eq)]
pub struct Refused(pub u64);

impl std::fmt::Display for Refused {
    fn fmt(&self, f: &mut std::fmt::Formatter<'_>) -> std::fmt::Result {
        let why = match self.0 {
            1 => "the length is not 2 to 63, or a dividend has more than 4,096 cells",
            2 => "the generator is even or not of degree 1 to 32 and below the length, or a divisor is not of degree 1 to 32",
            3 => "the generator does not divide x^n + 1",
            4 => "the mending rule is not 0, 1 or 2",
            5 => "the code does not carry the mending rule",
            6 => "a lent slice has not exactly the needed length, or a number too many digits",
            7 => "an input cell is not 0 or 1, or not 0 in clocks n+1 to 2n",
            8 => "no code word within the mending rule",
            10 => "both words are readable and their messages differ",
            11 => "the reader is not in form, is past 2n clocks, or is asked before 2n",
            _ => return write!(f, "refused with number {}", self.0),
        };
        write!(f, "refused with number {}: {why}", self.0)
    }
}

impl std::error::Error for Refused {}

fn done<T>(number: u64, value: T) -> Result<T, Refused> {
    if number == 0 {
        Ok(value)
    } else {
        Err(Refused(number))
    }
}

#[repr(C)]
struct Outcome {
    number: u64,
    remainder: u64,
}

#[repr(C)]
struct Reading {
    number: u64,
    mended: u64,
}

#[repr(C)]
struct Value {
    number: u64,
    value: u64,
}

#[repr(C)]
struct Decoding {
    number: u64,
    message: u64,
    mended: u64,
}

#[repr(C)]
struct Started {
    number: u64,
    reader: Reader,
}

#[repr(C)]
struct Clocked {
    number: u64,
    cell: u8,
    reader: Reader,
}

/// The clocked reader: a start makes it, and each clock takes it and gives the next.
#[repr(C)]
#[derive(Clone, Copy, Debug, PartialEq, Eq)]
pub struct Reader {
    pub n: usize,
    pub g: u64,
    pub rule: u64,
    pub clocks: usize,
    pub mended: u64,
    /// Stage i is for x^i.
    pub stages: [u8; 32],
    /// The stored cells, first cell first.
    pub cells: [u8; 63],
}

// A slice crosses as a pointer and then a length.
extern "C" {
    fn plate_check_code(n: usize, g: u64) -> u64;
    fn plate_check_rule(n: usize, g: u64, rule: u64) -> u64;
    fn plate_family_length(family: u64) -> usize;
    fn plate_family_generator(family: u64) -> u64;
    fn plate_family_pairs(family: u64) -> bool;
    fn plate_divide(p: *const u8, pn: usize, divisor: u64, q: *mut u8, qn: usize) -> Outcome;
    fn plate_remainder_low(p: *const u8, pn: usize, divisor: u64) -> Outcome;
    fn plate_remainder_high(p: *const u8, pn: usize, divisor: u64) -> Outcome;
    fn plate_encode_systematic(n: usize, g: u64, m: *const u8, mn: usize, w: *mut u8, wn: usize) -> u64;
    fn plate_encode_product(n: usize, g: u64, m: *const u8, mn: usize, w: *mut u8, wn: usize) -> u64;
    fn plate_remainder(n: usize, g: u64, w: *const u8, wn: usize) -> Outcome;
    fn plate_decode_systematic(n: usize, g: u64, rule: u64, w: *const u8, wn: usize, m: *mut u8, mn: usize) -> Reading;
    fn plate_decode_product(n: usize, g: u64, rule: u64, w: *const u8, wn: usize, m: *mut u8, mn: usize) -> Reading;
    fn plate_encode_systematic_number(n: usize, g: u64, message: u64) -> Value;
    fn plate_encode_product_number(n: usize, g: u64, message: u64) -> Value;
    fn plate_remainder_number(n: usize, g: u64, word: u64) -> Value;
    fn plate_decode_systematic_number(n: usize, g: u64, rule: u64, word: u64) -> Decoding;
    fn plate_decode_product_number(n: usize, g: u64, rule: u64, word: u64) -> Decoding;
    fn plate_start(n: usize, g: u64, rule: u64) -> Started;
    fn plate_clock(reader: Reader, cell: u8) -> Clocked;
    fn plate_answer(reader: Reader, m: *mut u8, mn: usize) -> Reading;
    fn plate_read(n: usize, g: u64, rule: u64, w: *const u8, wn: usize, m: *mut u8, mn: usize) -> Reading;
    fn plate_better_word(n: usize, g: u64, rule: u64, a: *const u8, an: usize, b: *const u8, bn: usize) -> u64;
    fn plate_better_number(n: usize, g: u64, rule: u64, a: *const u8, an: usize, b: *const u8, bn: usize) -> u64;
}

/// The checks of a code: numbers 1 to 3.
pub fn check_code(n: usize, g: u64) -> Result<(), Refused> {
    done(unsafe { plate_check_code(n, g) }, ())
}

/// The checks of a code and a rule: numbers 1 to 5.
pub fn check_rule(n: usize, g: u64, rule: u64) -> Result<(), Refused> {
    done(unsafe { plate_check_rule(n, g, rule) }, ())
}

/// A plate family: its length, its generator, and whether it carries rule 2.
#[derive(Clone, Copy, Debug, PartialEq, Eq)]
pub struct Family {
    pub n: usize,
    pub g: u64,
    pub pairs: bool,
}

/// The families are numbered from 1 to 12.
pub fn family(number: u64) -> Option<Family> {
    let (n, g, pairs) = unsafe { (plate_family_length(number), plate_family_generator(number), plate_family_pairs(number)) };
    (n != 0).then_some(Family { n, g, pairs })
}

/// The remainder of a dividend; its quotient is written into as many lent cells.
pub fn divide(dividend: &[u8], divisor: u64, quotient: &mut [u8]) -> Result<u64, Refused> {
    let x = unsafe { plate_divide(dividend.as_ptr(), dividend.len(), divisor, quotient.as_mut_ptr(), quotient.len()) };
    done(x.number, x.remainder)
}

/// The remainder of a dividend.
pub fn remainder_low(dividend: &[u8], divisor: u64) -> Result<u64, Refused> {
    let x = unsafe { plate_remainder_low(dividend.as_ptr(), dividend.len(), divisor) };
    done(x.number, x.remainder)
}

/// The remainder of x^r times a dividend.
pub fn remainder_high(dividend: &[u8], divisor: u64) -> Result<u64, Refused> {
    let x = unsafe { plate_remainder_high(dividend.as_ptr(), dividend.len(), divisor) };
    done(x.number, x.remainder)
}

/// The systematic word of a message of k cells, written into n lent cells.
pub fn encode_systematic(n: usize, g: u64, message: &[u8], word: &mut [u8]) -> Result<(), Refused> {
    done(unsafe { plate_encode_systematic(n, g, message.as_ptr(), message.len(), word.as_mut_ptr(), word.len()) }, ())
}

/// The product word of a message of k cells, written into n lent cells.
pub fn encode_product(n: usize, g: u64, message: &[u8], word: &mut [u8]) -> Result<(), Refused> {
    done(unsafe { plate_encode_product(n, g, message.as_ptr(), message.len(), word.as_mut_ptr(), word.len()) }, ())
}

/// The remainder of a word of n cells.
pub fn remainder(n: usize, g: u64, word: &[u8]) -> Result<u64, Refused> {
    let x = unsafe { plate_remainder(n, g, word.as_ptr(), word.len()) };
    done(x.number, x.remainder)
}

/// The number of cells mended; the message is written into k lent cells, by the systematic rule.
pub fn decode_systematic(n: usize, g: u64, rule: u64, word: &[u8], message: &mut [u8]) -> Result<u64, Refused> {
    let x = unsafe { plate_decode_systematic(n, g, rule, word.as_ptr(), word.len(), message.as_mut_ptr(), message.len()) };
    done(x.number, x.mended)
}

/// The same by the product rule.
pub fn decode_product(n: usize, g: u64, rule: u64, word: &[u8], message: &mut [u8]) -> Result<u64, Refused> {
    let x = unsafe { plate_decode_product(n, g, rule, word.as_ptr(), word.len(), message.as_mut_ptr(), message.len()) };
    done(x.number, x.mended)
}

/// The same calls with words and messages as numbers, last cell lowest.
pub mod numbers {
    use super::*;

    /// The systematic word of a message below 2^k.
    pub fn encode_systematic(n: usize, g: u64, message: u64) -> Result<u64, Refused> {
        let x = unsafe { plate_encode_systematic_number(n, g, message) };
        done(x.number, x.value)
    }

    /// Its product word.
    pub fn encode_product(n: usize, g: u64, message: u64) -> Result<u64, Refused> {
        let x = unsafe { plate_encode_product_number(n, g, message) };
        done(x.number, x.value)
    }

    /// The remainder of a word below 2^n.
    pub fn remainder(n: usize, g: u64, word: u64) -> Result<u64, Refused> {
        let x = unsafe { plate_remainder_number(n, g, word) };
        done(x.number, x.value)
    }

    /// The message, by the systematic rule, and the number of cells mended.
    pub fn decode_systematic(n: usize, g: u64, rule: u64, word: u64) -> Result<(u64, u64), Refused> {
        let x = unsafe { plate_decode_systematic_number(n, g, rule, word) };
        done(x.number, (x.message, x.mended))
    }

    /// The same by the product rule.
    pub fn decode_product(n: usize, g: u64, rule: u64, word: u64) -> Result<(u64, u64), Refused> {
        let x = unsafe { plate_decode_product_number(n, g, rule, word) };
        done(x.number, (x.message, x.mended))
    }
}

impl Reader {
    /// A reader that stores zeros.
    pub fn start(n: usize, g: u64, rule: u64) -> Result<Reader, Refused> {
        let x = unsafe { plate_start(n, g, rule) };
        done(x.number, x.reader)
    }

    /// The cell given out and the next reader. The reader that was clocked is the caller's still, so a refusal loses nothing.
    pub fn clock(self, cell: u8) -> Result<(u8, Reader), Refused> {
        let x = unsafe { plate_clock(self, cell) };
        done(x.number, (x.cell, x.reader))
    }

    /// The number of cells mended; the message is written into k lent cells.
    pub fn answer(self, message: &mut [u8]) -> Result<u64, Refused> {
        let x = unsafe { plate_answer(self, message.as_mut_ptr(), message.len()) };
        done(x.number, x.mended)
    }
}

/// A whole word through the clocked reader: as `decode_systematic`.
pub fn read(n: usize, g: u64, rule: u64, word: &[u8], message: &mut [u8]) -> Result<u64, Refused> {
    let x = unsafe { plate_read(n, g, rule, word.as_ptr(), word.len(), message.as_mut_ptr(), message.len()) };
    done(x.number, x.mended)
}

/// The better of two words read from one plate: the very slice.
pub fn better<'a>(n: usize, g: u64, rule: u64, first: &'a [u8], second: &'a [u8]) -> Result<&'a [u8], Refused> {
    let number = unsafe { plate_better_number(n, g, rule, first.as_ptr(), first.len(), second.as_ptr(), second.len()) };
    let word = unsafe { plate_better_word(n, g, rule, first.as_ptr(), first.len(), second.as_ptr(), second.len()) };
    done(number, if word == 1 { first } else { second })
}
