//! What a line of the table program means, written from the rule and not from the program:
//! a letter, one space, 16 digits of 0-9 a-f (8 for the functions over f32), at most 32 bytes.
//! Any other line gives `? 14`.
//!
//! The answers are those of the Rust files, but for one function and one part of its range:
//! acosh below 1, where the answer is the C standard's. `acosh` below says why.

use crate::libm;

pub const REFUSED: &str = "? 14";

/// Letters of all functions, those over f32 last.
pub const LETTERS: &str = "ELSCTsctxnFG";

enum Function {
    Double(fn(f64) -> f64),
    Single(fn(f32) -> f32),
}

/// The one place where the answers depart from the Rust files: below 1 acosh is NaN, by C11
/// F.10.2.1 ("acosh(x) returns a NaN ... for x < 1"). There acosh.rs leaves the domain error to
/// the functions that it calls, and for many arguments between -2^26 and -2^12.5 they are handed
/// something inside their own domain: at -2^25 it gives -infinity. Everywhere else, from 1 on
/// and for a NaN, the answer is what acosh.rs gives.
fn acosh(x: f64) -> f64 {
    if x < 1.0 { f64::NAN } else { libm::acosh(x) }
}

fn function(letter: u8) -> Option<Function> {
    use Function::{Double, Single};
    let function = match letter {
        b'E' => Double(libm::expm1),
        b'L' => Double(libm::log1p),
        b'S' => Double(libm::sinh),
        b'C' => Double(libm::cosh),
        b'T' => Double(libm::tanh),
        b's' => Double(libm::asinh),
        b'c' => Double(acosh),
        b't' => Double(libm::atanh),
        b'x' => Double(libm::exp),
        b'n' => Double(libm::log),
        b'F' => Single(libm::expm1f),
        b'G' => Single(libm::log1pf),
        _ => return None,
    };
    Some(function)
}

/// The number that `count` digits spell, or nothing if the bytes are not so many digits.
fn number(digits: &[u8], count: usize) -> Option<u64> {
    let is_digit = |byte: &u8| matches!(byte, b'0'..=b'9' | b'a'..=b'f');
    if digits.len() != count || !digits.iter().all(is_digit) {
        return None;
    }
    u64::from_str_radix(std::str::from_utf8(digits).ok()?, 16).ok()
}

fn answer(line: &[u8], letters: &str) -> Option<String> {
    if line.len() > 32 {
        return None;
    }
    let (&letter, rest) = line.split_first()?;
    let (&space, digits) = rest.split_first()?;
    if space != b' ' || !letters.as_bytes().contains(&letter) {
        return None;
    }
    match function(letter)? {
        Function::Double(of) => {
            let result = of(f64::from_bits(number(digits, 16)?));
            Some(if result.is_nan() {
                "7ff8000000000000".to_string()
            } else {
                format!("{:016x}", result.to_bits())
            })
        }
        Function::Single(of) => {
            let result = of(f32::from_bits(number(digits, 8)? as u32));
            Some(if result.is_nan() {
                "7fc00000".to_string()
            } else {
                format!("{:08x}", result.to_bits())
            })
        }
    }
}

/// The reply to a line, given without its line feed, when `letters` are the ones answered.
pub fn reply(line: &[u8], letters: &str) -> String {
    answer(line, letters).unwrap_or_else(|| REFUSED.to_string())
}

/// The lines of an input: a line feed ends a line, and the last line may be without one.
pub fn lines(input: &[u8]) -> impl Iterator<Item = &[u8]> {
    input
        .split_inclusive(|&byte| byte == b'\n')
        .map(|line| line.strip_suffix(b"\n").unwrap_or(line))
}
