//! The text of a polynomial's coefficient and its double.
//!
//! The double is worked out over whole numbers, by shifts and one division with its remainder: no product or quotient
//! of doubles, and no `str::parse`, has a part in it. The tests hold it against both.

use super::faults::{misspelt, plain, Fault};

/// 02, P1: "optional minus, digits, at least one, with an optional point among or after them, optionally e or E, a
/// sign or none, and at least one digit".
#[derive(Clone, Copy, Debug, PartialEq)]
pub struct Coefficient {
    negative: bool,
    /// The digits without the point, as a whole number.
    digits: u64,
    /// "The exponent less the digits after the point".
    power: i64,
}

/// The most digits that a column of coefficients has.
const MOST_DIGITS: usize = 14;

impl Coefficient {
    /// 02, P1: "The exponent less the digits after the point must be −22 to 22, else reason 7."
    pub fn read(text: &[u8]) -> Result<Coefficient, Fault> {
        let coefficient = parts(text).ok_or_else(|| misspelt_coefficient(text))?;
        match coefficient.power {
            -22..=22 => Ok(coefficient),
            _ => Err(plain(7)),
        }
    }

    /// 02, P1: "one rounded product or quotient of two exact doubles, the minus applied last".
    pub fn double(self) -> f64 {
        let magnitude = nearest(self.digits, self.power as i32);
        if self.negative {
            -magnitude
        } else {
            magnitude
        }
    }
}

/// Where a text that is no coefficient goes wrong: of the texts of reason 6 mcf has the minus alone.
pub fn misspelt_coefficient(text: &[u8]) -> Fault {
    misspelt(text, &[b"-"], |text| parts(text).is_some())
}

fn parts(text: &[u8]) -> Option<Coefficient> {
    let (negative, text) = after(text, b"-");
    let (before, rest) = digits(text);
    let (pointed, rest) = after(rest, b".");
    let (behind, rest) = if pointed { digits(rest) } else { (&[][..], rest) };
    if before.is_empty() || before.len() + behind.len() > MOST_DIGITS {
        return None;
    }
    let power = exponent(rest)?.saturating_sub(behind.len() as i64);
    Some(Coefficient { negative, digits: value(&[before, behind].concat()) as u64, power })
}

/// Whether the text starts with one of these bytes, and what stands after it.
fn after<'t>(text: &'t [u8], bytes: &[u8]) -> (bool, &'t [u8]) {
    match text {
        [first, rest @ ..] if bytes.contains(first) => (true, rest),
        _ => (false, text),
    }
}

/// The digits that the text starts with, and the rest.
fn digits(text: &[u8]) -> (&[u8], &[u8]) {
    text.split_at(text.iter().take_while(|byte| byte.is_ascii_digit()).count())
}

/// The value of digits, held at the end of `i64` where it is more.
fn value(digits: &[u8]) -> i64 {
    let add = |value: i64, digit: &u8| value.saturating_mul(10).saturating_add(i64::from(digit - b'0'));
    digits.iter().fold(0, add)
}

/// The exponent of what stands after the digits and the point: 0 where nothing does.
fn exponent(text: &[u8]) -> Option<i64> {
    if text.is_empty() {
        return Some(0);
    }
    let (marked, text) = after(text, b"eE");
    let (negative, unsigned) = after(text, b"-");
    let (_, unsigned) = if negative { (false, unsigned) } else { after(text, b"+") };
    match digits(unsigned) {
        (digits @ [_, ..], []) if marked => Some(if negative { -value(digits) } else { value(digits) }),
        _ => None,
    }
}

/// The double nearest to `digits` × 10^`power`, of two the even one.
fn nearest(digits: u64, power: i32) -> f64 {
    if digits == 0 {
        return 0.0;
    }
    let fives = 5u128.pow(power.unsigned_abs());
    let (whole, exponent, rest) = if power >= 0 {
        (u128::from(digits) * fives, power, false)
    } else {
        // so many bits more that the quotient has over 64
        let shift = 127 - (u128::BITS - u128::from(digits).leading_zeros()) as i32;
        let shifted = u128::from(digits) << shift;
        (shifted / fives, power - shift, !shifted.is_multiple_of(fives))
    };
    rounded(whole, exponent, rest)
}

/// The double nearest to `whole` × 2^`exponent`, and a little more where `rest`, which only a long `whole` has.
fn rounded(whole: u128, exponent: i32, rest: bool) -> f64 {
    let bits = (u128::BITS - whole.leading_zeros()) as i32;
    let dropped = (bits - 53).max(0);
    let (kept, cut) = (whole >> dropped, whole & ((1u128 << dropped) - 1));
    let half = if dropped == 0 { 0 } else { 1u128 << (dropped - 1) };
    let up = dropped > 0 && (cut > half || cut == half && (rest || kept & 1 == 1));
    assembled(kept as u64 + u64::from(up), exponent + dropped)
}

/// The double of a whole number up to 2^53, not 0, times a power of two, far from the ends of the doubles.
fn assembled(whole: u64, exponent: i32) -> f64 {
    let shift = whole.leading_zeros() as i32 - 11;
    let fraction = if shift >= 0 { whole << shift } else { whole >> 1 };
    f64::from_bits((((exponent - shift + 52 + 1_023) as u64) << 52) | (fraction & ((1 << 52) - 1)))
}

#[cfg(test)]
mod tests {
    use super::Coefficient;
    use crate::generate::spelling::coefficient;
    use crate::random::Random;

    fn bits(text: &str) -> Result<u64, u16> {
        let read = Coefficient::read(text.as_bytes()).map_err(|fault| fault.reason);
        read.map(|coefficient| coefficient.double().to_bits())
    }

    #[test]
    fn texts_that_are_none() {
        for text in [
            "", ".", ".5", "-.5", "+1", "--1", "1e", "1E", "1e+", "1e-", "1..2", "1.2.3", "1 ", " 1", "0x1",
            "1e1.", "1e 5", "e5", "-e5", "1,5", "1e++5", "1e+-5", "1ee5", "inf", "nan", "1_0", "1e5-", "1-",
            "1-5",
        ] {
            assert_eq!(bits(text), Err(13), "{text}");
        }
        assert_eq!(bits("-"), Err(6));
    }

    #[test]
    fn powers_out_of_range() {
        for text in ["1e23", "1.0e-22", "0e23", "1e-23", "1.e23", "1.5e24", "1e9999999999", "1e-9999999999"] {
            assert_eq!(bits(text), Err(7), "{text}");
        }
        for text in ["1e22", "1.0e23", "1e-22", "1.0e-21", "1.0E+23", "1e0000000022", "1e-000000022"] {
            assert!(bits(text).is_ok(), "{text}");
        }
    }

    #[test]
    fn signs_and_zeros() {
        assert_eq!(bits("-0"), Ok(1 << 63));
        assert_eq!(bits("-0.00e5"), Ok(1 << 63));
        assert_eq!(bits("0"), Ok(0));
        assert_eq!(bits("08"), Ok(8f64.to_bits()));
        assert_eq!(bits("5."), Ok(5f64.to_bits()));
        assert_eq!(bits("1.e5"), Ok(1e5f64.to_bits()));
        assert_eq!(bits("1E-05"), Ok(1e-5f64.to_bits()));
    }

    /// The nearest double is what `str::parse` gives, and what one product or quotient of doubles gives.
    #[test]
    fn as_parsed_and_as_multiplied() {
        let mut random = Random::new(1);
        let mut good = 0;
        for _ in 0..300_000 {
            let text = String::from_utf8(coefficient(&mut random, 14)).expect("a coefficient is text");
            let Ok(read) = Coefficient::read(text.as_bytes()) else { continue };
            let power = 10f64.powi(read.power.abs() as i32);
            let digits = read.digits as f64;
            let multiplied = if read.power < 0 { digits / power } else { digits * power };
            assert_eq!(read.double().to_bits(), text.parse::<f64>().expect("a double").to_bits(), "{text}");
            assert_eq!(read.double().abs().to_bits(), multiplied.to_bits(), "{text}");
            good += 1;
        }
        assert!(good > 100_000, "{good}");
    }
}
