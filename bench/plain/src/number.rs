//! Numbers within document 01's limits: integers, and reals that are whole
//! thousandths. A result that passes its limit is no number (`None`).

use std::cmp::Ordering;

use crate::limits;

/// An integer, or a real counted in thousandths.
#[derive(Clone, Copy, Debug, PartialEq, Eq)]
pub enum Number {
    Integer(i64),
    Real(i64),
}

use Number::{Integer, Real};

impl Number {
    /// The value of an integer token, if it is within the limit.
    pub fn read_integer(written: &[u8]) -> Option<Number> {
        let (sign, digits) = signed(written);
        Integer(sign * whole(digits)).within_limit()
    }

    /// The value of a float token without exponent, if it is within the limit
    /// and has not too many digits after the point.
    pub fn read_float(written: &[u8]) -> Option<Number> {
        let (sign, digits) = signed(written);
        let point = digits.iter().position(|byte| *byte == b'.')?;
        let (before, after) = (&digits[..point], &digits[point + 1..]);
        let missing = limits::DIGITS_AFTER_POINT.checked_sub(after.len())?;
        let after = whole(after) * 10_i64.pow(missing as u32);
        Real(sign * (whole(before) * limits::PARTS_OF_ONE + after)).within_limit()
    }

    /// The number itself, if it lies within the limit for its kind.
    pub fn within_limit(self) -> Option<Number> {
        let fits = match self {
            Integer(value) => value.unsigned_abs() <= limits::INTEGER.unsigned_abs(),
            Real(thousandths) => thousandths.unsigned_abs() <= limits::REAL_THOUSANDTHS.unsigned_abs(),
        };
        fits.then_some(self)
    }

    fn thousandths(self) -> i64 {
        match self {
            Integer(value) => value * limits::PARTS_OF_ONE,
            Real(thousandths) => thousandths,
        }
    }

    pub fn plus(self, other: Number) -> Option<Number> {
        match (self, other) {
            (Integer(left), Integer(right)) => Integer(left + right),
            _ => Real(self.thousandths() + other.thousandths()),
        }
        .within_limit()
    }

    pub fn minus(self, other: Number) -> Option<Number> {
        self.plus(other.negated())
    }

    /// An integer if both are, else a real cut to thousandths toward zero.
    pub fn times(self, other: Number) -> Option<Number> {
        match (self, other) {
            (Integer(left), Integer(right)) => Integer(left * right),
            _ => Real(self.thousandths() * other.thousandths() / limits::PARTS_OF_ONE),
        }
        .within_limit()
    }

    /// Always a real, cut to thousandths toward zero; none by zero.
    pub fn over(self, other: Number) -> Option<Number> {
        let parts = self.thousandths() * limits::PARTS_OF_ONE;
        Real(parts.checked_div(other.thousandths())?).within_limit()
    }

    pub fn negated(self) -> Number {
        match self {
            Integer(value) => Integer(-value),
            Real(thousandths) => Real(-thousandths),
        }
    }

    /// By value: 2 and 2.000 are equal here.
    pub fn compared(self, other: Number) -> Ordering {
        self.thousandths().cmp(&other.thousandths())
    }

    /// The sum of all, an integer if every one is; none if one is none. The
    /// limit is tested on the total.
    pub fn total(numbers: impl Iterator<Item = Option<Number>>) -> Option<Number> {
        let (mut thousandths, mut all_integers) = (0, true);
        for number in numbers {
            let number = number?;
            thousandths += number.thousandths();
            all_integers &= matches!(number, Integer(_));
        }
        match all_integers {
            true => Integer(thousandths / limits::PARTS_OF_ONE).within_limit(),
            false => Real(thousandths).within_limit(),
        }
    }
}

/// The sign and the rest of a number token.
fn signed(written: &[u8]) -> (i64, &[u8]) {
    match written.strip_prefix(b"-") {
        Some(digits) => (-1, digits),
        None => (1, written),
    }
}

/// The value of some digits; very many stay far beyond every limit.
fn whole(digits: &[u8]) -> i64 {
    const FAR: i64 = 1_000_000_000_000;
    digits.iter().fold(0, |value, digit| (value * 10 + i64::from(digit - b'0')).min(FAR))
}
