//! Numbers within document 01's limits: integers, and reals that are whole
//! thousandths. A result that passes its limit is no number (`None`).

use std::cmp::Ordering;
use std::fmt;

use crate::limits;

/// An integer, or a real counted in thousandths.
#[derive(Clone, Copy, Debug, PartialEq, Eq, Hash)]
pub enum Number {
    Integer(i64),
    Real(i64),
}

use Number::{Integer, Real};

impl Number {
    /// The value of an integer token. One with very many digits stays at the
    /// top of the machine's range, and so beyond the limit.
    pub fn read_integer(written: &str) -> Number {
        let (sign, digits) = signed(written);
        Integer(sign * whole(digits))
    }

    /// The value of a float token without exponent, cut to thousandths.
    pub fn read_float(written: &str) -> Number {
        let (sign, digits) = signed(written);
        let (before, after) = digits.split_once('.').expect("a float has a point");
        let padded = format!("{after:0<width$}", width = limits::DIGITS_AFTER_POINT);
        let thousandths = whole(before).saturating_mul(limits::PARTS_OF_ONE);
        Real(sign * thousandths.saturating_add(whole(&padded[..limits::DIGITS_AFTER_POINT])))
    }

    /// The number itself, if it lies within the limit for its kind.
    pub fn within_limit(self) -> Option<Number> {
        let fits = match self {
            Integer(value) => value.abs() <= limits::INTEGER,
            Real(thousandths) => thousandths.abs() <= limits::REAL_THOUSANDTHS,
        };
        fits.then_some(self)
    }

    fn thousandths(self) -> i64 {
        match self {
            Integer(value) => value * limits::PARTS_OF_ONE,
            Real(thousandths) => thousandths,
        }
    }

    pub fn plus(self, other: Number) -> Option<Number> {
        total(&[self, other])
    }

    pub fn minus(self, other: Number) -> Option<Number> {
        total(&[self, other.negated()])
    }

    /// An integer if both are, else a real cut to thousandths toward zero.
    pub fn times(self, other: Number) -> Option<Number> {
        let product = match (self, other) {
            (Integer(left), Integer(right)) => Integer(left * right),
            _ => Real(self.thousandths() * other.thousandths() / limits::PARTS_OF_ONE),
        };
        product.within_limit()
    }

    /// Always a real, cut to thousandths toward zero; none by zero.
    pub fn over(self, other: Number) -> Option<Number> {
        let parts = self.thousandths() * limits::PARTS_OF_ONE;
        Real(parts.checked_div(other.thousandths())?).within_limit()
    }

    pub fn negated(self) -> Number {
        match self {
            Integer(value) => Integer(-value),
            Real(thousandths) => Real(-thousandths),
        }
    }

    /// By value: 2 and 2.000 are equal here.
    pub fn compared(self, other: Number) -> Ordering {
        self.thousandths().cmp(&other.thousandths())
    }
}

/// The sum of all: an integer if every one is, else a real. The limit is
/// tested on the total.
pub fn total(numbers: &[Number]) -> Option<Number> {
    let thousandths = numbers.iter().map(|number| number.thousandths()).sum::<i64>();
    let all_integers = numbers.iter().all(|number| matches!(number, Integer(_)));
    match all_integers {
        true => Integer(thousandths / limits::PARTS_OF_ONE).within_limit(),
        false => Real(thousandths).within_limit(),
    }
}

/// The sign and the rest of a number token.
fn signed(written: &str) -> (i64, &str) {
    match written.strip_prefix('-') {
        Some(digits) => (-1, digits),
        None => (1, written),
    }
}

/// The value of some digits, leading zeros free.
fn whole(digits: &str) -> i64 {
    let values = digits.bytes().map(|digit| i64::from(digit - b'0'));
    values.fold(0, |value: i64, digit| value.saturating_mul(10).saturating_add(digit))
}

impl fmt::Display for Number {
    fn fmt(&self, out: &mut fmt::Formatter) -> fmt::Result {
        match self {
            Integer(value) => write!(out, "{value}"),
            Real(thousandths) => {
                let sign = if *thousandths < 0 { "-" } else { "" };
                let (ones, rest) =
                    (thousandths.abs() / limits::PARTS_OF_ONE, thousandths.abs() % limits::PARTS_OF_ONE);
                write!(out, "{sign}{ones}.{rest:03}")
            }
        }
    }
}
