//! Exact numbers of 64 bits. A result past 2^62 ends the program.

use std::cmp::Ordering;
use std::fmt;
use std::ops::{Add, Div, Mul, Neg, Sub};

/// In lowest terms, with a denominator above 0.
#[derive(Clone, Copy, PartialEq, Eq)]
pub struct Fraction {
    numerator: i64,
    denominator: i64,
}

const LIMIT: i128 = 1 << 62;
const MILLION: u128 = 1_000_000;

fn greatest_divisor(mut a: u64, mut b: u64) -> u64 {
    while b != 0 {
        (a, b) = (b, a % b);
    }
    a
}

/// The same of any numbers, of which the second is above 0.
fn wide_divisor(a: u128, b: u128) -> u128 {
    match (u64::try_from(a), u64::try_from(b)) {
        (Ok(a), Ok(b)) => greatest_divisor(a, b) as u128,
        _ if a % b == 0 => b,
        _ => wide_divisor(b, a % b),
    }
}

/// Of numbers past 64 bits. The denominator is above 0.
fn reduced_wide(numerator: i128, denominator: i128) -> Fraction {
    let divisor = wide_divisor(numerator.unsigned_abs(), denominator as u128) as i128;
    let (numerator, denominator) = (numerator / divisor, denominator / divisor);
    if numerator.abs() > LIMIT || denominator > LIMIT {
        crate::fail("a number that leaves the range");
    }
    Fraction { numerator: numerator as i64, denominator: denominator as i64 }
}

/// The denominator is above 0.
fn reduced(numerator: i128, denominator: i128) -> Fraction {
    if numerator.abs() > LIMIT || denominator > LIMIT {
        return reduced_wide(numerator, denominator);
    }
    let (numerator, denominator) = (numerator as i64, denominator as i64);
    if denominator == 1 {
        return Fraction::whole(numerator);
    }
    let divisor = greatest_divisor(denominator as u64, numerator.unsigned_abs()) as i64;
    Fraction { numerator: numerator / divisor, denominator: denominator / divisor }
}

impl Fraction {
    pub const ZERO: Fraction = Fraction::whole(0);

    pub const fn whole(numerator: i64) -> Fraction {
        Fraction { numerator, denominator: 1 }
    }

    /// The denominator is above 0.
    pub fn new(numerator: i64, denominator: i64) -> Fraction {
        reduced(numerator as i128, denominator as i128)
    }

    pub fn is_zero(self) -> bool {
        self.numerator == 0
    }

    pub fn is_positive(self) -> bool {
        self.numerator > 0
    }

    pub fn half(self) -> Fraction {
        self * Fraction::new(1, 2)
    }

    pub fn floor(self) -> i64 {
        self.numerator.div_euclid(self.denominator)
    }

    pub fn ceil(self) -> i64 {
        -(-self.numerator).div_euclid(self.denominator)
    }

    /// The value, if it is a whole number.
    pub fn as_whole(self) -> Option<i64> {
        (self.denominator == 1).then_some(self.numerator)
    }
}

impl Add for Fraction {
    type Output = Fraction;
    fn add(self, other: Fraction) -> Fraction {
        let (a, b) = (self.numerator as i128, other.numerator as i128);
        let (under_a, under_b) = (self.denominator as i128, other.denominator as i128);
        if under_a == under_b {
            return reduced(a + b, under_a);
        }
        reduced(a * under_b + b * under_a, under_a * under_b)
    }
}

impl Neg for Fraction {
    type Output = Fraction;
    fn neg(self) -> Fraction {
        Fraction { numerator: -self.numerator, denominator: self.denominator }
    }
}

impl Sub for Fraction {
    type Output = Fraction;
    fn sub(self, other: Fraction) -> Fraction {
        self + -other
    }
}

impl Mul for Fraction {
    type Output = Fraction;
    fn mul(self, other: Fraction) -> Fraction {
        let numerator = self.numerator as i128 * other.numerator as i128;
        reduced(numerator, self.denominator as i128 * other.denominator as i128)
    }
}

/// The divisor isn't 0.
impl Div for Fraction {
    type Output = Fraction;
    fn div(self, other: Fraction) -> Fraction {
        let sign = other.numerator.signum() as i128;
        let numerator = self.numerator as i128 * other.denominator as i128;
        let denominator = self.denominator as i128 * other.numerator as i128;
        reduced(sign * numerator, sign * denominator)
    }
}

impl Ord for Fraction {
    fn cmp(&self, other: &Fraction) -> Ordering {
        if self.denominator == other.denominator {
            return self.numerator.cmp(&other.numerator);
        }
        let left = self.numerator as i128 * other.denominator as i128;
        left.cmp(&(other.numerator as i128 * self.denominator as i128))
    }
}

impl PartialOrd for Fraction {
    fn partial_cmp(&self, other: &Fraction) -> Option<Ordering> {
        Some(self.cmp(other))
    }
}

/// With six decimals, of two equally near ones the one farther from zero.
impl fmt::Display for Fraction {
    fn fmt(&self, text: &mut fmt::Formatter) -> fmt::Result {
        let denominator = self.denominator as u128;
        let doubled = 2 * MILLION * self.numerator.unsigned_abs() as u128;
        let rounded = (doubled + denominator) / (2 * denominator);
        let sign = if self.numerator < 0 && rounded > 0 { "-" } else { "" };
        let (whole, rest) = ((rounded / MILLION) as u64, (rounded % MILLION) as u64);
        write!(text, "{sign}{whole}.{rest:06}")
    }
}
