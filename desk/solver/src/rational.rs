//! Exact fractions.

use crate::whole::{Whole, ONE, ZERO};
use std::cmp::Ordering;
use std::ops::{Add, Mul, Neg, Sub};

/// In lowest terms, with a positive bottom.
#[derive(Clone, Debug, PartialEq, Eq)]
pub struct Rational {
    top: Whole,
    bottom: Whole,
}

pub const NOUGHT: Rational = Rational { top: ZERO, bottom: ONE };

impl From<i64> for Rational {
    fn from(number: i64) -> Rational {
        Rational { top: Whole::from(number), bottom: ONE }
    }
}

impl Rational {
    /// top / bottom; the bottom is not 0.
    pub fn new(top: Whole, bottom: Whole) -> Rational {
        if bottom == ONE {
            return Rational { top, bottom };
        }
        let common = top.common(&bottom);
        let common = if bottom.is_negative() { -&common } else { common };
        Rational { top: top.over(&common), bottom: bottom.over(&common) }
    }

    pub fn top(&self) -> &Whole {
        &self.top
    }

    pub fn bottom(&self) -> &Whole {
        &self.bottom
    }

    pub fn is_zero(&self) -> bool {
        self.top.is_zero()
    }

    pub fn is_negative(&self) -> bool {
        self.top.is_negative()
    }

    pub fn is_positive(&self) -> bool {
        !self.is_negative() && !self.is_zero()
    }

    pub fn is_whole(&self) -> bool {
        self.bottom == ONE
    }

    /// Whether it is this whole number.
    pub fn is(&self, number: i64) -> bool {
        self.is_whole() && self.top == Whole::from(number)
    }

    /// The number, where it is whole and an i64 holds it.
    pub fn small(&self) -> Option<i64> {
        if self.is_whole() {
            self.top.small()
        } else {
            None
        }
    }

    pub fn floor(&self) -> Whole {
        self.top.over(&self.bottom)
    }

    /// What is over the whole number below.
    pub fn fraction(&self) -> Rational {
        Rational { top: self.top.divided(&self.bottom).1, bottom: self.bottom.clone() }
    }

    /// One over the number, which is not 0.
    pub fn inverse(&self) -> Rational {
        if self.is_negative() {
            Rational { top: -&self.bottom, bottom: -&self.top }
        } else {
            Rational { top: self.bottom.clone(), bottom: self.top.clone() }
        }
    }

    pub fn size(&self) -> Rational {
        Rational { top: self.top.size(), bottom: self.bottom.clone() }
    }

    /// The number times a whole one.
    pub fn times(&self, factor: i64) -> Rational {
        self * &Rational::from(factor)
    }
}

impl Neg for &Rational {
    type Output = Rational;

    fn neg(self) -> Rational {
        Rational { top: -&self.top, bottom: self.bottom.clone() }
    }
}

impl Add for &Rational {
    type Output = Rational;

    fn add(self, other: &Rational) -> Rational {
        if self.is_zero() {
            return other.clone();
        }
        if other.is_zero() {
            return self.clone();
        }
        if self.bottom == other.bottom {
            return Rational::new(&self.top + &other.top, self.bottom.clone());
        }
        let top = &(&self.top * &other.bottom) + &(&other.top * &self.bottom);
        Rational::new(top, &self.bottom * &other.bottom)
    }
}

impl Sub for &Rational {
    type Output = Rational;

    fn sub(self, other: &Rational) -> Rational {
        self + &-other
    }
}

impl Mul for &Rational {
    type Output = Rational;

    fn mul(self, other: &Rational) -> Rational {
        if self.is_zero() || other.is_zero() {
            return NOUGHT;
        }
        if self.is_whole() && other.is_whole() {
            return Rational { top: &self.top * &other.top, bottom: ONE };
        }
        let (one, two) = (self.top.common(&other.bottom), other.top.common(&self.bottom));
        let top = &self.top.over(&one) * &other.top.over(&two);
        Rational { top, bottom: &self.bottom.over(&two) * &other.bottom.over(&one) }
    }
}

impl PartialOrd for Rational {
    fn partial_cmp(&self, other: &Rational) -> Option<Ordering> {
        Some(self.cmp(other))
    }
}

impl Ord for Rational {
    fn cmp(&self, other: &Rational) -> Ordering {
        if self.bottom == other.bottom {
            return self.top.cmp(&other.top);
        }
        (&self.top * &other.bottom).cmp(&(&other.top * &self.bottom))
    }
}
