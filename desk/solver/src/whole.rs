//! Whole numbers of any size: a machine word where it holds them, a list of limbs where not.

use crate::limbs;
use std::cmp::Ordering;
use std::ops::{Add, Mul, Neg, Sub};

/// A number is large only where no i64 holds it, so that equal numbers are written alike.
#[derive(Clone, Debug, PartialEq, Eq, Hash)]
pub enum Whole {
    Small(i64),
    Large(Box<Large>),
}

#[derive(Clone, Debug, PartialEq, Eq, Hash)]
pub struct Large {
    negative: bool,
    limbs: Vec<u32>,
}

use Whole::Small;

pub const ZERO: Whole = Small(0);
pub const ONE: Whole = Small(1);

impl From<i64> for Whole {
    fn from(number: i64) -> Whole {
        Small(number)
    }
}

impl From<i128> for Whole {
    fn from(number: i128) -> Whole {
        match i64::try_from(number) {
            Ok(small) => Small(small),
            Err(_) => {
                let size = number.unsigned_abs();
                let limbs = (0..4).map(|place| (size >> (32 * place)) as u32).collect();
                Whole::of_limbs(number < 0, limbs)
            }
        }
    }
}

impl Whole {
    fn of_limbs(negative: bool, limbs: Vec<u32>) -> Whole {
        let limbs = limbs::trimmed(limbs);
        if limbs.len() <= 2 {
            let size = limbs.iter().rev().fold(0, |size, limb| size << 32 | i128::from(*limb));
            if let Ok(small) = i64::try_from(if negative { -size } else { size }) {
                return Small(small);
            }
        }
        Whole::Large(Box::new(Large { negative, limbs }))
    }

    fn limbs(&self) -> Vec<u32> {
        match self {
            Small(number) => {
                let size = number.unsigned_abs();
                limbs::trimmed(vec![size as u32, (size >> 32) as u32])
            }
            Whole::Large(large) => large.limbs.clone(),
        }
    }

    pub fn is_zero(&self) -> bool {
        *self == ZERO
    }

    pub fn is_negative(&self) -> bool {
        match self {
            Small(number) => *number < 0,
            Whole::Large(large) => large.negative,
        }
    }

    /// The number, where an i64 holds it.
    pub fn small(&self) -> Option<i64> {
        match self {
            Small(number) => Some(*number),
            Whole::Large(_) => None,
        }
    }

    pub fn size(&self) -> Whole {
        if self.is_negative() {
            -self
        } else {
            self.clone()
        }
    }

    /// Quotient rounded down and remainder, which has the sign of the divisor. The divisor is not 0.
    pub fn divided(&self, by: &Whole) -> (Whole, Whole) {
        if let (Small(a), Small(b)) = (self, by) {
            if *b > 0 {
                return (Small(a.div_euclid(*b)), Small(a.rem_euclid(*b)));
            }
        }
        let (quotient, rest) = limbs::divided(&self.limbs(), &by.limbs());
        let quotient = Whole::of_limbs(self.is_negative() != by.is_negative(), quotient);
        let rest = Whole::of_limbs(self.is_negative(), rest);
        if !rest.is_zero() && rest.is_negative() != by.is_negative() {
            return (&quotient - &ONE, &rest + by);
        }
        (quotient, rest)
    }

    /// Quotient rounded down.
    pub fn over(&self, by: &Whole) -> Whole {
        if *by == ONE {
            return self.clone();
        }
        self.divided(by).0
    }

    pub fn divides(&self, other: &Whole) -> bool {
        other.divided(self).1.is_zero()
    }

    /// The greatest common divisor, not negative; of 0 and 0 it is 0.
    pub fn common(&self, other: &Whole) -> Whole {
        let (mut a, mut b) = (self.size(), other.size());
        loop {
            if let (Small(a), Small(b)) = (&a, &b) {
                return Small(common(*a, *b));
            }
            if b.is_zero() {
                return a;
            }
            let rest = a.divided(&b).1;
            (a, b) = (b, rest);
        }
    }

    /// The least common multiple of two positive numbers.
    pub fn multiple(&self, other: &Whole) -> Whole {
        &self.over(&self.common(other)) * other
    }

    /// The number nearest to a / b; b is positive.
    pub fn nearest(a: &Whole, b: &Whole) -> Whole {
        (&(a + a) + b).over(&(b + b))
    }
}

/// The greatest common divisor of two numbers that are not negative.
pub fn common(mut a: i64, mut b: i64) -> i64 {
    while b != 0 {
        (a, b) = (b, a % b);
    }
    a
}

impl Neg for &Whole {
    type Output = Whole;

    fn neg(self) -> Whole {
        match self {
            Small(number) => Whole::from(-i128::from(*number)),
            Whole::Large(large) => Whole::of_limbs(!large.negative, large.limbs.clone()),
        }
    }
}

impl Add for &Whole {
    type Output = Whole;

    fn add(self, other: &Whole) -> Whole {
        if let (Small(a), Small(b)) = (self, other) {
            return a.checked_add(*b).map_or_else(|| Whole::from(i128::from(*a) + i128::from(*b)), Small);
        }
        let (a, b) = (self.limbs(), other.limbs());
        if self.is_negative() == other.is_negative() {
            return Whole::of_limbs(self.is_negative(), limbs::sum(&a, &b));
        }
        match limbs::compare(&a, &b) {
            Ordering::Less => Whole::of_limbs(other.is_negative(), limbs::difference(&b, &a)),
            _ => Whole::of_limbs(self.is_negative(), limbs::difference(&a, &b)),
        }
    }
}

impl Sub for &Whole {
    type Output = Whole;

    fn sub(self, other: &Whole) -> Whole {
        self + &-other
    }
}

impl Mul for &Whole {
    type Output = Whole;

    fn mul(self, other: &Whole) -> Whole {
        if let (Small(a), Small(b)) = (self, other) {
            return a.checked_mul(*b).map_or_else(|| Whole::from(i128::from(*a) * i128::from(*b)), Small);
        }
        let product = limbs::product(&self.limbs(), &other.limbs());
        Whole::of_limbs(self.is_negative() != other.is_negative(), product)
    }
}

impl PartialOrd for Whole {
    fn partial_cmp(&self, other: &Whole) -> Option<Ordering> {
        Some(self.cmp(other))
    }
}

impl Ord for Whole {
    fn cmp(&self, other: &Whole) -> Ordering {
        if let (Small(a), Small(b)) = (self, other) {
            return a.cmp(b);
        }
        match (self.is_negative(), other.is_negative()) {
            (true, false) => Ordering::Less,
            (false, true) => Ordering::Greater,
            (false, false) => limbs::compare(&self.limbs(), &other.limbs()),
            (true, true) => limbs::compare(&other.limbs(), &self.limbs()),
        }
    }
}

#[cfg(test)]
mod tests {
    use super::{Whole, ZERO};

    /// Numbers of one to five limbs, with many bits set or few.
    fn numbers() -> Vec<Whole> {
        let mut out = vec![ZERO];
        let mut state = 1u64;
        for step in 0..160 {
            state = state.wrapping_mul(6_364_136_223_846_793_005).wrapping_add(1_442_695_040_888_963_407);
            let word = Whole::from((state >> (step % 40)) as i64);
            let edge = Whole::from(i64::MIN >> (step % 64));
            let last = out[out.len() * 5 / 7].clone();
            let next = match step % 4 {
                0 => word,
                1 => &(&last * &word) + &edge,
                2 => &edge * &last,
                _ => &edge - &word,
            };
            out.push(if next.limbs().len() > 9 { edge } else { next });
        }
        out
    }

    #[test]
    fn divides_back() {
        let numbers = numbers();
        for (a, b) in numbers.iter().flat_map(|a| numbers.iter().map(move |b| (a, b))) {
            if b.is_zero() {
                continue;
            }
            let (quotient, rest) = a.divided(b);
            assert_eq!(&(&quotient * b) + &rest, *a);
            assert!(rest.is_zero() || rest.is_negative() == b.is_negative());
            assert!(rest.size() < b.size());
        }
    }

    #[test]
    fn agrees_with_words() {
        let words = [0i64, 1, -1, 2, 7, -9, i64::MAX, i64::MIN, i64::MAX - 3, 1 << 32, -(1 << 31), 4_294_967_295];
        for (a, b) in words.iter().flat_map(|a| words.iter().map(move |b| (*a, *b))) {
            let (wide, other) = (i128::from(a), i128::from(b));
            let (x, y) = (Whole::from(a), Whole::from(b));
            assert_eq!(&x + &y, Whole::from(wide + other));
            assert_eq!(&x - &y, Whole::from(wide - other));
            assert_eq!(&x * &y, Whole::from(wide * other));
            assert_eq!(x.cmp(&y), a.cmp(&b));
            if b != 0 {
                let down = wide.div_euclid(other) - i128::from(other < 0 && wide.rem_euclid(other) != 0);
                assert_eq!(x.over(&y), Whole::from(down));
            }
        }
    }

    #[test]
    fn common_divisors_divide() {
        let numbers = numbers();
        for (a, b) in numbers.iter().zip(numbers.iter().skip(3)) {
            let common = a.common(b);
            assert!(common.is_zero() || (common.divides(a) && common.divides(b)));
            let threefold = Whole::Small(3);
            assert_eq!((a * &threefold).common(&(b * &threefold)), &common * &threefold);
        }
    }
}
