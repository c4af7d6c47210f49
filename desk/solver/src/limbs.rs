//! Natural numbers as lists of limbs, the lowest first, none of value 0 at the end.

use std::cmp::Ordering;

const BITS: u32 = 32;
const BASE: u64 = 1 << BITS;

/// The list without zeros at its end.
pub fn trimmed(mut limbs: Vec<u32>) -> Vec<u32> {
    while limbs.last() == Some(&0) {
        limbs.pop();
    }
    limbs
}

pub fn compare(a: &[u32], b: &[u32]) -> Ordering {
    a.len().cmp(&b.len()).then_with(|| a.iter().rev().cmp(b.iter().rev()))
}

pub fn sum(a: &[u32], b: &[u32]) -> Vec<u32> {
    let mut out = Vec::with_capacity(a.len().max(b.len()) + 1);
    let mut carry = 0;
    for place in 0..a.len().max(b.len()) {
        let limb = |of: &[u32]| u64::from(of.get(place).copied().unwrap_or(0));
        let total = limb(a) + limb(b) + carry;
        out.push(total as u32);
        carry = total >> BITS;
    }
    out.push(carry as u32);
    trimmed(out)
}

/// a − b, where b is not greater.
pub fn difference(a: &[u32], b: &[u32]) -> Vec<u32> {
    let mut out = Vec::with_capacity(a.len());
    let mut borrow = 0;
    for (place, limb) in a.iter().enumerate() {
        let taken = u64::from(b.get(place).copied().unwrap_or(0)) + borrow;
        out.push((BASE + u64::from(*limb) - taken) as u32);
        borrow = u64::from(u64::from(*limb) < taken);
    }
    trimmed(out)
}

pub fn product(a: &[u32], b: &[u32]) -> Vec<u32> {
    let mut out = vec![0; a.len() + b.len()];
    for (i, x) in a.iter().enumerate() {
        let mut carry = 0;
        for (j, y) in b.iter().enumerate() {
            let total = u64::from(out[i + j]) + u64::from(*x) * u64::from(*y) + carry;
            out[i + j] = total as u32;
            carry = total >> BITS;
        }
        out[i + b.len()] = carry as u32;
    }
    trimmed(out)
}

/// Quotient and remainder. The divisor is not 0; of 0 the remainder is `a`.
pub fn divided(a: &[u32], b: &[u32]) -> (Vec<u32>, Vec<u32>) {
    match b {
        [] => (Vec::new(), a.to_vec()),
        [limb] => divided_by_limb(a, *limb),
        _ if compare(a, b) == Ordering::Less => (Vec::new(), a.to_vec()),
        _ => divided_by_list(a, b),
    }
}

fn divided_by_limb(a: &[u32], limb: u32) -> (Vec<u32>, Vec<u32>) {
    let mut out = vec![0; a.len()];
    let mut rest = 0;
    for place in (0..a.len()).rev() {
        let now = rest << BITS | u64::from(a[place]);
        out[place] = (now / u64::from(limb)) as u32;
        rest = now % u64::from(limb);
    }
    (trimmed(out), trimmed(vec![rest as u32]))
}

/// Long division, limb by limb (Knuth's algorithm D). `b` has two limbs or more and is not greater than `a`.
fn divided_by_list(a: &[u32], b: &[u32]) -> (Vec<u32>, Vec<u32>) {
    let shift = b[b.len() - 1].leading_zeros();
    let b = trimmed(shifted(b, shift));
    let mut rest = shifted(a, shift);
    let count = rest.len() - b.len();
    let mut out = vec![0; count];
    for place in (0..count).rev() {
        let window = &mut rest[place..=place + b.len()];
        let digit = guessed(window, &b);
        out[place] = taken_off(window, &b, digit);
    }
    rest.truncate(b.len());
    (trimmed(out), trimmed(shifted_back(&rest, shift)))
}

/// The list times a power of two below the base, with one more limb.
fn shifted(a: &[u32], shift: u32) -> Vec<u32> {
    let mut out = Vec::with_capacity(a.len() + 1);
    let mut carry = 0;
    for limb in a {
        let now = u64::from(*limb) << shift | carry;
        out.push(now as u32);
        carry = now >> BITS;
    }
    out.push(carry as u32);
    out
}

fn shifted_back(a: &[u32], shift: u32) -> Vec<u32> {
    let above = |place: usize| u64::from(a.get(place + 1).copied().unwrap_or(0));
    (0..a.len()).map(|place| ((above(place) << BITS | u64::from(a[place])) >> shift) as u32).collect()
}

/// The quotient's next limb, or one more, from the leading limbs. The window has one limb more than the divisor.
fn guessed(window: &[u32], b: &[u32]) -> u64 {
    let n = b.len();
    let top = u64::from(window[n]) << BITS | u64::from(window[n - 1]);
    let (first, second) = (u64::from(b[n - 1]), u64::from(b[n - 2]));
    let (mut digit, mut rest) = (top / first, top % first);
    while rest < BASE && (digit >= BASE || digit * second > (rest << BITS | u64::from(window[n - 2]))) {
        digit -= 1;
        rest += first;
    }
    digit
}

/// Takes the divisor off the window so often, or once less where that is too much; how often.
fn taken_off(window: &mut [u32], b: &[u32], digit: u64) -> u32 {
    let (mut carry, mut borrow) = (0, 0);
    for (place, limb) in window.iter_mut().enumerate() {
        let total = digit * u64::from(b.get(place).copied().unwrap_or(0)) + carry;
        carry = total >> BITS;
        let taken = u64::from(total as u32) + borrow;
        borrow = u64::from(u64::from(*limb) < taken);
        *limb = (BASE + u64::from(*limb) - taken) as u32;
    }
    if borrow == 0 {
        return digit as u32;
    }
    let mut carry = 0;
    for (place, limb) in window.iter_mut().enumerate() {
        let total = u64::from(*limb) + u64::from(b.get(place).copied().unwrap_or(0)) + carry;
        *limb = total as u32;
        carry = total >> BITS;
    }
    (digit - 1) as u32
}
