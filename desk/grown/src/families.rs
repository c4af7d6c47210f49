//! The families of questions.

use crate::draft::{Column, Draft};
use compare::random::Random;
use ticket::{Constraint, Question, Relation};
use Column::{Code, Integer, Len};
use Relation::{Eq, Ge, Ne};

pub type Family = fn(&mut Random) -> Question;

pub const FAMILIES: [(&str, Family); 16] = [
    ("office", office),
    ("letters", letters),
    ("codes", codes),
    ("lengths", lengths),
    ("parity", parity),
    ("check sums", check_sums),
    ("cards", cards),
    ("open lengths", open_lengths),
    ("literals", literals),
    ("links", links),
    ("tiny", tiny),
    ("integers", integers),
    ("knapsacks", knapsacks),
    ("large numbers", large_numbers),
    ("many conditions", many_conditions),
    ("anything", anything),
];

const A: i64 = 65;

fn some(random: &mut Random, low: i64, high: i64) -> i64 {
    random.between(i128::from(low), i128::from(high)) as i64
}

fn count(random: &mut Random, low: usize, high: usize) -> usize {
    low + random.below(high - low + 1)
}

/// A factor that is not 0.
fn factor(random: &mut Random, most: i64) -> i64 {
    let size = some(random, 1, most);
    if random.chance(50) {
        size
    } else {
        -size
    }
}

fn relation(random: &mut Random) -> Relation {
    random.pick(&[Ge, Ge, Eq, Ne])
}

fn any_column(random: &mut Random, p: usize, q: usize) -> Column {
    let place = random.below(q + 2 * p);
    match place {
        _ if place < q => Integer(place),
        _ if place < q + p => Len(place - q),
        _ => Code(place - q - p),
    }
}

/// Numbers of 7 to 12 characters, check letters, a form with places to spare.
fn office(random: &mut Random) -> Question {
    let (numbers, checks) = (count(random, 2, 4), count(random, 1, 3));
    let mut draft = Draft::new(random.pick(&[128, 256, 196_608]), numbers + checks + 1, 1);
    let letter = |check: usize| numbers + check;
    (0..numbers).for_each(|x| draft.within(Len(x), 7, 12));
    for check in 0..checks {
        let low = some(random, A, A + 12);
        draft.within(Code(letter(check)), low, low + some(random, 0, 13));
    }
    for _ in 0..count(random, 1, 4) {
        let (x, y) = (random.below(numbers), random.below(numbers));
        match random.below(4) {
            0 => draft.differ(letter(random.below(checks)), letter(random.below(checks))),
            1 => draft.arithmetic(Ge, some(random, -6, 2), &[(Len(x), 1), (Len(y), -1)]),
            2 => draft.arithmetic(Eq, some(random, -3, 3), &[(Len(x), 1), (Len(y), -1)]),
            _ => draft.differ(x, y),
        }
    }
    draft.is(numbers + checks, &[82, 66, 72]);
    let mut terms: Vec<(Column, i64)> = (0..numbers).map(|x| (Len(x), -1)).collect();
    terms.extend([(Integer(0), -1), (Len(numbers + checks), -1)]);
    draft.arithmetic(Eq, some(random, 18, 48), &terms);
    draft.arithmetic(Ge, -some(random, 0, 6), &[(Integer(0), 1)]);
    draft.finish(random)
}

/// Different letters in a range that may be too small.
fn letters(random: &mut Random) -> Question {
    let p = count(random, 2, 5);
    let mut draft = Draft::new(random.pick(&[128, 196_608]), p + 1, 0);
    let places = count(random, p.max(2) - 1, p) as i64;
    (0..p).for_each(|x| draft.within(Code(x), A, A + places - 1));
    draft.all_differ(&(0..p).collect::<Vec<_>>());
    if random.chance(30) && p < 4 {
        draft.is(p, &[(A + some(random, 0, places)) as u32]);
        draft.differ(random.below(p), p);
    }
    draft.finish(random)
}

/// Chains and sums of codes.
fn codes(random: &mut Random) -> Question {
    let p = count(random, 2, 6);
    let mut draft = Draft::new(random.pick(&[16, 30, 128, 196_608]), p, 1);
    for x in 0..p {
        match random.below(3) {
            0 => draft.within(Code(x), some(random, 0, 9), some(random, 8, 20)),
            1 => draft.equals(Len(x), 1),
            _ => {}
        }
    }
    for _ in 0..count(random, 2, 6) {
        let (x, y, z) = (random.below(p), random.below(p), random.below(p));
        match random.below(4) {
            0 => draft.differ(x, y),
            1 => draft.arithmetic(relation(random), some(random, -3, 3), &[(Code(x), 1), (Code(y), -1)]),
            2 => draft.arithmetic(Eq, some(random, -2, 2), &[(Code(x), 1), (Code(y), 1), (Code(z), -2)]),
            _ => draft.arithmetic(relation(random), 0, &[(Code(x), 1), (Code(y), factor(random, 3)), (Integer(0), 1)]),
        }
    }
    draft.finish(random)
}

/// Sums of lengths, texts that differ.
fn lengths(random: &mut Random) -> Question {
    let p = count(random, 2, 7);
    let mut draft = Draft::new(random.pick(&[2, 10, 128]), p, 1);
    for x in 0..p {
        if random.chance(60) {
            draft.within(Len(x), some(random, 0, 5), some(random, 4, 14));
        }
    }
    for _ in 0..count(random, 2, 6) {
        let (x, y, z) = (random.below(p), random.below(p), random.below(p));
        match random.below(4) {
            0 => draft.differ(x, y),
            1 => draft.arithmetic(relation(random), some(random, -4, 4), &[(Len(x), 1), (Len(y), -1)]),
            2 => draft.arithmetic(Eq, some(random, -12, 0), &[(Len(x), 1), (Len(y), 1), (Len(z), 1)]),
            _ => {
                draft.arithmetic(relation(random), some(random, -9, 9), &[(Len(x), factor(random, 3)), (Integer(0), 2)])
            }
        }
    }
    draft.finish(random)
}

/// Equations modulo small numbers.
fn parity(random: &mut Random) -> Question {
    let (p, q) = (count(random, 2, 5), count(random, 2, 4));
    let mut draft = Draft::new(128, p, q);
    for x in 0..p {
        if random.chance(70) {
            draft.within(Code(x), A, A + 25);
        }
    }
    let modulus = random.pick(&[2, 2, 3, 4, 6]);
    for k in 0..q {
        let mut terms = vec![(Integer(k), -modulus)];
        for x in 0..p {
            if random.chance(60) {
                let column = if random.chance(75) { Code(x) } else { Len(x) };
                terms.push((column, factor(random, 2)));
            }
        }
        draft.arithmetic(Eq, some(random, -3, 3), &terms);
    }
    if random.chance(50) {
        draft.differ(0, 1);
    }
    draft.finish(random)
}

/// Weighted digits modulo primes.
fn check_sums(random: &mut Random) -> Question {
    let p = count(random, 3, 6);
    let mut draft = Draft::new(196_608, p, 3);
    (0..p).for_each(|x| draft.within(Code(x), 48, 57));
    for (k, modulus) in [(0, 11), (1, random.pick(&[7, 23, 97]))] {
        let mut terms = vec![(Integer(k), -modulus)];
        (0..p).for_each(|x| terms.push((Code(x), some(random, 1, 9))));
        draft.arithmetic(Eq, some(random, -9, 9) - 48 * some(random, 0, 9), &terms);
    }
    draft.arithmetic(Eq, 0, &[(Code(0), 1), (Integer(2), -2)]);
    for _ in 0..count(random, 0, 3) {
        draft.differ(random.below(p), random.below(p));
    }
    draft.finish(random)
}

/// Few characters, texts of one length.
fn cards(random: &mut Random) -> Question {
    let p = count(random, 2, 6);
    let mut draft = Draft::new(random.pick(&[1, 2, 2, 3, 4]), p, 0);
    let length = some(random, 1, 2);
    for x in 0..p {
        match random.below(3) {
            0 if x > 0 => draft.arithmetic(Eq, 0, &[(Len(x), 1), (Len(x - 1), -1)]),
            1 => draft.within(Len(x), length, length),
            _ => draft.equals(Len(x), length),
        }
    }
    if random.chance(60) {
        draft.all_differ(&(0..p).collect::<Vec<_>>());
    } else {
        (0..2 * p).for_each(|_| draft.differ(random.below(p), random.below(p)));
        draft.question.constraints.retain(|constraint| !matches!(constraint, Constraint::NotSame(x, y) if x == y));
    }
    draft.finish(random)
}

/// Few characters, texts of several lengths.
fn open_lengths(random: &mut Random) -> Question {
    let p = count(random, 2, 6);
    let n = random.pick(&[1, 2, 2, 3]);
    let mut draft = Draft::new(n, p, 0);
    let top = some(random, 1, if n == 1 { 4 } else { 2 });
    for x in 0..p {
        draft.within(Len(x), some(random, 0, 1), top);
    }
    draft.all_differ(&(0..p).collect::<Vec<_>>());
    for _ in 0..count(random, 0, 2) {
        let (x, y) = (random.below(p), random.below(p));
        draft.arithmetic(relation(random), some(random, -1, 1), &[(Len(x), 1), (Len(y), factor(random, 1))]);
    }
    draft.finish(random)
}

/// Texts given, and texts that differ from them.
fn literals(random: &mut Random) -> Question {
    let p = count(random, 3, 8);
    let mut draft = Draft::new(random.pick(&[70, 128, 196_608]), p, 1);
    let texts: [&[u32]; 5] = [&[65], &[66], &[65, 66], &[], &[67, 65, 66]];
    for _ in 0..count(random, 1, 4) {
        let x = random.below(p);
        draft.is(x, random.pick(&texts));
    }
    for _ in 0..count(random, 2, 6) {
        let (x, y) = (random.below(p), random.below(p));
        match random.below(4) {
            0 => draft.add(Constraint::Same(x, y)),
            1 => draft.differ(x, y),
            2 => draft.arithmetic(relation(random), some(random, -3, 1), &[(Len(x), 1), (Len(y), factor(random, 2))]),
            _ => draft.arithmetic(relation(random), some(random, -67, 2), &[(Code(x), 1), (Integer(0), 1)]),
        }
    }
    if random.chance(50) {
        draft.within(Integer(0), -2, 4);
    }
    draft.finish(random)
}

/// Chains of equal texts with conditions at their ends.
fn links(random: &mut Random) -> Question {
    let p = count(random, 4, 12);
    let mut draft = Draft::new(128, p, 1);
    for x in 1..p {
        if random.chance(70) {
            draft.add(Constraint::Same(x, random.below(x)));
        }
    }
    for _ in 0..count(random, 2, 6) {
        let (x, y) = (random.below(p), random.below(p));
        match random.below(4) {
            0 => draft.differ(x, y),
            1 => draft.arithmetic(Ge, some(random, -2, 1), &[(Len(x), 1), (Len(y), -1)]),
            2 => draft.within(Code(x), A, A + some(random, 0, 4)),
            _ => draft.arithmetic(Ne, some(random, -1, 1), &[(Code(x), 1), (Code(y), -1)]),
        }
    }
    draft.finish(random)
}

/// So small that the brute force decides.
fn tiny(random: &mut Random) -> Question {
    let (p, q) = (count(random, 1, 3), count(random, 0, 2));
    let mut draft = Draft::new(count(random, 1, 3) as u32, p, q);
    (0..p).for_each(|x| draft.arithmetic(Ge, some(random, 1, 2), &[(Len(x), -1)]));
    (0..q).for_each(|k| draft.within(Integer(k), -2, 3));
    for _ in 0..count(random, 2, 6) {
        match random.below(4) {
            0 => draft.differ(random.below(p), random.below(p)),
            1 => draft.add(Constraint::Same(random.below(p), random.below(p))),
            _ => {
                let terms: Vec<(Column, i64)> =
                    (0..count(random, 1, 3)).map(|_| (any_column(random, p, q), factor(random, 3))).collect();
                draft.arithmetic(relation(random), some(random, -4, 4), &terms);
            }
        }
    }
    draft.finish(random)
}

/// Integers alone.
fn integers(random: &mut Random) -> Question {
    let q = count(random, 1, 5);
    let mut draft = Draft::new(128, 1, q);
    for _ in 0..count(random, 2, 8) {
        let terms: Vec<(Column, i64)> =
            (0..count(random, 1, 3)).map(|_| (Integer(random.below(q)), factor(random, 7))).collect();
        draft.arithmetic(relation(random), some(random, -20, 20), &terms);
    }
    draft.finish(random)
}

/// One equation with large weights over small ranges.
fn knapsacks(random: &mut Random) -> Question {
    let q = count(random, 3, 6);
    let mut draft = Draft::new(128, 1, q);
    (0..q).for_each(|k| draft.within(Integer(k), 0, some(random, 1, 9)));
    let terms: Vec<(Column, i64)> = (0..q).map(|k| (Integer(k), some(random, 50, 4000))).collect();
    draft.arithmetic(Eq, -some(random, 500, 20_000), &terms);
    draft.finish(random)
}

/// Coefficients up to the limit.
fn large_numbers(random: &mut Random) -> Question {
    let q = count(random, 2, 5);
    let mut draft = Draft::new(196_608, 2, q);
    let top = random.pick(&[100_000, 10_000_000, 1_000_000_000]);
    for _ in 0..count(random, 2, 6) {
        let mut terms: Vec<(Column, i64)> =
            (0..count(random, 1, 3)).map(|_| (Integer(random.below(q)), factor(random, top))).collect();
        if random.chance(30) {
            terms.push((Code(random.below(2)), factor(random, 1000)));
        }
        let total: i64 = terms.iter().map(|term| term.1.abs()).sum();
        if total <= 1_000_000_000 {
            draft.arithmetic(random.pick(&[Ge, Ge, Eq]), some(random, -top, top), &terms);
        }
    }
    if random.chance(60) {
        (0..q).for_each(|k| draft.within(Integer(k), -some(random, 0, 50), some(random, 0, 50)));
    }
    draft.finish(random)
}

/// Close to 128 constraints, often with a clash among a few of them.
fn many_conditions(random: &mut Random) -> Question {
    let (p, q) = (count(random, 8, 16), count(random, 2, 6));
    let mut draft = Draft::new(196_608, p, q);
    let due = count(random, 100, 127);
    let letters = count(random, 2, 4);
    for x in 0..p {
        let (low, high) = if x < letters { (1, 1) } else { (some(random, 2, 5), some(random, 6, 12)) };
        draft.within(Len(x), low, high);
    }
    (0..q).for_each(|k| draft.within(Integer(k), 0, some(random, 20, 60)));
    clash(random, &mut draft, letters);
    while draft.question.constraints.len() < due {
        let (x, y, k) = (random.below(p), random.below(p), random.below(q));
        match random.below(5) {
            0 if x != y => draft.differ(x, y),
            1 if x < letters => draft.within(Code(x), A, A + some(random, 3, 25)),
            2 => draft.arithmetic(Ge, some(random, 4, 20), &[(Len(x), 1), (Len(y), -1), (Integer(k), 1)]),
            3 => draft.arithmetic(Ge, some(random, 10, 60), &[(Len(x), -1), (Len(y), -1), (Integer(k), -1)]),
            _ => draft.arithmetic(Ne, some(random, -40, 0), &[(Len(x), 1), (Integer(k), 1)]),
        }
    }
    draft.finish(random)
}

/// Conditions on lengths, letters or sums that leave little room or none.
fn clash(random: &mut Random, draft: &mut Draft, letters: usize) {
    let (p, q) = (draft.question.p, draft.question.q);
    let number = |random: &mut Random| letters + random.below(p - letters);
    match random.below(4) {
        0 => {
            let chain: Vec<usize> = (0..3).map(|_| number(random)).collect();
            let gap = some(random, 2, 4);
            chain.windows(2).for_each(|pair| draft.arithmetic(Ge, -gap, &[(Len(pair[0]), 1), (Len(pair[1]), -1)]));
        }
        1 => {
            (0..letters).for_each(|x| draft.within(Code(x), A, A + letters as i64 - 2));
            draft.all_differ(&(0..letters).collect::<Vec<_>>());
        }
        2 => {
            let terms: Vec<(Column, i64)> = (letters..p).map(|x| (Len(x), -1)).collect();
            draft.arithmetic(Ge, some(random, 2, 5) * (p - letters) as i64, &terms);
        }
        _ => {
            let k = random.below(q);
            draft.arithmetic(
                Eq,
                some(random, -1, 0),
                &[(Len(number(random)), 2), (Len(number(random)), 4), (Integer(k), -2)],
            );
        }
    }
}

/// Constraints of all kinds over all columns.
fn anything(random: &mut Random) -> Question {
    let (p, q) = (count(random, 1, 5), count(random, 0, 3));
    let mut draft = Draft::new(random.pick(&[1, 2, 5, 128, 196_608]), p, q);
    let top = i64::from(draft.question.n).min(70);
    for _ in 0..count(random, 2, 9) {
        match random.below(6) {
            0 => draft.differ(random.below(p), random.below(p)),
            1 => draft.add(Constraint::Same(random.below(p), random.below(p))),
            2 => draft.is(random.below(p), &vec![some(random, 0, top - 1) as u32; random.below(3)]),
            _ => {
                let terms: Vec<(Column, i64)> =
                    (0..count(random, 1, 4)).map(|_| (any_column(random, p, q), factor(random, 4))).collect();
                draft.arithmetic(relation(random), some(random, -9, 9), &terms);
            }
        }
    }
    draft.finish(random)
}
