//! Grows constraints of kind 11 together with values that meet them, or miss them by a character or by one.

use crate::assignments::{small_or_edge, Grown};
use crate::random::Random;
use nuldwich_reference::extended::{decimal, is_numeric, lower, upper, Extended};
use nuldwich_reference::leaf::VALUE_LIMIT;
use nuldwich_reference::question::Question;

/// How many digits numerals have: as many as any integer of an answer has, one more, as many as 2^64 has, the most.
const DIGITS: [usize; 5] = [1, 9, 10, 20, 64];

/// Characters at the ends of the letters and of the digits, next to them, and others whose low 8 or 16 bits are those of 1, A and a.
const CHARACTERS: [u32; 22] =
    [47, 48, 49, 57, 58, 64, 65, 66, 90, 91, 96, 97, 98, 122, 123, 225, 305, 321, 353, 65_585, 65_601, 65_633];

/// For the first few constraints values are made; later ones only look for what stands there.
const SHAPED: usize = 4;

/// Adds up to so many constraints of kind 11, most of which hold or not as wished, and changes the assignment for them.
pub fn grow(random: &mut Random, grown: &mut Grown, count: usize, true_percent: usize) {
    if random.chance(85) {
        grown.question.n = grown.question.n.max(random.pick(&[58, 91, 123, 128, 196_608]));
    }
    let mut wished = Vec::new();
    for number in 0..count {
        let Some(extended) = any(random, &grown.question) else { continue };
        let truth = random.chance(true_percent);
        if number < SHAPED {
            shape(random, grown, &extended);
            meet(random, grown, &extended);
        }
        if number < SHAPED && !truth {
            miss(random, grown, &extended);
        }
        wished.push((extended, truth));
    }
    let assignment = grown.assignment();
    wished.retain(|(extended, truth)| extended.holds(&assignment) == *truth || random.chance(5));
    grown.question.extended = wished.into_iter().map(|(extended, _)| extended).collect();
}

/// A constraint with any operands; nothing where the question has none for it.
pub fn any(random: &mut Random, question: &Question) -> Option<Extended> {
    let (p, q) = (question.p, question.q);
    let function = random.below(5);
    if p == 0 || (q == 0 && [2, 3].contains(&function)) {
        return None;
    }
    let (a, b) = (random.below(p), random.below(p));
    Some(match function {
        0 => Extended::Upper { a, b },
        1 => Extended::Lower { a, b },
        2 => Extended::Read { integer: random.below(q), string: b },
        3 => Extended::Written { string: a, integer: random.below(q) },
        _ => Extended::Before { a, b },
    })
}

/// Gives b a value that the function has something to do with.
fn shape(random: &mut Random, grown: &mut Grown, extended: &Extended) {
    match *extended {
        Extended::Upper { b, .. } | Extended::Lower { b, .. } | Extended::Before { b, .. } => {
            let text = letters(random);
            put(grown, b, text);
        }
        Extended::Read { integer, string } => {
            let text = numeral(random, grown.integers[integer]);
            put(grown, string, text);
        }
        Extended::Written { integer, .. } => {
            let any = small_or_edge(random, VALUE_LIMIT);
            grown.integers[integer] = random.pick(&[-1, 0, 9, 10, VALUE_LIMIT - 1, VALUE_LIMIT, any]);
        }
    }
}

/// Gives a a value that meets the constraint, if an answer can have one.
fn meet(random: &mut Random, grown: &mut Grown, extended: &Extended) {
    match *extended {
        Extended::Upper { a, b } => put(grown, a, upper(&grown.strings[b])),
        Extended::Lower { a, b } => put(grown, a, lower(&grown.strings[b])),
        Extended::Read { integer, string } => {
            let value = value_of(&grown.strings[string]);
            value.into_iter().for_each(|value| grown.integers[integer] = value);
        }
        Extended::Written { string, integer } => put(grown, string, decimal(grown.integers[integer])),
        Extended::Before { a, b } => {
            let text = neighbour(random, &grown.strings[b], false);
            put(grown, a, text);
        }
    }
}

/// Changes a so that the constraint is missed, most of the time: by a character, or by one.
fn miss(random: &mut Random, grown: &mut Grown, extended: &Extended) {
    match *extended {
        Extended::Upper { a, .. } | Extended::Lower { a, .. } | Extended::Written { string: a, .. } => {
            let text = one_off(random, &grown.strings[a]);
            put(grown, a, text);
        }
        Extended::Read { integer, .. } => {
            let value = grown.integers[integer];
            let other = random.pick(&[value - 1, value + 1, -value, 0, -1]);
            grown.integers[integer] = other.clamp(-VALUE_LIMIT, VALUE_LIMIT);
        }
        Extended::Before { a, b } => {
            let text = neighbour(random, &grown.strings[b], true);
            put(grown, a, text);
        }
    }
}

/// Gives a variable a string, if an answer may have it.
fn put(grown: &mut Grown, x: usize, text: Vec<u32>) {
    if text.len() <= 64 && text.iter().all(|character| *character < grown.question.n) {
        grown.strings[x] = text;
    }
}

/// A text of letters and what stands next to them.
fn letters(random: &mut Random) -> Vec<u32> {
    let length = random.pick(&[0, 1, 2, 3, 8, 64]);
    let plain = random.chance(50);
    (0..length).map(|_| if plain { 65 + random.below(58) as u32 } else { random.pick(&CHARACTERS) }).collect()
}

/// A numeral, or a text that just is none; now and then one that is the integer modulo 2^32 or 2^64.
fn numeral(random: &mut Random, integer: i128) -> Vec<u32> {
    let mut text: Vec<u32> = (0..random.pick(&DIGITS)).map(|_| 48 + random.below(10) as u32).collect();
    match random.below(12) {
        0 => text.clear(),
        1 => text[0] = 48,
        2 => text[0] = random.pick(&[43, 45, 32]),
        3 => *text.last_mut().expect("a digit") = random.pick(&CHARACTERS),
        4 => text = decimal(integer.abs()),
        5 => text = [vec![48; random.pick(&[1, 2, 55])], decimal(integer.abs())].concat(),
        6 => text = decimal(integer + (1 << 32)),
        7 | 8 => text = alike_in_64_bits(random, integer),
        _ => text[0] = 49 + random.below(9) as u32,
    }
    text
}

/// A numeral of 20, 40 or 64 digits whose value is the integer's modulo 2^64.
fn alike_in_64_bits(random: &mut Random, integer: i128) -> Vec<u32> {
    let leading = random.pick(&[0, 20, 44]);
    let mut text: Vec<u32> = (0..leading).map(|_| 49 + random.below(9) as u32).collect();
    let high = text.iter().fold(0u64, |value, digit| value.wrapping_mul(10).wrapping_add(u64::from(digit - 48)));
    let low = (integer as u64).wrapping_sub(high.wrapping_mul(10u64.pow(10)).wrapping_mul(10u64.pow(10)));
    let low = if leading == 0 { (1 << 64) + u128::from(low) } else { u128::from(low) };
    text.extend(format!("{low:020}").chars().map(u32::from));
    text
}

/// What a text is read as, if an integer of an answer can be that.
fn value_of(text: &[u32]) -> Option<i128> {
    match text.len() {
        _ if !is_numeric(text) => Some(-1),
        1..=9 => Some(text.iter().fold(0, |value, digit| 10 * value + i128::from(digit - 48))),
        _ => None,
    }
    .filter(|value| *value <= VALUE_LIMIT)
}

/// A text that stands next to another one in their order: behind it or not.
fn neighbour(random: &mut Random, text: &[u32], behind: bool) -> Vec<u32> {
    let mut text = text.to_vec();
    let length = text.len();
    match random.below(3) {
        0 if behind => text.push(0),
        0 => drop(text.pop()),
        1 if length > 0 => {
            let at = random.below(length);
            text[at] = if behind { text[at] + 1 } else { text[at].saturating_sub(1) };
            text.truncate(at + 1 + random.below(length - at));
        }
        _ => {}
    }
    text
}

/// A text that differs in a character: another one, one more or one less.
fn one_off(random: &mut Random, text: &[u32]) -> Vec<u32> {
    let mut text = text.to_vec();
    match (random.below(6), text.len()) {
        (0, _) => text.insert(0, random.pick(&[45, 48])),
        (1, _) => text.push(random.pick(&CHARACTERS)),
        (2, _) => drop(text.pop()),
        (_, 0) => {}
        (_, length) => {
            let at = random.below(length);
            text[at] = text[at].saturating_add_signed(random.pick(&[1, -1, 32, -32]));
        }
    }
    text
}
