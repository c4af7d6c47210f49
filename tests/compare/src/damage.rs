//! Damages the bytes of a ticket, a question or an answer.

use crate::random::Random;
use nuldwich_reference::records::{record, whole_records};

/// Numbers at and around the ends of ranges.
const EDGES: [i64; 28] = [
    0, 1, 2, 3, 4, 5, 7, 8, 13, 14, 15, 16, 17, 48, 64, 65, 127, 128, 129, -1, -2, 196_607, 196_608, 65_535,
    100_000_001, 1_000_000_000, 1_000_000_001, -2_147_483_648,
];

/// One record, to be changed and written again.
#[derive(Clone)]
struct Part {
    kind: u16,
    body: Vec<u8>,
}

/// The bytes with one to three faults, most of the time one.
pub fn damage(random: &mut Random, bytes: &[u8]) -> Vec<u8> {
    let faults = random.pick(&[1, 1, 1, 1, 2, 3]);
    (0..faults).fold(bytes.to_vec(), |bytes, _| damage_once(random, &bytes))
}

/// The bytes with one fault.
fn damage_once(random: &mut Random, bytes: &[u8]) -> Vec<u8> {
    let mut parts = split(bytes);
    if parts.is_empty() || random.chance(12) {
        return damage_bytes(random, bytes);
    }
    let at = random_part(random, &parts);
    match random.below(17) {
        0..=7 => change_field(random, &mut parts[at].body),
        8 => drop(parts.remove(at)),
        9 => parts.insert(at, parts[at].clone()),
        10 => {
            let other = random.below(parts.len());
            parts.swap(at, other);
        }
        11 => {
            let next = (at + 1).min(parts.len() - 1);
            parts.swap(at, next);
        }
        12 => change_length(random, &mut parts[at].body),
        13 => parts[at].kind = random.pick(&[0, 1, 2, 3, 4, 5, 6, 7, 8, 9, 10, 11, 12, 257]),
        14 => {
            let other = random.below(parts.len());
            parts[at].body = parts[other].body.clone();
        }
        15 => insert_extended(random, &mut parts),
        _ => {
            let other = random.below(parts.len());
            let moved = parts.remove(at);
            parts.insert(other.min(parts.len()), moved);
        }
    }
    parts.iter().flat_map(|part| record(part.kind, &part.body)).collect()
}

/// Puts a record of kind 11 behind the question, or anywhere; judging alone may take it.
fn insert_extended(random: &mut Random, parts: &mut Vec<Part>) {
    let question = parts.iter().take_while(|part| (1..=4).contains(&part.kind)).count();
    let at = if random.chance(70) { question } else { random.below(parts.len() + 1) };
    let fields = [random.below(6), random.below(3), random.below(3)];
    let mut body: Vec<u8> = fields.iter().flat_map(|field| (*field as u16).to_le_bytes()).collect();
    body.resize(random.pick(&[6, 6, 6, 6, 6, 0, 4, 5, 7, 12]), 255);
    parts.insert(at, Part { kind: 11, body });
}

/// A record, a step or model more often than not.
fn random_part(random: &mut Random, parts: &[Part]) -> usize {
    let late: Vec<usize> = (0..parts.len()).filter(|at| [6, 7].contains(&parts[*at].kind)).collect();
    if late.is_empty() || random.chance(40) {
        random.below(parts.len())
    } else {
        random.pick(&late)
    }
}

/// The whole records at the front of the bytes.
fn split(bytes: &[u8]) -> Vec<Part> {
    let whole = whole_records(bytes).into_iter();
    whole.map(|record| Part { kind: record.kind, body: record.body.to_vec() }).collect()
}

/// Moves a field of two or four bytes by a little, or sets it to a small number or to an edge.
fn change_field(random: &mut Random, body: &mut [u8]) {
    if body.len() < 2 {
        return;
    }
    let at = 2 * random.below(body.len() / 2);
    let wide = at + 4 <= body.len() && random.chance(50);
    let old = match wide {
        true => i64::from(i32::from_le_bytes([body[at], body[at + 1], body[at + 2], body[at + 3]])),
        false => i64::from(i16::from_le_bytes([body[at], body[at + 1]])),
    };
    let new = match random.below(8) {
        0 | 1 => random.pick(&EDGES),
        2 | 3 => random.below(12) as i64,
        _ => old + random.between(-2, 2) as i64,
    };
    let size = if wide { 4 } else { 2 };
    body[at..at + size].copy_from_slice(&new.to_le_bytes()[..size]);
}

/// Makes a body longer or shorter; the length field follows.
fn change_length(random: &mut Random, body: &mut Vec<u8>) {
    let size = random.pick(&[1, 2, 4, 6, 6, 12]);
    if random.chance(50) {
        body.truncate(body.len().saturating_sub(size));
    } else {
        let from = body.len().saturating_sub(size);
        let copy = body[from..].to_vec();
        body.extend(copy);
        body.resize(body.len() + random.pick(&[0, 0, 1]), 0);
    }
}

/// Faults that do not look at records: a cut, bytes behind the end, a changed byte or length field.
fn damage_bytes(random: &mut Random, bytes: &[u8]) -> Vec<u8> {
    let mut bytes = bytes.to_vec();
    match random.below(4) {
        0 => bytes.truncate(random.below(bytes.len() + 1)),
        1 => {
            let count = random.pick(&[1, 6, 6, 40]);
            bytes.extend((0..count).map(|place| if place == 4 { 8 } else { 0 }));
        }
        _ if bytes.is_empty() => bytes.push(0),
        2 => {
            let at = random.below(bytes.len());
            bytes[at] ^= 1 << random.below(8);
        }
        _ => {
            let at = random.below(bytes.len());
            bytes[at] = random.bits() as u8;
        }
    }
    bytes
}
