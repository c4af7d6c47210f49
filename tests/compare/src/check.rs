//! Checking: tickets, grown and damaged, with buffers of many sizes.

use crate::damage::damage;
use crate::operation::{Buffers, Entry, Input, Operation, Reply, Series, Sizes};
use crate::random::Random;
use crate::report::{hex, refused, Report};
use crate::vectors::{self, Vector};
use crate::walk::walk;
use crate::{cores, edges, equations, far, lengths, models, proofs};
use nuldwich_reference::checking::{ANSWER_BUFFER, WORK_AREA};
use nuldwich_reference::cores::Set;
use nuldwich_reference::program::lines;
use nuldwich_reference::{check as reference, Outcome};
use std::path::Path;

/// How many tickets are grown; each is also damaged, once or twice.
const GROWN: u64 = 50_000;

/// The least number of tickets, and how many of a hundred are accepted at the least.
const LEAST_TICKETS: usize = 100_000;
const LEAST_ACCEPTED: usize = 30;

/// How many tickets reach each case of requests L4 and L5 at the least.
const LEAST_REACHED: usize = 50;

/// Buffers that are just large enough.
pub const LARGE_ENOUGH: Sizes = Sizes { work: WORK_AREA, answer: ANSWER_BUFFER };

pub struct Check;

impl Operation for Check {
    fn name(&self) -> &'static str {
        "check"
    }

    fn title(&self) -> &'static str {
        "checking"
    }

    fn entries(&self) -> &'static [Entry] {
        const {
            &[
                Entry { name: "check", lends_work: false, reference: check },
                Entry { name: "check_in", lends_work: true, reference: check_in },
            ]
        }
    }

    fn endings(&self) -> &'static [&'static str] {
        &["ticket"]
    }

    /// The first level holds tickets itself; two later ones hold pairs of tickets in two folders.
    fn folders(&self) -> Vec<&'static str> {
        vec!["", "check", "first", "second", "before", "after"]
    }

    fn sizes(&self, _: &[String]) -> Sizes {
        LARGE_ENOUGH
    }

    fn more_vectors(&self, root: &Path) -> Vec<Vector> {
        vectors::buffers(root)
    }

    fn series(&self) -> Vec<Series> {
        lengths::checked()
    }

    fn columns(&self, input: &Input) -> Vec<String> {
        columns(&reference(&input.parts[0], input.sizes.work, input.sizes.answer))
    }

    fn label(&self, _: &[Vec<u8>], due: &Reply) -> String {
        match due {
            [0, 1, ..] => "accepted none".to_string(),
            [0, ..] => "accepted strings".to_string(),
            [number, ..] => refused(*number),
        }
    }

    fn examine(&self, input: &Input, report: &mut Report) {
        let ticket = &input.parts[0];
        let (mut equations, mut cores) = (equations::Seen::default(), cores::Seen::default());
        let walked = walk(ticket, &mut |shown| {
            equations.look_at(shown);
            cores.look_at(shown);
        });
        for examined in [equations.examine(ticket, &walked.outcome), cores.examine(ticket, &walked)] {
            match examined {
                Ok(reached) => reached.into_iter().for_each(|label| report.reach(label)),
                Err(wrong) => report.fail(&format!("input {}\n{wrong}", hex(ticket))),
            }
        }
    }

    fn seeds(&self) -> u64 {
        GROWN
    }

    fn grow(&self, random: &mut Random, hand_on: &mut dyn FnMut(&mut Random, Input)) {
        let ticket = grow(random);
        let input = with_any_sizes(random, ticket.clone());
        hand_on(random, input);
        for _ in 0..random.pick(&[1, 1, 1, 2]) {
            let damaged = damage(random, &ticket);
            let input = with_any_sizes(random, damaged);
            hand_on(random, input);
        }
    }

    fn demand_coverage(&self, report: &mut Report) {
        if report.total() < LEAST_TICKETS || 100 * report.counted("accepted") < LEAST_ACCEPTED * report.total() {
            report.fail("too few tickets, or too few of them accepted");
        }
        report.demand_met(&(1..=14).map(refused).collect::<Vec<_>>());
        report.demand_reached(&equations::to_be_reached(), LEAST_REACHED);
        report.demand_reached(&cores::to_be_reached(), LEAST_REACHED);
    }
}

/// The columns of an outcome: the program's lines joined by `|`, the answer in hexadecimal, and `core` with the constraints that took
/// part.
pub fn columns(outcome: &Outcome) -> Vec<String> {
    let (answer, core) = match outcome {
        Outcome::Refused { .. } => (String::new(), &Set::new()),
        Outcome::NoSolution { core } => (String::new(), core),
        Outcome::Strings { answer } => (hex(answer), &Set::new()),
    };
    let core = core.iter().fold("core".to_string(), |text, number| format!("{text} {number}"));
    vec![lines(outcome).trim_end().replace('\n', "|"), answer, core]
}

/// A ticket that is meant to be accepted, or one at an edge.
pub fn grow(random: &mut Random) -> Vec<u8> {
    match random.below(100) {
        0..=42 => proofs::grow(random),
        43..=84 => models::grow(random),
        85..=94 => edges::grow(random),
        _ => far::grow(random),
    }
}

/// A ticket with buffers that are just large enough, larger or too small.
fn with_any_sizes(random: &mut Random, ticket: Vec<u8>) -> Input {
    let mut sizes = LARGE_ENOUGH;
    match random.below(50) {
        0 => sizes.answer = random.pick(&[0, 1, 12, 4_266, 4_267]),
        1 => sizes.work = random.pick(&[0, 1, 50, 6_398, 6_399]),
        2..=9 => {
            sizes.answer += random.below(100);
            sizes.work += random.below(200);
        }
        _ => {}
    }
    Input { parts: vec![ticket], sizes, ..Input::default() }
}

/// The reference in the place of `check`, which brings its own work area.
fn check(parts: &[Vec<u8>], lent: &mut Buffers) -> Reply {
    write(&reference(&parts[0], WORK_AREA, lent.answer.len()), &mut lent.answer)
}

/// The reference in the place of `nuldwich_check_in`: "The whole work area .. is zero after every call, except that 1 does not touch it."
fn check_in(parts: &[Vec<u8>], lent: &mut Buffers) -> Reply {
    let reply = write(&reference(&parts[0], lent.work.len(), lent.answer.len()), &mut lent.answer);
    if reply[0] != 1 {
        lent.work.fill(0);
    }
    reply
}

/// Writes the answer of an outcome and gives its reply.
fn write(outcome: &Outcome, buffer: &mut [u8]) -> Reply {
    match outcome {
        Outcome::Refused { number, record } => [*number, *record as u64, 0, 0, 0],
        Outcome::NoSolution { core } => {
            let [low, high] = words(core);
            [0, 1, low, high, 0]
        }
        Outcome::Strings { answer } => {
            buffer[..answer.len()].copy_from_slice(answer);
            [0, 2, 0, 0, 0]
        }
    }
}

/// The two words of a set in a reply: constraint k is bit k of the first, or bit k − 64 of the second.
fn words(set: &Set) -> [u64; 2] {
    let word = |from: usize| (0..64).filter(|bit| set.contains(&(from + bit))).fold(0, |word, bit| word | 1 << bit);
    [word(0), word(64)]
}
