//! What checking needs: tickets that are accepted, ones grown without a look at premises and limits, and damaged ones.

use crate::check::Check;
use crate::damage::damage;
use crate::operation::{Buffers, Entry, Input, Operation, Reply, Series, Sizes};
use crate::random::Random;
use crate::report::{refused, Report};
use crate::run::vectors_of;
use crate::vectors::{examples, Vector};
use crate::{check, lengths, unjudged};
use nuldwich_reference::need as reference;
use nuldwich_reference::need::{met, Needs};
use std::path::Path;

/// How many tickets are grown; each is also damaged.
const GROWN: u64 = 30_000;

/// The least number of tickets, and how many of a hundred are accepted by checking at the least.
const LEAST_TICKETS: usize = 60_000;
const LEAST_ACCEPTED: usize = 30;

/// "The operation gives 2 to 7, .. 11": all its refusals.
const REFUSALS: [u64; 7] = [2, 3, 4, 5, 6, 7, 11];

/// Reports to be reached, some with numbers past checking's limits, past a counter of a byte and far past both.
const REPORTS: [&str; 6] =
    ["accepted", "report only", "facts over 128", "facts over 255", "pending over 64", "pending over 1000"];

pub struct Need;

impl Operation for Need {
    fn name(&self) -> &'static str {
        "need"
    }

    fn title(&self) -> &'static str {
        "what checking needs"
    }

    fn entries(&self) -> &'static [Entry] {
        const { &[Entry { name: "need", lends_work: false, reference: need }] }
    }

    fn endings(&self) -> &'static [&'static str] {
        &["ticket"]
    }

    fn sizes(&self, _: &[String]) -> Sizes {
        Sizes::default()
    }

    /// The examples and the tickets on file for checking, of whose needs no table has anything.
    fn more_vectors(&self, root: &Path) -> Vec<Vector> {
        let checked =
            vectors_of(&Check, root).into_iter().map(|mut vector| (vector.name, vector.input.parts.remove(0)));
        let named = |(name, ticket)| Vector { name, input: lent(ticket), columns: Vec::new() };
        checked.chain(examples()).map(named).collect()
    }

    fn series(&self) -> Vec<Series> {
        lengths::needed()
    }

    fn columns(&self, input: &Input) -> Vec<String> {
        vec![match reference(&input.parts[0]) {
            Ok(Needs { steps, facts, pending }) => format!("need {steps} {facts} {pending}"),
            Err((number, record)) => format!("refused {number} at {record}"),
        }]
    }

    /// A refusal, or of a report what it passes; else whether checking accepts the ticket.
    fn label(&self, parts: &[Vec<u8>], due: &Reply) -> String {
        let [number, _, _, facts, pending] = *due;
        let words = match (number, facts, pending) {
            (0, _, 1_001..) => "pending over 1000",
            (0, _, 65..) => "pending over 64",
            (0, 256.., _) => "facts over 255",
            (0, 129.., _) => "facts over 128",
            (0, ..) if met(&parts[0]).is_some() => "accepted",
            (0, ..) => "report only",
            _ => return refused(number),
        };
        words.to_string()
    }

    /// "Every ticket that checking accepts must meet exactly these three numbers on its way"; a refusal has one of the
    /// operation's own numbers and no counts, a report names no record.
    fn fault(&self, parts: &[Vec<u8>], reply: &Reply) -> Option<String> {
        let good = match *reply {
            [0, record, ..] => record == 0,
            [number, _, steps, facts, pending] => REFUSALS.contains(&number) && [steps, facts, pending] == [0; 3],
        };
        let met = met(&parts[0]);
        match met.map(|met| reported(&met) == *reply) {
            _ if !good => Some(format!("no reply of this operation: {reply:?}")),
            Some(false) => Some(format!("checking meets {met:?}, reported is {reply:?}")),
            _ => None,
        }
    }

    fn seeds(&self) -> u64 {
        GROWN
    }

    fn grow(&self, random: &mut Random, hand_on: &mut dyn FnMut(&mut Random, Input)) {
        let ticket = if random.chance(60) { check::grow(random) } else { unjudged::grow(random) };
        let damaged = damage(random, &ticket);
        for ticket in [ticket, damaged] {
            hand_on(random, lent(ticket));
        }
    }

    fn demand_coverage(&self, report: &mut Report) {
        if report.total() < LEAST_TICKETS || 100 * report.counted("accepted") < LEAST_ACCEPTED * report.total() {
            report.fail("too few tickets, or too few of them accepted by checking");
        }
        report.demand_met(&REPORTS.map(str::to_string));
        report.demand_met(&REFUSALS.map(refused));
    }
}

/// A ticket, which is all that is lent.
fn lent(ticket: Vec<u8>) -> Input {
    Input { parts: vec![ticket], ..Input::default() }
}

/// The reference in the place of `nuldwich_need`.
fn need(parts: &[Vec<u8>], _: &mut Buffers) -> Reply {
    match reference(&parts[0]) {
        Ok(needs) => reported(&needs),
        Err((number, record)) => [number, record as u64, 0, 0, 0],
    }
}

/// The reply of a report.
fn reported(needs: &Needs) -> Reply {
    [0, 0, needs.steps as u64, needs.facts as u64, needs.pending as u64]
}
