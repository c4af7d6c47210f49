//! Measures the time of a call and prints it as a table: the library beside a plain implementation and the reference, and how it grows.
//!
//! `bench [OPERATION ..]`; without one all operations that have inputs here.

mod inputs;
mod plain;

use compare::library;
use compare::operation::{operation, Buffers, Call, Entry, Operation, Reply, Sizes};
use compare::random::Random;
use inputs::{Kind, TO_CHECK, TO_COMPARE, TO_JUDGE, TO_NEED};
use nuldwich_reference::records::whole_records;
use std::hint::black_box;
use std::time::{Duration, Instant};

/// The time given to one line of the table, and the least time of one round of calls.
const BUDGET: Duration = Duration::from_millis(800);
const ROUND: Duration = Duration::from_micros(100);

/// The operations that are measured, with the kinds of their inputs.
const MEASURED: [(&str, &[&[Kind]]); 4] =
    [("check", &[&TO_CHECK]), ("judge", &[&TO_JUDGE]), ("need", &[&TO_CHECK, &TO_NEED]), ("same", &[&TO_COMPARE])];

fn main() {
    let asked: Vec<String> = std::env::args().skip(1).collect();
    for (name, kinds) in MEASURED {
        if asked.is_empty() || asked.iter().any(|word| word == name) {
            measure(operation(name).expect("an operation of the table"), kinds);
        }
    }
}

/// The table of one operation: of its first entry, the one that a host calls.
fn measure(operation: &dyn Operation, kinds: &[&[Kind]]) {
    let entry = &operation.entries()[0];
    let sizes = Sizes { work: 0, ..operation.sizes(&[]) };
    println!(
        "{:<38} {:>5} {:>6} {:>9} {:>9} {:>12} {:>8} {:>16} {:>8}",
        operation.title(),
        "size",
        "bytes",
        "library",
        "plain",
        "reference µs",
        "lib/pln",
        "ns each: library",
        "plain"
    );
    for kind in kinds.iter().copied().flatten() {
        for size in kind.sizes {
            print_line(entry, &sizes, kind, *size);
        }
    }
}

/// One line of the table.
fn print_line(entry: &Entry, sizes: &Sizes, kind: &Kind, wished: usize) {
    let parts = (kind.make)(wished);
    let due = call(entry.reference, sizes, &parts);
    assert!((due.0[0] == 0) == kind.accepted, "{}: the reference gives {:?}", kind.name, due.0);
    let subjects = [library::linked(entry), plain::entry(entry), Some(entry.reference)];
    for subject in subjects.into_iter().flatten() {
        assert!(call(subject, sizes, &parts) == due, "{}", kind.name);
    }
    let [library, plain, reference] = microseconds(subjects, sizes, &parts);
    let size = count(&parts[0], kind.counted);
    let shown = |value: Option<f64>| value.map_or("-".to_string(), |number| format!("{number:.2}"));
    let each = |time: Option<f64>| shown(time.filter(|_| size > 0).map(|time| 1e3 * time / size as f64));
    println!(
        "{:<38} {size:>5} {:>6} {:>9} {:>9} {:>12} {:>8} {:>16} {:>8}",
        kind.name,
        parts.iter().map(Vec::len).sum::<usize>(),
        shown(library),
        shown(plain),
        shown(reference),
        shown(library.and_then(|time| Some(time / plain?))),
        each(library),
        each(plain),
    );
}

/// What a call returns and leaves.
fn call(subject: Call, sizes: &Sizes, parts: &[Vec<u8>]) -> (Reply, Vec<u8>) {
    let mut buffers = Buffers::dirty(&mut Random::new(0), sizes);
    (subject(parts, &mut buffers), buffers.answer)
}

/// How many records have one of these kinds.
fn count(bytes: &[u8], kinds: &[u16]) -> usize {
    whole_records(bytes).iter().filter(|record| kinds.contains(&record.kind)).count()
}

/// The least time of a call of each, in microseconds. Their rounds take turns, so that all meet the same state of the machine.
fn microseconds(subjects: [Option<Call>; 3], sizes: &Sizes, parts: &[Vec<u8>]) -> [Option<f64>; 3] {
    let mut buffers = Buffers::dirty(&mut Random::new(0), sizes);
    let mut round = |subject: Call, calls: u32| {
        let begin = Instant::now();
        for _ in 0..calls {
            black_box(subject(black_box(parts), black_box(&mut buffers)));
        }
        begin.elapsed().as_secs_f64() / f64::from(calls)
    };
    let mut least = subjects.map(|subject| subject.map(|subject| round(subject, 3)));
    let begin = Instant::now();
    while begin.elapsed() < BUDGET {
        for (subject, best) in subjects.iter().zip(&mut least) {
            if let (Some(subject), Some(best)) = (subject, best) {
                let calls = 1.0 + ROUND.as_secs_f64() / *best;
                *best = best.min(round(*subject, calls as u32));
            }
        }
    }
    least.map(|best| best.map(|seconds| 1e6 * seconds))
}

#[cfg(test)]
mod tests {
    use super::*;
    use compare::{run, vectors};

    /// The plain implementation gives what the reference gives on every vector and on all grown and damaged inputs.
    fn plain_agrees(name: &str) {
        let report = run::run(operation(name).expect("an operation"), plain::entry, &vectors::directory());
        assert!(report.passed > 0 && report.failed == 0, "{} passed, {} failed", report.passed, report.failed);
    }

    #[test]
    fn plain_checking_agrees_with_the_reference() {
        plain_agrees("check");
    }

    #[test]
    fn plain_judging_agrees_with_the_reference() {
        plain_agrees("judge");
    }

    #[test]
    fn plain_need_agrees_with_the_reference() {
        plain_agrees("need");
    }

    #[test]
    fn plain_sameness_agrees_with_the_reference() {
        plain_agrees("same");
    }
}
