//! The comparison of an operation: the vectors, then grown and damaged inputs, then series of inputs whose outcomes are stated, with dirty buffers.

use crate::operation::{Buffers, Call, Entry, Input, Operation, Reply, Sizes, OPERATIONS};
use crate::random::Random;
use crate::report::{hex, Report};
use crate::vectors::{self, Vector};
use std::path::Path;
use std::thread;

/// What is compared with the reference: what stands in an entry's place, where it does.
pub type Subject = fn(&Entry) -> Option<Call>;

/// A comparison in progress.
struct Run<'a> {
    operation: &'a dyn Operation,
    entries: Vec<(&'a Entry, Call)>,
    report: Report,
}

/// Compares an operation on all its inputs.
pub fn run(operation: &dyn Operation, subject: Subject, root: &Path) -> Report {
    let entries = operation.entries().iter().filter_map(|entry| Some((entry, subject(entry)?))).collect();
    let mut run = Run { operation, entries, report: Report::default() };
    if run.entries.is_empty() {
        run.report.fail(&format!("{}: there is nothing to compare; is the library linked?", operation.name()));
        return run.report;
    }
    run.vectors(root);
    run.grown();
    run.report.print_outcomes(operation.title());
    operation.demand_coverage(&mut run.report);
    run.series();
    run.report
}

/// The vectors of an operation, with buffers of the sizes that it asks for.
pub fn vectors_of(operation: &dyn Operation, root: &Path) -> Vec<Vector> {
    let mut vectors = vectors::load(root, operation.name(), &operation.folders(), operation.endings());
    for vector in &mut vectors {
        vector.input.sizes = operation.sizes(&vector.columns);
    }
    vectors
}

impl Run<'_> {
    /// The vectors on file, and those of other tables.
    fn vectors(&mut self, root: &Path) {
        let folders: Vec<&str> = OPERATIONS.iter().flat_map(|operation| operation.folders()).collect();
        vectors::demand_known(root, &folders);
        let mut vectors = vectors_of(self.operation, root);
        let (found, least) = (vectors.len(), vectors::floor(self.operation.name()));
        if found < least {
            self.report.fail(&format!("{}: {found} vectors, and {least} are on file", self.operation.name()));
        }
        vectors.extend(self.operation.more_vectors(root));
        let mut random = Random::new(0);
        for vector in &vectors {
            self.compare_vector(&mut random, vector);
            self.operation.examine(&vector.input, &mut self.report);
        }
    }

    /// The inputs that are grown.
    fn grown(&mut self) {
        let operation = self.operation;
        let report = self.on_every_core(operation.seeds(), |run, seed| {
            operation.grow(&mut Random::new(seed), &mut |random, input| {
                run.compare(random, &input);
                operation.examine(&input, &mut run.report);
            });
        });
        self.report.add(report);
    }

    /// The series, each with a report of its own: they have no part in the shares that are demanded of the other inputs.
    fn series(&mut self) {
        for series in self.operation.series() {
            let mut report = self.on_every_core(series.vectors.len() as u64, |run, place| {
                run.compare_vector(&mut Random::new(place), &series.vectors[place as usize]);
            });
            report.print_outcomes(&format!("{}, {}", self.operation.title(), series.title));
            report.demand_counts(&series.outcomes);
            self.report.add(report);
        }
    }

    /// What is counted by doing something for every number below `count`: each core takes those that leave one remainder.
    fn on_every_core(&self, count: u64, each: impl Fn(&mut Run, u64) + Sync) -> Report {
        let cores = thread::available_parallelism().map_or(1, |cores| cores.get() as u64);
        let share = |core: u64| {
            let mut run = Run { operation: self.operation, entries: self.entries.clone(), report: Report::default() };
            (core..count).step_by(cores as usize).for_each(|number| each(&mut run, number));
            run.report
        };
        thread::scope(|scope| {
            let shares: Vec<_> = (0..cores).map(|core| scope.spawn(move || share(core))).collect();
            shares.into_iter().fold(Report::default(), |mut report, share| {
                report.add(share.join().expect("a comparison that ends"));
                report
            })
        })
    }

    /// Compares a vector: the reference must agree with what is expected, the entries with the reference.
    fn compare_vector(&mut self, random: &mut Random, vector: &Vector) {
        let columns = self.operation.columns(&vector.input);
        if !self.operation.fits(&vector.columns, &columns) {
            let (name, expected) = (&vector.name, &vector.columns);
            self.report.fail(&format!("{name}: the reference says {columns:?}, expected is {expected:?}"));
        }
        self.compare(random, &vector.input);
    }

    /// Compares all entries on one input.
    fn compare(&mut self, random: &mut Random, input: &Input) {
        let mut label = String::new();
        let mut differences = Vec::new();
        for (entry, call) in &self.entries {
            let work = if entry.lends_work { input.sizes.work } else { 0 };
            let buffers = Buffers::dirty(random, &Sizes { work, ..input.sizes });
            let mut due_buffers = buffers.clone();
            let due = (entry.reference)(&input.parts, &mut due_buffers);
            differences.extend(difference(self.operation, entry.name, *call, input, buffers, (&due, &due_buffers)));
            label = self.operation.label(&input.parts, &due);
        }
        let difference = (!differences.is_empty()).then(|| format!("{}\n{}", shown(input), differences.join("\n")));
        self.report.count(label, difference);
    }
}

/// How what an entry returns and leaves differs from what is due, and what else is wrong with it, in words.
fn difference(
    operation: &dyn Operation,
    name: &str,
    call: Call,
    input: &Input,
    mut buffers: Buffers,
    (due, due_buffers): (&Reply, &Buffers),
) -> Vec<String> {
    let lent = input.parts.clone();
    let reply = call(&lent, &mut buffers);
    let (answer, work) = (buffers.answer == due_buffers.answer, buffers.work == due_buffers.work);
    let same = *due == reply && answer && work && lent == input.parts;
    let differs = (!same).then(|| {
        format!(
            "{name}: reference {due:?}, library {reply:?}, answer buffer as due: {answer}, work area as due: {work}"
        )
    });
    let fault = operation.fault(&lent, &reply).map(|fault| format!("{name}: {fault}"));
    differs.into_iter().chain(fault).collect()
}

/// An input in words.
fn shown(input: &Input) -> String {
    let parts: Vec<String> = input.parts.iter().map(|part| hex(part)).collect();
    format!("input {}", parts.join("\n      "))
}
