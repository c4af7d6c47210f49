//! Grows questions of many families, solves each, has every ticket checked by the library, and compares the verdict with a brute force.
//!
//! `grown [FAMILY [COUNT]]`: of one family alone, or so many of it. The last line is `N passed, M failed`.

mod brute;
mod draft;
mod families;
mod office;
mod one;
mod otherwise;

use compare::random::Random;
use compare::report::{finish, Report};
use families::{Family, FAMILIES};
use std::process::ExitCode;
use std::sync::atomic::{AtomicUsize, Ordering};
use std::thread;

/// Questions of each family.
const EACH: usize = 150;
/// The gate asks for so many questions at least.
const LEAST_QUESTIONS: usize = 2_000;
/// The greatest share of questions given up, in thousandths, on file.
const MOST_GIVEN_UP: usize = 10;

fn main() -> ExitCode {
    let arguments: Vec<String> = std::env::args().skip(1).collect();
    let chosen = |name: &str| arguments.first().is_none_or(|wanted| wanted == name);
    let each = arguments.get(1).and_then(|count| count.parse().ok()).unwrap_or(EACH);
    let families: Vec<(&str, Family)> = FAMILIES.into_iter().filter(|family| chosen(family.0)).collect();
    let mut reports: Vec<Report> = families.iter().map(|(name, family)| run(name, *family, each)).collect();
    if arguments.is_empty() {
        reports.push(whole(&reports));
        reports.push(office::run());
    }
    finish(&reports)
}

/// One family on all cores.
fn run(name: &str, family: Family, each: usize) -> Report {
    let next = AtomicUsize::new(0);
    let cores = thread::available_parallelism().map_or(1, |cores| cores.get());
    let mut report = Report::default();
    thread::scope(|scope| {
        let work = || {
            let mut part = Report::default();
            loop {
                let number = next.fetch_add(1, Ordering::Relaxed);
                if number >= each {
                    return part;
                }
                one::examine(&family(&mut seeded(name, number)), &format!("{name} {number}"), &mut part);
            }
        };
        let workers: Vec<_> = (0..cores).map(|_| scope.spawn(work)).collect();
        for worker in workers {
            match worker.join() {
                Ok(part) => report.add(part),
                Err(_) => report.fail(&format!("{name}: a worker stopped")),
            }
        }
    });
    report.print_outcomes(name);
    report
}

/// The numbers of a question follow from its family and number alone.
fn seeded(name: &str, number: usize) -> Random {
    let seed = name.bytes().fold(7, |seed: u64, byte| seed.wrapping_mul(31).wrapping_add(u64::from(byte)));
    Random::new(seed.wrapping_add((number as u64).wrapping_mul(0x1_0000_01b3)))
}

/// What the whole run is to reach.
fn whole(reports: &[Report]) -> Report {
    let mut report = Report::default();
    let total: usize = reports.iter().map(Report::total).sum();
    let given_up: usize = reports.iter().map(|report| report.counted("gave up")).sum();
    println!("{total} questions, {given_up} given up");
    report.count(
        "enough".into(),
        (total < LEAST_QUESTIONS).then(|| format!("{total} questions, {LEAST_QUESTIONS} are due")),
    );
    let too_many = given_up * 1000 > total * MOST_GIVEN_UP;
    report.count(
        "share".into(),
        too_many.then(|| format!("{given_up} of {total} given up, over {MOST_GIVEN_UP} in a thousand")),
    );
    report
}
