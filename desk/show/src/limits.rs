//! What passes a limit or is left open (9 to 11).

use crate::account::Scene;
use crate::{malformed, steps, words};
use nuldwich_reference::derivation::MOST_PENDING;
use nuldwich_reference::facts::{within_limit, Fact, Row};
use nuldwich_reference::question::{Question, MOST_FACTS};
use nuldwich_reference::records::{u16_at, Record};

/// How the constant of a fact is named.
const CONSTANT: &str = "the constant";

/// The children that are tried for 9 and 10, each with its name: all under claim 1, the one taken under claim 2.
fn tried(scene: &Scene, body: &[u8]) -> Vec<(String, Vec<Fact>)> {
    let children = steps::children(scene.ticket, body);
    let alone = children.len() == 1;
    let taken = usize::from(u16_at(body, 2));
    let numbered = children.into_iter().enumerate().map(|(place, child)| (place + 1, child));
    let tried = numbered.filter(|(number, _)| scene.ticket.claim == 1 || *number == taken);
    let name = |number| if alone { "the step".to_string() } else { format!("child {number}") };
    tried.map(|(number, child)| (name(number), child)).collect()
}

/// 9: the numbers of new facts that pass the limit.
pub fn past_limit(scene: &Scene, body: &[u8]) -> (String, Vec<String>) {
    let question = &scene.ticket.question;
    let mut numbers = Vec::new();
    let mut reasons = Vec::new();
    for (name, fact) in tried(scene, body).iter().flat_map(|(name, child)| child.iter().map(move |fact| (name, fact))) {
        let Fact::Arithmetic(_, row) = fact else { continue };
        let passing = passing(question, row);
        if !passing.is_empty() {
            let where_ = words::listed(&passing, "and");
            reasons.push(format!("{name} would add {}, where {where_}", words::fact(question, fact)));
            numbers.extend(passing);
        }
    }
    let divided = if u16_at(body, 0) == 1 { ", counted after dividing" } else { "" };
    reasons.push(format!("allowed is −1,000,000,000 to 1,000,000,000{divided}"));
    let constant = numbers.iter().all(|number| number.starts_with(CONSTANT));
    let which = if constant { CONSTANT } else { "a coefficient" };
    (format!("{which} of a new fact passes the limit"), reasons)
}

/// The numbers of a row outside ±1,000,000,000.
fn passing(question: &Question, row: &Row) -> Vec<String> {
    let columns = row.coefficients.iter().enumerate();
    let coefficients =
        columns.map(|(place, value)| (format!("the coefficient of {}", words::column(question, place)), *value));
    let all = coefficients.chain([(CONSTANT.to_string(), row.constant)]);
    all.filter(|(_, value)| !within_limit(*value))
        .map(|(name, value)| format!("{name} is {}", words::number(value)))
        .collect()
}

/// 10: facts on the branch, or pending splits.
pub fn no_room(scene: &Scene, record: &Record) -> (String, Vec<String>) {
    let most = MOST_FACTS + 1;
    if record.kind != 6 {
        let reason = format!("{MOST_FACTS} constraints were read already; constraints are facts, of which at most {MOST_FACTS} stand on a branch");
        return (format!("a {most}th constraint"), vec![reason]);
    }
    let full = too_many_facts(scene, record.body);
    if !full.is_empty() {
        return (format!("a {most}th fact on the branch"), full);
    }
    let reason =
        format!("{MOST_PENDING} splits have children pending, that is, not yet begun; this split would be one more");
    (format!("a {}th pending split", MOST_PENDING + 1), vec![reason])
}

/// The children that would put too many facts on the branch.
fn too_many_facts(scene: &Scene, body: &[u8]) -> Vec<String> {
    let stand = scene.branch().len();
    let children = tried(scene, body);
    let full = children.iter().filter(|(_, child)| stand + child.len() > MOST_FACTS);
    full.map(|(name, child)| {
        let (adds, sum) = (words::count(child.len(), "fact"), stand + child.len());
        format!("{name} adds {adds} to the {stand} on the branch, {sum} in all; at most {MOST_FACTS} may stand there")
    })
    .collect()
}

/// 11: what is open.
pub fn not_finished(scene: &Scene) -> (String, Vec<String>) {
    let (meaning, mut reasons) = match scene.ticket.claim {
        2 => ("the end comes before a model", vec!["the claim is strings, but no model (kind 7) was read".to_string()]),
        _ => ("the end comes before every branch is closed", open_branches(scene)),
    };
    reasons.push(malformed::due(scene));
    (meaning.to_string(), reasons)
}

/// The branch that is worked, and the children not begun.
fn open_branches(scene: &Scene) -> Vec<String> {
    let path =
        scene.open.iter().map(|open| format!("child {} of {} of record {}", open.worked, open.children, open.record));
    let path: Vec<String> = path.collect();
    let place = if path.is_empty() { String::new() } else { format!(", in {},", path.join(", in ")) };
    let mut reasons = vec![format!("the branch that is worked here{place} is not closed")];
    for open in scene.open.iter().filter(|open| open.worked < open.children) {
        let children = match open.children - open.worked {
            1 => format!("child {} of record {} is", open.children, open.record),
            _ => format!("children {} to {} of record {} are", open.worked + 1, open.children, open.record),
        };
        reasons.push(format!("{children} not begun"));
    }
    reasons
}
