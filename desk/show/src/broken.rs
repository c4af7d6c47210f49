//! What a model breaks: arithmetic facts (12), or the longest length (14).

use crate::account::Scene;
use crate::words;
use nuldwich_reference::facts::{Fact, Row};
use nuldwich_reference::leaf::{read_model, LONGEST};
use nuldwich_reference::question::Question;

/// How many broken facts are shown.
const SHOWN: usize = 3;

/// 12: the arithmetic facts that do not hold, with the model's values; one without columns, which no model meets, first.
pub fn facts(scene: &Scene, body: &[u8]) -> (String, Vec<String>) {
    let model = read_model(&scene.ticket.question, body).unwrap_or_default();
    let mut broken: Vec<(usize, &Row)> = Vec::new();
    for (number, fact) in scene.branch().iter().enumerate() {
        match fact {
            Fact::Arithmetic(relation, row) if !relation.holds(row.value(&model)) => broken.push((number, row)),
            _ => {}
        }
    }
    broken.sort_by_key(|(_, row)| !row.is_constant());
    let shown = broken.iter().take(SHOWN);
    let mut reasons: Vec<String> = shown.map(|(number, row)| broken_fact(scene, *number, row, &model)).collect();
    if broken.len() > SHOWN {
        reasons.push(format!("{} broken too", words::more(broken.len() - SHOWN, "fact")));
    }
    let meaning = match broken.first() {
        Some((_, row)) if row.is_constant() => "a fact of the leaf is false under every model",
        _ => "the model breaks an arithmetic fact",
    };
    (meaning.to_string(), reasons)
}

/// One fact that does not hold.
fn broken_fact(scene: &Scene, number: usize, row: &Row, model: &[i128]) -> String {
    let question = &scene.ticket.question;
    let (name, shown) = (scene.fact_name(number), scene.fact_words(number));
    if row.is_constant() {
        let hopeless = hopeless(scene, number < question.constraints.len());
        return format!("{name}, {shown}, has no columns and is false: {hopeless}");
    }
    let with = model_values(question, row, model);
    format!("{name}, {shown}: its left side is {} under the model{with}", words::number(row.value(model)))
}

/// What is wrong where no model meets the leaf: the claim, unless a child that was taken may be to blame.
pub fn hopeless(scene: &Scene, by_the_question: bool) -> String {
    let taken: Vec<String> = scene.taken.iter().map(|record| record.to_string()).collect();
    let wrong = match &taken[..] {
        [] => "the claim is wrong".to_string(),
        _ if by_the_question => "the claim is wrong".to_string(),
        [only] => format!("the claim, or the child taken in record {only}, is wrong"),
        _ => format!("the claim, or a child taken in records {}, is wrong", words::listed(&taken, "and")),
    };
    format!("no model can help; {wrong}, not the model")
}

/// The model's values of the columns of a form: `, with len(x0) = 2`.
pub fn model_values(question: &Question, row: &Row, model: &[i128]) -> String {
    let columns = (0..row.coefficients.len()).filter(|place| row.coefficients[*place] != 0);
    let value = |place| format!("{} = {}", words::column(question, place), words::number(model[place]));
    let values: Vec<String> = columns.map(value).collect();
    if values.is_empty() {
        return String::new();
    }
    format!(", with {}", values.join(", "))
}

/// 14: the lengths over 64.
pub fn lengths(scene: &Scene, body: &[u8]) -> Vec<String> {
    let question = &scene.ticket.question;
    let Ok(model) = read_model(question, body) else {
        return Vec::new();
    };
    let length = |x: usize| (x, model[question.len_column(x)]);
    let long = (0..question.p).map(length).filter(|(_, length)| *length > LONGEST);
    long.map(|(x, length)| {
        format!(
            "len({}) is {}; a string of the answer has at most {LONGEST} characters",
            words::variable(x),
            words::number(length)
        )
    })
    .collect()
}
