//! The facts that stand on a branch, and where one stood that was cut back.

use crate::account::{Note, Scene};

/// A fact that was cut back: the record that it comes from, its words, and the closing record.
pub struct Dropped {
    pub source: usize,
    pub text: String,
    pub by: usize,
}

/// The facts of the branch, each with the record that it comes from.
pub fn facts(scene: &Scene) -> Vec<Note> {
    let note = |number| fact(scene, "fact", number);
    (0..scene.branch().len()).map(note).collect()
}

/// A fact of the branch: `uses fact 3 of record 7: ..`
pub fn fact(scene: &Scene, what: &'static str, number: usize) -> Note {
    Note { record: Some(scene.sources[number]), ..Note::numbered(what, number, scene.fact_words(number)) }
}

/// Where a number that is not on the branch last stood, and what cut it back; nothing where it never stood.
pub fn last_stood(scene: &Scene, number: usize) -> Option<String> {
    let Dropped { source, text, by } = scene.dropped.get(&number)?;
    Some(format!(
        "it last stood as fact {number} of record {source}, {text}, which record {by} dropped when it closed that branch"
    ))
}
