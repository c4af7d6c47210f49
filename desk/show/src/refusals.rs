//! The refusals: what is wrong at a refused record.

use crate::account::{Note, Scene};
use crate::{broken, limits, malformed, standing, unfit, unsettled};
use nuldwich_reference::records::Record;

/// Why a record is refused: one sentence for the case that applies, more sentences, at 8 and 11 the facts of the branch, and what is wrong behind it too.
pub struct Refused {
    pub number: u64,
    pub meaning: String,
    pub reasons: Vec<String>,
    pub branch: Option<Vec<Note>>,
    pub also: Option<String>,
}

impl Refused {
    pub fn new(number: u64, (meaning, reasons): (String, Vec<String>)) -> Refused {
        Refused { number, meaning, reasons, branch: None, also: None }
    }
}

/// Why a whole record is refused.
pub fn refused(scene: &Scene, number: u64, record: &Record) -> Refused {
    let words = match number {
        4 => malformed::out_of_place(scene, record),
        5 => malformed::misfit(scene, record),
        6 => malformed::out_of_range(scene, record),
        7 => ("the literal repeats an earlier one".to_string(), malformed::repeated(scene, record)),
        8 => unfit::reasons(scene, record.body),
        9 => limits::past_limit(scene, record.body),
        10 => limits::no_room(scene, record),
        11 => limits::not_finished(scene),
        12 => broken::facts(scene, record.body),
        13 => unsettled::reasons(scene, record.body),
        _ => ("a length of the model passes 64".to_string(), broken::lengths(scene, record.body)),
    };
    let branch = [8, 11].contains(&number).then(|| standing::facts(scene));
    Refused { branch, ..Refused::new(number, words) }
}
