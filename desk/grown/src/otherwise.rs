//! Texts that are said to be free, chosen otherwise than the ticket does.

use solver::{shown, Shown};
use ticket::Question;

/// The strings with every free one chosen anew, the greatest of its length by code points that differs from those it must.
pub fn rechosen(question: &Question, strings: &[Vec<u32>]) -> Vec<Vec<u32>> {
    let shown = shown(question, strings);
    let is_free = |x: usize| matches!(shown[x], Shown::Free { .. });
    let mut chosen = strings.to_vec();
    for (x, shown) in shown.iter().enumerate() {
        match shown {
            Shown::Text => {}
            Shown::Same(first) => chosen[x] = chosen[*first].clone(),
            Shown::Free { unlike } => {
                let fixed = unlike.iter().filter(|y| !is_free(**y) || **y < x);
                let taken: Vec<Vec<u32>> = fixed.map(|y| chosen[*y].clone()).collect();
                let free = (0..=taken.len()).map(|place| from_top(question.n, strings[x].len(), place));
                chosen[x] = free.into_iter().find(|text| !taken.contains(text)).unwrap_or_default();
            }
        }
    }
    chosen
}

/// The string of a length with so many behind it by code points.
fn from_top(n: u32, length: usize, place: usize) -> Vec<u32> {
    let mut rest = place;
    let mut text: Vec<u32> = Vec::with_capacity(length);
    for _ in 0..length {
        text.push(n - 1 - (rest % n as usize) as u32);
        rest /= n as usize;
    }
    text.reverse();
    text
}
