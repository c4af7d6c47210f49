//! The words of a page, for those who read one for the first time.

use crate::html::escaped;

const WORDS: [(&str, &str); 14] = [
    ("head", "the first record: which characters there are, how many strings and how many integers"),
    ("columns", "the numbers that conditions speak of: each integer, then the length and the code of each string"),
    (
        "fact",
        "a condition of the question, or what a step adds to them; facts are numbered from 0, and [4] names fact 4",
    ),
    ("≈, ≉", "are the same text, are not the same text"),
    ("took part", "the answer \"no\" rests on this condition; without those not marked the answer is \"no\" too"),
    ("Sum", "adds facts, each as many times as is said, and may divide the sum: the new fact follows from them"),
    ("A-Conf", "a fact that says of numbers what is false, as −1 ≥ 0"),
    ("S-Conf", "texts that must be the same differ"),
    ("branch", "the facts that stand at a step"),
    ("closed", "of a branch: its facts contradict each other, so no record meets them all"),
    (
        "split",
        "a step that goes through all cases, its children, each on a branch of its own; a \"no\" closes them all",
    ),
    (
        "Branch, Apart, L-Valid, C-Valid, C-Inj, Card",
        "the splits: of a number, a length, a code, or strings of one length",
    ),
    (
        "S-Prop, L-Intro, C-Collapse, Join",
        "steps that add what equal strings, texts in quotes and two inequalities come to",
    ),
    ("leaf, model", "the branch where an answer \"yes\" ends, and the number that it gives to each column"),
];

pub fn key() -> String {
    let entry = |(word, meaning): &(&str, &str)| format!("<dt>{}</dt><dd>{}</dd>\n", escaped(word), escaped(meaning));
    let entries: String = WORDS.iter().map(entry).collect();
    format!("<details class=\"key\">\n<summary>the words on this page</summary>\n<dl>\n{entries}</dl>\n</details>\n")
}
