//! The records in their order: the question, the derivation as a tree of branches, the leaf. A split's children stand one behind another, each within
//! the child that the split stands in; no call goes deeper than another, however deep the tree is.

use crate::html::{bytes, escaped, fact, line, list, note};
use crate::steps::step;
use crate::Line;
use show::account::{Account, Begun, Entry, Note, State};
use show::layout::kind_name;
use show::refusals::Refused;
use show::verdict::Verdict;
use show::words;

/// Children stand within each other up to here, and deeper ones side by side: browsers do not lay out elements of any depth.
pub const DEEPEST: usize = 60;

/// The parts of a page.
#[derive(Clone, Copy, PartialEq, Eq, PartialOrd, Ord)]
enum Part {
    Start,
    Question,
    Derivation,
    Leaf,
}

/// The page so far: the part it is in, and how many children stand open.
struct Tree<'a> {
    verdict: &'a Verdict,
    lines: &'a [Option<Line>],
    html: String,
    part: Part,
    nested: usize,
}

pub fn tree(account: &Account, verdict: &Verdict, lines: &[Option<Line>]) -> String {
    let mut tree = Tree { verdict, lines, html: String::new(), part: Part::Start, nested: 0 };
    let (listed, read): (Vec<&Entry>, Vec<&Entry>) =
        account.entries.iter().partition(|entry| matches!(entry.state, State::Listed | State::BehindEnd));
    read.into_iter().for_each(|entry| tree.entry(entry));
    tree.leave();
    tree.html + &unchecked(&listed)
}

impl Tree<'_> {
    fn entry(&mut self, entry: &Entry) {
        self.close(entry.depth.min(DEEPEST));
        self.enter(entry);
        let refused = match &entry.state {
            State::Refused(refusal) => refused_box(refusal),
            _ => String::new(),
        };
        self.html += &match entry.kind {
            Some(6) if entry.whole => step(entry, &refused),
            Some(3 | 4) if refused.is_empty() => self.constraint(entry),
            Some(7) if refused.is_empty() => leaf(entry),
            _ => record(entry, &refused),
        };
        entry.begun.iter().for_each(|begun| self.begin(begun));
    }

    /// Goes on to the part that a record belongs to; a record out of its place stays in the part before it.
    fn enter(&mut self, entry: &Entry) {
        let (part, title) = match entry.kind {
            Some(5) if entry.fields.iter().any(|field| field.value == 2) => (Part::Derivation, "Path"),
            Some(5 | 6) => (Part::Derivation, "Derivation"),
            Some(7) => (Part::Leaf, "Leaf"),
            _ => (Part::Question, "Question"),
        };
        if part > self.part {
            self.leave();
            self.part = part;
            self.html += &format!("<section>\n<h2>{title}</h2>\n");
        }
    }

    fn leave(&mut self) {
        self.close(0);
        if self.part != Part::Start {
            self.html += "</section>\n";
        }
    }

    /// Closes children until so many stand open.
    fn close(&mut self, open: usize) {
        while self.nested > open {
            self.html += "</details>\n";
            self.nested -= 1;
        }
    }

    /// A child of a split, with its facts.
    fn begin(&mut self, begun: &Begun) {
        let depth = begun.depth.min(DEEPEST);
        self.close(depth.saturating_sub(1));
        self.nested += 1;
        let deep = if begun.depth > DEEPEST { format!(", {} splits deep", begun.depth) } else { String::new() };
        let facts: Vec<String> =
            begun.notes.iter().map(|added| fact(added.number.unwrap_or_default(), &added.text)).collect();
        self.html += &format!(
            "<details class=\"child\" data-depth=\"{}\" data-child=\"{}\" data-split=\"{split}\" open>\n<summary>child {} of {} of \
             <a href=\"#r{split}\">record {split}</a>{deep}: {}</summary>\n",
            begun.depth,
            begun.child,
            begun.child,
            begun.children,
            facts.join(", "),
            split = begun.split,
        );
    }

    /// A constraint, marked where it took part, with its line.
    fn constraint(&self, entry: &Entry) -> String {
        let Some(Note { number: Some(number), text, .. }) = entry.notes.iter().find(|note| note.what == "fact") else {
            return record(entry, "");
        };
        let (class, mark) = match self.verdict.core.contains(number) {
            true => ("constraint core", " <mark>took part</mark>"),
            false => ("constraint", ""),
        };
        let source = self.lines.get(*number).and_then(Option::as_ref);
        let source = source.map_or(String::new(), |source| format!(" {}", line(source)));
        format!(
            "<p class=\"{class}\" id=\"r{record}\"><span class=\"record\">{record}</span> {}{mark}{source}</p>\n",
            fact(*number, text),
            record = entry.number
        )
    }
}

/// Any other record: its kind and what is said of it.
fn record(entry: &Entry, refused: &str) -> String {
    let kind = match entry.kind.and_then(kind_name) {
        Some(name) => name.to_string(),
        None => entry.kind.map_or("no kind".to_string(), |kind| format!("kind {kind} (unknown)")),
    };
    let notes: Vec<String> = entry.notes.iter().map(note).collect();
    let undecoded = match entry.undecoded.is_empty() {
        true => String::new(),
        false => format!(": <code>{}</code>", bytes(&entry.undecoded)),
    };
    let class = if refused.is_empty() { "plain" } else { "plain bad" };
    format!(
        "<div class=\"{class}\" id=\"r{number}\"><span class=\"record\">{number}</span> {}{undecoded}\n{}{refused}</div>\n",
        escaped(&kind),
        list("notes", &notes),
        number = entry.number,
    )
}

/// The model by its columns, and the strings that it gives.
fn leaf(entry: &Entry) -> String {
    let said: String = texts(entry, "").iter().map(|words| format!("<p>{words}</p>\n")).collect();
    format!(
        "<div class=\"plain\" id=\"r{number}\"><span class=\"record\">{number}</span> model\n{}{said}{}</div>\n",
        list("model", &texts(entry, "column")),
        list("values", &texts(entry, "value")),
        number = entry.number
    )
}

/// What is said of a record under a heading.
fn texts(entry: &Entry, what: &str) -> Vec<String> {
    entry.notes.iter().filter(|note| note.what == what).map(|note| escaped(&note.text)).collect()
}

/// Why a record is refused, and what stands on its branch.
fn refused_box(refusal: &Refused) -> String {
    let reasons: Vec<String> = refusal.reasons.iter().chain(&refusal.also).map(|words| escaped(words)).collect();
    let branch = refusal.branch.as_ref().map_or(String::new(), |facts| {
        let facts: Vec<String> = facts.iter().map(note).collect();
        let count = words::count(facts.len(), "fact");
        format!(
            "<details class=\"branch\" open>\n<summary>the branch has {count}</summary>\n{}</details>\n",
            list("notes", &facts)
        )
    });
    format!(
        "<div class=\"refused\">\n<p><strong>refused {}</strong>: {}</p>\n{}{branch}</div>\n",
        refusal.number,
        escaped(&refusal.meaning),
        list("reasons", &reasons)
    )
}

/// What stands behind a refused record or an end.
fn unchecked(listed: &[&Entry]) -> String {
    let line = |entry: &&Entry| {
        let kind = entry.kind.and_then(kind_name).unwrap_or("bytes");
        let notes: String = entry.notes.iter().map(|note| format!("; {}", escaped(&note.text))).collect();
        format!("record {}, {kind}, from byte {}{notes}", entry.number, words::number(entry.start as i128))
    };
    match listed {
        [] => String::new(),
        _ => format!(
            "<section>\n<details class=\"unchecked\" open>\n<summary>not checked: {}</summary>\n{}</details>\n</section>\n",
            words::count(listed.len(), "record"),
            list("notes", &listed.iter().map(line).collect::<Vec<_>>())
        ),
    }
}
