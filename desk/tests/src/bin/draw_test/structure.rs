//! What must hold of a drawing.

use crate::tags::{depth, tags, Tag};
use draw::Drawn;
use library::Verdict;
use show::account::{account, Account, Entry, State};
use std::collections::BTreeSet;

/// Elements stand at most so deep, which every browser lays out.
const DEEPEST: usize = 80;

/// What would load something from elsewhere.
const ELSEWHERE: [&str; 9] = ["http", "src=", "url(", "@import", "<link", "<img", "<iframe", "<object", "//"];

/// What is wrong with a drawing, and the number of the library's refusal, 0 for none.
pub fn faults(ticket: &[u8], drawn: &Drawn) -> (Vec<&'static str>, u64) {
    let (checked, account) = (library::check(ticket), account(ticket));
    let (verdict, tags) = (checked.verdict(), tags(&drawn.page));
    let holds = [
        (drawn.accepted == (checked.number == 0), "accepted is not the library's verdict"),
        (drawn.page.contains(&words(&verdict)), "the head has not the verdict"),
        (depth(&tags).is_some_and(|depth| depth <= DEEPEST), "the tags are not balanced, or too deep"),
        (!ELSEWHERE.iter().any(|word| drawn.page.contains(word)), "something is loaded from elsewhere"),
        (are_links_whole(&tags), "an id is there twice, or a link leads nowhere"),
        (count(&tags, "step") == steps(&account), "the nodes are not the steps"),
        (are_facts_numbered(&tags), "a fact has not the next number of its branch"),
        (facts(&tags) == added(&account), "the facts are not those added"),
        (marked(&tags) == core(&verdict), "the constraints marked are not those that took part"),
        (places(&tags) == due_places(&account, &verdict), "a step or the refused record is not in its place"),
        (are_values_shown(&tags, &account, &verdict), "the leaf has not its model and strings"),
    ];
    (holds.into_iter().filter(|(holds, _)| !holds).map(|(_, fault)| fault).collect(), checked.number)
}

/// A verdict in words, and behind it the program's line.
fn words(verdict: &Verdict) -> String {
    let (words, line) = match verdict {
        Verdict::NoSolution { .. } => ("no record meets these conditions", "verdict none".to_string()),
        Verdict::Strings { .. } => ("these values meet all conditions", "verdict strings".to_string()),
        Verdict::Refused(refusal) => {
            ("the ticket is refused", format!("refused {} at {}", refusal.number, refusal.record))
        }
    };
    format!("says: <strong>{words}</strong> <small>{line}</small>")
}

fn opening<'a>(tags: &'a [Tag<'a>], class: &'a str) -> impl Iterator<Item = &'a Tag<'a>> {
    tags.iter().filter(move |tag| tag.has_class(class))
}

fn count(tags: &[Tag], class: &str) -> usize {
    opening(tags, class).count()
}

/// Every id stands once, and every link leads to one.
fn are_links_whole(tags: &[Tag]) -> bool {
    let ids: Vec<&str> = tags.iter().filter_map(|tag| tag.value(" id").or(tag.value("id"))).collect();
    let known: BTreeSet<&str> = ids.iter().copied().collect();
    let mut links = tags.iter().filter_map(|tag| tag.value("href"));
    known.len() == ids.len() && links.all(|link| link.strip_prefix('#').is_some_and(|id| known.contains(id)))
}

/// The entries that are drawn: not those behind a refused record.
fn drawn(account: &Account) -> impl Iterator<Item = &Entry> {
    account.entries.iter().filter(|entry| matches!(entry.state, State::Read | State::Refused(_)))
}

fn steps(account: &Account) -> usize {
    drawn(account).filter(|entry| entry.kind == Some(6) && entry.whole).count()
}

/// On every branch the numbers run from 0, each once: a child goes on from the mark of its split.
fn are_facts_numbered(tags: &[Tag]) -> bool {
    let (mut next, mut marks): (usize, Vec<usize>) = (0, Vec::new());
    for tag in tags {
        if let (Some(depth), Some(child)) = (tag.number("data-depth"), tag.number("data-child")) {
            if child == 1 {
                marks.truncate(depth - 1);
                marks.push(next);
            }
            marks.truncate(depth);
            match marks.last() {
                Some(mark) if marks.len() == depth => next = *mark,
                _ => return false,
            }
        }
        match tag.number("data-fact") {
            Some(number) if number != next => return false,
            Some(_) => next += 1,
            None => {}
        }
    }
    true
}

fn facts(tags: &[Tag]) -> Vec<usize> {
    tags.iter().filter_map(|tag| tag.number("data-fact")).collect()
}

/// The numbers of all facts where they are added, in the account's order.
fn added(account: &Account) -> Vec<usize> {
    let begun = |entry: &Entry| entry.begun.iter().flat_map(|begun| &begun.notes).cloned().collect::<Vec<_>>();
    let is_added =
        |entry: &Entry, what: &str| what == "adds fact" || what == "fact" && matches!(entry.state, State::Read);
    drawn(account)
        .flat_map(|entry| {
            let own = entry.notes.iter().filter(|note| is_added(entry, note.what)).cloned();
            own.chain(begun(entry)).collect::<Vec<_>>()
        })
        .filter_map(|note| note.number)
        .collect()
}

/// The numbers of the constraints that bear the mark, by their class and by the word behind them.
fn marked(tags: &[Tag]) -> Vec<usize> {
    let (mut numbers, mut worded, mut last) = (Vec::new(), Vec::new(), None);
    let mut within = false;
    for tag in tags {
        within = if tag.has_class("constraint") { tag.has_class("core") } else { within };
        last = tag.number("data-fact").or(last);
        if within && tag.number("data-fact").is_some() {
            numbers.extend(last);
            within = false;
        }
        if tag.name == "mark" && !tag.closes && last.is_some() {
            worded.extend(last);
        }
    }
    if numbers == worded {
        numbers
    } else {
        vec![usize::MAX]
    }
}

fn core(verdict: &Verdict) -> Vec<usize> {
    match verdict {
        Verdict::NoSolution { core } => core.clone(),
        _ => Vec::new(),
    }
}

/// A record that is a step or is refused, whether it is refused, and the children that enclose it, each by its split and its number.
type Placed = (usize, bool, Vec<(usize, usize)>);

/// The steps and the refused record where they are drawn.
fn places(tags: &[Tag]) -> Vec<Placed> {
    let (mut found, mut open): (Vec<Placed>, Vec<Option<(usize, usize)>>) = (Vec::new(), Vec::new());
    for tag in tags {
        if tag.has_class("step") || tag.has_class("bad") {
            let record = tag.value("id").and_then(|id| id.strip_prefix('r')?.parse().ok());
            let path = open.iter().flatten().copied().collect();
            found.push((record.unwrap_or(usize::MAX), tag.has_class("bad"), path));
        }
        match (tag.name, tag.closes) {
            ("details", false) => open.push(tag.number("data-split").zip(tag.number("data-child"))),
            ("details", true) => drop(open.pop()),
            _ => {}
        }
    }
    found
}

/// The same by the account, and the library's refused record. Of children that stand too deep the last alone is due.
fn due_places(account: &Account, verdict: &Verdict) -> Vec<Placed> {
    let (mut found, mut path): (Vec<Placed>, Vec<(usize, usize)>) = (Vec::new(), Vec::new());
    for entry in drawn(account) {
        path.truncate(entry.depth);
        let refused = matches!(verdict, Verdict::Refused(refusal) if refusal.record == entry.number as u64);
        if refused || entry.kind == Some(6) {
            let (outer, inner) = path.split_at(path.len().min(draw::DEEPEST - 1));
            found.push((entry.number, refused, outer.iter().chain(inner.last()).copied().collect()));
        }
        if let Some(begun) = &entry.begun {
            path.truncate(begun.depth - 1);
            path.push((begun.split, begun.child));
        }
    }
    found
}

/// How many items a list of a class has.
fn items(tags: &[Tag], class: &str) -> usize {
    let behind = tags.iter().skip_while(|tag| !tag.has_class(class)).skip(1);
    behind.take_while(|tag| tag.name != "ul").filter(|tag| tag.name == "li" && !tag.closes).count()
}

/// The library's values at the head; of a model that was read its columns, and the values that it gives.
fn are_values_shown(tags: &[Tag], account: &Account, verdict: &Verdict) -> bool {
    let values = match verdict {
        Verdict::Strings { strings, integers } => strings.len() + integers.len(),
        _ => 0,
    };
    let is_leaf = |entry: &&Entry| entry.kind == Some(7) && matches!(entry.state, State::Read);
    let leaf = account.entries.iter().find(is_leaf);
    let noted = |what: &str| leaf.map_or(0, |entry| entry.notes.iter().filter(|note| note.what == what).count());
    items(tags, "answer") == values
        && items(tags, "model") == noted("column")
        && items(tags, "values") == noted("value")
        && (values == 0 || noted("value") == values)
}
