//! Writing tickets: a closed tree with each derived fact at the lowest place above its uses, or a model with the few steps that join its classes.

use crate::facts::{FactId, Facts, Origin};
use crate::strings::Classes;
use crate::tree::{Split, Tree};
use std::collections::{BTreeSet, HashMap};
use ticket::{Claim, Constraint, Function, Placed, Question, Step, Ticket};
use ticket::{MOST_BYTES, MOST_FACTS, MOST_PENDING, NUMBER_LIMIT, VALUE_LIMIT};

/// The limit of a ticket that a derivation passes.
#[derive(Clone, Copy, Debug, PartialEq, Eq)]
pub enum TooLarge {
    Facts,
    Splits,
    Bytes,
    Numbers,
}

/// The fewest bytes of a step.
const STEP_BYTES: usize = 10;

/// A place of the tree, with the facts derived there.
struct Place<'t> {
    tree: &'t Tree,
    parent: usize,
    depth: usize,
    children: Vec<usize>,
    derived: Vec<FactId>,
}

struct Writer<'f, 't> {
    facts: &'f Facts,
    places: Vec<Place<'t>>,
    steps: Vec<Placed>,
    numbers: HashMap<FactId, usize>,
    count: usize,
    pending: usize,
}

/// Claim 1. Derived facts are shared among branches; where that takes too many facts at once, each branch derives its own.
pub fn no_solution(question: &Question, facts: &Facts, tree: &Tree) -> Result<Ticket, TooLarge> {
    let written = match written(question, facts, tree, shared) {
        Err(TooLarge::Facts) => written(question, facts, tree, apiece),
        other => other,
    };
    finished(question, Claim::NoSolution(written?))
}

fn finished(question: &Question, claim: Claim) -> Result<Ticket, TooLarge> {
    let ticket = Ticket { question: question.clone(), claim };
    if ticket.to_bytes().len() > MOST_BYTES {
        return Err(TooLarge::Bytes);
    }
    Ok(ticket)
}

type Layout = fn(&Facts, &mut [Place]);

fn written(question: &Question, facts: &Facts, tree: &Tree, layout: Layout) -> Result<Vec<Placed>, TooLarge> {
    let mut places = Vec::new();
    lay_out(tree, 0, 0, &mut places);
    layout(facts, &mut places);
    let count = question.constraints.len();
    let numbers = (0..count).map(|number| (number, number)).collect();
    let mut writer = Writer { facts, places, steps: Vec::new(), numbers, count, pending: 0 };
    writer.walk(0)?;
    Ok(writer.steps)
}

/// The tree as a list, each place behind the one above it.
fn lay_out<'t>(tree: &'t Tree, parent: usize, depth: usize, places: &mut Vec<Place<'t>>) -> usize {
    let at = places.len();
    places.push(Place { tree, parent, depth, children: Vec::new(), derived: Vec::new() });
    if let Tree::Split { children, .. } = tree {
        for (_, child) in children {
            let place = lay_out(child, at, depth + 1, places);
            places[at].children.push(place);
        }
    }
    at
}

/// The facts that a place names itself.
fn named(tree: &Tree) -> Vec<FactId> {
    match tree {
        Tree::AConf(id) => vec![*id],
        Tree::SConf => Vec::new(),
        Tree::Split { split, .. } => split.premises(),
    }
}

/// Each fact once, at the lowest place above all its uses.
fn shared(facts: &Facts, places: &mut [Place]) {
    let mut uses: HashMap<FactId, usize> = HashMap::new();
    let mut open: BTreeSet<FactId> = BTreeSet::new();
    for at in 0..places.len() {
        for id in named(places[at].tree) {
            use_at(places, &mut uses, id, at);
            open.insert(id);
        }
    }
    // Premises have lower numbers than what is derived from them.
    while let Some(id) = open.pop_last() {
        if !facts.get(id).is_derived() {
            continue;
        }
        let at = uses.get(&id).copied().unwrap_or(0);
        places[at].derived.push(id);
        for premise in facts.get(id).premises() {
            use_at(places, &mut uses, premise, at);
            open.insert(premise);
        }
    }
    places.iter_mut().for_each(|place| place.derived.reverse());
}

/// Moves a fact up to the lowest place above its uses so far and this one.
fn use_at(places: &[Place], uses: &mut HashMap<FactId, usize>, id: FactId, at: usize) {
    let place = uses.entry(id).or_insert(at);
    let mut other = at;
    while *place != other {
        if places[*place].depth >= places[other].depth {
            *place = places[*place].parent;
        } else {
            other = places[other].parent;
        }
    }
}

/// Each place derives what it names, unless a place above derived it for itself.
fn apiece(facts: &Facts, places: &mut [Place]) {
    for at in 0..places.len() {
        let mut own: BTreeSet<FactId> = BTreeSet::new();
        let mut open = named(places[at].tree);
        while let Some(id) = open.pop() {
            if facts.get(id).is_derived() && !stands_above(places, at, id) && own.insert(id) {
                open.extend(facts.get(id).premises());
            }
        }
        places[at].derived = own.into_iter().collect();
    }
}

fn stands_above(places: &[Place], mut at: usize, id: FactId) -> bool {
    while at != 0 {
        at = places[at].parent;
        if places[at].derived.contains(&id) {
            return true;
        }
    }
    false
}

impl Writer<'_, '_> {
    fn step(&mut self, step: Step) -> Result<(), TooLarge> {
        if self.steps.len() > MOST_BYTES / STEP_BYTES {
            return Err(TooLarge::Bytes);
        }
        self.steps.push(Placed { step, child: 0 });
        Ok(())
    }

    /// Gives a fact the next number.
    fn stand(&mut self, id: FactId) -> Result<(), TooLarge> {
        if self.count >= MOST_FACTS {
            return Err(TooLarge::Facts);
        }
        self.numbers.insert(id, self.count);
        self.count += 1;
        Ok(())
    }

    fn number(&self, id: FactId) -> usize {
        self.numbers.get(&id).copied().unwrap_or(MOST_FACTS)
    }

    fn walk(&mut self, at: usize) -> Result<(), TooLarge> {
        for id in std::mem::take(&mut self.places[at].derived) {
            let step = self.derivation(id);
            self.step(step)?;
            self.stand(id)?;
        }
        let tree = self.places[at].tree;
        match tree {
            Tree::AConf(id) => self.step(Step::AConf(self.number(*id))),
            Tree::SConf => self.step(Step::SConf),
            Tree::Split { split, children } => {
                let step = self.split(split)?;
                self.step(step)?;
                let facts: Vec<&[FactId]> = children.iter().map(|child| child.0.as_slice()).collect();
                self.children(at, &facts)
            }
        }
    }

    /// The step that adds a derived fact.
    fn derivation(&self, id: FactId) -> Step {
        match &self.facts.get(id).origin {
            Origin::Sum { divisor, pairs } => {
                let pairs = pairs.iter().map(|(id, factor)| (self.number(*id), *factor)).collect();
                Step::Sum { divisor: u32::try_from(*divisor).unwrap_or(0), pairs }
            }
            Origin::Agree { function, x, y, .. } => Step::SProp(*function, *x, *y),
            Origin::Literal { function: Function::Len, x, .. } => Step::LIntro(*x),
            Origin::Literal { function: Function::Code, x, .. } => Step::CCollapse(*x),
            Origin::Join(first, second) => Step::Join(self.number(*first), self.number(*second)),
            Origin::Question | Origin::Child => Step::SConf,
        }
    }

    /// A split's step, where the numbers of its children are within the limit.
    fn split(&self, split: &Split) -> Result<Step, TooLarge> {
        let within = |number: i64| if number.abs() <= NUMBER_LIMIT { Ok(()) } else { Err(TooLarge::Numbers) };
        Ok(match split {
            Split::Branch(form) => {
                within(form.constant)?;
                within(form.constant + 1)?;
                Step::Branch(form.clone())
            }
            Split::Apart(id) => {
                within(self.facts.form(*id).constant.abs() + 1)?;
                Step::Apart(self.number(*id))
            }
            Split::LValid(x) => Step::LValid(*x),
            Split::CValid(x) => Step::CValid(*x),
            Split::CInj(x, y) => Step::CInj(*x, *y),
            Split::Card { variables, .. } => Step::Card(variables.clone()),
        })
    }

    /// The children left to right, each from the split's own facts on.
    fn children(&mut self, at: usize, facts: &[&[FactId]]) -> Result<(), TooLarge> {
        let most = facts.iter().map(|facts| facts.len()).max().unwrap_or(0);
        if self.count + most > MOST_FACTS {
            return Err(TooLarge::Facts);
        }
        if facts.len() > 1 && self.pending >= MOST_PENDING {
            return Err(TooLarge::Splits);
        }
        let (mark, before) = (self.count, self.pending);
        for (place, facts_of_child) in facts.iter().enumerate() {
            self.pending = before + usize::from(place + 1 < facts.len());
            self.count = mark;
            for id in *facts_of_child {
                self.stand(*id)?;
            }
            let child = self.places[at].children[place];
            self.walk(child)?;
        }
        Ok(())
    }
}

/// Claim 2: classes joined by C-Inj (child 3) and L-Valid (child 1), then the model.
pub fn strings(question: &Question, model: Vec<i64>, wanted: &Classes) -> Result<Ticket, TooLarge> {
    if model.iter().any(|value| value.abs() > VALUE_LIMIT) {
        return Err(TooLarge::Numbers);
    }
    let steps = joining(question, &model, wanted);
    if question.constraints.len() + steps.len() > MOST_FACTS {
        return Err(TooLarge::Facts);
    }
    finished(question, Claim::Strings { steps, model })
}

fn joining(question: &Question, model: &[i64], wanted: &Classes) -> Vec<Placed> {
    let mut classes = Classes::new(question.p, question.literals.len() + 1);
    for constraint in &question.constraints {
        match constraint {
            Constraint::Same(a, b) => classes.join(*a, *b),
            Constraint::IsLiteral(a, number) => classes.join(*a, classes.literal(*number)),
            _ => false,
        };
    }
    let mut steps = Vec::new();
    for x in 0..question.p {
        for y in x + 1..question.p {
            if wanted.same(x, y) && classes.join(x, y) {
                steps.push(Placed { step: Step::CInj(x, y), child: 3 });
            }
        }
        if model[question.len_column(x)] == 0 && classes.join(x, classes.literal(0)) {
            steps.push(Placed { step: Step::LValid(x), child: 1 });
        }
    }
    steps
}
