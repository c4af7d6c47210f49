//! Ways of resting: that of request L5, and others that are wrong in one point each. Sets are the bits of a number here.

use nuldwich_reference::cores::is_same;
use nuldwich_reference::facts::Relation::Equal;
use nuldwich_reference::facts::{Fact, Row};
use nuldwich_reference::rules::{Conclusion, Place};
use nuldwich_reference::steps::Rule;
use std::borrow::Cow;

/// What a step rests on.
#[derive(Clone, Copy, Debug, PartialEq)]
pub enum Way {
    AsAsked,
    NoRoots,
    LowWord,
    OneWord,
    SumFirst,
    SumLast,
    JoinFirst,
    JoinSecond,
    NoApart,
    ApartFirstChild,
    NoAConf,
    NoSProp,
    NoLIntro,
    NoCCollapse,
    SPropOfQuestion,
    LIntroOfQuestion,
    CCollapseOfQuestion,
    SConfOfQuestion,
    SameVariables,
    SameLiterals,
    SConfVariables,
    SConfLiterals,
    SameAndDiffer,
    SConfSame,
    SConfDiffer,
    SConfClash,
    NoCard,
    CardHighest,
    CardFirstOrder,
    CardAll,
    CardOfQuestion,
    CardFirstPair,
    CardJoins,
    CardFirstChild,
    BranchOnAll,
    LValidOnAll,
    CValidOnAll,
    CInjOnAll,
    UnionKept,
    CountKept,
    SetsKept,
    FirstClosing,
    LastClosing,
}

/// All ways in their order, that of the request first, each with what is wrong with it.
pub const WAYS: [(Way, &str); 43] = [
    (Way::AsAsked, "nothing"),
    (Way::NoRoots, "constraints rest on nothing"),
    (Way::LowWord, "constraints over 63 are lost"),
    (Way::OneWord, "constraint 64 is taken for 0"),
    (Way::SumFirst, "Sum on its first fact"),
    (Way::SumLast, "Sum on its last fact"),
    (Way::JoinFirst, "Join on its first fact"),
    (Way::JoinSecond, "Join on its second fact"),
    (Way::NoApart, "Apart on nothing"),
    (Way::ApartFirstChild, "Apart's second child on nothing"),
    (Way::NoAConf, "A-Conf on nothing"),
    (Way::NoSProp, "S-Prop on nothing"),
    (Way::NoLIntro, "L-Intro on nothing"),
    (Way::NoCCollapse, "C-Collapse on nothing"),
    (Way::SPropOfQuestion, "S-Prop on the question's ≈ facts"),
    (Way::LIntroOfQuestion, "L-Intro on the question's ≈ facts"),
    (Way::CCollapseOfQuestion, "C-Collapse on the question's ≈ facts"),
    (Way::SConfOfQuestion, "S-Conf on the question's ≈ facts"),
    (Way::SameVariables, "S-Prop and the like, no x ≈ literal"),
    (Way::SameLiterals, "S-Prop and the like, no x ≈ y"),
    (Way::SConfVariables, "S-Conf, no x ≈ literal"),
    (Way::SConfLiterals, "S-Conf, no x ≈ y"),
    (Way::SameAndDiffer, "S-Prop and the like, ≉ facts too"),
    (Way::SConfSame, "S-Conf without ≉ facts"),
    (Way::SConfDiffer, "S-Conf without ≈ facts"),
    (Way::SConfClash, "S-Conf on the clashing ≉ fact alone"),
    (Way::NoCard, "Card on nothing"),
    (Way::CardHighest, "Card on the highest match"),
    (Way::CardFirstOrder, "Card on the first order's lowest"),
    (Way::CardAll, "Card on all matches"),
    (Way::CardOfQuestion, "Card on the question's matches"),
    (Way::CardFirstPair, "Card on its first pair"),
    (Way::CardJoins, "Card's last child on nothing"),
    (Way::CardFirstChild, "Card's later children on nothing"),
    (Way::BranchOnAll, "Branch on all facts"),
    (Way::LValidOnAll, "L-Valid on all facts"),
    (Way::CValidOnAll, "C-Valid on all facts"),
    (Way::CInjOnAll, "C-Inj on all facts"),
    (Way::UnionKept, "≈ facts that were cut back count"),
    (Way::CountKept, "≈ facts in others' place do not count"),
    (Way::SetsKept, "facts have the sets of others' place"),
    (Way::FirstClosing, "first closing step only"),
    (Way::LastClosing, "last closing step only"),
];

/// A set by each of the ways.
pub type Sets = [u128; WAYS.len()];

impl Way {
    /// Whether a core may have a solution by it. What is lost in one child of a split alone is there by another child's closings, or these do
    /// without the split.
    pub fn is_unsound(self) -> bool {
        !matches!(
            self,
            Way::AsAsked
                | Way::ApartFirstChild
                | Way::SameAndDiffer
                | Way::SConfClash
                | Way::CardHighest
                | Way::CardFirstOrder
                | Way::CardAll
                | Way::CardJoins
                | Way::CardFirstChild
                | Way::UnionKept
                | Way::BranchOnAll
                | Way::LValidOnAll
                | Way::CValidOnAll
                | Way::CInjOnAll
        )
    }

    /// What a constraint rests on.
    fn root(self, number: usize) -> u128 {
        match self {
            Way::NoRoots => 0,
            Way::LowWord if number > 63 => 0,
            Way::OneWord => 1 << (number % 64),
            _ => 1 << number,
        }
    }

    /// The facts whose sets a step uses, where the request's own way uses those of `due`.
    fn grounds<'a>(self, place: &Place, rule: &Rule, due: &'a [usize]) -> Cow<'a, [usize]> {
        match (self, rule) {
            (Way::SumFirst, Rule::Sum { .. }) | (Way::JoinFirst, Rule::Join(..)) => first_of(due).into(),
            (Way::SumLast, Rule::Sum { .. }) | (Way::JoinSecond, Rule::Join(..)) => due[due.len() - 1..].into(),
            (Way::NoApart, Rule::Apart(_)) | (Way::NoAConf, Rule::AConf(_)) => due[..0].into(),
            (Way::NoSProp, Rule::SProp { .. }) | (Way::NoLIntro, Rule::LIntro(_)) => due[..0].into(),
            (Way::NoCCollapse, Rule::CCollapse(_)) => due[..0].into(),
            (Way::SPropOfQuestion, Rule::SProp { .. }) | (Way::LIntroOfQuestion, Rule::LIntro(_)) => {
                of_question(place, due)
            }
            (Way::CCollapseOfQuestion, Rule::CCollapse(_)) => of_question(place, due),
            (_, Rule::SProp { .. } | Rule::LIntro(_) | Rule::CCollapse(_)) => self.classes(place, due),
            (_, Rule::SConf) => self.conflict(place, due),
            (_, Rule::Card(variables)) => self.lengths(place, variables, due),
            (Way::BranchOnAll, Rule::Branch(_)) | (Way::LValidOnAll, Rule::LValid(_)) => {
                (0..place.branch.len()).collect()
            }
            (Way::CValidOnAll, Rule::CValid(_)) | (Way::CInjOnAll, Rule::CInj(..)) => (0..place.branch.len()).collect(),
            _ => due.into(),
        }
    }

    /// The facts whose sets S-Prop, L-Intro and C-Collapse use.
    fn classes<'a>(self, place: &Place, due: &'a [usize]) -> Cow<'a, [usize]> {
        match self {
            Way::SameVariables => of_these(due, |fact| !matches!(place.branch[fact], Fact::IsLiteral(..))),
            Way::SameLiterals => of_these(due, |fact| !matches!(place.branch[fact], Fact::Same(..))),
            Way::SameAndDiffer => place.grounds(&Rule::SConf).into(),
            _ => due.into(),
        }
    }

    /// The facts whose sets S-Conf uses.
    fn conflict<'a>(self, place: &Place, due: &'a [usize]) -> Cow<'a, [usize]> {
        let clash = place.classes.broken_difference(place.branch);
        match self {
            Way::SConfOfQuestion => of_question(place, due),
            Way::SConfVariables => of_these(due, |fact| !matches!(place.branch[fact], Fact::IsLiteral(..))),
            Way::SConfLiterals => of_these(due, |fact| !matches!(place.branch[fact], Fact::Same(..))),
            Way::SConfSame => of_these(due, |fact| is_same(&place.branch[fact])),
            Way::SConfDiffer => of_these(due, |fact| !is_same(&place.branch[fact])),
            Way::SConfClash => of_these(due, |fact| is_same(&place.branch[fact]) || Some(fact) == clash),
            _ => due.into(),
        }
    }

    /// The facts whose sets Card uses.
    fn lengths<'a>(self, place: &Place, variables: &[usize], due: &'a [usize]) -> Cow<'a, [usize]> {
        let by_pair = |choose: fn([Vec<usize>; 2]) -> Vec<usize>| {
            variables.windows(2).flat_map(|pair| choose(matches_of(place, pair[0], pair[1]))).collect()
        };
        match self {
            Way::NoCard => due[..0].into(),
            Way::CardHighest => by_pair(|matches| matches.concat().into_iter().max().into_iter().collect()),
            Way::CardFirstOrder => by_pair(|matches| first_of(&matches.concat()).to_vec()),
            Way::CardAll => by_pair(|matches| matches.concat()),
            Way::CardOfQuestion => of_question(place, due),
            Way::CardFirstPair => first_of(due).into(),
            _ => due.into(),
        }
    }

    /// What the facts of a child rest on, counted from 0, where the step rests on a set.
    fn of_child(self, rule: &Rule, child: usize, facts: &[Fact], set: u128) -> u128 {
        match (self, rule, facts) {
            (Way::CardJoins, Rule::Card(_), [Fact::Arithmetic(..)]) => 0,
            (Way::ApartFirstChild, Rule::Apart(_), _) | (Way::CardFirstChild, Rule::Card(_), _) if child > 0 => 0,
            _ => set,
        }
    }

    /// What is gathered behind a closing step.
    fn gather(self, core: u128, set: u128, is_first: bool) -> u128 {
        match self {
            Way::FirstClosing if !is_first => core,
            Way::LastClosing => set,
            _ => core | set,
        }
    }
}

/// Those of some facts that are kept.
fn of_these<'a>(facts: &[usize], keep: impl Fn(usize) -> bool) -> Cow<'a, [usize]> {
    facts.iter().copied().filter(|fact| keep(*fact)).collect()
}

/// Those of some facts that are constraints.
fn of_question<'a>(place: &Place, facts: &[usize]) -> Cow<'a, [usize]> {
    of_these(facts, |fact| fact < place.question.constraints.len())
}

/// The first of some facts, if there is one.
fn first_of(facts: &[usize]) -> &[usize] {
    &facts[..facts.len().min(1)]
}

/// The facts that state a difference of two lengths, those with coefficient 1 for the first variable before those with −1.
fn matches_of(place: &Place, x: usize, y: usize) -> [Vec<usize>; 2] {
    let (len_x, len_y) = (place.question.len_column(x), place.question.len_column(y));
    let row = Row::constant(place.question.columns(), 0).with(len_x, 1).with(len_y, -1);
    [row.clone(), row.negative()].map(|row| place.numbers_of(|fact| *fact == Fact::Arithmetic(Equal, row.clone())))
}

/// The sets of all ways along a ticket's steps.
pub struct Resting {
    /// Those of each fact of the branch.
    sets: Vec<Sets>,
    /// The splits with children not yet begun: the mark, and of each child, the next one last, the number of its facts and their sets.
    waiting: Vec<(usize, Vec<(usize, Sets)>)>,
    /// What each closing step rests on as asked.
    pub closings: Vec<u128>,
    pub cores: Sets,
    kept: Kept,
}

/// What is kept where a branch is cut back though it should not be, as by a walk that carries the union over all ≈ facts along.
#[derive(Default)]
struct Kept {
    /// The union over the ≈ facts that were there whenever a rule asked for them, and the most facts that were.
    union: u128,
    covered: usize,
    /// Whether each fact of the branch came to a place that was covered then.
    hidden: Vec<bool>,
    /// The first set that each place of the branch had behind the question.
    sets: Vec<u128>,
}

impl Resting {
    /// Of a question with so many constraints.
    pub fn new(constraints: usize) -> Resting {
        let sets = (0..constraints).map(|number| WAYS.map(|(way, _)| way.root(number))).collect();
        let kept = Kept { hidden: vec![false; constraints], sets: vec![0; constraints], ..Kept::default() };
        Resting { sets, waiting: Vec::new(), closings: Vec::new(), cores: [0; WAYS.len()], kept }
    }

    /// Takes a step that fits, and gives what it rests on as asked.
    pub fn take(&mut self, place: &Place, rule: &Rule, conclusion: &Conclusion) -> u128 {
        let due = place.grounds(rule);
        let set = |(way, _): (Way, &str)| {
            let facts = way.grounds(place, rule, &due);
            facts.iter().fold(0, |set, fact| set | self.sets[*fact][way as usize])
        };
        let mut sets = WAYS.map(set);
        if matches!(rule, Rule::SConf | Rule::SProp { .. } | Rule::LIntro(_) | Rule::CCollapse(_)) {
            self.ask_classes(place, &due, &mut sets);
        }
        match conclusion {
            Conclusion::Closes => self.close(&sets),
            Conclusion::Children(children) => {
                let of_child = |(child, facts): (usize, &Vec<Fact>)| {
                    (facts.len(), WAYS.map(|(way, _)| way.of_child(rule, child, facts, sets[way as usize])))
                };
                let children: Vec<(usize, Sets)> = children.iter().enumerate().map(of_child).rev().collect();
                self.waiting.push((self.sets.len(), children));
            }
        }
        self.begin_next();
        sets[Way::AsAsked as usize]
    }

    /// What a step on classes rests on where something is kept.
    fn ask_classes(&mut self, place: &Place, due: &[usize], sets: &mut Sets) {
        let union = |way: Way, facts: &[usize]| facts.iter().fold(0, |set, fact| set | self.sets[*fact][way as usize]);
        let same = of_these(due, |fact| is_same(&place.branch[fact]));
        let seen = of_these(due, |fact| !self.kept.hidden[fact]);
        let known = self.kept.union | union(Way::UnionKept, &same);
        sets[Way::UnionKept as usize] |= known;
        sets[Way::CountKept as usize] = union(Way::CountKept, &seen);
        self.kept.union = known;
        self.kept.covered = self.kept.covered.max(place.branch.len());
    }

    fn close(&mut self, sets: &Sets) {
        let is_first = self.closings.is_empty();
        self.closings.push(sets[Way::AsAsked as usize]);
        self.cores = WAYS.map(|(way, _)| way.gather(self.cores[way as usize], sets[way as usize], is_first));
    }

    /// Cuts back to the last mark and begins the next child there.
    fn begin_next(&mut self) {
        let Some((mark, children)) = self.waiting.last_mut() else { return };
        self.sets.truncate(*mark);
        self.kept.hidden.truncate(*mark);
        if let Some((count, mut sets)) = children.pop() {
            for place in *mark..*mark + count {
                self.kept.hidden.push(place < self.kept.covered);
                if place == self.kept.sets.len() {
                    self.kept.sets.push(sets[Way::SetsKept as usize]);
                }
                sets[Way::SetsKept as usize] = self.kept.sets[place];
                self.sets.push(sets);
            }
        }
        if children.is_empty() {
            self.waiting.pop();
        }
    }
}

#[cfg(test)]
mod tests {
    use super::*;

    #[test]
    fn ways_stand_in_their_order() {
        WAYS.iter().enumerate().for_each(|(place, (way, _))| assert_eq!(*way as usize, place));
    }
}
