//! Leaves: the model, whether it settles the leaf, and the strings.

use crate::classes::Classes;
use crate::facts::Fact;
use crate::question::Question;
use crate::records::i32_at;
use crate::rules::{Conclusion, Place};
use crate::steps::Rule;
use crate::{demand, Refusal};

/// Model values and integers of an answer lie "within ±100,000,000".
pub const VALUE_LIMIT: i128 = 100_000_000;

/// "14 when a length passes 64"
pub const LONGEST: i128 = 64;

/// The branch at the model.
pub struct Leaf<'a> {
    pub place: Place<'a>,
    pub model: Vec<i128>,
}

/// "7 model: an i32 for each column, within ±100,000,000": 5, then 6.
pub fn read_model(question: &Question, body: &[u8]) -> Result<Vec<i128>, Refusal> {
    demand(body.len() == 4 * question.columns(), 5)?;
    let model: Vec<i128> = body.chunks(4).map(|field| i32_at(field, 0)).collect();
    demand(model.iter().all(|value| (-VALUE_LIMIT..=VALUE_LIMIT).contains(value)), 6)?;
    Ok(model)
}

/// The strings of a leaf: "12 when it breaks an arithmetic fact, 13 when the leaf is not settled, 14 when a length passes 64".
pub fn strings_of(question: &Question, branch: &[Fact], model: Vec<i128>) -> Result<Vec<Vec<u32>>, Refusal> {
    let classes = Classes::of(question, branch);
    let leaf = Leaf { place: Place { question, branch, classes: &classes }, model };
    demand(leaf.meets_facts(), 12)?;
    demand(leaf.is_settled(), 13)?;
    demand((0..question.p).all(|x| leaf.length(x) <= LONGEST), 14)?;
    Ok(leaf.strings())
}

impl Leaf<'_> {
    /// The model's length of a variable.
    pub fn length(&self, x: usize) -> i128 {
        self.model[self.place.question.len_column(x)]
    }

    /// The model's code of a variable.
    pub fn code(&self, x: usize) -> i128 {
        self.model[self.place.question.code_column(x)]
    }

    /// "each arithmetic one holds with the model's value in every column"
    fn meets_facts(&self) -> bool {
        self.place.branch.iter().all(|fact| match fact {
            Fact::Arithmetic(..) => self.holds(fact),
            _ => true,
        })
    }

    /// "an arithmetic fact by the model's values, an ≈ by classes"
    pub fn holds(&self, fact: &Fact) -> bool {
        match fact {
            Fact::Same(a, b) => self.place.classes.together(*a, *b),
            Fact::IsLiteral(a, literal) => self.place.classes.holds(*a, *literal),
            Fact::Arithmetic(relation, row) => relation.holds(row.value(&self.model)),
            Fact::Differ(..) => unreachable!("no rule adds a ≉ fact"),
        }
    }

    /// "A leaf is settled by its model if S-Conf does not fit and, for every choice of operands .., some child holds already."
    fn is_settled(&self) -> bool {
        !self.place.classes.conflict(self.place.branch)
            && self.choices().iter().all(|rule| self.choice_is_settled(rule))
            && self.card_is_settled()
    }

    /// "every choice of operands" of rules 6 to 11.
    pub fn choices(&self) -> Vec<Rule> {
        let p = self.place.question.p;
        let mut rules = Vec::new();
        for x in 0..p {
            rules.extend([Rule::LIntro(x), Rule::LValid(x), Rule::CCollapse(x), Rule::CValid(x)]);
            for y in (0..p).filter(|y| *y != x) {
                rules.push(Rule::SProp { function: 0, x, y });
                rules.push(Rule::SProp { function: 1, x, y });
                rules.push(Rule::CInj(x, y));
            }
        }
        rules
    }

    /// "for every choice of operands whose premise holds .., some child holds already"
    pub fn choice_is_settled(&self, rule: &Rule) -> bool {
        match self.place.conclude(rule) {
            Some(Conclusion::Children(children)) => self.some_child_holds(&children),
            _ => true,
        }
    }

    /// "some child holds already": all facts of it.
    fn some_child_holds(&self, children: &[Vec<Fact>]) -> bool {
        children.iter().any(|child| child.iter().all(|fact| self.holds(fact)))
    }

    /// Settled for every choice of Card's operands.
    fn card_is_settled(&self) -> bool {
        (0..self.place.question.p).all(|x| self.card_choice_is_settled(&self.card_choice(x)))
    }

    /// "Card's premise is equal model lengths": one variable of each class is the hardest choice, any other has fewer or repeats a class.
    pub fn card_choice(&self, x: usize) -> Vec<usize> {
        let mut choice: Vec<usize> = Vec::new();
        for y in (0..self.place.question.p).filter(|y| self.length(*y) == self.length(x)) {
            if !choice.iter().any(|z| self.place.classes.together(*z, y)) {
                choice.push(y);
            }
        }
        choice
    }

    /// Whether some child of Card holds for variables of equal model lengths; fewer than two are no choice.
    pub fn card_choice_is_settled(&self, choice: &[usize]) -> bool {
        choice.len() < 2 || self.some_child_holds(&self.place.card_children(choice))
    }

    /// The lowest variable of each class.
    fn class_leaders(&self) -> Vec<usize> {
        (0..self.place.question.p).filter(|x| self.place.classes.lowest(*x) == *x).collect()
    }

    /// "a class with a literal gets it; a class of length 1 gets the character of its code; then each other class, by lowest variable, .."
    fn strings(&self) -> Vec<Vec<u32>> {
        let p = self.place.question.p;
        let mut given: Vec<Option<Vec<u32>>> = vec![None; p];
        for x in self.class_leaders() {
            if let Some(literal) = self.place.classes.literal(x) {
                given[x] = Some(self.place.question.literals[literal].clone());
            } else if self.length(x) == 1 {
                given[x] = Some(vec![self.code(x) as u32]);
            }
        }
        for x in self.class_leaders() {
            if given[x].is_none() {
                given[x] = Some(self.smallest_free(self.length(x) as usize, &given));
            }
        }
        let string = |x| given[self.place.classes.lowest(x)].clone();
        (0..p).map(|x| string(x).expect("every class has a string")).collect()
    }

    /// "the smallest string of its length, by code points, not yet given"
    fn smallest_free(&self, length: usize, given: &[Option<Vec<u32>>]) -> Vec<u32> {
        let mut text = vec![0; length];
        while given.contains(&Some(text.clone())) {
            next_string(self.place.question.n, &mut text);
        }
        text
    }
}

/// The next string of the same length "by code points": the last character that can rise does so, those behind it start again.
fn next_string(n: u32, text: &mut [u32]) {
    for character in text.iter_mut().rev() {
        *character += 1;
        if *character < n {
            return;
        }
        *character = 0;
    }
}

#[cfg(test)]
mod tests {
    use super::*;

    /// Settledness by Card over every single choice of 2 to 16 different variables with equal model lengths.
    fn every_choice_is_settled(leaf: &Leaf) -> bool {
        let p = leaf.place.question.p;
        (0u32..1 << p).all(|set| {
            let choice: Vec<usize> = (0..p).filter(|x| set >> x & 1 == 1).collect();
            let premise = choice.len() >= 2 && choice.iter().all(|x| leaf.length(*x) == leaf.length(choice[0]));
            !premise || leaf.some_child_holds(&leaf.place.card_children(&choice))
        })
    }

    /// A small question, some ≈ facts and a model, chosen by the digits of `seed`.
    fn small_leaf(seed: usize) -> (Question, Vec<Fact>, Vec<i128>) {
        let mut rest = seed;
        let mut pick = |choices: usize| {
            rest = rest.wrapping_mul(6_364_136_223_846_793_005).wrapping_add(1_442_695_040_888_963_407);
            (rest >> 33) % choices
        };
        let (p, n) = (pick(8), [1, 2, 3, 196_608][pick(4)]);
        let question = Question { p, n, literals: vec![vec![]], ..Question::default() };
        let facts = pick(3);
        let mut branch = Vec::new();
        for _ in 0..if question.p > 0 { facts } else { 0 } {
            branch.push(Fact::Same(pick(question.p), pick(question.p)));
        }
        let mut model: Vec<i128> = (0..question.p).map(|_| 1 + pick(3) as i128).collect();
        model.extend(vec![-1; question.p]);
        (question, branch, model)
    }

    #[test]
    fn one_variable_of_each_class_is_the_hardest_choice() {
        let mut settled = 0;
        for seed in 0..3000 {
            let (question, branch, model) = small_leaf(seed);
            let classes = Classes::of(&question, &branch);
            let leaf = Leaf { place: Place { question: &question, branch: &branch, classes: &classes }, model };
            assert_eq!(leaf.card_is_settled(), every_choice_is_settled(&leaf), "seed {seed}");
            settled += usize::from(leaf.card_is_settled());
        }
        assert!((500..2500).contains(&settled), "{settled} of 3000 settled");
    }
}
