//! Why a step does not fit its rule (8).

use crate::account::Scene;
use crate::layout::rule_of;
use crate::{standing, steps, words};
use nuldwich_reference::facts::Relation::{AtLeast, Equal, NotEqual};
use nuldwich_reference::facts::{Fact, Relation};
use nuldwich_reference::rules::Place;
use nuldwich_reference::steps::Rule;

/// What fails of the premise of the step in a body; the first of it where one failure hides others.
pub fn reasons(scene: &Scene, body: &[u8]) -> (String, Vec<String>) {
    let rule = rule_of(body);
    let Some(step) = steps::step_in(scene.ticket, body) else {
        return (rule, Vec::new());
    };
    if steps::closes(body) && scene.ticket.claim == 2 {
        let reason =
            "rules 4 (A-Conf) and 5 (S-Conf) close a branch; under claim 2 (strings) they never fit".to_string();
        return (format!("{rule}, which closes, does not fit under claim 2"), vec![reason]);
    }
    let missing = missing_facts(scene, &step.rule);
    if !missing.is_empty() {
        return ("the step names a fact that is not on the branch".to_string(), missing);
    }
    let meaning = format!("the step does not fit {rule} on the branch where it stands");
    let reasons = steps::on_branch(scene.ticket, scene.branch(), |place| Unfit { scene, place }.reasons(&step.rule));
    (meaning, reasons)
}

/// "names a fact not on the branch"
fn missing_facts(scene: &Scene, rule: &Rule) -> Vec<String> {
    let missing = steps::facts_named(rule).into_iter().filter(|fact| *fact >= scene.branch().len());
    let reason = |fact: usize| {
        let stood = standing::last_stood(scene, fact).map_or(String::new(), |words| format!("; {words}"));
        format!("fact {} is not on the branch{stood}", words::number(fact as i128))
    };
    missing.map(reason).collect()
}

/// A step whose facts are on the branch.
struct Unfit<'a> {
    scene: &'a Scene<'a>,
    place: &'a Place<'a>,
}

impl Unfit<'_> {
    fn reasons(&self, rule: &Rule) -> Vec<String> {
        match rule {
            Rule::Sum { divisor, pairs } => self.sum(*divisor, pairs),
            Rule::Apart(fact) => {
                vec![format!("the rule takes an arithmetic fact e ≠ 0, but {}", self.described(*fact))]
            }
            Rule::AConf(fact) => self.arithmetic_conflict(*fact),
            Rule::SConf => self.string_conflict(),
            Rule::SProp { x, y, .. } => self.propagation(*x, *y),
            Rule::LIntro(x) | Rule::CCollapse(x) => self.no_literal(*x),
            Rule::CInj(x, _) => {
                vec![format!("the rule takes two different variables, but both are {}", words::variable(*x))]
            }
            Rule::Card(variables) => self.cardinality(variables),
            Rule::Join(first, second) => self.join(*first, *second),
            Rule::Branch(_) | Rule::LValid(_) | Rule::CValid(_) => Vec::new(),
        }
    }

    /// `fact 3 of record 7, x0 ≈ x1, is a string fact`
    fn described(&self, number: usize) -> String {
        let kind = match self.place.arithmetic(number) {
            None => "a string fact",
            Some((AtLeast, _)) => "a ≥ fact",
            Some((Equal, _)) => "an equation",
            Some((NotEqual, _)) => "a ≠ fact",
        };
        format!("{} is {kind}", self.named(number))
    }

    /// `fact 3 of record 7, x0 ≈ x1,`
    fn named(&self, number: usize) -> String {
        format!("{}, {},", self.scene.fact_name(number), self.scene.fact_words(number))
    }

    fn class(&self, x: usize) -> String {
        words::class(&self.scene.ticket.question, self.place.classes, x)
    }

    /// "Multipliers are at least 1 on a ≥ fact, nonzero on an equation; ≠ facts and string facts do not fit. Column sums must divide exactly."
    fn sum(&self, divisor: i128, pairs: &[(usize, i128)]) -> Vec<String> {
        let Some(total) = self.place.total(pairs) else {
            return pairs.iter().filter_map(|(fact, times)| self.summand(*fact, *times)).collect();
        };
        let question = &self.scene.ticket.question;
        let columns = total.coefficients.iter().enumerate().filter(|(_, sum)| *sum % divisor != 0);
        columns
            .map(|(place, sum)| {
                let (sum, divisor) = (words::number(*sum), words::number(divisor));
                let column = words::column(question, place);
                format!(
                    "the coefficients of {column} sum to {sum}, which the divisor {divisor} does not divide exactly"
                )
            })
            .collect()
    }

    /// Why a fact with its multiplier may not stand in a Sum.
    fn summand(&self, fact: usize, multiplier: i128) -> Option<String> {
        let Some(relation @ (AtLeast | Equal)) = self.place.relation(fact) else {
            return Some(self.neither(fact));
        };
        (!Place::multiplier_fits(relation, multiplier)).then(|| {
            let (due, times) = (multipliers(relation), words::number(multiplier));
            format!("{}; its multiplier must be {due}, but is {times}", self.described(fact))
        })
    }

    /// What Sum and Join say of a fact that is neither a ≥ fact nor an equation.
    fn neither(&self, fact: usize) -> String {
        format!("the rule takes ≥ facts and equations, but {}", self.described(fact))
    }

    /// "an arithmetic fact without coefficients and false"
    fn arithmetic_conflict(&self, fact: usize) -> Vec<String> {
        vec![match self.place.arithmetic(fact) {
            None => format!("the rule takes an arithmetic fact, but {}", self.described(fact)),
            Some((_, row)) if !row.is_constant() => {
                let columns = (0..row.coefficients.len()).filter(|place| row.coefficients[*place] != 0);
                let names: Vec<String> =
                    columns.map(|place| words::column(&self.scene.ticket.question, place)).collect();
                let names = words::listed(&names, "and");
                format!("the rule takes a fact without coefficients, but {} has one for {names}", self.named(fact))
            }
            Some(_) => format!("the rule takes a false fact, but {} is true", self.named(fact)),
        }]
    }

    /// "Fits when two different literals share a class, or a ≉ fact has both sides in one."
    fn string_conflict(&self) -> Vec<String> {
        let mut reasons =
            vec!["the rule takes two different literals in one class, or a ≉ fact with both sides in one class"
                .to_string()];
        let differences = self.place.branch.iter().enumerate().filter_map(|(number, fact)| match fact {
            Fact::Differ(a, b) => Some((number, *a, *b)),
            _ => None,
        });
        for (number, a, b) in differences {
            reasons.push(format!(
                "{} has its sides in the classes {} and {}",
                self.named(number),
                self.class(a),
                self.class(b)
            ));
        }
        if reasons.len() == 1 {
            reasons.push("the branch has no ≉ fact".to_string());
        }
        reasons.push(format!("the classes are {}", self.classes()));
        reasons
    }

    /// Every class of variables.
    fn classes(&self) -> String {
        let leaders = (0..self.scene.ticket.question.p).filter(|x| self.place.classes.lowest(*x) == *x);
        words::listed(&leaders.map(|x| self.class(x)).collect::<Vec<_>>(), "and")
    }

    /// "different variables x, y of one class"
    fn propagation(&self, x: usize, y: usize) -> Vec<String> {
        if x == y {
            return vec![format!("the rule takes two different variables, but both are {}", words::variable(x))];
        }
        let (x_name, y_name) = (words::variable(x), words::variable(y));
        vec![format!(
            "{x_name} and {y_name} are not in one class: {x_name} is in {}, {y_name} in {}",
            self.class(x),
            self.class(y)
        )]
    }

    /// "x, whose class holds a literal"
    fn no_literal(&self, x: usize) -> Vec<String> {
        vec![format!("the class of {} holds no literal: it is {}", words::variable(x), self.class(x))]
    }

    /// "different variables; for each neighbouring pair a fact states their lengths' difference = 0"
    fn cardinality(&self, variables: &[usize]) -> Vec<String> {
        if let Some(j) = (0..variables.len()).find(|j| variables[..*j].contains(&variables[*j])) {
            return vec![format!(
                "the rule takes different variables, but {} stands there twice",
                words::variable(variables[j])
            )];
        }
        let pairs = variables.windows(2).filter(|pair| self.place.equal_lengths(pair[0], pair[1]).is_none());
        pairs.flat_map(|pair| self.neighbours(pair[0], pair[1])).collect()
    }

    /// The fact that two neighbours of Card lack, and those of the branch that are about both lengths.
    fn neighbours(&self, x: usize, y: usize) -> Vec<String> {
        let (x_name, y_name) = (words::variable(x), words::variable(y));
        let due = format!("len({x_name}) − len({y_name}) = 0 or len({y_name}) − len({x_name}) = 0");
        let mut reasons =
            vec![format!("for its neighbours {x_name} and {y_name} the rule needs one of the facts {due}")];
        let question = &self.scene.ticket.question;
        let columns = [question.len_column(x), question.len_column(y)];
        let about = |number: &usize| {
            let arithmetic = self.place.arithmetic(*number);
            arithmetic.is_some_and(|(_, row)| columns.iter().all(|place| row.coefficients[*place] != 0))
        };
        let near = (0..self.place.branch.len()).filter(about);
        reasons.extend(near.map(|number| format!("{} is not one of them", self.named(number))));
        if reasons.len() == 1 {
            reasons.push("no arithmetic fact of the branch is about both lengths".to_string());
        }
        reasons
    }

    /// "one the negative of the other"; "Join takes equations as well as ≥ facts."
    fn join(&self, first: usize, second: usize) -> Vec<String> {
        let is_taken = |fact: &usize| matches!(self.place.relation(*fact), Some(AtLeast | Equal));
        let others = [first, second].into_iter().filter(|fact| !is_taken(fact));
        let reasons: Vec<String> = others.map(|fact| self.neither(fact)).collect();
        let Some((_, row)) = self.place.arithmetic(first).filter(|_| reasons.is_empty()) else {
            return reasons;
        };
        let due = |relation| words::fact(&self.scene.ticket.question, &Fact::Arithmetic(relation, row.negative()));
        let (bound, equation) = (due(AtLeast), due(Equal));
        let found = self.scene.fact_words(second);
        vec![format!(
            "the second fact must be the negative of the first, {bound} or {equation}, but fact {second} is {found}"
        )]
    }
}

/// The multipliers that fit a fact of Sum.
fn multipliers(relation: Relation) -> &'static str {
    match relation {
        AtLeast => "at least 1",
        _ => "other than 0",
    }
}
