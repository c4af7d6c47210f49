//! A branch of the search and the facts taken into it.

use crate::facts::{arithmetic, less, FactId, Origin};
use crate::search::Search;
use crate::simplex::Simplex;
use crate::strings::Classes;
use crate::tree::{Closed, End, Stuck};
use crate::whole::{common, Whole};
use ticket::{Constraint, Form, Function, Question, Relation};

#[derive(Clone)]
pub struct Branch {
    pub simplex: Simplex,
    pub classes: Classes,
    /// Facts e ≠ 0.
    pub unequal: Vec<FactId>,
    /// Facts e ≥ 0 and e = 0.
    pub arithmetic: Vec<FactId>,
    /// Columns that stand in facts other than those of S-Prop, a bit each.
    pub named: u64,
    /// Variables that C-Valid split, a bit each, and pairs that C-Inj split.
    pub valid: u32,
    pub injected: Vec<(usize, usize)>,
}

impl Branch {
    /// Without facts.
    pub fn new(question: &Question) -> Branch {
        Branch {
            simplex: Simplex::new(question.columns()),
            classes: Classes::new(question.p, question.literals.len() + 1),
            unequal: Vec::new(),
            arithmetic: Vec::new(),
            named: 0,
            valid: 0,
            injected: Vec::new(),
        }
    }

    fn name(&mut self, form: &Form) {
        form.terms.iter().for_each(|(column, _)| self.named |= 1 << column);
    }

    pub fn is_named(&self, column: usize) -> bool {
        self.named >> column & 1 == 1
    }
}

impl Search<'_> {
    /// The column of a function of a variable.
    pub fn column(&self, function: Function, x: usize) -> usize {
        match function {
            Function::Len => self.question.len_column(x),
            Function::Code => self.question.code_column(x),
        }
    }

    /// Length or code of a literal.
    pub fn literal_value(&self, function: Function, number: usize) -> i64 {
        let literal = self.question.literal(number).unwrap_or(&[]);
        match (function, literal) {
            (Function::Len, _) => literal.len() as i64,
            (Function::Code, [character]) => i64::from(*character),
            (Function::Code, _) => -1,
        }
    }

    /// Takes a fact into a branch, with what follows of it for lengths and codes.
    pub fn take(&mut self, branch: &mut Branch, id: FactId) -> Result<(), End> {
        match self.facts.get(id).says.clone() {
            Constraint::NotSame(a, b) => {
                branch.classes.part(a, b, id);
                self.look_for_clash(branch)
            }
            Constraint::Same(a, b) => self.take_same(branch, id, a, b),
            Constraint::IsLiteral(a, number) => self.take_literal(branch, id, a, number),
            Constraint::Arithmetic(Relation::Ne, form) => self.take_unequal(branch, id, &form),
            Constraint::Arithmetic(relation, form) => self.take_arithmetic(branch, id, relation, &form),
        }
    }

    fn look_for_clash(&self, branch: &Branch) -> Result<(), End> {
        match branch.classes.clash() {
            Some(why) => Err(End::Closed(Closed::by_strings(&self.facts, why))),
            None => Ok(()),
        }
    }

    fn take_same(&mut self, branch: &mut Branch, id: FactId, a: usize, b: usize) -> Result<(), End> {
        if !branch.classes.link(a, b, id) {
            return Ok(());
        }
        self.look_for_clash(branch)?;
        for function in [Function::Len, Function::Code] {
            let fact = self.agreement(function, a, b, vec![id]);
            self.take(branch, fact)?;
        }
        Ok(())
    }

    fn take_literal(&mut self, branch: &mut Branch, id: FactId, a: usize, number: usize) -> Result<(), End> {
        let node = branch.classes.literal(number);
        if !branch.classes.link(a, node, id) {
            return Ok(());
        }
        self.look_for_clash(branch)?;
        for function in [Function::Len, Function::Code] {
            let fact = self.value_of_literal(function, a, number, vec![id]);
            self.take(branch, fact)?;
        }
        Ok(())
    }

    /// S-Prop's fact.
    pub fn agreement(&mut self, function: Function, x: usize, y: usize, why: Vec<FactId>) -> FactId {
        let says = arithmetic(Relation::Eq, 0, less(self.column(function, x), self.column(function, y)));
        self.once(says, Origin::Agree { function, x, y, why })
    }

    /// L-Intro's or C-Collapse's fact.
    pub fn value_of_literal(&mut self, function: Function, x: usize, number: usize, why: Vec<FactId>) -> FactId {
        let value = self.literal_value(function, number);
        let says = arithmetic(Relation::Eq, -value, vec![(self.column(function, x), 1)]);
        self.once(says, Origin::Literal { function, x, why })
    }

    /// A fact on strings, written anew only where there is none like it.
    fn once(&mut self, says: Constraint, origin: Origin) -> FactId {
        let key = format!("{origin:?}");
        match self.strings.get(&key) {
            Some(id) if *id < self.facts.count() && self.facts.get(*id).origin == origin => *id,
            _ => {
                let id = self.facts.add(says, origin);
                self.strings.insert(key, id);
                id
            }
        }
    }

    fn take_unequal(&mut self, branch: &mut Branch, id: FactId, form: &Form) -> Result<(), End> {
        if form.terms.is_empty() && form.constant == 0 {
            return Err(End::Closed(Closed::by_arithmetic(&self.facts, id)));
        }
        if !form.terms.is_empty() {
            branch.unequal.push(id);
            branch.name(form);
        }
        Ok(())
    }

    fn take_arithmetic(&mut self, branch: &mut Branch, id: FactId, relation: Relation, form: &Form) -> Result<(), End> {
        let equation = relation == Relation::Eq;
        if form.terms.is_empty() {
            let false_one = form.constant < 0 || (equation && form.constant != 0);
            return if false_one { Err(End::Closed(Closed::by_arithmetic(&self.facts, id))) } else { Ok(()) };
        }
        branch.arithmetic.push(id);
        if !matches!(self.facts.get(id).origin, Origin::Agree { .. }) {
            branch.name(form);
        }
        let divisor = form.terms.iter().fold(0, |divisor, term| common(divisor, term.1.abs()));
        if form.constant % divisor == 0 {
            return self.bound(branch, id);
        }
        let (alone, divisor) = ([(id, Whole::from(1i64))], Whole::from(divisor));
        if equation {
            let closed = self.indivisible(&alone, &divisor);
            return Err(closed.map_or(End::Stuck(Stuck::Numbers), End::Closed));
        }
        let sum = self.facts.combined(&alone, &divisor).ok_or(End::Stuck(Stuck::Numbers))?;
        self.bound(branch, sum)
    }

    fn bound(&mut self, branch: &mut Branch, id: FactId) -> Result<(), End> {
        let taken = branch.simplex.take(id, self.facts.is_equation(id), self.facts.form(id));
        taken.map_err(|certificate| self.closed_by(branch, &certificate))
    }
}
