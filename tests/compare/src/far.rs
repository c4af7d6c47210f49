//! Grows tickets at the edges of request L5: questions of up to 128 constraints of which those at the ends of the two words take part,
//! and tickets that are refused behind their last closed branch.

use crate::proofs;
use crate::random::Random;
use crate::writer;
use nuldwich_reference::facts::Relation::{AtLeast, Equal, NotEqual};
use nuldwich_reference::facts::{Fact, Relation, Row};
use nuldwich_reference::question::Question;
use nuldwich_reference::steps::Rule;

/// Constraints at the ends of the words.
const ENDS: [usize; 10] = [0, 1, 31, 32, 62, 63, 64, 65, 126, 127];

/// All shapes.
const SHAPES: [fn(&mut Random) -> Vec<u8>; 11] = [
    far_closing, far_strings, far_sum, far_split, far_literal, far_card, joined_by_card, joined_by_card,
    classes_set_back, classes_brought_up, spoilt_end,
];

/// A ticket at some edge.
pub fn grow(random: &mut Random) -> Vec<u8> {
    random.pick(&SHAPES)(random)
}

/// A question of constraints that an assignment meets, with the empty string for x0 and another for x1 and x2, and the places that are free.
struct Far {
    question: Question,
    free: Vec<usize>,
}

impl Far {
    /// So many string constraints, and `all` in all.
    fn new(random: &mut Random, strings: usize, all: usize) -> Far {
        let mut question = Question { n: 2, p: 3, q: 1, literals: vec![Vec::new()], ..Question::default() };
        let string_facts =
            [Fact::Same(1, 2), Fact::Same(2, 2), Fact::Differ(0, 1), Fact::Differ(2, 0), Fact::IsLiteral(0, 0)];
        for number in 0..all {
            let fact = match number < strings {
                true => string_facts[random.below(string_facts.len())].clone(),
                false => {
                    let (relation, constant) = random.pick(&[(AtLeast, 0), (AtLeast, 5), (Equal, 0), (NotEqual, 1)]);
                    Fact::Arithmetic(relation, Row::constant(7, constant))
                }
            };
            question.constraints.push(fact);
        }
        Far { question, free: (strings..all).collect() }
    }

    /// With room for so many facts of steps.
    fn with_room(random: &mut Random, room: usize) -> Far {
        let all = random.pick(&[64, 65, 66, 100, 127, 128, 128]).min(128 - room);
        let strings = random.pick(&[0, 1, 20, 50]);
        Far::new(random, strings, all)
    }

    /// Puts an arithmetic constraint at a free place, most of the time at an end of a word or the last one, and gives its number.
    fn put(&mut self, random: &mut Random, relation: Relation, row: Row) -> usize {
        let ends: Vec<usize> = self.free.iter().copied().filter(|place| ENDS.contains(place)).collect();
        let place = match random.below(10) {
            0 => random.pick(&self.free),
            1 | 2 => self.free[self.free.len() - 1],
            _ => random.pick(if ends.is_empty() { &self.free } else { &ends }),
        };
        self.free.retain(|free| *free != place);
        self.question.constraints[place] = Fact::Arithmetic(relation, row);
        place
    }

    /// Puts a constraint that is false.
    fn put_falsehood(&mut self, random: &mut Random) -> usize {
        let (relation, constant) = random.pick(&[(AtLeast, -1), (Equal, 1), (NotEqual, 0)]);
        self.put(random, relation, Row::constant(7, constant))
    }

    /// The number of the first fact of a step.
    fn next(&self) -> usize {
        self.question.constraints.len()
    }

    fn ticket(&self, steps: &[Rule]) -> Vec<u8> {
        proofs::ticket(&self.question, steps)
    }
}

/// `constant` + `coefficient` · a column: 0 is the integer, 1 to 3 are the lengths, 4 to 6 the codes.
fn row(constant: i128, column: usize, coefficient: i128) -> Row {
    Row::constant(7, constant).with(column, coefficient)
}

/// A Sum of facts as they are.
fn sum(facts: &[usize]) -> Rule {
    Rule::Sum { divisor: 1, pairs: facts.iter().map(|fact| (*fact, 1)).collect() }
}

/// One false constraint.
fn far_closing(random: &mut Random) -> Vec<u8> {
    let mut far = Far::with_room(random, 0);
    let falsehood = far.put_falsehood(random);
    far.ticket(&[Rule::AConf(falsehood)])
}

/// S-Conf on string constraints alone, up to an end of a word.
fn far_strings(random: &mut Random) -> Vec<u8> {
    let strings = random.pick(&[62, 63, 64, 65, 127, 128, 128, 128]);
    let all = random.pick(&[strings, strings, 128]);
    let mut far = Far::new(random, strings, all);
    let mut places = [random.below(strings - 1), strings - 1];
    random.shuffle(&mut places);
    far.question.constraints[places[0]] = Fact::Same(2, 1);
    far.question.constraints[places[1]] = Fact::Differ(2, 1);
    far.ticket(&[Rule::SConf])
}

/// Two constraints against each other in a Sum, at times with others that add nothing to it.
fn far_sum(random: &mut Random) -> Vec<u8> {
    let mut far = Far::with_room(random, 1);
    let mut facts = vec![far.put(random, AtLeast, row(-1, 0, 1)), far.put(random, AtLeast, row(0, 0, -1))];
    for _ in 0..random.below(5) {
        facts.push(far.put(random, AtLeast, Row::constant(7, 0)));
    }
    random.shuffle(&mut facts);
    far.ticket(&[sum(&facts), Rule::AConf(far.next())])
}

/// An Apart or a Branch whose children close by different constraints.
fn far_split(random: &mut Random) -> Vec<u8> {
    let mut far = Far::with_room(random, 2);
    if random.chance(50) {
        let falsehoods = [far.put_falsehood(random), far.put_falsehood(random)];
        return far.ticket(&[Rule::Branch(row(0, 0, 1)), Rule::AConf(falsehoods[0]), Rule::AConf(falsehoods[1])]);
    }
    let apart = far.put(random, NotEqual, row(0, 0, 1));
    let bounds = [far.put(random, AtLeast, row(0, 0, -1)), far.put(random, AtLeast, row(0, 0, 1))];
    let next = far.next();
    let close = |bound: usize| [sum(&[bound, next]), Rule::AConf(next + 1)];
    far.ticket(&[&[Rule::Apart(apart)][..], &close(bounds[0]), &close(bounds[1])].concat())
}

/// x0 is the empty string by a string constraint, and has a length by another.
fn far_literal(random: &mut Random) -> Vec<u8> {
    let (all, bounds) = (random.pick(&[65, 66, 100, 126]), 1 + random.below(3));
    let mut far = Far::new(random, all - bounds, all);
    let at = random.below(far.free[0]);
    far.question.constraints[at] = Fact::IsLiteral(0, 0);
    let bound = far.put(random, AtLeast, row(-1, 1, 1));
    let next = far.next();
    let pairs = vec![(next, -1), (bound, 1)];
    far.ticket(&[Rule::LIntro(0), Rule::Sum { divisor: 1, pairs }, Rule::AConf(next + 1)])
}

/// Card on x0 and x1 with one to three constraints that state their lengths equal; its first child closes by classes or by a false
/// constraint, its last by a bound.
fn far_card(random: &mut Random) -> Vec<u8> {
    let mut far = Far::with_room(random, 2);
    for _ in 0..1 + random.below(3) {
        let sign = random.pick(&[1, -1]);
        far.put(random, Equal, row(0, 1, sign).with(2, -sign));
    }
    let bound = far.put(random, AtLeast, row(0, 1, -1));
    let next = far.next();
    let by_classes = matches!(far.question.constraints[0], Fact::Same(..) | Fact::Differ(..) | Fact::IsLiteral(..));
    let closing = if by_classes && random.chance(50) {
        far.question.constraints[0] = Fact::Differ(1, 0);
        Rule::SConf
    } else {
        Rule::AConf(far.put_falsehood(random))
    };
    far.ticket(&[Rule::Card(vec![0, 1]), closing, sum(&[bound, next]), Rule::AConf(next + 1)])
}

/// x0 and x1 are the same by Card, as there is one character alone, and a class that it makes closes: by S-Conf, or by a bound and what S-Prop,
/// L-Intro or C-Collapse says of x1.
fn joined_by_card(random: &mut Random) -> Vec<u8> {
    let all = random.pick(&[8, 20, 64, 66, 125]);
    let mut far = Far::new(random, 3, all);
    far.question.n = 1;
    far.question.constraints[random.below(3)] = Fact::IsLiteral(0, 0);
    let sign = random.pick(&[1, -1]);
    far.put(random, Equal, row(0, 1, sign).with(2, -sign));
    let card = Rule::Card(vec![0, 1]);
    let (rule, bound) = match random.below(4) {
        0 => {
            far.question.constraints[random.below(3)] = Fact::Differ(1, 0);
            return far.ticket(&[card, Rule::SConf]);
        }
        1 => (Rule::SProp { function: 1, x: 1, y: 0 }, row(-1, 5, 1).with(4, -1)),
        2 => (Rule::LIntro(1), row(-1, 2, 1)),
        _ => (Rule::CCollapse(1), row(0, 5, 1)),
    };
    let (bound, next) = (far.put(random, AtLeast, bound), far.next());
    let pairs = vec![(next + 1, -1), (bound, 1)];
    far.ticket(&[card, rule, Rule::Sum { divisor: 1, pairs }, Rule::AConf(next + 2)])
}

/// Card's first child asks for classes and closes without them; in the last one its ≈ fact must not count any more.
fn classes_set_back(random: &mut Random) -> Vec<u8> {
    let all = random.pick(&[12, 64, 66, 125]);
    let mut far = Far::new(random, 4, all);
    far.question.constraints[random.below(2)] = Fact::Same(1, 2);
    far.question.constraints[2 + random.below(2)] = Fact::Differ(2, 1);
    far.put(random, Equal, row(0, 1, 1).with(2, -1));
    let falsehood = far.put_falsehood(random);
    let asked = Rule::SProp { function: random.below(2), x: 0, y: 1 };
    far.ticket(&[Rule::Card(vec![0, 1]), asked, Rule::AConf(falsehood), Rule::SConf])
}

/// A Branch's first child asks for classes with more facts than the second one has when Card adds an ≈ fact there, which must count.
fn classes_brought_up(random: &mut Random) -> Vec<u8> {
    let all = random.pick(&[12, 64, 66, 122]);
    let mut far = Far::new(random, 3, all);
    far.question.n = 1;
    far.question.constraints[0] = Fact::IsLiteral(0, 0);
    far.question.constraints[1 + random.below(2)] = Fact::Differ(1, 0);
    let bound = far.put(random, AtLeast, row(-1, 0, -1));
    far.put(random, Equal, row(0, 1, -1).with(2, 1));
    let next = far.next();
    let first = [Rule::LIntro(0), Rule::CCollapse(0), Rule::LIntro(0), sum(&[bound, next]), Rule::AConf(next + 4)];
    let second = [Rule::Card(vec![0, 1]), Rule::SConf];
    far.ticket(&[&[Rule::Branch(row(0, 0, 1))][..], &first, &second].concat())
}

/// A derivation that closes every branch, and an end that is missing, cut or at fault, or has something before or behind it.
fn spoilt_end(random: &mut Random) -> Vec<u8> {
    let mut bytes = proofs::grow(random);
    let end = bytes.len() - writer::end().len();
    match random.below(6) {
        0 => bytes.truncate(end + random.below(6)),
        1 => bytes.extend(vec![0; random.pick(&[1, 6])]),
        2 => {
            let step = writer::step(&Rule::AConf(0), 0);
            bytes.splice(end..end, step);
        }
        3 => bytes.extend(writer::end()),
        _ => {
            let length = random.pick(&[1, 2, 4, 6]);
            bytes[end] = length;
            bytes.extend(vec![0; usize::from(length)]);
        }
    }
    bytes
}
