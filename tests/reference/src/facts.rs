//! Facts and the rows of arithmetic facts.

/// "Coefficients, constants and multipliers lie within ±1,000,000,000, ends included."
pub fn within_limit(number: i128) -> bool {
    (-1_000_000_000..=1_000_000_000).contains(&number)
}

/// "relation (0 is ≥ 0, 1 is = 0, 2 is ≠ 0)"
#[derive(Clone, Copy, Debug, PartialEq, Eq, PartialOrd, Ord)]
pub enum Relation {
    AtLeast,
    Equal,
    NotEqual,
}

/// A linear form: a constant and one coefficient for each column.
#[derive(Clone, Debug, PartialEq)]
pub struct Row {
    pub constant: i128,
    pub coefficients: Vec<i128>,
}

/// "Relation 0 is variable a ≈ variable b, 1 is a ≉ b, 2 is variable a ≈ literal b", or an arithmetic fact.
#[derive(Clone, Debug, PartialEq)]
pub enum Fact {
    Same(usize, usize),
    Differ(usize, usize),
    IsLiteral(usize, usize),
    Arithmetic(Relation, Row),
}

impl Relation {
    /// "0 is ≥ 0, 1 is = 0, 2 is ≠ 0": whether it holds of a value.
    pub fn holds(self, value: i128) -> bool {
        match self {
            Relation::AtLeast => value >= 0,
            Relation::Equal => value == 0,
            Relation::NotEqual => value != 0,
        }
    }
}

impl Row {
    /// A constant "without coefficients".
    pub fn constant(columns: usize, constant: i128) -> Row {
        Row { constant, coefficients: vec![0; columns] }
    }

    /// The row with `coefficient` added in `column`.
    pub fn with(mut self, column: usize, coefficient: i128) -> Row {
        self.coefficients[column] += coefficient;
        self
    }

    /// The row plus `multiplier` times another one, as in Sum.
    pub fn plus(&self, multiplier: i128, other: &Row) -> Row {
        let pairs = self.coefficients.iter().zip(&other.coefficients);
        Row {
            constant: self.constant + multiplier * other.constant,
            coefficients: pairs.map(|(mine, theirs)| mine + multiplier * theirs).collect(),
        }
    }

    /// The row of −e.
    pub fn negative(&self) -> Row {
        Row::constant(self.coefficients.len(), 0).plus(-1, self)
    }

    /// The row with `number` added to its constant, as in e−1.
    pub fn raised(mut self, number: i128) -> Row {
        self.constant += number;
        self
    }

    /// "an arithmetic fact without coefficients"
    pub fn is_constant(&self) -> bool {
        self.coefficients.iter().all(|coefficient| *coefficient == 0)
    }

    /// The form's value with a value "in every column".
    pub fn value(&self, values: &[i128]) -> i128 {
        let products = self.coefficients.iter().zip(values).map(|(coefficient, value)| coefficient * value);
        self.constant + products.sum::<i128>()
    }

    /// Whether no number of the row "passes the limit".
    pub fn within_limit(&self) -> bool {
        within_limit(self.constant) && self.coefficients.iter().all(|coefficient| within_limit(*coefficient))
    }
}

impl Fact {
    /// Whether no number of the fact "passes the limit"; string facts have none.
    pub fn within_limit(&self) -> bool {
        match self {
            Fact::Arithmetic(_, row) => row.within_limit(),
            _ => true,
        }
    }
}
