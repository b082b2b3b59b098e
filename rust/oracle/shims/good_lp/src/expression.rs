//! Variables, linear expressions and equations.
use std::ops::{Add, Mul, Sub};

#[derive(Debug, Clone, Copy, PartialEq, Eq)]
pub struct Variable(pub(crate) usize);

#[derive(Debug, Clone)]
pub struct VariableDefinition {
    pub(crate) integer: bool,
    pub(crate) min: f64,
    pub(crate) max: f64,
    pub(crate) name: String,
}

#[must_use]
pub fn variable() -> VariableDefinition {
    VariableDefinition {
        integer: false,
        min: f64::NEG_INFINITY,
        max: f64::INFINITY,
        name: String::new(),
    }
}

impl VariableDefinition {
    #[must_use]
    pub fn integer(self) -> Self {
        Self { integer: true, ..self }
    }

    #[must_use]
    pub fn binary(self) -> Self {
        self.integer().min(0.0).max(1.0)
    }

    #[must_use]
    pub fn min(self, min: f64) -> Self {
        Self { min, ..self }
    }

    #[must_use]
    pub fn max(self, max: f64) -> Self {
        Self { max, ..self }
    }

    #[must_use]
    pub fn name(self, name: impl Into<String>) -> Self {
        Self { name: name.into(), ..self }
    }
}

/// How an expression was written. This tells an edge set to 0 from the balance
/// of a node with one edge.
#[derive(Debug, Clone, Copy, PartialEq, Eq)]
pub enum Origin {
    Constant,
    Variable,
    VariableDifference,
    Sum,
    SumDifference,
}

#[derive(Debug, Clone)]
pub struct Expression {
    pub(crate) terms: Vec<(usize, f64)>,
    constant: f64,
    origin: Origin,
}

impl From<f64> for Expression {
    fn from(constant: f64) -> Self {
        Self { terms: Vec::new(), constant, origin: Origin::Constant }
    }
}

impl From<i32> for Expression {
    fn from(constant: i32) -> Self {
        Self::from(f64::from(constant))
    }
}

impl From<Variable> for Expression {
    fn from(variable: Variable) -> Self {
        Self { terms: vec![(variable.0, 1.0)], constant: 0.0, origin: Origin::Variable }
    }
}

impl Mul<Variable> for f64 {
    type Output = Expression;
    fn mul(self, variable: Variable) -> Expression {
        Expression { terms: vec![(variable.0, self)], constant: 0.0, origin: Origin::Sum }
    }
}

impl Add<Expression> for Expression {
    type Output = Expression;
    fn add(mut self, other: Expression) -> Expression {
        self.terms.extend(other.terms);
        self.constant += other.constant;
        self.origin = Origin::Sum;
        self
    }
}

impl Add<Variable> for Expression {
    type Output = Expression;
    fn add(self, variable: Variable) -> Expression {
        self + Expression::from(variable)
    }
}

impl Sub<Expression> for Expression {
    type Output = Expression;
    fn sub(mut self, other: Expression) -> Expression {
        let negated = other.terms.into_iter().map(|(variable, factor)| (variable, -factor));
        self.terms.extend(negated);
        self.constant -= other.constant;
        self.origin = Origin::SumDifference;
        self
    }
}

impl Sub<Variable> for Variable {
    type Output = Expression;
    fn sub(self, other: Variable) -> Expression {
        Expression {
            terms: vec![(self.0, 1.0), (other.0, -1.0)],
            constant: 0.0,
            origin: Origin::VariableDifference,
        }
    }
}

/// An equation: the terms with their factors sum up to `right`.
#[derive(Debug, Clone)]
pub struct Constraint {
    pub(crate) terms: Vec<(usize, f64)>,
    pub(crate) right: f64,
    pub(crate) origin: Origin,
}

pub fn eq(left: impl Into<Expression>, right: impl Into<Expression>) -> Constraint {
    let (left, right) = (left.into(), right.into());
    assert!(right.terms.is_empty(), "the right side must be a number");
    Constraint { terms: left.terms, right: right.constant - left.constant, origin: left.origin }
}
