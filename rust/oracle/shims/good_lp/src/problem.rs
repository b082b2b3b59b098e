//! A problem as mip_flow.rs puts it together, and the solution that it reads.
use crate::control;
use crate::{Constraint, Expression, Record, Variable, VariableDefinition};

#[derive(Debug, Default)]
pub struct ProblemVariables {
    definitions: Vec<VariableDefinition>,
}

impl ProblemVariables {
    pub fn add(&mut self, definition: VariableDefinition) -> Variable {
        self.definitions.push(definition);
        Variable(self.definitions.len() - 1)
    }

    #[must_use]
    pub fn minimise(self, objective: Expression) -> UnsolvedProblem {
        UnsolvedProblem { definitions: self.definitions, objective }
    }
}

#[derive(Debug)]
pub struct UnsolvedProblem {
    definitions: Vec<VariableDefinition>,
    objective: Expression,
}

impl UnsolvedProblem {
    pub fn using<M>(self, solver: impl FnOnce(UnsolvedProblem) -> M) -> M {
        solver(self)
    }
}

#[must_use]
pub fn microlp(problem: UnsolvedProblem) -> Problem {
    Problem {
        definitions: problem.definitions,
        objective: problem.objective,
        constraints: Vec::new(),
    }
}

#[derive(Debug)]
pub struct Problem {
    pub(crate) definitions: Vec<VariableDefinition>,
    pub(crate) objective: Expression,
    pub(crate) constraints: Vec<Constraint>,
}

#[derive(Debug, Clone, Copy, PartialEq, Eq)]
pub enum SolutionStatus {
    Optimal,
}

#[derive(Debug, Clone, Copy, PartialEq, Eq)]
pub enum ResolutionError {
    Infeasible,
    Other,
}

pub trait SolverModel: Sized {
    type Solution;
    type Error;
    #[must_use]
    fn with(self, constraint: Constraint) -> Self;
    fn solve(self) -> Result<Self::Solution, Self::Error>;
}

pub trait WithTimeLimit {
    #[must_use]
    fn with_time_limit(self, seconds: f64) -> Self;
}

pub trait Solution {
    fn status(&self) -> SolutionStatus;
    fn value(&self, variable: Variable) -> f64;
}

/// The values of the edges. mip_flow.rs never reads those of its switches.
#[derive(Debug)]
pub struct Values(Vec<i32>);

impl Solution for Values {
    fn status(&self) -> SolutionStatus {
        SolutionStatus::Optimal
    }

    fn value(&self, variable: Variable) -> f64 {
        f64::from(self.0[variable.0])
    }
}

/// Time stands still here: no limit is ever reached.
impl WithTimeLimit for Problem {
    fn with_time_limit(self, _seconds: f64) -> Self {
        self
    }
}

impl SolverModel for Problem {
    type Solution = Values;
    type Error = ResolutionError;

    fn with(mut self, constraint: Constraint) -> Self {
        self.constraints.push(constraint);
        self
    }

    fn solve(self) -> Result<Values, ResolutionError> {
        control::answer(Record::recover(&self)).map(Values)
    }
}
