//! Stands in for the part of good_lp that mip_flow.rs uses.
//!
//! It keeps the very constraints that mip_flow.rs states, recovers the flow
//! model from them ([`Record`]) and answers as it was set ([`control`]): by a
//! script, by given values, or by an exact solver.

pub mod control;
mod exact;
mod expression;
mod problem;
mod record;

pub use control::Told;
pub use exact::{Outcome, solve};
pub use expression::{Constraint, Expression, Variable, VariableDefinition, eq, variable};
pub use problem::{
    Problem, ProblemVariables, ResolutionError, Solution, SolutionStatus, SolverModel,
    WithTimeLimit, microlp,
};
pub use record::{Edge, Record};

#[macro_export]
macro_rules! variables {
    () => {
        $crate::ProblemVariables::default()
    };
}

/// `left == right`, the only form that mip_flow.rs writes.
#[macro_export]
macro_rules! constraint {
    (@left [$($left:tt)*] == $($right:tt)*) => {
        $crate::eq($($left)*, $($right)*)
    };
    (@left [$($left:tt)*] $next:tt $($rest:tt)*) => {
        $crate::constraint!(@left [$($left)* $next] $($rest)*)
    };
    ($($all:tt)*) => {
        $crate::constraint!(@left [] $($all)*)
    };
}
