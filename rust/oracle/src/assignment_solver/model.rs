//! The model that `solve_with_limit` makes of the carried state, and its
//! decoding of given edge values.
use super::LimitSolveResult;
use super::state::{Carried, Solver};
use crate::Plan;
use crate::stand_in::clock::{self, DEADLINE};
use good_lp::control::{self, Mode};
use good_lp::Record;

impl Solver<'_> {
    /// The model as `MipFlow::solve` states it to its solver.
    pub fn model(&mut self, limit: u32) -> Record {
        let state = self.carried();
        control::set(Mode::Keep(None));
        let result = self.0.solve_with_limit(&state, limit, None);
        assert!(matches!(result, LimitSolveResult::Infeasible));
        match control::take() {
            Mode::Keep(Some(model)) => model,
            _ => unreachable!("the model was kept"),
        }
    }

    /// `solve_with_limit` as far as it goes when no time is left for the solver:
    /// the model is put together and dropped.
    pub fn lay_out(&mut self, state: &Carried, limit: u32) {
        // Its second look at the clock is the one before the solver.
        clock::late_after(1);
        let result = self.0.solve_with_limit(&state.0, limit, Some(DEADLINE));
        assert!(matches!(result, LimitSolveResult::Incomplete));
    }

    /// The Rust's decoding of these values. It panics where some chooser has no
    /// edge with 1 in some slot.
    pub fn decode(&mut self, limit: u32, values: &[i32]) -> Plan {
        let state = self.carried();
        control::set(Mode::Given(values.to_vec()));
        match self.0.solve_with_limit(&state, limit, None) {
            LimitSolveResult::Feasible(plan) => self.rows(&plan),
            _ => unreachable!("the values were handed back"),
        }
    }
}
