//! The preference search, `solve_until`, answered by the exact solver or by a
//! script.
use super::LimitSolveResult;
use super::state::Solver;
use crate::prelude::*;
use crate::stand_in::clock::{DEADLINE, PASSED};
use crate::{Plan, Schedule, Scheduling, status};
use good_lp::Told;
use good_lp::control::{self, Mode};

/// A limit asked for, with low and high at the time; a greedy ask has no range.
#[derive(Debug, Clone, PartialEq, Eq)]
pub struct Ask {
    pub limit: u32,
    pub range: Option<(usize, usize)>,
}

#[derive(Debug, Clone, PartialEq, Eq)]
pub struct SearchRun {
    pub asks: Vec<Ask>,
    pub plan: Option<Plan>,
    /// The plan that the solver remembers afterwards, with its schedule.
    pub remembered: Option<(Vec<Option<usize>>, Plan)>,
}

impl Solver<'_> {
    /// `solve_until` with a solver that tells what the script says, one entry
    /// an ask. A script that is too short makes it panic.
    pub fn search_told(&mut self, schedule: &Schedule, script: &[Told]) -> SearchRun {
        control::set(Mode::Script(script.iter().copied().collect()));
        self.search_as_set(schedule)
    }

    /// `solve_until` with the exact solver; nothing when that gave up.
    pub fn search(&mut self, schedule: &Schedule) -> Option<SearchRun> {
        control::set(Mode::Exact);
        let run = self.search_as_set(schedule);
        (!control::take_gave_up()).then_some(run)
    }

    /// The plan that a scripted Feasible decodes to at a limit, with the state
    /// that the last call left.
    pub fn plan_told(&mut self, limit: u32) -> Plan {
        let state = self.carried();
        control::set(Mode::Script([Told::Feasible].into()));
        match self.0.solve_with_limit(&state, limit, None) {
            LimitSolveResult::Feasible(plan) => self.rows(&plan),
            _ => unreachable!("the script says so"),
        }
    }

    /// `solve_until` when its time is over: every ask is answered by Incomplete,
    /// before there is a model.
    pub fn search_late(&mut self, scheduling: &Scheduling) -> bool {
        self.0.solve_until(scheduling, Some(PASSED)).is_some()
    }

    fn search_as_set(&mut self, schedule: &Schedule) -> SearchRun {
        let scheduling = self.scheduling(schedule);
        let made_before = self.0.lp_count;
        let search = || self.0.solve_until(&scheduling, Some(DEADLINE));
        let (plan, messages) = status::keeping(search);
        let greedy_limit = self.0.problem.input_data.max_preference;
        let asks = messages
            .iter()
            .filter_map(|message| ask_in(message, greedy_limit))
            .collect::<Vec<_>>();
        // The Rust's own count: no ask went unnoticed.
        assert_eq!(asks.len(), self.0.lp_count - made_before);
        let remembered = self.0.cached_assignment.as_ref();
        SearchRun {
            asks,
            plan: plan.map(|plan| self.rows(&plan)),
            remembered: remembered
                .map(|kept| (kept.slots_of_choices.clone(), self.rows(&kept.assignment))),
        }
    }
}

/// The ask that a message of the search tells of, if it does.
fn ask_in(message: &str, greedy_limit: u32) -> Option<Ask> {
    if message.starts_with("Greedy mode enabled") {
        return Some(Ask { limit: greedy_limit, range: None });
    }
    let told = message.strip_prefix("Trying assignment solve with preference limit ")?;
    let (limit, range) = told.strip_suffix(").")?.split_once(" (range ")?;
    let (low, high) = range.split_once("..=")?;
    Some(Ask {
        limit: limit.parse().ok()?,
        range: Some((low.parse().ok()?, high.parse().ok()?)),
    })
}
