//! Schedule states through the private, cached path of the original.
use super::{AssignmentScheduleState, AssignmentSolver};
use crate::prelude::*;
use crate::{Assignment, Plan, Problem, Schedule, Scheduling};

/// A schedule state in plain data; blocks are pairs of nodes, sorted.
#[derive(Debug, Clone, PartialEq, Eq)]
pub struct State {
    pub schedule: Vec<Option<usize>>,
    pub lists: Vec<Vec<usize>>,
    pub covered: Vec<u32>,
    pub blocked: Vec<(usize, usize)>,
}

impl From<&AssignmentScheduleState> for State {
    fn from(state: &AssignmentScheduleState) -> Self {
        let mut blocked = state.blocked_edges.iter().copied().collect::<Vec<_>>();
        blocked.sort_unstable();
        Self {
            schedule: state.slots_of_choices.clone(),
            lists: state.scheduled_choices_by_slot.clone(),
            covered: state.covered_choosers_by_slot.clone(),
            blocked,
        }
    }
}

/// A schedule state as the original keeps it.
pub struct Carried(pub(super) AssignmentScheduleState);

impl Carried {
    pub fn state(&self) -> State {
        State::from(&self.0)
    }
}

/// The original solver, which carries its state from schedule to schedule.
pub struct Solver<'a>(pub(super) AssignmentSolver<'a>);

impl Problem {
    pub fn solver(&self) -> Solver<'_> {
        Solver(AssignmentSolver::new(&self.prepared, &self.options))
    }
}

impl Solver<'_> {
    /// `prepare_schedule_state`: the first call builds, a later one updates.
    pub fn prepare(&mut self, schedule: &Schedule) -> State {
        let scheduling = self.scheduling(schedule);
        State::from(&self.0.prepare_schedule_state(&scheduling))
    }

    /// `build_schedule_state_from_scratch`.
    pub fn build(&self, scheduling: &Scheduling) -> Carried {
        Carried(self.0.build_schedule_state_from_scratch(scheduling))
    }

    /// `update_schedule_state`.
    pub fn update(&self, previous: &Carried, scheduling: &Scheduling) -> Carried {
        Carried(self.0.update_schedule_state(&previous.0, scheduling))
    }

    /// Puts the slot lists of the carried state into another order.
    pub fn reorder(&mut self, lists: Vec<Vec<usize>>) {
        let carried = self.0.cached_schedule_state.as_mut();
        carried.expect("a schedule has been prepared").scheduled_choices_by_slot = lists;
    }

    /// The schedule as the original keeps it.
    pub fn scheduling(&self, schedule: &Schedule) -> Scheduling {
        Scheduling::with_data(&self.0.problem.input_data, schedule.to_vec())
    }

    /// The state that the last call left.
    pub(super) fn carried(&self) -> AssignmentScheduleState {
        let carried = self.0.cached_schedule_state.clone();
        carried.expect("a schedule has been prepared")
    }

    pub(super) fn rows(&self, plan: &Assignment) -> Plan {
        let input_data = &self.0.problem.input_data;
        let row = |chooser| {
            let seat = |slot| plan.choice_of(chooser, slot);
            (0..input_data.slots.len()).map(seat).collect()
        };
        (0..input_data.choosers.len()).map(row).collect()
    }
}
