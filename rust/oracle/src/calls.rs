//! Open doors to the functions that the originals keep to their crate.
use crate::prelude::*;
use crate::{Assignment, InputData, Plan, Problem, Schedule, Scheduling, Score, Scoring, Solution};
use core::cmp::Ordering;

fn scheduling(problem: &Problem, schedule: &Schedule) -> Scheduling {
    Scheduling::with_data(problem.input_data(), schedule.to_vec())
}

fn assignment(problem: &Problem, plan: &Plan) -> Assignment {
    Assignment::new(problem.input_data(), plan.clone())
}

/// A solution of the kind that its parts make it: Invalid, Scheduling or Complete.
fn solution(problem: &Problem, schedule: Option<&Schedule>, plan: Option<&Plan>) -> Solution {
    Solution::new(
        schedule.map(|schedule| scheduling(problem, schedule)),
        plan.map(|plan| assignment(problem, plan)),
    )
}

/// `Scheduling::is_feasible`.
pub fn schedule_is_feasible(problem: &Problem, schedule: &Schedule) -> bool {
    scheduling(problem, schedule).is_feasible(problem.input_data())
}

/// `Scoring::satisfies_constraints_scheduling`.
pub fn satisfies_scheduling(problem: &Problem, schedule: &Schedule) -> bool {
    Scoring::satisfies_constraints_scheduling(problem.input_data(), &scheduling(problem, schedule))
}

/// `Scoring::satisfies_constraints_assignment`.
pub fn satisfies_assignment(problem: &Problem, schedule: &Schedule, plan: &Plan) -> bool {
    Scoring::satisfies_constraints_assignment(
        problem.input_data(),
        &scheduling(problem, schedule),
        &assignment(problem, plan),
    )
}

/// `Scoring::is_feasible`.
pub fn plan_is_feasible(problem: &Problem, schedule: &Schedule, plan: &Plan) -> bool {
    Solved::new(problem, Some(schedule), Some(plan)).is_feasible()
}

/// `Scoring::evaluate`: major and minor.
pub fn evaluate(problem: &Problem, schedule: Option<&Schedule>, plan: Option<&Plan>) -> (f32, f32) {
    Solved::new(problem, schedule, plan).evaluate()
}

/// `Score::cmp`.
pub fn compare((major, minor): (f32, f32), right: (f32, f32)) -> Ordering {
    let right = Score { major: right.0, minor: right.1 };
    Score { major, minor }.cmp(&right)
}

/// `Score::is_finite`.
pub fn is_finite((major, minor): (f32, f32)) -> bool {
    Score { major, minor }.is_finite()
}

/// A solution as the originals keep it.
pub struct Solved<'a> {
    problem: &'a Problem,
    solution: Solution,
}

impl<'a> Solved<'a> {
    pub fn new(problem: &'a Problem, schedule: Option<&Schedule>, plan: Option<&Plan>) -> Self {
        Self { problem, solution: solution(problem, schedule, plan) }
    }

    fn schedule(&self) -> &Scheduling {
        self.solution.scheduling().expect("it has a schedule")
    }

    /// `Scheduling::is_feasible` of its schedule.
    pub fn schedule_is_feasible(&self) -> bool {
        self.schedule().is_feasible(self.problem.input_data())
    }

    /// `Scoring::satisfies_constraints_scheduling` of its schedule.
    pub fn satisfies_scheduling(&self) -> bool {
        Scoring::satisfies_constraints_scheduling(self.problem.input_data(), self.schedule())
    }

    /// `Scoring::satisfies_constraints_assignment` of its plan.
    pub fn satisfies_assignment(&self) -> bool {
        let plan = self.solution.assignment().expect("it has a plan");
        let input_data = self.problem.input_data();
        Scoring::satisfies_constraints_assignment(input_data, self.schedule(), plan)
    }

    /// `Scoring::is_feasible`.
    pub fn is_feasible(&self) -> bool {
        Scoring::is_feasible(self.problem.input_data(), &self.solution)
    }

    /// `Scoring::evaluate`: major and minor.
    pub fn evaluate(&self) -> (f32, f32) {
        let scoring = &self.problem.prepared.scoring;
        let score = scoring.evaluate(self.problem.input_data(), &self.solution);
        (score.major, score.minor)
    }
}

/// A plan as the originals keep it.
pub struct Seated<'a> {
    input_data: &'a InputData,
    assignment: Assignment,
}

impl<'a> Seated<'a> {
    pub fn new(problem: &'a Problem, plan: &Plan) -> Self {
        Self { input_data: problem.input_data(), assignment: assignment(problem, plan) }
    }

    /// `Assignment::choosers_ordered`.
    pub fn choosers_ordered(&self, choice: usize) -> Vec<usize> {
        self.assignment.choosers_ordered(self.input_data, choice)
    }

    /// `Assignment::choices_ordered`.
    pub fn choices_ordered(&self, chooser: usize) -> Vec<usize> {
        self.assignment.choices_ordered(self.input_data, chooser)
    }

    /// `Assignment::is_in_choice`.
    pub fn is_in_choice(&self, chooser: usize, choice: usize) -> bool {
        self.assignment.is_in_choice(self.input_data, chooser, choice)
    }

    /// `Assignment::choice_of`.
    pub fn choice_of(&self, chooser: usize, slot: usize) -> usize {
        self.assignment.choice_of(chooser, slot)
    }
}
