//! Targeted cases: mistakes that are easily made with these rules, and corners that
//! random days seldom meet. Each is recorded.
mod limits;
mod models;
mod refusals;
mod rosters;
mod searches;
mod states;
mod verdicts;

use crate::constraint::{Constraint, kind, target};
use crate::day::Day;
use crate::run::Run;

pub fn run(run: &mut Run) {
    states::run(run);
    models::run(run);
    rosters::run(run);
    searches::run(run);
    verdicts::run(run);
    limits::run(run);
    refusals::run(run);
}

/// A day of this size on which everybody may have everything.
fn plain_day(choosers: usize, choices: usize, slots: usize) -> Day {
    Day { is_plain: true, ..Day::bare(choosers, choices, slots) }
}

/// An assignment constraint.
fn tie(kind: u32, left: u32, target: u32) -> Constraint {
    let is_of_choosers = kind == kind::CHOOSERS_HAVE_SAME_CHOICES;
    let target_case = if is_of_choosers { target::CHOOSER } else { target::CHOICE };
    Constraint { kind, left, target_case, target, ..Constraint::default() }
}
