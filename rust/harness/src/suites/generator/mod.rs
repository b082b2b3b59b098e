//! Exercises the random days and the originals on them: states carried through
//! chains of schedules, models, plans, scores and searches. Over a run each
//! feature that the days and answers should have must have been seen.
mod days;
mod models;
mod plans;
mod searches;
mod states;

use crate::bridge;
use crate::day::{Day, Size, random_day, random_size};
use crate::features::Features;
use crate::random::Random;
use crate::run::{Days, Outcome, Run};
use crate::schedule::Schedule;
pub use models::look as look_at_model;
use oracle::{Problem, Solver};

const DAYS: Days = Days { usual: 5_000, for_features: 5_000 };

/// A day with the schedule that the originals were led to.
struct Scene<'a> {
    size: Size,
    day: &'a Day,
    problem: &'a Problem,
    schedule: Schedule,
    solver: Solver<'a>,
}

impl Scene<'_> {
    /// The schedule's entries for the day's choices.
    fn slots(&self) -> &[Option<usize>] {
        &self.schedule[..self.day.choices]
    }
}

pub fn run(run: &mut Run) {
    let mut features = Features::default();
    run.each_day(DAYS, &mut features, one_day);
}

fn one_day(random: &mut Random, features: &mut Features) -> Outcome {
    let size = random_size(random);
    let day = random_day(random, size);
    days::look(features, &day);
    let problem = bridge::problem(&day);
    let mut scene = states::walk_chain(random, features, size, &day, &problem)?;
    models::try_limits(random, features, &mut scene)?;
    plans::try_plans(random, features, &mut scene)?;
    searches::try_searches(random, features, &mut scene)
}
