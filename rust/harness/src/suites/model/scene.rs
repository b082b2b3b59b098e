//! Days for models, led through a chain of schedules on both sides.
use super::calls::Calls;
use super::lent::random_lengths;
use crate::boundary::{lent, lent_day};
use crate::constraint::{Constraint, kind, target};
use crate::day::{CONSTRAINTS, Day, GROUPS, MEMBERS, Size, random_day, random_size};
use crate::random::Random;
use crate::reading::Layout;
use crate::run::Failure;
use crate::schedule::{Schedule, random_chain, random_schedule};
use crate::suites::state::walk::Walk;
use oracle::{Problem, Solver};

/// A random day; now and then without a preference 0, so that limit 0 is below
/// all of them, or with as many groups of edges as there can be.
pub fn random_model_day(random: &mut Random) -> Day {
    let size = random_size(random);
    let mut day = random_day(random, size);
    if random.chance(1) {
        day = tied_day(random);
    }
    if random.chance(20) && day.max_preference > 0 {
        day.preferences.iter_mut().for_each(|preference| *preference = (*preference).max(1));
    }
    day
}

/// A large day with constraints that all tie choosers, and with full groups.
fn tied_day(random: &mut Random) -> Day {
    let mut day = random_day(random, Size::Full);
    let chooser = |random: &mut Random| random.below(day.choosers) as u32;
    let tie = |_| Constraint {
        kind: kind::CHOOSERS_HAVE_SAME_CHOICES,
        left: chooser(random),
        target_case: target::CHOOSER,
        target: chooser(random),
        ..Constraint::default()
    };
    day.assignment = (0..CONSTRAINTS).map(tie).collect();
    day.group_lengths = vec![(MEMBERS / GROUPS) as u32; GROUPS];
    day.group_members = (0..MEMBERS).map(|_| random.below(day.choices) as u32).collect();
    day
}

/// A state that both sides carry, the port's compared on the way.
pub struct Scene<'a> {
    pub walk: Walk<'a>,
    pub solver: Solver<'a>,
    /// The Rust's state.
    pub rust: oracle::State,
}

impl<'a> Scene<'a> {
    /// A fresh state of some schedule.
    pub fn built(random: &mut Random, day: &'a Day, problem: &'a Problem) -> Result<Self, Failure> {
        let schedule = random_schedule(random, day);
        Self::built_for(random, day, problem, &schedule)
    }

    /// A fresh state of this schedule.
    pub fn built_for(
        random: &mut Random,
        day: &'a Day,
        problem: &'a Problem,
        schedule: &Schedule,
    ) -> Result<Self, Failure> {
        let mut walk = Walk::new(random, day);
        let mut solver = problem.solver();
        let rust = solver.prepare(&schedule[..day.choices]);
        walk.build(random, schedule, &rust)?;
        Ok(Self { walk, solver, rust })
    }

    /// The state carried on through a chain of schedules.
    pub fn carried(mut self, random: &mut Random) -> Result<Self, Failure> {
        let day = self.walk.day;
        for schedule in &random_chain(random, day) {
            self.rust = self.solver.prepare(&schedule[..day.choices]);
            self.walk.update(random, schedule, &self.rust)?;
        }
        Ok(self)
    }

    /// The calls on the state as it stands.
    pub fn calls(&self, random: &mut Random) -> Calls<'a> {
        let state = self.walk.handed_on(random);
        let day = self.walk.day;
        let lent = [lent_day(random, day), lent(random, Layout::State, &state)];
        let calls = Calls::new(day, lent, &self.walk.bytes, random_lengths(random));
        calls.after(|| self.walk.file("model"))
    }
}
