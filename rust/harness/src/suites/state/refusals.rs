//! Build, update and slot_list on damaged input: the number that the second
//! reading gives, zeros beside it, and no byte changed. After each refused call
//! the chain of schedules goes on from the old state.
use super::DAYS;
use super::scene::Scene;
use super::walk::Walk;
use crate::answers;
use crate::bridge;
use crate::damage::{self, Damage, Input};
use crate::day::{random_day, random_size};
use crate::day_file;
use crate::features::Features;
use crate::random::Random;
use crate::reading::Asked;
use crate::run::{Outcome, Run};
use crate::schedule::{Schedule, changed_schedule, random_schedule};
use crate::suites::refused::{self, Numbers, damaged};

/// The most steps of a chain.
const STEPS: usize = 3;
/// Damaged inputs at each step.
const TRIES: usize = 5;

/// The numbers by which each call refuses. Its done calls are looked for too.
pub const NUMBERS: [Numbers; 3] = [
    ("build", &[0, 1, 2, 3, 4, 7, 8, 9, 10, 11]),
    ("update", &[0, 1, 2, 3, 4, 7, 8, 9, 10, 11, 12]),
    ("slot_list", &[0, 1, 2, 3, 4, 7, 8, 9, 10, 11, 12]),
];

pub fn run(run: &mut Run) {
    refused::each_day(run, DAYS, &damage::of_states(), &NUMBERS, one_day);
}

fn one_day(random: &mut Random, damages: &[&Damage], features: &mut Features) -> Outcome {
    let size = random_size(random);
    let day = random_day(random, size);
    let problem = bridge::problem(&day);
    let mut solver = problem.solver();
    let mut walk = Walk::new(random, &day);
    let first = random_schedule(random, &day);
    walk.build(random, &first, &solver.prepare(&first[..day.choices]))?;
    for _ in 0..random.within(1, STEPS) {
        let schedule = changed_schedule(random, &day, &walk.schedule);
        let rust = solver.prepare(&schedule[..day.choices]);
        let done = answers::state(&day, &rust);
        for _ in 0..TRIES {
            let sound = input(random, &walk, &schedule);
            let input = damaged(random, damages, features, sound);
            Scene { features, walk: &mut walk, input, done }.calls(random)?;
        }
        walk.update(random, &schedule, &rust)?;
    }
    Ok(())
}

/// Sound input: the state that the walk stands at, and the next schedule.
pub fn input(random: &mut Random, walk: &Walk, schedule: &Schedule) -> Input {
    let slots = walk.day.slots;
    Input {
        asked: (slots > 0).then(|| Asked::Slot(random.below(slots))).into_iter().collect(),
        schedule: schedule.clone(),
        state: walk.plain_state(),
        trail: day_file::if_noted(|| walk.trail.clone()),
        ..Input::bare(walk.day.clone())
    }
}
