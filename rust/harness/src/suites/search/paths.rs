//! Every path of a search over few levels: each count of them, each start and
//! each pattern of answers.
use super::walk::Walk;
use crate::bridge;
use crate::day::{CHOICES, Day};
use crate::random::Random;
use crate::run::{Outcome, Run};
use crate::schedule::Schedule;
use crate::search::{Memory, scripts};
use oracle::Told;

/// The most levels of which all paths are walked.
const MOST: usize = 12;

/// The distance between two levels: a bound can be below, at and above each.
const STEP: u32 = 3;

pub fn run(run: &mut Run) {
    for count in 0..=MOST {
        let above_all = STEP * (count as u32 + 1);
        for bound in (0..=above_all).chain([u32::MAX]) {
            for greedy in [false, true] {
                let day = Day { bound, greedy, ..day_of(count) };
                for script in scripts(&day) {
                    run.case_of_day(|random| one_path(random, &day, &script));
                }
            }
        }
    }
}

/// One seat, and choices whose preferences descend through the levels, so that
/// the first edge at each level is of another choice. Two more choices that
/// everybody prefers stand at the end.
pub fn day_of(count: usize) -> Day {
    let levels = (0..count as u32).map(|place| STEP * place + 2).collect::<Vec<_>>();
    let mut day = Day::bare(1, count + 2, 1);
    day.max_preference = STEP * (count as u32 + 1);
    day.preferences = levels.iter().rev().copied().chain([0, 0]).collect();
    day.levels = levels;
    day.fill_tables();
    day
}

/// The search without a memory and again; then with a memory of another
/// schedule, and the search of that schedule again.
pub fn one_path(random: &mut Random, day: &Day, script: &[Told]) -> Outcome {
    let problem = bridge::problem(day);
    let all = schedule(day.choices);
    let none = Memory::NONE;
    let mut walk = Walk::new(day, &problem, none);
    walk.search(random, &all, script)?;
    walk.search(random, &all, script)?;
    let (other, feasible) = (schedule(day.choices - 1), [Told::Feasible; MOST]);
    let mut walk = Walk::new(day, &problem, none);
    walk.search(random, &other, &feasible)?;
    walk.search(random, &all, script)?;
    walk.search(random, &other, &feasible)?;
    Ok(())
}

/// The first choices in the one slot.
fn schedule(choices: usize) -> Schedule {
    (0..CHOICES).map(|choice| (choice < choices).then_some(0)).collect()
}
