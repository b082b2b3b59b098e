//! The most asks of a search are not too many: for each count of levels from the
//! start to the last some path makes as many.
use super::walk::Walk;
use crate::bridge;
use crate::day::{CHOICES, Day, LEVELS, MOST_PREFERENCE, SLOTS};
use crate::random::Random;
use crate::run::{Outcome, Run, same};
use crate::schedule::Schedule;
use crate::search::Memory;
use oracle::Told;

pub fn run(run: &mut Run) {
    let all = (0..LEVELS as u32).collect::<Vec<_>>();
    for count in 0..=LEVELS {
        run.case_of_day(|random| longest(random, &day_of(&all[..count], 0), count));
        if let Some(&bound) = all.get(LEVELS - count) {
            run.case_of_day(|random| longest(random, &day_of(&all, bound), count));
        }
    }
}

/// A seat in each slot, and one choice.
fn day_of(levels: &[u32], bound: u32) -> Day {
    let mut day = Day::bare(1, 1, SLOTS);
    (day.max_preference, day.levels, day.bound) = (MOST_PREFERENCE, levels.to_vec(), bound);
    day.fill_tables();
    day
}

/// Infeasible leaves the upper part, which is never the smaller one.
fn longest(random: &mut Random, day: &Day, count: usize) -> Outcome {
    let problem = bridge::problem(day);
    let mut walk = Walk::new(day, &problem, Memory::NONE);
    let schedule = Schedule::from([None; CHOICES]);
    let script = [Told::Infeasible; LEVELS];
    let asks = walk.search(random, &schedule, &script)?.asks.len();
    let mut digits = 0;
    while count >> digits > 0 {
        digits += 1;
    }
    let trace = || format!("the longest search of {day:?}");
    same(asks, digits, trace)?;
    same(walk.most_asks as usize, digits, trace)
}
