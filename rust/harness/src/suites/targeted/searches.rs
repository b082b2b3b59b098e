//! Searches: every path over few levels, bounds below, at and above them all, as
//! many levels as there may be, and how many asks are too many.
use super::plain_day;
use crate::bridge;
use crate::day::{Day, LEVELS, MOST_ASKS};
use crate::features::Features;
use crate::run::Run;
use crate::schedule::whole;
use crate::search::{Memory, scripts};
use crate::suites::search::paths::{day_of, one_path};
use crate::suites::search::refusals;
use crate::suites::search::walk::Walk;
use oracle::Told;

/// Of so many levels every path is walked.
const COUNTS: [usize; 4] = [0, 1, 2, 5];
/// Below all levels, at one, between two, above all, and ones that a byte or 16
/// bits would make small.
const BOUNDS: [u32; 6] = [0, 5, 6, 20, 256, u32::MAX];

pub fn run(run: &mut Run) {
    for count in COUNTS {
        // A greedy search reads no bound.
        let settings = BOUNDS.map(|bound| (bound, false)).into_iter().chain([(6, true)]);
        for (bound, greedy) in settings {
            let day = Day { bound, greedy, is_plain: true, ..day_of(count) };
            for script in scripts(&day) {
                run.case(|random| one_path(random, &day, &script));
            }
        }
    }
    many_levels(run);
    asks(run);
}

/// The longest searches over all 256 levels.
fn many_levels(run: &mut Run) {
    let levels = (0..LEVELS as u32).collect::<Vec<_>>();
    let mut day = Day { max_preference: 255, levels, ..plain_day(1, 2, 1) };
    day.fill_tables();
    for bound in [0, 1, 200, 255, 256, 257, u32::MAX] {
        let day = Day { bound, ..day.clone() };
        let problem = bridge::problem(&day);
        for told in [Told::Infeasible, Told::Feasible, Told::Late] {
            run.case(|random| {
                let mut walk = Walk::new(&day, &problem, Memory::NONE);
                walk.search(random, &whole(&[Some(0), Some(0)]), &[told; 10])?;
                Ok(())
            });
        }
    }
}

/// Searches that have counted as many asks as they may, and more.
fn asks(run: &mut Run) {
    for greedy in [false, true] {
        for asks in [1, MOST_ASKS - 1, MOST_ASKS, MOST_ASKS + 1, MOST_ASKS + 2, u32::MAX] {
            let day = Day { greedy, is_plain: true, ..day_of(3) };
            run.case(|random| {
                let mut input = refusals::input(random, &day);
                input.search.asks = asks;
                refusals::both(random, &mut Features::default(), &input)
            });
        }
    }
}
