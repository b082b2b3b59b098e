//! Build, update and slot_list beside the Rust: a fresh build, a chain of
//! updates through the Rust's cached path, and a build over what the chain left.
pub mod refusals;
pub mod scene;
pub mod walk;

use crate::bridge;
use crate::day::{CHOICES, Day, random_day, random_size};
use crate::features::Features;
use crate::lists::lengths;
use crate::random::Random;
use crate::run::{Days, Outcome, Run};
use crate::schedule::{CHAIN, random_chain, random_schedule};
use crate::state::LISTS;
use oracle::State;
use walk::Walk;

const DAYS: Days = Days { usual: 20_000, for_features: 10_000 };

pub fn run(run: &mut Run) {
    let mut features = Features::default();
    run.each_day(DAYS, &mut features, one_day);
}

fn one_day(random: &mut Random, features: &mut Features) -> Outcome {
    let size = random_size(random);
    let day = random_day(random, size);
    let problem = bridge::problem(&day);
    let mut solver = problem.solver();
    let mut walk = Walk::new(random, &day);
    let first = random_schedule(random, &day);
    let mut rust = solver.prepare(&first[..day.choices]);
    walk.build(random, &first, &rust)?;
    walk.ask(random, &rust)?;
    look_at_build(features, &day, &walk, &rust);
    let chain = random_chain(random, &day);
    for schedule in &chain {
        let next = solver.prepare(&schedule[..day.choices]);
        walk.update(random, schedule, &next)?;
        walk.ask(random, &next)?;
        look_at_update(features, &rust, &next);
        rust = next;
    }
    features.look("a whole chain", chain.len() == CHAIN);
    let last = &chain[chain.len() - 1];
    let fresh = problem.solver().prepare(&last[..day.choices]);
    features.look("a carried order of its own", fresh.lists != rust.lists);
    walk.build(random, last, &fresh)?;
    walk.ask(random, &fresh)
}

fn look_at_build(features: &mut Features, day: &Day, walk: &Walk, rust: &State) {
    let is_blocked = day.slots == 0 && walk.state.blocks.contains(&1);
    features.look("a buffer of the named length", walk.bytes.len() == LISTS);
    features.look("a longer buffer", walk.bytes.len() > LISTS);
    features.look("no slots", day.slots == 0);
    features.look("no choices", day.choices == 0);
    features.look("a block on a day without slots", is_blocked);
    features.look("a covered count above 255", rust.covered.iter().any(|&covered| covered > 255));
    features.look("a slot with all 32 choices", lengths(&rust.schedule).contains(&CHOICES));
}

fn look_at_update(features: &mut Features, old: &State, new: &State) {
    let moves = old.schedule.iter().zip(&new.schedule).filter(|(from, to)| from != to);
    let (moved, choices) = (moves.count(), new.schedule.len());
    let left = |slot: usize, choice: usize| new.schedule[choice] != Some(slot);
    // The place in its old list of a choice that leaves it.
    let mut places = old.lists.iter().enumerate().flat_map(|(slot, list)| {
        let leaving = move |(_, choice): &(usize, &usize)| left(slot, **choice);
        list.iter().enumerate().filter(leaving).map(|(place, _)| (place, list.len()))
    });
    features.look("an update that moves nothing", choices > 0 && moved == 0);
    features.look("an update that moves one", choices > 1 && moved == 1);
    features.look("an update that moves all", choices > 4 && moved == choices);
    features.look("a last entry removed", places.clone().any(|(place, used)| place + 1 == used));
    features.look("another entry removed", places.any(|(place, used)| place + 1 < used));
    features.look("other blocks", old.blocked != new.blocked);
    features.look("the same blocks", !new.blocked.is_empty() && old.blocked == new.blocked);
}
