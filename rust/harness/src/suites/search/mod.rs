//! Scripted searches of the Rust's own `solve_until` beside the port's: every
//! path over few levels, and random ones over as many as there may be.
mod bound;
pub mod paths;
pub mod refusals;
pub mod walk;

use crate::bridge;
use crate::constraint::kind;
use crate::day::{Day, LEVELS, MOST_PREFERENCE, Size, random_day};
use crate::features::Features;
use crate::random::Random;
use crate::run::{Days, Outcome, Run};
use crate::schedule::{Schedule, changed_schedule, random_schedule};
use crate::search::{Memory, random_memory, remembers};
use oracle::Told;
use walk::Walk;

const DAYS: Days = Days { usual: 20_000, for_features: 2_000 };

/// The most searches on a random day.
const SEARCHES: usize = 5;

/// More asks than a search makes.
const SCRIPT: usize = 10;

pub fn run(run: &mut Run) {
    run.fixed(paths::run);
    run.fixed(bound::run);
    random_days(run);
}

pub fn random_days(run: &mut Run) {
    let mut features = Features::default();
    run.each_day(DAYS, &mut features, one_day);
}

fn one_day(random: &mut Random, features: &mut Features) -> Outcome {
    let mut day = random_searched_day(random);
    let first = random_schedule(random, &day);
    let schedules = [changed_schedule(random, &day, &first), first];
    for schedule in &schedules {
        put_edges(random, &mut day, schedule);
    }
    let problem = bridge::problem(&day);
    // The Rust has no such memory: it must not answer.
    let mut cached = random_memory(random, &day, &schedules[0]);
    cached.there &= cached.greedy != day.greedy;
    let mut walk = Walk::new(&day, &problem, cached);
    for _ in 0..random.within(1, SEARCHES) {
        let schedule = &schedules[random.below(schedules.len())];
        let script = random_script(random, &day, schedule);
        let before = walk.cached;
        walk.search(random, schedule, &script)?;
        look(features, &day, &walk, &script);
        look_at_memory(features, &day, &walk, &before);
    }
    Ok(())
}

/// A day with any levels. Scripts do not ask for constraints, and no edge may be
/// blocked, since what is told with Feasible must be decoded.
fn random_searched_day(random: &mut Random) -> Day {
    let size = match random.below(100) {
        0..70 => Size::Small,
        70..98 => Size::Middle,
        _ => Size::Full,
    };
    let mut day = random_day(random, size);
    let blocks = [kind::CHOOSER_IS_IN_CHOICE, kind::CHOOSER_IS_NOT_IN_CHOICE];
    day.assignment.retain(|constraint| !blocks.contains(&constraint.kind));
    if random.chance(50) {
        day.max_preference = MOST_PREFERENCE;
        let rate = random.pick(&[0, 2, 10, 50, 100]);
        day.levels = (0..LEVELS as u32).filter(|_| random.chance(rate)).collect();
        day.exponent = 3.0;
        day.fill_tables();
    }
    let level = random.pick_some(&day.levels).unwrap_or(0);
    let around = random.pick(&[level, level + 1, level.saturating_sub(1)]);
    let any = random.below(LEVELS + 2) as u32;
    day.bound = random.pick(&[0, 0, around, around, any, u32::MAX]);
    day
}

/// Preferences of any height, but for each chooser and slot of the schedule one
/// of 0: there is an edge at every limit.
fn put_edges(random: &mut Random, day: &mut Day, schedule: &Schedule) {
    let range = day.max_preference as usize + 1;
    for preference in &mut day.preferences {
        if *preference > 0 && random.chance(50) {
            *preference = random.below(range) as u32;
        }
    }
    for chooser in 0..day.choosers {
        for slot in 0..day.slots {
            let listed = |choice: &usize| schedule[*choice] == Some(slot);
            let listed = (0..day.choices).filter(listed).collect::<Vec<_>>();
            if let Some(choice) = random.pick_some(&listed) {
                day.preferences[chooser * day.choices + choice] = 0;
            }
        }
    }
}

/// Answers of one sort mostly, or of all. Where some slot has no choice nothing
/// is feasible.
fn random_script(random: &mut Random, day: &Day, schedule: &Schedule) -> Vec<Told> {
    let has_choice = |slot| schedule[..day.choices].contains(&Some(slot));
    let can_be = day.choosers == 0 || (0..day.slots).all(has_choice);
    let rates = random.pick(&[[45, 90], [90, 98], [10, 95], [30, 40], [100, 100], [0, 0]]);
    let entry = |_| match random.below(100) {
        rate if can_be && rate < rates[0] => Told::Feasible,
        rate if rate < rates[1] => Told::Infeasible,
        _ => Told::Late,
    };
    (0..SCRIPT).map(entry).collect()
}

fn look(features: &mut Features, day: &Day, walk: &Walk, script: &[Told]) {
    let (search, asks) = (&walk.port, walk.port.asks as usize);
    let has_range = !search.greedy && asks > 0;
    let last = day.levels.len().saturating_sub(1);
    features.look("no levels", !search.greedy && day.levels.is_empty());
    features.look("greedy without levels", search.greedy && day.levels.is_empty());
    features.look("256 levels", has_range && day.levels.len() == LEVELS);
    features.look("nine asks", asks == 9);
    features.look("as many asks as there may be", asks > 1 && asks == walk.most_asks as usize);
    features.look("fewer asks than there may be", has_range && asks < walk.most_asks as usize);
    features.look("a start in between", has_range && (1..last).contains(&search.start));
    features.look("a start at the last", has_range && last > 1 && search.start == last);
    features.look("a bound above all", day.levels.last().is_some_and(|&level| level < day.bound));
    features.look("low past the last", has_range && search.low > last);
    features.look("found at the start", has_range && search.found && search.low <= search.high);
    features.look("found above the start", has_range && search.found && search.low > search.high);
    features.look("found, not optimal", search.found && !search.optimal);
    features.look("seats for all", search.found && day.choosers * day.slots == 512);
    features.look("no seats", search.found && day.choosers * day.slots == 0);
    for told in [Told::Feasible, Told::Infeasible, Told::Late] {
        let is_told = search.greedy && asks == 1 && script[0] == told;
        features.look(format!("greedy told {told:?}"), is_told);
    }
}

/// What the search met in the memory, and what it left there.
fn look_at_memory(features: &mut Features, day: &Day, walk: &Walk, before: &Memory) {
    let search = &walk.port;
    let is_met = remembers(day, before, search.schedule);
    let is_other = before.there && before.greedy != day.greedy;
    let is_elsewhere = before.there && !is_other && !is_met;
    let is_new = search.found && search.optimal && !is_met;
    features.look("answered from memory", is_met && day.choosers * day.slots > 0);
    features.look("answered from memory, greedy", is_met && day.greedy);
    features.look("the other greedy setting stays", is_other && !is_new);
    features.look("the other greedy setting goes", is_other && is_new);
    features.look("another schedule stays", is_elsewhere && !is_new);
    features.look("another schedule goes", is_elsewhere && is_new);
    features.look("a first memory", !before.there && is_new);
    features.look("no memory still", !before.there && !is_new);
}
