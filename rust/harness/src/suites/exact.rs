//! The exact solver, which stands in for the Rust's, beside brute force on tiny
//! models: whether there are values at all, and that those it finds are such.
use crate::bridge;
use crate::constraint::random_assignment;
use crate::day::Day;
use crate::day_file::{self, DayFile};
use crate::features::Features;
use crate::random::Random;
use crate::reading::values_number;
use crate::run::{Days, Outcome, Run, wanted};
use crate::schedule::random_schedule;
use oracle::Record;
use std::slice;

const DAYS: Days = Days { usual: 30_000, for_features: 10_000 };

/// How many there are of each on a tiny day.
const CHOOSERS: [usize; 6] = [1, 2, 3, 2, 3, 0];
const CHOICES: [usize; 6] = [1, 2, 3, 2, 3, 0];
const SLOTS: [usize; 6] = [1, 2, 1, 2, 1, 0];
/// The mins of its choices, and the most seats that one has beyond its min.
const MINS: [u32; 6] = [0, 0, 0, 1, 1, 2];
const ROOM: usize = 3;
const PREFERENCE: usize = 2;
const CONSTRAINTS: usize = 2;

pub fn run(run: &mut Run) {
    let mut features = Features::default();
    run.each_day(DAYS, &mut features, one_day);
}

/// The model of a day, and the same with ties and blocks that no day would give
/// it.
fn one_day(random: &mut Random, features: &mut Features) -> Outcome {
    let day = random_tiny_day(random);
    let schedule = random_schedule(random, &day);
    let limit = random.below(PREFERENCE + 1) as u32;
    let problem = bridge::problem(&day);
    let mut solver = problem.solver();
    solver.prepare(&schedule[..day.choices]);
    let mut model = solver.model(limit);
    let file = || DayFile::new("solve", &day).trail(slice::from_ref(&schedule)).at_limit(limit);
    day_file::note(file);
    one_model(features, &model)?;
    tie(random, day.choosers * day.slots, &mut model);
    day_file::note(|| file().comment("The model has more groups and blocked edges in the case."));
    one_model(features, &model)
}

fn random_tiny_day(random: &mut Random) -> Day {
    let choosers = random.pick(&CHOOSERS);
    let (choices, slots) = (random.pick(&CHOICES), random.pick(&SLOTS));
    let mut day = Day::bare(choosers, choices, slots);
    for choice in 0..choices {
        let min = random.pick(&MINS);
        day.mins[choice] = min;
        day.maxs[choice] = min + random.below(ROOM + 1) as u32;
    }
    day.max_preference = PREFERENCE as u32;
    day.preferences.fill_with(|| random.pick(&[0, 0, 0, 1, 2]));
    day.fill_tables();
    for _ in 0..random.below(CONSTRAINTS + 1) {
        let constraint = random_assignment(random, &day);
        day.assignment.extend(constraint);
    }
    if choices > 0 && random.chance(40) {
        let members = random.within(2, 3);
        let group = (0..members).map(|_| random.below(choices)).collect::<Vec<_>>();
        day.push_group(&group);
    }
    day
}

/// Now and then a group of any edges of choosers, or a blocked one.
fn tie(random: &mut Random, seats: usize, model: &mut Record) {
    let of_choosers = model.edges.iter().take_while(|edge| edge.from < seats).count();
    let edges = (0..of_choosers).collect::<Vec<_>>();
    for _ in 0..random.below(6) {
        let length = random.pick(&[2, 2, 2, 3, 1, 0]);
        model.groups.push((0..length).filter_map(|_| random.pick_some(&edges)).collect());
    }
    if random.chance(30) {
        model.blocked.extend(random.pick_some(&edges));
    }
}

/// What the solver says of a model, beside brute force.
fn one_model(features: &mut Features, model: &Record) -> Outcome {
    let outcome = oracle::solve(model);
    let brute = first_values(model);
    look(features, model, brute.as_deref());
    let input = || format!("{model:?}");
    match outcome {
        oracle::Outcome::Solved(values) => {
            let found = (values_number(model, &values), brute.is_some());
            wanted(found, (0, true), || format!("{values:?} of {}", input()))
        }
        // There is no excuse for giving up on a tiny model.
        other => wanted((other, brute), (oracle::Outcome::Infeasible, None), input),
    }
}

/// The first of all values within the bounds that are accepted.
fn first_values(model: &Record) -> Option<Vec<i32>> {
    let mut values = vec![0; model.edges.len()];
    while values_number(model, &values) != 0 {
        let place = (0..values.len()).find(|&place| values[place] < model.edges[place].max)?;
        values[place] += 1;
        values[..place].fill(0);
    }
    Some(values)
}

fn look(features: &mut Features, model: &Record, found: Option<&[i32]>) {
    let has_flow = model.supply.contains(&1);
    let is_used =
        |group: &Vec<usize>| found.is_some_and(|values| group.len() > 1 && values[group[0]] == 1);
    let is_passed_on = |values: &[i32]| {
        model.edges.iter().zip(values).any(|(edge, &value)| edge.max > 1 && value > 0)
    };
    features.look("feasible", has_flow && found.is_some());
    features.look("feasible without edges", model.edges.is_empty() && found.is_some());
    features.look("feasible with 1 in a group", model.groups.iter().any(is_used));
    features.look("feasible beside a blocked edge", found.is_some() && !model.blocked.is_empty());
    features.look("feasible above a min", found.is_some_and(is_passed_on));
    if found.is_some() {
        return;
    }
    let untied = Record { groups: Vec::new(), ..model.clone() };
    let unblocked = Record { blocked: Vec::new(), ..model.clone() };
    let free = Record { blocked: Vec::new(), ..untied.clone() };
    let is_found = |model: &Record| first_values(model).is_some();
    features.look("infeasible", true);
    features.look("infeasible for its groups", is_found(&untied));
    features.look("infeasible for its blocked edges", is_found(&unblocked));
    features.look("infeasible without groups and blocked edges", !is_found(&free));
}
