//! Edge values: those that the exact solver finds must be accepted and decoded
//! as the Rust does it; damaged and random ones get the number that the second
//! reading gives.
use super::scene::{Scene, random_model_day};
use super::trial::Trial;
use super::{DAYS, random_limit};
use crate::bridge;
use crate::damage::values::{DAMAGES, Damage};
use crate::features::Features;
use crate::random::Random;
use crate::reading::Buffer;
use crate::run::{Outcome, Run};
use crate::suites::refused::{self, Numbers};

/// Random values of each sort on each day.
const TRIES: usize = 2;

/// What the values alone decide.
pub const NUMBERS: Numbers = ("check_values", &[0, 14, 15, 16, 17]);

pub fn run(run: &mut Run) {
    let mut features = refused::features(&[], &[NUMBERS]);
    run.each_day(DAYS, &mut features, one_day);
}

fn one_day(random: &mut Random, features: &mut Features) -> Outcome {
    let day = random_model_day(random);
    let problem = bridge::problem(&day);
    let scene = Scene::built(random, &day, &problem)?.carried(random)?;
    let some = random_limit(random, &day);
    let limit = random.pick(&[some, day.max_preference, day.max_preference]);
    let mut trial = Trial::new(random, features, scene, limit);
    solved(random, &mut trial)?;
    for _ in 0..TRIES {
        let values = dealt(random, &trial);
        let is_accepted = trial.judge(random, &values)?.is_some();
        trial.features.look("dealt values that are accepted", is_accepted && !values.is_empty());
        let values = scattered(random, &trial);
        trial.judge(random, &values)?;
    }
    Ok(())
}

/// The solver's values, if there are any, and one or two damages to them.
fn solved(random: &mut Random, trial: &mut Trial) -> Outcome {
    let oracle::Outcome::Solved(accepted) = oracle::solve(&trial.model) else {
        return Ok(());
    };
    look(trial, &accepted);
    trial.judge(random, &accepted)?;
    for damage in DAMAGES {
        damaged(random, trial, &accepted, &[damage])?;
    }
    let (one, other) = (random.below(DAMAGES.len()), random.below(DAMAGES.len()));
    damaged(random, trial, &accepted, &[&DAMAGES[one.max(other)], &DAMAGES[one.min(other)]])
}

fn damaged(
    random: &mut Random,
    trial: &mut Trial,
    accepted: &[i32],
    damages: &[&Damage],
) -> Outcome {
    let mut values = accepted.to_vec();
    for damage in damages {
        let is_done = (damage.apply)(random, &trial.model, &mut values).is_some();
        trial.features.look(damage.name, is_done);
    }
    trial.judge(random, &values)?;
    Ok(())
}

/// Every chooser sends 1 along some edge in each slot, and choices pass on what
/// they get above their min, whether or not that is allowed.
fn dealt(random: &mut Random, trial: &Trial) -> Vec<i32> {
    let (model, day) = (&trial.model, trial.scene.walk.day);
    let (seats, choices) = (day.choosers * day.slots, day.choices);
    let mut values = vec![0; model.edges.len()];
    for edges in &model.outgoing[..seats] {
        if let Some(edge) = random.pick_some(edges) {
            values[edge] = 1;
        }
    }
    for node in seats..seats + choices {
        let got = model.incoming[node].iter().map(|&edge| values[edge]).sum::<i32>();
        for &edge in &model.outgoing[node] {
            values[edge] = got + model.supply[node];
        }
    }
    values
}

/// On every edge, or on a few, anything from 0 to max.
fn scattered(random: &mut Random, trial: &Trial) -> Vec<i32> {
    let rate = random.pick(&[0, 5, 100]);
    let mut value = |max: i32| {
        if random.chance(rate) { random.below(max as usize + 1) as i32 } else { 0 }
    };
    trial.model.edges.iter().map(|edge| value(edge.max)).collect()
}

fn look(trial: &mut Trial, accepted: &[i32]) {
    let (model, day) = (&trial.model, trial.scene.walk.day);
    let has_seats = day.choosers * day.slots > 0;
    let is_used = |group: &Vec<usize>| group.len() > 1 && accepted[group[0]] == 1;
    let has_order = trial.scene.rust.lists.iter().any(|list| !list.is_sorted());
    let is_full = model.supply.len() == Buffer::Supplies.named_length();
    let features = &mut trial.features;
    features.look("accepted values of a day with seats", has_seats);
    features.look("accepted values of a day without seats", !has_seats);
    features.look("accepted values of several slots", has_seats && day.slots > 1);
    features.look("accepted values of a full day", is_full);
    features.look("accepted values, a list out of order", has_seats && has_order);
    features.look("accepted values with 1 in a group", model.groups.iter().any(is_used));
    features.look("accepted values with blocked edges", !model.blocked.is_empty());
}
