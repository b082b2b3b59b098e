//! Preference searches, by the exact solver and by scripts.
use super::Scene;
use crate::bridge;
use crate::day::{Day, Size};
use crate::features::Features;
use crate::random::Random;
use crate::run::{Outcome, wanted};
use crate::search::search;
use oracle::{SearchRun, Told};

pub fn try_searches(random: &mut Random, features: &mut Features, scene: &mut Scene) -> Outcome {
    if scene.size == Size::Small {
        solved(features, scene)?;
    }
    scripted(random, features, scene)
}

/// A search of the equal schedule gives what the first one remembered.
fn solved(features: &mut Features, scene: &Scene) -> Outcome {
    let slots = scene.slots();
    let mut solver = scene.problem.solver();
    let (Some(first), Some(again)) = (solver.search(slots), solver.search(slots)) else {
        return Ok(());
    };
    let is_found = first.plan.is_some();
    features.look("a search that finds a plan", is_found);
    features.look("a search that finds none", !is_found);
    let asks = if is_found { Vec::new() } else { first.asks.clone() };
    let input = || format!("{:?} {:?} again", scene.day, scene.schedule);
    wanted((again.plan, again.asks), (first.plan, asks), input)
}

fn scripted(random: &mut Random, features: &mut Features, scene: &Scene) -> Outcome {
    // A script does not ask for preferences: with an edge everywhere the first
    // edges can be decoded, unless some slot has no choice at all.
    let day = Day {
        preferences: vec![0; scene.day.preferences.len()],
        assignment: Vec::new(),
        ..scene.day.clone()
    };
    let has_choice = |slot| scene.slots().contains(&Some(slot));
    let mut told = vec![Told::Infeasible, Told::Infeasible, Told::Late];
    if day.choosers == 0 || (0..day.slots).all(has_choice) {
        told.extend([Told::Feasible; 2]);
    }
    let script = (0..=day.levels.len()).map(|_| random.pick(&told)).collect::<Vec<_>>();
    let run = bridge::problem(&day).solver().search_told(scene.slots(), &script);
    let (asks, own) = search(&day, &script);
    look(features, &run);
    let kept = run.plan.clone().filter(|_| own.optimal);
    let kept = kept.map(|plan| (scene.slots().to_vec(), plan));
    let found = (run.asks, run.plan.is_some(), run.remembered);
    wanted(found, (asks, own.found, kept), || format!("{day:?} {:?} {script:?}", scene.schedule))
}

fn look(features: &mut Features, run: &SearchRun) {
    let (is_found, is_kept) = (run.plan.is_some(), run.remembered.is_some());
    features.look("a search without an ask", run.asks.is_empty());
    features.look("a search with four asks", run.asks.len() >= 4);
    features.look("a plan that is remembered", is_found && is_kept);
    features.look("a plan that is not remembered", is_found && !is_kept);
}
