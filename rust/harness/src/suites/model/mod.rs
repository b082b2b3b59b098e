//! The model beside what the Rust hands its solver, of fresh states and of
//! states carried through a chain of updates, at several limits.
pub mod calls;
pub mod lent;
pub mod refusals;
pub mod scene;
pub mod trial;
pub mod values;

use crate::answers;
use crate::bridge;
use crate::day::Day;
use crate::features::Features;
use crate::random::Random;
use crate::reading::Buffer;
use crate::run::{Days, Outcome, Run};
use crate::suites::generator::look_at_model;
use oracle::Record;
use scene::{Scene, random_model_day};

const DAYS: Days = Days { usual: 20_000, for_features: 20_000 };

pub fn run(run: &mut Run) {
    let mut features = Features::default();
    run.each_day(DAYS, &mut features, one_day);
}

fn one_day(random: &mut Random, features: &mut Features) -> Outcome {
    let day = random_model_day(random);
    let problem = bridge::problem(&day);
    let mut scene = Scene::built(random, &day, &problem)?;
    let limit = random_limit(random, &day);
    try_limits(random, features, &mut scene, &[limit])?;
    let mut scene = scene.carried(random)?;
    let limits = [0, day.max_preference, u32::MAX, random_limit(random, &day)];
    try_limits(random, features, &mut scene, &limits)
}

/// The models at these limits, each over the last one or over the pattern.
fn try_limits(
    random: &mut Random,
    features: &mut Features,
    scene: &mut Scene,
    limits: &[u32],
) -> Outcome {
    let mut calls = scene.calls(random);
    for &limit in limits {
        let model = scene.solver.model(limit);
        look(features, scene, limit, &model);
        if random.chance(50) {
            calls.lent.reset();
        }
        calls.models(limit, &model)?;
    }
    Ok(())
}

/// A preference of the day, one beside it, or any limit.
fn random_limit(random: &mut Random, day: &Day) -> u32 {
    let own = random.pick_some(&day.preferences).unwrap_or(0);
    let least = day.preferences.iter().copied().min().unwrap_or(0);
    let any = random.bits() as u32;
    let beyond = 256 + random.below(256) as u32;
    random.pick(&[own, own, own + 1, own.saturating_sub(1), least.saturating_sub(1), any, beyond])
}

fn look(features: &mut Features, scene: &Scene, limit: u32, model: &Record) {
    let day = scene.walk.day;
    look_at_model(features, day, model);
    look_at_limit(features, day, limit);
    look_at_state(features, scene, model);
    let answer = answers::model(model);
    let is_full = |buffer: Buffer, used: u64| used == buffer.named_length() as u64;
    features.look("no choosers", day.choosers == 0);
    features.look("no choices", day.choices == 0);
    features.look("no slots", day.slots == 0);
    features.look("groups and blocked edges", answer.entries > 0 && answer.blocked > 0);
    features.look("all supplies", is_full(Buffer::Supplies, model.supply.len() as u64));
    features.look("all groups", is_full(Buffer::GroupEnds, answer.groups));
    features.look("all group entries", is_full(Buffer::GroupEntries, answer.entries));
    features.look("more than 1,000 blocked edges", answer.blocked > 1_000);
    features.look("an edge with max 0", model.edges.iter().any(|edge| edge.max == 0));
    features.look("an edge with max 1,000", model.edges.iter().any(|edge| edge.max == 1_000));
    features.look("a cost of 2^32 and more", model.edges.iter().any(|edge| edge.cost >> 32 > 0));
}

fn look_at_limit(features: &mut Features, day: &Day, limit: u32) {
    let all = || day.preferences.iter();
    let is_any = all().len() > 0;
    features.look("a limit below every preference", is_any && all().all(|&own| own > limit));
    features.look("a limit above every preference", is_any && all().all(|&own| own < limit));
    features.look("a preference equal to the limit", all().any(|&own| own == limit));
    features.look(
        "a preference one above the limit",
        all().any(|&own| Some(own) == limit.checked_add(1)),
    );
    features.look(
        "a limit that looks small in a byte",
        limit > 255 && all().any(|&own| own > limit & 255),
    );
}

fn look_at_state(features: &mut Features, scene: &Scene, model: &Record) {
    let (day, rust) = (scene.walk.day, &scene.rust);
    let slots = &model.supply[day.choosers * day.slots + day.choices..];
    let mut left_out = rust.schedule.iter().zip(&day.mins).filter(|(slot, _)| slot.is_none());
    let is_blocked = !rust.blocked.is_empty();
    let is_empty = rust.lists.iter().any(Vec::is_empty);
    features.look("a slot without choices", day.choosers > 0 && is_empty);
    features.look("a list out of order", rust.lists.iter().any(|list| !list.is_sorted()));
    features.look("a choice left out, with a min", left_out.any(|(_, &min)| min > 0));
    features.look("blocks", is_blocked);
    features.look("blocks and blocked edges", is_blocked && !model.blocked.is_empty());
    features.look("a slot that lacks choosers", slots.iter().any(|&supply| supply > 0));
    features.look("a slot with choosers to spare", slots.iter().any(|&supply| supply < 0));
}
