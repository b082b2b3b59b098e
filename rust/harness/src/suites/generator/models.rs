//! Models at some limits.
use super::Scene;
use crate::day::Day;
use crate::features::Features;
use crate::random::Random;
use crate::reading::Buffer;
use crate::run::{Outcome, wanted};
use oracle::{Edge, Record};

pub fn try_limits(random: &mut Random, features: &mut Features, scene: &mut Scene) -> Outcome {
    let day = scene.day;
    let level = random.pick_some(&day.levels).unwrap_or(0);
    for limit in [0, level, random.pick(&[day.max_preference, u32::MAX])] {
        let model = scene.solver.model(limit);
        look(features, day, &model);
        has_room(day, &model)?;
        has_right_edges(scene, &model, limit)?;
    }
    Ok(())
}

/// The model fits into its buffers.
fn has_room(day: &Day, model: &Record) -> Outcome {
    let entries = model.groups.iter().map(Vec::len).sum::<usize>();
    let used = [
        (Buffer::Supplies, model.supply.len()),
        (Buffer::EdgeTable, model.edges.len()),
        (Buffer::GroupEntries, entries),
        (Buffer::GroupEnds, model.groups.len()),
        (Buffer::BlockedEntries, model.blocked.len()),
    ];
    let too_long = used.into_iter().filter(|(buffer, used)| *used > buffer.named_length());
    wanted(too_long.collect(), Vec::new(), || format!("{day:?}"))
}

/// Chooser edges keep the limit and have the cost of the lent table.
fn has_right_edges(scene: &Scene, model: &Record, limit: u32) -> Outcome {
    let day = scene.day;
    let choice_nodes = day.choosers * day.slots;
    let is_wrong = |edge: &&Edge| {
        if edge.from >= choice_nodes {
            return edge.cost != 0;
        }
        let (chooser, slot) = (edge.from / day.slots, edge.from % day.slots);
        let choice = edge.to - choice_nodes;
        let preference = day.preference(chooser, choice);
        let is_right = preference <= limit
            && edge.max == 1
            && edge.cost == day.costs[preference as usize]
            && scene.schedule[choice] == Some(slot);
        !is_right
    };
    let wrong = model.edges.iter().filter(is_wrong).collect::<Vec<_>>();
    wanted(wrong, Vec::new(), || format!("{day:?} {:?} limit {limit}", scene.schedule))
}

/// The features of a model that every suite over models looks for.
pub fn look(features: &mut Features, day: &Day, model: &Record) {
    let repeats = |edges: &[usize]| (1..edges.len()).any(|i| edges[..i].contains(&edges[i]));
    features.look("a model without edges", day.choosers > 0 && model.edges.is_empty());
    features.look("2,080 edges", model.edges.len() == Buffer::EdgeTable.named_length());
    features.look("an empty group of edges", model.groups.iter().any(Vec::is_empty));
    features.look("a group of one edge", model.groups.iter().any(|group| group.len() == 1));
    features.look("a group of two edges", model.groups.iter().any(|group| group.len() == 2));
    features.look("a larger group of edges", model.groups.iter().any(|group| group.len() > 2));
    features.look("an edge twice in a group", model.groups.iter().any(|group| repeats(group)));
    features.look("a blocked edge", !model.blocked.is_empty());
    features.look("a blocked edge named twice", repeats(&model.blocked));
}
