//! Damage to edge values that a model accepts.
use crate::random::Random;
use oracle::Record;

/// A kind of damage, and the number by which the values must be refused.
pub struct Damage {
    pub name: &'static str,
    pub number: u32,
    /// Does the damage, or nothing where the model has no room for it.
    pub apply: fn(&mut Random, &Record, &mut [i32]) -> Option<()>,
}

pub const DAMAGES: &[Damage] = &[
    Damage { name: "a value below 0", number: 14, apply: below },
    Damage { name: "a value above max", number: 14, apply: above },
    Damage { name: "a value on a blocked edge", number: 15, apply: blocked },
    Damage { name: "two values in a group", number: 16, apply: unequal },
    Damage { name: "a value one off", number: 17, apply: one_off },
    Damage { name: "no values at all", number: 17, apply: zeros },
];

fn some_edge(random: &mut Random, values: &[i32]) -> Option<usize> {
    (!values.is_empty()).then(|| random.below(values.len()))
}

fn below(random: &mut Random, _: &Record, values: &mut [i32]) -> Option<()> {
    let edge = some_edge(random, values)?;
    values[edge] = random.pick(&[-1, -2, i32::MIN]);
    Some(())
}

fn above(random: &mut Random, model: &Record, values: &mut [i32]) -> Option<()> {
    let edge = some_edge(random, values)?;
    values[edge] = random.pick(&[model.edges[edge].max + 1, i32::MAX]);
    Some(())
}

fn blocked(random: &mut Random, model: &Record, values: &mut [i32]) -> Option<()> {
    values[random.pick_some(&model.blocked)?] = 1;
    Some(())
}

/// Whether any block or any other edge of a group depends on this edge.
fn is_tied(model: &Record, edge: usize) -> bool {
    let ties = |group: &Vec<usize>| group.contains(&edge) && group.iter().any(|&e| e != edge);
    model.blocked.contains(&edge) || model.groups.iter().any(ties)
}

fn unequal(random: &mut Random, model: &Record, values: &mut [i32]) -> Option<()> {
    let free = |edge: &usize| is_tied(model, *edge) && !model.blocked.contains(edge);
    let edges = (0..values.len()).filter(free).collect::<Vec<_>>();
    let edge = random.pick_some(&edges)?;
    values[edge] = 1 - values[edge];
    Some(())
}

fn one_off(random: &mut Random, model: &Record, values: &mut [i32]) -> Option<()> {
    let movable = |edge: &usize| model.edges[*edge].max > 0 && !is_tied(model, *edge);
    let edges = (0..values.len()).filter(movable).collect::<Vec<_>>();
    let edge = random.pick_some(&edges)?;
    values[edge] += if values[edge] > 0 { -1 } else { 1 };
    Some(())
}

fn zeros(_: &mut Random, model: &Record, values: &mut [i32]) -> Option<()> {
    values.fill(0);
    model.supply.iter().any(|&supply| supply != 0).then_some(())
}
