//! Damage to the tables and buffers beside a day.
use super::{Damage, Input};
use crate::day::{self, MOST_COST};
use crate::random::Random;

pub const DAMAGES: &[Damage] = &[
    Damage { name: "a table of another length", number: 2, apply: table_length },
    Damage { name: "a preference above max_preference", number: 4, apply: preference },
    Damage { name: "a cost out of range", number: 6, apply: cost },
];

/// Damage to the lent buffers, of which there must be one.
pub const BUFFERS: &[Damage] =
    &[Damage { name: "a buffer too short", number: 2, apply: short_buffer }];

/// Damage to the preference levels.
pub const LEVELS: &[Damage] = &[
    Damage { name: "too many levels", number: 5, apply: many_levels },
    Damage { name: "equal levels", number: 5, apply: equal_levels },
    Damage { name: "descending levels", number: 5, apply: descending_levels },
    Damage { name: "a level above max_preference", number: 5, apply: high_level },
];

fn table_length(random: &mut Random, input: &mut Input) -> Option<()> {
    let day = &mut input.day;
    match random.below(4) {
        0 => resize(random, &mut day.preferences, 0),
        1 => resize(random, &mut day.powers, 0.0),
        // No table has the cost that a longer one ends in: beside another max_preference it
        // would be of the right length, legal, and not the Rust's.
        2 => resize(random, &mut day.costs, -1),
        _ => resize(random, &mut input.plan, 0),
    }
}

/// One shorter, one longer, twice as long or empty.
fn resize<T: Clone>(random: &mut Random, table: &mut Vec<T>, fill: T) -> Option<()> {
    let length = table.len();
    let new = random.pick(&[length.saturating_sub(1), length + 1, 2 * length, 0]);
    table.resize(new, fill);
    (new != length).then_some(())
}

fn short_buffer(random: &mut Random, input: &mut Input) -> Option<()> {
    let place = random.below(input.buffers.len());
    let (buffer, length) = &mut input.buffers[place];
    *length = random.pick(&[buffer.named_length() - 1, 1, 0]);
    Some(())
}

fn preference(random: &mut Random, input: &mut Input) -> Option<()> {
    let places = (0..input.day.preferences.len()).collect::<Vec<_>>();
    let place = random.pick_some(&places)?;
    let above = input.day.max_preference.checked_add(1)?;
    input.day.preferences[place] = random.pick(&[above, u32::MAX]);
    Some(())
}

fn many_levels(_: &mut Random, input: &mut Input) -> Option<()> {
    input.day.levels = (0..=day::LEVELS as u32).collect();
    Some(())
}

fn equal_levels(random: &mut Random, input: &mut Input) -> Option<()> {
    let level = random.pick_some(&input.day.levels)?;
    let place = input.day.levels.iter().position(|&own| own == level)?;
    input.day.levels.insert(place, level);
    Some(())
}

fn descending_levels(random: &mut Random, input: &mut Input) -> Option<()> {
    let pairs = (1..input.day.levels.len()).collect::<Vec<_>>();
    let second = random.pick_some(&pairs)?;
    input.day.levels.swap(second - 1, second);
    Some(())
}

fn high_level(random: &mut Random, input: &mut Input) -> Option<()> {
    let above = input.day.max_preference.checked_add(1)?;
    input.day.levels.truncate(day::LEVELS - 1);
    input.day.levels.push(random.pick(&[above, u32::MAX]));
    Some(())
}

fn cost(random: &mut Random, input: &mut Input) -> Option<()> {
    let places = (0..input.day.costs.len()).collect::<Vec<_>>();
    let place = random.pick_some(&places)?;
    input.day.costs[place] = random.pick(&[-1, i64::MIN, MOST_COST + 1, i64::MAX]);
    Some(())
}
