//! Damage to schedules and states.
use super::{Damage, Input};
use crate::day::{CHOICES, CHOOSERS, SLOTS};
use crate::random::Random;
use crate::state::LISTS;

/// Damage to a schedule.
pub const SCHEDULES: &[Damage] =
    &[Damage { name: "a slot that the day has not", number: 11, apply: wrong_slot }];

/// Damage to a state, and to a schedule and a state at once.
pub const DAMAGES: &[Damage] = &[
    Damage { name: "slot lists too short", number: 2, apply: short_lists },
    Damage { name: "a slot that the day has not, in the state", number: 11, apply: own_slot },
    Damage { name: "such slots in both schedules", number: 11, apply: both_slots },
    Damage { name: "covered off by one", number: 12, apply: covered },
    Damage { name: "a block flipped", number: 12, apply: block },
    Damage { name: "two entries exchanged between slots", number: 12, apply: exchanged },
    Damage { name: "a repeated entry", number: 12, apply: repeated },
    Damage { name: "an entry that is no choice", number: 12, apply: wrong_entry },
    Damage { name: "a state under another schedule", number: 12, apply: other_schedule },
    Damage { name: "entries of a list in another order", number: 0, apply: reordered },
    Damage { name: "anything past the used fronts", number: 0, apply: past_fronts },
    Damage { name: "anything past the day in a state", number: 0, apply: past_day },
    Damage {
        name: "anything past the day's choices in a schedule",
        number: 0,
        apply: past_choices,
    },
];

pub(super) fn some_index(random: &mut Random, end: usize) -> Option<usize> {
    (end > 0).then(|| random.below(end))
}

fn short_lists(random: &mut Random, input: &mut Input) -> Option<()> {
    input.state.lists.truncate(random.pick(&[LISTS - 1, CHOICES, 1, 0]));
    Some(())
}

fn wrong_slot(random: &mut Random, input: &mut Input) -> Option<()> {
    let choice = some_index(random, input.day.choices.min(CHOICES))?;
    let slots = input.day.slots;
    input.schedule[choice] = Some(random.pick(&[slots, slots.saturating_add(1), 254]).max(slots));
    Some(())
}

fn own_slot(random: &mut Random, input: &mut Input) -> Option<()> {
    let choice = some_index(random, input.day.choices.min(CHOICES))?;
    let slots = input.day.slots;
    input.state.schedule[choice] = Some(random.pick(&[slots, slots.saturating_add(1)]));
    Some(())
}

fn both_slots(random: &mut Random, input: &mut Input) -> Option<()> {
    wrong_slot(random, input)?;
    own_slot(random, input)
}

fn covered(random: &mut Random, input: &mut Input) -> Option<()> {
    let slot = some_index(random, input.day.slots.min(SLOTS))?;
    let covered = &mut input.state.covered[slot];
    *covered = if random.chance(50) { covered.wrapping_add(1) } else { covered.wrapping_sub(1) };
    Some(())
}

fn block(random: &mut Random, input: &mut Input) -> Option<()> {
    let chooser = some_index(random, input.day.choosers.min(CHOOSERS))?;
    let choice = some_index(random, input.day.choices.min(CHOICES))?;
    let block = &mut input.state.blocks[chooser * CHOICES + choice];
    *block = !*block;
    Some(())
}

/// The places of the entries in use.
fn entries(input: &Input) -> Vec<usize> {
    let fronts = |slot| {
        let length = input.state.front(&input.day, slot).len();
        (0..length).map(move |place| slot * CHOICES + place)
    };
    (0..input.day.slots.min(SLOTS)).flat_map(fronts).collect()
}

fn exchanged(random: &mut Random, input: &mut Input) -> Option<()> {
    let entries = entries(input);
    let left = random.pick_some(&entries)?;
    let elsewhere = |&place: &usize| place / CHOICES != left / CHOICES;
    let others = entries.into_iter().filter(elsewhere).collect::<Vec<_>>();
    let right = random.pick_some(&others)?;
    input.state.lists.swap(left, right);
    Some(())
}

fn repeated(random: &mut Random, input: &mut Input) -> Option<()> {
    let entries = entries(input);
    let (from, to) = (random.pick_some(&entries)?, random.pick(&entries));
    input.state.lists[to] = input.state.lists[from];
    (from != to).then_some(())
}

fn wrong_entry(random: &mut Random, input: &mut Input) -> Option<()> {
    let place = random.pick_some(&entries(input))?;
    input.state.lists[place] = random.pick(&[input.day.choices as u8, CHOICES as u8, 255]);
    Some(())
}

/// One choice moved to another slot in the state's own schedule, and nothing
/// else with it.
fn other_schedule(random: &mut Random, input: &mut Input) -> Option<()> {
    let choice = some_index(random, input.day.choices.min(CHOICES))?;
    let mut slots = (0..input.day.slots.min(SLOTS)).collect::<Vec<_>>();
    slots.retain(|&slot| Some(slot) != input.state.schedule[choice]);
    let slot = random.pick_some(&slots)?;
    // The byte that now counts as the last entry must not be the choice by luck.
    let last = slot * CHOICES + input.state.front(&input.day, slot).len();
    input.state.lists[last] = 255;
    input.state.schedule[choice] = Some(slot);
    Some(())
}

fn reordered(random: &mut Random, input: &mut Input) -> Option<()> {
    for slot in 0..input.day.slots {
        let length = input.state.front(&input.day, slot).len();
        random.shuffle(&mut input.state.lists[slot * CHOICES..][..length]);
    }
    Some(())
}

fn past_fronts(random: &mut Random, input: &mut Input) -> Option<()> {
    let entries = entries(input);
    for place in 0..input.state.lists.len() {
        if !entries.contains(&place) {
            input.state.lists[place] = random.bits() as u8;
        }
    }
    input.state.lists.push(7);
    Some(())
}

fn past_day(random: &mut Random, input: &mut Input) -> Option<()> {
    for slot in input.day.slots..SLOTS {
        input.state.covered[slot] = random.bits() as u32;
    }
    for chooser in 0..CHOOSERS {
        for choice in 0..CHOICES {
            if chooser >= input.day.choosers || choice >= input.day.choices {
                input.state.blocks[chooser * CHOICES + choice] = random.chance(50);
            }
        }
    }
    Some(())
}

fn past_choices(random: &mut Random, input: &mut Input) -> Option<()> {
    for choice in input.day.choices..CHOICES {
        input.schedule[choice] = random.chance(70).then(|| random.below(255));
        input.state.schedule[choice] = random.chance(70).then(|| random.below(255));
    }
    Some(())
}
