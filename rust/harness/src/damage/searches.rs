//! Damage to a search, and to what it remembers.
use super::lent::some_index;
use super::plans::{put_unscheduled, put_wrong};
use super::{Damage, Input};
use crate::boundary::slots;
use crate::day::{CHOICES, Day, MOST_ASKS};
use crate::random::Random;
use crate::search::{FEASIBLE, Memory, Search};
use port::Scheduling;
use std::array;

pub const DAMAGES: &[Damage] = &[
    Damage { name: "a slot that the day has not, in a search", number: 11, apply: slot },
    Damage { name: "a slot that the day has not, in a memory", number: 11, apply: cached_slot },
    Damage { name: "a seat in no choice, in a search", number: 13, apply: seat },
    Damage { name: "a seat in no choice, in a memory", number: 13, apply: cached_seat },
    Damage { name: "an unscheduled seat, in a search", number: 13, apply: unscheduled },
    Damage { name: "an unscheduled seat, in a memory", number: 13, apply: cached_unscheduled },
    Damage { name: "a search that has ended", number: 18, apply: not_asking },
    Damage { name: "a search of zeros", number: 18, apply: zeros },
    Damage { name: "more than 256 asks", number: 18, apply: many_asks },
    Damage { name: "low below start", number: 18, apply: low_below_start },
    Damage { name: "high below low", number: 18, apply: high_below_low },
    Damage { name: "high past the levels", number: 18, apply: high_past_levels },
    Damage { name: "a range without levels", number: 18, apply: no_levels },
    Damage { name: "256 asks", number: 0, apply: most_asks },
    Damage { name: "any range of a greedy search", number: 0, apply: greedy_range },
    Damage { name: "anything for no memory", number: 0, apply: no_memory },
    Damage { name: "anything for no best plan", number: 0, apply: no_plan },
    Damage { name: "anything past the day in a search", number: 0, apply: past_day },
];

/// The largest index that can cross.
const MOST_INDEX: usize = u32::MAX as usize;

/// The search, where it has a best plan.
fn found(input: &mut Input) -> Option<(&Day, &mut Search)> {
    let Input { day, search, .. } = input;
    search.found.then_some((&*day, search))
}

/// What the search remembers, where it does.
fn there(input: &mut Input) -> Option<(&Day, &mut Memory)> {
    let Input { day, search: Search { cached, .. }, .. } = input;
    cached.there.then_some((&*day, cached))
}

/// The search, where its range is looked at.
fn ranged(input: &mut Input) -> Option<&mut Search> {
    Some(&mut input.search).filter(|search| !search.greedy)
}

fn slot(random: &mut Random, input: &mut Input) -> Option<()> {
    put_wrong_slot(random, &input.day, &mut input.search.schedule)
}

fn cached_slot(random: &mut Random, input: &mut Input) -> Option<()> {
    let (day, cached) = there(input)?;
    put_wrong_slot(random, day, &mut cached.schedule)
}

fn put_wrong_slot(random: &mut Random, day: &Day, schedule: &mut Scheduling) -> Option<()> {
    let choice = some_index(random, day.choices.min(CHOICES))?;
    let entry = u8::try_from(day.slots).ok()?.checked_add(1)?;
    schedule.entries[choice] = random.pick(&[entry, entry.saturating_add(1), 255]);
    Some(())
}

fn seat(random: &mut Random, input: &mut Input) -> Option<()> {
    let (day, search) = found(input)?;
    put_wrong(random, day, &mut search.plan)
}

fn cached_seat(random: &mut Random, input: &mut Input) -> Option<()> {
    let (day, cached) = there(input)?;
    put_wrong(random, day, &mut cached.plan)
}

fn unscheduled(random: &mut Random, input: &mut Input) -> Option<()> {
    let (day, search) = found(input)?;
    put_unscheduled(random, day, &slots(&search.schedule), &mut search.plan)
}

fn cached_unscheduled(random: &mut Random, input: &mut Input) -> Option<()> {
    let (day, cached) = there(input)?;
    put_unscheduled(random, day, &slots(&cached.schedule), &mut cached.plan)
}

fn not_asking(_: &mut Random, input: &mut Input) -> Option<()> {
    input.search.asking = false;
    Some(())
}

fn zeros(_: &mut Random, input: &mut Input) -> Option<()> {
    input.search = Search::NONE;
    Some(())
}

fn many_asks(random: &mut Random, input: &mut Input) -> Option<()> {
    input.search.asks = random.pick(&[MOST_ASKS + 1, MOST_ASKS + 2, u32::MAX]);
    Some(())
}

/// The next index, if it can cross.
fn above(index: usize) -> Option<usize> {
    (index < MOST_INDEX).then_some(index + 1)
}

fn low_below_start(random: &mut Random, input: &mut Input) -> Option<()> {
    let search = ranged(input)?;
    let above = above(search.low)?;
    search.start = random.pick(&[above, search.high.max(above), MOST_INDEX]);
    Some(())
}

fn high_below_low(random: &mut Random, input: &mut Input) -> Option<()> {
    let search = ranged(input)?;
    search.low = random.pick(&[above(search.high)?, MOST_INDEX]);
    Some(())
}

fn high_past_levels(random: &mut Random, input: &mut Input) -> Option<()> {
    let count = input.day.levels.len();
    ranged(input)?.high = random.pick(&[count, count + 1, MOST_INDEX]);
    Some(())
}

fn no_levels(_: &mut Random, input: &mut Input) -> Option<()> {
    ranged(input)?;
    input.day.levels.clear();
    Some(())
}

fn most_asks(_: &mut Random, input: &mut Input) -> Option<()> {
    input.search.asks = MOST_ASKS;
    Some(())
}

fn greedy_range(random: &mut Random, input: &mut Input) -> Option<()> {
    let search = &mut input.search;
    let mut any = || random.pick(&[0, 1, 2, 300, MOST_INDEX]);
    search.greedy.then(|| (search.start, search.low, search.high) = (any(), any(), any()))
}

fn no_memory(random: &mut Random, input: &mut Input) -> Option<()> {
    let schedule = Scheduling { entries: array::from_fn(|_| random.bits() as u8) };
    let plan = array::from_fn(|_| random.bits() as u8);
    let greedy = random.chance(50);
    input.search.cached = Memory { there: false, greedy, schedule, plan };
    Some(())
}

/// A feasible result puts another plan there, so that it is known what comes back.
fn no_plan(random: &mut Random, input: &mut Input) -> Option<()> {
    input.search.found = false;
    input.search.plan = array::from_fn(|_| random.bits() as u8);
    input.search.level = random.bits() as u32;
    input.result = FEASIBLE;
    Some(())
}

fn past_day(random: &mut Random, input: &mut Input) -> Option<()> {
    let Input { day, search, .. } = input;
    search.schedule.entries[day.choices..].fill_with(|| random.bits() as u8);
    search.cached.schedule.entries[day.choices..].fill_with(|| random.bits() as u8);
    search.cached.plan[day.choosers * day.slots..].fill_with(|| random.bits() as u8);
    Some(())
}
