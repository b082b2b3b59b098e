//! Damage to plans.
use super::lent::some_index;
use super::{Damage, Input};
use crate::day::{CHOICES, Day};
use crate::plan::PLAN;
use crate::random::Random;
use crate::schedule::Schedule;

pub const DAMAGES: &[Damage] = &[
    Damage { name: "a plan of another length", number: 2, apply: length },
    Damage { name: "a seat in no choice", number: 13, apply: wrong_seat },
    Damage { name: "a seat in an unscheduled choice", number: 13, apply: unscheduled_seat },
    Damage { name: "anything past the last seat", number: 0, apply: past_seats },
];

fn length(random: &mut Random, input: &mut Input) -> Option<()> {
    input.plan.resize(random.pick(&[PLAN - 1, PLAN + 1, 0]), 0);
    Some(())
}

fn wrong_seat(random: &mut Random, input: &mut Input) -> Option<()> {
    put_wrong(random, &input.day, &mut input.plan)
}

fn unscheduled_seat(random: &mut Random, input: &mut Input) -> Option<()> {
    put_unscheduled(random, &input.day, &input.schedule, &mut input.plan)
}

/// A seat of the plan gets a number that is no choice.
pub(super) fn put_wrong(random: &mut Random, day: &Day, plan: &mut [u8]) -> Option<()> {
    let seat = some_seat(random, day, plan)?;
    let choices = u8::try_from(day.choices).ok()?;
    plan[seat] = random.pick(&[choices, choices.saturating_add(1), 255]);
    Some(())
}

/// A seat of the plan gets a choice without a slot.
pub(super) fn put_unscheduled(
    random: &mut Random,
    day: &Day,
    schedule: &Schedule,
    plan: &mut [u8],
) -> Option<()> {
    let seat = some_seat(random, day, plan)?;
    let choices = 0..day.choices.min(CHOICES);
    let left_out = choices.filter(|&choice| schedule[choice].is_none()).collect::<Vec<_>>();
    plan[seat] = random.pick_some(&left_out)? as u8;
    Some(())
}

fn some_seat(random: &mut Random, day: &Day, plan: &[u8]) -> Option<usize> {
    some_index(random, day.choosers.saturating_mul(day.slots).min(plan.len()))
}

fn past_seats(random: &mut Random, input: &mut Input) -> Option<()> {
    let seats = input.day.choosers * input.day.slots;
    input.plan[seats..].fill_with(|| random.bits() as u8);
    Some(())
}
