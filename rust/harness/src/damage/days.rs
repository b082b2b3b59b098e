//! Damage to a day, and to what a call is asked about it.
use super::layouts;
use super::{Damage, Input};
use crate::constraint::{
    Constraint, OPERATORS, extra, kind, random_assignment, random_scheduling, target,
};
use crate::day::{
    CHOICES, CHOOSERS, CONSTRAINTS, GROUPS, MEMBERS, MOST_PREFERENCE, MOST_SEATS, SLOTS,
};
use crate::random::Random;
use crate::reading::Asked;

pub const DAMAGES: &[Damage] = &[
    Damage { name: "an extra that is not read", number: 0, apply: unread_extra },
    Damage { name: "too many choosers", number: 1, apply: choosers },
    Damage { name: "too many choices", number: 1, apply: choices },
    Damage { name: "too many slots", number: 1, apply: slots },
    Damage { name: "a day of another length", number: 2, apply: layouts::day },
    Damage { name: "tables for a huge preference", number: 2, apply: huge_preference },
    Damage { name: "min above max", number: 3, apply: min_above_max },
    Damage { name: "max above 1,000", number: 3, apply: max_too_large },
    Damage { name: "max_preference above 255", number: 4, apply: max_preference },
    Damage { name: "too many constraints", number: 7, apply: many_constraints },
    Damage { name: "a wrong kind of scheduling constraint", number: 8, apply: scheduling_kind },
    Damage { name: "a wrong kind of assignment constraint", number: 8, apply: assignment_kind },
    Damage { name: "a wrong left operand", number: 9, apply: left_operand },
    Damage { name: "a wrong right operand", number: 9, apply: right_operand },
    Damage { name: "a wrong target case", number: 9, apply: target_case },
    Damage { name: "a wrong extra", number: 9, apply: wrong_extra },
    Damage { name: "asked about nobody", number: 9, apply: asked },
    Damage { name: "too many groups", number: 10, apply: many_groups },
    Damage { name: "too many members", number: 10, apply: many_members },
    Damage { name: "lengths that overflow", number: 10, apply: huge_lengths },
    Damage { name: "a member that is no choice", number: 10, apply: wrong_member },
];

/// The largest size that can cross.
const MOST_SIZE: usize = u32::MAX as usize;

fn choosers(random: &mut Random, input: &mut Input) -> Option<()> {
    input.day.choosers = random.pick(&[CHOOSERS + 1, CHOOSERS + 7, 1 << 31, MOST_SIZE]);
    Some(())
}

fn choices(random: &mut Random, input: &mut Input) -> Option<()> {
    input.day.choices = random.pick(&[CHOICES + 1, CHOICES + 9, 1 << 31, MOST_SIZE]);
    Some(())
}

fn slots(random: &mut Random, input: &mut Input) -> Option<()> {
    input.day.slots = random.pick(&[SLOTS + 1, 256, 1 << 31, MOST_SIZE]);
    Some(())
}

/// Its table length must not be formed in 32 bits.
fn huge_preference(random: &mut Random, input: &mut Input) -> Option<()> {
    input.day.max_preference = random.pick(&[u32::MAX, u32::MAX - 1, 1 << 31]);
    input.day.powers.truncate(random.below(2));
    input.day.costs.truncate(random.below(2));
    Some(())
}

fn min_above_max(random: &mut Random, input: &mut Input) -> Option<()> {
    let choice = some_choice(random, input)?;
    input.day.maxs[choice] = random.pick(&[0, 1, MOST_SEATS]);
    input.day.mins[choice] = random.pick(&[input.day.maxs[choice] + 1, u32::MAX]);
    Some(())
}

fn max_too_large(random: &mut Random, input: &mut Input) -> Option<()> {
    let choice = some_choice(random, input)?;
    input.day.maxs[choice] = random.pick(&[MOST_SEATS + 1, u32::MAX]);
    Some(())
}

fn some_choice(random: &mut Random, input: &Input) -> Option<usize> {
    let choices = (0..input.day.choices.min(input.day.mins.len())).collect::<Vec<_>>();
    random.pick_some(&choices)
}

fn max_preference(random: &mut Random, input: &mut Input) -> Option<()> {
    input.day.max_preference = MOST_PREFERENCE + random.pick(&[1, 2, 50]);
    let length = input.day.max_preference as usize + 1;
    input.day.powers.resize(length, 1.0);
    input.day.costs.resize(length, 1);
    Some(())
}

fn many_constraints(random: &mut Random, input: &mut Input) -> Option<()> {
    let list =
        if random.chance(50) { &mut input.day.scheduling } else { &mut input.day.assignment };
    let constraint = list.first().copied().unwrap_or_default();
    list.resize(CONSTRAINTS + random.pick(&[1, 2, 30]), constraint);
    Some(())
}

fn scheduling_kind(random: &mut Random, input: &mut Input) -> Option<()> {
    let kind = random.pick(&[0, 7, 8, 9, 10, 65_535, 65_536, 65_539, u32::MAX]);
    let constraint = Constraint { kind, ..Constraint::default() };
    put(random, &mut input.day.scheduling, constraint);
    Some(())
}

fn assignment_kind(random: &mut Random, input: &mut Input) -> Option<()> {
    let kind = random.pick(&[0, 1, 6, 9, 65_535, 65_540, 65_541, 65_542, u32::MAX]);
    let constraint = Constraint { kind, ..Constraint::default() };
    put(random, &mut input.day.assignment, constraint);
    Some(())
}

/// Puts a constraint anywhere into a list, in the place of one if it is full.
fn put(random: &mut Random, list: &mut Vec<Constraint>, constraint: Constraint) {
    let place = random.below(list.len() + 1);
    if list.len() < CONSTRAINTS {
        list.insert(place, constraint);
    } else {
        let place = place % list.len();
        list[place] = constraint;
    }
}

/// Puts a sound constraint with one change into its list, if it can be changed.
fn put_changed(
    random: &mut Random,
    input: &mut Input,
    change: impl FnOnce(&mut Random, &Input, &mut Constraint) -> Option<()>,
) -> Option<()> {
    let scheduling = random.chance(50);
    let random_constraint = if scheduling { random_scheduling } else { random_assignment };
    let mut constraint = random_constraint(random, &input.day)?;
    change(random, input, &mut constraint)?;
    let day = &mut input.day;
    put(random, if scheduling { &mut day.scheduling } else { &mut day.assignment }, constraint);
    Some(())
}

fn left_operand(random: &mut Random, input: &mut Input) -> Option<()> {
    put_changed(random, input, |random, input, constraint| {
        let count = match constraint.kind {
            kind::SLOT_HAS_LIMITED_SIZE => input.day.slots,
            1..6 | kind::CHOICES_HAVE_SAME_CHOOSERS => input.day.choices,
            _ => input.day.choosers,
        };
        constraint.left = random.pick(&[count as u32, count as u32 + 1, u32::MAX]);
        Some(())
    })
}

fn right_operand(random: &mut Random, input: &mut Input) -> Option<()> {
    put_changed(random, input, |random, input, constraint| {
        let count = match constraint.target_case {
            target::SLOT => input.day.slots,
            target::CHOICE => input.day.choices,
            target::CHOOSER => input.day.choosers,
            _ => return None,
        };
        constraint.target = random.pick(&[count as u32, count as u32 + 1, u32::MAX]);
        Some(())
    })
}

fn target_case(random: &mut Random, input: &mut Input) -> Option<()> {
    put_changed(random, input, |random, _, constraint| {
        let case = random.pick(&[0, 1, 2, 3, 4, 5, u32::MAX]);
        let is_other = case != constraint.target_case;
        constraint.target_case = case;
        is_other.then_some(())
    })
}

fn wrong_extra(random: &mut Random, input: &mut Input) -> Option<()> {
    put_changed(random, input, |random, _, constraint| {
        let reads = match constraint.kind {
            kind::CHOICES_HAVE_OFFSET => extra::OFFSET,
            kind::SLOT_HAS_LIMITED_SIZE => extra::OPERATOR,
            _ => return None,
        };
        let case = random.pick(&[0, 1, 2, 3, u32::MAX]);
        let number = random.pick(&[0, 4, -4, 1, -1, i32::MIN, i32::MAX]);
        let is_none = reads == extra::OPERATOR && !OPERATORS.contains(&number);
        (constraint.extra_case, constraint.extra) = (case, number);
        (case != reads || is_none).then_some(())
    })
}

fn asked(random: &mut Random, input: &mut Input) -> Option<()> {
    let beyond = random.pick(&[0, 1, 300, usize::MAX]);
    let asked = match random.below(3) {
        0 => Asked::Chooser(input.day.choosers.saturating_add(beyond)),
        1 => Asked::Choice(input.day.choices.saturating_add(beyond)),
        _ => Asked::Slot(input.day.slots.saturating_add(beyond)),
    };
    input.asked.push(asked);
    Some(())
}

fn many_groups(random: &mut Random, input: &mut Input) -> Option<()> {
    input.day.group_lengths.resize(GROUPS + random.pick(&[1, 2, 40]), 0);
    Some(())
}

fn many_members(random: &mut Random, input: &mut Input) -> Option<()> {
    let choice = some_choice(random, input)?;
    let length = MEMBERS + random.pick(&[1, 2, 40]);
    input.day.group_lengths = vec![1; GROUPS - 1];
    input.day.group_lengths.push((length + 1 - GROUPS) as u32);
    input.day.group_members = vec![choice as u32; length];
    Some(())
}

/// The sum of these lengths must not be formed in 32 bits.
fn huge_lengths(random: &mut Random, input: &mut Input) -> Option<()> {
    input.day.group_lengths = match random.below(3) {
        0 => vec![u32::MAX],
        1 => vec![u32::MAX, 1],
        _ => vec![1 << 31, 1 << 31, 2],
    };
    Some(())
}

fn wrong_member(random: &mut Random, input: &mut Input) -> Option<()> {
    let places = (0..input.day.group_members.len()).collect::<Vec<_>>();
    let place = random.pick_some(&places)?;
    let choices = u32::try_from(input.day.choices).ok()?;
    input.day.group_members[place] = random.pick(&[choices, choices + 1, u32::MAX]);
    Some(())
}

fn unread_extra(random: &mut Random, input: &mut Input) -> Option<()> {
    let reads_none = |constraint: &&mut Constraint| !matches!(constraint.kind, 5 | 6);
    let lists = input.day.scheduling.iter_mut().chain(&mut input.day.assignment);
    for constraint in lists.filter(reads_none) {
        constraint.extra_case = random.pick(&[0, 1, 2, 3, u32::MAX]);
        constraint.extra = random.bits() as i32;
    }
    Some(())
}
