//! The lines of a day file.
use crate::constraint::{Constraint, OPERATORS, extra, kind, target};
use crate::day::Day;
use crate::schedule::Schedule;
use std::fmt::{Display, Write};

pub fn put(text: &mut String, line: &str) {
    text.push_str(line);
    text.push('\n');
}

/// A word and what follows it, each after a blank.
pub fn listed<T: Display>(word: &str, list: &[T]) -> String {
    list.iter().fold(word.to_owned(), |mut line, one| {
        let _ = write!(line, " {one}");
        line
    })
}

pub fn put_sizes(text: &mut String, day: &Day) -> Result<(), String> {
    let lengths = [day.mins.len(), day.maxs.len(), day.optional.len()];
    if lengths != [day.choices; 3] {
        return Err("the day has other sizes than its tables".to_owned());
    }
    put(text, &format!("choosers {}", day.choosers));
    put(text, &format!("slots {}", day.slots));
    for choice in 0..day.choices {
        let optional = if day.optional[choice] { " optional" } else { "" };
        let (min, max) = (day.mins[choice], day.maxs[choice]);
        put(text, &format!("choice {choice} min {min} max {max}{optional}"));
    }
    Ok(())
}

/// A row of preferences for each chooser, with a number for each choice.
pub fn put_preferences(text: &mut String, day: &Day) -> Result<(), String> {
    put(text, &format!("max_preference {}", day.max_preference));
    if day.choosers.checked_mul(day.choices) != Some(day.preferences.len()) {
        return Err("there is not a preference for each chooser and choice".to_owned());
    }
    for (chooser, row) in day.preferences.chunks(day.choices.max(1)).enumerate() {
        put(text, &listed(&format!("preferences {chooser} :"), row));
    }
    Ok(())
}

/// Powers and costs, one for each preference. A file has finite powers only.
pub fn put_tables(text: &mut String, day: &Day) -> Result<(), String> {
    let levels = day.max_preference as usize + 1;
    if [day.powers.len(), day.costs.len()] != [levels; 2] {
        return Err("there is not a power and a cost for each preference".to_owned());
    }
    if !day.powers.iter().all(|power| power.is_finite()) {
        return Err("a power is not finite".to_owned());
    }
    let powers = day.powers.iter().copied().map(float).collect::<Vec<_>>();
    put(text, &listed("powers", &powers));
    put(text, &listed("costs", &day.costs));
    Ok(())
}

/// The shortest digits that are read as the same bits; those of a very large or
/// small one with an exponent.
fn float(float: f32) -> String {
    let is_usual = float == 0.0 || (1e-5..1e16).contains(&float.abs());
    if is_usual { format!("{float}") } else { format!("{float:e}") }
}

pub fn put_constraints(text: &mut String, day: &Day) -> Result<(), String> {
    for (list, constraints) in [("scheduling", &day.scheduling), ("assignment", &day.assignment)] {
        for constraint in constraints {
            put(text, &format!("{list} {}", words_of(constraint)?));
        }
    }
    Ok(())
}

/// The names of the kinds and the cases of their targets.
const KINDS: [(u32, &str, u32); 10] = [
    (kind::CHOICE_IS_IN_SLOT, "choice_is_in_slot", target::SLOT),
    (kind::CHOICE_IS_NOT_IN_SLOT, "choice_is_not_in_slot", target::SLOT),
    (kind::CHOICES_ARE_IN_SAME_SLOT, "choices_are_in_same_slot", target::CHOICE),
    (kind::CHOICES_ARE_NOT_IN_SAME_SLOT, "choices_are_not_in_same_slot", target::CHOICE),
    (kind::CHOICES_HAVE_OFFSET, "choices_have_offset", target::CHOICE),
    (kind::SLOT_HAS_LIMITED_SIZE, "slot_has_limited_size", target::LIMIT),
    (kind::CHOICES_HAVE_SAME_CHOOSERS, "choices_have_same_choosers", target::CHOICE),
    (kind::CHOOSER_IS_IN_CHOICE, "chooser_is_in_choice", target::CHOICE),
    (kind::CHOOSER_IS_NOT_IN_CHOICE, "chooser_is_not_in_choice", target::CHOICE),
    (kind::CHOOSERS_HAVE_SAME_CHOICES, "choosers_have_same_choices", target::CHOOSER),
];

/// The names of [`OPERATORS`].
const OPERATOR_NAMES: [&str; 6] = ["=", ">", ">=", "!=", "<=", "<"];

/// The name and the operands of a constraint. An extra that its kind does not
/// read becomes a comment.
fn words_of(constraint: &Constraint) -> Result<String, String> {
    let Constraint { kind, left, target_case, target, extra_case, extra } = *constraint;
    let known = KINDS.iter().find(|(own, _, case)| (*own, *case) == (kind, target_case));
    let Some((_, name, _)) = known else {
        return Err("a constraint has no such kind, or a target of another case".to_owned());
    };
    let operator = OPERATORS.iter().position(|&own| own == extra);
    match (kind, extra_case, operator) {
        (kind::CHOICES_HAVE_OFFSET, extra::OFFSET, _) => {
            Ok(format!("{name} {left} {target} {extra}"))
        }
        (kind::SLOT_HAS_LIMITED_SIZE, extra::OPERATOR, Some(place)) => {
            Ok(format!("{name} {left} {} {target}", OPERATOR_NAMES[place]))
        }
        (kind::CHOICES_HAVE_OFFSET | kind::SLOT_HAS_LIMITED_SIZE, ..) => {
            Err("a constraint has an extra of another case".to_owned())
        }
        (_, extra::NONE, _) if extra == 0 => Ok(format!("{name} {left} {target}")),
        _ => Ok(format!("{name} {left} {target} # and an extra {extra_case}, {extra}")),
    }
}

pub fn put_groups(text: &mut String, day: &Day) -> Result<(), String> {
    let members = day.group_lengths.iter().map(|&length| length as usize).sum::<usize>();
    if members != day.group_members.len() {
        return Err("the groups have not the lengths that are told".to_owned());
    }
    for group in day.groups() {
        put(text, &listed("group", &group));
    }
    Ok(())
}

/// The first schedule, and moves from each to the next. Several moves upward leave
/// what one update leaves.
pub fn put_trail(text: &mut String, day: &Day, trail: &[Schedule]) {
    let entries = trail[0].iter().map(|slot| entry(*slot)).collect::<Vec<_>>();
    put(text, &listed("schedule", &entries));
    for pair in trail.windows(2) {
        let moved = |choice: &usize| pair[0][*choice] != pair[1][*choice];
        let moved = (0..day.choices).filter(moved).collect::<Vec<_>>();
        match (moved.len(), day.choices) {
            (0, 0) => put(text, "# An update that moves nothing."),
            (0, _) => put(text, &format!("move 0 {} # nothing is moved", entry(pair[1][0]))),
            (1, _) => (),
            (count, _) => put(text, &format!("# One update in the call, of {count} moves:")),
        }
        for choice in moved {
            put(text, &format!("move {choice} {}", entry(pair[1][choice])));
        }
    }
}

/// A seat a line; comments instead, where the model does not give the plan.
pub fn put_plan(text: &mut String, day: &Day, plan: &[u8], can_be_had: bool) {
    let seats = plan.get(..day.choosers.saturating_mul(day.slots)).unwrap_or(plan);
    let front = if can_be_had { "" } else { "# " };
    if !can_be_had && !seats.is_empty() {
        put(text, "# The plan of the call, which the model does not give:");
    }
    for (seat, choice) in seats.iter().enumerate() {
        let (chooser, slot) = (seat / day.slots, seat % day.slots);
        put(text, &format!("{front}seat {chooser} {slot} {choice}"));
    }
}

/// A slot as a file names it. Those that a schedule cannot hold cross as the last
/// that it can.
fn entry(slot: Option<usize>) -> String {
    slot.map_or("-".to_owned(), |slot| slot.min(254).to_string())
}

#[cfg(test)]
mod tests {
    use super::float;
    use crate::scores::SPECIAL;

    #[test]
    fn finite_floats_are_read_as_the_same_bits() {
        let around = |bits: u32| [bits.wrapping_sub(1), bits, bits.wrapping_add(1)];
        let steps = (0..=u32::MAX).step_by(10_007);
        let all = SPECIAL.into_iter().flat_map(around).chain(steps).map(f32::from_bits);
        for own in all.filter(|own| own.is_finite()) {
            let read = float(own).parse::<f32>().expect("a float");
            assert_eq!(read.to_bits(), own.to_bits());
        }
    }
}
