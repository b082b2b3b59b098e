//! The calls on a plan on damaged input: the number that the second reading
//! gives, zeros beside it, and no byte changed. What the damage leaves sound is
//! compared with the Rust.
use super::calls::{Call, Calls};
use crate::damage::{self, Damage, Input, random_asked};
use crate::day::Day;
use crate::features::Features;
use crate::plan::{PLAN, rows, wild_plan};
use crate::random::Random;
use crate::reading::{Asked, Buffer, Handed, Layout, faults};
use crate::run::{Days, Outcome, Run};
use crate::suites::refused::{self, Numbers, first};
use oracle::Problem;
use oracle::calls::Seated;

const DAYS: Days = Days { usual: 20_000, for_features: 5_000 };

/// The numbers by which each call refuses. Its done calls are looked for too.
pub const NUMBERS: [Numbers; 4] = [
    ("choosers_ordered", &[0, 1, 2, 3, 4, 7, 8, 9, 10, 13]),
    ("choices_ordered", &[0, 1, 2, 3, 4, 7, 8, 9, 10, 13]),
    ("is_in_choice", &[0, 1, 2, 3, 4, 7, 8, 9, 10, 13]),
    ("choice_of", &[0, 1, 2, 3, 4, 7, 8, 9, 10, 13]),
];

pub fn run(run: &mut Run) {
    refused::each_day(run, DAYS, &damage::of_rosters(), &NUMBERS, one_day);
}

fn one_day(random: &mut Random, damages: &[&Damage], features: &mut Features) -> Outcome {
    refused::one_day(random, damages, features, input, all_calls)
}

/// All calls on an input.
pub fn all_calls(
    random: &mut Random,
    features: &mut Features,
    problem: &Problem,
    input: &Input,
) -> Outcome {
    for call in calls(&input.asked) {
        one_call(random, features, problem, input, call)?;
    }
    Ok(())
}

/// Sound input, save where there are seats and no choice: there every plan is
/// refused.
pub fn input(random: &mut Random, day: &Day) -> Input {
    Input {
        buffers: vec![(Buffer::Roster, Buffer::Roster.named_length() + random.below(3))],
        asked: random_asked(random, day),
        plan: wild_plan(random, day).unwrap_or(vec![0; PLAN]),
        ..Input::bare(day.clone())
    }
}

/// The calls about what was asked last of each sort. Damage adds at the end.
fn calls(asked: &[Asked]) -> [Call; 4] {
    let (mut chooser, mut choice, mut slot) = (0, 0, 0);
    for &asked in asked {
        match asked {
            Asked::Chooser(asked) => chooser = asked,
            Asked::Choice(asked) => choice = asked,
            Asked::Slot(asked) => slot = asked,
        }
    }
    Call::all(chooser, choice, slot)
}

fn one_call(
    random: &mut Random,
    features: &mut Features,
    problem: &Problem,
    input: &Input,
    call: Call,
) -> Outcome {
    let Input { day, plan, buffers, .. } = input;
    let has_roster = matches!(call, Call::ChoosersOrdered { .. } | Call::ChoicesOrdered { .. });
    let handed = Handed {
        day: Some(day),
        plan: Some(plan),
        layouts: &input.layouts(&[Layout::Day]),
        asked: &call.asked(),
        buffers: &buffers[..usize::from(has_roster)],
        ..Handed::default()
    };
    let number = first(features, call.name(), &faults(&handed));
    let mut calls = Calls::new(day, input.lend(random, Layout::Day), plan, input.buffers[0].1);
    if number > 0 {
        return calls.gives(call, (call.refused(number), Vec::new()));
    }
    let seated = Seated::new(problem, &rows(day, plan));
    calls.gives(call, call.rust(&seated))
}
