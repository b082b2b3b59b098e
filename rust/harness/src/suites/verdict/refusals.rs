//! Verdicts and scores on damaged input: the number that the second reading
//! gives, zeros beside it, and no byte changed. What the damage leaves sound is
//! compared with the Rust.
use super::calls::{COMPLETE, Call, Calls, Judge, SCHEDULING};
use crate::damage::{self, Damage, Input};
use crate::day::Day;
use crate::features::Features;
use crate::plan::{PLAN, random_plan};
use crate::random::Random;
use crate::reading::{Handed, Layout, faults};
use crate::run::{Days, Outcome, Run};
use crate::schedule::random_schedule;
use crate::suites::refused::{self, Numbers, first};
use oracle::Problem;

const DAYS: Days = Days { usual: 20_000, for_features: 10_000 };

/// The numbers by which each call refuses. Its done calls are looked for too.
pub const NUMBERS: [Numbers; 5] = [
    ("satisfies_constraints_scheduling", &[0, 1, 2, 3, 4, 7, 8, 9, 10, 11]),
    ("schedule_is_feasible", &[0, 1, 2, 3, 4, 7, 8, 9, 10, 11]),
    ("satisfies_constraints_assignment", &[0, 1, 2, 3, 4, 7, 8, 9, 10, 11, 13]),
    ("is_feasible", &[0, 1, 2, 3, 4, 7, 8, 9, 10, 11, 13]),
    ("evaluate", &[0, 1, 2, 3, 4, 7, 8, 9, 10, 11, 13]),
];

/// What each call is lent as bytes of a layout.
const LAYOUTS: [Layout; 2] = [Layout::Day, Layout::Schedule];

pub fn run(run: &mut Run) {
    refused::each_day(run, DAYS, &damage::of_verdicts(), &NUMBERS, one_day);
}

fn one_day(random: &mut Random, damages: &[&Damage], features: &mut Features) -> Outcome {
    refused::one_day(random, damages, features, input, all_calls)
}

/// All calls on an input, with some kind of solution.
pub fn all_calls(
    random: &mut Random,
    features: &mut Features,
    problem: &Problem,
    input: &Input,
) -> Outcome {
    for call in Call::all(random.pick(&[COMPLETE, COMPLETE, COMPLETE, SCHEDULING, 0, 3])) {
        one_call(random, features, problem, input, call)?;
    }
    Ok(())
}

/// Sound input, save where there are seats and no choice to sit in: there every
/// plan is refused.
pub fn input(random: &mut Random, day: &Day) -> Input {
    let schedule = random_schedule(random, day);
    let plan = random_plan(random, day, &schedule).unwrap_or(vec![0; PLAN]);
    Input { schedule, plan, ..Input::bare(day.clone()) }
}

fn one_call(
    random: &mut Random,
    features: &mut Features,
    problem: &Problem,
    input: &Input,
    call: Call,
) -> Outcome {
    let Input { day, schedule, plan, .. } = input;
    let all = Handed {
        day: Some(day),
        preferences: call.reads_tables().then_some(&day.preferences),
        powers: call.reads_tables().then_some(&day.powers),
        layouts: &input.layouts(&LAYOUTS),
        schedule: Some(schedule),
        plan: Some(plan),
        ..Handed::default()
    };
    let layouts = if call.reads_schedule() { &LAYOUTS[..] } else { &LAYOUTS[..1] };
    let handed = Handed {
        layouts: &input.layouts(layouts),
        schedule: all.schedule.filter(|_| call.reads_schedule()),
        plan: all.plan.filter(|_| call.reads_plan()),
        ..all
    };
    let number = first(features, call.name(), &faults(&handed));
    look(features, call, &faults(&all), number);
    let lent = LAYOUTS.map(|layout| input.lend(random, layout));
    let mut calls = Calls::lent(random, day, lent, plan);
    if number > 0 {
        return calls.gives(call, call.refused(number));
    }
    let judge = Judge { day, problem, has_own_powers: false };
    calls.gives(call, judge.answer(call, schedule, plan))
}

/// What a solution has not makes no difference to its score.
fn look(features: &mut Features, call: Call, of_all: &[u32], number: u32) {
    if let Call::Evaluate { solution } = call {
        let is_scheduling = solution == SCHEDULING;
        for passed in [2, 11, 13] {
            let is_passed = number == 0 && of_all.contains(&passed);
            let name = format!("evaluate passes over {passed}");
            if passed != 11 {
                features.look(format!("{name}, Scheduling"), is_passed && is_scheduling);
            }
            features.look(format!("{name}, Invalid"), is_passed && !is_scheduling);
        }
    }
}
