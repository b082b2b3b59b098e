//! Verdicts and scores of the sample day, of the Rust and of the port.
use super::SCHEDULE;
use super::models::rows;
use crate::answers::{Pair, score_bits};
use crate::bridge;
use crate::constraint::{Constraint, extra, kind, target};
use crate::day::{Day, sample_day};
use crate::plan::of_rows;
use crate::run::{Run, wanted};
use crate::schedule::whole;
use crate::scores::INFINITE;
use crate::suites::verdict::calls::{Answer, COMPLETE, Call, Calls, Judge, SCHEDULING};
use oracle::Plan;
use port::{ScoreAnswer, VerdictAnswer};

pub fn run(run: &mut Run) {
    let day = sample_day();
    let out_of_columns = vec![vec![2, 1], vec![2, 0]];
    let two_in_0 = vec![vec![0, 2], vec![0, 2]];
    one_plan(run, &day, &rows(), (1.0, 0.25));
    one_plan(run, &Day { greedy: true, ..sample_day() }, &rows(), (f32::NAN, 0.25));
    one_plan(run, &day, &out_of_columns, (1.0, 0.25));
    one_plan(run, &day, &two_in_0, INFINITE);
    for (offset, holds) in [(1, true), (-1, false)] {
        one_offset(run, offset, holds);
    }
}

/// The verdict and the score of a plan, which is feasible where that is finite.
fn one_plan(run: &mut Run, day: &Day, rows: &Plan, score: Pair) {
    let holds = score != INFINITE;
    let score = ScoreAnswer { number: 0, score: score_bits(score) };
    gives(run, day, rows, Call::IsFeasible, verdict(holds));
    gives(run, day, rows, Call::Evaluate { solution: COMPLETE }, Answer::Score(score));
    let none = ScoreAnswer { number: 0, score: score_bits(INFINITE) };
    gives(run, day, rows, Call::Evaluate { solution: SCHEDULING }, Answer::Score(none));
}

/// Choice 2 is one slot after choice 0: the offset is right slot minus left slot.
fn one_offset(run: &mut Run, offset: i32, holds: bool) {
    let constraint = Constraint {
        kind: kind::CHOICES_HAVE_OFFSET,
        left: 0,
        target_case: target::CHOICE,
        target: 2,
        extra_case: extra::OFFSET,
        extra: offset,
    };
    let day = Day { scheduling: vec![constraint], ..sample_day() };
    for call in [Call::SatisfiesScheduling, Call::ScheduleIsFeasible] {
        gives(run, &day, &rows(), call, verdict(holds));
    }
}

fn verdict(holds: bool) -> Answer {
    Answer::Verdict(VerdictAnswer { number: 0, holds: holds.into() })
}

/// The call gives this answer, in the Rust and in the port.
fn gives(run: &mut Run, day: &Day, rows: &Plan, call: Call, answer: Answer) {
    let problem = bridge::problem(day);
    run.case(|random| {
        let (schedule, plan) = (whole(&SCHEDULE), of_rows(random, day, rows));
        let judge = Judge { day, problem: &problem, has_own_powers: true };
        let rust = judge.answer(call, &schedule, &plan);
        wanted(rust, answer, || format!("the Rust's {call:?} of rows {rows:?}"))?;
        Calls::new(random, day, &schedule, &plan).gives(call, answer)
    });
}
