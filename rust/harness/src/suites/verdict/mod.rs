//! Verdicts and scores beside the Rust's, of schedules and of plans that the
//! exact solver finds, changed ones and wild ones, on days aimed at them.
mod aim;
pub mod calls;
pub mod refusals;

use crate::bridge;
use crate::day::{Day, Size, random_size};
use crate::features::Features;
use crate::plan::{PLAN, Plan, changed_plan, of_rows, random_plan, rows};
use crate::random::Random;
use crate::run::{Days, Outcome, Run};
use crate::schedule::{Schedule, changed_schedule, random_schedule};
use aim::{Aimed, fit_choices, random_aimed};
use calls::{Answer, COMPLETE, Call, Calls, Judge, SCHEDULING};
use oracle::Problem;

const DAYS: Days = Days { usual: 20_000, for_features: 10_000 };

pub fn run(run: &mut Run) {
    let mut features = Features::default();
    run.each_day(DAYS, &mut features, one_day);
}

fn one_day(random: &mut Random, features: &mut Features) -> Outcome {
    let size = random_size(random);
    let Aimed { day, schedule, has_own_powers } = random_aimed(random, size);
    let problem = bridge::problem(&day);
    let judge = Judge { day: &day, problem: &problem, has_own_powers };
    let changed = changed_schedule(random, &day, &schedule);
    let other = random_schedule(random, &day);
    try_schedule(random, features, &judge, &other)?;
    for schedule in [&schedule, &changed] {
        try_schedule(random, features, &judge, schedule)?;
        for plan in plans(random, features, size, &judge, schedule) {
            try_plan(random, features, &judge, schedule, &plan)?;
            if random.chance(40) {
                let day = fit_choices(random, &day, &plan);
                let judge = Judge { day: &day, problem: &bridge::problem(&day), has_own_powers };
                try_plan(random, features, &judge, schedule, &plan)?;
            }
        }
    }
    Ok(())
}

/// Plans of scheduled choices.
fn plans(
    random: &mut Random,
    features: &mut Features,
    size: Size,
    judge: &Judge,
    schedule: &Schedule,
) -> Vec<Plan> {
    let day = judge.day;
    let mut plans = random_plan(random, day, schedule).into_iter().collect::<Vec<_>>();
    let rate = match size {
        Size::Small => 100,
        Size::Middle => 30,
        Size::Full => 10,
    };
    if random.chance(rate) {
        let solved = solved_plan(random, day, judge.problem, schedule);
        features.look(format!("a solved plan of a {size:?} day"), solved.is_some());
        plans.extend(solved);
    }
    if let Some(plan) = plans.last() {
        plans.push(changed_plan(random, day, schedule, plan));
    }
    plans
}

/// A plan that can be had at some limit, by the exact solver.
fn solved_plan(
    random: &mut Random,
    day: &Day,
    problem: &Problem,
    schedule: &Schedule,
) -> Option<Plan> {
    let level = random.pick_some(&day.levels).unwrap_or(day.max_preference);
    let limit = random.pick(&[level, day.max_preference, day.max_preference]);
    let mut solver = problem.solver();
    solver.prepare(&schedule[..day.choices]);
    match oracle::solve(&solver.model(limit)) {
        oracle::Outcome::Solved(values) => {
            Some(of_rows(random, day, &solver.decode(limit, &values)))
        }
        _ => None,
    }
}

/// The calls that have no plan: both on the schedule, and the score of a solution
/// that is not Complete, beside which anything may stand.
fn try_schedule(
    random: &mut Random,
    features: &mut Features,
    judge: &Judge,
    schedule: &Schedule,
) -> Outcome {
    let length = random.pick(&[0, 1, PLAN - 1, PLAN, PLAN + 1]);
    let plan = vec![random.bits() as u8; length];
    let invalid = random.pick(&[0, 3, 256 + COMPLETE, (1 << 31) + SCHEDULING, u32::MAX]);
    let mut calls = Calls::new(random, judge.day, schedule, &plan);
    for call in Call::all(SCHEDULING).into_iter().filter(|call| !call.reads_plan()) {
        let answer = judge.answer(call, schedule, &plan);
        look(features, judge.day, schedule, call, answer);
        calls.gives(call, answer)?;
    }
    let wild = (0..schedule.len()).map(|_| Some(random.below(300))).collect();
    let call = Call::Evaluate { solution: invalid };
    let answer = judge.answer(call, &wild, &plan);
    Calls::new(random, judge.day, &wild, &plan).gives(call, answer)
}

/// The calls that have a plan.
fn try_plan(
    random: &mut Random,
    features: &mut Features,
    judge: &Judge,
    schedule: &Schedule,
    plan: &Plan,
) -> Outcome {
    let mut calls = Calls::new(random, judge.day, schedule, plan);
    for call in Call::all(COMPLETE).into_iter().filter(|call| call.reads_plan()) {
        let answer = judge.answer(call, schedule, plan);
        look(features, judge.day, schedule, call, answer);
        look_at_plan(features, judge, schedule, plan, answer);
        calls.gives(call, answer)?;
    }
    Ok(())
}

fn look(features: &mut Features, day: &Day, schedule: &Schedule, call: Call, answer: Answer) {
    let Answer::Verdict(verdict) = answer else {
        return;
    };
    let name = call.name();
    let (holds, seats) = (verdict.holds == 1, day.choosers * day.slots);
    features.look(format!("{name}: no"), !holds);
    features.look(format!("{name}: yes, all sizes full"), holds && seats == PLAN);
    features.look(format!("{name}: yes, no slots"), holds && day.slots == 0);
    features.look(format!("{name}: yes, no choosers"), holds && day.choosers == 0);
    features.look(format!("{name}: yes, no choices"), holds && day.choices == 0);
    let left_out = schedule[..day.choices].contains(&None);
    features.look(format!("{name}: yes, a choice left out"), holds && left_out && seats > 0);
    let list = match call {
        Call::SatisfiesScheduling => &day.scheduling,
        Call::SatisfiesAssignment => &day.assignment,
        _ => return,
    };
    for kind in list.iter().map(|constraint| constraint.kind) {
        let is_alone = list.iter().all(|constraint| constraint.kind == kind);
        let is_one = list.len() == 1;
        features.look(format!("kind {kind} is kept"), holds);
        features.look(format!("kind {kind} is kept, several alone"), holds && is_alone && !is_one);
        features.look(format!("one of kind {kind} is kept"), holds && is_one);
        features.look(format!("one of kind {kind} is broken"), !holds && is_one);
    }
    features.look(format!("{name}: yes, all constraints"), holds && list.len() > 4);
}

fn look_at_plan(
    features: &mut Features,
    judge: &Judge,
    schedule: &Schedule,
    plan: &Plan,
    answer: Answer,
) {
    let (day, rows) = (judge.day, rows(judge.day, plan));
    let misfit = |(slot, &choice): (usize, &usize)| schedule[choice] != Some(slot);
    let is_out = rows.iter().any(|row| row.iter().enumerate().any(misfit));
    match answer {
        Answer::Verdict(verdict) => {
            features.look("a feasible plan out of its columns", verdict.holds == 1 && is_out);
        }
        Answer::Score(answer) => {
            let score = answer.score;
            let is_infinite = score == port::infinite();
            let has_seats = day.choosers * day.slots > 0;
            let is_finite = !is_infinite && has_seats;
            let is_special = is_finite && !judge.has_own_powers;
            features.look("a finite score", is_finite && !day.greedy);
            features.look("a finite score, greedy", is_finite && day.greedy);
            features.look("a finite score of other powers", is_special);
            features.look("a finite score below 0", is_finite && score.minor >> 31 == 1);
            features.look("an infinite score", is_infinite);
            features
                .look("a finite score at max_preference 0", is_finite && day.max_preference == 0);
            features.look("a finite score without seats", !is_infinite && !has_seats);
        }
    }
}
