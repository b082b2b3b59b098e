//! Verdicts and scores of full-size days, without constraints and with as many of
//! either list as a day may have. All of them hold, since a broken one would end
//! a verdict early.
use crate::states::{Scene, dealt, full_day};
use crate::{DAY_INPUTS, Timers, timer};
use harness::answers::score_bits;
use harness::bridge;
use harness::constraint::{Constraint, random_assignment, random_scheduling};
use harness::day::Day;
use harness::plan::{Plan, random_plan, rows};
use harness::random::Random;
use harness::schedule::Schedule;
use harness::suites::verdict::calls::COMPLETE;
use oracle::calls::{Solved, plan_is_feasible};
use port::{InputData, Scheduling, Score, ScoreTables, Solution};
use std::fmt::Debug;

/// A feasible plan as the port takes it.
pub struct Port {
    day: InputData,
    schedule: Scheduling,
    plan: Plan,
    preferences: Vec<u32>,
    powers: Vec<f32>,
}

pub fn satisfies_scheduling<const CONSTRAINTS: usize>(random: &mut Random) -> Timers {
    let port =
        |port: &Port| port::satisfies_constraints_scheduling(&port.day, &port.schedule).holds;
    timers(random, CONSTRAINTS, port, |solved| solved.satisfies_scheduling().into())
}

pub fn schedule_is_feasible<const CONSTRAINTS: usize>(random: &mut Random) -> Timers {
    let port = |port: &Port| port::schedule_is_feasible(&port.day, &port.schedule).holds;
    timers(random, CONSTRAINTS, port, |solved| solved.schedule_is_feasible().into())
}

pub fn satisfies_assignment<const CONSTRAINTS: usize>(random: &mut Random) -> Timers {
    let port = |port: &Port| {
        port::satisfies_constraints_assignment(&port.day, &port.schedule, &port.plan).holds
    };
    timers(random, CONSTRAINTS, port, |solved| solved.satisfies_assignment().into())
}

pub fn is_feasible<const CONSTRAINTS: usize>(random: &mut Random) -> Timers {
    let port = |port: &Port| port::is_feasible(&port.day, &port.schedule, &port.plan).holds;
    timers(random, CONSTRAINTS, port, |solved| solved.is_feasible().into())
}

pub fn evaluate<const CONSTRAINTS: usize>(random: &mut Random) -> Timers {
    timers(random, CONSTRAINTS, score, |solved| score_bits(solved.evaluate()))
}

fn score(port: &Port) -> Score {
    let Port { day, schedule, plan, preferences, powers } = port;
    let solution = Solution { kind: COMPLETE, schedule: schedule.into(), plan: plan.into() };
    let tables = ScoreTables { preferences: preferences.into(), powers: powers.into() };
    port::evaluate(day, solution, 0, tables).score
}

/// What is timed must be done by both, and with the same result.
fn timers<T: PartialEq + Debug + 'static>(
    random: &mut Random,
    constraints: usize,
    port: fn(&Port) -> T,
    rust: fn(&Solved<'static>) -> T,
) -> Timers {
    let (own, solved) = feasible(random, constraints);
    assert_eq!(port(&own), rust(&solved));
    let times = vec![(); DAY_INPUTS];
    let port = timer(times.clone(), move |()| port(&own));
    (port, Some(timer(times, move |()| rust(&solved))))
}

/// A feasible plan of a day with this many constraints of either list, in the
/// form that each side takes.
fn feasible(random: &mut Random, constraints: usize) -> (Port, Solved<'static>) {
    let (mut day, schedule) = (full_day(), dealt(random));
    let plan = feasible_plan(random, &day, &schedule);
    let mut list = |constraint| {
        let kept = |_| kept(random, &day, &schedule, &plan, constraint);
        (0..constraints).map(kept).collect()
    };
    let lists = (list(random_scheduling), list(random_assignment));
    (day.scheduling, day.assignment) = lists;
    let scene = Scene::of(random, day);
    let (own, _) = scene.schedule(&schedule);
    let rust = Solved::new(scene.problem, Some(&schedule), Some(&rows(&scene.day, &plan)));
    assert!(rust.schedule_is_feasible() && rust.is_feasible());
    let Day { preferences, powers, .. } = scene.day;
    (Port { day: scene.port, schedule: own, plan, preferences, powers }, rust)
}

fn feasible_plan(random: &mut Random, day: &Day, schedule: &Schedule) -> Plan {
    loop {
        let plan = random_plan(random, day, schedule).expect("all choices are scheduled");
        if is_kept(day, schedule, &plan) {
            return plan;
        }
    }
}

/// A constraint that the schedule and the plan keep.
fn kept(
    random: &mut Random,
    day: &Day,
    schedule: &Schedule,
    plan: &Plan,
    constraint: fn(&mut Random, &Day) -> Option<Constraint>,
) -> Constraint {
    loop {
        let one = constraint(random, day).expect("a full day has operands");
        let (scheduling, assignment) =
            if one.kind < 65_536 { (vec![one], Vec::new()) } else { (Vec::new(), vec![one]) };
        if is_kept(&Day { scheduling, assignment, ..day.clone() }, schedule, plan) {
            return one;
        }
    }
}

fn is_kept(day: &Day, schedule: &Schedule, plan: &Plan) -> bool {
    plan_is_feasible(&bridge::problem(day), schedule, &rows(day, plan))
}
