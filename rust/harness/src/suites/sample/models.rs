//! Models and plans of the sample day, of the Rust and of the port.
use super::SCHEDULE;
use crate::bridge;
use crate::constraint::{Constraint, kind, target};
use crate::day::{Day, sample_day};
use crate::features::Features;
use crate::random::Random;
use crate::reading;
use crate::run::{Failure, Run, wanted};
use crate::schedule::whole;
use crate::suites::model::calls::Asked;
use crate::suites::model::scene::Scene;
use crate::suites::model::trial::Trial;
use oracle::{Edge, Plan, Problem, Record};
use std::collections::BTreeSet;

/// The values that SPEC 13.5 gives at limit 1.
const VALUES: [i32; 8] = [0, 1, 1, 1, 1, 0, 1, 0];

pub fn run(run: &mut Run) {
    let same_choices = Constraint {
        kind: kind::CHOOSERS_HAVE_SAME_CHOICES,
        target_case: target::CHOOSER,
        target: 1,
        ..Constraint::default()
    };
    let tied = Day { assignment: vec![same_choices], ..sample_day() };
    let groups = vec![vec![0, 3], vec![2, 4]];
    one_model(run, &sample_day(), model_at_1());
    one_model(run, &tied, Record { groups, blocked: vec![1], ..model_at_1() });
    values(run);
    plans_to_be_had(run);
}

/// The model of SPEC 13.4 at limit 1. Its costs are those of preferences 0 and 1.
fn model_at_1() -> Record {
    let ends = [(0, 4), (0, 5), (1, 6), (2, 4), (3, 6), (4, 7), (5, 7), (6, 8)];
    let maxs = [1, 1, 1, 1, 1, 0, 2, 0];
    let costs = [1, 8, 1, 1, 8, 0, 0, 0];
    let supply = vec![1, 1, 1, 1, -1, 0, -2, -1, 0];
    let mut incoming = vec![Vec::new(); supply.len()];
    let mut outgoing = incoming.clone();
    let mut edges = Vec::new();
    for (place, &(from, to)) in ends.iter().enumerate() {
        outgoing[from].push(place);
        incoming[to].push(place);
        edges.push(Edge { from, to, max: maxs[place], cost: costs[place] });
    }
    Record { edges, supply, incoming, outgoing, ..Record::default() }
}

/// The model of a day at limit 1.
fn one_model(run: &mut Run, day: &Day, model: Record) {
    let problem = bridge::problem(day);
    run.case(|_| {
        let mut solver = problem.solver();
        solver.prepare(&SCHEDULE);
        wanted(&solver.model(1), &model, || "the Rust's model at 1".to_owned())
    });
    run.case(|random| scene(random, day, &problem)?.calls(random).models(1, &model));
}

/// The values of SPEC 13.5 at limit 1 and two changes of the one of edge 6.
fn values(run: &mut Run) {
    let (day, model) = (sample_day(), model_at_1());
    let problem = bridge::problem(&day);
    run.case(|_| {
        let mut solver = problem.solver();
        solver.prepare(&SCHEDULE);
        let plan = solver.decode(1, &VALUES);
        let is_feasible = oracle::calls::plan_is_feasible(&problem, &SCHEDULE, &plan);
        let score = oracle::calls::evaluate(&problem, Some(&SCHEDULE), Some(&plan));
        wanted((plan, is_feasible, score), (rows(), true, (1.0, 0.25)), || "the plan".to_owned())
    });
    for (value, number) in [(1, 0), (3, 14), (0, 17)] {
        let mut values = VALUES.to_vec();
        values[6] = value;
        run.case(|_| {
            let found = reading::values_number(&model, &values);
            wanted(found, number, || format!("edge 6 given {value}"))
        });
        run.case(|random| {
            let mut calls = scene(random, &day, &problem)?.calls(random);
            let asked = Asked { limit: 1, values: Some(calls.with_rest(random, &values)) };
            calls.judges(&asked, &model, number, rows)?;
            Ok(())
        });
    }
}

pub(super) fn rows() -> Plan {
    vec![vec![1, 2], vec![0, 2]]
}

/// All values within the bounds tried: limit 0 has no plan, limit 1 that of SPEC,
/// and limit 2 one more. Rows 2 1 and 2 0 are not among them.
fn plans_to_be_had(run: &mut Run) {
    let day = sample_day();
    let problem = bridge::problem(&day);
    let other = vec![vec![0, 2], vec![1, 2]];
    let plans = [vec![], vec![rows()], vec![rows(), other]];
    for (limit, plans) in (0..).zip(plans) {
        run.case(|random| {
            let scene = scene(random, &day, &problem)?;
            let mut features = Features::default();
            let mut trial = Trial::new(random, &mut features, scene, limit);
            let has_none = oracle::solve(&trial.model) == oracle::Outcome::Infeasible;
            let mut had = BTreeSet::new();
            for values in bounded(&trial.model) {
                had.extend(trial.judge(random, &values)?);
            }
            let input = || format!("plans at limit {limit}");
            wanted((has_none, had), (plans.is_empty(), plans.into_iter().collect()), input)
        });
    }
}

/// All values from 0 to max on every edge.
fn bounded(model: &Record) -> Vec<Vec<i32>> {
    let mut all = vec![Vec::new()];
    for edge in &model.edges {
        let with_one = |values: &Vec<i32>| {
            let values = values.clone();
            (0..=edge.max).map(move |value| [&values[..], &[value]].concat())
        };
        all = all.iter().flat_map(with_one).collect();
    }
    all
}

/// The state of the sample's schedule.
fn scene<'a>(
    random: &mut Random,
    day: &'a Day,
    problem: &'a Problem,
) -> Result<Scene<'a>, Failure> {
    Scene::built_for(random, day, problem, &whole(&SCHEDULE))
}
