//! Models: limits that look small in a byte or in 16 bits, groups of which an edge
//! is missing, lists in a carried order, and each value changed.
use super::{plain_day, tie};
use crate::bridge;
use crate::constraint::kind;
use crate::day::Day;
use crate::features::Features;
use crate::random::Random;
use crate::run::{Outcome, Run};
use crate::schedule::whole;
use crate::suites::model::scene::Scene;
use crate::suites::model::trial::Trial;
use oracle::Record;

/// Limits around preferences, and those that a byte, 16 bits or a sign would make
/// others of.
const LIMITS: [u32; 19] = [
    0,
    1,
    2,
    199,
    200,
    254,
    255,
    256,
    257,
    456,
    511,
    512,
    65_535,
    65_536,
    65_537,
    65_736,
    1 << 31,
    (1 << 31) + 1,
    u32::MAX,
];

pub fn run(run: &mut Run) {
    for limit in LIMITS {
        one_model(run, &limited_day(), limit, solved);
    }
    for day in tied_days() {
        for limit in [0, 2] {
            one_model(run, &day, limit, solved);
        }
        for limit in [1, 3] {
            one_model(run, &day, limit, solved_and_changed);
        }
    }
}

/// Preferences at and around the limits.
fn limited_day() -> Day {
    let mut day = Day {
        max_preference: 255,
        preferences: vec![0, 1, 200, 255, 255, 200, 1, 0],
        ..plain_day(2, 4, 2)
    };
    day.fill_tables();
    day
}

/// Days with every kind of assignment constraint and with dependent groups of
/// several lengths, one of them with a member that has no slot.
fn tied_days() -> Vec<Day> {
    let mut day = Day {
        max_preference: 3,
        mins: vec![0, 1, 0, 1, 0],
        maxs: vec![3, 2, 1, 3, 3],
        preferences: vec![0, 1, 0, 2, 0, 1, 0, 3, 0, 0, 2, 2, 1, 0, 3],
        ..plain_day(3, 5, 2)
    };
    day.fill_tables();
    let mut days = Vec::new();
    for constraint in [
        tie(kind::CHOOSERS_HAVE_SAME_CHOICES, 0, 1),
        tie(kind::CHOOSERS_HAVE_SAME_CHOICES, 2, 0),
        tie(kind::CHOOSERS_HAVE_SAME_CHOICES, 1, 1),
        tie(kind::CHOICES_HAVE_SAME_CHOOSERS, 0, 3),
        tie(kind::CHOOSER_IS_IN_CHOICE, 1, 3),
        tie(kind::CHOOSER_IS_NOT_IN_CHOICE, 2, 1),
    ] {
        days.push(Day { assignment: vec![constraint], ..day.clone() });
    }
    for groups in [&[&[0, 3][..]][..], &[&[1]], &[&[]], &[&[2, 4], &[1, 3, 2]]] {
        let mut day = day.clone();
        groups.iter().for_each(|group| day.push_group(group));
        days.push(day);
    }
    let both = [days[0].assignment[0], days[5].assignment[0]];
    let mut last = Day { assignment: both.to_vec(), ..day };
    last.push_group(&[0, 3]);
    days.push(last);
    days
}

/// The model of a fresh state, and of one that was carried there and back.
fn one_model(run: &mut Run, day: &Day, limit: u32, values: fn(&Record) -> Vec<Vec<i32>>) {
    let problem = bridge::problem(day);
    let first = whole(&[Some(0), Some(0), Some(1), Some(1), None][..day.choices]);
    let mut moved = first.clone();
    (moved[0], moved[2]) = (Some(1), None);
    for moves in [&[][..], &[moved, first.clone()]] {
        run.case(|random| {
            let mut scene = Scene::built_for(random, day, &problem, &first)?;
            for schedule in moves {
                scene.rust = scene.solver.prepare(&schedule[..day.choices]);
                scene.walk.update(random, schedule, &scene.rust)?;
            }
            judged(random, scene, limit, values)
        });
    }
}

fn judged(
    random: &mut Random,
    mut scene: Scene,
    limit: u32,
    values: fn(&Record) -> Vec<Vec<i32>>,
) -> Outcome {
    let model = scene.solver.model(limit);
    scene.calls(random).models(limit, &model)?;
    let mut features = Features::default();
    let mut trial = Trial::new(random, &mut features, scene, limit);
    for values in values(&model) {
        trial.judge(random, &values)?;
    }
    Ok(())
}

/// Values that are accepted, or zeros where there are none.
fn solved(model: &Record) -> Vec<Vec<i32>> {
    vec![match oracle::solve(model) {
        oracle::Outcome::Solved(values) => values,
        _ => vec![0; model.edges.len()],
    }]
}

/// The same, and each edge changed.
fn solved_and_changed(model: &Record) -> Vec<Vec<i32>> {
    let mut all = solved(model);
    for edge in 0..model.edges.len() {
        for change in [-1, 1] {
            let mut values = all[0].clone();
            values[edge] += change;
            all.push(values);
        }
    }
    all
}
