//! The whole way from a moved choice to a checked plan and its score.
use crate::models::{INPUTS, Port, State};
use crate::states::{Scene, one_moved};
use crate::{Timers, timer};
use harness::answers::score_bits;
use harness::random::Random;
use harness::reading::Buffer;
use harness::schedule::Schedule;
use harness::state::LISTS;
use harness::suites::verdict::calls::COMPLETE;
use oracle::calls::Solved;
use oracle::{Carried, Outcome, Solver};
use port::{InputData, Lent, Scheduling, Score, ScoreTables, Solution};

/// A schedule to go to, with values that its model accepts.
struct Step {
    schedule: Scheduling,
    values: Vec<i32>,
}

/// The same step for the Rust, with the plan that the values stand for.
struct RustStep {
    scheduling: oracle::Scheduling,
    solved: Solved<'static>,
}

/// The port on its way: update, model, check of values, verdict and score.
struct Way {
    day: InputData,
    limit: u32,
    preferences: Vec<u32>,
    powers: Vec<f32>,
    port: Port,
    state: State,
}

impl Way {
    fn go(&mut self, step: &Step) -> (bool, Score) {
        let Self { day, limit, preferences, powers, port, state } = self;
        let schedule = &step.schedule;
        state.own = port::update(&*day, &state.own, schedule, &mut state.lists).state;
        port.model(*limit, state);
        port.check_values(*limit, state, &step.values);
        let plan = port.lent.lend().1;
        let holds = port::is_feasible(&*day, schedule, &*plan).holds == 1;
        let (preferences, powers) = (Lent::from(&*preferences), Lent::from(&*powers));
        let solution = Solution { kind: COMPLETE, schedule: schedule.into(), plan: plan.into() };
        (holds, port::evaluate(&*day, solution, 0, ScoreTables { preferences, powers }).score)
    }
}

/// The Rust's update, model, verdict and score, with the same plan.
fn go(solver: &mut Solver, carried: &mut Carried, limit: u32, step: &RustStep) -> (bool, Score) {
    *carried = solver.update(carried, &step.scheduling);
    solver.lay_out(carried, limit);
    (step.solved.is_feasible(), score_bits(step.solved.evaluate()))
}

/// A choice is moved and moved back, again and again.
pub fn way(random: &mut Random) -> Timers {
    let scene = Scene::new(random, 0);
    let (old, new) = one_moved(random);
    let limit = scene.day.max_preference;
    let steps = steps(&scene, limit, [&old, &new]);
    let (old_own, old_rust) = scene.schedule(&old);
    let mut lists = [0; LISTS];
    let own = port::build(&scene.port, &old_own, &mut lists).state;
    let (preferences, powers) = (scene.day.preferences.clone(), scene.day.powers.clone());
    let (day, port) = (scene.port, Port::new(&scene));
    let mut way = Way { day, limit, preferences, powers, port, state: State { own, lists } };
    let mut carried = scene.rust.build(&old_rust);
    let mut solver = scene.rust;
    // After once to and fro the lists stand in the order of the values.
    for round in 0..2 {
        for (own, rust) in &steps {
            let (own, rust) = (way.go(own), go(&mut solver, &mut carried, limit, rust));
            assert!(round == 0 || own == rust && own.0);
        }
    }
    let (own, rust): (Vec<_>, Vec<_>) = steps.into_iter().unzip();
    let places = (0..INPUTS).map(|place| place % own.len()).collect::<Vec<_>>();
    let port = timer(places.clone(), move |&place| way.go(&own[place]));
    let rust = timer(places, move |&place| go(&mut solver, &mut carried, limit, &rust[place]));
    (port, Some(rust))
}

/// The way from the first schedule to the second, and back.
fn steps(scene: &Scene, limit: u32, [old, new]: [&Schedule; 2]) -> Vec<(Step, RustStep)> {
    let mut solver = scene.problem.solver();
    for schedule in [old, new, old] {
        solver.prepare(schedule);
    }
    let step = |schedule: &Schedule| {
        solver.prepare(schedule);
        let Outcome::Solved(mut values) = oracle::solve(&solver.model(limit)) else {
            panic!("a day without constraints has a plan");
        };
        let plan = solver.decode(limit, &values);
        values.resize(Buffer::EdgeValues.named_length(), 0);
        let solved = Solved::new(scene.problem, Some(schedule), Some(&plan));
        let (schedule, scheduling) = scene.schedule(schedule);
        (Step { schedule, values }, RustStep { scheduling, solved })
    };
    [new, old].map(step).into()
}
