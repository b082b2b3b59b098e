//! Models of full-size days, and the check and decoding of values on them.
use crate::states::{Scene, dealt};
use crate::{Timers, timer};
use harness::answers;
use harness::random::Random;
use harness::reading::Buffer;
use harness::state::LISTS;
use harness::suites::model::lent::{BUFFERS, Lent};
use oracle::{Carried, Outcome, Plan, Record};
use port::{InputData, ModelAnswer, ModelTables, ScheduleState};

/// Models in a round: one takes as long as many other calls.
pub const INPUTS: usize = 16;

/// A state with its slot lists.
pub struct State {
    pub own: ScheduleState,
    pub lists: [u8; LISTS],
}

/// A state, and values that its model accepts.
struct Input {
    state: State,
    values: Vec<i32>,
}

/// The port's side of a scene.
pub struct Port {
    day: InputData,
    preferences: Vec<u32>,
    costs: Vec<i64>,
    pub lent: Lent,
}

impl Port {
    pub fn new(scene: &Scene) -> Self {
        Self {
            day: scene.port,
            preferences: scene.day.preferences.clone(),
            costs: scene.day.costs.clone(),
            lent: Lent::new(&BUFFERS.map(|buffer| buffer.named_length())),
        }
    }

    pub fn model(&mut self, limit: u32, state: &State) -> ModelAnswer {
        let Self { day, preferences, costs, lent } = self;
        let tables = tables(preferences, costs, state);
        port::model(&*day, &state.own, limit, tables, lent.lend().0)
    }

    pub fn check_values(&mut self, limit: u32, state: &State, values: &[i32]) -> ModelAnswer {
        let Self { day, preferences, costs, lent } = self;
        let tables = tables(preferences, costs, state);
        let (buffers, plan) = lent.lend();
        port::check_values(&*day, &state.own, limit, tables, values, buffers, plan)
    }
}

fn tables<'a>(preferences: &'a [u32], costs: &'a [i64], state: &'a State) -> ModelTables<'a> {
    let lists = (&state.lists).into();
    ModelTables { preferences: preferences.into(), costs: costs.into(), lists }
}

/// A call of the port on a limit and an input.
type Call = fn(&mut Port, u32, &Input) -> ModelAnswer;

/// What the Rust makes of an input: what it starts from, and what must come out.
struct Rust {
    carried: Carried,
    model: Record,
    plan: Plan,
}

/// States of which the model has values, in the form that each side takes.
fn inputs(random: &mut Random, scene: &Scene, limit: u32) -> Vec<(Input, Rust)> {
    let mut inputs = Vec::new();
    while inputs.len() < INPUTS {
        let schedule = dealt(random);
        let mut solver = scene.problem.solver();
        solver.prepare(&schedule);
        let model = solver.model(limit);
        let Outcome::Solved(mut values) = oracle::solve(&model) else {
            continue;
        };
        let plan = solver.decode(limit, &values);
        values.resize(Buffer::EdgeValues.named_length(), 0);
        let (own, rust) = scene.schedule(&schedule);
        let mut lists = [0; LISTS];
        let own = port::build(&scene.port, &own, &mut lists).state;
        let carried = scene.rust.build(&rust);
        let input = Input { state: State { own, lists }, values };
        inputs.push((input, Rust { carried, model, plan }));
    }
    inputs
}

pub fn model<const CONSTRAINTS: usize>(random: &mut Random) -> Timers {
    let call = |port: &mut Port, limit, input: &Input| port.model(limit, &input.state);
    timers(random, CONSTRAINTS, call, |_, _| ())
}

/// Stands beside the Rust's model, since the Rust takes its solver at its word.
pub fn check_values<const CONSTRAINTS: usize>(random: &mut Random) -> Timers {
    let call = |port: &mut Port, limit, input: &Input| {
        port.check_values(limit, &input.state, &input.values)
    };
    timers(random, CONSTRAINTS, call, Lent::expect_plan)
}

/// What is timed must be done, and with the Rust's result.
fn timers(
    random: &mut Random,
    constraints: usize,
    call: Call,
    expect_plan: fn(&mut Lent, &Plan),
) -> Timers {
    let scene = Scene::new(random, constraints);
    let limit = scene.day.max_preference;
    let inputs = inputs(random, &scene, limit);
    let mut port = Port::new(&scene);
    for (input, rust) in &inputs {
        port.lent.expect_model(&rust.model);
        expect_plan(&mut port.lent, &rust.plan);
        assert_eq!(call(&mut port, limit, input), answers::model(&rust.model));
        port.lent.is_right(&|| "the Rust's model".to_owned()).expect("the same result");
    }
    let (own, rust): (Vec<_>, Vec<_>) = inputs.into_iter().unzip();
    let carried = rust.into_iter().map(|rust| rust.carried).collect();
    let mut solver = scene.rust;
    let port = timer(own, move |input| call(&mut port, limit, input));
    (port, Some(timer(carried, move |carried| solver.lay_out(carried, limit))))
}
