//! Both calls on damaged input: the number that the second reading gives, zeros
//! beside it, and no byte changed. What the damage leaves sound is compared with
//! the Rust.
use super::calls::{Asked, Calls};
use super::lent::{BUFFERS, OF_MODEL, VALUES, random_lengths};
use super::scene::{Scene, random_model_day};
use super::{DAYS, random_limit};
use crate::answers;
use crate::bridge;
use crate::damage::{self, Damage, Input};
use crate::day::sample_day;
use crate::day_file;
use crate::features::Features;
use crate::random::Random;
use crate::reading::{Handed, Layout, faults, values_number};
use crate::run::{Outcome, Run, wanted};
use crate::state::LISTS;
use crate::suites::refused::{self, Numbers, damaged, first};
use oracle::Solver;
use std::array;

/// Damaged inputs on each day.
const TRIES: usize = 5;

/// The numbers by which each call refuses. Its done calls are looked for too.
pub const NUMBERS: [Numbers; 2] = [
    ("model", &[0, 1, 2, 3, 4, 6, 7, 8, 9, 10, 11, 12]),
    ("check_values", &[0, 1, 2, 3, 4, 6, 7, 8, 9, 10, 11, 12]),
];

/// Tables of one too few and one too many, and slot lists of one too few.
const TABLES: [fn(&mut Input); 5] = [
    |input| _ = input.day.preferences.pop(),
    |input| input.day.preferences.push(0),
    |input| _ = input.day.costs.pop(),
    |input| input.day.costs.push(0),
    |input| input.state.lists.truncate(LISTS - 1),
];

pub fn run(run: &mut Run) {
    run.fixed(wrong_lengths);
    refused::each_day(run, DAYS, &damage::of_models(), &NUMBERS, one_day);
}

fn wrong_lengths(run: &mut Run) {
    for (place, buffer) in BUFFERS.into_iter().enumerate() {
        let model = if place < OF_MODEL { 2 } else { 0 };
        let short = |input: &mut Input| input.buffers[place].1 = buffer.named_length() - 1;
        run.case(|random| one_length(random, short, [model, 2]));
    }
    for change in TABLES {
        run.case(|random| one_length(random, change, [2, 2]));
    }
}

/// The sample day with a wrong length: each call gives its number.
fn one_length(random: &mut Random, change: impl FnOnce(&mut Input), numbers: [u32; 2]) -> Outcome {
    let day = sample_day();
    let problem = bridge::problem(&day);
    let scene = Scene::built(random, &day, &problem)?;
    let mut input = input(random, &scene);
    change(&mut input);
    let mut features = Features::default();
    let mut trial = Trial::new(random, &mut features, &input, 1);
    wanted(trial.numbers, numbers, || format!("{input:?}"))?;
    trial.model()?;
    trial.check_values(random)
}

fn one_day(random: &mut Random, damages: &[&Damage], features: &mut Features) -> Outcome {
    let day = random_model_day(random);
    let problem = bridge::problem(&day);
    let scene = Scene::built(random, &day, &problem)?.carried(random)?;
    for _ in 0..TRIES {
        let sound = input(random, &scene);
        let input = damaged(random, damages, features, sound);
        let limit = random_limit(random, &day);
        both(random, features, &input, limit)?;
    }
    Ok(())
}

/// Both calls on an input.
pub fn both(random: &mut Random, features: &mut Features, input: &Input, limit: u32) -> Outcome {
    let mut trial = Trial::new(random, features, input, limit);
    trial.model()?;
    trial.check_values(random)
}

/// Sound input: the state that the walk stands at.
pub fn input(random: &mut Random, scene: &Scene) -> Input {
    let lengths = random_lengths(random);
    let state = scene.walk.plain_state();
    Input {
        buffers: BUFFERS.into_iter().zip(lengths).collect(),
        schedule: state.schedule.clone(),
        state,
        trail: day_file::if_noted(|| scene.walk.trail.clone()),
        ..Input::bare(scene.walk.day.clone())
    }
}

/// Both calls on an input, and the number of each before any value is looked at.
struct Trial<'a> {
    features: &'a mut Features,
    input: &'a Input,
    limit: u32,
    calls: Calls<'a>,
    numbers: [u32; 2],
}

impl<'a> Trial<'a> {
    fn new(random: &mut Random, features: &'a mut Features, input: &'a Input, limit: u32) -> Self {
        let Input { day, state, buffers, .. } = input;
        let layouts = [Layout::Day, Layout::State];
        let handed = Handed {
            day: Some(day),
            preferences: Some(&day.preferences),
            costs: Some(&day.costs),
            layouts: &input.layouts(&layouts),
            state: Some(state),
            ..Handed::default()
        };
        let of_model = faults(&Handed { buffers: &buffers[..OF_MODEL], ..handed });
        let of_values = faults(&Handed { buffers, ..handed });
        let numbers =
            [first(features, NUMBERS[0].0, &of_model), first(features, NUMBERS[1].0, &of_values)];
        let lent = layouts.map(|layout| input.lend(random, layout));
        let lengths = array::from_fn(|place| buffers[place].1);
        let calls = Calls::new(day, lent, &state.lists, lengths);
        let calls = calls.after(|| input.file_of_state("model"));
        Self { features, input, limit, calls, numbers }
    }

    fn model(&mut self) -> Outcome {
        let limit = self.limit;
        if self.numbers[0] > 0 {
            let asked = Asked { limit, values: None };
            return self.calls.gives(&asked, answers::refused_model(self.numbers[0]));
        }
        let model = self.rust(|solver| solver.model(limit));
        self.calls.models(limit, &model)
    }

    /// Values that are no good must not decide where another number does.
    fn check_values(&mut self, random: &mut Random) -> Outcome {
        let (limit, number) = (self.limit, self.numbers[1]);
        let value = random.pick(&[0, 0, -1, 1]);
        let is_below = number == 12 && value < 0;
        self.features.look("check_values with 12 and values below 0", is_below);
        let values = vec![value; self.calls.lengths[VALUES]];
        let asked = Asked { limit, values: Some(values.clone()) };
        self.calls.lent.reset();
        if number > 0 {
            return self.calls.gives(&asked, answers::refused_model(number));
        }
        let model = self.rust(|solver| solver.model(limit));
        let used = &values[..model.edges.len()];
        let Input { day, state, .. } = self.input;
        let decode = || bridge::ask(day, state, |solver| solver.decode(limit, used));
        self.calls.judges(&asked, &model, values_number(&model, used), decode)?;
        Ok(())
    }

    fn rust<T>(&self, what: impl FnOnce(&mut Solver) -> T) -> T {
        bridge::ask(&self.input.day, &self.input.state, what)
    }
}
