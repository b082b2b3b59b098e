//! Times the port beside the Rust and prints a table.
#![forbid(unsafe_code)]

mod models;
mod plans;
mod states;
mod verdicts;
mod whole;

use harness::answers::{self, Pair};
use harness::bridge;
use harness::constraint::Constraint;
use harness::random::Random;
use harness::scores::{SPECIAL, random_finite};
use harness::suites::negation::{EXTRAS, KINDS, TARGETS};
use std::hint::black_box;
use std::time::Instant;

/// Inputs of a call; every round goes once through them.
const INPUTS: usize = 4_096;
/// As many of a call on a full-size day. An even number, since some calls go
/// back and forth.
const DAY_INPUTS: usize = 256;
/// Rounds, of which the median counts.
const ROUNDS: usize = 101;
/// The letters of a call's column.
const WIDTH: usize = 42;

/// Times one round: nanoseconds a call.
type Timer = Box<dyn FnMut() -> f64>;

/// Timers of the port and, if it has such a call, of the Rust, over the same
/// inputs.
type Timers = (Timer, Option<Timer>);

/// Makes the inputs of a call and the timers over them.
type Row = fn(&mut Random) -> Timers;

const ROWS: &[(&str, Row)] = &[
    ("compare, finite scores", compare_finite),
    ("compare, special values", compare_special),
    ("best of 64", best_of::<64>),
    ("best of 8", best_of::<8>),
    ("negation", negation),
    ("build", states::build::<0>),
    ("build, 32 + 32 constraints", states::build::<32>),
    ("update, one choice moved", states::update_one::<0>),
    ("update, one choice moved, 32 + 32", states::update_one::<32>),
    ("update, all choices moved", states::update_all::<0>),
    ("update, all choices moved, 32 + 32", states::update_all::<32>),
    ("slot_list", states::slot_list::<0>),
    ("slot_list, 32 + 32 constraints", states::slot_list::<32>),
    ("model", models::model::<0>),
    ("model, 32 + 32 constraints", models::model::<32>),
    ("check_values", models::check_values::<0>),
    ("check_values, 32 + 32 constraints", models::check_values::<32>),
    ("choosers_ordered", plans::choosers_ordered),
    ("choices_ordered", plans::choices_ordered),
    ("begin, 256 levels", plans::begin),
    ("tell, 256 levels", plans::tell),
    ("search over 256 levels, nine asks", plans::search),
    ("satisfies_constraints_scheduling", verdicts::satisfies_scheduling::<0>),
    ("satisfies_constraints_scheduling, 32 + 32", verdicts::satisfies_scheduling::<32>),
    ("satisfies_constraints_assignment", verdicts::satisfies_assignment::<0>),
    ("satisfies_constraints_assignment, 32 + 32", verdicts::satisfies_assignment::<32>),
    ("schedule_is_feasible", verdicts::schedule_is_feasible::<0>),
    ("schedule_is_feasible, 32 + 32", verdicts::schedule_is_feasible::<32>),
    ("is_feasible", verdicts::is_feasible::<0>),
    ("is_feasible, 32 + 32 constraints", verdicts::is_feasible::<32>),
    ("evaluate", verdicts::evaluate::<0>),
    ("evaluate, 32 + 32 constraints", verdicts::evaluate::<32>),
    ("from a moved choice to a score", whole::way),
];

fn main() {
    println!("Both get the same inputs, made beforehand in the form that each takes: {INPUTS} of");
    println!(
        "them in a round, {DAY_INPUTS} of calls on a full-size day, port and Rust in turn, the"
    );
    println!("median of {ROUNDS} rounds. The port tests its input and is called through its");
    println!(
        "exported entries. Models are {} in a round. Beside check_values stands",
        models::INPUTS
    );
    println!(
        "the Rust's model, since the Rust does not test the values of its solver. A search is"
    );
    println!("from begin to end, told Incomplete at each ask, so that the Rust makes no model.");
    println!("The constraints of verdicts and scores all hold. From a moved choice to a score are");
    println!("update, model, check_values, is_feasible and evaluate, beside the Rust's update,");
    println!("model, is_feasible and evaluate of the same plan.");
    println!("Where the Rust has no such call stands a dash.");
    println!("{:<WIDTH$}{:>10}{:>10}{:>8}", "call", "port ns", "Rust ns", "ratio");
    for (call, timers) in ROWS {
        let mut random = Random::of_case(1, call, 0);
        let (mut port, mut rust) = timers(&mut random);
        let (mut port_times, mut rust_times) = (Vec::new(), Vec::new());
        for _ in 0..ROUNDS {
            port_times.push(port());
            rust_times.extend(rust.as_mut().map(|rust| rust()));
        }
        let port = median(port_times);
        if rust.is_some() {
            let rust = median(rust_times);
            println!("{call:<WIDTH$}{port:>10.1}{rust:>10.1}{:>8.2}", port / rust);
        } else {
            println!("{call:<WIDTH$}{port:>10.1}{:>10}{:>8}", "-", "-");
        }
    }
}

fn median(mut times: Vec<f64>) -> f64 {
    times.sort_by(f64::total_cmp);
    times[times.len() / 2]
}

fn timer<I: 'static, O>(inputs: Vec<I>, mut call: impl FnMut(&I) -> O + 'static) -> Timer {
    Box::new(move || {
        let start = Instant::now();
        for input in &inputs {
            black_box(call(black_box(input)));
        }
        start.elapsed().as_nanos() as f64 / inputs.len() as f64
    })
}

fn compare_finite(random: &mut Random) -> Timers {
    compare((0..INPUTS).map(|_| (random_finite(random), random_finite(random))).collect())
}

fn compare_special(random: &mut Random) -> Timers {
    let mut float = || f32::from_bits(random.pick(&SPECIAL));
    compare((0..INPUTS).map(|_| ((float(), float()), (float(), float()))).collect())
}

fn compare(pairs: Vec<(Pair, Pair)>) -> Timers {
    let port = timer(pairs.clone(), |&(left, right)| port::compare(left, right));
    (port, Some(timer(pairs, |&(left, right)| answers::compare(left, right))))
}

fn best_of<const LENGTH: usize>(random: &mut Random) -> Timers {
    let list = |_| (0..LENGTH).map(|_| random_finite(random)).collect::<Vec<_>>();
    let lists = (0..INPUTS).map(list).collect::<Vec<_>>();
    let flat = |list: &Vec<Pair>| list.iter().flat_map(|&(a, b)| [a, b]).collect::<Vec<_>>();
    let port = timer(lists.iter().map(flat).collect(), |list| port::best(list, LENGTH));
    (port, Some(timer(lists, |list| answers::best(list))))
}

/// Constraints that the Rust can negate.
fn negation(random: &mut Random) -> Timers {
    let mut constraints = Vec::new();
    while constraints.len() < INPUTS {
        let (target_case, target) = random.pick(&TARGETS);
        let (extra_case, extra) = random.pick(&EXTRAS);
        let kind = random.pick(&KINDS);
        let constraint = Constraint { kind, left: 3, target_case, target, extra_case, extra };
        if port::negation(constraint).number == 0 {
            constraints.push(constraint);
        }
    }
    let own = constraints.iter().copied().map(bridge::constraint).collect();
    let port = timer(constraints, |&one| port::negation(one));
    (port, Some(timer(own, |one| one.negation())))
}
