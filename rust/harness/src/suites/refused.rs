//! What the suites over damaged input share: the damage, the number that decides
//! and what a run of them must have shown.
use crate::bridge;
use crate::damage::{Damage, Input};
use crate::day::{Day, random_day, random_size};
use crate::features::Features;
use crate::random::Random;
use crate::run::{Days, Outcome, Run};
use oracle::Problem;

/// A call and the numbers that it is to give, 0 first.
pub type Numbers = (&'static str, &'static [u32]);

/// Each damage must be done, and each call give each of its numbers, also where
/// the next one applies too.
pub fn features(damages: &[&Damage], calls: &[Numbers]) -> Features {
    let mut features = Features::default();
    for damage in damages {
        features.look(damage.name, false);
    }
    for (call, numbers) in calls {
        for &number in *numbers {
            features.look(gives(call, number), false);
        }
        for pair in numbers[1..].windows(2) {
            features.look(at_once(call, pair), false);
        }
    }
    features
}

/// A case for each day, which is told the damages that may be done to it.
pub fn each_day(
    run: &mut Run,
    days: Days,
    damages: &[&Damage],
    calls: &[Numbers],
    one_day: impl Fn(&mut Random, &[&Damage], &mut Features) -> Outcome,
) {
    let mut features = features(damages, calls);
    run.each_day(days, &mut features, |random, features| one_day(random, damages, features));
}

/// Damaged inputs on each random day.
const TRIES: usize = 5;

/// A random day with inputs that are made sound and then damaged, each for all calls
/// of a suite. What the Rust reads of the day is as it was where a call is done.
pub fn one_day(
    random: &mut Random,
    damages: &[&Damage],
    features: &mut Features,
    sound: fn(&mut Random, &Day) -> Input,
    all_calls: fn(&mut Random, &mut Features, &Problem, &Input) -> Outcome,
) -> Outcome {
    let size = random_size(random);
    let day = random_day(random, size);
    let problem = bridge::problem(&day);
    for _ in 0..TRIES {
        let sound = sound(random, &day);
        let input = damaged(random, damages, features, sound);
        all_calls(random, features, &problem, &input)?;
    }
    Ok(())
}

/// The input with one or two damages. What should make no difference is done
/// first, then the later check's, since each damage looks at the sizes before it.
pub fn damaged(
    random: &mut Random,
    damages: &[&Damage],
    features: &mut Features,
    mut input: Input,
) -> Input {
    let picks = random.within(1, 2);
    let mut picked = (0..picks).map(|_| random.pick(damages)).collect::<Vec<_>>();
    picked.sort_by_key(|damage| (damage.number > 0, u32::MAX - damage.number));
    for damage in picked {
        let is_done = (damage.apply)(random, &mut input).is_some();
        features.look(damage.name, is_done);
    }
    input
}

/// The first of the numbers that apply, which decides, or 0.
pub fn first(features: &mut Features, call: &str, faults: &[u32]) -> u32 {
    let number = faults.first().copied().unwrap_or(0);
    features.look(gives(call, number), true);
    for pair in faults.windows(2) {
        features.look(at_once(call, pair), true);
    }
    number
}

/// The name of what shows when a call gives a number.
pub fn gives(call: &str, number: u32) -> String {
    format!("{call} gives {number}")
}

/// The name of what shows when two checks apply and none between them.
fn at_once(call: &str, pair: &[u32]) -> String {
    format!("{call} with {} and {} at once", pair[0], pair[1])
}
