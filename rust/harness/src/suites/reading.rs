//! The second reading of the checks (SPEC 3): each kind of damage gets the
//! number that it was made for, and of two faults the first one decides.
use crate::bridge;
use crate::damage::{self, Damage, Input, values};
use crate::features::Features;
use crate::random::Random;
use crate::reading::{Layout, faults, number, values_number};
use crate::run::{Outcome, Run, wanted};

/// Fewer inputs than these need not show every damage.
const INPUTS_FOR_FEATURES: u64 = 2_000;
/// Pairs of damages tried on each input.
const PAIRS: usize = 12;

pub fn run(run: &mut Run) {
    let mut features = Features::default();
    for _ in 0..run.count() {
        run.case_of_day(|random| one_input(random, &mut features));
        run.case_of_day(|random| one_model(random, &mut features));
    }
    if run.count() >= INPUTS_FOR_FEATURES {
        run.over_all(|| features.all_seen());
    }
}

fn one_input(random: &mut Random, features: &mut Features) -> Outcome {
    let input = Input::sound(random);
    wanted(faults(&input.handed()), Vec::new(), || format!("{input:?}"))?;
    let damages = damage::all();
    for &damage in &damages {
        let mut damaged = input.clone();
        let is_done = (damage.apply)(random, &mut damaged).is_some();
        features.look(damage.name, is_done);
        if is_done {
            gives(&damaged, damage.number, &[damage])?;
        }
    }
    for _ in 0..PAIRS {
        let (first, second) = (random.pick(&damages), random.pick(&damages));
        two_faults(random, features, &input, first, second)?;
    }
    for pair in damages.windows(2) {
        two_faults(random, features, &input, pair[0], pair[1])?;
    }
    Ok(())
}

/// Both damages at once, the later check's first: the earlier check decides.
fn two_faults(
    random: &mut Random,
    features: &mut Features,
    input: &Input,
    first: &Damage,
    second: &Damage,
) -> Outcome {
    if first.number == 0 || first.number >= second.number {
        return Ok(());
    }
    let mut damaged = input.clone();
    let done = (second.apply)(random, &mut damaged);
    if done.and_then(|()| (first.apply)(random, &mut damaged)).is_none() {
        return Ok(());
    }
    if second.number == first.number + 1 {
        let name = format!("{} and {} at once", first.number, second.number);
        features.look(name, faults(&damaged.handed()).contains(&second.number));
    }
    // Nothing is read of a day of another length.
    let is_whole = damaged.has_named_length(Layout::Day);
    gives(&damaged, if is_whole { first.number } else { 2 }, &[first, second])
}

fn gives(damaged: &Input, expected: u32, damages: &[&Damage]) -> Outcome {
    wanted(number(&damaged.handed()), expected, || {
        let names = damages.iter().map(|damage| damage.name).collect::<Vec<_>>();
        format!("{names:?} in {damaged:?}")
    })
}

/// Edge values that a model accepts, and damage to them.
fn one_model(random: &mut Random, features: &mut Features) -> Outcome {
    let Input { day, schedule, .. } = Input::sound(random);
    let problem = bridge::problem(&day);
    let mut solver = problem.solver();
    solver.prepare(&schedule[..day.choices]);
    let model = solver.model(random.pick(&[1, day.max_preference]));
    let oracle::Outcome::Solved(accepted) = oracle::solve(&model) else {
        return Ok(());
    };
    let input = || format!("{model:?} {accepted:?}");
    wanted(values_number(&model, &accepted), 0, input)?;
    for damage in values::DAMAGES {
        let mut values = accepted.clone();
        let is_done = (damage.apply)(random, &model, &mut values).is_some();
        features.look(damage.name, is_done);
        if is_done {
            let input = || format!("{} in {model:?} {values:?}", damage.name);
            wanted(values_number(&model, &values), damage.number, input)?;
        }
    }
    Ok(())
}
