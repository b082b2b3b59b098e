//! States carried through a chain of schedules, beside states built afresh.
use super::Scene;
use crate::day::{Day, Size};
use crate::day_file::{self, DayFile};
use crate::features::Features;
use crate::random::Random;
use crate::reading::{self, Buffer, Handed};
use crate::run::{Failure, Outcome, wanted};
use crate::schedule::{CHAIN, Schedule, random_chain};
use crate::state::State;
use oracle::Problem;

/// Leads a solver through a chain of schedules and stops at the last.
pub fn walk_chain<'a>(
    random: &mut Random,
    features: &mut Features,
    size: Size,
    day: &'a Day,
    problem: &'a Problem,
) -> Result<Scene<'a>, Failure> {
    let chain = random_chain(random, day);
    let mut solver = problem.solver();
    for (place, schedule) in chain.iter().enumerate() {
        look(features, day, schedule);
        day_file::note(|| DayFile::new("the Rust's state", day).trail(&chain[..=place]));
        let slots = &schedule[..day.choices];
        let carried = solver.prepare(slots);
        let fresh = problem.solver().prepare(slots);
        features.look("a carried order of its own", carried.lists != fresh.lists);
        features.look("blocks", !carried.blocked.is_empty());
        let input = || format!("{day:?} {:?}", &chain[..=place]);
        wanted(in_order(&carried), in_order(&fresh), input)?;
        is_accepted(random, day, &carried)?;
    }
    features.look("a whole chain", chain.len() == CHAIN);
    let repeats = |pair: &[Schedule]| pair[0][..day.choices] == pair[1][..day.choices];
    features.look("a schedule again", chain.windows(2).any(repeats));
    let schedule = chain[chain.len() - 1].clone();
    Ok(Scene { size, day, problem, schedule, solver })
}

/// The state with each list in order: states agree when these are equal.
fn in_order(state: &oracle::State) -> oracle::State {
    let mut state = state.clone();
    state.lists.iter_mut().for_each(|list| list.sort_unstable());
    state
}

/// The second reading finds nothing wrong with a state of the Rust.
fn is_accepted(random: &mut Random, day: &Day, state: &oracle::State) -> Outcome {
    let state = State::of(random, day, state);
    let handed = Handed {
        day: Some(day),
        preferences: Some(&day.preferences),
        levels: Some(&day.levels),
        powers: Some(&day.powers),
        costs: Some(&day.costs),
        buffers: &[(Buffer::SlotLists, state.lists.len())],
        state: Some(&state),
        ..Handed::default()
    };
    wanted(reading::faults(&handed), Vec::new(), || format!("{day:?} {state:?}"))
}

fn look(features: &mut Features, day: &Day, schedule: &Schedule) {
    let (used, rest) = schedule.split_at(day.choices);
    features.look("an unscheduled choice", used.contains(&None));
    features.look("all choices scheduled", day.choices > 0 && !used.contains(&None));
    features.look("a slot without choices", (0..day.slots).any(|slot| !used.contains(&Some(slot))));
    features.look("entries past the choices", rest.iter().any(|slot| slot.is_some()));
}
