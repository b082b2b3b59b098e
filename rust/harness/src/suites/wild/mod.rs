//! Every entry that is lent a slice, tried as an enemy would: with any bytes, of
//! any length, at the edge of memory that may not be touched. No call may crash,
//! or change a byte that it should not, and its number must be that of the second
//! reading of the same bytes.
mod judge;
mod material;
mod room;
mod wreck;

use crate::call::{Call, Name, Numbers, TAKEN};
use crate::damage::Input;
use crate::features::Features;
use crate::plan::PLAN;
use crate::random::Random;
use crate::reading::Layout;
use crate::recording::Entry;
use crate::run::{Days, Outcome, Run};
use crate::suites::refused::gives;
use crate::suites::{model, roster, search, state, verdict};
use judge::judge;
use material::Material;
use port::guarded::Element;
use room::Room;
use std::cell::RefCell;

const DAYS: Days = Days { usual: 10_000, for_features: 10_000 };

/// Calls on what is sound for each day.
const CALLS: usize = 20;

pub fn run(run: &mut Run) {
    let room = RefCell::new(Room::new());
    run.fixed(|run| every_flag(run, &mut room.borrow_mut()));
    let mut features = features();
    run.each_day(DAYS, &mut features, |random, features| {
        one_day(random, features, &mut room.borrow_mut())
    });
}

/// Every byte as the greedy flag of a search.
fn every_flag(run: &mut Run, room: &mut Room) {
    for flag in 0..=u8::MAX {
        for (levels, range) in [(0, 0), (2, 5)] {
            let call = greedy_told(flag, levels, range);
            run.case(|random| judge(random, room, &call).map(|_| ()));
        }
    }
}

/// A search of nothing but zeros that asks, with this byte for its greedy flag,
/// which is told that its ask is feasible. It has so many levels, and a range that
/// a greedy one has not.
fn greedy_told(flag: u8, levels: u8, range: u8) -> Call {
    let [mut day, mut search] =
        [Layout::Day, Layout::Search].map(|layout| vec![0; layout.named_length()]);
    day[12] = levels.saturating_sub(1);
    (search[0], search[1], search[16], search[20]) = (1, flag, range, range);
    let levels = u32::bytes(&(0..levels.into()).collect::<Vec<_>>());
    let slices = vec![
        (Name::Day, day),
        (Name::Search, search),
        (Name::Levels, levels),
        (Name::Plan, vec![0; PLAN]),
    ];
    Call { entry: Entry::Tell, slices, numbers: Numbers::default() }
}

/// Each call must give each of its numbers.
fn features() -> Features {
    let mut features = Features::default();
    let numbers = [
        &state::refusals::NUMBERS[..],
        &model::refusals::NUMBERS,
        &[model::values::NUMBERS, ("best", &[0, 1, 2])],
        &roster::refusals::NUMBERS,
        &search::refusals::NUMBERS,
        &verdict::refusals::NUMBERS,
    ];
    for (call, numbers) in numbers.concat() {
        for &number in numbers {
            features.look(gives(call, number), false);
        }
    }
    features
}

fn one_day(random: &mut Random, features: &mut Features, room: &mut Room) -> Outcome {
    let input = Input::sound(random);
    let material = Material::new(random, input);
    for _ in 0..CALLS {
        let taken = random.pick(&TAKEN);
        let mut call = material.call(random, taken);
        wreck::some(random, &mut call);
        let number = judge(random, room, &call)?;
        features.look(gives(&call.entry.name(), number), true);
    }
    Ok(())
}
