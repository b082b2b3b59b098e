//! States: blocks that follow the schedule, lists in a carried order, every slot's
//! list, and each way in which 12 applies beside each slot.
use super::{plain_day, tie};
use crate::answers;
use crate::bridge;
use crate::constraint::kind;
use crate::damage::Input;
use crate::day::{Day, SLOTS};
use crate::features::Features;
use crate::reading::Asked;
use crate::run::Run;
use crate::schedule::{Schedule, whole};
use crate::state::{State, blocks_of};
use crate::suites::model;
use crate::suites::model::scene::Scene as Model;
use crate::suites::state::refusals::input;
use crate::suites::state::scene::Scene;
use crate::suites::state::walk::Walk;

const CHOICES: usize = 16;

/// A change of a state.
type Change = Box<dyn Fn(&mut State)>;

pub fn run(run: &mut Run) {
    for day in [day(), unblocked_day()] {
        run.case(|random| {
            let problem = bridge::problem(&day);
            let mut solver = problem.solver();
            let mut walk = Walk::new(random, &day);
            let first = solver.prepare(&dealt()[..CHOICES]);
            walk.build(random, &dealt(), &first)?;
            walk.ask(random, &first)?;
            for schedule in &chain() {
                let next = solver.prepare(&schedule[..CHOICES]);
                walk.update(random, schedule, &next)?;
                walk.ask(random, &next)?;
            }
            Ok(())
        });
        for change in changes(&day) {
            changed(run, &day, &change);
        }
    }
}

/// Each chooser with a constraint that blocks.
fn day() -> Day {
    Day {
        mins: (1..=CHOICES as u32).collect(),
        maxs: vec![20; CHOICES],
        assignment: vec![
            tie(kind::CHOOSER_IS_IN_CHOICE, 0, 0),
            tie(kind::CHOOSER_IS_NOT_IN_CHOICE, 1, 1),
            tie(kind::CHOOSER_IS_IN_CHOICE, 2, 15),
        ],
        ..plain_day(3, CHOICES, SLOTS)
    }
}

fn unblocked_day() -> Day {
    Day { assignment: Vec::new(), ..day() }
}

/// Two choices a slot.
fn dealt() -> Schedule {
    whole(&(0..CHOICES).map(|choice| Some(choice % SLOTS)).collect::<Vec<_>>())
}

/// Moves after which lists are in another order than afresh, and other choices
/// are blocked; then all in one slot, nothing at all, and the first again.
fn chain() -> Vec<Schedule> {
    let moved = |choice: usize, slot: Option<usize>| {
        let mut schedule = dealt();
        schedule[choice] = slot;
        schedule
    };
    let all = whole(&[Some(7); CHOICES]);
    vec![
        moved(0, Some(7)),
        dealt(),
        moved(15, Some(0)),
        moved(0, None),
        dealt(),
        moved(1, None),
        all,
        whole(&[]),
        dealt(),
    ]
}

/// Changes by which 12 applies, and one of the order alone.
fn changes(day: &Day) -> Vec<Change> {
    let mut changes: Vec<Change> = vec![
        Box::new(|state| state.lists.swap(0, 1)),
        Box::new(|state| state.lists.swap(0, 32)),
        Box::new(|state| state.lists[1] = state.lists[0]),
        Box::new(|state| state.lists[7 * 32 + 1] = CHOICES as u8),
        Box::new(|state| state.lists[7 * 32] = 255),
        Box::new(|state| state.schedule[5] = None),
        Box::new(|state| state.schedule[15] = Some(6)),
        Box::new(|state| state.blocks[2 * 32 + 8] = true),
        Box::new(|state| state.blocks[8] ^= true),
        Box::new(|state| state.blocks[32 + 1] ^= true),
    ];
    for slot in 0..SLOTS {
        changes.push(Box::new(move |state| state.covered[slot] += 1));
        changes.push(Box::new(move |state| state.covered[slot] -= 1));
    }
    // The blocks of another schedule.
    let moved = bridge::problem(day).solver().prepare(&chain()[0][..CHOICES]);
    let blocks = blocks_of(day, &moved).to_vec();
    changes.push(Box::new(move |state| state.blocks.clone_from(&blocks)));
    changes
}

/// Every call that is handed the changed state.
fn changed(run: &mut Run, day: &Day, change: &Change) {
    let (problem, next) = (bridge::problem(day), &chain()[2]);
    run.case(|random| {
        let mut features = Features::default();
        let mut walk = Walk::new(random, day);
        walk.build(random, &dealt(), &problem.solver().prepare(&dealt()[..CHOICES]))?;
        let done = answers::state(day, &problem.solver().prepare(&next[..CHOICES]));
        let mut input = Input { asked: Vec::new(), ..input(random, &walk, next) };
        change(&mut input.state);
        let own = Input { asked: vec![Asked::Slot(0)], ..input.clone() };
        Scene { features: &mut features, walk: &mut walk, input: own, done }.update(random)?;
        for slot in 0..SLOTS {
            let own = Input { asked: vec![Asked::Slot(slot)], ..input.clone() };
            Scene { features: &mut features, walk: &mut walk, input: own, done }
                .slot_list(random)?;
        }
        let scene = Model::built_for(random, day, &problem, &dealt())?;
        let own = Input { state: input.state, ..model::refusals::input(random, &scene) };
        model::refusals::both(random, &mut features, &own, 0)
    });
}
