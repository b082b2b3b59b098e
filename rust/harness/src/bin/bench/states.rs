//! Schedule states of full-size days, without constraints and with as many of
//! either list as a day may have.
use crate::{DAY_INPUTS, Timers, timer};
use harness::constraint::{random_assignment, random_scheduling};
use harness::day::{CHOICES, CHOOSERS, Day, SLOTS};
use harness::random::Random;
use harness::schedule::Schedule;
use harness::state::LISTS;
use harness::{answers, boundary, bridge};
use oracle::{Carried, Problem, Solver};
use port::{InputData, Scheduling, StateAnswer};
use std::hint::black_box;

/// A day in the form that each side takes.
pub struct Scene {
    pub day: Day,
    pub port: InputData,
    pub problem: &'static Problem,
    pub rust: Solver<'static>,
}

/// A day of as many choosers, choices and slots as there can be.
pub fn full_day() -> Day {
    let mut day = Day::bare(CHOOSERS, CHOICES, SLOTS);
    day.mins.fill(2);
    day.max_preference = 5;
    day.preferences = (0..CHOOSERS * CHOICES).map(|place| (place * 7 % 6) as u32).collect();
    day.fill_tables();
    day
}

impl Scene {
    pub fn new(random: &mut Random, constraints: usize) -> Self {
        let mut day = full_day();
        for _ in 0..constraints {
            let (scheduling, assignment) =
                (random_scheduling(random, &day), random_assignment(random, &day));
            day.scheduling.extend(scheduling);
            day.assignment.extend(assignment);
        }
        Self::of(random, day)
    }

    pub fn of(random: &mut Random, day: Day) -> Self {
        let port = boundary::day(random, &day);
        // A solver borrows its problem, and timers keep it to the end.
        let problem = Box::leak(Box::new(bridge::problem(&day)));
        Self { day, port, problem, rust: problem.solver() }
    }

    /// A schedule in the form that each side takes.
    pub fn schedule(&self, schedule: &Schedule) -> (Scheduling, oracle::Scheduling) {
        (Scheduling { entries: boundary::entries(schedule) }, self.rust.scheduling(schedule))
    }

    /// What is timed must be done by both, and with the same result.
    fn assert_same(&self, port: &StateAnswer, rust: &Carried) {
        assert_eq!(*port, answers::state(&self.day, &rust.state()));
    }
}

/// Four choices in each slot.
pub fn dealt(random: &mut Random) -> Schedule {
    let mut schedule = (0..CHOICES).map(|choice| Some(choice % SLOTS)).collect::<Vec<_>>();
    random.shuffle(&mut schedule);
    schedule
}

pub fn build<const CONSTRAINTS: usize>(random: &mut Random) -> Timers {
    let scene = Scene::new(random, CONSTRAINTS);
    let mut lists = [0; LISTS];
    let schedules = (0..DAY_INPUTS).map(|_| scene.schedule(&dealt(random))).collect::<Vec<_>>();
    for (port, rust) in &schedules {
        let answer = port::build(&scene.port, port, &mut lists);
        scene.assert_same(&answer, &scene.rust.build(rust));
    }
    let (port, rust): (Vec<_>, Vec<_>) = schedules.into_iter().unzip();
    let Scene { port: day, rust: solver, .. } = scene;
    let port = timer(port, move |schedule| {
        black_box(&port::build(&day, schedule, &mut lists));
    });
    (port, Some(timer(rust, move |schedule| _ = black_box(&solver.build(schedule)))))
}

pub fn update_one<const CONSTRAINTS: usize>(random: &mut Random) -> Timers {
    let (old, new) = one_moved(random);
    update::<CONSTRAINTS>(random, &old, &new)
}

/// Two schedules that differ in the slot of one choice.
pub fn one_moved(random: &mut Random) -> (Schedule, Schedule) {
    let old = dealt(random);
    let choice = random.below(CHOICES);
    let mut new = old.clone();
    new[choice] = old[choice].map(|slot| (slot + 1) % SLOTS);
    (old, new)
}

pub fn update_all<const CONSTRAINTS: usize>(random: &mut Random) -> Timers {
    let old = dealt(random);
    let next = |slot: &Option<usize>| slot.map(|slot| (slot + 1) % SLOTS);
    let new = old.iter().map(next).collect();
    update::<CONSTRAINTS>(random, &old, &new)
}

/// Updates from one schedule to the other and back: each call moves as many
/// choices as any other, and takes the state that the last one gave.
fn update<const CONSTRAINTS: usize>(random: &mut Random, old: &Schedule, new: &Schedule) -> Timers {
    let scene = Scene::new(random, CONSTRAINTS);
    let mut lists = [0; LISTS];
    let (old, new) = (scene.schedule(old), scene.schedule(new));
    let mut answer = port::build(&scene.port, &old.0, &mut lists);
    let mut carried = scene.rust.build(&old.1);
    for (port, rust) in [&new, &old] {
        answer = port::update(&scene.port, &answer.state, port, &mut lists);
        carried = scene.rust.update(&carried, rust);
        scene.assert_same(&answer, &carried);
    }
    let schedules = [new, old].into_iter().cycle().take(DAY_INPUTS);
    let (port, rust): (Vec<_>, Vec<_>) = schedules.unzip();
    let Scene { port: day, rust: solver, .. } = scene;
    let port = timer(port, move |schedule| {
        answer = port::update(&day, &answer.state, schedule, &mut lists);
        black_box(&answer);
    });
    let rust = timer(rust, move |schedule| {
        carried = solver.update(&carried, schedule);
        black_box(&carried);
    });
    (port, Some(rust))
}

/// The Rust reads its own lists and has no such call.
pub fn slot_list<const CONSTRAINTS: usize>(random: &mut Random) -> Timers {
    let scene = Scene::new(random, CONSTRAINTS);
    let mut lists = [0; LISTS];
    let (schedule, rust) = scene.schedule(&dealt(random));
    let answer = port::build(&scene.port, &schedule, &mut lists);
    scene.assert_same(&answer, &scene.rust.build(&rust));
    let slots = (0..DAY_INPUTS).map(|place| place % SLOTS).collect::<Vec<_>>();
    for &slot in &slots {
        let found = port::slot_list(&scene.port, &answer.state, &lists, slot);
        assert_eq!((found.number, found.range().len()), (0, CHOICES / SLOTS));
    }
    let day = scene.port;
    (timer(slots, move |&slot| port::slot_list(&day, &answer.state, &lists, slot)), None)
}
