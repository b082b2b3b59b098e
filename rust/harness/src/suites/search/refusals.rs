//! Begin and tell on damaged input: the number that the second reading gives,
//! and zeros beside it. What the damage leaves sound is compared with the second
//! reading of the search.
use crate::answers::{self, refused_search};
use crate::boundary::{self, entries, kept};
use crate::damage::{self, Damage, Input};
use crate::day::{Day, random_day, random_size};
use crate::day_file::{self, DayFile};
use crate::features::Features;
use crate::plan::{PLAN, random_plan};
use crate::random::Random;
use crate::reading::{Handed, Layout, faults};
use crate::recording::{Entry, Note, note};
use crate::run::{Days, Outcome, Run, wanted};
use crate::schedule::random_schedule;
use crate::search::{FEASIBLE, INFEASIBLE, Step, begun, remembers, told};
use crate::suites::refused::{self, Numbers, damaged, first};
use oracle::Told;
use port::guarded::Guarded;
use port::{Scheduling, SearchAnswer};

const DAYS: Days = Days { usual: 20_000, for_features: 20_000 };

/// Damaged inputs on each day.
const TRIES: usize = 5;

/// The numbers by which each call refuses. Its done calls are looked for too.
pub const NUMBERS: [Numbers; 2] = [
    ("begin", &[0, 1, 2, 3, 4, 5, 7, 8, 9, 10, 11, 13]),
    ("tell", &[0, 1, 2, 3, 4, 5, 7, 8, 9, 10, 11, 13, 18]),
];

pub fn run(run: &mut Run) {
    refused::each_day(run, DAYS, &damage::of_searches(), &NUMBERS, one_day);
}

fn one_day(random: &mut Random, damages: &[&Damage], features: &mut Features) -> Outcome {
    let size = random_size(random);
    let day = random_day(random, size);
    for _ in 0..TRIES {
        let sound = input(random, &day);
        let input = damaged(random, damages, features, sound);
        both(random, features, &input)?;
    }
    Ok(())
}

/// Both calls on an input.
pub fn both(random: &mut Random, features: &mut Features, input: &Input) -> Outcome {
    begin(random, features, input)?;
    tell(random, features, input)
}

/// Sound input, save where there are seats and no choice to sit in: there every
/// plan is refused.
pub fn input(random: &mut Random, day: &Day) -> Input {
    let schedule = random_schedule(random, day);
    let plan = random_plan(random, day, &schedule).unwrap_or(vec![0; PLAN]);
    Input { schedule, plan, ..Input::bare(day.clone()) }.searching(random)
}

fn begin(random: &mut Random, features: &mut Features, input: &Input) -> Outcome {
    let Input { day, schedule, search, .. } = input;
    let layouts = [Layout::Day, Layout::Schedule, Layout::Memory];
    let handed = Handed {
        day: Some(day),
        levels: Some(&day.levels),
        layouts: &input.layouts(&layouts),
        schedule: Some(schedule),
        cached: Some(&search.cached),
        ..Handed::default()
    };
    day_file::note(|| input.file_of_begin());
    let number = first(features, "begin", &faults(&handed));
    let own = Scheduling { entries: entries(schedule) };
    let answer = answer(number, || begun(day, own, search.cached));
    look_at_memory(features, input, number);
    let [mut lent_day, mut lent, mut cached] = layouts.map(|layout| input.lend(random, layout));
    let greedy = boundary::setting(random, day.greedy);
    note(|| {
        let note = Note::new(Entry::Begin, number).day(day, lent_day.now()).table(lent.now());
        let note = note.table(&day.levels).put(&day.bound).put(&greedy);
        note.table(cached.now()).put(&answer)
    });
    let mut levels = Guarded::holding(&day.levels);
    let found =
        port::begin(lent_day.lend(), lent.lend(), levels.lend(), day.bound, greedy, cached.lend());
    let trace = || format!("begin of {input:?}");
    wanted(found, answer, trace)?;
    wanted([&lent_day, &lent, &cached].map(Guarded::changed), [None; 3], trace)?;
    wanted(levels.changed(), None, trace)
}

fn tell(random: &mut Random, features: &mut Features, input: &Input) -> Outcome {
    let Input { day, search, result, plan, .. } = input;
    let schedule = boundary::slots(&search.schedule);
    let layouts = [Layout::Day, Layout::Search];
    // Without a feasible result the plan is not looked at.
    let handed = Handed {
        day: Some(day),
        levels: Some(&day.levels),
        layouts: &input.layouts(&layouts),
        schedule: Some(&schedule),
        plan: (*result == FEASIBLE).then_some(plan),
        search: Some(search),
        cached: Some(&search.cached),
        ..Handed::default()
    };
    day_file::note(|| DayFile::none("a search that is under way cannot be said"));
    let number = first(features, "tell", &faults(&handed));
    look(features, &handed, plan, number);
    let entry = match *result {
        FEASIBLE => Told::Feasible,
        INFEASIBLE => Told::Infeasible,
        _ => Told::Late,
    };
    let answer = answer(number, || told(day, search, entry, plan));
    let [mut lent_day, mut own] = layouts.map(|layout| input.lend(random, layout));
    let (mut levels, mut lent) = (Guarded::holding(&day.levels), Guarded::holding(plan));
    // The range of a greedy search is free: it is noted where it is 0.
    if answer == without_free_range(answer) {
        note(|| {
            let note = Note::new(Entry::Tell, number).known_by(answer.search.is_asking());
            let note = note.day(day, lent_day.now()).table(own.now());
            note.table(&day.levels).put(result).table(plan).put(&answer)
        });
    }
    let found = port::tell(lent_day.lend(), own.lend(), levels.lend(), *result, lent.lend());
    let trace = || format!("tell of {input:?}");
    wanted(without_free_range(found), without_free_range(answer), trace)?;
    wanted([&lent_day, &own, &lent].map(Guarded::changed), [None; 3], trace)?;
    wanted(levels.changed(), None, trace)
}

/// What a call gives by this number.
fn answer(number: u32, step: impl FnOnce() -> Step) -> SearchAnswer {
    if number > 0 { refused_search(number) } else { answers::search(step()) }
}

/// A greedy search has no range: it is free what comes back of one that was
/// handed in.
fn without_free_range(mut answer: SearchAnswer) -> SearchAnswer {
    if answer.search.greedy == 1 {
        (answer.search.start, answer.search.low, answer.search.high) = (0, 0, 0);
    }
    answer
}

/// A search is answered from memory in every setting.
fn look_at_memory(features: &mut Features, input: &Input, number: u32) {
    let Input { day, schedule, search, .. } = input;
    let own = || kept(day, Scheduling { entries: entries(schedule) });
    let is_met = number == 0 && remembers(day, &search.cached, own());
    let (greedy, empty) = (day.greedy, day.levels.is_empty());
    features.look("begin answered from memory", is_met && !greedy && !empty);
    features.look("begin answered from memory, no levels", is_met && !greedy && empty);
    features.look("begin answered from memory, greedy", is_met && greedy && !empty);
    features.look("begin answered from memory, greedy, no levels", is_met && greedy && empty);
}

/// A told plan that would be refused makes no difference beside another result.
fn look(features: &mut Features, handed: &Handed, plan: &[u8], number: u32) {
    let is_unseen = handed.plan.is_none() && number == 0;
    let would_be = faults(&Handed { plan: Some(plan), ..*handed });
    for number in [2, 13] {
        let is_passed = is_unseen && would_be.contains(&number);
        features.look(format!("tell passes over {number} of a plan"), is_passed);
    }
    let is_greedy = handed.search.is_some_and(|search| search.greedy);
    features.look("tell gives 18, greedy", number == 18 && is_greedy);
    features.look("tell gives 0, greedy", number == 0 && is_greedy);
}
