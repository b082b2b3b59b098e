//! A second reading of the preference search (SPEC 9), in plain data.
use crate::boundary::{entries, kept, seats, word};
use crate::day::{CHOICES, Day};
use crate::plan::{PLAN, Plan, random_plan};
use crate::random::Random;
use crate::schedule::{Schedule, changed_schedule};
use oracle::{Ask, Told};
use port::{CachedAssignment, Scheduling};
use std::{array, fmt};

/// A plan that a search remembers.
#[derive(Clone, Copy, PartialEq, Eq)]
pub struct Memory {
    pub there: bool,
    pub greedy: bool,
    pub schedule: Scheduling,
    pub plan: [u8; PLAN],
}

/// A search as it is handed on from ask to ask.
#[derive(Clone, Copy, PartialEq, Eq)]
pub struct Search {
    pub asking: bool,
    pub greedy: bool,
    pub found: bool,
    pub optimal: bool,
    pub asks: u32,
    pub level: u32,
    pub start: usize,
    pub low: usize,
    pub high: usize,
    pub schedule: Scheduling,
    pub plan: [u8; PLAN],
    pub cached: Memory,
}

impl Memory {
    /// No plan.
    pub const NONE: Self = Self {
        there: false,
        greedy: false,
        schedule: Scheduling { entries: [0; CHOICES] },
        plan: [0; PLAN],
    };
}

impl Search {
    /// A search that has ended with nothing.
    pub const NONE: Self = Self {
        asking: false,
        greedy: false,
        found: false,
        optimal: false,
        asks: 0,
        level: 0,
        start: 0,
        low: 0,
        high: 0,
        schedule: Memory::NONE.schedule,
        plan: [0; PLAN],
        cached: Memory::NONE,
    };
}

/// As a call hands it back: a flag is 0 or 1.
impl From<Memory> for CachedAssignment {
    fn from(memory: Memory) -> Self {
        let Memory { there, greedy, schedule, plan } = memory;
        Self { there: there.into(), greedy: greedy.into(), schedule, plan }
    }
}

/// As a call hands it back: a flag is 0 or 1.
impl From<Search> for port::Search {
    fn from(search: Search) -> Self {
        Self {
            asking: search.asking.into(),
            greedy: search.greedy.into(),
            found: search.found.into(),
            optimal: search.optimal.into(),
            asks: search.asks,
            level: search.level,
            start: word(search.start),
            low: word(search.low),
            high: word(search.high),
            schedule: search.schedule,
            plan: search.plan,
            cached: search.cached.into(),
        }
    }
}

impl From<CachedAssignment> for Memory {
    fn from(cached: CachedAssignment) -> Self {
        let CachedAssignment { there, greedy, schedule, plan } = cached;
        Self { there: there != 0, greedy: greedy != 0, schedule, plan }
    }
}

impl From<port::Search> for Search {
    fn from(search: port::Search) -> Self {
        Self {
            asking: search.asking != 0,
            greedy: search.greedy != 0,
            found: search.found != 0,
            optimal: search.optimal != 0,
            asks: search.asks,
            level: search.level,
            start: search.start as usize,
            low: search.low as usize,
            high: search.high as usize,
            schedule: search.schedule,
            plan: search.plan,
            cached: search.cached.into(),
        }
    }
}

impl fmt::Debug for Memory {
    fn fmt(&self, formatter: &mut fmt::Formatter) -> fmt::Result {
        CachedAssignment::from(*self).fmt(formatter)
    }
}

impl fmt::Debug for Search {
    fn fmt(&self, formatter: &mut fmt::Formatter) -> fmt::Result {
        port::Search::from(*self).fmt(formatter)
    }
}

/// What a call of the search gives. Level and index are 0 where it does not ask.
#[derive(Debug, Clone, Copy)]
pub struct Step {
    pub level: u32,
    pub index: usize,
    pub search: Search,
    pub most_asks: u32,
}

/// The results that a search is told. Any other is Incomplete.
pub const FEASIBLE: u32 = 0;
pub const INFEASIBLE: u32 = 1;

/// The search begun, with what an earlier one remembered.
pub fn begun(day: &Day, schedule: Scheduling, cached: Memory) -> Step {
    let schedule = kept(day, schedule);
    let search =
        Search { greedy: day.greedy, optimal: !day.greedy, schedule, cached, ..Search::NONE };
    let last = day.levels.len().saturating_sub(1);
    let start = day.levels.iter().position(|&level| level >= day.bound).unwrap_or(last);
    let step = if remembers(day, &cached, schedule) {
        let plan = seats(day, &cached.plan);
        stopped(Search { found: true, optimal: true, plan, ..search })
    } else if day.greedy {
        asking(day, search)
    } else if day.levels.is_empty() {
        ended(search)
    } else {
        asking(day, Search { start, low: start, high: last, ..search })
    };
    Step { most_asks: most_asks(day.greedy, day.levels.len() - start), ..step }
}

/// The most asks of a search with so many levels from its start on: as many as
/// that count has digits when it is written in binary.
fn most_asks(greedy: bool, count: usize) -> u32 {
    match count {
        _ if greedy => 1,
        0 => 0,
        _ => word(format!("{count:b}").len()),
    }
}

/// Whether a memory answers a search of this schedule.
pub fn remembers(day: &Day, cached: &Memory, schedule: Scheduling) -> bool {
    cached.there && cached.greedy == day.greedy && kept(day, cached.schedule) == schedule
}

/// The search told the answer to its ask. The plan is looked at where it is
/// Feasible.
pub fn told(day: &Day, search: &Search, told: Told, plan: &[u8]) -> Step {
    // A greedy search has no start, whatever stands there.
    let count = day.levels.len().saturating_sub(search.start);
    Step { most_asks: most_asks(search.greedy, count), ..answered(day, search, told, plan) }
}

fn answered(day: &Day, search: &Search, told: Told, plan: &[u8]) -> Step {
    let mut next = Search { schedule: kept(day, search.schedule), ..*search };
    let (index, level) = asked(day, search);
    let is_feasible = told == Told::Feasible;
    if is_feasible {
        (next.found, next.level, next.plan) = (true, level, seats(day, plan));
    }
    if search.greedy {
        next.optimal = is_feasible;
    } else if told == Told::Late {
        next.optimal = false;
    }
    if search.greedy || is_feasible && index == search.start {
        return ended(next);
    }
    if is_feasible {
        next.high = index - 1;
    } else {
        next.low = index + 1;
    }
    if next.low > next.high { ended(next) } else { asking(day, next) }
}

/// The index and the level that a search asks for.
fn asked(day: &Day, search: &Search) -> (usize, u32) {
    if search.greedy {
        return (0, day.max_preference);
    }
    let index = (search.low + search.high) / 2;
    (index, day.levels[index])
}

/// The search with one ask more. The one that waits is counted.
fn asking(day: &Day, search: Search) -> Step {
    let (index, level) = asked(day, &search);
    let search = Search { asking: true, asks: search.asks + 1, ..search };
    Step { level, index, search, most_asks: 0 }
}

/// The search at its end: an optimal plan is remembered.
fn ended(mut search: Search) -> Step {
    if search.found && search.optimal {
        let Search { greedy, schedule, plan, .. } = search;
        search.cached = Memory { there: true, greedy, schedule, plan };
    }
    stopped(search)
}

fn stopped(search: Search) -> Step {
    Step { level: 0, index: 0, search: Search { asking: false, ..search }, most_asks: 0 }
}

/// What a search asks for at a level, as the Rust tells it.
pub fn ask_of(search: &Search, limit: u32) -> Option<Ask> {
    let Search { asking, greedy, low, high, .. } = *search;
    let range = (!greedy).then_some((low, high));
    asking.then_some(Ask { limit, range })
}

/// The asks of a search that is told one entry of the script at each, and the
/// search after the last of them.
pub fn search(day: &Day, script: &[Told]) -> (Vec<Ask>, Search) {
    let mut step = begun(day, Scheduling::default(), Memory::NONE);
    let mut asks = Vec::new();
    for &entry in script {
        let Some(ask) = ask_of(&step.search, step.level) else {
            break;
        };
        asks.push(ask);
        step = told(day, &step.search, entry, &[0; PLAN]);
    }
    (asks, step.search)
}

/// Every script that has an entry for each ask of its search, and no more.
pub fn scripts(day: &Day) -> Vec<Vec<Told>> {
    let (mut open, mut whole) = (vec![Vec::new()], Vec::new());
    while let Some(script) = open.pop() {
        if !search(day, &script).1.asking {
            whole.push(script);
            continue;
        }
        for entry in [Told::Late, Told::Infeasible, Told::Feasible] {
            open.push([&script[..], &[entry]].concat());
        }
    }
    whole
}

/// A search of this schedule that asks, somewhere on its way, with this plan as
/// its best one where it has found one.
pub fn random_search(random: &mut Random, day: &Day, schedule: &Schedule, plan: &Plan) -> Search {
    let other = Memory { there: false, ..random_memory(random, day, schedule) };
    let own = Scheduling { entries: entries(schedule) };
    let mut search = begun(day, own, other).search;
    for _ in 0..random.below(9) {
        let entry = random.pick(&[Told::Feasible, Told::Infeasible, Told::Late]);
        let next = told(day, &search, entry, plan).search;
        if next.asking {
            search = next;
        }
    }
    if random.chance(30) && !search.greedy {
        search.high = random.below(day.levels.len());
        search.low = random.below(search.high + 1);
        search.start = random.below(search.low + 1);
    }
    search.cached = random_memory(random, day, schedule);
    search
}

/// No memory, with zeros or anything beside the mark, or one of a plan for this
/// schedule or another, in either greedy setting.
pub fn random_memory(random: &mut Random, day: &Day, schedule: &Schedule) -> Memory {
    let other = changed_schedule(random, day, schedule);
    let schedule = if random.chance(50) { schedule } else { &other };
    let cached = Memory {
        there: true,
        greedy: day.greedy != random.chance(30),
        schedule: Scheduling { entries: entries(schedule) },
        plan: [0; PLAN],
    };
    match (random.below(4), random_plan(random, day, schedule)) {
        (0, _) | (_, None) => Memory::NONE,
        (1, _) => Memory { there: false, plan: array::from_fn(|_| random.bits() as u8), ..cached },
        (_, Some(plan)) => Memory { plan: array::from_fn(|place| plan[place]), ..cached },
    }
}
