//! Damage: changes that make sound input such that a call must refuse it by a
//! known number, and changes that must make no difference.
mod days;
mod files;
mod layouts;
mod lent;
mod plans;
mod searches;
mod tables;
pub mod values;

use crate::boundary::{self, lent_at};
use crate::bridge;
use crate::day::{CHOICES, Day, Size, random_day};
use crate::plan::{Plan, random_plan};
use crate::random::Random;
use crate::reading::{Asked, Buffer, Handed, Layout};
use crate::schedule::{Schedule, changed_schedule, random_chain};
use crate::search::{FEASIBLE, INFEASIBLE, Search, random_search};
use crate::state::State;
use port::CachedAssignment;
use port::guarded::Guarded;

/// All that a call may be handed.
#[derive(Debug, Clone)]
pub struct Input {
    pub day: Day,
    /// The lengths that layouts are lent with.
    pub layouts: Vec<(Layout, usize)>,
    pub buffers: Vec<(Buffer, usize)>,
    pub asked: Vec<Asked>,
    /// The state comes from a chain of schedules; this is the next one.
    pub schedule: Schedule,
    pub state: State,
    /// The schedules that led to the state, where they are noted.
    pub trail: Vec<Schedule>,
    pub plan: Plan,
    /// A search that asks, with what it remembers.
    pub search: Search,
    /// What the search is told; the plan is the one told with it.
    pub result: u32,
}

impl Input {
    /// The day, and nothing beside it.
    pub fn bare(day: Day) -> Self {
        Self {
            day,
            layouts: Layout::ALL.map(|layout| (layout, layout.named_length())).to_vec(),
            buffers: Vec::new(),
            asked: Vec::new(),
            schedule: vec![None; CHOICES],
            state: State::none(),
            trail: Vec::new(),
            plan: Vec::new(),
            search: Search::NONE,
            result: FEASIBLE,
        }
    }

    /// Sound input around a day, mostly a small one.
    pub fn sound(random: &mut Random) -> Self {
        loop {
            let size = random.pick(&[Size::Small, Size::Small, Size::Small, Size::Middle]);
            let size = if random.chance(3) { Size::Full } else { size };
            let day = random_day(random, size);
            if let Some(input) = Self::random(random, day) {
                return input;
            }
        }
    }

    /// Sound input around this day, with a plan for its schedule; nothing where
    /// there are seats and no choice to sit in.
    pub fn random(random: &mut Random, day: Day) -> Option<Self> {
        let chain = random_chain(random, &day);
        let problem = bridge::problem(&day);
        let mut solver = problem.solver();
        let states = chain.iter().map(|schedule| solver.prepare(&schedule[..day.choices]));
        let last = states.last().expect("a chain has a first schedule");
        let state = State::of(random, &day, &last);
        let schedule = changed_schedule(random, &day, &chain[chain.len() - 1]);
        let plan = random_plan(random, &day, &schedule)?;
        let buffers = BUFFERS.map(|buffer| (buffer, buffer.named_length() + random.below(3)));
        let asked = random_asked(random, &day);
        let buffers = buffers.to_vec();
        let input = Self { buffers, asked, schedule, state, plan, ..Self::bare(day) };
        Some(input.searching(random))
    }

    /// The input with a search of its schedule, whose best plan is that of the
    /// input, and with something to be told. On a day without levels only a
    /// greedy search asks, so it is made one.
    pub fn searching(mut self, random: &mut Random) -> Self {
        self.day.greedy |= self.day.levels.is_empty();
        self.search = random_search(random, &self.day, &self.schedule, &self.plan);
        self.result = random.pick(&[FEASIBLE, FEASIBLE, INFEASIBLE, 2, 3, u32::MAX]);
        self
    }

    /// These layouts with the lengths that they are lent with.
    pub fn layouts(&self, these: &[Layout]) -> Vec<(Layout, usize)> {
        self.layouts.iter().filter(|(layout, _)| these.contains(layout)).copied().collect()
    }

    pub fn has_named_length(&self, layout: Layout) -> bool {
        self.layouts.contains(&(layout, layout.named_length()))
    }

    /// The bytes of a layout as they are lent.
    pub fn lend(&self, random: &mut Random, layout: Layout) -> Guarded<u8> {
        let Self { day, schedule, state, search, .. } = self;
        let length = self.layouts(&[layout])[0].1;
        match layout {
            Layout::Day => {
                let own = boundary::day(random, day);
                lent_at(random, layout, &own, length)
            }
            Layout::Schedule => {
                let own = boundary::schedule(random, day, schedule);
                lent_at(random, layout, &own, length)
            }
            Layout::State => {
                let own = boundary::state(random, day, state);
                lent_at(random, layout, &own, length)
            }
            Layout::Search => lent_at(random, layout, &port::Search::from(*search), length),
            Layout::Memory => {
                lent_at(random, layout, &CachedAssignment::from(search.cached), length)
            }
        }
    }

    pub fn handed(&self) -> Handed<'_> {
        Handed {
            day: Some(&self.day),
            scores: None,
            preferences: Some(&self.day.preferences),
            levels: Some(&self.day.levels),
            powers: Some(&self.day.powers),
            costs: Some(&self.day.costs),
            layouts: &self.layouts,
            buffers: &self.buffers,
            asked: &self.asked,
            schedule: Some(&self.schedule),
            state: Some(&self.state),
            plan: Some(&self.plan),
            search: Some(&self.search),
            cached: Some(&self.search.cached),
        }
    }
}

const BUFFERS: [Buffer; 9] = [
    Buffer::Supplies,
    Buffer::SlotLists,
    Buffer::EdgeTable,
    Buffer::EdgeValues,
    Buffer::GroupEntries,
    Buffer::GroupEnds,
    Buffer::BlockedEntries,
    Buffer::Plan,
    Buffer::Roster,
];

/// One of each that there is.
pub fn random_asked(random: &mut Random, day: &Day) -> Vec<Asked> {
    let mut asked = Vec::new();
    if day.choosers > 0 {
        asked.push(Asked::Chooser(random.below(day.choosers)));
    }
    if day.choices > 0 {
        asked.push(Asked::Choice(random.below(day.choices)));
    }
    if day.slots > 0 {
        asked.push(Asked::Slot(random.below(day.slots)));
    }
    asked
}

/// A kind of damage, and the number by which it must be refused; 0: it must
/// make no difference.
pub struct Damage {
    pub name: &'static str,
    pub number: u32,
    /// Does the damage, or nothing where the input has no room for it.
    pub apply: fn(&mut Random, &mut Input) -> Option<()>,
}

/// Every kind of damage, by number.
pub fn all() -> Vec<&'static Damage> {
    by_number(&[
        days::DAMAGES,
        layouts::SCHEDULES,
        layouts::STATES,
        layouts::SEARCHES,
        tables::DAMAGES,
        tables::BUFFERS,
        tables::LEVELS,
        lent::SCHEDULES,
        lent::DAMAGES,
        plans::DAMAGES,
        searches::DAMAGES,
    ])
}

/// Damage to a day, a schedule or a state, by number. It does not look at the
/// tables, buffers and plan beside them.
pub fn of_states() -> Vec<&'static Damage> {
    by_number(&[days::DAMAGES, layouts::SCHEDULES, layouts::STATES, lent::SCHEDULES, lent::DAMAGES])
}

/// Damage to what the two calls on models are handed, by number. They have no
/// use for preference levels.
pub fn of_models() -> Vec<&'static Damage> {
    by_number(&[
        days::DAMAGES,
        layouts::STATES,
        tables::DAMAGES,
        tables::BUFFERS,
        lent::SCHEDULES,
        lent::DAMAGES,
    ])
}

/// Damage to what the calls on plans are handed, by number. Tables that they
/// have no use for make no difference.
pub fn of_rosters() -> Vec<&'static Damage> {
    by_number(&[days::DAMAGES, tables::DAMAGES, tables::BUFFERS, plans::DAMAGES])
}

/// Damage to what the verdicts and the score are handed, by number. They have no
/// use for costs.
pub fn of_verdicts() -> Vec<&'static Damage> {
    by_number(&[
        days::DAMAGES,
        layouts::SCHEDULES,
        tables::DAMAGES,
        lent::SCHEDULES,
        plans::DAMAGES,
    ])
}

/// Damage to what the calls of a search are handed, by number.
pub fn of_searches() -> Vec<&'static Damage> {
    by_number(&[
        days::DAMAGES,
        layouts::SCHEDULES,
        layouts::SEARCHES,
        tables::LEVELS,
        lent::SCHEDULES,
        plans::DAMAGES,
        searches::DAMAGES,
    ])
}

fn by_number(lists: &[&'static [Damage]]) -> Vec<&'static Damage> {
    let mut damages = lists.iter().flat_map(|list| list.iter()).collect::<Vec<_>>();
    damages.sort_by_key(|damage| damage.number);
    damages
}
