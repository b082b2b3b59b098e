//! A second reading of the checks of SPEC 3, over plain data: the first number
//! that applies. It was written from the rules and shares nothing with the
//! port but the entries of a schedule, since the Rust refuses nothing that could
//! be compared.
pub mod bytes;

use crate::boundary::slots;
use crate::constraint::{Constraint, OPERATORS, extra, kind, target};
use crate::day::{
    CHOICES, CHOOSERS, CONSTRAINTS, Day, GROUPS, LEVELS, MEMBERS, MOST_ASKS, MOST_COST,
    MOST_PREFERENCE, MOST_SEATS, SCORES, SLOTS,
};
use crate::plan::PLAN;
use crate::schedule::Schedule;
use crate::search::{Memory, Search};
use crate::state::{LISTS, State};
use oracle::Record;

/// What is lent as bytes of one layout, all of them.
#[derive(Debug, Clone, Copy, PartialEq, Eq)]
pub enum Layout {
    Day,
    Schedule,
    State,
    Search,
    Memory,
}

impl Layout {
    pub const ALL: [Self; 5] = [Self::Day, Self::Schedule, Self::State, Self::Search, Self::Memory];

    pub fn named_length(self) -> usize {
        match self {
            Self::Day => 2_044,
            Self::Schedule => 32,
            Self::State => 2_112,
            Self::Search => 1_114,
            Self::Memory => 546,
        }
    }

    /// The places of the flags, which are yes where they are not 0.
    pub fn flags(self) -> impl Iterator<Item = usize> {
        let (own, remembered) = match self {
            Self::Day => (284..316, 0..0),
            Self::Schedule => (0..0, 0..0),
            Self::State => (64..2_112, 0..0),
            Self::Search => (0..4, 568..570),
            Self::Memory => (0..2, 0..0),
        };
        own.chain(remembered)
    }
}

/// Buffers that need only be long enough.
#[derive(Debug, Clone, Copy, PartialEq, Eq)]
pub enum Buffer {
    Supplies,
    SlotLists,
    EdgeTable,
    EdgeValues,
    GroupEntries,
    GroupEnds,
    BlockedEntries,
    Plan,
    Roster,
}

impl Buffer {
    pub fn named_length(self) -> usize {
        match self {
            Self::Supplies => 552,
            Self::SlotLists => LISTS,
            Self::EdgeTable | Self::EdgeValues => 2_080,
            Self::GroupEntries | Self::BlockedEntries => 4_096,
            Self::GroupEnds => 2_048,
            Self::Plan | Self::Roster => PLAN,
        }
    }
}

/// Something that a call is asked about.
#[derive(Debug, Clone, Copy, PartialEq, Eq)]
pub enum Asked {
    Chooser(usize),
    Choice(usize),
    Slot(usize),
}

impl Asked {
    pub fn is_outside(self, day: &Day) -> bool {
        match self {
            Self::Chooser(chooser) => chooser >= day.choosers,
            Self::Choice(choice) => choice >= day.choices,
            Self::Slot(slot) => slot >= day.slots,
        }
    }
}

/// A list of scores: how many it is said to have, and its floats.
#[derive(Debug, Clone, Copy)]
pub struct Scores {
    pub count: usize,
    pub floats: usize,
}

/// What a call was handed. A call makes only the checks whose input it has.
#[derive(Debug, Clone, Copy, Default)]
pub struct Handed<'a> {
    pub day: Option<&'a Day>,
    pub scores: Option<Scores>,
    pub preferences: Option<&'a [u32]>,
    pub levels: Option<&'a [u32]>,
    pub powers: Option<&'a [f32]>,
    pub costs: Option<&'a [i64]>,
    /// Layouts that were lent, with their lengths.
    pub layouts: &'a [(Layout, usize)],
    /// Buffers that were lent to be written or read in part, with their lengths.
    pub buffers: &'a [(Buffer, usize)],
    pub asked: &'a [Asked],
    pub schedule: Option<&'a Schedule>,
    pub state: Option<&'a State>,
    pub plan: Option<&'a [u8]>,
    /// A search that is told a result, and what a search remembers.
    pub search: Option<&'a Search>,
    pub cached: Option<&'a Memory>,
}

type Check = fn(&Handed, &Day) -> bool;

/// The checks in their order. Each holds for itself, whatever the others say.
const CHECKS: [(u32, Check); 14] = [
    (1, too_many),
    (2, wrong_length),
    (3, wrong_seats),
    (4, wrong_preference),
    (5, wrong_levels),
    (6, wrong_cost),
    (7, too_many_constraints),
    (8, wrong_kind),
    (9, wrong_operand),
    (10, wrong_groups),
    (11, wrong_slot),
    (12, wrong_state),
    (13, wrong_plan),
    (18, wrong_search),
];

/// The first number that applies, or 0.
pub fn number(handed: &Handed) -> u32 {
    applying(handed, |numbers| numbers.next().unwrap_or(0))
}

/// Every number that applies, in the order of checking.
pub fn faults(handed: &Handed) -> Vec<u32> {
    applying(handed, |numbers| numbers.collect())
}

/// Hands on the numbers that apply. Each is looked for when it is asked for.
fn applying<T>(handed: &Handed, take: impl FnOnce(&mut dyn Iterator<Item = u32>) -> T) -> T {
    // Nothing can be read of a day that has not its length.
    if has_wrong_length(handed, |layout| layout == Layout::Day) {
        return take(&mut [2].into_iter());
    }
    // A call without a day reads as one with a day on which nothing is wrong.
    let none = Day::bare(0, 0, 0);
    let day = handed.day.unwrap_or(&none);
    let applies = |(number, check): &(u32, Check)| check(handed, day).then_some(*number);
    take(&mut CHECKS.iter().filter_map(applies))
}

/// Whether one of these layouts has not its length.
fn has_wrong_length(handed: &Handed, is_meant: impl Fn(Layout) -> bool) -> bool {
    let is_wrong = |(layout, length): &(Layout, usize)| *length != layout.named_length();
    handed.layouts.iter().filter(|(layout, _)| is_meant(*layout)).any(is_wrong)
}

fn too_many(handed: &Handed, day: &Day) -> bool {
    day.choosers > CHOOSERS
        || day.choices > CHOICES
        || day.slots > SLOTS
        || handed.scores.is_some_and(|scores| scores.count > SCORES)
}

fn wrong_length(handed: &Handed, day: &Day) -> bool {
    let is_not = |found: Option<usize>, named: u128| found.is_some_and(|n| n as u128 != named);
    let preferences = day.choosers as u128 * day.choices as u128;
    let levels = u128::from(day.max_preference) + 1;
    let listed = handed.scores.map_or(0, |scores| 2 * scores.count as u128);
    is_not(handed.preferences.map(<[u32]>::len), preferences)
        || is_not(handed.powers.map(<[f32]>::len), levels)
        || is_not(handed.costs.map(<[i64]>::len), levels)
        || is_not(handed.plan.map(<[u8]>::len), PLAN as u128)
        || is_not(handed.scores.map(|scores| scores.floats), listed)
        || has_wrong_length(handed, |_| true)
        || handed.state.is_some_and(|state| state.lists.len() < LISTS)
        || handed.buffers.iter().any(|(buffer, length)| *length < buffer.named_length())
}

fn wrong_seats(_: &Handed, day: &Day) -> bool {
    let mut seats = day.mins.iter().zip(&day.maxs).take(day.choices);
    seats.any(|(min, max)| min > max || *max > MOST_SEATS)
}

fn wrong_preference(handed: &Handed, day: &Day) -> bool {
    let mut preferences = handed.preferences.unwrap_or(&[]).iter();
    day.max_preference > MOST_PREFERENCE || preferences.any(|&one| one > day.max_preference)
}

fn wrong_levels(handed: &Handed, day: &Day) -> bool {
    let levels = handed.levels.unwrap_or(&[]);
    levels.len() > LEVELS
        || levels.windows(2).any(|pair| pair[0] >= pair[1])
        || levels.iter().any(|&level| level > day.max_preference)
}

fn wrong_cost(handed: &Handed, _: &Day) -> bool {
    let mut costs = handed.costs.unwrap_or(&[]).iter();
    costs.any(|cost| !(0..=MOST_COST).contains(cost))
}

fn too_many_constraints(_: &Handed, day: &Day) -> bool {
    day.scheduling.len() > CONSTRAINTS || day.assignment.len() > CONSTRAINTS
}

fn wrong_kind(_: &Handed, day: &Day) -> bool {
    day.scheduling.iter().any(|constraint| !(1..=6).contains(&constraint.kind))
        || day.assignment.iter().any(|constraint| !(65_536..=65_539).contains(&constraint.kind))
}

fn wrong_operand(handed: &Handed, day: &Day) -> bool {
    let mut constraints = day.scheduling.iter().chain(&day.assignment);
    constraints.any(|constraint| has_wrong_operand(constraint, day))
        || handed.asked.iter().any(|asked| asked.is_outside(day))
}

fn has_wrong_operand(constraint: &Constraint, day: &Day) -> bool {
    let chooser = |number: u32| (number as usize) < day.choosers;
    let choice = |number: u32| (number as usize) < day.choices;
    let slot = |number: u32| (number as usize) < day.slots;
    let to = |case| constraint.target_case == case;
    let Constraint { left, target, .. } = *constraint;
    let is_right = match constraint.kind {
        1 | 2 => choice(left) && to(target::SLOT) && slot(target),
        3 | 4 => choice(left) && to(target::CHOICE) && choice(target),
        5 => {
            let has_offset = constraint.extra_case == extra::OFFSET;
            choice(left) && to(target::CHOICE) && choice(target) && has_offset
        }
        6 => {
            let is_operator = OPERATORS.contains(&constraint.extra);
            let has_operator = constraint.extra_case == extra::OPERATOR && is_operator;
            slot(left) && to(target::LIMIT) && has_operator
        }
        65_536 => choice(left) && to(target::CHOICE) && choice(target),
        65_537 | 65_538 => chooser(left) && to(target::CHOICE) && choice(target),
        65_539 => chooser(left) && to(target::CHOOSER) && chooser(target),
        // Kinds that no list may hold are another check's matter.
        _ => true,
    };
    !is_right
}

fn wrong_groups(_: &Handed, day: &Day) -> bool {
    let members = day.group_lengths.iter().copied().map(u64::from).sum::<u64>();
    let mut used = day.group_members.iter().take(members.min(MEMBERS as u64) as usize);
    day.group_lengths.len() > GROUPS
        || members > MEMBERS as u64
        || used.any(|&member| member as usize >= day.choices)
}

fn wrong_slot(handed: &Handed, day: &Day) -> bool {
    let is_wrong = |schedule: &Schedule| {
        schedule.iter().take(day.choices).flatten().any(|&slot| slot >= day.slots)
    };
    let remembered = handed.cached.filter(|cached| cached.there);
    handed.schedule.is_some_and(is_wrong)
        || handed.state.is_some_and(|state| is_wrong(&state.schedule))
        || handed.search.is_some_and(|search| is_wrong(&slots(&search.schedule)))
        || remembered.is_some_and(|cached| is_wrong(&slots(&cached.schedule)))
}

fn wrong_state(handed: &Handed, day: &Day) -> bool {
    let Some(state) = handed.state else {
        return false;
    };
    (0..day.slots.min(SLOTS)).any(|slot| {
        let own = choices_in(day, &state.schedule, slot);
        let mins = own.iter().filter_map(|&choice| day.mins.get(choice));
        let sum = mins.copied().map(u64::from).sum::<u64>();
        has_wrong_list(state, slot, &own) || u64::from(state.covered[slot]) != sum
    }) || has_wrong_block(state, day)
}

/// The choices that a schedule puts into a slot.
fn choices_in(day: &Day, schedule: &Schedule, slot: usize) -> Vec<usize> {
    let entries = schedule.iter().take(day.choices).enumerate();
    entries.filter(|(_, own)| **own == Some(slot)).map(|(choice, _)| choice).collect()
}

/// The front of the slot's part must hold exactly these choices once each.
fn has_wrong_list(state: &State, slot: usize, own: &[usize]) -> bool {
    let part = state.lists.iter().skip(slot * CHOICES).take(own.len());
    let mut front = part.map(|&choice| usize::from(choice)).collect::<Vec<_>>();
    front.sort_unstable();
    front != own
}

fn has_wrong_block(state: &State, day: &Day) -> bool {
    let choosers = 0..day.choosers.min(CHOOSERS);
    let mut pairs = choosers.flat_map(|c| (0..day.choices.min(CHOICES)).map(move |k| (c, k)));
    pairs.any(|(chooser, choice)| {
        let named = is_blocked(day, &state.schedule, chooser, choice);
        state.blocks[chooser * CHOICES + choice] != named
    })
}

/// Whether a chooser's edges to a choice are blocked under a schedule.
pub fn is_blocked(day: &Day, schedule: &Schedule, chooser: usize, choice: usize) -> bool {
    let slot_of = |choice: usize| schedule.get(choice).copied().flatten();
    day.assignment.iter().any(|constraint| {
        let named = constraint.target as usize;
        let is_other = choice != named && slot_of(named).is_some();
        constraint.left as usize == chooser
            && match constraint.kind {
                kind::CHOOSER_IS_IN_CHOICE => is_other && slot_of(choice) == slot_of(named),
                kind::CHOOSER_IS_NOT_IN_CHOICE => choice == named,
                _ => false,
            }
    })
}

fn wrong_plan(handed: &Handed, day: &Day) -> bool {
    let found = handed.search.filter(|search| search.found);
    let remembered = handed.cached.filter(|cached| cached.there);
    let is_wrong = |plan: &[u8], schedule| has_wrong_seat(day, plan, Some(&slots(schedule)));
    handed.plan.is_some_and(|plan| has_wrong_seat(day, plan, handed.schedule))
        || found.is_some_and(|search| is_wrong(&search.plan, &search.schedule))
        || remembered.is_some_and(|cached| is_wrong(&cached.plan, &cached.schedule))
}

/// A plan lent without a schedule is only tested for numbers that are no choice.
fn has_wrong_seat(day: &Day, plan: &[u8], schedule: Option<&Schedule>) -> bool {
    let seats = day.choosers.saturating_mul(day.slots);
    let mut entries = plan.iter().take(seats).map(|&entry| usize::from(entry));
    entries.any(|choice| {
        let has_no_slot = |schedule: &Schedule| schedule.get(choice).copied().flatten().is_none();
        choice >= day.choices || schedule.is_some_and(has_no_slot)
    })
}

fn wrong_search(handed: &Handed, _: &Day) -> bool {
    let levels = handed.levels.unwrap_or(&[]).len();
    handed.search.is_some_and(|search| {
        let Search { start, low, high, .. } = *search;
        let is_within = start <= low && low <= high && high < levels;
        !search.asking || search.asks > MOST_ASKS || !search.greedy && !is_within
    })
}

/// The number that refuses these edge values, 14 to 17, or 0.
pub fn values_number(model: &Record, values: &[i32]) -> u32 {
    values_faults(model, values).first().copied().unwrap_or(0)
}

/// Every number of 14 to 17 that applies to these edge values, in order. Those
/// past the last edge are not read.
pub fn values_faults(model: &Record, values: &[i32]) -> Vec<u32> {
    let mut edges = model.edges.iter().zip(values);
    let differs = |group: &Vec<usize>| group.iter().any(|&edge| values[edge] != values[group[0]]);
    let sum = |edges: &[usize]| edges.iter().map(|&edge| i64::from(values[edge])).sum::<i64>();
    let unbalanced = |node: usize| {
        sum(&model.outgoing[node]) - sum(&model.incoming[node]) != i64::from(model.supply[node])
    };
    let checks = [
        (14, edges.any(|(edge, value)| !(0..=edge.max).contains(value))),
        (15, model.blocked.iter().any(|&edge| values[edge] != 0)),
        (16, model.groups.iter().any(differs)),
        (17, (0..model.supply.len()).any(unbalanced)),
    ];
    checks.iter().filter(|(_, applies)| *applies).map(|(number, _)| *number).collect()
}
