//! The second reading of a call in bytes: what stands in them, and the number
//! that the call must give.
use super::{Asked, Buffer, Handed, Layout, Scores, values_number};
use crate::boundary::slots;
use crate::bridge;
use crate::call::{Call, Name, Numbers};
use crate::constraint::Constraint;
use crate::day::{CHOICES, CONSTRAINTS, Day, GROUPS, MEMBERS, SLOTS};
use crate::plan::PLAN;
use crate::recording::Entry;
use crate::schedule::Schedule;
use crate::search::{FEASIBLE, Memory, Search};
use crate::state::State;
use oracle::Record;
use port::Scheduling;
use std::array;

/// What a call is lent, in plain data. A layout that has not its length cannot
/// be read, and is none.
#[derive(Debug)]
pub struct Plain {
    entry: Entry,
    numbers: Numbers,
    pub day: Option<Day>,
    pub schedule: Option<Schedule>,
    pub state: Option<State>,
    search: Option<Search>,
    cached: Option<Memory>,
    plan: Option<Vec<u8>>,
    values: Vec<i32>,
    layouts: Vec<(Layout, usize)>,
    buffers: Vec<(Buffer, usize)>,
    scores: Option<Scores>,
    has_tables: [bool; 4],
}

impl Plain {
    pub fn of(call: &Call) -> Self {
        let Call { entry, numbers, .. } = *call;
        let whole = |name: Name| {
            let bytes = call.bytes(name)?;
            (bytes.len() == name.layout()?.named_length()).then_some(bytes)
        };
        let search = whole(Name::Search).map(search);
        let own = search.map(|search| slots(&search.schedule));
        let has_schedule = entry != Entry::Evaluate || matches!(numbers.solution, 1 | 2);
        let schedule = whole(Name::Schedule).filter(|_| has_schedule).map(schedule);
        let tables = [Name::Preferences, Name::Levels, Name::Powers, Name::Costs];
        Self {
            entry,
            numbers,
            day: whole(Name::Day).map(|bytes| day(bytes, call)),
            schedule: schedule.or(own),
            state: whole(Name::State).map(|bytes| state(bytes, call)),
            cached: whole(Name::Cached).map(memory).or(search.map(|search| search.cached)),
            search,
            plan: call.bytes(Name::Plan).filter(|_| reads_plan(call)).map(<[u8]>::to_vec),
            values: call.elements(Name::Values).unwrap_or_default(),
            layouts: layouts(call, has_schedule),
            buffers: buffers(call),
            scores: call.length(Name::Scores).map(|floats| Scores { count: numbers.count, floats }),
            has_tables: tables.map(|name| call.bytes(name).is_some()),
        }
    }

    /// The number that is given before any edge value is looked at.
    fn number(&self) -> u32 {
        let day = self.day.as_ref();
        let [preferences, levels, powers, costs] = self.has_tables;
        super::number(&Handed {
            day,
            scores: self.scores,
            preferences: day.filter(|_| preferences).map(|day| &day.preferences[..]),
            levels: day.filter(|_| levels).map(|day| &day.levels[..]),
            powers: day.filter(|_| powers).map(|day| &day.powers[..]),
            costs: day.filter(|_| costs).map(|day| &day.costs[..]),
            layouts: &self.layouts,
            buffers: &self.buffers,
            asked: &asked(self.entry, &self.numbers),
            schedule: self.schedule.as_ref(),
            state: self.state.as_ref(),
            plan: self.plan.as_deref(),
            search: self.search.as_ref(),
            cached: self.cached.as_ref(),
        })
    }

    /// The number that the call must give, and the model that it must leave.
    pub fn read(&self) -> (u32, Option<Record>) {
        let number = self.number();
        let has_model = matches!(self.entry, Entry::Model | Entry::CheckValues);
        let (Some(day), Some(state), 0, true) = (&self.day, &self.state, number, has_model) else {
            return (number, None);
        };
        let limit = self.numbers.limit;
        let model = bridge::ask(day, state, |solver| solver.model(limit));
        let is_check = self.entry == Entry::CheckValues;
        let number = if is_check { values_number(&model, &self.values) } else { 0 };
        (number, Some(model))
    }
}

/// The plan of a call that writes one is a buffer, and that of a result or a
/// solution without one is not looked at.
fn reads_plan(call: &Call) -> bool {
    match call.entry {
        Entry::CheckValues => false,
        Entry::Tell => call.numbers.result == FEASIBLE,
        Entry::Evaluate => call.numbers.solution == 2,
        _ => true,
    }
}

/// The layouts whose lengths are looked at.
fn layouts(call: &Call, has_schedule: bool) -> Vec<(Layout, usize)> {
    let lengths =
        call.slices.iter().filter_map(|(name, bytes)| Some((name.layout()?, bytes.len())));
    lengths.filter(|(layout, _)| has_schedule || *layout != Layout::Schedule).collect()
}

/// The slices that need only be long enough. Slot lists are a part of the state
/// where there is one.
fn buffers(call: &Call) -> Vec<(Buffer, usize)> {
    let is_buffer = |name: Name| call.writes(name) || matches!(name, Name::Lists | Name::Values);
    let names = call.slices.iter().map(|(name, _)| *name).filter(|name| is_buffer(*name));
    names.filter_map(|name| Some((name.buffer()?, call.length(name)?))).collect()
}

fn asked(entry: Entry, numbers: &Numbers) -> Vec<Asked> {
    let Numbers { chooser, choice, slot, .. } = *numbers;
    match entry {
        Entry::SlotList => vec![Asked::Slot(slot)],
        Entry::ChoosersOrdered => vec![Asked::Choice(choice)],
        Entry::ChoicesOrdered => vec![Asked::Chooser(chooser)],
        Entry::IsInChoice => vec![Asked::Chooser(chooser), Asked::Choice(choice)],
        Entry::ChoiceOf => vec![Asked::Chooser(chooser), Asked::Slot(slot)],
        _ => vec![],
    }
}

/// The number at this place.
fn word(bytes: &[u8], at: usize) -> u32 {
    u32::from_le_bytes(array::from_fn(|place| bytes[at + place]))
}

fn words(bytes: &[u8], at: usize, count: usize) -> Vec<u32> {
    (0..count).map(|place| word(bytes, at + 4 * place)).collect()
}

/// A size, an index or a count.
fn size(bytes: &[u8], at: usize) -> usize {
    word(bytes, at) as usize
}

fn flags(bytes: &[u8]) -> Vec<bool> {
    bytes.iter().map(|&byte| byte != 0).collect()
}

/// The day, with the tables that are lent beside it.
fn day(bytes: &[u8], call: &Call) -> Day {
    Day {
        choosers: size(bytes, 0),
        choices: size(bytes, 4),
        slots: size(bytes, 8),
        max_preference: word(bytes, 12),
        scheduling: constraints(bytes, size(bytes, 16), 508),
        assignment: constraints(bytes, size(bytes, 20), 1_276),
        group_lengths: front(words(bytes, 316, GROUPS), size(bytes, 24)),
        mins: words(bytes, 28, CHOICES),
        maxs: words(bytes, 156, CHOICES),
        optional: flags(&bytes[284..316]),
        group_members: words(bytes, 380, MEMBERS),
        preferences: call.elements(Name::Preferences).unwrap_or_default(),
        levels: call.elements(Name::Levels).unwrap_or_default(),
        powers: call.elements(Name::Powers).unwrap_or_default(),
        costs: call.elements(Name::Costs).unwrap_or_default(),
        ..Day::bare(0, 0, 0)
    }
}

fn constraints(bytes: &[u8], count: usize, at: usize) -> Vec<Constraint> {
    let constraint = |place: usize| Constraint {
        kind: word(bytes, at + 24 * place),
        left: word(bytes, at + 24 * place + 4),
        target_case: word(bytes, at + 24 * place + 8),
        target: word(bytes, at + 24 * place + 12),
        extra_case: word(bytes, at + 24 * place + 16),
        extra: word(bytes, at + 24 * place + 20) as i32,
    };
    front((0..CONSTRAINTS).map(constraint).collect(), count)
}

/// The front of so many. A count that is too large shows as one more than there
/// are.
fn front<T: Clone + Default>(mut all: Vec<T>, count: usize) -> Vec<T> {
    all.resize(count.min(all.len() + 1), T::default());
    all
}

fn entries(bytes: &[u8]) -> Scheduling {
    Scheduling { entries: array::from_fn(|choice| bytes[choice]) }
}

fn schedule(bytes: &[u8]) -> Schedule {
    slots(&entries(bytes))
}

fn plan(bytes: &[u8]) -> [u8; PLAN] {
    array::from_fn(|seat| bytes[seat])
}

/// The state, with the slot lists that are lent beside it.
fn state(bytes: &[u8], call: &Call) -> State {
    State {
        schedule: schedule(bytes),
        covered: words(bytes, 32, SLOTS),
        blocks: flags(&bytes[64..]),
        lists: call.bytes(Name::Lists).unwrap_or_default().to_vec(),
    }
}

fn memory(bytes: &[u8]) -> Memory {
    Memory {
        there: bytes[0] != 0,
        greedy: bytes[1] != 0,
        schedule: entries(&bytes[2..]),
        plan: plan(&bytes[34..]),
    }
}

fn search(bytes: &[u8]) -> Search {
    Search {
        asking: bytes[0] != 0,
        greedy: bytes[1] != 0,
        found: bytes[2] != 0,
        optimal: bytes[3] != 0,
        asks: word(bytes, 4),
        level: word(bytes, 8),
        start: size(bytes, 12),
        low: size(bytes, 16),
        high: size(bytes, 20),
        schedule: entries(&bytes[24..]),
        plan: plan(&bytes[56..]),
        cached: memory(&bytes[568..]),
    }
}
