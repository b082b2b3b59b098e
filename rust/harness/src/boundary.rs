//! From plain data to the structs of the port, and to the bytes that are lent.
//! What lies past a day's sizes is not read: it becomes zeros, small numbers that
//! could pass for sound ones, or anything.
use crate::constraint::{Constraint, random_assignment, random_scheduling};
use crate::day::{CHOICES, CHOOSERS, Day, SLOTS};
use crate::plan::PLAN;
use crate::random::Random;
use crate::reading::Layout;
use crate::schedule::Schedule;
use crate::search::Memory;
use crate::state::State;
use port::guarded::Guarded;
use port::{AsBytes, InputData, ScheduleState, Scheduling};
use std::array;

/// The day, sound or damaged. Of what a struct has no room for the front is
/// taken, since the count beside it tells that there is more.
pub fn day(random: &mut Random, day: &Day) -> InputData {
    let mut junk = Junk::beside(random, day);
    let optional = day.optional.iter().copied().map(u8::from).collect::<Vec<_>>();
    InputData {
        choosers: word(day.choosers),
        choices: word(day.choices),
        slots: word(day.slots),
        max_preference: day.max_preference,
        scheduling_count: word(day.scheduling.len()),
        assignment_count: word(day.assignment.len()),
        groups: word(day.group_lengths.len()),
        mins: filled(&day.mins, || junk.word()),
        maxs: filled(&day.maxs, || junk.word()),
        optional: filled(&optional, || junk.word() as u8),
        lengths: filled(&day.group_lengths, || junk.word()),
        members: filled(&day.group_members, || junk.word()),
        scheduling: filled(&day.scheduling, || junk.constraint(day, random_scheduling)),
        assignment: filled(&day.assignment, || junk.constraint(day, random_assignment)),
    }
}

/// A size or an index as it crosses.
pub fn word(size: usize) -> u32 {
    u32::try_from(size).expect("a number that can cross")
}

/// A setting as a number: yes is any but 0.
pub fn setting(random: &mut Random, yes: bool) -> u32 {
    if yes { random.pick(&[1, 1, 2, 256, 1 << 31, u32::MAX]) } else { 0 }
}

/// A layout's bytes, to be lent: a flag that is yes may be any byte but 0.
pub fn lent(random: &mut Random, layout: Layout, of: &impl AsBytes) -> Guarded<u8> {
    lent_at(random, layout, of, layout.named_length())
}

/// The same with any length: cut, or with anything behind it.
pub fn lent_at(
    random: &mut Random,
    layout: Layout,
    of: &impl AsBytes,
    length: usize,
) -> Guarded<u8> {
    let mut bytes = of.bytes().to_vec();
    let mut junk = Junk::new(random);
    for place in layout.flags() {
        bytes[place] = junk.flag(bytes[place]);
    }
    bytes.resize_with(length, || junk.word() as u8);
    Guarded::holding(&bytes)
}

/// The day's bytes.
pub fn lent_day(random: &mut Random, plain: &Day) -> Guarded<u8> {
    let own = day(random, plain);
    lent(random, Layout::Day, &own)
}

pub fn schedule(random: &mut Random, day: &Day, schedule: &Schedule) -> Scheduling {
    let mut junk = Junk::beside(random, day);
    let mut entries = entries(schedule);
    entries[day.choices.min(CHOICES)..].fill_with(|| junk.word() as u8);
    Scheduling { entries }
}

/// The state without its slot lists, which are lent.
pub fn state(random: &mut Random, day: &Day, state: &State) -> ScheduleState {
    let own = ScheduleState {
        schedule: Scheduling { entries: entries(&state.schedule) },
        covered: filled(&state.covered, || 0),
        blocks: array::from_fn(|place| state.blocks[place].into()),
    };
    with_rest(random, day, own)
}

/// The state with anything past the day's sizes.
pub fn with_rest(random: &mut Random, day: &Day, mut state: ScheduleState) -> ScheduleState {
    let (choosers, choices) = (day.choosers.min(CHOOSERS), day.choices.min(CHOICES));
    let mut junk = Junk::beside(random, day);
    state.schedule.entries[choices..].fill_with(|| junk.word() as u8);
    state.covered[day.slots.min(SLOTS)..].fill_with(|| junk.word());
    for (chooser, row) in state.blocks.chunks_exact_mut(CHOICES).enumerate() {
        let used = if chooser < choosers { choices } else { 0 };
        let mut bits = junk.word();
        for block in &mut row[used..] {
            *block = (bits & 1) as u8;
            bits >>= 1;
        }
    }
    state
}

/// 0 for none and s + 1 for slot s.
pub fn entries(schedule: &[Option<usize>]) -> [u8; CHOICES] {
    let entry = |slot: usize| u8::try_from(slot).unwrap_or(u8::MAX).saturating_add(1);
    let entries = schedule.iter().map(|slot| slot.map_or(0, entry)).collect::<Vec<_>>();
    filled(&entries, || 0)
}

/// The schedule that stands in these entries.
pub fn slots(schedule: &Scheduling) -> Schedule {
    schedule.entries.iter().map(|entry| usize::from(*entry).checked_sub(1)).collect()
}

/// The schedule with 0 past the day's choices.
pub fn kept(day: &Day, schedule: Scheduling) -> Scheduling {
    Scheduling { entries: filled(&schedule.entries[..day.choices], || 0) }
}

/// The plan with 0 past the last seat.
pub fn seats(day: &Day, plan: &[u8]) -> [u8; PLAN] {
    filled(&plan[..day.choosers * day.slots], || 0)
}

/// What a search remembers, with anything past the day's choices and seats.
pub fn remembered(random: &mut Random, day: &Day, mut cached: Memory) -> Memory {
    let mut junk = Junk::beside(random, day);
    cached.schedule.entries[day.choices..].fill_with(|| junk.word() as u8);
    cached.plan[day.choosers * day.slots..].fill_with(|| junk.word() as u8);
    cached
}

/// The front, and what `rest` gives for as much as there is room.
fn filled<T: Copy, const N: usize>(front: &[T], mut rest: impl FnMut() -> T) -> [T; N] {
    array::from_fn(|place| front.get(place).copied().unwrap_or_else(&mut rest))
}

/// What stands where nothing is read.
struct Junk<'a> {
    random: &'a mut Random,
    /// The bits that may be set.
    mask: u64,
}

impl<'a> Junk<'a> {
    fn new(random: &'a mut Random) -> Self {
        let mask = random.pick(&[0, 7, u64::MAX]);
        Self { random, mask }
    }

    /// Zeros beside a plain day.
    fn beside(random: &'a mut Random, day: &Day) -> Self {
        let junk = Self::new(random);
        if day.is_plain { Self { mask: 0, ..junk } } else { junk }
    }

    fn word(&mut self) -> u32 {
        (self.random.bits() & self.mask) as u32
    }

    /// No stays 0; yes becomes 1 or any other byte but 0.
    fn flag(&mut self, flag: u8) -> u8 {
        if flag == 0 { 0 } else { (self.word() as u8).max(1) }
    }

    /// Zeros, or a constraint that would block or be refused if it were read.
    fn constraint(
        &mut self,
        day: &Day,
        sound: fn(&mut Random, &Day) -> Option<Constraint>,
    ) -> Constraint {
        match self.mask {
            0 => Constraint::default(),
            7 => sound(self.random, day).unwrap_or_default(),
            _ => Constraint {
                kind: self.word(),
                left: self.word(),
                target_case: self.word(),
                target: self.word(),
                extra_case: self.word(),
                extra: self.word() as i32,
            },
        }
    }
}
