//! A schedule state in the form that is lent, and how the Rust's becomes one.
use crate::day::{CHOICES, CHOOSERS, Day, SLOTS};
use crate::random::Random;
use crate::reading;
use crate::schedule::Schedule;
use std::fmt;

/// The named length of the slot lists.
pub const LISTS: usize = SLOTS * CHOICES;

/// Whatever lies past the day's choices, slots and choosers, and past the used
/// front of a slot's list, may be anything.
#[derive(Clone)]
pub struct State {
    pub schedule: Schedule,
    /// A count for each of the 8 slots.
    pub covered: Vec<u32>,
    /// For chooser c and choice k at c × 32 + k.
    pub blocks: Vec<bool>,
    /// The list of slot s starts at 32 × s.
    pub lists: Vec<u8>,
}

impl State {
    /// The Rust's state of this day, with anything where nothing is read.
    pub fn of(random: &mut Random, day: &Day, state: &oracle::State) -> Self {
        let any = random.bits() as u8;
        let junk = random.pick(&[0, 0xEE, any]);
        let mut schedule = state.schedule.clone();
        schedule.resize(CHOICES, (junk > 0).then_some(usize::from(junk)));
        let mut covered = state.covered.clone();
        covered.resize(SLOTS, u32::from(junk));
        let mut lists = vec![junk; LISTS];
        for (slot, list) in state.lists.iter().enumerate() {
            for (place, &choice) in list.iter().enumerate() {
                lists[slot * CHOICES + place] = choice as u8;
            }
        }
        let mut blocks = vec![junk > 0; CHOOSERS * CHOICES];
        let own = blocks_of(day, state);
        for row in (0..day.choosers).map(|chooser| chooser * CHOICES) {
            blocks[row..][..day.choices].copy_from_slice(&own[row..][..day.choices]);
        }
        Self { schedule, covered, blocks, lists }
    }

    /// A state where nothing is scheduled.
    pub fn none() -> Self {
        Self {
            schedule: vec![None; CHOICES],
            covered: vec![0; SLOTS],
            blocks: vec![false; CHOOSERS * CHOICES],
            lists: vec![0; LISTS],
        }
    }

    /// The used front of a slot's list.
    pub fn front(&self, day: &Day, slot: usize) -> &[u8] {
        let own = self.schedule[..day.choices].iter().filter(|&&own| own == Some(slot));
        &self.lists[slot * CHOICES..][..own.count()]
    }
}

impl fmt::Debug for State {
    /// Blocks show as pairs of chooser and choice.
    fn fmt(&self, formatter: &mut fmt::Formatter) -> fmt::Result {
        let places = self.blocks.iter().enumerate().filter(|(_, block)| **block);
        let pairs = places.map(|(place, _)| (place / CHOICES, place % CHOICES)).collect::<Vec<_>>();
        formatter
            .debug_struct("State")
            .field("schedule", &self.schedule)
            .field("covered", &self.covered)
            .field("blocks", &pairs)
            .field("lists", &self.lists)
            .finish()
    }
}

/// Whether the Rust blocks a chooser's edge to a choice in some slot, at
/// c × 32 + k. On a day without slots it has no pairs at all, and SPEC 5.3 is
/// read instead.
pub fn blocks_of(day: &Day, state: &oracle::State) -> [bool; CHOOSERS * CHOICES] {
    let mut blocks = [false; CHOOSERS * CHOICES];
    for &(from, to) in &state.blocked {
        let (chooser, choice) = (from / day.slots, to - day.choosers * day.slots);
        blocks[chooser * CHOICES + choice] = true;
    }
    if day.slots == 0 {
        for chooser in 0..day.choosers {
            for choice in 0..day.choices {
                let is_blocked = reading::is_blocked(day, &state.schedule, chooser, choice);
                blocks[chooser * CHOICES + choice] = is_blocked;
            }
        }
    }
    blocks
}
