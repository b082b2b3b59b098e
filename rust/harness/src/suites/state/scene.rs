//! The three calls on damaged input, on a walk through a chain of schedules.
use super::walk::Walk;
use crate::answers::{self, refused_state};
use crate::damage::Input;
use crate::day::Day;
use crate::day_file;
use crate::features::Features;
use crate::lists::{carry, lengths};
use crate::random::Random;
use crate::reading::{Asked, Buffer, Handed, Layout, faults};
use crate::recording::{Entry, Note, note};
use crate::run::{Outcome, wanted};
use crate::suites::refused::first;
use port::guarded::Guarded;
use port::{SlotListAnswer, StateAnswer};
use std::fmt::Debug;

/// The bytes of the layouts that a call is lent, in its order.
type Layouts<const N: usize> = [Guarded<u8>; N];

/// A note of a call that is lent a day and other layouts first.
fn noted<const N: usize>(entry: Entry, number: u32, day: &Day, lent: &Layouts<N>) -> Note {
    let note = Note::new(entry, number).day(day, lent[0].now());
    lent[1..].iter().fold(note, |note, layout| note.table(layout.now()))
}

/// Damaged input, and what an update or a build of it gives that is not refused.
pub struct Scene<'a, 'b> {
    pub features: &'a mut Features,
    pub walk: &'a mut Walk<'b>,
    pub input: Input,
    pub done: StateAnswer,
}

impl Scene<'_, '_> {
    /// All three.
    pub fn calls(&mut self, random: &mut Random) -> Outcome {
        self.build(random)?;
        self.update(random)?;
        self.slot_list(random)
    }

    pub fn build(&mut self, random: &mut Random) -> Outcome {
        let Input { day, schedule, state, .. } = &self.input;
        let buffers = [(Buffer::SlotLists, state.lists.len())];
        let layouts = [Layout::Day, Layout::Schedule];
        let handed = Handed { day: Some(day), schedule: Some(schedule), ..Handed::default() };
        let handed = Handed { layouts: &self.input.layouts(&layouts), ..handed };
        let faults = faults(&Handed { buffers: &buffers, ..handed });
        let number = first(self.features, "build", &faults);
        let mut lent = layouts.map(|layout| self.input.lend(random, layout));
        let none = vec![None; schedule.len()];
        let (answer, bytes) = self.left(number, &none);
        note(|| {
            let note = noted(Entry::Build, number, day, &lent);
            note.slice(&state.lists, &bytes).put(&answer)
        });
        self.judge("build", number, answer, &bytes, &mut lent, |[day, schedule], lists| {
            port::build(day.lend(), schedule.lend(), lists)
        })
    }

    pub fn update(&mut self, random: &mut Random) -> Outcome {
        let Input { day, schedule, state, .. } = &self.input;
        let layouts = [Layout::Day, Layout::State, Layout::Schedule];
        let handed = Handed { day: Some(day), schedule: Some(schedule), ..Handed::default() };
        let handed = Handed { layouts: &self.input.layouts(&layouts), ..handed };
        let faults = faults(&Handed { state: Some(state), ..handed });
        let number = first(self.features, "update", &faults);
        let mut lent = layouts.map(|layout| self.input.lend(random, layout));
        let (answer, bytes) = self.left(number, &state.schedule);
        note(|| {
            let note = noted(Entry::Update, number, day, &lent);
            note.slice(&state.lists, &bytes).put(&answer)
        });
        self.judge("update", number, answer, &bytes, &mut lent, |[day, state, schedule], lists| {
            port::update(day.lend(), state.lend(), schedule.lend(), lists)
        })
    }

    pub fn slot_list(&mut self, random: &mut Random) -> Outcome {
        let Input { day, state, asked, .. } = &self.input;
        // Damage adds what it asks about at the end.
        let mut slots = asked.iter().rev().filter_map(|asked| match asked {
            Asked::Slot(slot) => Some(*slot),
            _ => None,
        });
        let slot = slots.next().unwrap_or(0);
        let asked = [Asked::Slot(slot)];
        let layouts = [Layout::Day, Layout::State];
        let handed = Handed { day: Some(day), state: Some(state), ..Handed::default() };
        let handed = Handed { layouts: &self.input.layouts(&layouts), ..handed };
        let faults = faults(&Handed { asked: &asked, ..handed });
        let number = first(self.features, "slot_list", &faults);
        let mut lent = layouts.map(|layout| self.input.lend(random, layout));
        let answer = if number == 0 {
            answers::slot_list(slot, lengths(&state.schedule[..day.choices])[slot])
        } else {
            SlotListAnswer { number, start: 0, length: 0 }
        };
        let bytes = state.lists.clone();
        note(|| {
            let note = noted(Entry::SlotList, number, day, &lent);
            note.table(&bytes).put(&slot).put(&answer)
        });
        self.judge("slot_list", number, answer, &bytes, &mut lent, |[day, state], lists| {
            port::slot_list(day.lend(), state.lend(), lists, slot)
        })
    }

    /// What a build, or an update from a schedule, gives, and the bytes it leaves.
    fn left(&self, number: u32, old: &[Option<usize>]) -> (StateAnswer, Vec<u8>) {
        let mut bytes = self.input.state.lists.clone();
        if number > 0 {
            return (refused_state(number), bytes);
        }
        let choices = self.input.day.choices;
        carry(&mut bytes, &old[..choices], &self.input.schedule[..choices]);
        (self.done, bytes)
    }

    /// Makes the call and compares what it gives and leaves. A refused one is
    /// made on the walk's own buffer, if it is lent what stands there.
    fn judge<T: PartialEq + Debug, const N: usize>(
        &mut self,
        call: &str,
        number: u32,
        answer: T,
        bytes: &[u8],
        layouts: &mut Layouts<N>,
        make: impl FnOnce(&mut Layouts<N>, &mut [u8]) -> T,
    ) -> Outcome {
        day_file::note(|| match call {
            "build" => self.input.file_of_build(),
            "update" => self.input.file_of_update(),
            _ => self.input.file_of_state(call),
        });
        let lent = &self.input.state.lists;
        let mut copy = Guarded::holding(lent);
        let is_own = number > 0 && *lent == self.walk.bytes;
        let lists = if is_own { &mut self.walk.lists } else { &mut copy };
        let found = make(layouts, lists.lend());
        let input = || format!("{call} of {:?}", self.input);
        wanted(found, answer, input)?;
        wanted(layouts.each_ref().map(Guarded::changed), [None; N], input)?;
        wanted((lists.differs_from(bytes), lists.now()), (None, bytes), input)
    }
}
