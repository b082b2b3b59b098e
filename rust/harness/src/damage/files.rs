//! Day files of what calls are handed, sound or damaged.
use super::Input;
use crate::day_file::DayFile;
use crate::lists::{carry, fronts};
use crate::reading::{self, Buffer, Handed, Layout};
use crate::schedule::Schedule;
use std::slice;

impl Input {
    /// What a build of the schedule uses.
    pub fn file_of_build(&self) -> DayFile {
        let file = DayFile::new("build", &self.day).trail(slice::from_ref(&self.schedule));
        self.has_lengths(file, &[Layout::Day, Layout::Schedule])
    }

    /// What an update of the state to the schedule uses.
    pub fn file_of_update(&self) -> DayFile {
        let trail = [&self.trail[..], slice::from_ref(&self.schedule)].concat();
        let file = self.file_of_state("update").trail(&trail);
        self.has_lengths(file, &[Layout::Schedule])
    }

    /// What a call on the state uses.
    pub fn file_of_state(&self, call: &str) -> DayFile {
        let file = DayFile::new(call, &self.day).trail(&self.trail);
        let file = self.has_lengths(file, &[Layout::Day, Layout::State]);
        file.unless(!self.is_at_end_of_trail(), "no moves of a file lead to the state")
    }

    /// What a search that is begun uses.
    pub fn file_of_begin(&self) -> DayFile {
        let file = DayFile::new("begin", &self.day).trail(slice::from_ref(&self.schedule));
        let file = self.has_lengths(file, &[Layout::Day, Layout::Schedule, Layout::Memory]);
        let file = file.searched();
        if !self.search.cached.there {
            return file;
        }
        file.comment(format!("It remembers: {:?}", self.search.cached))
    }

    /// No file can say lengths.
    fn has_lengths(&self, file: DayFile, layouts: &[Layout]) -> DayFile {
        let is_short = |(buffer, length): &(Buffer, usize)| *length < buffer.named_length();
        let is_other = |(layout, length): &(Layout, usize)| *length != layout.named_length();
        let file = file.unless(self.buffers.iter().any(is_short), "a buffer is too short");
        let is_other = self.layouts(layouts).iter().any(is_other);
        file.unless(is_other, "bytes that are lent have another length")
    }

    /// Whether the trail leads to the state. On a day that is refused the state is
    /// not looked at.
    fn is_at_end_of_trail(&self) -> bool {
        let Self { day, state, trail, .. } = self;
        let choices = day.choices;
        let handed = Handed { day: Some(day), state: Some(state), ..Handed::default() };
        match reading::number(&handed) {
            _ if trail.iter().any(|schedule| schedule.len() < choices) => false,
            0 => {
                let (lists, last) = walked(choices, trail);
                let fronts = |bytes: &[u8]| fronts(bytes, &last, day.slots);
                state.schedule[..choices] == last && fronts(&state.lists) == fronts(&lists)
            }
            number => number < 11,
        }
    }
}

/// The slot lists at the end of a trail, and its last schedule.
fn walked(choices: usize, trail: &[Schedule]) -> (Vec<u8>, Schedule) {
    let mut lists = vec![0; Buffer::SlotLists.named_length()];
    let mut last = vec![None; choices];
    for schedule in trail {
        carry(&mut lists, &last, &schedule[..choices]);
        last = schedule[..choices].to_vec();
    }
    (lists, last)
}
