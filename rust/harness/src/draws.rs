//! The numbers that a case draws, each with the place in the program that drew
//! it. A list of them is replayed place by place: where one place draws fewer
//! numbers than before, those of the others stay what they were.
use std::collections::HashMap;
use std::panic::Location;

/// Where a number is drawn.
pub type Site = &'static Location<'static>;

/// A number that was drawn. The least that it could be makes the simplest case.
#[derive(Debug, Clone, Copy, PartialEq, Eq)]
pub struct Draw {
    pub site: Site,
    pub least: u64,
    pub most: u64,
    pub value: u64,
}

impl Draw {
    pub fn is_simplest(&self) -> bool {
        self.value == self.least
    }
}

pub type Draws = Vec<Draw>;

/// Draws that are handed out again, those of each place in their order, and 0
/// past the last of a place.
#[derive(Debug, Clone)]
pub struct Replay {
    left: HashMap<Site, Vec<u64>>,
    /// How many more may be drawn.
    room: usize,
}

impl Replay {
    pub fn new(draws: &[Draw], most: usize) -> Self {
        let mut left = HashMap::<Site, Vec<u64>>::new();
        // The next one of a place stands last.
        for draw in draws.iter().rev() {
            left.entry(draw.site).or_default().push(draw.value);
        }
        Self { left, room: most }
    }

    /// The next number of a place.
    ///
    /// # Panics
    ///
    /// Panics when more are drawn than may be, since no case that is made smaller
    /// has need of them, and one could draw for ever.
    pub fn next(&mut self, site: Site) -> u64 {
        self.room = self.room.checked_sub(1).expect("no more draws than a smaller case has");
        self.left.get_mut(site).and_then(Vec::pop).unwrap_or(0)
    }
}
