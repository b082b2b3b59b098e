//! Random numbers that are the same on every machine: SplitMix64. The numbers
//! that a case draws can be noted, and the case run again with a changed list of
//! them; `shrink.rs` makes a failed case smaller by it.
use crate::draws::{Draw, Draws, Replay, Site};
use std::mem;
use std::panic::Location;

const STEP: u64 = 0x9E37_79B9_7F4A_7C15;

#[derive(Debug, Clone)]
pub struct Random {
    source: Source,
    /// What was drawn so far, where it is noted.
    noted: Option<Draws>,
}

#[derive(Debug, Clone)]
enum Source {
    /// The state of SplitMix64.
    Seed(u64),
    Replay(Replay),
}

impl Random {
    /// The numbers of one case of one suite, whatever ran before it.
    pub fn of_case(seed: u64, suite: &str, case: u64) -> Self {
        let mut state = seed;
        for byte in suite.bytes() {
            state = next(&mut state) ^ u64::from(byte);
        }
        let state = next(&mut state).wrapping_add(case.wrapping_mul(STEP.rotate_left(32) | 1));
        Self { source: Source::Seed(state), noted: None }
    }

    /// The same numbers, noted as they are drawn.
    pub fn noting(self) -> Self {
        Self { noted: Some(Vec::new()), ..self }
    }

    /// Numbers that were noted, or changes of them, `most` at most. They are noted
    /// again, as they are drawn.
    pub fn replaying(draws: &[Draw], most: usize) -> Self {
        Self { source: Source::Replay(Replay::new(draws, most)), noted: Some(Vec::new()) }
    }

    /// What was noted.
    pub fn take_noted(&mut self) -> Draws {
        mem::take(&mut self.noted).unwrap_or_default()
    }

    #[track_caller]
    pub fn bits(&mut self) -> u64 {
        self.draw(0, u64::MAX, Location::caller(), next)
    }

    /// 0 to `end` - 1. The first is the simplest.
    ///
    /// # Panics
    ///
    /// Panics if `end` is 0.
    #[track_caller]
    pub fn below(&mut self, end: usize) -> usize {
        self.within(0, end.checked_sub(1).expect("some number is below the end"))
    }

    /// `low` to `high`, both included. The first is the simplest.
    #[track_caller]
    pub fn within(&mut self, low: usize, high: usize) -> usize {
        let (least, most) = (low as u64, high as u64);
        let range = most - least + 1;
        self.draw(least, most, Location::caller(), |state| least + next(state) % range) as usize
    }

    /// Yes this often in a hundred. No is the simplest.
    #[track_caller]
    pub fn chance(&mut self, percent: usize) -> bool {
        let (least, most) = (u64::from(percent >= 100), u64::from(percent > 0));
        let is_yes = |state: &mut u64| u64::from(next(state) % 100 < percent as u64);
        self.draw(least, most, Location::caller(), is_yes) == 1
    }

    /// Yes this often in a hundred. Yes is the simplest.
    #[track_caller]
    pub fn mostly(&mut self, percent: usize) -> bool {
        let (least, most) = (u64::from(percent == 0), u64::from(percent < 100));
        let is_no = |state: &mut u64| u64::from(next(state) % 100 >= percent as u64);
        self.draw(least, most, Location::caller(), is_no) == 0
    }

    /// One of these. The first is the simplest.
    #[track_caller]
    pub fn pick<T: Copy>(&mut self, from: &[T]) -> T {
        from[self.below(from.len())]
    }

    /// One of these, or nothing where there is none.
    #[track_caller]
    pub fn pick_some<T: Copy>(&mut self, from: &[T]) -> Option<T> {
        // Inside a closure the caller would be this line.
        if from.is_empty() { None } else { Some(self.pick(from)) }
    }

    /// Any order. That of the list is the simplest.
    #[track_caller]
    pub fn shuffle<T>(&mut self, items: &mut [T]) {
        let site = Location::caller();
        for end in (1..items.len()).rev() {
            let most = end as u64;
            let down = self.draw(0, most, site, |state| most - next(state) % (most + 1));
            items.swap(end, end - down as usize);
        }
    }

    /// A number from `low` to `high` that is drawn in several steps and noted as
    /// one. The least is the simplest.
    #[track_caller]
    pub fn as_one(
        &mut self,
        low: usize,
        high: usize,
        steps: impl FnOnce(&mut Self) -> usize,
    ) -> usize {
        let site = Location::caller();
        self.draw(low as u64, high as u64, site, |state| {
            let mut own = Self { source: Source::Seed(*state), noted: None };
            let number = steps(&mut own);
            if let Source::Seed(after) = own.source {
                *state = after;
            }
            number as u64
        }) as usize
    }

    /// `least` to `most`: as it is drawn, or as it was noted, where a number that
    /// is less or more becomes these.
    fn draw(
        &mut self,
        least: u64,
        most: u64,
        site: Site,
        drawn: impl FnOnce(&mut u64) -> u64,
    ) -> u64 {
        let value = match &mut self.source {
            Source::Seed(state) => drawn(state),
            Source::Replay(replay) => replay.next(site).clamp(least, most),
        };
        if let Some(draws) = &mut self.noted {
            draws.push(Draw { site, least, most, value });
        }
        value
    }
}

/// The next number of SplitMix64.
fn next(state: &mut u64) -> u64 {
    *state = state.wrapping_add(STEP);
    let mut bits = *state;
    bits = (bits ^ (bits >> 30)).wrapping_mul(0xBF58_476D_1CE4_E5B9);
    bits = (bits ^ (bits >> 27)).wrapping_mul(0x94D0_49BB_1331_11EB);
    bits ^ (bits >> 31)
}
