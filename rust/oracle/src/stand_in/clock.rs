//! The clock that the originals read. It stands still at 0; after a scripted
//! late answer the next reading, and only that one, is past the deadline, and so
//! is one that was set beforehand.
use core::cell::Cell;
use real_std::time::Duration;

thread_local! {
    /// How many readings there are before a late one, where one was set.
    static BEFORE_LATE: Cell<Option<usize>> = const { Cell::new(None) };
}

#[derive(Debug, Clone, Copy, PartialEq, Eq, PartialOrd, Ord)]
pub struct SystemTime(Duration);

/// The deadline that scripted searches are given.
pub const DEADLINE: SystemTime = SystemTime(Duration::from_secs(1_000));

/// A deadline that has passed, whenever the clock is read.
pub const PASSED: SystemTime = SystemTime(Duration::ZERO);

/// After so many readings from now one is late.
pub fn late_after(readings: usize) {
    BEFORE_LATE.set(Some(readings));
}

/// Whether this reading is the one that was set to be late.
fn is_set_late() -> bool {
    let before = BEFORE_LATE.take();
    BEFORE_LATE.set(before.and_then(|readings| readings.checked_sub(1)));
    before == Some(0)
}

impl SystemTime {
    pub fn now() -> Self {
        let is_late = good_lp::control::take_late() || is_set_late();
        if is_late { Self(2 * DEADLINE.0) } else { Self(Duration::ZERO) }
    }

    pub fn duration_since(self, earlier: Self) -> core::result::Result<Duration, ()> {
        self.0.checked_sub(earlier.0).ok_or(())
    }
}
