//! A small model of slot lists in a lent buffer, written from SPEC 5, for
//! every byte of it: those that no list uses any more included.
use crate::day::{CHOICES, SLOTS};

/// Carries the lists from one schedule to another, choices upward. A build
/// carries them from a schedule without slots.
///
/// # Panics
///
/// Panics if the lists are not those of the old schedule.
pub fn carry(bytes: &mut [u8], old: &[Option<usize>], new: &[Option<usize>]) {
    let mut used = lengths(old);
    for (choice, (&from, &to)) in old.iter().zip(new).enumerate() {
        if from == to {
            continue;
        }
        if let Some(slot) = from {
            remove(&mut bytes[slot * CHOICES..][..used[slot]], choice as u8);
            used[slot] -= 1;
        }
        if let Some(slot) = to {
            bytes[slot * CHOICES + used[slot]] = choice as u8;
            used[slot] += 1;
        }
    }
}

/// The last entry moves into the place of the choice. What stood in its own
/// place stays there.
fn remove(list: &mut [u8], choice: u8) {
    let place = list.iter().position(|&own| own == choice);
    list[place.expect("the list holds the choice")] = list[list.len() - 1];
}

/// How many choices a schedule puts into each slot.
pub fn lengths(schedule: &[Option<usize>]) -> [usize; SLOTS] {
    let mut lengths = [0; SLOTS];
    for &slot in schedule.iter().flatten() {
        lengths[slot] += 1;
    }
    lengths
}

/// The list of each of the day's slots.
pub fn fronts(bytes: &[u8], schedule: &[Option<usize>], slots: usize) -> Vec<Vec<usize>> {
    let parts = bytes.chunks(CHOICES).zip(lengths(schedule)).take(slots);
    parts.map(|(part, used)| part[..used].iter().map(|&choice| choice.into()).collect()).collect()
}
