//! A lent buffer, guarded, with what must stand in it.
use crate::recording::Note;
use crate::run::{Outcome, wanted};
use port::guarded::{Change, Element, Guarded};

/// Elements that the failure of a comparison shows.
const SHOWN: usize = 16;

/// A buffer and what must stand in it.
pub struct Kept<T> {
    pub buffer: Guarded<T>,
    wanted: Vec<T>,
}

impl<T: Element> Kept<T> {
    /// A patterned buffer, which must stay as it is.
    pub fn new(length: usize) -> Self {
        let buffer = Guarded::patterned(length);
        let wanted = buffer.now().to_vec();
        Self { buffer, wanted }
    }

    /// Puts the pattern back.
    pub fn reset(&mut self) {
        self.buffer.reset();
        self.wanted.copy_from_slice(self.buffer.now());
    }

    /// Behind the front there must stand what stood there.
    pub fn expect(&mut self, front: &[T]) {
        self.wanted[..front.len()].copy_from_slice(front);
    }

    /// The buffer as it stands and as it must stand after the call.
    pub fn noted(&self, note: Note) -> Note {
        note.slice(self.buffer.now(), &self.wanted)
    }

    /// A failure shows what stands around the first difference.
    pub fn is_right(&self, name: &str, input: &impl Fn() -> String) -> Outcome {
        let (now, own) = (self.buffer.now(), &self.wanted[..]);
        let differs = self.buffer.differs_from(own);
        let start = match differs {
            Some(Change::Inside(byte)) => (byte / size_of::<T>()).saturating_sub(SHOWN / 2),
            _ => 0,
        };
        let shown = start..(start + SHOWN).min(own.len());
        let found = (differs, &now[shown.clone()]);
        wanted(found, (None, &own[shown.clone()]), || {
            format!("{name} from place {start} after {}", input())
        })
    }
}
