//! Packs bytes that repeat each other: a stretch that stood before is told by how
//! far back it begins.

/// The least bytes of a stretch that is looked for.
const LEAST: usize = 4;
/// How many earlier places with the same front are looked at.
const LOOKS: usize = 48;
/// Places are told apart by so many bits of a front.
const BITS: u32 = 18;
/// No place.
const NONE: usize = usize::MAX;

/// The count of the bytes; then by turns how many stand as they are, these, and,
/// unless that was all, the length of a stretch that stood before and how far back
/// it begins, which may be within itself. A number has seven bits a byte, the
/// lowest first; the top bit of a byte says that there is more of it.
pub fn packed(plain: &[u8]) -> Vec<u8> {
    let mut bytes = number(plain.len());
    let mut places = Places { last: vec![NONE; 1 << BITS], before: Vec::new() };
    let (mut start, mut at) = (0, 0);
    while at < plain.len() {
        let Some((length, back)) = places.best(plain, at) else {
            places.add(plain);
            at += 1;
            continue;
        };
        bytes.extend(number(at - start));
        bytes.extend(&plain[start..at]);
        bytes.extend(number(length));
        bytes.extend(number(back));
        (0..length).for_each(|_| places.add(plain));
        at += length;
        start = at;
    }
    if start < at {
        bytes.extend(number(at - start));
        bytes.extend(&plain[start..at]);
    }
    bytes
}

fn number(mut rest: usize) -> Vec<u8> {
    let mut bytes = Vec::new();
    while rest > 127 {
        bytes.push(128 + (rest % 128) as u8);
        rest /= 128;
    }
    bytes.push(rest as u8);
    bytes
}

/// The places that were passed, by the fronts that begin there.
struct Places {
    /// The last place of a front.
    last: Vec<usize>,
    /// For each place the one before it that may have the same front.
    before: Vec<usize>,
}

impl Places {
    /// Passes the next place.
    fn add(&mut self, plain: &[u8]) {
        let place = self.before.len();
        self.before.push(NONE);
        if let Some(front) = front(plain, place) {
            self.before[place] = self.last[front];
            self.last[front] = place;
        }
    }

    /// The stretch here that saves most, if any does: its length and how far back
    /// it begins.
    fn best(&self, plain: &[u8], at: usize) -> Option<(usize, usize)> {
        let mut best = None;
        let mut saved = 1;
        let mut place = self.last[front(plain, at)?];
        for _ in 0..LOOKS {
            if place == NONE {
                break;
            }
            let pairs = plain[at..].iter().zip(&plain[place..]);
            let (length, back) =
                (pairs.take_while(|(one, other)| one == other).count(), at - place);
            let spent = number(length).len() + number(back).len();
            if length >= LEAST && length > saved + spent {
                (best, saved) = (Some((length, back)), length - spent);
            }
            place = self.before[place];
        }
        best
    }
}

/// What the bytes from a place on begin with, in few bits.
fn front(plain: &[u8], place: usize) -> Option<usize> {
    let bytes = plain.get(place..place + LEAST)?.try_into().expect("as many bytes");
    Some((u32::from_le_bytes(bytes).wrapping_mul(0x9E37_79B1) >> (u32::BITS - BITS)) as usize)
}
