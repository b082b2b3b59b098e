//! Buffers to lend to a call, with guard zones on both sides, so that every
//! byte in them and around them can be compared afterwards.
use std::fmt;
use std::mem::size_of;
use std::sync::LazyLock;

/// Elements of each guard zone.
const ZONE: usize = 256;

/// The most elements of a patterned buffer.
const LONGEST: usize = 8_192;

/// A number of which a buffer can be made.
pub trait Element: Copy + PartialEq + fmt::Debug + 'static {
    /// The bytes of these numbers as they lie in memory.
    fn bytes(numbers: &[Self]) -> Vec<u8>;
    /// The number that has these bytes in memory.
    fn of_bytes(bytes: &[u8]) -> Self;
    /// The pattern of guard zones and new buffers, made once.
    fn pattern() -> &'static [Self];
    /// Whether both hold the same bytes.
    fn are_same(left: &[Self], right: &[Self]) -> bool;
}

macro_rules! elements {
    ($($number:ty => $are_same:expr,)*) => {
        $(impl Element for $number {
            fn bytes(numbers: &[Self]) -> Vec<u8> {
                numbers.iter().flat_map(|number| number.to_ne_bytes()).collect()
            }
            fn of_bytes(bytes: &[u8]) -> Self {
                Self::from_ne_bytes(bytes.try_into().expect("as many bytes as the number has"))
            }
            fn pattern() -> &'static [Self] {
                static PATTERN: LazyLock<Vec<$number>> = LazyLock::new(|| pattern(LONGEST));
                &PATTERN
            }
            fn are_same(left: &[Self], right: &[Self]) -> bool {
                $are_same(left, right)
            }
        })*
    };
}

elements! {
    u8 => equal,
    u16 => equal,
    i32 => equal,
    u32 => equal,
    i64 => equal,
    f32 => equal_bits,
}

/// Whole slices compare much faster than one element after the other.
fn equal<T: PartialEq>(left: &[T], right: &[T]) -> bool {
    left == right
}

/// Equal floats can differ in their bytes, and a NaN equals nothing.
fn equal_bits(left: &[f32], right: &[f32]) -> bool {
    let bits = |floats: &[f32]| floats.iter().map(|float| float.to_bits()).collect::<Vec<_>>();
    bits(left) == bits(right)
}

/// A byte that is not as it should be, counted from the start of its zone.
#[derive(Debug, Clone, Copy, PartialEq, Eq)]
pub enum Change {
    Before(usize),
    Inside(usize),
    After(usize),
}

/// A buffer of exactly the length of its contents, within guard zones.
#[derive(Debug, Clone)]
pub struct Guarded<T> {
    cells: Vec<T>,
    contents: Vec<T>,
}

impl<T: Element> Guarded<T> {
    /// A buffer that holds `contents`.
    pub fn holding(contents: &[T]) -> Self {
        let cells = [zone(), contents, zone()].concat();
        Self { cells, contents: contents.to_vec() }
    }

    /// A buffer of this length, filled with the pattern of the guard zones.
    ///
    /// # Panics
    ///
    /// Panics if there is no pattern of this length.
    pub fn patterned(length: usize) -> Self {
        Self::holding(&T::pattern()[..length])
    }

    /// Puts back what the buffer was made with. The zones stay as they are.
    pub fn reset(&mut self) {
        let end = self.cells.len() - ZONE;
        self.cells[ZONE..end].copy_from_slice(&self.contents);
    }

    /// The buffer, to be lent to a call.
    pub fn lend(&mut self) -> &mut [T] {
        let end = self.cells.len() - ZONE;
        &mut self.cells[ZONE..end]
    }

    /// The contents as they are now.
    pub fn now(&self) -> &[T] {
        &self.cells[ZONE..self.cells.len() - ZONE]
    }

    /// The first byte, in or around the buffer, that is not as it was made.
    pub fn changed(&self) -> Option<Change> {
        self.differs_from(&self.contents)
    }

    /// The first byte in the buffer that is not as in `wanted`, or around it
    /// that is not as it was made. Bytes outside come first.
    ///
    /// # Panics
    ///
    /// Panics if `wanted` has not the length of the buffer.
    pub fn differs_from(&self, wanted: &[T]) -> Option<Change> {
        assert_eq!(wanted.len(), self.contents.len());
        let (before, rest) = self.cells.split_at(ZONE);
        let (inside, after) = rest.split_at(wanted.len());
        first_difference(before, zone())
            .map(Change::Before)
            .or_else(|| first_difference(after, zone()).map(Change::After))
            .or_else(|| first_difference(inside, wanted).map(Change::Inside))
    }
}

/// What stands in a guard zone.
fn zone<T: Element>() -> &'static [T] {
    &T::pattern()[..ZONE]
}

/// Bytes that count up from C3 in steps of 29: no zeros, no run of equal bytes,
/// and a shift by one shows.
fn pattern<T: Element>(length: usize) -> Vec<T> {
    let byte = |index: usize| (0xC3 + index * 29 % 61) as u8;
    let cell = |cell: usize| {
        // No number has more than 8 bytes.
        let bytes = std::array::from_fn::<u8, 8, _>(|place| byte(cell * size_of::<T>() + place));
        T::of_bytes(&bytes[..size_of::<T>()])
    };
    (0..length).map(cell).collect()
}

/// The first byte in which the two differ.
fn first_difference<T: Element>(left: &[T], right: &[T]) -> Option<usize> {
    if T::are_same(left, right) {
        return None;
    }
    let (left, right) = (T::bytes(left), T::bytes(right));
    left.iter().zip(&right).position(|(left, right)| left != right)
}

#[cfg(test)]
mod tests {
    use super::{Change, Element, Guarded, ZONE};

    /// Flips each byte in and around a buffer in turn: each must be found.
    fn every_byte_is_watched<T: Element>(length: usize) {
        let made = Guarded::<T>::patterned(length);
        assert_eq!(made.changed(), None);
        assert_eq!(made.now().len(), length);
        let size = size_of::<T>();
        for byte in 0..made.cells.len() * size {
            let mut other = made.clone();
            let mut bytes = T::bytes(&[other.cells[byte / size]]);
            bytes[byte % size] ^= 1;
            other.cells[byte / size] = T::of_bytes(&bytes);
            let (start, end) = (ZONE * size, (ZONE + length) * size);
            let wanted = match byte {
                _ if byte < start => Change::Before(byte),
                _ if byte < end => Change::Inside(byte - start),
                _ => Change::After(byte - end),
            };
            assert_eq!(other.changed(), Some(wanted));
        }
    }

    #[test]
    fn watches_every_byte() {
        for length in [0, 1, 7] {
            every_byte_is_watched::<u8>(length);
            every_byte_is_watched::<u16>(length);
            every_byte_is_watched::<i32>(length);
            every_byte_is_watched::<u32>(length);
            every_byte_is_watched::<i64>(length);
            every_byte_is_watched::<f32>(length);
        }
    }

    #[test]
    fn tells_floats_by_their_bytes() {
        let mut buffer = Guarded::holding(&[f32::NAN, 0.0]);
        assert_eq!(buffer.changed(), None);
        buffer.lend()[1] = -0.0;
        assert_eq!(buffer.changed(), Some(Change::Inside(7)));
    }

    #[test]
    fn lends_its_contents() {
        let mut buffer = Guarded::holding(&[3_i64, -4]);
        assert_eq!(buffer.lend(), [3, -4]);
        buffer.lend()[1] = 5;
        assert_eq!(buffer.now(), [3, 5]);
        assert_eq!(buffer.changed(), Some(Change::Inside(8)));
        assert_eq!(buffer.differs_from(&[3, 5]), None);
        buffer.reset();
        assert_eq!(buffer.changed(), None);
    }
}
