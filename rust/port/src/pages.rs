//! Slices at the edge of memory: each ends where no byte can be touched any
//! more, or begins right after such bytes. Where there is memory beside them it
//! holds a pattern, so that every byte written there is seen.
#![allow(unsafe_code)]
use crate::guarded::Element;
use crate::{Lent, LentMut};
use std::ffi::{c_int, c_void};
use std::ops::Range;
use std::{io, ptr, slice};

/// A multiple of every usual size of a page.
const PAGE: usize = 65_536;
/// The pattern beside a slice is looked at for as many bytes.
const ZONE: usize = 4_096;

// The numbers of Linux.
const PROT_NONE: c_int = 0;
const PROT_READ_AND_WRITE: c_int = 3;
const MAP_PRIVATE_AND_ANONYMOUS: c_int = 0x22;

unsafe extern "C" {
    fn mmap(
        address: *mut c_void,
        length: usize,
        protection: c_int,
        flags: c_int,
        file: c_int,
        offset: i64,
    ) -> *mut c_void;
    fn mprotect(address: *mut c_void, length: usize, protection: c_int) -> c_int;
}

/// Where a slice is put.
#[derive(Debug, Clone, Copy, PartialEq, Eq)]
pub enum Edge {
    /// It begins right after an inaccessible page.
    Begin,
    /// It ends at an inaccessible page.
    End,
    /// It is at NULL. It must have no elements.
    Null,
}

/// Memory between two inaccessible pages, and the slice that was put there last.
/// It is never given back.
#[derive(Debug)]
pub struct Pages {
    memory: &'static mut [u8],
    /// What stands there without a slice.
    pattern: Vec<u8>,
    slice: Range<usize>,
    is_null: bool,
}

impl Pages {
    /// Room for slices of up to this many bytes.
    pub fn new(most: usize) -> Self {
        let memory = memory((most + ZONE).next_multiple_of(PAGE));
        let pattern = u8::pattern().iter().copied().cycle().take(memory.len()).collect::<Vec<_>>();
        memory.copy_from_slice(&pattern);
        Self { memory, pattern, slice: 0..0, is_null: false }
    }

    /// Puts a slice with these bytes in the place of the last one.
    ///
    /// # Panics
    ///
    /// Panics if there is no room for it.
    pub fn put(&mut self, bytes: &[u8], edge: Edge) {
        let last = self.slice.clone();
        self.memory[last.clone()].copy_from_slice(&self.pattern[last]);
        let length = self.memory.len();
        assert!(bytes.len() + ZONE <= length && (edge != Edge::Null || bytes.is_empty()));
        let start = if edge == Edge::End { length - bytes.len() } else { 0 };
        self.slice = start..start + bytes.len();
        self.is_null = edge == Edge::Null;
        self.memory[self.slice.clone()].copy_from_slice(bytes);
    }

    /// The bytes of the slice.
    pub fn now(&self) -> &[u8] {
        &self.memory[self.slice.clone()]
    }

    /// Whether the bytes beside the slice are as they were.
    pub fn is_clean(&self) -> bool {
        let Range { start, end } = self.slice;
        let zones = [start.saturating_sub(ZONE)..start, end..(end + ZONE).min(self.memory.len())];
        zones.into_iter().all(|zone| self.memory[zone.clone()] == self.pattern[zone])
    }

    /// How many elements the slice has, all of them whole. They are aligned, since
    /// both ends of the memory are.
    fn elements<T>(&self) -> usize {
        assert!(self.slice.len().is_multiple_of(size_of::<T>()), "whole elements");
        self.slice.len() / size_of::<T>()
    }
}

/// The slice, to be read.
impl<'a, T: Element> From<&'a mut Pages> for Lent<'a, T> {
    fn from(pages: &'a mut Pages) -> Self {
        if pages.is_null {
            return Self::NULL;
        }
        let (bytes, length) = (pages.now(), pages.elements::<T>());
        // SAFETY: the bytes are whole elements, aligned, and any bytes are a number.
        unsafe { slice::from_raw_parts(bytes.as_ptr().cast::<T>(), length) }.into()
    }
}

/// The slice, to be written.
impl<'a, T: Element> From<&'a mut Pages> for LentMut<'a, T> {
    fn from(pages: &'a mut Pages) -> Self {
        if pages.is_null {
            return Self::NULL;
        }
        let length = pages.elements::<T>();
        let bytes = &mut pages.memory[pages.slice.clone()];
        // SAFETY: as where it is only read.
        unsafe { slice::from_raw_parts_mut(bytes.as_mut_ptr().cast::<T>(), length) }.into()
    }
}

/// New memory between two inaccessible pages.
fn memory(length: usize) -> &'static mut [u8] {
    let all = length + 2 * PAGE;
    // SAFETY: the memory is new and stays; what lies between its first page and its
    // last one is made accessible.
    unsafe {
        let start = mmap(ptr::null_mut(), all, PROT_NONE, MAP_PRIVATE_AND_ANONYMOUS, -1, 0);
        assert!(start as isize != -1, "{}", io::Error::last_os_error());
        let front = start.byte_add(PAGE);
        let is_open = mprotect(front, length, PROT_READ_AND_WRITE) == 0;
        assert!(is_open, "{}", io::Error::last_os_error());
        slice::from_raw_parts_mut(front.cast(), length)
    }
}

#[cfg(test)]
mod tests {
    use super::{Edge, PAGE, Pages};
    use crate::{Lent, LentMut};
    use std::ffi::{c_int, c_void};
    use std::io;
    use std::ops::Range;
    use std::os::fd::AsRawFd;

    unsafe extern "C" {
        fn write(file: c_int, bytes: *const c_void, count: usize) -> isize;
    }

    /// Whether a byte can be read: the kernel looks, and does not crash.
    fn is_readable(byte: *const u8) -> bool {
        let (_reader, writer) = io::pipe().expect("a pipe");
        // SAFETY: the kernel tests the pointer itself.
        unsafe { write(writer.as_raw_fd(), byte.cast(), 1) == 1 }
    }

    #[test]
    fn slices_lie_at_the_edge() {
        let mut pages = Pages::new(1_000);
        for length in [0, 1, 546, 1_000] {
            let bytes = vec![7; length];
            pages.put(&bytes, Edge::Begin);
            assert_eq!((pages.now(), pages.is_clean()), (&bytes[..], true));
            let front = Lent::<u8>::from(&mut pages).front();
            assert!(!is_readable(front.wrapping_sub(1)) && is_readable(front));
            pages.put(&bytes, Edge::End);
            assert_eq!((pages.now(), pages.is_clean()), (&bytes[..], true));
            let end = LentMut::<u8>::from(&mut pages).front().wrapping_add(length);
            assert!(!is_readable(end) && !is_readable(end.wrapping_add(PAGE - 1)));
            assert!(is_readable(end.wrapping_sub(1)));
        }
    }

    #[test]
    fn stray_bytes_are_seen() {
        let mut pages = Pages::new(1_000);
        for edge in [Edge::Begin, Edge::End] {
            pages.put(&[0; 10], edge);
            let Range { start, end } = pages.slice;
            let place = if edge == Edge::Begin { end } else { start - 1 };
            pages.memory[place] ^= 1;
            assert!(!pages.is_clean());
            pages.memory[place] ^= 1;
            assert!(pages.is_clean());
        }
    }

    #[test]
    fn nothing_is_at_null() {
        let mut pages = Pages::new(8);
        pages.put(&[], Edge::Null);
        assert!(Lent::<u32>::from(&mut pages).front().is_null());
        assert!(LentMut::<u32>::from(&mut pages).front().is_null());
        pages.put(&[1, 0, 0, 0, 2, 0, 0, 0], Edge::End);
        assert_eq!(Lent::<u32>::from(&mut pages).length(), 2);
    }
}
