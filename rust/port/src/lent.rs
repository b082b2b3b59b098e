//! What is lent to an entry: a pointer and a count of elements.
use crate::layouts::AsBytes;
use crate::{CachedAssignment, InputData, ScheduleState, Scheduling, Search};
use std::marker::PhantomData;
use std::ptr;

/// A slice that an entry reads.
#[derive(Debug, Clone, Copy)]
pub struct Lent<'a, T = u8> {
    // Both stay private: the elements are there as long as 'a, or there are none.
    front: *const T,
    length: usize,
    owner: PhantomData<&'a [T]>,
}

/// A slice that an entry may write too, and that nobody else has meanwhile.
#[derive(Debug)]
pub struct LentMut<'a, T = u8> {
    front: *mut T,
    length: usize,
    owner: PhantomData<&'a mut [T]>,
}

impl<T> Lent<'_, T> {
    /// No elements, at NULL.
    pub const NULL: Self = Self { front: ptr::null(), length: 0, owner: PhantomData };

    pub(crate) fn front(&self) -> *const T {
        self.front
    }

    pub(crate) fn length(&self) -> usize {
        self.length
    }
}

impl<T> LentMut<'_, T> {
    /// No elements, at NULL.
    pub const NULL: Self = Self { front: ptr::null_mut(), length: 0, owner: PhantomData };

    pub(crate) fn front(&self) -> *mut T {
        self.front
    }

    pub(crate) fn length(&self) -> usize {
        self.length
    }
}

impl<'a, T> From<&'a [T]> for Lent<'a, T> {
    fn from(slice: &'a [T]) -> Self {
        Self { front: slice.as_ptr(), length: slice.len(), owner: PhantomData }
    }
}

impl<'a, T> From<&'a mut [T]> for Lent<'a, T> {
    fn from(slice: &'a mut [T]) -> Self {
        Self::from(&*slice)
    }
}

impl<'a, T, const N: usize> From<&'a [T; N]> for Lent<'a, T> {
    fn from(array: &'a [T; N]) -> Self {
        Self::from(&array[..])
    }
}

impl<'a, T> From<&'a Vec<T>> for Lent<'a, T> {
    fn from(vector: &'a Vec<T>) -> Self {
        Self::from(&vector[..])
    }
}

impl<'a, T> From<&'a mut [T]> for LentMut<'a, T> {
    fn from(slice: &'a mut [T]) -> Self {
        Self { front: slice.as_mut_ptr(), length: slice.len(), owner: PhantomData }
    }
}

impl<'a, T, const N: usize> From<&'a mut [T; N]> for LentMut<'a, T> {
    fn from(array: &'a mut [T; N]) -> Self {
        Self::from(&mut array[..])
    }
}

impl<'a, T> From<&'a mut Vec<T>> for LentMut<'a, T> {
    fn from(vector: &'a mut Vec<T>) -> Self {
        Self::from(&mut vector[..])
    }
}

/// A layout is lent as its bytes.
macro_rules! layouts {
    ($($name:ident)*) => {
        $(impl<'a> From<&'a $name> for Lent<'a> {
            fn from(layout: &'a $name) -> Self {
                Self::from(layout.bytes())
            }
        })*
    };
}

layouts!(InputData Scheduling ScheduleState CachedAssignment Search);
