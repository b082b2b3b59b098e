//! Messages of the originals. They are kept on request, since a search tells
//! its asks by them and by nothing else.
use crate::prelude::*;
use core::cell::RefCell;

thread_local! {
    /// The messages so far, or nothing when nobody wants them.
    static KEPT: RefCell<Option<Vec<String>>> = const { RefCell::new(None) };
}

/// The messages that `run` gives, and its result.
pub fn keeping<T>(run: impl FnOnce() -> T) -> (T, Vec<String>) {
    KEPT.set(Some(Vec::new()));
    let result = run();
    (result, KEPT.take().unwrap_or_default())
}

fn keep(text: &str) {
    KEPT.with_borrow_mut(|kept| {
        if let Some(kept) = kept {
            kept.push(text.to_owned());
        }
    });
}

pub fn trace(text: &str) {
    keep(text);
}

pub fn debug(text: &str) {
    keep(text);
}

pub fn info(text: &str) {
    keep(text);
}

/// A progress bar that shows nothing.
pub struct StatusProgress;

impl StatusProgress {
    pub fn inc(&self, _delta: u64) {}
    pub fn set_message(&self, _message: impl Into<String>) {}
    pub fn set_position(&self, _position: u64) {}
    pub fn finish_and_clear(&self) {}
}

pub fn progress_bar(_prefix: &str, _length: u64) -> StatusProgress {
    StatusProgress
}

pub fn hidden_progress() -> StatusProgress {
    StatusProgress
}
