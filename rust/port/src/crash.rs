//! What is said when a call crashes the whole program: where it was.
#![allow(unsafe_code)]
use std::ffi::{c_int, c_void};
use std::fmt::{self, Write};
use std::sync::Mutex;

/// A suite, the seed of the run and a case.
pub type Place = (&'static str, u64, u64);

static LAST: Mutex<Place> = Mutex::new(("", 0, 0));

// The numbers of Linux: SIGILL, SIGTRAP, SIGABRT, SIGBUS, SIGFPE, SIGSEGV.
const SIGNALS: [c_int; 6] = [4, 5, 6, 7, 8, 11];
const STDOUT: c_int = 1;

unsafe extern "C" {
    fn signal(number: c_int, handler: extern "C" fn(c_int)) -> usize;
    fn write(file: c_int, bytes: *const c_void, count: usize) -> isize;
    fn _exit(status: c_int) -> !;
}

/// From now on a crash tells the last place.
pub fn watch() {
    for number in SIGNALS {
        // SAFETY: the handler allocates nothing and does not return.
        unsafe { signal(number, crashed) };
    }
}

/// The run has come to this place.
pub fn at(place: Place) {
    *LAST.lock().expect("nothing panics while it is held") = place;
}

/// A line without an allocation.
struct Line {
    bytes: [u8; 200],
    used: usize,
}

impl Write for Line {
    fn write_str(&mut self, text: &str) -> fmt::Result {
        let end = self.used + text.len();
        let room = self.bytes.get_mut(self.used..end).ok_or(fmt::Error)?;
        room.copy_from_slice(text.as_bytes());
        self.used = end;
        Ok(())
    }
}

extern "C" fn crashed(number: c_int) {
    let mut line = Line { bytes: [0; 200], used: 0 };
    if let Ok(last) = LAST.try_lock() {
        let (suite, seed, case) = *last;
        // A line that is too long is cut.
        let _ = writeln!(
            line,
            "FAILED {suite}, seed {seed}, case {case}: the program crashed by signal {number}\n  \
             again: the same command with --only {suite} --case {case}"
        );
    }
    // SAFETY: the line is there, and nothing is left to be done.
    unsafe {
        write(STDOUT, line.bytes.as_ptr().cast(), line.used);
        _exit(1)
    }
}
