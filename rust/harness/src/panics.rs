//! Panics of the originals: caught, and not printed.
use std::cell::{Cell, RefCell};
use std::panic::{self, AssertUnwindSafe};

thread_local! {
    static CATCHING: Cell<bool> = const { Cell::new(false) };
    static MESSAGE: RefCell<String> = const { RefCell::new(String::new()) };
}

/// From now on a panic inside [`caught`] is kept, not printed.
pub fn set_hook() {
    let usual = panic::take_hook();
    panic::set_hook(Box::new(move |panic| {
        if CATCHING.get() {
            MESSAGE.set(panic.to_string());
        } else {
            usual(panic);
        }
    }));
}

/// The result, or the message of the panic that came instead.
pub fn caught<T>(run: impl FnOnce() -> T) -> Result<T, String> {
    let outer = CATCHING.replace(true);
    let result = panic::catch_unwind(AssertUnwindSafe(run));
    CATCHING.set(outer);
    result.map_err(|_| MESSAGE.take())
}
