//! Calls of rand's that must panic.

use std::cell::Cell;
use std::panic::{self, AssertUnwindSafe};
use std::sync::Once;

thread_local! {
    /// Whether this thread waits for a panic.
    static AWAITED: Cell<bool> = const { Cell::new(false) };
}

/// Whether `call` panics. Nothing is printed of it.
pub fn panics(call: impl FnOnce()) -> bool {
    static QUIET: Once = Once::new();
    QUIET.call_once(|| {
        let report = panic::take_hook();
        panic::set_hook(Box::new(move |info| {
            if !AWAITED.get() {
                report(info);
            }
        }));
    });
    AWAITED.set(true);
    // What the call was given is not looked at again where it panics.
    let result = panic::catch_unwind(AssertUnwindSafe(call));
    AWAITED.set(false);
    result.is_err()
}
