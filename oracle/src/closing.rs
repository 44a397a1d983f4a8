//! How a Once's closure ends, and which panics have numbers.

use std::any::Any;
use std::cell::Cell;
use std::panic;
use std::sync::Once;

use crate::sync::OnceState;

#[derive(Clone, Copy, Debug, PartialEq, Eq)]
pub enum Closing {
    Returned,
    Poisoned,
    Panicked,
}

impl Closing {
    /// Ends the closure that was handed `state` this way.
    pub fn end(self, state: &OnceState) {
        match self {
            Closing::Returned => {}
            Closing::Poisoned => state.poison(),
            Closing::Panicked => panic::resume_unwind(Box::new(ClosurePanicked)),
        }
    }
}

/// What a closure that panics unwinds with.
struct ClosurePanicked;

/// The number of a panic, by its words, or the words of one that has none: an
/// assertion of the sources that is meant to hold, or a sum that overflowed.
pub fn panic_number(payload: Box<dyn Any + Send>) -> Result<u32, String> {
    if payload.is::<ClosurePanicked>() {
        return Ok(3);
    }
    let words = payload.downcast_ref::<&str>().copied();
    match words.or(payload.downcast_ref::<String>().map(String::as_str)) {
        Some("too many active read locks on RwLock") => Ok(1),
        Some("Once instance has previously been poisoned") => Ok(2),
        words => Err(words.unwrap_or("a panic without words").to_string()),
    }
}

thread_local! {
    static QUIET: Cell<bool> = const { Cell::new(false) };
}

/// Runs `body`, which catches its panics, without a word about them on the
/// standard error.
pub fn quietly<R>(body: impl FnOnce() -> R) -> R {
    static HOOK: Once = Once::new();
    HOOK.call_once(|| {
        let usual = panic::take_hook();
        panic::set_hook(Box::new(move |info| {
            if !QUIET.get() {
                usual(info);
            }
        }));
    });
    QUIET.set(true);
    let result = body();
    QUIET.set(false);
    result
}
