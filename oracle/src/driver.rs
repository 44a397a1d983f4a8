//! The hook behind every word: what an operation is, what it hands back, and
//! the driver that decides when and how it happens.

use std::cell::RefCell;
use std::rc::Rc;

use crate::sys::futex::Futex;

/// One operation on one word, as the sources ask for it.
#[derive(Clone, Copy, Debug, PartialEq, Eq)]
pub enum Op {
    Load,
    Swap { new: u32 },
    Exchange { expected: u32, new: u32, weak: bool },
    Add { n: u32 },
    Sub { n: u32 },
    Wait { expected: u32 },
    Wake,
    WakeAll,
}

impl Op {
    pub fn is_weak(self) -> bool {
        matches!(self, Op::Exchange { weak: true, .. })
    }

    /// What the operation stores where it finds `word`, if anything. Sums wrap,
    /// as std's atomics do. Only a weak exchange can be made to fail.
    pub fn stores(self, word: u32, fails: bool) -> Option<u32> {
        match self {
            Op::Swap { new } => Some(new),
            Op::Exchange { expected, new, weak } => {
                (word == expected && !(weak && fails)).then_some(new)
            }
            Op::Add { n } => Some(word.wrapping_add(n)),
            Op::Sub { n } => Some(word.wrapping_sub(n)),
            Op::Load | Op::Wait { .. } | Op::Wake | Op::WakeAll => None,
        }
    }
}

/// What an operation hands back.
#[derive(Clone, Copy, Debug, PartialEq, Eq)]
pub struct Seen {
    /// The word just before the operation. The sources don't look at it after
    /// futex calls.
    pub word: u32,
    /// That an exchange stored, that a wake woke somebody, that a wait did not
    /// run out of time. The sources don't look at it after anything else.
    pub success: bool,
}

impl Seen {
    pub fn exchanged(self) -> Result<u32, u32> {
        if self.success { Ok(self.word) } else { Err(self.word) }
    }
}

/// Decides what each operation of a thread sees. `operate` may take as long as
/// it likes, which is how a thread sleeps or waits for its turn, and it may
/// unwind, which abandons the call that asked. It must not unwind while the
/// thread already does: a Once's guard asks from its `drop`.
pub trait Driver {
    fn operate(&self, word: &Futex, op: Op) -> Seen;
}

thread_local! {
    static DRIVER: RefCell<Option<Rc<dyn Driver>>> = const { RefCell::new(None) };
}

/// Runs `body` with `driver` behind all words that this thread operates on.
pub fn with_driver<R>(driver: Rc<dyn Driver>, body: impl FnOnce() -> R) -> R {
    let _restore = Restore(DRIVER.replace(Some(driver)));
    body()
}

/// Puts the former driver back, also where the body unwinds.
struct Restore(Option<Rc<dyn Driver>>);

impl Drop for Restore {
    fn drop(&mut self) {
        DRIVER.set(self.0.take());
    }
}

pub(crate) fn ask(word: &Futex, op: Op) -> Seen {
    let driver = DRIVER.with_borrow(Clone::clone);
    driver.expect("operations are asked for inside with_driver only").operate(word, op)
}
