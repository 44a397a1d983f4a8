//! The words that the sources work on, and the futex calls. Nothing happens
//! here: each operation is asked of the driver of the thread.

use crate::driver::{Op, Seen, ask};
use crate::sync::atomic::{AtomicU32, Ordering};
use crate::time::Duration;

/// All words have 32 bits, as on Linux.
pub type Primitive = u32;
pub type SmallPrimitive = u32;
pub type SmallFutex = Futex;

/// A word. Its identity is its address, so what holds it must stay in place
/// while calls are made on it.
pub struct Futex {
    word: AtomicU32,
}

/// For drivers.
impl Futex {
    pub fn identity(&self) -> usize {
        std::ptr::from_ref(self).addr()
    }

    pub fn word(&self) -> u32 {
        self.word.load(Ordering::SeqCst)
    }

    pub fn set_word(&self, word: u32) {
        self.word.store(word, Ordering::SeqCst);
    }

    /// Does to the word what the operation does. It is for the driver to see to
    /// it that nobody else is at the word meanwhile.
    pub fn perform(&self, op: Op, fails: bool) -> Seen {
        let word = self.word();
        let stored = op.stores(word, fails);
        if let Some(new) = stored {
            self.set_word(new);
        }
        Seen { word, success: stored.is_some() }
    }
}

/// For the sources. Orderings say nothing here: drivers let one operation
/// happen after the other.
impl Futex {
    pub const fn new(word: u32) -> Self {
        Futex { word: AtomicU32::new(word) }
    }

    pub fn get_mut(&mut self) -> &mut u32 {
        self.word.get_mut()
    }

    pub fn load(&self, _: Ordering) -> u32 {
        ask(self, Op::Load).word
    }

    pub fn swap(&self, new: u32, _: Ordering) -> u32 {
        ask(self, Op::Swap { new }).word
    }

    pub fn compare_exchange(
        &self,
        expected: u32,
        new: u32,
        _: Ordering,
        _: Ordering,
    ) -> Result<u32, u32> {
        ask(self, Op::Exchange { expected, new, weak: false }).exchanged()
    }

    pub fn compare_exchange_weak(
        &self,
        expected: u32,
        new: u32,
        _: Ordering,
        _: Ordering,
    ) -> Result<u32, u32> {
        ask(self, Op::Exchange { expected, new, weak: true }).exchanged()
    }

    pub fn fetch_add(&self, n: u32, _: Ordering) -> u32 {
        ask(self, Op::Add { n }).word
    }

    pub fn fetch_sub(&self, n: u32, _: Ordering) -> u32 {
        ask(self, Op::Sub { n }).word
    }

    /// One load, then weak exchanges, each with the value seen last.
    pub fn try_update(
        &self,
        set: Ordering,
        fetch: Ordering,
        mut update: impl FnMut(u32) -> Option<u32>,
    ) -> Result<u32, u32> {
        let mut seen = self.load(fetch);
        while let Some(new) = update(seen) {
            match self.compare_exchange_weak(seen, new, set, fetch) {
                Ok(old) => return Ok(old),
                Err(now) => seen = now,
            }
        }
        Err(seen)
    }
}

/// False only after a time-out.
pub fn futex_wait(futex: &Futex, expected: u32, timeout: Option<Duration>) -> bool {
    assert!(timeout.is_none(), "waits with a time-out are not modelled");
    ask(futex, Op::Wait { expected }).success
}

/// True where it woke somebody.
pub fn futex_wake(futex: &Futex) -> bool {
    ask(futex, Op::Wake).success
}

pub fn futex_wake_all(futex: &Futex) {
    ask(futex, Op::WakeAll);
}
