//! The calls that are modelled, what they are made on, and which word is which.

use std::cell::Cell;
use std::fmt;
use std::mem::MaybeUninit;
use std::pin::Pin;
use std::rc::Rc;

use crate::driver::{Driver, Op, Seen, with_driver};
use crate::sync::OnceState;
use crate::sys::futex::Futex;
use crate::sys::sync::{Condvar, Mutex, Once, Parker, RwLock};

#[derive(Clone, Copy, Debug, PartialEq, Eq)]
pub enum Call {
    Lock,
    TryLock,
    Unlock,
    Park,
    Unpark,
    CondvarWait,
    NotifyOne,
    NotifyAll,
    OnceCall,
    OnceCallIgnoring,
    OnceWait,
    OnceWaitIgnoring,
    IsCompleted,
    Read,
    TryRead,
    Write,
    TryWrite,
    ReadUnlock,
    WriteUnlock,
    Downgrade,
}

impl Call {
    /// Whether it is made to get a lock: the tally counts these as grants where
    /// they end with it. A condition variable's wait only gets its own back.
    pub fn takes_a_lock(self) -> bool {
        let on_mutex = matches!(self, Call::Lock | Call::TryLock);
        let on_rwlock = matches!(self, Call::Read | Call::TryRead | Call::Write | Call::TryWrite);
        on_mutex || on_rwlock
    }
}

impl fmt::Display for Call {
    fn fmt(&self, f: &mut fmt::Formatter<'_>) -> fmt::Result {
        f.write_str(match self {
            Call::Lock => "mutex lock",
            Call::TryLock => "mutex try_lock",
            Call::Unlock => "mutex unlock",
            Call::Park => "parker park",
            Call::Unpark => "parker unpark",
            Call::CondvarWait => "condvar wait",
            Call::NotifyOne => "condvar notify_one",
            Call::NotifyAll => "condvar notify_all",
            Call::OnceCall => "once call",
            Call::OnceCallIgnoring => "once call_ignoring",
            Call::OnceWait => "once wait",
            Call::OnceWaitIgnoring => "once wait_ignoring",
            Call::IsCompleted => "once is_completed",
            Call::Read => "rwlock read",
            Call::TryRead => "rwlock try_read",
            Call::Write => "rwlock write",
            Call::TryWrite => "rwlock try_write",
            Call::ReadUnlock => "rwlock read_unlock",
            Call::WriteUnlock => "rwlock write_unlock",
            Call::Downgrade => "rwlock downgrade",
        })
    }
}

/// The kinds of words.
#[derive(Clone, Copy, Debug, PartialEq, Eq)]
pub enum Kind {
    Mutex,
    RwLock,
    WriterNotify,
    Condvar,
    Once,
    Parker,
}

impl fmt::Display for Kind {
    fn fmt(&self, f: &mut fmt::Formatter<'_>) -> fmt::Result {
        f.write_str(match self {
            Kind::Mutex => "mutex",
            Kind::RwLock => "rwlock",
            Kind::WriterNotify => "writer_notify",
            Kind::Condvar => "condvar",
            Kind::Once => "once",
            Kind::Parker => "parker",
        })
    }
}

/// One object of each kind.
pub struct Objects {
    pub mutex: Mutex,
    pub rwlock: RwLock,
    pub condvar: Condvar,
    pub once: Once,
    pub parker: Parker,
}

impl Objects {
    pub fn new() -> Self {
        Objects {
            mutex: Mutex::new(),
            rwlock: RwLock::new(),
            condvar: Condvar::new(),
            once: Once::new(),
            parker: new_parker(),
        }
    }

    pub fn lend(&self) -> Lent<'_> {
        Lent {
            mutex: &self.mutex,
            rwlock: &self.rwlock,
            condvar: &self.condvar,
            once: &self.once,
            parker: Pin::new(&self.parker),
        }
    }
}

impl Default for Objects {
    fn default() -> Self {
        Self::new()
    }
}

pub(crate) fn new_parker() -> Parker {
    let mut parker = MaybeUninit::uninit();
    // SAFETY: `new_in_place` writes the whole Parker. This one may be moved: it
    // is a single word, and no call has been made on it yet.
    unsafe {
        Parker::new_in_place(parker.as_mut_ptr());
        parker.assume_init()
    }
}

/// What a call may be made on. The mutex is also the one that a condition
/// variable's wait unlocks.
#[derive(Clone, Copy)]
pub struct Lent<'a> {
    pub mutex: &'a Mutex,
    pub rwlock: &'a RwLock,
    pub condvar: &'a Condvar,
    pub once: &'a Once,
    pub parker: Pin<&'a Parker>,
}

impl Lent<'_> {
    /// Makes the call. The answer is that of a try or of `is_completed`; all
    /// other calls have none, and true stands for it.
    ///
    /// # Safety
    ///
    /// The sources ask that whoever unlocks or downgrades has that lock, and
    /// that a Parker is parked on by its own thread. No memory hangs on it:
    /// these locks protect nothing, and without the hold the words are odd.
    pub unsafe fn make(&self, call: Call, closure: &mut dyn FnMut(&OnceState)) -> bool {
        match call {
            Call::TryLock => return self.mutex.try_lock(),
            Call::TryRead => return self.rwlock.try_read(),
            Call::TryWrite => return self.rwlock.try_write(),
            Call::IsCompleted => return self.once.is_completed(),
            Call::Lock => self.mutex.lock(),
            Call::Unlock => unsafe { self.mutex.unlock() },
            Call::Park => unsafe { self.parker.park() },
            Call::Unpark => self.parker.unpark(),
            Call::CondvarWait => unsafe { self.condvar.wait(self.mutex) },
            Call::NotifyOne => self.condvar.notify_one(),
            Call::NotifyAll => self.condvar.notify_all(),
            Call::OnceCall => self.once.call(false, closure),
            Call::OnceCallIgnoring => self.once.call(true, closure),
            Call::OnceWait => self.once.wait(false),
            Call::OnceWaitIgnoring => self.once.wait(true),
            Call::Read => self.rwlock.read(),
            Call::Write => self.rwlock.write(),
            Call::ReadUnlock => unsafe { self.rwlock.read_unlock() },
            Call::WriteUnlock => unsafe { self.rwlock.write_unlock() },
            Call::Downgrade => unsafe { self.rwlock.downgrade() },
        }
        true
    }

    /// The kind of a word of these objects, by its identity.
    pub fn kind(&self, identity: usize) -> Kind {
        if is_in(self.mutex, identity) {
            Kind::Mutex
        } else if is_in(self.condvar, identity) {
            Kind::Condvar
        } else if is_in(self.once, identity) {
            Kind::Once
        } else if is_in(&*self.parker, identity) {
            Kind::Parker
        } else if identity == state_of(self.rwlock) {
            Kind::RwLock
        } else if is_in(self.rwlock, identity) {
            Kind::WriterNotify
        } else {
            panic!("a word of none of these objects")
        }
    }
}

fn is_in<T>(object: &T, identity: usize) -> bool {
    let start = std::ptr::from_ref(object).addr();
    (start..start + size_of::<T>()).contains(&identity)
}

/// The identity of an RwLock's state. Its two words are private and Rust may
/// lay them out in either order, but the state is the one that `try_read` loads.
pub fn state_of(lock: &RwLock) -> usize {
    let loaded = Rc::new(WriteLocked::default());
    with_driver(loaded.clone(), || lock.try_read());
    loaded.0.get()
}

/// Lets a lock look write-locked, which ends `try_read` after its load.
#[derive(Default)]
struct WriteLocked(Cell<usize>);

impl Driver for WriteLocked {
    fn operate(&self, word: &Futex, _: Op) -> Seen {
        self.0.set(word.identity());
        Seen { word: 0x3FFF_FFFF, success: false }
    }
}
