//! Condvar: wait, notify_one, notify_all.

use crate::event::Event;
use crate::futex::{Futex, Turn};
use crate::mutex::{Lock, Mutex};

#[derive(Clone, Copy)]
pub struct Condvar {
    /// Counts the notifications.
    pub(crate) futex: Futex,
}

impl Condvar {
    pub const fn new() -> Condvar {
        Condvar { futex: Futex::new(0) }
    }
}

impl Default for Condvar {
    fn default() -> Condvar {
        Condvar::new()
    }
}

/// The operation of `wait` that is next.
#[derive(Clone, Copy)]
pub enum Wait {
    Load,
    Unlock { sequence: u32 },
    UnlockWake { sequence: u32 },
    Wait { sequence: u32 },
    Relock(Lock),
}

impl Wait {
    #[inline]
    pub fn step(&mut self, condvar: &mut Condvar, mutex: &mut Mutex, turn: Turn) -> Event {
        match *self {
            Wait::Load => {
                *self = Wait::Unlock { sequence: condvar.futex.load() };
                Event::MOVED
            }
            Wait::Unlock { sequence } => {
                *self = if mutex.release() {
                    Wait::UnlockWake { sequence }
                } else {
                    Wait::Wait { sequence }
                };
                Event::MOVED
            }
            Wait::UnlockWake { sequence } => {
                *self = Wait::Wait { sequence };
                Event::MOVED.waking(mutex.futex.wake(turn.sleepers))
            }
            Wait::Wait { sequence } => {
                *self = Wait::Relock(Lock::Exchange);
                Event::of_wait(condvar.futex.wait(sequence, turn))
            }
            Wait::Relock(ref mut lock) => match lock.step(mutex, turn) {
                Event::GRANTED => Event::DONE,
                event => event,
            },
        }
    }

    /// The word on which a thread sleeps that stands here, after its wait.
    pub fn slept_on<'a>(&self, condvar: &'a mut Condvar, mutex: &'a mut Mutex) -> &'a mut Futex {
        match self {
            Wait::Relock(Lock::SpinAfterWait { .. }) => &mut mutex.futex,
            _ => &mut condvar.futex,
        }
    }
}

/// The operation of `notify_one` or `notify_all` that is next.
#[derive(Clone, Copy)]
pub enum Notify {
    Add,
    Wake,
}

impl Notify {
    #[inline]
    pub fn step(&mut self, condvar: &mut Condvar, all: bool, turn: Turn) -> Event {
        match *self {
            Notify::Add => {
                condvar.futex.fetch_add(1);
                *self = Notify::Wake;
                Event::MOVED
            }
            Notify::Wake if all => Event::DONE.waking(condvar.futex.wake_all(turn.sleepers)),
            Notify::Wake => Event::DONE.waking(condvar.futex.wake(turn.sleepers)),
        }
    }
}
