//! Mutex: lock, try_lock, unlock.

use crate::event::Event;
use crate::futex::{Futex, Turn};

#[derive(Clone, Copy)]
pub struct Mutex {
    pub(crate) futex: Futex,
    holder: Option<u8>,
}

const UNLOCKED: u32 = 0;
const LOCKED: u32 = 1; // locked, nobody waits
const CONTENDED: u32 = 2; // locked, and somebody may wait

/// Loads after the first while spinning.
const SPINS: u8 = 100;

impl Mutex {
    pub const fn new() -> Mutex {
        Mutex { futex: Futex::new(UNLOCKED), holder: None }
    }

    #[inline]
    pub fn is_held_by(&self, thread: u8) -> bool {
        self.holder == Some(thread)
    }

    #[inline]
    fn granted(&mut self, thread: u8) -> Event {
        self.holder = Some(thread);
        Event::GRANTED
    }

    #[inline]
    pub fn try_lock(&mut self, turn: Turn) -> Event {
        match self.futex.compare_exchange(UNLOCKED, LOCKED) {
            Ok(()) => self.granted(turn.thread),
            Err(_) => Event::FAILED,
        }
    }

    /// Unlock's swap; says whether a wake has to follow.
    #[inline]
    pub fn release(&mut self) -> bool {
        self.holder = None;
        self.futex.swap(UNLOCKED) == CONTENDED
    }
}

impl Default for Mutex {
    fn default() -> Mutex {
        Mutex::new()
    }
}

/// The operation of `lock` that is next.
#[derive(Clone, Copy)]
pub enum Lock {
    Exchange,
    Spin { left: u8 },
    ExchangeAfterSpin,
    Swap,
    Wait,
    SpinAfterWait { left: u8 },
}

impl Lock {
    #[inline]
    pub fn step(&mut self, mutex: &mut Mutex, turn: Turn) -> Event {
        *self = match *self {
            Lock::Exchange => match mutex.futex.compare_exchange(UNLOCKED, LOCKED) {
                Ok(()) => return mutex.granted(turn.thread),
                Err(_) => Lock::Spin { left: SPINS },
            },
            Lock::Spin { left } => match mutex.futex.load() {
                LOCKED if left > 0 => Lock::Spin { left: left - 1 },
                UNLOCKED => Lock::ExchangeAfterSpin,
                state => Lock::contend(state),
            },
            Lock::ExchangeAfterSpin => match mutex.futex.compare_exchange(UNLOCKED, LOCKED) {
                Ok(()) => return mutex.granted(turn.thread),
                Err(state) => Lock::contend(state),
            },
            Lock::Swap => match mutex.futex.swap(CONTENDED) {
                UNLOCKED => return mutex.granted(turn.thread),
                _ => Lock::Wait,
            },
            Lock::Wait => {
                *self = Lock::SpinAfterWait { left: SPINS };
                return Event::of_wait(mutex.futex.wait(CONTENDED, turn));
            }
            // Others may still wait, so the lock is only taken by the swap from here on.
            Lock::SpinAfterWait { left } => match mutex.futex.load() {
                LOCKED if left > 0 => Lock::SpinAfterWait { left: left - 1 },
                state => Lock::contend(state),
            },
        };
        Event::MOVED
    }

    /// The loop's top: a lock that is marked already needs no swap.
    #[inline]
    fn contend(state: u32) -> Lock {
        if state == CONTENDED {
            Lock::Wait
        } else {
            Lock::Swap
        }
    }
}

/// The operation of `unlock` that is next.
#[derive(Clone, Copy)]
pub enum Unlock {
    Swap,
    Wake,
}

impl Unlock {
    #[inline]
    pub fn step(&mut self, mutex: &mut Mutex, turn: Turn) -> Event {
        match *self {
            Unlock::Swap => {
                if mutex.release() {
                    *self = Unlock::Wake;
                    Event::MOVED
                } else {
                    Event::DONE
                }
            }
            Unlock::Wake => Event::DONE.waking(mutex.futex.wake(turn.sleepers)),
        }
    }
}
