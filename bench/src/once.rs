//! Once: call, wait, is_completed, and the guard after the closure.

use crate::event::Event;
use crate::futex::{Futex, Turn};

const INCOMPLETE: u32 = 3;
const POISONED: u32 = 2;
const RUNNING: u32 = 1;
const COMPLETE: u32 = 0;

/// Threads wait.
const QUEUED: u32 = 4;
const STATE_MASK: u32 = 3;

/// The numbers of the panics.
const FOUND_POISONED: u8 = 2;
const CLOSURE_PANICKED: u8 = 3;

#[derive(Clone, Copy)]
pub struct Once {
    pub(crate) state_and_queued: Futex,
}

impl Once {
    pub const fn new() -> Once {
        Once { state_and_queued: Futex::new(INCOMPLETE) }
    }

    pub fn set_complete(&mut self) {
        self.state_and_queued.store(COMPLETE);
    }

    /// The whole word is looked at, where `call` and `wait` look at the state.
    #[inline]
    pub fn is_completed(&self) -> bool {
        self.state_and_queued.load() == COMPLETE
    }
}

impl Default for Once {
    fn default() -> Once {
        Once::new()
    }
}

/// How a closure ended.
#[derive(Clone, Copy)]
pub enum Ending {
    Returned,
    Poisoned,
    Panicked,
}

impl Ending {
    #[inline]
    fn state(self) -> u32 {
        match self {
            Ending::Returned => COMPLETE,
            Ending::Poisoned | Ending::Panicked => POISONED,
        }
    }

    /// The guard has done its last step.
    #[inline]
    fn told(self, woken: u8) -> Event {
        match self {
            Ending::Returned | Ending::Poisoned => Event::DONE.waking(woken),
            Ending::Panicked => Event::panic(CLOSURE_PANICKED).waking(woken),
        }
    }
}

/// The operation of `call` that is next.
#[derive(Clone, Copy)]
pub enum Call {
    Load,
    ExchangeRunning { seen: u32 },
    Closure,
    Swap { ending: Ending },
    WakeAll { ending: Ending },
    ExchangeQueued { seen: u32 },
    Wait { seen: u32 },
}

impl Call {
    #[inline]
    pub fn step(&mut self, once: &mut Once, ignore_poisoning: bool, turn: Turn) -> Event {
        let futex = &mut once.state_and_queued;
        match *self {
            Call::Load => self.look(futex.load(), ignore_poisoning),
            Call::ExchangeRunning { seen } => {
                let next = RUNNING + (seen & QUEUED);
                match futex.compare_exchange_weak(seen, next, &turn) {
                    Ok(()) => {
                        *self = Call::Closure;
                        Event::CLOSURE
                    }
                    Err(seen) => self.look(seen, ignore_poisoning),
                }
            }
            Call::Closure => unreachable!("no step is made inside a closure"),
            Call::Swap { ending } => {
                if futex.swap(ending.state()) & QUEUED != 0 {
                    *self = Call::WakeAll { ending };
                    Event::MOVED
                } else {
                    ending.told(0)
                }
            }
            Call::WakeAll { ending } => ending.told(futex.wake_all(turn.sleepers)),
            Call::ExchangeQueued { seen } => {
                match futex.compare_exchange_weak(seen, seen + QUEUED, &turn) {
                    Ok(()) => {
                        *self = Call::Wait { seen: seen + QUEUED };
                        Event::MOVED
                    }
                    Err(seen) => self.look(seen, ignore_poisoning),
                }
            }
            Call::Wait { seen } => {
                *self = Call::Load;
                Event::of_wait(futex.wait(seen, turn))
            }
        }
    }

    /// The loop's top.
    #[inline]
    fn look(&mut self, seen: u32, ignore_poisoning: bool) -> Event {
        *self = match seen & STATE_MASK {
            COMPLETE => return Event::DONE,
            POISONED if !ignore_poisoning => return Event::panic(FOUND_POISONED),
            INCOMPLETE | POISONED => Call::ExchangeRunning { seen },
            _ if seen & QUEUED == 0 => Call::ExchangeQueued { seen },
            _ => Call::Wait { seen },
        };
        Event::MOVED
    }

    #[inline]
    pub fn is_weak(&self) -> bool {
        matches!(self, Call::ExchangeRunning { .. } | Call::ExchangeQueued { .. })
    }
}

/// The operation of `wait` that is next.
#[derive(Clone, Copy)]
pub enum Wait {
    Load,
    ExchangeQueued { seen: u32 },
    Wait { seen: u32 },
}

impl Wait {
    #[inline]
    pub fn step(&mut self, once: &mut Once, ignore_poisoning: bool, turn: Turn) -> Event {
        let futex = &mut once.state_and_queued;
        match *self {
            Wait::Load => self.look(futex.load(), ignore_poisoning),
            Wait::ExchangeQueued { seen } => {
                match futex.compare_exchange_weak(seen, seen + QUEUED, &turn) {
                    Ok(()) => {
                        *self = Wait::Wait { seen: seen + QUEUED };
                        Event::MOVED
                    }
                    Err(seen) => self.look(seen, ignore_poisoning),
                }
            }
            Wait::Wait { seen } => {
                *self = Wait::Load;
                Event::of_wait(futex.wait(seen, turn))
            }
        }
    }

    /// The loop's top.
    #[inline]
    fn look(&mut self, seen: u32, ignore_poisoning: bool) -> Event {
        *self = match seen & STATE_MASK {
            COMPLETE => return Event::DONE,
            POISONED if !ignore_poisoning => return Event::panic(FOUND_POISONED),
            _ if seen & QUEUED == 0 => Wait::ExchangeQueued { seen },
            _ => Wait::Wait { seen },
        };
        Event::MOVED
    }

    #[inline]
    pub fn is_weak(&self) -> bool {
        matches!(self, Wait::ExchangeQueued { .. })
    }
}
