//! Parker: park and unpark.

use crate::event::Event;
use crate::futex::{Futex, Turn};

const PARKED: u32 = u32::MAX;
const EMPTY: u32 = 0;
const NOTIFIED: u32 = 1;

#[derive(Clone, Copy)]
pub struct Parker {
    pub(crate) state: Futex,
}

impl Parker {
    pub const fn new() -> Parker {
        Parker { state: Futex::new(EMPTY) }
    }
}

impl Default for Parker {
    fn default() -> Parker {
        Parker::new()
    }
}

/// The operation of `park` that is next.
#[derive(Clone, Copy)]
pub enum Park {
    Subtract,
    Wait,
    Exchange,
}

impl Park {
    #[inline]
    pub fn step(&mut self, parker: &mut Parker, turn: Turn) -> Event {
        match *self {
            // NOTIFIED becomes EMPTY, and EMPTY becomes PARKED.
            Park::Subtract => match parker.state.fetch_sub(1) {
                NOTIFIED => return Event::DONE,
                _ => *self = Park::Wait,
            },
            Park::Wait => {
                *self = Park::Exchange;
                return Event::of_wait(parker.state.wait(PARKED, turn));
            }
            Park::Exchange => match parker.state.compare_exchange(NOTIFIED, EMPTY) {
                Ok(()) => return Event::DONE,
                Err(_) => *self = Park::Wait,
            },
        }
        Event::MOVED
    }
}

/// The operation of `unpark` that is next.
#[derive(Clone, Copy)]
pub enum Unpark {
    Swap,
    Wake,
}

impl Unpark {
    #[inline]
    pub fn step(&mut self, parker: &mut Parker, turn: Turn) -> Event {
        match *self {
            Unpark::Swap => match parker.state.swap(NOTIFIED) {
                PARKED => {
                    *self = Unpark::Wake;
                    Event::MOVED
                }
                _ => Event::DONE,
            },
            Unpark::Wake => Event::DONE.waking(parker.state.wake(turn.sleepers)),
        }
    }
}
