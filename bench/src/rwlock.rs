//! RwLock: read, write, the tries, the unlocks and downgrade.

use crate::event::Event;
use crate::futex::{Futex, Turn, THREADS};

#[derive(Clone, Copy)]
pub struct RwLock {
    /// Bits 0 to 29 count the readers, or are all set where it is write-locked.
    pub(crate) state: Futex,
    /// Counts the signals to writers.
    pub(crate) writer_notify: Futex,
    writer: Option<u8>,
    reads: [u32; THREADS],
}

const READ_LOCKED: u32 = 1;
const MASK: u32 = (1 << 30) - 1;
const WRITE_LOCKED: u32 = MASK;
const DOWNGRADE: u32 = READ_LOCKED.wrapping_sub(WRITE_LOCKED);
pub const MAX_READERS: u32 = MASK - 1;
const READERS_WAITING: u32 = 1 << 30;
const WRITERS_WAITING: u32 = 1 << 31;
const BOTH_WAITING: u32 = READERS_WAITING + WRITERS_WAITING;

/// Loads after the first while spinning.
const SPINS: u8 = 100;

/// The number of the panic.
const TOO_MANY_READERS: u8 = 1;

#[inline]
fn is_unlocked(state: u32) -> bool {
    state & MASK == 0
}

#[inline]
fn has_readers_waiting(state: u32) -> bool {
    state & READERS_WAITING != 0
}

#[inline]
fn has_writers_waiting(state: u32) -> bool {
    state & WRITERS_WAITING != 0
}

/// With either flag set the lock is somebody else's to take, or about to be.
#[inline]
fn is_read_lockable(state: u32) -> bool {
    state < MAX_READERS
}

/// After a downgrade those who slept may read, whether or not a writer waits.
#[inline]
fn is_read_lockable_after_wakeup(state: u32) -> bool {
    !is_unlocked(state) && state & MASK < MAX_READERS && !has_readers_waiting(state)
}

#[inline]
fn has_reached_max_readers(state: u32) -> bool {
    state & MASK == MAX_READERS
}

impl RwLock {
    pub const fn new() -> RwLock {
        RwLock {
            state: Futex::new(0),
            writer_notify: Futex::new(0),
            writer: None,
            reads: [0; THREADS],
        }
    }

    #[inline]
    pub fn is_read_by(&self, thread: u8) -> bool {
        self.reads[usize::from(thread)] > 0
    }

    #[inline]
    pub fn is_written_by(&self, thread: u8) -> bool {
        self.writer == Some(thread)
    }

    #[inline]
    fn granted_to_read(&mut self, thread: u8) -> Event {
        self.reads[usize::from(thread)] += 1;
        Event::GRANTED
    }

    #[inline]
    fn granted_to_write(&mut self, thread: u8) -> Event {
        self.writer = Some(thread);
        Event::GRANTED
    }
}

impl Default for RwLock {
    fn default() -> RwLock {
        RwLock::new()
    }
}

/// The operation of `read` that is next.
#[derive(Clone, Copy)]
pub enum Read {
    Load,
    Exchange { state: u32 },
    Spin { has_slept: bool, left: u8 },
    ExchangeContended { has_slept: bool, state: u32 },
    Flag { has_slept: bool, state: u32 },
    Wait { state: u32 },
}

impl Read {
    #[inline]
    pub fn step(&mut self, lock: &mut RwLock, turn: Turn) -> Event {
        *self = match *self {
            Read::Load => match lock.state.load() {
                state if is_read_lockable(state) => Read::Exchange { state },
                _ => Read::Spin { has_slept: false, left: SPINS },
            },
            Read::Exchange { state } => {
                match lock.state.compare_exchange_weak(state, state + READ_LOCKED, &turn) {
                    Ok(()) => return lock.granted_to_read(turn.thread),
                    Err(_) => Read::Spin { has_slept: false, left: SPINS },
                }
            }
            Read::Spin { has_slept, left } => {
                // Nothing but WRITE_LOCKED without a flag is worth waiting for.
                match lock.state.load() {
                    WRITE_LOCKED if left > 0 => Read::Spin { has_slept, left: left - 1 },
                    state => return self.contend(has_slept, state),
                }
            }
            Read::ExchangeContended { has_slept, state } => {
                match lock.state.compare_exchange_weak(state, state + READ_LOCKED, &turn) {
                    Ok(()) => return lock.granted_to_read(turn.thread),
                    Err(state) => return self.contend(has_slept, state),
                }
            }
            Read::Flag { has_slept, state } => {
                match lock.state.compare_exchange(state, state | READERS_WAITING) {
                    Ok(()) => Read::Wait { state: state | READERS_WAITING },
                    Err(state) => return self.contend(has_slept, state),
                }
            }
            Read::Wait { state } => {
                *self = Read::Spin { has_slept: true, left: SPINS };
                return Event::of_wait(lock.state.wait(state, turn));
            }
        };
        Event::MOVED
    }

    /// The loop's top.
    #[inline]
    fn contend(&mut self, has_slept: bool, state: u32) -> Event {
        let lockable = is_read_lockable(state) || has_slept && is_read_lockable_after_wakeup(state);
        *self = if lockable {
            Read::ExchangeContended { has_slept, state }
        } else if has_reached_max_readers(state) {
            return Event::panic(TOO_MANY_READERS);
        } else if has_readers_waiting(state) {
            Read::Wait { state }
        } else {
            Read::Flag { has_slept, state }
        };
        Event::MOVED
    }

    #[inline]
    pub fn is_weak(&self) -> bool {
        matches!(self, Read::Exchange { .. } | Read::ExchangeContended { .. })
    }
}

/// The operation of `write` that is next.
#[derive(Clone, Copy)]
pub enum Write {
    Exchange,
    Spin { other_writers_waiting: bool, left: u8 },
    ExchangeContended { other_writers_waiting: bool, state: u32 },
    Flag { other_writers_waiting: bool, state: u32 },
    // From here on others may wait too, so the flag stays on once the lock is taken.
    Sequence,
    State { sequence: u32 },
    Wait { sequence: u32 },
}

impl Write {
    #[inline]
    pub fn step(&mut self, lock: &mut RwLock, turn: Turn) -> Event {
        *self = match *self {
            Write::Exchange => match lock.state.compare_exchange_weak(0, WRITE_LOCKED, &turn) {
                Ok(()) => return lock.granted_to_write(turn.thread),
                Err(_) => Write::Spin { other_writers_waiting: false, left: SPINS },
            },
            Write::Spin { other_writers_waiting, left } => {
                let state = lock.state.load();
                if is_unlocked(state) || has_writers_waiting(state) || left == 0 {
                    Write::contend(other_writers_waiting, state)
                } else {
                    Write::Spin { other_writers_waiting, left: left - 1 }
                }
            }
            Write::ExchangeContended { other_writers_waiting, state } => {
                let flag = if other_writers_waiting { WRITERS_WAITING } else { 0 };
                let locked = state | WRITE_LOCKED | flag;
                match lock.state.compare_exchange_weak(state, locked, &turn) {
                    Ok(()) => return lock.granted_to_write(turn.thread),
                    Err(state) => Write::contend(other_writers_waiting, state),
                }
            }
            Write::Flag { other_writers_waiting, state } => {
                match lock.state.compare_exchange(state, state | WRITERS_WAITING) {
                    Ok(()) => Write::Sequence,
                    Err(state) => Write::contend(other_writers_waiting, state),
                }
            }
            // Before the state is looked at, so that no signal is missed.
            Write::Sequence => Write::State { sequence: lock.writer_notify.load() },
            Write::State { sequence } => {
                let state = lock.state.load();
                if is_unlocked(state) || !has_writers_waiting(state) {
                    Write::contend(true, state)
                } else {
                    Write::Wait { sequence }
                }
            }
            Write::Wait { sequence } => {
                *self = Write::Spin { other_writers_waiting: true, left: SPINS };
                return Event::of_wait(lock.writer_notify.wait(sequence, turn));
            }
        };
        Event::MOVED
    }

    /// The loop's top.
    #[inline]
    fn contend(other_writers_waiting: bool, state: u32) -> Write {
        if is_unlocked(state) {
            Write::ExchangeContended { other_writers_waiting, state }
        } else if has_writers_waiting(state) {
            Write::Sequence
        } else {
            Write::Flag { other_writers_waiting, state }
        }
    }

    #[inline]
    pub fn is_weak(&self) -> bool {
        matches!(self, Write::Exchange | Write::ExchangeContended { .. })
    }
}

/// The operation of `try_read` or `try_write` that is next.
#[derive(Clone, Copy)]
pub enum Try {
    Load,
    Exchange { state: u32 },
}

impl Try {
    #[inline]
    pub fn step_read(&mut self, lock: &mut RwLock, turn: Turn) -> Event {
        let state = match *self {
            Try::Load => lock.state.load(),
            Try::Exchange { state } => {
                match lock.state.compare_exchange_weak(state, state + READ_LOCKED, &turn) {
                    Ok(()) => return lock.granted_to_read(turn.thread),
                    Err(state) => state,
                }
            }
        };
        self.go_on(is_read_lockable(state), state)
    }

    #[inline]
    pub fn step_write(&mut self, lock: &mut RwLock, turn: Turn) -> Event {
        let state = match *self {
            Try::Load => lock.state.load(),
            Try::Exchange { state } => {
                match lock.state.compare_exchange_weak(state, state + WRITE_LOCKED, &turn) {
                    Ok(()) => return lock.granted_to_write(turn.thread),
                    Err(state) => state,
                }
            }
        };
        self.go_on(is_unlocked(state), state)
    }

    #[inline]
    fn go_on(&mut self, lockable: bool, state: u32) -> Event {
        if lockable {
            *self = Try::Exchange { state };
            Event::MOVED
        } else {
            Event::FAILED
        }
    }

    #[inline]
    pub fn is_weak(&self) -> bool {
        matches!(self, Try::Exchange { .. })
    }
}

/// The operation of `read_unlock`, `write_unlock` or `downgrade` that is next.
#[derive(Clone, Copy)]
pub enum Release {
    ReadUnlock,
    WriteUnlock,
    ExchangeWriters,
    ExchangeBoth,
    Notify { readers_wait: bool },
    NotifyWake { readers_wait: bool },
    ExchangeReaders,
    WakeReaders,
    Downgrade,
    DowngradeSubtract,
}

impl Release {
    #[inline]
    pub fn step(&mut self, lock: &mut RwLock, turn: Turn) -> Event {
        *self = match *self {
            Release::ReadUnlock => {
                lock.reads[usize::from(turn.thread)] -= 1;
                let state = lock.state.fetch_sub(READ_LOCKED).wrapping_sub(READ_LOCKED);
                if !(is_unlocked(state) && has_writers_waiting(state)) {
                    return Event::DONE;
                }
                return self.wake_writer_or_readers(state);
            }
            Release::WriteUnlock => {
                lock.writer = None;
                let state = lock.state.fetch_sub(WRITE_LOCKED).wrapping_sub(WRITE_LOCKED);
                return self.wake_writer_or_readers(state);
            }
            Release::ExchangeWriters => match lock.state.compare_exchange(WRITERS_WAITING, 0) {
                Ok(()) => Release::Notify { readers_wait: false },
                // Readers may wait now too.
                Err(state) => return self.wake_writer_or_readers(state),
            },
            Release::ExchangeBoth => {
                match lock.state.compare_exchange(BOTH_WAITING, READERS_WAITING) {
                    Ok(()) => Release::Notify { readers_wait: true },
                    // Who locked it in the meantime sees to the rest.
                    Err(_) => return Event::DONE,
                }
            }
            Release::Notify { readers_wait } => {
                lock.writer_notify.fetch_add(1);
                Release::NotifyWake { readers_wait }
            }
            Release::NotifyWake { readers_wait } => {
                let woken = lock.writer_notify.wake(turn.sleepers);
                if woken > 0 || !readers_wait {
                    return Event::DONE.waking(woken);
                }
                Release::ExchangeReaders
            }
            Release::ExchangeReaders => match lock.state.compare_exchange(READERS_WAITING, 0) {
                Ok(()) => Release::WakeReaders,
                Err(_) => return Event::DONE,
            },
            Release::WakeReaders => {
                return Event::DONE.waking(lock.state.wake_all(turn.sleepers));
            }
            Release::Downgrade => {
                lock.writer = None;
                lock.reads[usize::from(turn.thread)] += 1;
                let state = lock.state.fetch_add(DOWNGRADE);
                if !has_readers_waiting(state) {
                    return Event::DONE;
                }
                Release::DowngradeSubtract
            }
            Release::DowngradeSubtract => {
                lock.state.fetch_sub(READERS_WAITING);
                Release::WakeReaders
            }
        };
        Event::MOVED
    }

    /// A state other than these three is somebody else's business.
    #[inline]
    fn wake_writer_or_readers(&mut self, state: u32) -> Event {
        *self = match state {
            WRITERS_WAITING => Release::ExchangeWriters,
            BOTH_WAITING => Release::ExchangeBoth,
            READERS_WAITING => Release::ExchangeReaders,
            _ => return Event::DONE,
        };
        Event::MOVED
    }
}
