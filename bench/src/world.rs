//! The world and the five acts on it.

use crate::condvar::{self, Condvar, Notify};
use crate::event::{Event, Outcome, Refusal};
use crate::futex::{Futex, Sleepers, Turn, THREADS};
use crate::mutex::{Lock, Mutex, Unlock};
use crate::once::{self, Ending, Once};
use crate::record::*;
use crate::rwlock::{Read, Release, RwLock, Try, Write, MAX_READERS};
use crate::thread_parking::{Park, Parker, Unpark};

/// How many of each kind there are, Parkers aside.
pub const OBJECTS: usize = 4;

pub struct World {
    /// An act other than set was accepted.
    started: bool,
    sleepers: Sleepers,
    threads: [Thread; THREADS],
    mutexes: [Mutex; OBJECTS],
    rwlocks: [RwLock; OBJECTS],
    condvars: [Condvar; OBJECTS],
    onces: [Once; OBJECTS],
    parkers: [Parker; THREADS],
}

#[derive(Clone, Copy)]
struct Thread {
    position: Position,
    object: u8,
    /// The one that a condition variable's wait unlocks.
    mutex: u8,
}

/// Where in which call a thread stands. A sleeper stands after its wait already.
#[derive(Clone, Copy)]
enum Position {
    Idle,
    Lock(Lock),
    TryLock,
    Unlock(Unlock),
    Read(Read),
    TryRead(Try),
    Write(Write),
    TryWrite(Try),
    /// read_unlock, write_unlock and downgrade.
    Release(Release),
    CondvarWait(condvar::Wait),
    NotifyOne(Notify),
    NotifyAll(Notify),
    OnceCall {
        ignore_poisoning: bool,
        at: once::Call,
    },
    OnceWait {
        ignore_poisoning: bool,
        at: once::Wait,
    },
    IsCompleted,
    Park(Park),
    Unpark(Unpark),
}

impl Position {
    #[inline]
    fn is_idle(&self) -> bool {
        matches!(self, Position::Idle)
    }

    #[inline]
    fn is_in_closure(&self) -> bool {
        matches!(self, Position::OnceCall { at: once::Call::Closure, .. })
    }

    /// Whether a weak exchange is next.
    fn is_weak(&self) -> bool {
        match self {
            Position::Read(at) => at.is_weak(),
            Position::Write(at) => at.is_weak(),
            Position::TryRead(at) | Position::TryWrite(at) => at.is_weak(),
            Position::OnceCall { at, .. } => at.is_weak(),
            Position::OnceWait { at, .. } => at.is_weak(),
            _ => false,
        }
    }

    /// A call at its beginning, by its number.
    #[inline]
    fn begin(number: u8) -> Option<Position> {
        Some(match number {
            LOCK => Position::Lock(Lock::Exchange),
            TRY_LOCK => Position::TryLock,
            UNLOCK => Position::Unlock(Unlock::Swap),
            READ => Position::Read(Read::Load),
            TRY_READ => Position::TryRead(Try::Load),
            READ_UNLOCK => Position::Release(Release::ReadUnlock),
            WRITE => Position::Write(Write::Exchange),
            TRY_WRITE => Position::TryWrite(Try::Load),
            WRITE_UNLOCK => Position::Release(Release::WriteUnlock),
            DOWNGRADE => Position::Release(Release::Downgrade),
            CONDVAR_WAIT => Position::CondvarWait(condvar::Wait::Load),
            NOTIFY_ONE => Position::NotifyOne(Notify::Add),
            NOTIFY_ALL => Position::NotifyAll(Notify::Add),
            ONCE_CALL => Position::OnceCall { ignore_poisoning: false, at: once::Call::Load },
            ONCE_CALL_IGNORING => {
                Position::OnceCall { ignore_poisoning: true, at: once::Call::Load }
            }
            ONCE_WAIT => Position::OnceWait { ignore_poisoning: false, at: once::Wait::Load },
            ONCE_WAIT_IGNORING => {
                Position::OnceWait { ignore_poisoning: true, at: once::Wait::Load }
            }
            IS_COMPLETED => Position::IsCompleted,
            PARK => Position::Park(Park::Subtract),
            UNPARK => Position::Unpark(Unpark::Swap),
            _ => return None,
        })
    }
}

impl World {
    pub fn fresh() -> World {
        World {
            started: false,
            sleepers: Sleepers::default(),
            threads: [Thread { position: Position::Idle, object: 0, mutex: 0 }; THREADS],
            mutexes: [Mutex::new(); OBJECTS],
            rwlocks: [RwLock::new(); OBJECTS],
            condvars: [Condvar::new(); OBJECTS],
            onces: [Once::new(); OBJECTS],
            parkers: [Parker::new(); THREADS],
        }
    }

    #[inline]
    pub fn act(&mut self, record: Record) -> Outcome {
        match record.act {
            STEP => self.step(record),
            BEGIN => self.begin(record),
            WAKE => self.wake(record),
            CLOSE => self.close(record),
            SET => self.set(record),
            _ => Err(Refusal::Unknown),
        }
    }

    fn set(&mut self, record: Record) -> Outcome {
        let Record { choice, thread, value, .. } = record;
        if choice > COMPLETE || thread != 0 || choice == COMPLETE && value != 0 {
            return Err(Refusal::Unknown);
        }
        let object = usize::from(record.object);
        if object >= OBJECTS {
            return Err(Refusal::NoSuchObject);
        }
        if self.started {
            return Err(Refusal::Started);
        }
        match choice {
            FORGOTTEN_READS if value > MAX_READERS => return Err(Refusal::OutOfRange),
            FORGOTTEN_READS => self.rwlocks[object].state.store(value),
            WRITER_NOTIFY => self.rwlocks[object].writer_notify.store(value),
            CONDVAR => self.condvars[object].futex.store(value),
            _ => self.onces[object].set_complete(),
        }
        Ok(Event::SET)
    }

    #[inline]
    fn begin(&mut self, record: Record) -> Outcome {
        let Record { choice, thread, object, value, .. } = record;
        let position = Position::begin(choice).ok_or(Refusal::Unknown)?;
        if usize::from(thread) >= THREADS {
            return Err(Refusal::NoSuchThread);
        }
        if choice != CONDVAR_WAIT && value != 0 || choice == PARK && object != 0 {
            return Err(Refusal::Unknown);
        }
        let objects = if choice == UNPARK { THREADS } else { OBJECTS };
        if usize::from(object) >= objects || value >= OBJECTS as u32 {
            return Err(Refusal::NoSuchObject);
        }
        let mutex = value as u8;
        if !self.threads[usize::from(thread)].position.is_idle() {
            return Err(Refusal::InsideCall);
        }
        if !self.has_hold_for(choice, thread, object, mutex) {
            return Err(Refusal::NoHold);
        }
        self.started = true;
        self.threads[usize::from(thread)] = Thread { position, object, mutex };
        Ok(Event::BEGUN)
    }

    /// Whether the thread holds what the call gives up.
    #[inline]
    fn has_hold_for(&self, call: u8, thread: u8, object: u8, mutex: u8) -> bool {
        let object = usize::from(object);
        match call {
            UNLOCK => self.mutexes[object].is_held_by(thread),
            READ_UNLOCK => self.rwlocks[object].is_read_by(thread),
            WRITE_UNLOCK | DOWNGRADE => self.rwlocks[object].is_written_by(thread),
            CONDVAR_WAIT => self.mutexes[usize::from(mutex)].is_held_by(thread),
            _ => true,
        }
    }

    #[inline]
    fn step(&mut self, record: Record) -> Outcome {
        if record.choice > 1 {
            return Err(Refusal::Unknown);
        }
        names_thread_only(record)?;
        let number = record.thread;
        let Thread { position, object, mutex } = &mut self.threads[usize::from(number)];
        if self.sleepers.has(number) {
            return Err(Refusal::Asleep);
        }
        let fails = record.choice == 1;
        if fails && !position.is_weak() {
            return Err(match position {
                Position::Idle => Refusal::Idle,
                position if position.is_in_closure() => Refusal::InsideClosure,
                _ => Refusal::NoWeakExchange,
            });
        }
        let turn = Turn { thread: number, fails, sleepers: &mut self.sleepers };
        let object = usize::from(*object);
        let event = match position {
            Position::Idle => return Err(Refusal::Idle),
            Position::Lock(at) => at.step(&mut self.mutexes[object], turn),
            Position::TryLock => self.mutexes[object].try_lock(turn),
            Position::Unlock(at) => at.step(&mut self.mutexes[object], turn),
            Position::Read(at) => at.step(&mut self.rwlocks[object], turn),
            Position::TryRead(at) => at.step_read(&mut self.rwlocks[object], turn),
            Position::Write(at) => at.step(&mut self.rwlocks[object], turn),
            Position::TryWrite(at) => at.step_write(&mut self.rwlocks[object], turn),
            Position::Release(at) => at.step(&mut self.rwlocks[object], turn),
            Position::CondvarWait(at) => {
                let mutex = &mut self.mutexes[usize::from(*mutex)];
                at.step(&mut self.condvars[object], mutex, turn)
            }
            Position::NotifyOne(at) => at.step(&mut self.condvars[object], false, turn),
            Position::NotifyAll(at) => at.step(&mut self.condvars[object], true, turn),
            Position::OnceCall { at: once::Call::Closure, .. } => {
                return Err(Refusal::InsideClosure)
            }
            Position::OnceCall { ignore_poisoning, at } => {
                at.step(&mut self.onces[object], *ignore_poisoning, turn)
            }
            Position::OnceWait { ignore_poisoning, at } => {
                at.step(&mut self.onces[object], *ignore_poisoning, turn)
            }
            Position::IsCompleted => match self.onces[object].is_completed() {
                true => Event::DONE,
                false => Event::FAILED,
            },
            Position::Park(at) => at.step(&mut self.parkers[usize::from(number)], turn),
            Position::Unpark(at) => at.step(&mut self.parkers[object], turn),
        };
        if event.ends_call() {
            *position = Position::Idle;
        }
        Ok(event)
    }

    fn wake(&mut self, record: Record) -> Outcome {
        if record.choice != 0 {
            return Err(Refusal::Unknown);
        }
        names_thread_only(record)?;
        let number = record.thread;
        let Thread { position, object, mutex } = self.threads[usize::from(number)];
        if position.is_idle() {
            return Err(Refusal::Idle);
        }
        if !self.sleepers.has(number) {
            return Err(Refusal::Awake);
        }
        let object = usize::from(object);
        let futex: &mut Futex = match position {
            Position::Lock(_) => &mut self.mutexes[object].futex,
            Position::Read(_) => &mut self.rwlocks[object].state,
            Position::Write(_) => &mut self.rwlocks[object].writer_notify,
            Position::CondvarWait(at) => {
                at.slept_on(&mut self.condvars[object], &mut self.mutexes[usize::from(mutex)])
            }
            Position::OnceCall { .. } | Position::OnceWait { .. } => {
                &mut self.onces[object].state_and_queued
            }
            Position::Park(_) => &mut self.parkers[usize::from(number)].state,
            _ => unreachable!("the other calls never sleep"),
        };
        futex.wake_spuriously(number, &mut self.sleepers);
        Ok(Event::WOKEN)
    }

    fn close(&mut self, record: Record) -> Outcome {
        let ending = match record.choice {
            RETURNED => Ending::Returned,
            POISONED => Ending::Poisoned,
            PANICKED => Ending::Panicked,
            _ => return Err(Refusal::Unknown),
        };
        names_thread_only(record)?;
        if self.sleepers.has(record.thread) {
            return Err(Refusal::Asleep);
        }
        match &mut self.threads[usize::from(record.thread)].position {
            Position::Idle => Err(Refusal::Idle),
            Position::OnceCall { at: at @ once::Call::Closure, .. } => {
                *at = once::Call::Swap { ending };
                Ok(Event::CLOSED)
            }
            _ => Err(Refusal::OutsideClosure),
        }
    }
}

#[inline]
fn names_thread_only(record: Record) -> Result<(), Refusal> {
    if usize::from(record.thread) >= THREADS {
        Err(Refusal::NoSuchThread)
    } else if record.object != 0 || record.value != 0 {
        Err(Refusal::Unknown)
    } else {
        Ok(())
    }
}

/// What a thread is at, for those who choose the next record.
#[derive(Clone, Copy, Debug, PartialEq, Eq)]
pub enum Standing {
    Idle,
    /// A step comes next, of a weak exchange or of something else.
    Awake {
        weak: bool,
    },
    Asleep,
    Closure {
        once: u8,
    },
}

impl World {
    pub fn standing(&self, thread: u8) -> Standing {
        let Thread { position, object, .. } = self.threads[usize::from(thread)];
        match position {
            _ if self.sleepers.has(thread) => Standing::Asleep,
            Position::Idle => Standing::Idle,
            position if position.is_in_closure() => Standing::Closure { once: object },
            position => Standing::Awake { weak: position.is_weak() },
        }
    }

    pub fn sleepers(&self) -> Sleepers {
        self.sleepers
    }

    pub fn mutex(&self, object: u8) -> &Mutex {
        &self.mutexes[usize::from(object)]
    }

    pub fn rwlock(&self, object: u8) -> &RwLock {
        &self.rwlocks[usize::from(object)]
    }

    pub fn once(&self, object: u8) -> &Once {
        &self.onces[usize::from(object)]
    }
}
