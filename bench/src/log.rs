//! Makes logs to measure with: most records are accepted, since each is chosen by
//! the world that the ones before it lead to.

use crate::futex::THREADS;
use crate::random::Random;
use crate::record::*;
use crate::rwlock::MAX_READERS;
use crate::world::{Standing, World, OBJECTS};

/// Has forgotten reads, almost as many as there may be: no writer ever gets it, so
/// none waits for it, and the readers that come on top are soon too many.
const FULL_LOCK: u8 = 3;

/// Complete from the start.
const COMPLETE_ONCE: u8 = 0;

/// Completed some day. The others never are: who is complete stays so, and then
/// nobody runs a closure or waits any more.
const COMPLETED_ONCE: u8 = 1;

/// A wait that ignores poison ends only where the Once is complete, so no thread
/// before this one begins it elsewhere.
const PATIENT: u8 = THREADS as u8 - 2;

pub struct Log {
    random: Random,
    world: World,
    sets: std::vec::IntoIter<Record>,
    /// The thread that makes the next steps, and how many.
    run: (u8, u8),
}

impl Log {
    pub fn new(seed: u64) -> Log {
        let mut random = Random::new(seed);
        let mut sets = Vec::new();
        for object in 0..OBJECTS as u8 {
            for choice in [WRITER_NOTIFY, CONDVAR] {
                // They wrap after a few notifications.
                sets.push(set(choice, object, u32::MAX - u32::from(random.below(100))));
            }
        }
        sets.push(set(FORGOTTEN_READS, FULL_LOCK, MAX_READERS + 1));
        sets.push(set(FORGOTTEN_READS, FULL_LOCK, MAX_READERS - 3));
        sets.push(set(COMPLETE, COMPLETE_ONCE, 0));
        Log { random, world: World::fresh(), sets: sets.into_iter(), run: (0, 0) }
    }

    /// A record that the world is likely to accept.
    fn fitting(&mut self) -> Record {
        let (thread, left) = self.run;
        if left > 0 {
            if let Standing::Awake { weak } = self.world.standing(thread) {
                self.run = (thread, left - 1);
                return self.step(thread, weak);
            }
        }
        self.run = (0, 0);
        let asleep = self.world.sleepers().bits();
        if asleep == u32::MAX || asleep != 0 && self.random.one_in(100) {
            return of_thread(WAKE, 0, self.random.bit(asleep));
        }
        let thread = self.random.bit(!asleep);
        match self.world.standing(thread) {
            Standing::Idle => {
                // A call that begins runs on for a while, so that calls end.
                self.run = (thread, self.run_length());
                self.begin(thread)
            }
            Standing::Awake { weak } => {
                self.run = (thread, self.run_length());
                self.step(thread, weak)
            }
            Standing::Closure { once } => {
                let returns = once == COMPLETED_ONCE && self.random.one_in(200);
                let closing =
                    if returns { RETURNED } else { self.random.pick(&[POISONED, PANICKED]) };
                of_thread(CLOSE, closing, thread)
            }
            Standing::Asleep => unreachable!("only threads that are awake were asked for"),
        }
    }

    /// Short runs mix the calls closely; long ones get to the end of the spins.
    fn run_length(&mut self) -> u8 {
        match self.random.below(8) {
            0..=3 => self.random.below(4),
            4..=6 => self.random.below(12),
            _ => 120,
        }
    }

    fn step(&mut self, thread: u8, weak: bool) -> Record {
        of_thread(STEP, u8::from(weak && self.random.one_in(8)), thread)
    }

    /// Who holds something mostly gives it back.
    fn begin(&mut self, thread: u8) -> Record {
        let held = self.held(thread);
        if held != 0 && !self.random.one_in(4) {
            return self.give_back(thread, held);
        }
        loop {
            let call = self.random.pick(&CALLS);
            let object = match call {
                PARK => 0,
                UNPARK => self.unparked(),
                _ => self.random.below(OBJECTS as u8),
            };
            if self.leads_on(thread, held, call, object) {
                return Record { object, ..of_thread(BEGIN, call, thread) };
            }
        }
    }

    fn give_back(&mut self, thread: u8, held: u32) -> Record {
        let lock = self.random.bit(held);
        let begin = |call, object| Record { object, ..of_thread(BEGIN, call, thread) };
        if lock < OBJECTS as u8 {
            let alone = held == 1 << lock;
            if alone && self.may_wait_for_a_signal(thread) && self.random.one_in(4) {
                let condvar = self.random.below(OBJECTS as u8);
                return Record { value: lock.into(), ..begin(CONDVAR_WAIT, condvar) };
            }
            return begin(UNLOCK, lock);
        }
        let lock = lock - OBJECTS as u8;
        if !self.world.rwlock(lock).is_written_by(thread) {
            begin(READ_UNLOCK, lock)
        } else if self.random.one_in(3) {
            begin(DOWNGRADE, lock)
        } else {
            begin(WRITE_UNLOCK, lock)
        }
    }

    /// A bit for each lock that a thread holds, mutexes before RwLocks.
    fn held(&self, thread: u8) -> u32 {
        let mut held = 0;
        for object in 0..OBJECTS as u8 {
            let lock = self.world.rwlock(object);
            let rwlock = lock.is_read_by(thread) || lock.is_written_by(thread);
            held |= u32::from(self.world.mutex(object).is_held_by(thread)) << object;
            held |= u32::from(rwlock) << (OBJECTS as u8 + object);
        }
        held
    }

    /// Whether the call leads to no standstill: who holds locks waits only for one
    /// that comes after them all, so that there is no ring of waiters.
    fn leads_on(&self, thread: u8, held: u32, call: u8, object: u8) -> bool {
        let comes_after = |lock: u8| held >> lock == 0;
        match call {
            LOCK => comes_after(object),
            READ => comes_after(OBJECTS as u8 + object) || object == FULL_LOCK,
            WRITE => comes_after(OBJECTS as u8 + object) && object != FULL_LOCK,
            ONCE_CALL | ONCE_CALL_IGNORING => held == 0,
            ONCE_WAIT_IGNORING if !self.world.once(object).is_completed() => {
                held == 0 && thread >= PATIENT
            }
            ONCE_WAIT | ONCE_WAIT_IGNORING | PARK => {
                held == 0 && self.may_wait_for_a_signal(thread)
            }
            _ => true,
        }
    }

    /// Some others must be awake to give it, and thread 0 never waits for one.
    fn may_wait_for_a_signal(&self, thread: u8) -> bool {
        thread != 0 && self.world.sleepers().bits().count_ones() < THREADS as u32 * 3 / 4
    }

    /// Mostly a thread that sleeps, perhaps in its park.
    fn unparked(&mut self) -> u8 {
        let asleep = self.world.sleepers().bits();
        if asleep != 0 && !self.random.one_in(4) {
            self.random.bit(asleep)
        } else {
            self.random.below(THREADS as u8)
        }
    }

    /// A record that is likely to be refused. A call that it begins waits for nothing.
    fn unfitting(&mut self) -> Record {
        let thread = self.random.below(THREADS as u8);
        let object = self.random.below(OBJECTS as u8);
        let call = self.random.pick(&NEVER_WAIT);
        let begin = Record { object, ..of_thread(BEGIN, call, thread) };
        match self.random.below(10) {
            0 => set(self.random.pick(&[WRITER_NOTIFY, CONDVAR]), object, 0),
            1 => begin,
            2 => Record { thread: thread + 32, ..begin },
            3 => Record { object: object + 32, ..begin },
            4 => Record { value: self.random.word() | 1, ..begin },
            5 => Record { choice: 20, ..begin },
            6 => of_thread(STEP, 0, thread),
            7 => of_thread(STEP, 1, thread),
            8 => of_thread(WAKE, 0, thread),
            _ => of_thread(CLOSE, PANICKED, thread),
        }
    }
}

impl Iterator for Log {
    type Item = Record;

    /// There always is one.
    fn next(&mut self) -> Option<Record> {
        let record = match self.sets.next() {
            Some(set) => set,
            None if self.random.one_in(100) => self.unfitting(),
            None => self.fitting(),
        };
        // A refused record changes nothing, so either outcome will do.
        let _ = self.world.act(record);
        Some(record)
    }
}

fn of_thread(act: u8, choice: u8, thread: u8) -> Record {
    Record { act, choice, thread, ..Record::default() }
}

fn set(choice: u8, object: u8, value: u32) -> Record {
    Record { act: SET, choice, object, value, ..Record::default() }
}

/// The calls that an idle thread begins, the more often listed the more often.
const CALLS: [u8; 24] = [
    LOCK,
    LOCK,
    LOCK,
    TRY_LOCK,
    READ,
    READ,
    READ,
    TRY_READ,
    WRITE,
    WRITE,
    TRY_WRITE,
    NOTIFY_ONE,
    NOTIFY_ONE,
    NOTIFY_ALL,
    ONCE_CALL,
    ONCE_CALL_IGNORING,
    ONCE_CALL_IGNORING,
    ONCE_WAIT,
    ONCE_WAIT_IGNORING,
    IS_COMPLETED,
    PARK,
    UNPARK,
    UNPARK,
    UNPARK,
];

const NEVER_WAIT: [u8; 11] = [
    TRY_LOCK,
    UNLOCK,
    TRY_READ,
    READ_UNLOCK,
    TRY_WRITE,
    WRITE_UNLOCK,
    DOWNGRADE,
    NOTIFY_ONE,
    NOTIFY_ALL,
    IS_COMPLETED,
    UNPARK,
];
