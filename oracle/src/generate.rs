//! Makes schedules that are mostly accepted, by looking at the world that they
//! lead to.

use std::collections::VecDeque;

use crate::calls::{Call, Kind};
use crate::profiles::Profile;
use crate::random::Random;
use crate::records::{BEGIN, CLOSE, CLOSINGS, Record, SET, STEP, WAKE, number_of};
use crate::world::{Standing, World};
use crate::yard::{Name, OBJECTS};

pub struct Generator {
    random: Random,
    profile: &'static Profile,
    sets: VecDeque<Record>,
    /// A thread that is stepped on, and how often still.
    run: Option<(usize, usize)>,
    /// Records that are still to come before standstills are risked.
    careful: usize,
    /// One in so many closures returns. A Once that is complete stays so, and no
    /// more comes of it, so in a long schedule it has to last longer.
    returning: usize,
}

/// A call to begin.
#[derive(Clone, Copy)]
struct Begin {
    call: Call,
    object: usize,
    mutex: usize,
}

impl Generator {
    pub fn new(profile: &'static Profile, seed: u64, count: usize) -> Generator {
        let mut random = Random::new(profile.name, seed);
        let sets = (profile.sets)(&mut random).into();
        let (careful, returning) = (count - count / 16, 10 + count / 50);
        Generator { random, profile, sets, run: None, careful, returning }
    }

    pub fn next(&mut self, world: &World) -> Record {
        self.careful = self.careful.saturating_sub(1);
        let record = match self.sets.pop_front() {
            Some(set) => set,
            None if self.random.one_in(60) => self.any(),
            None => self.fitting(world),
        };
        if self.profile.damaged && self.random.one_in(6) { self.damage(record) } else { record }
    }

    /// Bytes after the records of a damaged schedule: too few for a record, or a
    /// record with a bad mark and another.
    pub fn damaged_end(&mut self) -> Vec<u8> {
        let mut bytes = [self.any().to_bytes(), self.any().to_bytes()].concat();
        if self.random.one_in(2) {
            bytes.truncate(1 + self.random.below(9));
        } else {
            let place = self.random.below(2);
            bytes[place] ^= 1 << self.random.below(8);
        }
        bytes
    }

    /// A record that the world is likely to accept.
    fn fitting(&mut self, world: &World) -> Record {
        if let Some((thread, left)) = self.run.take()
            && left > 0
            && let Standing::Asks { op, .. } = world.standing(thread)
        {
            self.run = Some((thread, left - 1));
            return self.step(thread, op.is_weak());
        }
        let thread = self.thread(world);
        match world.standing(thread) {
            Standing::Idle => self.begin(world, thread),
            Standing::Asks { op, .. } => {
                self.run = Some((thread, self.run_length()));
                self.step(thread, op.is_weak())
            }
            Standing::Asleep { .. } => record(WAKE, 0, thread),
            Standing::Closure { .. } => self.in_closure(thread),
        }
    }

    fn in_closure(&mut self, thread: usize) -> Record {
        match self.random.below(20) {
            0..2 => record(STEP, self.random.pick(&[0, 1]), thread),
            2 => record(WAKE, 0, thread),
            _ if self.random.one_in(self.returning) => record(CLOSE, 0, thread),
            _ => record(CLOSE, self.random.pick(&[1, 2]), thread),
        }
    }

    /// Somebody who is awake, or, now and then, a sleeper to be woken.
    fn thread(&mut self, world: &World) -> usize {
        let asleep = |thread| matches!(world.standing(thread), Standing::Asleep { .. });
        let mut thread = self.random.below(self.profile.threads);
        for _ in 0..4 * self.profile.threads {
            if !asleep(thread) || self.random.one_in(100) {
                break;
            }
            thread = self.random.below(self.profile.threads);
        }
        thread
    }

    /// Short runs interleave calls closely; only long ones get past the spins.
    fn run_length(&mut self) -> usize {
        match self.random.below(10) {
            0..5 => 0,
            5..8 => self.random.below(6),
            8 => self.random.below(40),
            _ => 120,
        }
    }

    fn step(&mut self, thread: usize, weak: bool) -> Record {
        let fails = self.random.one_in(if weak { 4 } else { 100 });
        record(STEP, u8::from(fails), thread)
    }

    /// Begins a call. Who holds something mostly gives it back.
    fn begin(&mut self, world: &World, thread: usize) -> Record {
        let back = self.gives_back(world, thread);
        if !back.is_empty() && !self.random.one_in(4) {
            return begin(thread, self.random.pick(&back));
        }
        for _ in 0..20 {
            let chosen = self.any_begin();
            let reckless = self.careful == 0 && self.random.one_in(50);
            if reckless || self.is_sensible(world, thread, chosen) {
                return begin(thread, chosen);
            }
        }
        let harmless = Begin { call: self.random.pick(&NEVER_WAIT), object: 0, mutex: 0 };
        begin(thread, harmless)
    }

    fn any_begin(&mut self) -> Begin {
        let call = self.random.pick(self.profile.calls);
        let objects = match call {
            Call::Unpark => self.profile.threads,
            _ => self.profile.objects,
        };
        let object = self.random.below(objects);
        Begin { call, object, mutex: self.random.below(self.profile.objects) }
    }

    /// The calls that give back or turn what the thread holds.
    fn gives_back(&mut self, world: &World, thread: usize) -> Vec<Begin> {
        let mut back = Vec::new();
        for object in 0..self.profile.objects {
            let calls = [Call::Unlock, Call::ReadUnlock, Call::WriteUnlock, Call::Downgrade];
            back.extend(calls.map(|call| Begin { call, object, mutex: 0 }));
            if self.profile.calls.contains(&Call::CondvarWait) {
                let condvar = self.random.below(self.profile.objects);
                back.push(Begin { call: Call::CondvarWait, object: condvar, mutex: object });
            }
        }
        back.retain(|&begin| {
            world.holds().allow(thread, begin.call, begin.object, begin.mutex)
                && self.is_sensible(world, thread, begin)
        });
        back
    }

    /// Whether the call is allowed and leads to no standstill. Who holds a lock
    /// waits only for locks that come after it, so that no ring of waiters comes
    /// about, and nobody waits where forgotten reads never go away.
    fn is_sensible(&self, world: &World, thread: usize, begin: Begin) -> bool {
        let Begin { call, object, mutex } = begin;
        let held = held(world, thread);
        let after_all_held = |lock: usize| held.iter().all(|&held| held < lock);
        match call {
            Call::Lock => after_all_held(object),
            Call::Read => after_all_held(OBJECTS + object) || is_for_readers_only(world, object),
            Call::Write => after_all_held(OBJECTS + object) && world.holds().forgotten(object) == 0,
            Call::CondvarWait => held == [mutex] && self.somebody_is_left(world, thread),
            Call::Park | Call::OnceWait | Call::OnceWaitIgnoring => {
                held.is_empty() && self.somebody_is_left(world, thread)
            }
            Call::OnceCall | Call::OnceCallIgnoring => held.is_empty(),
            _ => true,
        }
    }

    /// Whether enough others are awake to give the signal that a thread waits
    /// for. Thread 0 never waits for one.
    fn somebody_is_left(&self, world: &World, thread: usize) -> bool {
        let asleep = |&thread: &usize| matches!(world.standing(thread), Standing::Asleep { .. });
        let sleepers = (0..self.profile.threads).filter(asleep).count();
        thread != 0 && 2 * sleepers < self.profile.threads
    }

    /// A record of any kind. A call that it begins waits for nothing.
    fn any(&mut self) -> Record {
        let act = self.random.pick(&[SET, BEGIN, STEP, WAKE, CLOSE]);
        let choice = match act {
            SET => self.random.below(4) as u8,
            BEGIN => number_of(self.random.pick(&NEVER_WAIT)),
            STEP => self.random.below(2) as u8,
            WAKE => 0,
            _ => self.random.below(CLOSINGS.len()) as u8,
        };
        let thread = self.random.below(self.profile.threads) as u8;
        let object = self.random.below(self.profile.objects) as u8;
        let value = self.random.below(OBJECTS) as u32;
        match act {
            SET => Record { act, choice, thread: 0, object, value },
            BEGIN => Record { act, choice, thread, object, value: 0 },
            _ => Record { act, choice, thread, object: 0, value: 0 },
        }
    }

    /// The record with one field changed. Where a call begins this way, it is
    /// hardly ever another one than was chosen.
    fn damage(&mut self, mut record: Record) -> Record {
        let value = self.random.word();
        match self.random.below(5) {
            0 => record.act = self.random.pick(&[0, 1, 2, 3, 4, 5, 255]),
            1 => record.choice = self.random.pick(&[20, 21, 64, 255]),
            2 => record.thread = self.random.pick(&[32, 33, 64, 128, 255]),
            3 => record.object = self.random.pick(&[4, 5, 31, 32, 255]),
            _ => record.value = self.random.pick(&[1, 4, 0x0100_0000, 0x3FFF_FFFF, value]),
        }
        record
    }
}

fn record(act: u8, choice: u8, thread: usize) -> Record {
    Record { act, choice, thread: thread as u8, ..Record::default() }
}

fn begin(thread: usize, Begin { call, object, mutex }: Begin) -> Record {
    let object = if call == Call::Park { 0 } else { object as u8 };
    let value = if call == Call::CondvarWait { mutex as u32 } else { 0 };
    Record { object, value, ..record(BEGIN, number_of(call), thread) }
}

/// The locks that a thread holds, mutexes before RwLocks.
fn held(world: &World, thread: usize) -> Vec<usize> {
    let holds = world.holds();
    let mutexes = (0..OBJECTS).filter(|&mutex| holds.mutex(thread, mutex));
    let holds_rwlock = |&lock: &usize| holds.read(thread, lock) || holds.write(thread, lock);
    let rwlocks = (0..OBJECTS).filter(holds_rwlock).map(|lock| OBJECTS + lock);
    mutexes.chain(rwlocks).collect()
}

/// Forgotten reads keep writers out, and where none waits no reader has to.
fn is_for_readers_only(world: &World, lock: usize) -> bool {
    let flags = world.word(Name { kind: Kind::RwLock, index: lock }) & 0xC000_0000;
    world.holds().forgotten(lock) > 0 && flags == 0
}

const NEVER_WAIT: [Call; 11] = [
    Call::TryLock,
    Call::Unlock,
    Call::TryRead,
    Call::ReadUnlock,
    Call::TryWrite,
    Call::WriteUnlock,
    Call::Downgrade,
    Call::NotifyOne,
    Call::NotifyAll,
    Call::IsCompleted,
    Call::Unpark,
];
