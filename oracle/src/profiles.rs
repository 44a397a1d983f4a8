//! What schedules are made of: who takes part, in which calls, and with what the
//! words begin.

use crate::calls::Call;
use crate::random::Random;
use crate::records::{Record, SET};
use crate::yard::{OBJECTS, THREADS};

pub struct Profile {
    pub name: &'static str,
    /// How many threads and how many objects of each kind take part.
    pub threads: usize,
    pub objects: usize,
    /// Picked from, so one that stands here twice comes twice as often.
    pub calls: &'static [Call],
    /// The set acts at the start.
    pub sets: fn(&mut Random) -> Vec<Record>,
    /// Whether every few records are damaged.
    pub damaged: bool,
}

pub const PROFILES: [Profile; 8] = [
    Profile {
        name: "mixed",
        threads: THREADS,
        objects: OBJECTS,
        calls: &EVERY_CALL,
        sets: near_the_wraps,
        damaged: false,
    },
    Profile {
        name: "mutex",
        threads: 5,
        objects: 1,
        calls: &[Call::Lock, Call::Lock, Call::Lock, Call::TryLock],
        sets: nothing,
        damaged: false,
    },
    Profile {
        name: "rwlock",
        threads: 6,
        objects: 1,
        calls: &RWLOCK_CALLS,
        sets: near_the_wraps,
        damaged: false,
    },
    Profile {
        name: "readers",
        threads: 7,
        objects: 2,
        calls: &RWLOCK_CALLS,
        sets: near_the_most,
        damaged: false,
    },
    Profile {
        name: "once",
        threads: 6,
        objects: OBJECTS,
        calls: &[
            Call::OnceCall,
            Call::OnceCall,
            Call::OnceCallIgnoring,
            Call::OnceCallIgnoring,
            Call::OnceWait,
            Call::OnceWaitIgnoring,
            Call::IsCompleted,
        ],
        sets: sometimes_complete,
        damaged: false,
    },
    Profile {
        name: "park",
        threads: 4,
        objects: OBJECTS,
        calls: &[Call::Park, Call::Unpark],
        sets: nothing,
        damaged: false,
    },
    Profile {
        name: "condvar",
        threads: 6,
        objects: 2,
        calls: &[
            Call::Lock,
            Call::Lock,
            Call::Lock,
            Call::TryLock,
            Call::CondvarWait,
            Call::NotifyOne,
            Call::NotifyAll,
        ],
        sets: near_the_wraps,
        damaged: false,
    },
    Profile {
        name: "damaged",
        threads: 8,
        objects: 2,
        calls: &EVERY_CALL,
        sets: near_the_most,
        damaged: true,
    },
];

/// Calls that need a hold come by themselves, to whoever has it.
const EVERY_CALL: [Call; 17] = [
    Call::Lock,
    Call::TryLock,
    Call::Read,
    Call::Read,
    Call::TryRead,
    Call::Write,
    Call::TryWrite,
    Call::CondvarWait,
    Call::NotifyOne,
    Call::NotifyAll,
    Call::OnceCall,
    Call::OnceCallIgnoring,
    Call::OnceWait,
    Call::OnceWaitIgnoring,
    Call::IsCompleted,
    Call::Park,
    Call::Unpark,
];

const RWLOCK_CALLS: [Call; 7] =
    [Call::Read, Call::Read, Call::Read, Call::TryRead, Call::Write, Call::Write, Call::TryWrite];

const FORGOTTEN: u8 = 0;
const WRITER_NOTIFY: u8 = 1;
const CONDVAR: u8 = 2;
const COMPLETE: u8 = 3;

fn set(choice: u8, object: usize, value: u32) -> Record {
    Record { act: SET, choice, thread: 0, object: object as u8, value }
}

fn nothing(_: &mut Random) -> Vec<Record> {
    Vec::new()
}

/// Sequences that wrap after a few notifications.
fn near_the_wraps(random: &mut Random) -> Vec<Record> {
    let mut sets = Vec::new();
    for object in 0..OBJECTS {
        for choice in [WRITER_NOTIFY, CONDVAR] {
            let before = random.below(6) as u32;
            sets.push(set(choice, object, u32::MAX - before));
        }
    }
    sets
}

/// Lock 0 with almost as many readers as there may be, all of them forgotten.
fn near_the_most(random: &mut Random) -> Vec<Record> {
    let mut sets = near_the_wraps(random);
    let room = random.below(5) as u32;
    sets.push(set(FORGOTTEN, 0, 0x3FFF_FFFE - room));
    sets
}

fn sometimes_complete(random: &mut Random) -> Vec<Record> {
    if random.one_in(2) { vec![set(COMPLETE, 0, 0)] } else { Vec::new() }
}
