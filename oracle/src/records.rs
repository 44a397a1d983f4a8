//! Records: ten bytes each, what they ask for, and the refusals that need no
//! world. The numbers are document 01's.

use std::io::{self, Read};

use crate::calls::Call;
use crate::closing::Closing;
use crate::yard::{OBJECTS, THREADS};

pub const LENGTH: usize = 10;
pub const MARK: [u8; 2] = [0xB1, 0x6B];

/// The numbers of the acts.
pub const SET: u8 = 0;
pub const BEGIN: u8 = 1;
pub const STEP: u8 = 2;
pub const WAKE: u8 = 3;
pub const CLOSE: u8 = 4;

/// The calls by their numbers.
pub const CALLS: [Call; 20] = [
    Call::Lock,
    Call::TryLock,
    Call::Unlock,
    Call::Read,
    Call::TryRead,
    Call::ReadUnlock,
    Call::Write,
    Call::TryWrite,
    Call::WriteUnlock,
    Call::Downgrade,
    Call::CondvarWait,
    Call::NotifyOne,
    Call::NotifyAll,
    Call::OnceCall,
    Call::OnceCallIgnoring,
    Call::OnceWait,
    Call::OnceWaitIgnoring,
    Call::IsCompleted,
    Call::Park,
    Call::Unpark,
];

/// The ends of a closure by their numbers.
pub const CLOSINGS: [Closing; 3] = [Closing::Returned, Closing::Poisoned, Closing::Panicked];

/// The number of a call.
pub fn number_of(call: Call) -> u8 {
    let place = CALLS.iter().position(|&listed| listed == call);
    place.expect("every call is listed") as u8
}

#[derive(Clone, Copy, Debug, PartialEq, Eq)]
pub enum Refusal {
    Unknown = 1,
    NoSuchThread = 2,
    NoSuchObject = 3,
    InsideCall = 4,
    Idle = 5,
    Asleep = 6,
    Awake = 7,
    NoWeakExchange = 8,
    NoHold = 9,
    InsideClosure = 10,
    OutsideClosure = 11,
    Started = 12,
    OutOfRange = 13,
    BadMark = 20,
    BytesLeft = 21,
}

/// The fields of a record, whatever they are.
#[derive(Clone, Copy, Debug, Default, PartialEq, Eq)]
pub struct Record {
    pub act: u8,
    pub choice: u8,
    pub thread: u8,
    pub object: u8,
    pub value: u32,
}

/// What a record asks for, once all that it names is known to exist.
#[derive(Clone, Copy, Debug, PartialEq, Eq)]
pub enum Act {
    Set(Setting),
    /// `mutex` is the one that a condition variable's wait unlocks.
    Begin {
        thread: usize,
        call: Call,
        object: usize,
        mutex: usize,
    },
    Step {
        thread: usize,
        fails: bool,
    },
    Wake {
        thread: usize,
    },
    Close {
        thread: usize,
        closing: Closing,
    },
}

#[derive(Clone, Copy, Debug, PartialEq, Eq)]
pub enum Setting {
    Forgotten { lock: usize, reads: u32 },
    WriterNotify { lock: usize, word: u32 },
    Condvar { condvar: usize, word: u32 },
    Complete { once: usize },
}

impl Record {
    pub fn from_bytes(bytes: &[u8; LENGTH]) -> Result<Record, Refusal> {
        match *bytes {
            [mark_0, mark_1, act, choice, thread, object, v0, v1, v2, v3]
                if [mark_0, mark_1] == MARK =>
            {
                let value = u32::from_le_bytes([v0, v1, v2, v3]);
                Ok(Record { act, choice, thread, object, value })
            }
            _ => Err(Refusal::BadMark),
        }
    }

    pub fn to_bytes(self) -> [u8; LENGTH] {
        let Record { act, choice, thread, object, value } = self;
        let [mark_0, mark_1] = MARK;
        let [v0, v1, v2, v3] = value.to_le_bytes();
        [mark_0, mark_1, act, choice, thread, object, v0, v1, v2, v3]
    }

    /// What is asked for. The checks stand in the order in which they refuse:
    /// act, choice, thread, fields that are not named, object.
    pub fn act(self) -> Result<Act, Refusal> {
        let named = self.named()?;
        if named.thread && usize::from(self.thread) >= THREADS {
            return Err(Refusal::NoSuchThread);
        }
        let unnamed_is_0 = (named.thread || self.thread == 0)
            && (named.object || self.object == 0)
            && (named.value || self.value == 0);
        if !unnamed_is_0 {
            return Err(Refusal::Unknown);
        }
        let objects = if self.unparks() { THREADS } else { OBJECTS };
        let no_mutex = self.waits_on_condvar() && self.value >= OBJECTS as u32;
        if usize::from(self.object) >= objects || no_mutex {
            return Err(Refusal::NoSuchObject);
        }
        Ok(self.checked())
    }

    /// Which fields the act names, where it and its choice are known.
    fn named(self) -> Result<Named, Refusal> {
        let call = || CALLS.get(usize::from(self.choice));
        match (self.act, self.choice) {
            (SET, 0..=2) => Ok(Named { thread: false, object: true, value: true }),
            (SET, 3) => Ok(Named { thread: false, object: true, value: false }),
            (BEGIN, _) => call().ok_or(Refusal::Unknown).map(|&call| Named {
                thread: true,
                object: call != Call::Park,
                value: call == Call::CondvarWait,
            }),
            (STEP, 0..=1) | (WAKE, 0) | (CLOSE, 0..=2) => {
                Ok(Named { thread: true, object: false, value: false })
            }
            _ => Err(Refusal::Unknown),
        }
    }

    fn unparks(self) -> bool {
        self.act == BEGIN && self.choice == number_of(Call::Unpark)
    }

    fn waits_on_condvar(self) -> bool {
        self.act == BEGIN && self.choice == number_of(Call::CondvarWait)
    }

    /// The act of a record that passed the checks.
    fn checked(self) -> Act {
        let Record { choice, value, .. } = self;
        let (thread, object) = (usize::from(self.thread), usize::from(self.object));
        match (self.act, choice) {
            (SET, 0) => Act::Set(Setting::Forgotten { lock: object, reads: value }),
            (SET, 1) => Act::Set(Setting::WriterNotify { lock: object, word: value }),
            (SET, 2) => Act::Set(Setting::Condvar { condvar: object, word: value }),
            (SET, _) => Act::Set(Setting::Complete { once: object }),
            (BEGIN, _) => {
                let call = CALLS[usize::from(choice)];
                Act::Begin { thread, call, object, mutex: value as usize }
            }
            (STEP, _) => Act::Step { thread, fails: choice == 1 },
            (WAKE, _) => Act::Wake { thread },
            (_, _) => Act::Close { thread, closing: CLOSINGS[usize::from(choice)] },
        }
    }
}

struct Named {
    thread: bool,
    object: bool,
    value: bool,
}

/// What comes next in a schedule.
pub enum Next {
    Record(Record),
    /// Nothing can be read from here on.
    Refused(Refusal),
    End,
}

/// Reads the next record. Bytes that are too few for one are refused as that,
/// whatever their mark is.
pub fn read(input: &mut impl Read) -> io::Result<Next> {
    let mut bytes = [0; LENGTH];
    let mut length = 0;
    while length < LENGTH {
        match input.read(&mut bytes[length..]) {
            Ok(0) if length == 0 => return Ok(Next::End),
            Ok(0) => return Ok(Next::Refused(Refusal::BytesLeft)),
            Ok(more) => length += more,
            Err(error) if error.kind() == io::ErrorKind::Interrupted => {}
            Err(error) => return Err(error),
        }
    }
    Ok(match Record::from_bytes(&bytes) {
        Ok(record) => Next::Record(record),
        Err(refusal) => Next::Refused(refusal),
    })
}
