//! Who holds what, read off the words as the calls change them.

use std::fmt;

use crate::calls::{Call, Kind};
use crate::yard::{Name, OBJECTS, THREADS};

const MASK: u32 = 0x3FFF_FFFF;

#[derive(Clone, Debug, PartialEq, Eq)]
pub struct Holds {
    mutex: [Option<usize>; OBJECTS],
    write: [Option<usize>; OBJECTS],
    read: [[u32; THREADS]; OBJECTS],
    /// Reads that were set and are nobody's.
    forgotten: [u32; OBJECTS],
}

impl Holds {
    pub fn none() -> Holds {
        Holds {
            mutex: [None; OBJECTS],
            write: [None; OBJECTS],
            read: [[0; THREADS]; OBJECTS],
            forgotten: [0; OBJECTS],
        }
    }

    pub fn forget(&mut self, lock: usize, reads: u32) {
        self.forgotten[lock] = reads;
    }

    pub fn forgotten(&self, lock: usize) -> u32 {
        self.forgotten[lock]
    }

    pub fn mutex(&self, thread: usize, mutex: usize) -> bool {
        self.mutex[mutex] == Some(thread)
    }

    pub fn write(&self, thread: usize, lock: usize) -> bool {
        self.write[lock] == Some(thread)
    }

    pub fn read(&self, thread: usize, lock: usize) -> bool {
        self.read[lock][thread] > 0
    }

    /// Whether the thread has the hold that the call gives back or turns.
    pub fn allow(&self, thread: usize, call: Call, object: usize, mutex: usize) -> bool {
        match call {
            Call::Unlock => self.mutex(thread, object),
            Call::CondvarWait => self.mutex(thread, mutex),
            Call::ReadUnlock => self.read(thread, object),
            Call::WriteUnlock | Call::Downgrade => self.write(thread, object),
            _ => true,
        }
    }

    /// Follows a change of a word by a call of the thread.
    pub fn follow(
        &mut self,
        thread: usize,
        call: Call,
        word: Name,
        (before, after): (u32, u32),
    ) -> Result<(), String> {
        let Name { kind, index } = word;
        let followed = match kind {
            Kind::Mutex => follow_mutex(&mut self.mutex[index], thread, call, before, after),
            Kind::RwLock => {
                let (write, read) = (&mut self.write[index], &mut self.read[index][thread]);
                follow_rwlock(write, read, thread, call, before & MASK, after & MASK)
            }
            Kind::WriterNotify | Kind::Condvar | Kind::Once | Kind::Parker => Some(()),
        };
        followed.ok_or_else(|| format!("{call} changes {word} from {before:08X} to {after:08X}"))
    }
}

/// A mutex is held from where its word leaves 0 to where it reaches 0.
fn follow_mutex(
    holder: &mut Option<usize>,
    thread: usize,
    call: Call,
    before: u32,
    after: u32,
) -> Option<()> {
    match (call, before, after) {
        (_, 0, 0) => {}
        (Call::Lock | Call::TryLock | Call::CondvarWait, 0, _) => *holder = Some(thread),
        (Call::Unlock | Call::CondvarWait, _, 0) if *holder == Some(thread) => *holder = None,
        (_, 0, _) | (_, _, 0) => return None,
        _ => {}
    }
    Some(())
}

/// The same for the low 30 bits of an RwLock, which count the readers or are all
/// set for a writer.
fn follow_rwlock(
    writer: &mut Option<usize>,
    reads: &mut u32,
    thread: usize,
    call: Call,
    before: u32,
    after: u32,
) -> Option<()> {
    match (call, before, after) {
        _ if before == after => {}
        (Call::Write | Call::TryWrite, 0, MASK) => *writer = Some(thread),
        (Call::WriteUnlock, MASK, 0) if *writer == Some(thread) => *writer = None,
        (Call::Downgrade, MASK, 1) if *writer == Some(thread) => {
            *writer = None;
            *reads += 1;
        }
        (Call::Read | Call::TryRead, _, _) if after == before + 1 => *reads += 1,
        (Call::ReadUnlock, _, _) if before == after + 1 => *reads = reads.checked_sub(1)?,
        _ => return None,
    }
    Some(())
}

/// Only what is held: `mutex.0=3 write.1=4 read.2=5*1,6*2 forgotten.3=7`.
impl fmt::Display for Holds {
    fn fmt(&self, f: &mut fmt::Formatter<'_>) -> fmt::Result {
        for (what, holders) in [("mutex", &self.mutex), ("write", &self.write)] {
            for (index, holder) in holders.iter().enumerate() {
                if let Some(thread) = holder {
                    write!(f, " {what}.{index}={thread}")?;
                }
            }
        }
        for (lock, reads) in self.read.iter().enumerate() {
            let readers = reads.iter().enumerate().filter(|&(_, &count)| count > 0);
            let readers: Vec<_> =
                readers.map(|(thread, count)| format!("{thread}*{count}")).collect();
            if !readers.is_empty() {
                write!(f, " read.{lock}={}", readers.join(","))?;
            }
        }
        for (lock, reads) in self.forgotten.iter().enumerate().filter(|&(_, &reads)| reads > 0) {
            write!(f, " forgotten.{lock}={reads}")?;
        }
        Ok(())
    }
}
