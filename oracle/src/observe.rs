//! Names the position that a call has reached, by what the real code asks for
//! next and, where that is not enough, by what it does when it is answered this
//! way or that. Nothing here knows what a step ought to do.

use crate::calls::{Call, Kind};
use crate::driver::Op;
use crate::script::{Answer, End, Trace, run};

/// A call that has had some answers.
#[derive(Clone, Debug)]
pub struct Begun {
    pub call: Call,
    pub answers: Vec<Answer>,
}

impl Begun {
    pub fn then(&self, answer: Answer) -> Begun {
        self.with(&[answer])
    }

    fn with(&self, further: &[Answer]) -> Begun {
        Begun { call: self.call, answers: [&self.answers, further].concat() }
    }

    pub fn trace(&self) -> Trace {
        let trace = run(self.call, &self.answers);
        assert_eq!(trace.unread, 0, "{self:?} ended too soon");
        trace
    }

    pub fn end(&self) -> End {
        self.trace().end
    }

    /// What it asks for once it had this answer too.
    fn asks_after(&self, answer: Answer) -> Op {
        match self.then(answer).end() {
            End::Asks(_, op) => op,
            end => panic!("{self:?} has {end:?} after {answer:?}"),
        }
    }

    /// The name of the position.
    pub fn position(&self) -> String {
        let place = match self.end() {
            End::Closure => "closure".to_string(),
            End::Asks(kind, op) => self.place(kind, op),
            end => panic!("{self:?} is over: {end:?}"),
        };
        format!("{} {place}", self.call)
    }

    fn place(&self, kind: Kind, op: Op) -> String {
        let place = match self.call {
            Call::Lock => lock(self, op),
            Call::CondvarWait => condvar_wait(self, kind, op),
            Call::OnceCall | Call::OnceCallIgnoring => once_call(self, op),
            Call::OnceWait | Call::OnceWaitIgnoring => once_wait(self, op),
            Call::Read => read(self, op),
            Call::Write => write(self, kind, op),
            Call::TryRead | Call::TryWrite => try_lock(op),
            Call::ReadUnlock | Call::WriteUnlock => rwlock_unlock(self, op),
            Call::Downgrade => downgrade(op),
            Call::TryLock | Call::Unlock | Call::Park | Call::Unpark => plain(op),
            Call::NotifyOne | Call::NotifyAll | Call::IsCompleted => plain(op),
        };
        place.unwrap_or_else(|| panic!("{self:?} asks for {op:?} of {kind}, which has no name"))
    }
}

pub fn word(word: u32) -> Answer {
    Answer::Word { word, fails: false, asleep: false }
}

pub fn fails(word: u32) -> Answer {
    Answer::Word { word, fails: true, asleep: false }
}

pub fn somebody(word: u32) -> Answer {
    Answer::Word { word, fails: false, asleep: true }
}

/// Where each operation stands once in a call and carries nothing.
fn plain(op: Op) -> Option<String> {
    let place = match op {
        Op::Load => "load",
        Op::Swap { .. } => "swap",
        Op::Exchange { .. } => "exchange",
        Op::Add { .. } => "add",
        Op::Sub { .. } => "subtract",
        Op::Wait { .. } => "wait",
        Op::Wake | Op::WakeAll => "wake",
    };
    Some(place.to_string())
}

fn with_spins(place: &str, loads: usize) -> Option<String> {
    Some(format!("{place} {}", loads - 1))
}

fn with_value(place: &str, value: u32) -> Option<String> {
    Some(format!("{place} {value:08X}"))
}

/// How often the word is loaded in a row while it stays as it is.
fn loads(begun: &Begun, unchanged: u32) -> usize {
    // More than any spin takes, so that the row ends by itself.
    let trace = run(begun.call, &begun.with(&[word(unchanged); 200]).answers);
    trace.steps[begun.trace().steps.len()..].iter().take_while(|step| step.op == Op::Load).count()
}

/// The mutex's lock. The two exchanges are told apart by what follows when they
/// fail, the two spins by what follows when they find the mutex free.
fn lock(begun: &Begun, op: Op) -> Option<String> {
    match op {
        Op::Exchange { expected: 0, new: 1, weak: false } => match begun.asks_after(word(1)) {
            Op::Load => Some("exchange".to_string()),
            Op::Swap { new: 2 } => Some("exchange-again".to_string()),
            _ => None,
        },
        Op::Load => match begun.asks_after(word(0)) {
            Op::Exchange { .. } => with_spins("spin", loads(begun, 1)),
            Op::Swap { new: 2 } => with_spins("spin-again", loads(begun, 1)),
            _ => None,
        },
        Op::Swap { new: 2 } => Some("swap".to_string()),
        Op::Wait { expected: 2 } => Some("wait".to_string()),
        _ => None,
    }
}

/// A condition variable's wait. The sequence carried is what it waits for later.
fn condvar_wait(begun: &Begun, kind: Kind, op: Op) -> Option<String> {
    let carried = |place| match begun.asks_after(word(0)) {
        Op::Wait { expected } => with_value(place, expected),
        _ => None,
    };
    match (kind, op) {
        (Kind::Condvar, Op::Load) => Some("load".to_string()),
        (Kind::Mutex, Op::Swap { new: 0 }) => carried("unlock swap"),
        (Kind::Mutex, Op::Wake) => carried("unlock wake"),
        (Kind::Condvar, Op::Wait { expected }) => with_value("wait", expected),
        (Kind::Mutex, op) => lock(begun, op).map(|place| format!("relock {place}")),
        _ => None,
    }
}

/// Once's call. The exchange that begins to run and the one that queues are told
/// apart by what their success leads to, the ends by how the call ends.
fn once_call(begun: &Begun, op: Op) -> Option<String> {
    match op {
        Op::Exchange { expected, weak: true, .. }
            if begun.then(word(expected)).end() == End::Closure =>
        {
            with_value("exchange-running", expected)
        }
        Op::Swap { new } => {
            let how = match (new, begun.then(word(0)).end()) {
                (0, End::Returned(_)) => "returned",
                (2, End::Returned(_)) => "poisoned",
                (2, End::Panicked(3)) => "panicked",
                _ => return None,
            };
            Some(format!("swap {how}"))
        }
        Op::WakeAll => match begun.then(word(0)).end() {
            End::Returned(_) => Some("wake-all".to_string()),
            End::Panicked(3) => Some("wake-all panicking".to_string()),
            _ => None,
        },
        op => once_wait(begun, op),
    }
}

/// Once's wait, and what a call that finds another one running does. The value
/// that it queues on lacks QUEUED (4), which the exchange adds.
fn once_wait(begun: &Begun, op: Op) -> Option<String> {
    match op {
        Op::Load => Some("load".to_string()),
        Op::Exchange { expected, new, weak: true } => match begun.asks_after(word(expected)) {
            Op::Wait { expected } if expected == new => {
                with_value("exchange-queued", new.wrapping_sub(4))
            }
            _ => None,
        },
        Op::Wait { expected } => with_value("wait", expected),
        _ => None,
    }
}

const WRITE_LOCKED: u32 = 0x3FFF_FFFF;

/// The RwLock's read. Only the first load and the first exchange lead to a spin.
fn read(begun: &Begun, op: Op) -> Option<String> {
    match op {
        Op::Load => {
            let exchange = begun.then(word(0));
            if exchange.asks_after(fails(WRITE_LOCKED)) == Op::Load {
                Some("load".to_string())
            } else {
                with_spins(&slept("spin", begun, word)?, loads(begun, WRITE_LOCKED))
            }
        }
        Op::Exchange { expected, weak: true, .. } => {
            if begun.asks_after(fails(WRITE_LOCKED)) == Op::Load {
                with_value("exchange", expected)
            } else {
                with_value(&slept("exchange-contended", begun, fails)?, expected)
            }
        }
        Op::Exchange { expected, weak: false, .. } => {
            let differs = |readers| if readers == expected { readers + 1 } else { readers };
            let place = slept("set-waiting", begun, |readers| word(differs(readers)))?;
            with_value(&place, expected)
        }
        Op::Wait { expected } => with_value("wait", expected),
        _ => None,
    }
}

/// Whether a reader has slept: then it may join readers past a waiting writer,
/// when it sees them. `sees` is the answer by which it does, here.
fn slept(place: &str, begun: &Begun, sees: impl Fn(u32) -> Answer) -> Option<String> {
    match begun.asks_after(sees(0x8000_0001)) {
        Op::Exchange { weak: true, .. } => Some(format!("{place} slept")),
        Op::Exchange { weak: false, .. } => Some(place.to_string()),
        _ => None,
    }
}

/// The RwLock's write. Only the first exchange leads to a spin; a load of the
/// state that finds readers and waiting writers leads to the wait at once, or,
/// from a spin, to the sequence first.
fn write(begun: &Begun, kind: Kind, op: Op) -> Option<String> {
    match (kind, op) {
        (Kind::RwLock, Op::Exchange { expected, weak: true, .. }) => {
            if begun.asks_after(fails(0)) == Op::Load {
                Some("exchange".to_string())
            } else {
                with_value(&others("exchange-contended", begun, fails)?, expected)
            }
        }
        (Kind::RwLock, Op::Load) => match begun.asks_after(word(0x8000_0001)) {
            Op::Wait { expected } => with_value("load-state", expected),
            Op::Load => with_spins(&others("spin", begun, word)?, loads(begun, 1)),
            _ => None,
        },
        (Kind::RwLock, Op::Exchange { expected, weak: false, .. }) => {
            with_value(&others("set-waiting", begun, word)?, expected)
        }
        (Kind::WriterNotify, Op::Load) => Some("load-sequence".to_string()),
        (Kind::WriterNotify, Op::Wait { expected }) => with_value("wait", expected),
        _ => None,
    }
}

/// Whether a writer supposes that others wait: then it keeps their flag when it
/// takes a free lock. `sees` is the answer by which it sees one, here.
fn others(place: &str, begun: &Begun, sees: impl Fn(u32) -> Answer) -> Option<String> {
    match begun.asks_after(sees(0)) {
        Op::Exchange { expected: 0, new: 0xBFFF_FFFF, .. } => Some(format!("{place} others")),
        Op::Exchange { expected: 0, new: WRITE_LOCKED, .. } => Some(place.to_string()),
        _ => None,
    }
}

fn try_lock(op: Op) -> Option<String> {
    match op {
        Op::Load => Some("load".to_string()),
        Op::Exchange { expected, weak: true, .. } => with_value("exchange", expected),
        _ => None,
    }
}

/// Both unlocks of the RwLock. Whether readers wait besides the writer is seen
/// where nobody was there to be woken: the call ends, or goes on to the readers.
fn rwlock_unlock(begun: &Begun, op: Op) -> Option<String> {
    const READERS: u32 = 0x4000_0000;
    const WRITERS: u32 = 0x8000_0000;
    const BOTH: u32 = 0xC000_0000;

    let both = |place: &str, end| match end {
        End::Returned(_) => Some(place.to_string()),
        End::Asks(..) => Some(format!("{place} both")),
        _ => None,
    };
    let place = match op {
        Op::Sub { .. } => "subtract",
        Op::Exchange { expected: WRITERS, new: 0, weak: false } => "exchange-writers",
        Op::Exchange { expected: BOTH, new: READERS, weak: false } => "exchange-both",
        Op::Exchange { expected: READERS, new: 0, weak: false } => "exchange-readers",
        Op::Add { n: 1 } => return both("notify", begun.with(&[word(0), word(0)]).end()),
        Op::Wake => return both("wake-writer", begun.then(word(0)).end()),
        Op::WakeAll => "wake-readers",
        _ => return None,
    };
    Some(place.to_string())
}

fn downgrade(op: Op) -> Option<String> {
    match op {
        Op::WakeAll => Some("wake-readers".to_string()),
        op => plain(op),
    }
}
