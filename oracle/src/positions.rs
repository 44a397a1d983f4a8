//! The positions of the table, each with answers that lead the call to it.

use crate::calls::Call;
use crate::closing::Closing;
use crate::observe::{Begun, fails, word};
use crate::script::Answer;

pub struct Position {
    pub name: String,
    pub begun: Begun,
}

type Places = Vec<(String, Vec<Answer>)>;

pub fn positions() -> Vec<Position> {
    let mut positions = Vec::new();
    let mut add = |call: Call, places: Places| {
        positions.extend(places.into_iter().map(|(place, answers)| Position {
            name: format!("{call} {place}"),
            begun: Begun { call, answers },
        }));
    };
    add(Call::Lock, lock());
    add(Call::TryLock, vec![place("exchange", &[])]);
    add(Call::Unlock, vec![place("swap", &[]), place("wake", &[word(2)])]);
    add(Call::Park, park());
    add(Call::Unpark, vec![place("swap", &[]), place("wake", &[word(u32::MAX)])]);
    add(Call::CondvarWait, condvar_wait());
    add(Call::NotifyOne, vec![place("add", &[]), place("wake", &[word(0)])]);
    add(Call::NotifyAll, vec![place("add", &[]), place("wake", &[word(0)])]);
    add(Call::OnceCall, once_call(&[3, 7]));
    add(Call::OnceCallIgnoring, once_call(&[3, 7, 2, 6]));
    add(Call::OnceWait, once_wait(&[1, 3], &[5, 7]));
    add(Call::OnceWaitIgnoring, once_wait(&[1, 3, 2], &[5, 7, 6]));
    add(Call::IsCompleted, vec![place("load", &[])]);
    add(Call::Read, read());
    add(Call::TryRead, try_lock(&[0, 1, 0x3FFF_FFFD]));
    add(Call::Write, write());
    add(Call::TryWrite, try_lock(&[0, 0x4000_0000, 0xC000_0000]));
    add(Call::ReadUnlock, vec![place("subtract", &[])]);
    add(Call::WriteUnlock, vec![place("subtract", &[])]);
    add(Call::ReadUnlock, wake_writer_or_readers(1));
    add(Call::WriteUnlock, wake_writer_or_readers(WRITE_LOCKED));
    add(Call::Downgrade, downgrade());
    positions
}

const WRITE_LOCKED: u32 = 0x3FFF_FFFF;

fn place(name: &str, answers: &[Answer]) -> (String, Vec<Answer>) {
    (name.to_string(), answers.to_vec())
}

/// The place for each value carried, where these answers and then `last` of the
/// value lead to it.
fn carrying(name: &str, before: &[Answer], last: fn(u32) -> Answer, values: &[u32]) -> Places {
    let carried = |&value: &u32| (format!("{name} {value:08X}"), [before, &[last(value)]].concat());
    values.iter().map(carried).collect()
}

/// A spin at its start, one load before its last, and at its last. It goes on
/// while it sees `unchanged`.
fn spin(name: &str, before: &[Answer], unchanged: u32) -> Places {
    let spun = |left: usize| {
        (format!("{name} {left}"), [before, &vec![word(unchanged); 100 - left]].concat())
    };
    [100, 1, 0].map(spun).to_vec()
}

fn lock() -> Places {
    [
        vec![place("exchange", &[])],
        spin("spin", &[word(1)], 1),
        vec![
            place("exchange-again", &[word(1), word(0)]),
            place("swap", &[word(1), word(0), word(1)]),
            place("wait", &[word(1), word(2)]),
        ],
        spin("spin-again", &[word(1), word(2), word(2)], 1),
    ]
    .concat()
}

fn park() -> Places {
    vec![
        place("subtract", &[]),
        place("wait", &[word(0)]),
        place("exchange", &[word(0), word(u32::MAX)]),
    ]
}

fn condvar_wait() -> Places {
    let relock = |(name, answers): (String, Vec<Answer>)| {
        (format!("relock {name}"), [vec![word(0), word(1), word(0)], answers].concat())
    };
    let sequences = [0, u32::MAX];
    [
        vec![place("load", &[])],
        carrying("unlock swap", &[], word, &sequences),
        then(carrying("unlock wake", &[], word, &sequences), &[word(2)]),
        then(carrying("wait", &[], word, &sequences), &[word(1)]),
        lock().into_iter().map(relock).collect(),
    ]
    .concat()
}

/// These places reached with further answers.
fn then(places: Places, further: &[Answer]) -> Places {
    places.into_iter().map(|(name, answers)| (name, [&answers, further].concat())).collect()
}

fn once_call(runnable: &[u32]) -> Places {
    let closed = |closing| [word(3), word(3), Answer::Close(closing)];
    let queued = |closing| [&closed(closing)[..], &[word(5)]].concat();
    [
        vec![place("load", &[])],
        carrying("exchange-running", &[], word, runnable),
        vec![
            place("closure", &[word(3), word(3)]),
            place("swap returned", &closed(Closing::Returned)),
            place("swap poisoned", &closed(Closing::Poisoned)),
            place("swap panicked", &closed(Closing::Panicked)),
            place("wake-all", &queued(Closing::Returned)),
            place("wake-all panicking", &queued(Closing::Panicked)),
        ],
        carrying("exchange-queued", &[], word, &[1]),
        carrying("wait", &[], word, &[5]),
    ]
    .concat()
}

fn once_wait(unqueued: &[u32], queued: &[u32]) -> Places {
    [
        vec![place("load", &[])],
        carrying("exchange-queued", &[], word, unqueued),
        carrying("wait", &[], word, queued),
    ]
    .concat()
}

fn read() -> Places {
    let contended = [word(WRITE_LOCKED)];
    // The load sees that readers wait already, and the wait returns.
    let slept = [word(WRITE_LOCKED), word(0x7FFF_FFFF), word(0x7FFF_FFFF)];
    // An exchange that fails sees any state, without a spin before it.
    let exchange = [&contended[..], &[word(0)]].concat();
    let exchange_slept = [&slept[..], &[word(0)]].concat();
    let flagged = [0x3FFF_FFFF, 0x8000_0000, 0x8000_0001, 0xBFFF_FFFF];
    let flagged_slept = [0x3FFF_FFFF, 0x8000_0000, 0xBFFF_FFFF];
    [
        vec![place("load", &[])],
        carrying("exchange", &[], word, &[0, 1, 0x3FFF_FFFD]),
        spin("spin", &contended, WRITE_LOCKED),
        spin("spin slept", &slept, WRITE_LOCKED),
        carrying("exchange-contended", &contended, word, &[0, 1]),
        carrying("exchange-contended slept", &slept, word, &[0, 1, 0x8000_0001]),
        carrying("set-waiting", &exchange, fails, &flagged),
        carrying("set-waiting slept", &exchange_slept, fails, &flagged_slept),
        carrying("wait", &contended, word, &[0x4000_0000, 0x7FFF_FFFF, 0xC000_0001]),
    ]
    .concat()
}

fn try_lock(lockable: &[u32]) -> Places {
    [vec![place("load", &[])], carrying("exchange", &[], word, lockable)].concat()
}

fn write() -> Places {
    let contended = [word(1)];
    // Writers wait already, so the sequence comes next.
    let flagged = [word(1), word(0x8000_0001)];
    let others = [&flagged[..], &[word(0), word(0x8000_0001), word(0)]].concat();
    // An exchange that fails sees any state, without a spin before it.
    let exchange = [&contended[..], &[word(0)]].concat();
    let exchange_others = [&others[..], &[word(0)]].concat();
    let unlocked = [0, 0x4000_0000, 0x8000_0000, 0xC000_0000];
    let locked = [1, 0x3FFF_FFFF, 0x4000_0001];
    let sequences = [0, u32::MAX];
    [
        vec![place("exchange", &[])],
        spin("spin", &contended, 1),
        spin("spin others", &others, 1),
        carrying("exchange-contended", &contended, word, &unlocked),
        carrying("exchange-contended others", &others, word, &unlocked),
        carrying("set-waiting", &exchange, fails, &locked),
        carrying("set-waiting others", &exchange_others, fails, &locked),
        vec![place("load-sequence", &flagged)],
        carrying("load-state", &flagged, word, &sequences),
        then(carrying("wait", &flagged, word, &sequences), &[word(0x8000_0001)]),
    ]
    .concat()
}

/// What follows an unlock's subtraction of `held`.
fn wake_writer_or_readers(held: u32) -> Places {
    let writers = [word(0x8000_0000 + held), word(0x8000_0000), word(0)];
    let both = [word(0xC000_0000 + held), word(0xC000_0000), word(0), word(0), word(0x4000_0000)];
    vec![
        place("exchange-writers", &writers[..1]),
        place("exchange-both", &both[..1]),
        place("notify", &writers[..2]),
        place("notify both", &both[..2]),
        place("wake-writer", &writers[..3]),
        place("wake-writer both", &both[..3]),
        place("exchange-readers", &both[..4]),
        place("wake-readers", &both[..5]),
    ]
}

fn downgrade() -> Places {
    vec![
        place("add", &[]),
        place("subtract", &[word(0xFFFF_FFFF)]),
        place("wake-readers", &[word(0xFFFF_FFFF), word(0xC000_0001)]),
    ]
}
