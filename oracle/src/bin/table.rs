//! Prints what the real code does in one step: a line for each position, each
//! word that its operation may find, and each way that the step may go.

use std::fmt::Write;

use oracle::calls::{Call, Kind};
use oracle::closing::Closing;
use oracle::driver::Op;
use oracle::observe::{Begun, fails, somebody, word};
use oracle::positions::{Position, positions};
use oracle::script::{Answer, End, Step};

fn main() {
    // Checked sums and debug assertions would end calls at words that no list of
    // acts reaches.
    if cfg!(debug_assertions) {
        panic!("the table is made without debug assertions: cargo run --release --bin table");
    }
    let mut table = String::new();
    for position in positions() {
        write_lines(&mut table, &position).expect("a String takes all that is written");
    }
    print!("{table}");
}

fn write_lines(table: &mut String, Position { name, begun }: &Position) -> std::fmt::Result {
    assert_eq!(&begun.position(), name, "the answers written down lead elsewhere");
    let (kind, op) = match begun.end() {
        End::Asks(kind, op) => (kind, op),
        _ => return write_closings(table, name, begun),
    };
    for &at in words(begun.call, kind, op) {
        for (way, answer) in ways(op) {
            let line = outcome(&begun.then(answer(at)));
            writeln!(table, "{name} at {kind} {at:08X}{way}: {line}")?;
        }
    }
    if let Op::Wait { expected } = op {
        writeln!(table, "{name} woken: {}", begun.then(word(expected)).position())?;
    }
    Ok(())
}

fn write_closings(table: &mut String, name: &str, begun: &Begun) -> std::fmt::Result {
    let closings = [
        ("returned", Closing::Returned),
        ("poisoned", Closing::Poisoned),
        ("panicked", Closing::Panicked),
    ];
    for (how, closing) in closings {
        writeln!(table, "{name} {how}: {}", begun.then(Answer::Close(closing)).position())?;
    }
    Ok(())
}

const SMALL: [u32; 11] = [0, 1, 2, 3, 4, 5, 6, 7, 0x7FFF_FFFF, 0xFFFF_FFFE, 0xFFFF_FFFF];

/// Each count of interest with no flag, READERS_WAITING, WRITERS_WAITING, both.
#[rustfmt::skip]
const RWLOCK: [u32; 24] = [
    0x0000_0000, 0x0000_0001, 0x0000_0002, 0x3FFF_FFFD, 0x3FFF_FFFE, 0x3FFF_FFFF,
    0x4000_0000, 0x4000_0001, 0x4000_0002, 0x7FFF_FFFD, 0x7FFF_FFFE, 0x7FFF_FFFF,
    0x8000_0000, 0x8000_0001, 0x8000_0002, 0xBFFF_FFFD, 0xBFFF_FFFE, 0xBFFF_FFFF,
    0xC000_0000, 0xC000_0001, 0xC000_0002, 0xFFFF_FFFD, 0xFFFF_FFFE, 0xFFFF_FFFF,
];

const WRITE_LOCKED: [u32; 4] = [0x3FFF_FFFF, 0x7FFF_FFFF, 0xBFFF_FFFF, 0xFFFF_FFFF];

fn words(call: Call, kind: Kind, op: Op) -> &'static [u32] {
    match (kind, call, op) {
        // Elsewhere the source's assertion that it is unlocked now may fire.
        (Kind::RwLock, Call::WriteUnlock, Op::Sub { .. }) => &WRITE_LOCKED,
        (Kind::RwLock, ..) => &RWLOCK,
        _ => &SMALL,
    }
}

type Way = (&'static str, fn(u32) -> Answer);

/// The ways that a step at one word may go, as they are written.
fn ways(op: Op) -> &'static [Way] {
    match op {
        Op::Exchange { weak: true, .. } => &[("", word), (" fails", fails)],
        Op::Wake => &[(" nobody", word), (" somebody", somebody)],
        _ => &[("", word)],
    }
}

/// What the last answer did.
fn outcome(begun: &Begun) -> String {
    let trace = begun.trace();
    let step = trace.steps.last().expect("the last answer was for an operation");
    let what = match (step.op, trace.end) {
        (Op::Wait { expected }, _) if expected == step.before => "slept".to_string(),
        (_, End::Asks(..)) => format!("moved {}", begun.position()),
        (_, End::Returned(answer)) => format!("done {}", u32::from(answer)),
        (_, End::Panicked(number)) => format!("panic {number}"),
        (_, End::Closure) => "closure".to_string(),
    };
    format!("{:08X}{}{} {what}", step.after, hold(begun.call, step, trace.end), wake(step.op))
}

/// A lock is taken by the exchange or swap with which the call that wants it
/// ends well, and let go by the one operation that gives it back.
fn hold(call: Call, step: &Step, end: End) -> &'static str {
    let may_take = matches!(step.op, Op::Exchange { .. } | Op::Swap { .. });
    let taken = may_take && end == End::Returned(true);
    match (call, step.kind, step.op) {
        (Call::Lock | Call::TryLock | Call::CondvarWait, ..) if taken => " takes mutex",
        (Call::Read | Call::TryRead, ..) if taken => " takes read",
        (Call::Write | Call::TryWrite, ..) if taken => " takes write",
        (Call::Unlock | Call::CondvarWait, Kind::Mutex, Op::Swap { new: 0 }) => " frees mutex",
        (Call::ReadUnlock, Kind::RwLock, Op::Sub { .. }) => " frees read",
        (Call::WriteUnlock, Kind::RwLock, Op::Sub { .. }) => " frees write",
        (Call::Downgrade, Kind::RwLock, Op::Add { .. }) => " turns write",
        _ => "",
    }
}

fn wake(op: Op) -> &'static str {
    match op {
        Op::Wake => " wakes one",
        Op::WakeAll => " wakes all",
        _ => "",
    }
}
