//! Schedules as text, one act a line, and back.

use std::fmt::Write;

use crate::records::{self, BEGIN, CALLS, CLOSE, LENGTH, Record, SET, STEP, WAKE};

/// The calls as they are written, by their numbers.
const NAMES: [&str; CALLS.len()] = [
    "lock",
    "try_lock",
    "unlock",
    "read",
    "try_read",
    "read_unlock",
    "write",
    "try_write",
    "write_unlock",
    "downgrade",
    "wait",
    "notify_one",
    "notify_all",
    "once_call",
    "once_call_ignoring",
    "once_wait",
    "once_wait_ignoring",
    "is_completed",
    "park",
    "unpark",
];

/// The ends of a closure as they are written, by their numbers.
const CLOSINGS: [&str; records::CLOSINGS.len()] = ["returned", "poisoned", "panicked"];

/// The bytes of a text. What is wrong with it is said with its line.
pub fn assemble(text: &str) -> Result<Vec<u8>, String> {
    let mut bytes = Vec::new();
    for (number, line) in (1..).zip(text.lines()) {
        let words: Vec<&str> = without_comment(line).split_whitespace().collect();
        let add = assemble_line(&words, &mut bytes);
        add.map_err(|what| format!("line {number}: {what}"))?;
    }
    Ok(bytes)
}

fn without_comment(line: &str) -> &str {
    line.split_once('#').map_or(line, |(text, _)| text)
}

fn assemble_line(words: &[&str], bytes: &mut Vec<u8>) -> Result<(), String> {
    let (words, times) = match words {
        [words @ .., "*", times] => (words, number(times)?),
        words => (words, 1),
    };
    let one: Vec<u8> = match words {
        [] if times == 1 => return Ok(()),
        [] => return Err("nothing to repeat".to_string()),
        ["raw", digits @ ..] => {
            digits.iter().map(|digits| byte(digits)).collect::<Result<_, _>>()?
        }
        words => record(words)?.to_bytes().to_vec(),
    };
    for _ in 0..times {
        bytes.extend_from_slice(&one);
    }
    Ok(())
}

/// The record of an act. Fields may name what does not exist, as long as they
/// fit: such records are there to be refused.
fn record(words: &[&str]) -> Result<Record, String> {
    match words {
        ["set", what @ ..] => set(what),
        ["begin", thread, call @ ..] => begin(small(thread)?, call),
        ["step", thread] => act(STEP, 0, thread),
        ["step", thread, "fails"] => act(STEP, 1, thread),
        ["wake", thread] => act(WAKE, 0, thread),
        ["close", thread, how] => act(CLOSE, listed(&CLOSINGS, how)?, thread),
        _ => Err(format!("no act is written {:?}", words.join(" "))),
    }
}

fn set(words: &[&str]) -> Result<Record, String> {
    let (choice, object, value) = match words {
        ["rwlock", lock, "forgotten", reads] => (0, lock, number(reads)?),
        ["notify", lock, word] => (1, lock, number(word)?),
        ["condvar", condvar, word] => (2, condvar, number(word)?),
        ["once", once, "complete"] => (3, once, 0),
        _ => return Err(format!("nothing is set by {:?}", words.join(" "))),
    };
    Ok(Record { act: SET, choice, thread: 0, object: small(object)?, value })
}

fn begin(thread: u8, words: &[&str]) -> Result<Record, String> {
    let (name, object, value) = match words {
        ["park"] => ("park", 0, 0),
        ["wait", condvar, "mutex", mutex] => ("wait", small(condvar)?, number(mutex)?),
        [name, object] if !["park", "wait"].contains(name) => (*name, small(object)?, 0),
        _ => return Err(format!("no call is written {:?}", words.join(" "))),
    };
    Ok(Record { act: BEGIN, choice: listed(&NAMES, name)?, thread, object, value })
}

fn act(act: u8, choice: u8, thread: &str) -> Result<Record, String> {
    Ok(Record { act, choice, thread: small(thread)?, ..Record::default() })
}

fn listed(names: &[&str], name: &str) -> Result<u8, String> {
    let place = names.iter().position(|&listed| listed == name);
    place.map(|place| place as u8).ok_or_else(|| format!("{name:?} is none of {names:?}"))
}

/// A number of 32 bits, decimal or with `0x`.
fn number(digits: &str) -> Result<u32, String> {
    let read = match digits.strip_prefix("0x") {
        Some(digits) => u32::from_str_radix(digits, 16),
        None => digits.parse(),
    };
    read.map_err(|error| format!("{digits:?}: {error}"))
}

/// A number of one byte.
fn small(digits: &str) -> Result<u8, String> {
    u8::try_from(number(digits)?).map_err(|_| format!("{digits:?} is more than a byte holds"))
}

/// A byte as two hexadecimal digits.
fn byte(digits: &str) -> Result<u8, String> {
    let read = u8::from_str_radix(digits, 16).ok().filter(|_| digits.len() == 2);
    read.ok_or_else(|| format!("{digits:?} is no byte in hexadecimal"))
}

/// The text of some bytes. It always assembles to these bytes again.
pub fn disassemble(bytes: &[u8]) -> String {
    let mut lines = bytes.chunks(LENGTH).map(line).peekable();
    let mut text = String::new();
    while let Some(line) = lines.next() {
        let mut times = 1;
        while lines.next_if_eq(&line).is_some() {
            times += 1;
        }
        text += &line;
        if times > 1 {
            write!(text, " * {times}").expect("a String takes all that is written");
        }
        text.push('\n');
    }
    text
}

/// What has no text of its own is written in bytes: damaged records, and fields
/// that the act does not name but that are not 0.
fn line(bytes: &[u8]) -> String {
    let written = bytes.try_into().ok().and_then(|bytes| written(Record::from_bytes(bytes).ok()?));
    written.filter(|line| assemble(line).as_deref() == Ok(bytes)).unwrap_or_else(|| raw(bytes))
}

fn raw(bytes: &[u8]) -> String {
    bytes.iter().fold("raw".to_string(), |line, byte| format!("{line} {byte:02x}"))
}

/// The text of a record by the fields that its act names.
fn written(record: Record) -> Option<String> {
    let Record { act, choice, thread, object, value } = record;
    let value = if value > 0xFFFF { format!("0x{value:X}") } else { value.to_string() };
    Some(match (act, choice) {
        (SET, 0) => format!("set rwlock {object} forgotten {value}"),
        (SET, 1) => format!("set notify {object} {value}"),
        (SET, 2) => format!("set condvar {object} {value}"),
        (SET, 3) => format!("set once {object} complete"),
        (BEGIN, call) => match *NAMES.get(usize::from(call))? {
            "park" => format!("begin {thread} park"),
            "wait" => format!("begin {thread} wait {object} mutex {value}"),
            name => format!("begin {thread} {name} {object}"),
        },
        (STEP, 0) => format!("step {thread}"),
        (STEP, 1) => format!("step {thread} fails"),
        (WAKE, 0) => format!("wake {thread}"),
        (CLOSE, how) => format!("close {thread} {}", CLOSINGS.get(usize::from(how))?),
        _ => return None,
    })
}
