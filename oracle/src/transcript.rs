//! The replay's transcript: a line for each record, then the tally.

use std::fmt;
use std::io::{self, Write};

use crate::world::{Event, Outcome, What};

#[derive(Default)]
pub struct Tally {
    grants: u64,
    sleeps: u64,
    wakes: u64,
    panics: u64,
    refused: u64,
}

impl Tally {
    /// A count at its largest value stays there.
    fn add(&mut self, outcome: &Outcome) {
        let add = |count: &mut u64, n: usize| *count = count.saturating_add(n as u64);
        match outcome {
            Ok(event) => {
                add(&mut self.grants, usize::from(event.grant));
                add(&mut self.sleeps, usize::from(event.what == What::Slept));
                add(&mut self.wakes, event.woken);
                add(&mut self.panics, usize::from(matches!(event.what, What::Panic(_))));
            }
            Err(_) => add(&mut self.refused, 1),
        }
    }
}

impl fmt::Display for Tally {
    fn fmt(&self, f: &mut fmt::Formatter<'_>) -> fmt::Result {
        let Tally { grants, sleeps, wakes, panics, refused } = self;
        write!(f, "grants {grants} sleeps {sleeps} wakes {wakes} panics {panics} refused {refused}")
    }
}

pub struct Transcript<W> {
    out: W,
    number: u64,
    tally: Tally,
}

impl<W: Write> Transcript<W> {
    pub fn new(out: W) -> Self {
        Transcript { out, number: 0, tally: Tally::default() }
    }

    /// How many records were told.
    pub fn number(&self) -> u64 {
        self.number
    }

    pub fn tell(&mut self, outcome: &Outcome) -> io::Result<()> {
        let (name, value, woken) = match *outcome {
            Ok(Event { what, woken, .. }) => {
                let (name, value) = words(what);
                (name, value, woken)
            }
            Err(refusal) => ("refused", refusal as u32, 0),
        };
        writeln!(self.out, "{} {name} {value} {woken}", self.number)?;
        self.number += 1;
        self.tally.add(outcome);
        Ok(())
    }

    /// Writes what stands between the lines of the transcript.
    pub fn add(&mut self, lines: impl fmt::Display) -> io::Result<()> {
        write!(self.out, "{lines}")
    }

    pub fn end(mut self) -> io::Result<()> {
        writeln!(self.out, "{}", self.tally)?;
        self.out.flush()
    }

    /// Lets go of it without the tally.
    pub fn abandon(mut self) -> io::Result<()> {
        self.out.flush()
    }
}

fn words(what: What) -> (&'static str, u32) {
    match what {
        What::Set => ("set", 0),
        What::Begun => ("begun", 0),
        What::Moved => ("moved", 0),
        What::Done(answer) => ("done", u32::from(answer)),
        What::Slept => ("slept", 0),
        What::Panic(number) => ("panic", number),
        What::Closure => ("closure", 0),
        What::Woken => ("woken", 0),
        What::Closed => ("closed", 0),
    }
}
