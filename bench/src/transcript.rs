//! The transcript: a line for each record, then the tally.

use std::io::{self, Write};

use crate::event::{Event, Outcome, What};

#[derive(Default)]
struct Tally {
    grants: u64,
    sleeps: u64,
    wakes: u64,
    panics: u64,
    refused: u64,
}

impl Tally {
    /// Without a branch, since which event comes next cannot be foreseen.
    #[inline]
    fn add(&mut self, event: Event) {
        add(&mut self.grants, u8::from(event.what == What::Granted));
        add(&mut self.sleeps, u8::from(event.what == What::Slept));
        add(&mut self.wakes, event.woken);
        add(&mut self.panics, u8::from(event.what == What::Panic));
    }
}

/// A count at its largest value stays there.
#[inline]
fn add(count: &mut u64, amount: u8) {
    *count = count.saturating_add(u64::from(amount));
}

/// A name with the space behind it.
struct Name {
    bytes: [u8; Name::SIZE],
    length: u8,
}

impl Name {
    const SIZE: usize = 8;
    const REFUSED: Name = Name { bytes: *b"refused ", length: 8 };

    const OF_EVENTS: [Name; 10] = [
        Name { bytes: *b"set     ", length: 4 },
        Name { bytes: *b"begun   ", length: 6 },
        Name { bytes: *b"moved   ", length: 6 },
        Name { bytes: *b"done    ", length: 5 },
        Name { bytes: *b"done    ", length: 5 },
        Name { bytes: *b"slept   ", length: 6 },
        Name { bytes: *b"panic   ", length: 6 },
        Name { bytes: *b"closure ", length: 8 },
        Name { bytes: *b"woken   ", length: 6 },
        Name { bytes: *b"closed  ", length: 7 },
    ];

    #[inline]
    fn of(what: What) -> &'static Name {
        &Name::OF_EVENTS[what as usize]
    }
}

const CAPACITY: usize = 1 << 16;

/// A record's line is shorter: a number of ten digits, a name, and two numbers of
/// two digits.
const LINE: usize = 32;

pub struct Transcript<W> {
    output: W,
    buffer: Box<[u8; CAPACITY]>,
    filled: usize,
    number: Number,
    tally: Tally,
}

impl<W: Write> Transcript<W> {
    pub fn new(output: W) -> Transcript<W> {
        Transcript {
            output,
            buffer: Box::new([0; CAPACITY]),
            filled: 0,
            number: Number::zero(),
            tally: Tally::default(),
        }
    }

    #[inline]
    pub fn tell(&mut self, outcome: Outcome) -> io::Result<()> {
        match outcome {
            Ok(event) => {
                self.tally.add(event);
                self.line(Name::of(event.what), event.value, event.woken)
            }
            Err(refusal) => {
                add(&mut self.tally.refused, 1);
                self.line(&Name::REFUSED, refusal as u8, 0)
            }
        }
    }

    #[inline]
    fn line(&mut self, name: &Name, value: u8, woken: u8) -> io::Result<()> {
        if self.filled > CAPACITY - LINE {
            self.flush()?;
        }
        // Digits and name are copied at their full size, which costs less than at
        // their length; what comes next overwrites the rest.
        let line = &mut self.buffer[self.filled..][..LINE];
        line[..Number::SIZE].copy_from_slice(&self.number.digits);
        let mut end = self.number.length;
        line[end] = b' ';
        end += 1;
        line[end..end + Name::SIZE].copy_from_slice(&name.bytes);
        end += usize::from(name.length);
        end = small(line, end, value, b' ');
        end = small(line, end, woken, b'\n');
        self.filled += end;
        self.number.increment();
        Ok(())
    }

    fn flush(&mut self) -> io::Result<()> {
        let filled = std::mem::take(&mut self.filled);
        self.output.write_all(&self.buffer[..filled])
    }

    pub fn end(mut self) -> io::Result<()> {
        self.flush()?;
        let Tally { grants, sleeps, wakes, panics, refused } = self.tally;
        writeln!(
            self.output,
            "grants {grants} sleeps {sleeps} wakes {wakes} panics {panics} refused {refused}"
        )?;
        self.output.flush()
    }
}

/// Writes a number below 100 and what comes behind it; says where that ends.
#[inline]
fn small(line: &mut [u8], mut end: usize, number: u8, behind: u8) -> usize {
    if number >= 10 {
        line[end] = b'0' + number / 10;
        end += 1;
    }
    line[end] = b'0' + number % 10;
    line[end + 1] = behind;
    end + 2
}

/// The number of the next record, in digits from the left.
struct Number {
    digits: [u8; Number::SIZE],
    length: usize,
}

impl Number {
    const SIZE: usize = 16;

    fn zero() -> Number {
        Number { digits: [b'0'; Number::SIZE], length: 1 }
    }

    #[inline]
    fn increment(&mut self) {
        for digit in self.digits[..self.length].iter_mut().rev() {
            if *digit < b'9' {
                *digit += 1;
                return;
            }
            *digit = b'0';
        }
        // All were nines: the digit behind them is a nought still.
        self.digits[0] = b'1';
        self.length += 1;
    }
}

#[cfg(test)]
mod tests {
    use super::Number;

    #[test]
    fn numbers_are_those_of_the_library() {
        let mut number = Number::zero();
        for expected in 0..100_001 {
            assert_eq!(number.digits[..number.length], *expected.to_string().as_bytes());
            number.increment();
        }
    }
}
