//! Runs the records of the input and tells what they did.

use std::io::{self, ErrorKind, Read, Write};

use crate::event::Refusal;
use crate::record::{Record, LENGTH};
use crate::transcript::Transcript;
use crate::world::World;

const CAPACITY: usize = 1 << 16;

pub fn replay(input: impl Read, output: impl Write) -> io::Result<()> {
    replay_at_most(u32::MAX, input, output)
}

/// A byte that is left after so many records is refused.
fn replay_at_most(records: u32, mut input: impl Read, output: impl Write) -> io::Result<()> {
    let mut world = World::fresh();
    let mut transcript = Transcript::new(output);
    let mut records_left = records;
    let mut buffer = Box::new([0; CAPACITY]);
    // Bytes of a record that is not there in whole yet, at the buffer's start.
    let mut kept = 0;
    let last = 'reading: loop {
        let read = match input.read(&mut buffer[kept..]) {
            Err(error) if error.kind() == ErrorKind::Interrupted => continue,
            read => read?,
        };
        let filled = kept + read;
        if read == 0 {
            break match filled {
                0 => None,
                _ if records_left == 0 => Some(Refusal::TooManyRecords),
                _ => Some(Refusal::BytesLeft),
            };
        }
        let (whole, rest) = buffer[..filled].as_chunks::<LENGTH>();
        for bytes in whole {
            if records_left == 0 {
                break 'reading Some(Refusal::TooManyRecords);
            }
            records_left -= 1;
            match Record::from_bytes(bytes) {
                Some(record) => transcript.tell(world.act(record))?,
                None => break 'reading Some(Refusal::BadMark),
            }
        }
        kept = rest.len();
        buffer.copy_within(filled - kept..filled, 0);
    };
    if let Some(refusal) = last {
        transcript.tell(Err(refusal))?;
    }
    transcript.end()
}

#[cfg(test)]
mod tests {
    use super::*;
    use crate::log::Log;

    fn transcript(records: u32, input: impl Read) -> String {
        let mut output = Vec::new();
        replay_at_most(records, input, &mut output).unwrap();
        String::from_utf8(output).unwrap()
    }

    fn log(seed: u64, count: usize) -> Vec<u8> {
        Log::new(seed).take(count).flat_map(Record::to_bytes).collect()
    }

    const TALLY_OF_NOTHING: &str = "grants 0 sleeps 0 wakes 0 panics 0 refused 0\n";

    #[test]
    fn nothing_gives_the_tally_alone() {
        assert_eq!(transcript(u32::MAX, io::empty()), TALLY_OF_NOTHING);
        assert_eq!(transcript(0, io::empty()), TALLY_OF_NOTHING);
    }

    #[test]
    fn a_lock_and_a_try() {
        let input = [
            [0xB1, 0x6B, 1, 0, 0, 0, 0, 0, 0, 0],
            [0xB1, 0x6B, 2, 0, 0, 0, 0, 0, 0, 0],
            [0xB1, 0x6B, 1, 1, 1, 0, 0, 0, 0, 0],
            [0xB1, 0x6B, 2, 0, 1, 0, 0, 0, 0, 0],
        ];
        let expected = "0 begun 0 0\n1 done 1 0\n2 begun 0 0\n3 done 0 0\n\
                        grants 1 sleeps 0 wakes 0 panics 0 refused 0\n";
        assert_eq!(transcript(u32::MAX, input.as_flattened()), expected);
    }

    #[test]
    fn what_is_left_is_refused() {
        let three = log(1, 3);
        let told = |records, input: &[u8]| {
            let transcript = transcript(records, input);
            let last_line = transcript.lines().rev().nth(1).unwrap().to_string();
            (transcript.lines().count(), last_line)
        };
        assert_eq!(told(3, &three), (4, "2 set 0 0".to_string()));
        assert_eq!(told(3, &[&three[..], &[0]].concat()), (5, "3 refused 22 0".to_string()));
        assert_eq!(told(2, &three), (4, "2 refused 22 0".to_string()));
        assert_eq!(told(3, &three[..29]), (4, "2 refused 21 0".to_string()));
        assert_eq!(told(4, &[&three[..], &[0]].concat()), (5, "3 refused 21 0".to_string()));
        assert_eq!(told(4, &[&three[..], &[0; 20]].concat()), (5, "3 refused 20 0".to_string()));
    }

    /// Hands out a few bytes at a time.
    struct Trickle<'a>(&'a [u8]);

    impl Read for Trickle<'_> {
        fn read(&mut self, buffer: &mut [u8]) -> io::Result<usize> {
            let few = self.0.len().min(7);
            self.0.read(&mut buffer[..few])
        }
    }

    #[test]
    fn pieces_read_as_the_whole() {
        let log = log(2, 20_000);
        assert_eq!(transcript(u32::MAX, Trickle(&log)), transcript(u32::MAX, &log[..]));
    }
}
