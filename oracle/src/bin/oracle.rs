//! Reads a schedule's records from the standard input, lets the real code run by
//! them, and writes the replay's transcript to the standard output.

use std::env;
use std::io::{self, BufReader, BufWriter};
use std::process;

use oracle::MUTATED;
use oracle::records::{self, Next};
use oracle::transcript::Transcript;
use oracle::worker::stay_on_one_core;
use oracle::world::{Outcome, World};

const USAGE: &str = "usage: oracle [--worlds] < schedule";

fn main() {
    let arguments: Vec<String> = env::args().skip(1).collect();
    let worlds = match arguments.iter().map(String::as_str).collect::<Vec<_>>()[..] {
        [] => false,
        ["--worlds"] => true,
        _ => fail(USAGE),
    };
    // Without them a broken promise of the sources would go unnoticed.
    if !cfg!(debug_assertions) {
        fail("built without debug assertions: cargo build --profile checked");
    }
    if let Some(source) = MUTATED {
        eprintln!("oracle: built from another {source} than the listed one");
    }
    stay_on_one_core();
    if let Err(what) = run(worlds) {
        fail(&what);
    }
    // Threads that are still inside calls stay there.
    process::exit(0);
}

fn fail(what: &str) -> ! {
    eprintln!("oracle: {what}");
    process::exit(1);
}

fn run(worlds: bool) -> Result<(), String> {
    let mut input = BufReader::with_capacity(1 << 16, io::stdin().lock());
    let mut transcript = Transcript::new(BufWriter::with_capacity(1 << 16, io::stdout().lock()));
    let mut world = World::fresh();
    loop {
        let outcome: Outcome = match records::read(&mut input).map_err(in_words)? {
            Next::End => break,
            Next::Refused(refusal) => {
                transcript.tell(&Err(refusal)).map_err(in_words)?;
                break;
            }
            Next::Record(record) => match world.act(record) {
                Ok(outcome) => outcome,
                Err(broken) => {
                    let number = transcript.number();
                    transcript.abandon().map_err(in_words)?;
                    return Err(format!("record {number}: {broken}"));
                }
            },
        };
        transcript.tell(&outcome).map_err(in_words)?;
        if worlds && outcome.is_ok() {
            transcript.add(world.lines()).map_err(in_words)?;
        }
    }
    transcript.end().map_err(in_words)
}

fn in_words(error: io::Error) -> String {
    error.to_string()
}
