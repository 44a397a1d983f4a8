//! Writes a schedule's records to the standard output: the same for the same
//! profile, seed and count.

use std::env;
use std::io::{self, BufWriter, Write};
use std::process;

use oracle::generate::Generator;
use oracle::profiles::{PROFILES, Profile};
use oracle::worker::stay_on_one_core;
use oracle::world::World;

fn main() {
    if let Err(what) = run() {
        eprintln!("gen: {what}");
        process::exit(1);
    }
    // Threads that are still inside calls stay there.
    process::exit(0);
}

fn run() -> Result<(), String> {
    let arguments: Vec<String> = env::args().skip(1).collect();
    let [profile, seed, count] = &arguments[..] else { return Err(usage()) };
    let profile = PROFILES.iter().find(|listed| listed.name == profile).ok_or_else(usage)?;
    let seed = seed.parse().map_err(|_| usage())?;
    let count = count.parse().map_err(|_| usage())?;
    stay_on_one_core();
    write(profile, seed, count)
}

fn usage() -> String {
    let names: Vec<&str> = PROFILES.iter().map(|profile| profile.name).collect();
    format!("usage: gen {} SEED COUNT > schedule", names.join("|"))
}

fn write(profile: &'static Profile, seed: u64, count: usize) -> Result<(), String> {
    let mut out = BufWriter::new(io::stdout().lock());
    let mut world = World::fresh();
    let mut generator = Generator::new(profile, seed, count);
    for number in 0..count {
        let record = generator.next(&world);
        let outcome = world.act(record);
        outcome.map_err(|broken| format!("record {number}: {broken}"))?.ok();
        out.write_all(&record.to_bytes()).map_err(in_words)?;
    }
    if profile.damaged {
        out.write_all(&generator.damaged_end()).map_err(in_words)?;
    }
    out.flush().map_err(in_words)
}

fn in_words(error: io::Error) -> String {
    error.to_string()
}
