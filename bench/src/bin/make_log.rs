//! Writes records for the replay to the standard output. The same arguments give
//! the same bytes on every machine.

use std::env;
use std::io::{self, BufWriter, Write};
use std::process::ExitCode;

use bench::log::Log;

fn main() -> ExitCode {
    let arguments: Vec<u64> = env::args().skip(1).filter_map(|word| word.parse().ok()).collect();
    let ([seed, count], 3) = (&arguments[..], env::args_os().len()) else {
        eprintln!("usage: make_log SEED COUNT > log");
        return ExitCode::from(2);
    };
    match write(*seed, *count) {
        Ok(()) => ExitCode::SUCCESS,
        Err(error) => {
            eprintln!("make_log: {error}");
            ExitCode::FAILURE
        }
    }
}

fn write(seed: u64, count: u64) -> io::Result<()> {
    let mut output = BufWriter::with_capacity(1 << 16, io::stdout().lock());
    let mut log = Log::new(seed);
    for _ in 0..count {
        let record = log.next().expect("a log never ends");
        output.write_all(&record.to_bytes())?;
    }
    output.flush()
}
