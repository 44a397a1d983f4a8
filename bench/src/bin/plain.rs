//! Reads the replay's records from the standard input and writes its transcript to
//! the standard output.

use std::env;
use std::io;
use std::process::ExitCode;

fn main() -> ExitCode {
    if env::args_os().len() != 1 {
        eprintln!("usage: plain < log > transcript");
        return ExitCode::from(2);
    }
    // Both have buffers of their own; the standard output's would copy once more.
    match bench::replay::replay(io::stdin().lock(), io::stdout().lock()) {
        Ok(()) => ExitCode::SUCCESS,
        Err(error) => {
            eprintln!("plain: {error}");
            ExitCode::FAILURE
        }
    }
}
