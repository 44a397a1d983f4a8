//! Turns a schedule in text into records, or records into text.

use std::env;
use std::io::{self, Read, Write};
use std::process::ExitCode;

use oracle::text::{assemble, disassemble};

const USAGE: &str = "usage: asm < text > records, or asm --disassemble < records > text";

fn main() -> ExitCode {
    match run() {
        Ok(()) => ExitCode::SUCCESS,
        Err(what) => {
            eprintln!("asm: {what}");
            ExitCode::FAILURE
        }
    }
}

fn run() -> Result<(), String> {
    let arguments: Vec<String> = env::args().skip(1).collect();
    let mut input = Vec::new();
    let output = match arguments.iter().map(String::as_str).collect::<Vec<_>>()[..] {
        [] => {
            read_all(&mut input)?;
            let text = String::from_utf8(input).map_err(|error| error.to_string())?;
            assemble(&text)?
        }
        ["--disassemble"] => {
            read_all(&mut input)?;
            disassemble(&input).into_bytes()
        }
        _ => return Err(USAGE.to_string()),
    };
    io::stdout().write_all(&output).map_err(|error| error.to_string())
}

fn read_all(input: &mut Vec<u8>) -> Result<(), String> {
    io::stdin().read_to_end(input).map(drop).map_err(|error| error.to_string())
}
