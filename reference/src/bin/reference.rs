//! Reads a sheet from standard input, and prints what benchrun prints.

use std::io::{self, Read, Write};
use std::process::ExitCode;

use reference::sheet::Report;

fn main() -> ExitCode {
    // The status is 0 also where the input is refused.
    match run() {
        Ok(()) => ExitCode::SUCCESS,
        Err(_) => ExitCode::FAILURE,
    }
}

fn run() -> io::Result<()> {
    let mut input = Vec::new();
    io::stdin().lock().read_to_end(&mut input)?;
    let text = Report::of(&input, &mut ()).to_string();
    let mut out = io::stdout().lock();
    out.write_all(text.as_bytes())?;
    out.flush()
}
