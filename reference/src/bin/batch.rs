//! Reads a stream of sheets, each behind its length, from standard input.
//! Prints for each, in order, `sheet <index>`, counted from 0, and then what
//! benchrun prints for it.

use std::io::{self, BufReader, BufWriter, Write};
use std::process::ExitCode;

use reference::sheet::Report;
use reference::stream;

fn main() -> ExitCode {
    match run() {
        Ok(()) => ExitCode::SUCCESS,
        Err(error) => {
            eprintln!("batch: {error}");
            ExitCode::FAILURE
        }
    }
}

fn run() -> io::Result<()> {
    let mut source = BufReader::with_capacity(1 << 16, io::stdin().lock());
    let mut out = BufWriter::with_capacity(1 << 16, io::stdout().lock());
    let mut input = Vec::new();
    let mut index = 0u64;
    while stream::read(&mut source, &mut input)? {
        writeln!(out, "sheet {index}")?;
        write!(out, "{}", Report::of(&input, &mut ()))?;
        index += 1;
    }
    out.flush()
}
