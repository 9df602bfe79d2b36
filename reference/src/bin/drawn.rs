//! `drawn SEED COUNT [FIRST]` writes COUNT drawn sheets to standard output,
//! each behind its length in four bytes, most significant first. Some of them
//! are malformed. With FIRST, the stream starts at the sheet with that index.

use std::env;
use std::io::{self, BufWriter, Write};
use std::process::ExitCode;

use reference::{draw, stream};

fn main() -> ExitCode {
    let numbers: Option<Vec<u64>> = env::args().skip(1).map(|text| text.parse().ok()).collect();
    let (seed, count, first) = match numbers.as_deref() {
        Some(&[seed, count]) => (seed, count, 0),
        Some(&[seed, count, first]) => (seed, count, first),
        _ => {
            eprintln!("usage: drawn SEED COUNT [FIRST]");
            return ExitCode::FAILURE;
        }
    };
    match write(seed, count, first) {
        Ok(()) => ExitCode::SUCCESS,
        Err(error) => {
            eprintln!("drawn: {error}");
            ExitCode::FAILURE
        }
    }
}

fn write(seed: u64, count: u64, first: u64) -> io::Result<()> {
    let mut out = BufWriter::with_capacity(1 << 16, io::stdout().lock());
    for index in first..first.saturating_add(count) {
        stream::write(&mut out, &draw::input(seed, index))?;
    }
    out.flush()
}
