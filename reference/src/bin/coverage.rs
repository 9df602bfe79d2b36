//! Reads a stream of sheets from standard input, runs each, and prints how
//! often what the rules name came about in them: each opcode, fault, outcome
//! and refusal, cells changed, places absent, and which instruction gave which
//! fault.

use std::io::{self, BufReader, Write};
use std::process::ExitCode;

use reference::instructions::{Instruction, NAMES};
use reference::machine::{Fault, Observer, Standing};
use reference::sheet::Report;
use reference::stream;
use reference::words::Word;

const FAULTS: usize = 24;

/// Counts the steps of all runs.
#[derive(Default)]
struct Steps {
    /// By opcode, how often it was fetched.
    fetched: [u64; NAMES.len()],
    /// By opcode and fault, how often it faulted; at opcode 0, the faults of
    /// steps that fetched nothing.
    faulted: [[u64; FAULTS]; NAMES.len()],
    /// By opcode, in how many sheets it was fetched.
    sheets: [u64; NAMES.len()],
    /// The opcodes of the sheet under way, a bit for each.
    seen: u32,
}

impl Observer for Steps {
    fn fetched(&mut self, instruction: Instruction) {
        let opcode = instruction.opcode() as usize;
        self.fetched[opcode] += 1;
        self.seen |= 1 << opcode;
    }

    fn faulted(&mut self, instruction: Option<Instruction>, fault: Fault) {
        let opcode = instruction.map_or(0, |instruction| instruction.opcode() as usize);
        self.faulted[opcode][usize::from(fault.number())] += 1;
    }
}

/// Counts what the reports say.
#[derive(Default)]
struct Reports {
    sheets: u64,
    /// By number.
    refused: [u64; 8],
    refused_in_hand: u64,
    running: u64,
    halted: u64,
    failed: u64,
    unspent: u64,
    steps: u64,
    /// By fault.
    faults: [u64; FAULTS],
    absent: u64,
    ints: u64,
    caps: u64,
    sheets_with_changes: u64,
    reach_none: u64,
    reach_all: u64,
    reach_part: u64,
    reach_two_levels: u64,
    empty: u64,
    largest: u64,
}

fn main() -> ExitCode {
    match run() {
        Ok(()) => ExitCode::SUCCESS,
        Err(error) => {
            eprintln!("coverage: {error}");
            ExitCode::FAILURE
        }
    }
}

fn run() -> io::Result<()> {
    let mut source = BufReader::with_capacity(1 << 16, io::stdin().lock());
    let mut input = Vec::new();
    let mut steps = Steps::default();
    let mut reports = Reports::default();
    while stream::read(&mut source, &mut input)? {
        steps.seen = 0;
        count(&mut reports, &mut steps, &input);
        for opcode in 0..NAMES.len() {
            steps.sheets[opcode] += u64::from(steps.seen >> opcode & 1);
        }
    }
    print(&reports, &steps)
}

fn count(reports: &mut Reports, steps: &mut Steps, input: &[u8]) {
    reports.sheets += 1;
    let ran = match Report::of(input, steps) {
        Report::Ran(ran) => ran,
        Report::Refused(refused) => {
            reports.refused[usize::from(refused.refusal.number())] += 1;
            if refused.refusal.number() == 5 && refused.offset < 132 {
                reports.refused_in_hand += 1;
            }
            return;
        }
    };
    match ran.standing {
        Standing::Running => {
            reports.running += 1;
            reports.unspent += u64::from(ran.steps == 0);
        }
        Standing::Halted => reports.halted += 1,
        Standing::Failed { fault, place } => {
            reports.failed += 1;
            reports.faults[usize::from(fault.number())] += 1;
            reports.absent += u64::from(place.is_none());
        }
    }
    reports.steps += u64::from(ran.steps);
    reports.sheets_with_changes += u64::from(!ran.changes.is_empty());
    for (_, word) in &ran.changes {
        match word {
            Word::Int(_) => reports.ints += 1,
            Word::Cap(_) => reports.caps += 1,
        }
    }
    let size = (input.len() - 132) / 8;
    let reach = ran.reach;
    reports.reach_none += u64::from(reach.marked == 0);
    reports.reach_all += u64::from(reach.marked == size && size > 0);
    reports.reach_part += u64::from(reach.marked > 0 && reach.marked < size);
    reports.reach_two_levels += u64::from(reach.writable > 0 && reach.writable < reach.marked);
    reports.empty += u64::from(size == 0);
    reports.largest += u64::from(size == 2_048);
}

fn print(reports: &Reports, steps: &Steps) -> io::Result<()> {
    let mut out = io::stdout().lock();
    writeln!(out, "sheets {}", reports.sheets)?;
    writeln!(
        out,
        "refused 5: {} ({} in the hand)",
        reports.refused[5], reports.refused_in_hand
    )?;
    writeln!(out, "refused 7: {}", reports.refused[7])?;
    writeln!(
        out,
        "outcome running: {} ({} with no step)",
        reports.running, reports.unspent
    )?;
    writeln!(out, "outcome halted: {}", reports.halted)?;
    writeln!(
        out,
        "outcome failed: {} (place absent: {})",
        reports.failed, reports.absent
    )?;
    writeln!(out, "steps: {}", reports.steps)?;
    writeln!(
        out,
        "sheets with cells changed: {}",
        reports.sheets_with_changes
    )?;
    writeln!(out, "cells changed to int: {}", reports.ints)?;
    writeln!(out, "cells changed to cap: {}", reports.caps)?;
    writeln!(
        out,
        "reach: none {}, part {}, all {}; some but not all of it writable {}",
        reports.reach_none, reports.reach_part, reports.reach_all, reports.reach_two_levels
    )?;
    writeln!(
        out,
        "memories of 0 cells: {}, of 2,048: {}",
        reports.empty, reports.largest
    )?;
    for fault in 11..FAULTS {
        writeln!(out, "fault {fault}: {}", reports.faults[fault])?;
    }
    writeln!(out, "instruction: steps, sheets; faults")?;
    for (opcode, name) in NAMES.iter().enumerate() {
        if opcode == 0 {
            write!(out, "(none fetched):")?;
        } else {
            let (fetched, sheets) = (steps.fetched[opcode], steps.sheets[opcode]);
            write!(out, "{opcode} {name}: {fetched}, {sheets};")?;
        }
        for fault in 11..FAULTS {
            if steps.faulted[opcode][fault] > 0 {
                write!(out, " {fault}×{}", steps.faulted[opcode][fault])?;
            }
        }
        writeln!(out)?;
    }
    out.flush()
}
