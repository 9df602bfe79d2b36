//! Sheets drawn at random: programs of several kinds, with budgets around
//! where they stop, and a share of inputs that are no sheets.

pub mod chance;
pub mod parts;
mod programs;

use crate::machine::{Machine, Standing};
use crate::sheet::{Sheet, CELLS, GROUP, HAND, MOST_CELLS};
use chance::Chance;

/// The most steps that a drawn budget lets a sheet run that does not stop.
const PATIENCE: u32 = 4_000;

/// The input with this index of the stream drawn from a seed.
pub fn input(seed: u64, index: u64) -> Vec<u8> {
    let chance = &mut Chance::of_sheet(seed, index);
    let program = chance.weigh(&[
        (40, programs::guided as fn(&mut Chance) -> Sheet),
        (8, programs::loose),
        (4, programs::soup),
        (14, programs::probes),
        (4, programs::clash),
        (5, programs::counting),
        (5, programs::entering),
        (4, programs::chain),
        (3, programs::filling),
        (4, programs::patching),
        (10, programs::web),
    ]);
    let mut sheet = program(chance);
    sheet.budget = budget(chance, &sheet);
    let mut bytes = sheet.write();
    match chance.below(100) {
        0..=3 => malform(chance, &mut bytes),
        4 | 5 => resize(chance, &mut bytes),
        6 => {
            // The length counts before the groups do.
            malform(chance, &mut bytes);
            resize(chance, &mut bytes);
        }
        7 | 8 => flip(chance, &mut bytes, sheet.budget),
        _ => {}
    }
    bytes
}

/// A budget: none, one, around where the program stops, or far beyond it; for
/// a program that does not seem to stop, up to a few thousand.
fn budget(chance: &mut Chance, sheet: &Sheet) -> u32 {
    let mut machine = Machine::open(sheet.hand, sheet.cells.clone());
    let steps = machine.run(PATIENCE, &mut ());
    let stops = machine.standing != Standing::Running;
    match chance.below(40) {
        0 => 0,
        1 => 1,
        2 => chance.within(2, 20) as u32,
        3 | 4 => chance.below(u64::from(steps) + 1) as u32,
        5..=7 => steps - 1,
        8..=11 => steps,
        12 | 13 if stops => steps + 1,
        // Each byte of the budget counts, and it has no sign.
        14 | 15 if stops => chance.pick(&[u32::MAX, 1 << 31, 1 << 24, 1 << 16, i32::MAX as u32]),
        16..=21 if !stops => chance.below(u64::from(PATIENCE)) as u32,
        22..=34 if !stops => chance.within(20, 300) as u32,
        _ => PATIENCE,
    }
}

/// Puts groups that pack no word in place of one or several.
fn malform(chance: &mut Chance, bytes: &mut [u8]) {
    let groups = ((bytes.len() - HAND) / GROUP) as u64;
    for _ in 0..chance.pick(&[1, 1, 1, 2, 3, 8]) {
        let index = match chance.below(8) {
            0 => 0,
            1 => groups - 1,
            2 => 15,
            3 => 16.min(groups - 1),
            _ => chance.below(groups),
        };
        let at = HAND + GROUP * index as usize;
        let old = &bytes[at..at + GROUP];
        let old = old.iter().fold(0, |sum, &byte| sum << 8 | u64::from(byte));
        let new = malformed(chance, old);
        bytes[at..at + GROUP].copy_from_slice(&new.to_be_bytes());
    }
}

/// A number that packs no word, often next to the one that was there.
fn malformed(chance: &mut Chance, old: u64) -> u64 {
    let field = |value: u64, lowest: u32| value << lowest;
    let cap = 1 << 63
        | if old >> 63 == 1 {
            old
        } else {
            field(4, 59) | field(9, 23)
        };
    let above = chance.pick(&[1, 2, 0x8000, 0xFFFF]);
    match chance.below(9) {
        // An integer with a bit above its 32.
        0 => (old & 0xFFFF_FFFF) | 1 << chance.within(32, 62),
        // What a wider integer of the same value would be: the sign extended.
        1 => 0x7FFF_FFFF_0000_0000 | old,
        // An unknown permission or locality.
        2 => cap | field(8, 59),
        3 => cap | field(2, 57),
        // A base, an end or a cursor above 65,536.
        4 => cap | field(0x1_0000 | above, 40),
        5 => cap | field(0x1_0000 | above, 23),
        6 => cap | field(0x1_0000 | above, 6),
        // A low bit that must be zero.
        7 => cap | 1 << chance.below(6),
        _ => u64::MAX,
    }
}

/// Gives the input a length that no sheet has.
fn resize(chance: &mut Chance, bytes: &mut Vec<u8>) {
    let length = bytes.len();
    let new = match chance.below(10) {
        0 => 0,
        1 => chance.below(HAND as u64 + 1) as usize,
        2 | 3 => chance.below(CELLS as u64) as usize,
        4 => CELLS - 1,
        5 => CELLS + GROUP * (MOST_CELLS + 1),
        6 if chance.one_in(4) => CELLS + GROUP * MOST_CELLS + chance.within(1, 40) as usize,
        7 => length - chance.within(1, GROUP as i64 - 1) as usize,
        _ => length + chance.within(1, GROUP as i64 - 1) as usize,
    };
    bytes.resize(new, 0);
}

/// Flips a few bits behind the budget; none, where a run that is longer than
/// it was before could last too long.
fn flip(chance: &mut Chance, bytes: &mut [u8], budget: u32) {
    if budget > 2 * PATIENCE {
        return;
    }
    for _ in 0..chance.within(1, 4) {
        // Mostly in the low half of a group, where an integer stays one.
        let groups = (bytes.len() - HAND) / GROUP;
        let group = chance.below(groups as u64) as usize;
        let within = if chance.percent(80) {
            chance.within(4, 7)
        } else {
            chance.within(0, 7)
        };
        bytes[HAND + GROUP * group + within as usize] ^= 1 << chance.below(8);
    }
}

#[cfg(test)]
mod tests {
    use super::*;
    use crate::survey::survey;

    #[test]
    fn the_same_seed_draws_the_same() {
        for index in 0..200 {
            assert_eq!(input(3, index), input(3, index));
        }
        assert_ne!(input(3, 0), input(4, 0));
    }

    /// Nothing says so in the rules, but it follows from them: whatever a
    /// visit does, it changes only cells that the survey of its hand marks 2.
    #[test]
    fn only_writable_cells_change() {
        for index in 0..20_000 {
            let Ok(mut sheet) = Sheet::read(&input(6, index)) else {
                continue;
            };
            sheet.budget = sheet.budget.min(PATIENCE);
            let mut chart = vec![0; sheet.cells.len()];
            survey(&sheet.hand, &sheet.cells, &mut chart).unwrap();
            for (address, _) in sheet.run(&mut ()).changes {
                assert_eq!(chart[address], 2, "sheet {index}, cell {address}");
            }
        }
    }

    #[test]
    fn malformed_groups_pack_no_word() {
        use crate::words::Word;
        let mut chance = Chance::new(11);
        let room = parts::Room {
            size: 30,
            narrow: false,
        };
        for _ in 0..20_000 {
            let old = u64::from_be_bytes(parts::word(&mut chance, room).pack());
            let new = malformed(&mut chance, old);
            assert!(
                Word::unpack(&new.to_be_bytes()).is_err(),
                "{old:#x} {new:#x}"
            );
        }
    }

    #[test]
    fn resized_inputs_have_no_length_of_a_sheet() {
        let mut chance = Chance::new(12);
        for index in 0..2_000 {
            let mut bytes = input(5, index);
            if Sheet::read(&bytes).is_ok() {
                resize(&mut chance, &mut bytes);
                assert_eq!(Sheet::read(&bytes).unwrap_err().refusal.number(), 7);
            }
        }
    }
}
