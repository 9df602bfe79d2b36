//! Sheets: what the program reads, what it does with it, what it prints.

use std::fmt;

use crate::machine::{Machine, Observer, Standing};
use crate::survey::{survey, Counts};
use crate::words::{Hand, Refusal, Word, REGISTERS};

/// The bytes of a group.
pub const GROUP: usize = 8;
/// Where the hand begins: behind the four bytes of the budget.
pub const HAND: usize = 4;
/// Where the cells begin: behind the sixteen groups of the hand.
pub const CELLS: usize = HAND + GROUP * REGISTERS;
/// The most cells that a sheet has.
pub const MOST_CELLS: usize = 2_048;

/// A sheet that was read: a budget, a hand, and the words placed from cell 0
/// on.
#[derive(Clone, PartialEq, Eq, Debug)]
pub struct Sheet {
    pub budget: u32,
    pub hand: Hand,
    pub cells: Vec<Word>,
}

/// What the program prints for an input.
#[derive(Clone, PartialEq, Eq, Debug)]
pub enum Report {
    Refused(Refused),
    Ran(Ran),
}

/// An input that is no sheet.
#[derive(Clone, Copy, PartialEq, Eq, Debug)]
pub struct Refused {
    pub refusal: Refusal,
    pub offset: usize,
}

/// A sheet that was run.
#[derive(Clone, PartialEq, Eq, Debug)]
pub struct Ran {
    pub reach: Counts,
    pub standing: Standing,
    pub steps: u32,
    /// The cells whose word is another than before the run, by ascending
    /// address, each with the word that it has now.
    pub changes: Vec<(usize, Word)>,
}

impl Sheet {
    /// Reads a sheet. A length that no sheet has is refused before any group
    /// is looked at.
    pub fn read(input: &[u8]) -> Result<Sheet, Refused> {
        let no_sheet = Refused {
            refusal: Refusal::MalformedInput,
            offset: 0,
        };
        if input.len() < CELLS || !(input.len() - CELLS).is_multiple_of(GROUP) {
            return Err(no_sheet);
        }
        let count = (input.len() - CELLS) / GROUP;
        if count > MOST_CELLS {
            return Err(no_sheet);
        }
        let (budget, groups) = input.split_at(HAND);
        let budget = budget
            .iter()
            .fold(0, |sum, &byte| sum << 8 | u32::from(byte));
        let mut hand = [Word::ZERO; REGISTERS];
        let mut cells = Vec::with_capacity(count);
        for (index, group) in groups.chunks_exact(GROUP).enumerate() {
            let word = Word::unpack(group).map_err(|refusal| Refused {
                refusal,
                offset: HAND + GROUP * index,
            })?;
            match hand.get_mut(index) {
                Some(register) => *register = word,
                None => cells.push(word),
            }
        }
        Ok(Sheet {
            budget,
            hand,
            cells,
        })
    }

    /// The bytes of the sheet.
    pub fn write(&self) -> Vec<u8> {
        let mut bytes = Vec::with_capacity(CELLS + GROUP * self.cells.len());
        bytes.extend(self.budget.to_be_bytes());
        for word in self.hand.iter().chain(&self.cells) {
            bytes.extend(word.pack());
        }
        bytes
    }

    /// Surveys the hand, and runs a visit with it and the budget.
    pub fn run<O: Observer>(self, observer: &mut O) -> Ran {
        let mut chart = vec![0; self.cells.len()];
        let reach = survey(&self.hand, &self.cells, &mut chart)
            .expect("the chart has a byte for each cell");
        let before = self.cells.clone();
        let mut machine = Machine::open(self.hand, self.cells);
        let steps = machine.run(self.budget, observer);
        let changes = before
            .iter()
            .zip(&machine.cells)
            .enumerate()
            .filter(|(_, (before, after))| before != after)
            .map(|(address, (_, &after))| (address, after))
            .collect();
        Ran {
            reach,
            standing: machine.standing,
            steps,
            changes,
        }
    }
}

impl Report {
    /// What the program makes of an input.
    pub fn of<O: Observer>(input: &[u8], observer: &mut O) -> Report {
        match Sheet::read(input) {
            Ok(sheet) => Report::Ran(sheet.run(observer)),
            Err(refused) => Report::Refused(refused),
        }
    }
}

/// The lines that the program prints, each with its line feed.
impl fmt::Display for Report {
    fn fmt(&self, out: &mut fmt::Formatter<'_>) -> fmt::Result {
        let ran = match self {
            Report::Refused(Refused { refusal, offset }) => {
                return writeln!(out, "refused {} at {offset}", refusal.number());
            }
            Report::Ran(ran) => ran,
        };
        writeln!(out, "reach {} {}", ran.reach.marked, ran.reach.writable)?;
        let outcome = match ran.standing {
            Standing::Running => "running",
            Standing::Halted => "halted",
            Standing::Failed { .. } => "failed",
        };
        writeln!(out, "outcome {outcome} steps {}", ran.steps)?;
        if let Standing::Failed { fault, place } = ran.standing {
            match place {
                Some(place) => writeln!(out, "fault {} at {place}", fault.number())?,
                None => writeln!(out, "fault {} at -", fault.number())?,
            }
        }
        for (address, word) in &ran.changes {
            match word {
                Word::Int(value) => writeln!(out, "cell {address} int {value}")?,
                Word::Cap(cap) => writeln!(
                    out,
                    "cell {address} cap {} {} {} {} {}",
                    cap.permission.code(),
                    cap.locality.code(),
                    cap.base,
                    cap.end,
                    cap.cursor
                )?,
            }
        }
        Ok(())
    }
}

#[cfg(test)]
mod tests {
    use super::*;
    use crate::instructions::{Instruction, Operand};
    use crate::words::{Capability, Locality, Permission};

    fn prints(input: &[u8]) -> String {
        Report::of(input, &mut ()).to_string()
    }

    /// The sheet of the example in the rules, byte by byte.
    fn example() -> Vec<u8> {
        let mut input = vec![0, 0, 0, 10];
        input.extend([0xA0, 0, 0, 0, 1, 0, 0, 0]);
        input.extend([0x92, 0, 2, 0, 1, 0x80, 0, 0x80]);
        input.extend([0; 8 * 14]);
        for integer in [473_970_688u64, 134_217_728, 0] {
            input.extend(integer.to_be_bytes());
        }
        input
    }

    #[test]
    fn the_example_of_the_rules() {
        let input = example();
        assert_eq!(
            prints(&input),
            "reach 3 1\noutcome halted steps 2\ncell 2 int 7\n"
        );
        assert_eq!(Sheet::read(&input).unwrap().write(), input);
    }

    #[test]
    fn the_budget_ends_a_run() {
        let mut input = example();
        input[3] = 1;
        assert_eq!(
            prints(&input),
            "reach 3 1\noutcome running steps 1\ncell 2 int 7\n"
        );
        input[3] = 0;
        assert_eq!(prints(&input), "reach 3 1\noutcome running steps 0\n");
        // Most significant first.
        input[0] = 1;
        assert_eq!(Sheet::read(&input).unwrap().budget, 1 << 24);
    }

    #[test]
    fn lengths_that_no_sheet_has() {
        for length in [
            0,
            3,
            4,
            131,
            133,
            139,
            141,
            CELLS + GROUP * MOST_CELLS + GROUP,
        ] {
            // The length comes before the groups, which pack no word here.
            assert_eq!(prints(&vec![0xFF; length]), "refused 7 at 0\n", "{length}");
        }
        assert_eq!(prints(&[0; CELLS]), "reach 0 0\noutcome running steps 0\n");
        let longest = vec![0; CELLS + GROUP * MOST_CELLS];
        assert_eq!(prints(&longest), "reach 0 0\noutcome running steps 0\n");
    }

    #[test]
    fn the_first_group_that_packs_no_word() {
        let mut input = example();
        input[CELLS + 2 * GROUP] = 1;
        assert_eq!(prints(&input), "refused 5 at 148\n");
        input[CELLS] = 1;
        assert_eq!(prints(&input), "refused 5 at 132\n");
        input[HAND + 15 * GROUP] = 1;
        assert_eq!(prints(&input), "refused 5 at 124\n");
        input[HAND] = 1;
        assert_eq!(prints(&input), "refused 5 at 4\n");
        // Any four bytes are a budget.
        input[..4].fill(0xFF);
        assert_eq!(prints(&input), "refused 5 at 4\n");
    }

    #[test]
    fn an_integer_in_the_pc_has_no_place() {
        let mut input = vec![0; CELLS];
        input[3] = 2;
        assert_eq!(
            prints(&input),
            "reach 0 0\noutcome failed steps 1\nfault 11 at -\n"
        );
    }

    #[test]
    fn only_words_that_are_another_now_are_printed() {
        let cap = |permission, locality, base, end, cursor| {
            Word::Cap(Capability {
                permission,
                locality,
                base,
                end,
                cursor,
            })
        };
        let mut hand = [Word::ZERO; REGISTERS];
        hand[0] = cap(Permission::RX, Locality::Global, 0, 4, 0);
        hand[1] = cap(Permission::RWL, Locality::Local, 0, 7, 4);
        let store = |operand| Word::Int(Instruction::Store(1, operand).pack().unwrap());
        let next = Word::Int(Instruction::Lea(1, Operand::Constant(1)).pack().unwrap());
        let cells = vec![
            store(Operand::Constant(0)), // what is there already
            next,
            store(Operand::Register(1)),
            store(Operand::Constant(-3)), // replaces it
            Word::ZERO,
            Word::ZERO,
        ];
        let report = Report::of(
            &Sheet {
                budget: 3,
                hand,
                cells: cells.clone(),
            }
            .write(),
            &mut (),
        );
        let text = "reach 6 6\noutcome running steps 3\ncell 5 cap 3 1 0 7 5\n";
        assert_eq!(report.to_string(), text);
        let report = Report::of(
            &Sheet {
                budget: 9,
                hand,
                cells,
            }
            .write(),
            &mut (),
        );
        let text = "reach 6 6\noutcome failed steps 5\nfault 11 at 4\ncell 5 int -3\n";
        assert_eq!(report.to_string(), text);
    }
}
