//! One step, and runs of them.

use crate::instructions::{Instruction, Operand, Register};
use crate::words::{Capability, Hand, Locality, Permission, Word, LIMIT, REGISTERS};

/// Why a step failed. The numbers are those of the rules.
#[derive(Clone, Copy, PartialEq, Eq, Debug)]
#[repr(u8)]
pub enum Fault {
    NotExecutable = 11,
    NoInstruction = 12,
    WrongKind = 13,
    NotPermitted = 14,
    NotCovered = 15,
    NoCell = 16,
    LocalNotStorable = 17,
    OutOfRange = 18,
    NotBelow = 19,
    ZeroDivisor = 20,
    Ordered = 21,
    CannotAdvance = 22,
    UnknownPair = 23,
}

impl Fault {
    pub fn number(self) -> u8 {
        self as u8
    }
}

/// What a step that did not fault asks for next.
#[derive(Clone, Copy, PartialEq, Eq, Debug)]
pub enum Flow {
    Go,
    Halt,
}

/// How a visit stands.
#[derive(Clone, Copy, PartialEq, Eq, Debug)]
pub enum Standing {
    Running,
    Halted,
    /// The place is the cursor of the pc before the step that faulted, absent
    /// where the pc holds an integer.
    Failed {
        fault: Fault,
        place: Option<u32>,
    },
}

/// Sees the steps of a run go by; all of it does nothing unless it is written.
pub trait Observer {
    /// A step has fetched this instruction and comes to its checks.
    #[inline]
    fn fetched(&mut self, _instruction: Instruction) {}

    /// The step has faulted, with this instruction if it had fetched one.
    #[inline]
    fn faulted(&mut self, _instruction: Option<Instruction>, _fault: Fault) {}
}

/// Sees nothing.
impl Observer for () {}

/// A visit: the registers and the cells that it works on.
#[derive(Clone, Debug)]
pub struct Machine {
    pub registers: Hand,
    pub cells: Vec<Word>,
    pub standing: Standing,
}

impl Machine {
    /// Opens a visit. Nothing is checked.
    pub fn open(hand: Hand, cells: Vec<Word>) -> Machine {
        Machine {
            registers: hand,
            cells,
            standing: Standing::Running,
        }
    }

    /// Runs up to `budget` steps and gives those made. The step that halts or
    /// faults counts; a visit that has halted or failed makes none.
    pub fn run<O: Observer>(&mut self, budget: u32, observer: &mut O) -> u32 {
        let mut steps = 0;
        while steps < budget && self.standing == Standing::Running {
            steps += 1;
            match self.step(observer) {
                Ok(Flow::Go) => {}
                Ok(Flow::Halt) => self.standing = Standing::Halted,
                Err(fault) => {
                    // A fault changes no register and no cell: the pc is still
                    // what it was before the step, and fetches the same.
                    observer.faulted(self.fetch().ok(), fault);
                    let place = match self.registers[0] {
                        Word::Cap(pc) => Some(pc.cursor),
                        Word::Int(_) => None,
                    };
                    self.standing = Standing::Failed { fault, place };
                }
            }
        }
        steps
    }

    /// Makes one step. Whatever it changes it changes after its last check,
    /// so that a fault changes no register and no cell.
    #[inline]
    pub fn step<O: Observer>(&mut self, observer: &mut O) -> Result<Flow, Fault> {
        let instruction = self.fetch()?;
        observer.fetched(instruction);
        self.execute(instruction)
    }

    /// The instruction at the pc.
    #[inline]
    pub fn fetch(&self) -> Result<Instruction, Fault> {
        let Word::Cap(pc) = self.registers[0] else {
            return Err(Fault::NotExecutable);
        };
        if !pc.permission.executes() || !pc.covers_cursor() {
            return Err(Fault::NotExecutable);
        }
        match self.cell(pc.cursor)? {
            Word::Int(integer) => Instruction::unpack(integer).ok_or(Fault::NoInstruction),
            Word::Cap(_) => Err(Fault::NoInstruction),
        }
    }

    #[inline]
    fn execute(&mut self, instruction: Instruction) -> Result<Flow, Fault> {
        use Instruction::*;
        match instruction {
            Fail => Err(Fault::Ordered),
            Halt => Ok(Flow::Halt),

            Jmp(d) => self.jump(d),
            Jnz(d, a) => {
                // Any capability and any integer other than 0 takes the jump.
                if self.operand(a) == Word::ZERO {
                    self.advance()
                } else {
                    self.jump(d)
                }
            }

            Move(d, a) => self.put(d, self.operand(a)),
            Isptr(d, a) => {
                let is_capability = matches!(self.operand(a), Word::Cap(_));
                self.put(d, Word::Int(is_capability.into()))
            }

            Load(d, a) => {
                let cap = capability(self.register(a))?;
                if !cap.permission.reads() {
                    return Err(Fault::NotPermitted);
                }
                if !cap.covers_cursor() {
                    return Err(Fault::NotCovered);
                }
                let word = self.cell(cap.cursor)?;
                self.put(d, word)
            }
            Store(d, a) => {
                let cap = capability(self.register(d))?;
                if !cap.permission.writes() {
                    return Err(Fault::NotPermitted);
                }
                if !cap.covers_cursor() {
                    return Err(Fault::NotCovered);
                }
                let word = self.operand(a);
                let local = matches!(word, Word::Cap(stored) if stored.locality == Locality::Local);
                if local && !cap.permission.stores_local() {
                    return Err(Fault::LocalNotStorable);
                }
                // The pc was covered, hence below its end: the advance that
                // follows never fails, and the store may come before it.
                *self
                    .cells
                    .get_mut(cap.cursor as usize)
                    .ok_or(Fault::NoCell)? = word;
                self.advance()
            }

            Plus(d, a, b) => {
                let (a, b) = self.integers(a, b)?;
                self.put(d, Word::Int(a.checked_add(b).ok_or(Fault::OutOfRange)?))
            }
            Minus(d, a, b) => {
                let (a, b) = self.integers(a, b)?;
                self.put(d, Word::Int(a.checked_sub(b).ok_or(Fault::OutOfRange)?))
            }
            Lt(d, a, b) => {
                let (a, b) = self.integers(a, b)?;
                self.put(d, Word::Int((a < b).into()))
            }
            Quot(d, a, b) => {
                let (a, b) = self.integers(a, b)?;
                if b == 0 {
                    return Err(Fault::ZeroDivisor);
                }
                self.put(d, Word::Int(quotient(a, b).ok_or(Fault::OutOfRange)?))
            }

            Lea(d, a) => {
                let cap = capability(self.register(d))?;
                let distance = integer(self.operand(a))?;
                if cap.permission == Permission::E {
                    return Err(Fault::NotPermitted);
                }
                let cursor = address(i64::from(cap.cursor) + i64::from(distance))?;
                self.put(d, Word::Cap(Capability { cursor, ..cap }))
            }
            Restrict(d, a) => {
                let cap = capability(self.register(d))?;
                let pair = integer(self.operand(a))?;
                let (permission, locality) = rights(pair).ok_or(Fault::UnknownPair)?;
                if !cap.rights_above(permission, locality) {
                    return Err(Fault::NotBelow);
                }
                self.put(
                    d,
                    Word::Cap(Capability {
                        permission,
                        locality,
                        ..cap
                    }),
                )
            }
            Subseg(d, a, b) => {
                let cap = capability(self.register(d))?;
                let (a, b) = self.integers(a, b)?;
                if cap.permission == Permission::E {
                    return Err(Fault::NotPermitted);
                }
                let base = address(a.into())?;
                let end = address(b.into())?;
                if !cap.bounds_above(base, end) {
                    return Err(Fault::NotBelow);
                }
                self.put(d, Word::Cap(Capability { base, end, ..cap }))
            }

            Getp(d, a) => self.get(d, a, |cap| cap.permission.code()),
            Getl(d, a) => self.get(d, a, |cap| cap.locality.code()),
            Getb(d, a) => self.get(d, a, |cap| cap.base),
            Gete(d, a) => self.get(d, a, |cap| cap.end),
            Geta(d, a) => self.get(d, a, |cap| cap.cursor),
        }
    }

    /// The word of a register; an unpacked instruction names none above 15.
    #[inline]
    fn register(&self, register: Register) -> Word {
        self.registers[usize::from(register) % REGISTERS]
    }

    #[inline]
    fn operand(&self, operand: Operand) -> Word {
        match operand {
            Operand::Register(register) => self.register(register),
            Operand::Constant(constant) => Word::Int(constant.into()),
        }
    }

    #[inline]
    fn integers(&self, a: Operand, b: Operand) -> Result<(i32, i32), Fault> {
        Ok((integer(self.operand(a))?, integer(self.operand(b))?))
    }

    #[inline]
    fn cell(&self, address: u32) -> Result<Word, Fault> {
        self.cells
            .get(address as usize)
            .copied()
            .ok_or(Fault::NoCell)
    }

    /// Puts one number of the capability in A into D.
    #[inline]
    fn get(
        &mut self,
        d: Register,
        a: Register,
        part: fn(Capability) -> u32,
    ) -> Result<Flow, Fault> {
        let cap = capability(self.register(a))?;
        self.put(d, Word::Int(part(cap) as i32))
    }

    /// Puts D into the pc, an E turned to RX, without further check.
    #[inline]
    fn jump(&mut self, d: Register) -> Result<Flow, Fault> {
        self.registers[0] = match self.register(d) {
            Word::Cap(cap) if cap.permission == Permission::E => Word::Cap(Capability {
                permission: Permission::RX,
                ..cap
            }),
            word => word,
        };
        Ok(Flow::Go)
    }

    /// Writes D and advances: the pc that advances is the one that stands
    /// once D is written. Where it cannot, D is not written either.
    #[inline]
    fn put(&mut self, d: Register, word: Word) -> Result<Flow, Fault> {
        if d == 0 {
            self.registers[0] = advanced(word)?;
        } else {
            self.registers[0] = advanced(self.registers[0])?;
            self.registers[usize::from(d) % REGISTERS] = word;
        }
        Ok(Flow::Go)
    }

    /// Advances where no register is written.
    #[inline]
    fn advance(&mut self) -> Result<Flow, Fault> {
        self.registers[0] = advanced(self.registers[0])?;
        Ok(Flow::Go)
    }
}

/// The pc, its cursor grown by 1.
#[inline]
fn advanced(pc: Word) -> Result<Word, Fault> {
    match pc {
        Word::Cap(cap) if cap.cursor < LIMIT => Ok(Word::Cap(Capability {
            cursor: cap.cursor + 1,
            ..cap
        })),
        _ => Err(Fault::CannotAdvance),
    }
}

#[inline]
fn capability(word: Word) -> Result<Capability, Fault> {
    match word {
        Word::Cap(cap) => Ok(cap),
        Word::Int(_) => Err(Fault::WrongKind),
    }
}

#[inline]
fn integer(word: Word) -> Result<i32, Fault> {
    match word {
        Word::Int(integer) => Ok(integer),
        Word::Cap(_) => Err(Fault::WrongKind),
    }
}

/// A base, end or cursor within 0 to 65,536.
#[inline]
fn address(number: i64) -> Result<u32, Fault> {
    match u32::try_from(number) {
        Ok(address) if address <= LIMIT => Ok(address),
        _ => Err(Fault::OutOfRange),
    }
}

/// The permission and locality whose codes the integer holds: four times the
/// permission's plus the locality's.
fn rights(pair: i32) -> Option<(Permission, Locality)> {
    let pair = u32::try_from(pair).ok()?;
    Some((
        Permission::from_code(pair / 4)?,
        Locality::from_code(pair % 4)?,
    ))
}

/// The quotient rounded to the nearest integer, halves away from zero; none
/// where it does not fit 32 bits. The divisor is not 0.
fn quotient(a: i32, b: i32) -> Option<i32> {
    let dividend = i64::from(a).abs();
    let divisor = i64::from(b).abs();
    // ⌊|a| / |b| + 1/2⌋, over the common denominator 2 |b|.
    let nearest = (2 * dividend + divisor) / (2 * divisor);
    let signed = if (a < 0) == (b < 0) {
        nearest
    } else {
        -nearest
    };
    i32::try_from(signed).ok()
}

#[cfg(test)]
mod tests {
    use super::Instruction::*;
    use super::Operand::{Constant as C, Register as R};
    use super::*;
    use Locality::*;
    use Permission as P;

    fn cap(permission: Permission, locality: Locality, base: u32, end: u32, cursor: u32) -> Word {
        Word::Cap(Capability {
            permission,
            locality,
            base,
            end,
            cursor,
        })
    }

    /// A machine over `size` cells, whose pc is RX at cell 0, where the
    /// instruction stands.
    fn machine(instruction: Instruction, size: usize, registers: &[(usize, Word)]) -> Machine {
        let mut hand = [Word::ZERO; 16];
        hand[0] = cap(P::RX, Global, 0, size as u32, 0);
        for &(register, word) in registers {
            hand[register] = word;
        }
        let mut cells = vec![Word::ZERO; size];
        cells[0] = Word::Int(instruction.pack().unwrap());
        Machine::open(hand, cells)
    }

    /// Makes one step, and checks that a fault has changed nothing.
    fn step(machine: &mut Machine) -> Result<Flow, Fault> {
        let before = machine.clone();
        let result = machine.step(&mut ());
        if result.is_err() {
            assert_eq!(machine.registers, before.registers);
            assert_eq!(machine.cells, before.cells);
        }
        result
    }

    fn faults(instruction: Instruction, registers: &[(usize, Word)], fault: Fault) {
        let mut machine = machine(instruction, 4, registers);
        assert_eq!(step(&mut machine), Err(fault), "{instruction:?}");
    }

    fn gives(instruction: Instruction, registers: &[(usize, Word)], d: usize, word: Word) {
        let mut machine = machine(instruction, 4, registers);
        assert_eq!(step(&mut machine), Ok(Flow::Go), "{instruction:?}");
        assert_eq!(machine.registers[d], word, "{instruction:?}");
        if d != 0 {
            assert_eq!(machine.registers[0], cap(P::RX, Global, 0, 4, 1));
        }
    }

    #[test]
    fn fetching() {
        let pc = |word| {
            let mut machine = machine(Halt, 4, &[(0, word)]);
            machine.run(1, &mut ());
            machine.standing
        };
        let failed = |fault, place| Standing::Failed { fault, place };
        assert_eq!(pc(cap(P::RX, Local, 0, 1, 0)), Standing::Halted);
        assert_eq!(pc(cap(P::RWX, Global, 0, 1, 0)), Standing::Halted);
        assert_eq!(pc(cap(P::RWLX, Global, 0, 1, 0)), Standing::Halted);
        assert_eq!(pc(Word::Int(0)), failed(Fault::NotExecutable, None));
        for permission in [P::O, P::RO, P::RW, P::RWL, P::E] {
            let word = cap(permission, Global, 0, 1, 0);
            assert_eq!(pc(word), failed(Fault::NotExecutable, Some(0)));
        }
        assert_eq!(
            pc(cap(P::RX, Global, 0, 4, 4)),
            failed(Fault::NotExecutable, Some(4))
        );
        assert_eq!(
            pc(cap(P::RX, Global, 1, 4, 0)),
            failed(Fault::NotExecutable, Some(0))
        );
        // Not covered comes before no cell.
        assert_eq!(
            pc(cap(P::RX, Global, 0, 5, 5)),
            failed(Fault::NotExecutable, Some(5))
        );
        assert_eq!(
            pc(cap(P::RX, Global, 0, 5, 4)),
            failed(Fault::NoCell, Some(4))
        );
        assert_eq!(
            pc(cap(P::RX, Global, 0, 4, 3)),
            failed(Fault::NoInstruction, Some(3))
        );
        // A capability at the pc holds no instruction.
        let mut machine = machine(Halt, 4, &[]);
        machine.cells[0] = cap(P::RWLX, Global, 0, 4, 0);
        assert_eq!(step(&mut machine), Err(Fault::NoInstruction));
    }

    #[test]
    fn stops_and_jumps() {
        faults(Fail, &[], Fault::Ordered);
        assert_eq!(step(&mut machine(Halt, 4, &[])), Ok(Flow::Halt));
        let enter = cap(P::E, Local, 1, 3, 2);
        gives(Jmp(1), &[(1, enter)], 0, cap(P::RX, Local, 1, 3, 2));
        gives(Jmp(1), &[(1, Word::Int(5))], 0, Word::Int(5));
        gives(
            Jmp(1),
            &[(1, cap(P::O, Global, 9, 3, 65_536))],
            0,
            cap(P::O, Global, 9, 3, 65_536),
        );
        gives(Jnz(1, C(-1)), &[(1, enter)], 0, cap(P::RX, Local, 1, 3, 2));
        gives(
            Jnz(1, R(2)),
            &[(1, enter), (2, cap(P::O, Global, 0, 0, 0))],
            0,
            cap(P::RX, Local, 1, 3, 2),
        );
        gives(Jnz(1, C(0)), &[(1, enter)], 0, cap(P::RX, Global, 0, 4, 1));
        gives(Jmp(0), &[], 0, cap(P::RX, Global, 0, 4, 0));
        // The register that was jumped to keeps its E.
        let mut machine = machine(Jmp(1), 4, &[(1, enter)]);
        step(&mut machine).unwrap();
        assert_eq!(machine.registers[1], enter);
    }

    #[test]
    fn moves() {
        gives(Move(1, C(-512)), &[], 1, Word::Int(-512));
        // The pc as operand is the pc before it advances.
        gives(Move(1, R(0)), &[], 1, cap(P::RX, Global, 0, 4, 0));
        gives(Isptr(1, R(0)), &[], 1, Word::Int(1));
        gives(Isptr(1, C(1)), &[], 1, Word::Int(0));
        // Into the pc: what was written advances, and an E stays E.
        gives(
            Move(0, R(1)),
            &[(1, cap(P::E, Local, 0, 4, 2))],
            0,
            cap(P::E, Local, 0, 4, 3),
        );
        gives(
            Move(0, R(1)),
            &[(1, cap(P::RO, Local, 0, 4, 65_535))],
            0,
            cap(P::RO, Local, 0, 4, 65_536),
        );
        faults(
            Move(0, R(1)),
            &[(1, cap(P::RO, Local, 0, 4, 65_536))],
            Fault::CannotAdvance,
        );
        faults(Move(0, C(1)), &[], Fault::CannotAdvance);
        faults(Isptr(0, C(1)), &[], Fault::CannotAdvance);
        faults(Getp(0, 0), &[], Fault::CannotAdvance);
    }

    #[test]
    fn loads_check_in_order() {
        let with = |word| [(1, word)];
        faults(Load(2, 1), &with(Word::Int(0)), Fault::WrongKind);
        faults(
            Load(2, 1),
            &with(cap(P::O, Global, 0, 0, 9)),
            Fault::NotPermitted,
        );
        faults(
            Load(2, 1),
            &with(cap(P::E, Global, 0, 4, 0)),
            Fault::NotPermitted,
        );
        faults(
            Load(2, 1),
            &with(cap(P::RO, Global, 0, 9, 9)),
            Fault::NotCovered,
        );
        faults(
            Load(2, 1),
            &with(cap(P::RO, Global, 3, 1, 2)),
            Fault::NotCovered,
        );
        faults(
            Load(2, 1),
            &with(cap(P::RO, Global, 0, 5, 4)),
            Fault::NoCell,
        );
        let halted = Word::Int(Load(2, 1).pack().unwrap());
        gives(Load(2, 1), &with(cap(P::RO, Global, 0, 4, 0)), 2, halted);
        faults(
            Load(0, 1),
            &with(cap(P::RO, Global, 0, 4, 0)),
            Fault::CannotAdvance,
        );
    }

    #[test]
    fn stores_check_in_order() {
        let local = cap(P::O, Local, 9, 3, 0);
        let with = |word| [(1, word), (2, local)];
        faults(Store(1, R(2)), &with(Word::Int(0)), Fault::WrongKind);
        faults(
            Store(1, R(2)),
            &with(cap(P::RX, Global, 0, 0, 9)),
            Fault::NotPermitted,
        );
        faults(
            Store(1, R(2)),
            &with(cap(P::RW, Global, 0, 9, 9)),
            Fault::NotCovered,
        );
        faults(
            Store(1, R(2)),
            &with(cap(P::RW, Global, 0, 9, 8)),
            Fault::LocalNotStorable,
        );
        faults(
            Store(1, R(2)),
            &with(cap(P::RWX, Global, 0, 9, 8)),
            Fault::LocalNotStorable,
        );
        faults(
            Store(1, R(2)),
            &with(cap(P::RWL, Global, 0, 9, 8)),
            Fault::NoCell,
        );
        faults(
            Store(1, C(2)),
            &with(cap(P::RW, Global, 0, 9, 4)),
            Fault::NoCell,
        );
        let mut stored = machine(Store(1, R(2)), 4, &with(cap(P::RWLX, Local, 3, 4, 3)));
        assert_eq!(step(&mut stored), Ok(Flow::Go));
        assert_eq!(stored.cells[3], local);
        assert_eq!(stored.registers[0], cap(P::RX, Global, 0, 4, 1));
    }

    #[test]
    fn arithmetic_never_wraps() {
        let with = |a, b| [(1, Word::Int(a)), (2, Word::Int(b))];
        let (max, min) = (i32::MAX, i32::MIN);
        gives(Plus(3, R(1), R(2)), &with(max - 1, 1), 3, Word::Int(max));
        faults(Plus(3, R(1), R(2)), &with(max, 1), Fault::OutOfRange);
        faults(Plus(3, R(1), R(2)), &with(min, -1), Fault::OutOfRange);
        gives(Minus(3, R(1), R(2)), &with(min + 1, 1), 3, Word::Int(min));
        gives(Minus(3, R(1), R(2)), &with(-1, min), 3, Word::Int(max));
        faults(Minus(3, R(1), R(2)), &with(0, min), Fault::OutOfRange);
        faults(Minus(3, R(1), R(2)), &with(min, 1), Fault::OutOfRange);
        gives(Lt(3, R(1), R(2)), &with(min, max), 3, Word::Int(1));
        gives(Lt(3, R(1), R(2)), &with(5, 5), 3, Word::Int(0));
        faults(Plus(3, R(0), R(2)), &[], Fault::WrongKind);
        faults(Lt(3, R(1), R(0)), &[], Fault::WrongKind);
    }

    #[test]
    fn quotients_round_halves_away_from_zero() {
        for (a, b, rounded) in [
            (7, 2, 4),
            (-7, 2, -4),
            (7, -2, -4),
            (-7, -2, 4),
            (1, 2, 1),
            (-1, 2, -1),
            (1, 3, 0),
            (2, 3, 1),
            (-1, 3, 0),
            (-2, 3, -1),
            (5, 2, 3),
            (0, -5, 0),
            (i32::MIN, 1, i32::MIN),
            (i32::MIN, i32::MIN, 1),
            (i32::MAX, -1, -i32::MAX),
            (i32::MAX, i32::MIN, -1),
            (i32::MIN, i32::MAX, -1),
            (1 << 30, i32::MIN, -1),
            ((1 << 30) - 1, i32::MIN, 0),
            (i32::MIN, 2, -(1 << 30)),
            (i32::MAX, 2, 1 << 30),
        ] {
            gives(
                Quot(3, R(1), R(2)),
                &[(1, Word::Int(a)), (2, Word::Int(b))],
                3,
                Word::Int(rounded),
            );
        }
        faults(
            Quot(3, R(1), C(-1)),
            &[(1, Word::Int(i32::MIN))],
            Fault::OutOfRange,
        );
        faults(Quot(3, C(1), C(0)), &[], Fault::ZeroDivisor);
        faults(Quot(3, R(0), C(0)), &[], Fault::WrongKind);
    }

    #[test]
    fn cursors_move_within_range() {
        let at = |cursor| cap(P::O, Local, 9, 3, cursor);
        gives(Lea(1, C(-5)), &[(1, at(5))], 1, at(0));
        faults(Lea(1, C(-6)), &[(1, at(5))], Fault::OutOfRange);
        gives(Lea(1, C(6)), &[(1, at(65_530))], 1, at(65_536));
        faults(Lea(1, C(7)), &[(1, at(65_530))], Fault::OutOfRange);
        faults(
            Lea(1, R(2)),
            &[(1, at(65_536)), (2, Word::Int(i32::MAX))],
            Fault::OutOfRange,
        );
        faults(
            Lea(1, R(2)),
            &[(1, at(0)), (2, Word::Int(i32::MIN))],
            Fault::OutOfRange,
        );
        faults(
            Lea(1, C(0)),
            &[(1, cap(P::E, Global, 0, 4, 0))],
            Fault::NotPermitted,
        );
        faults(
            Lea(1, R(0)),
            &[(1, cap(P::E, Global, 0, 4, 0))],
            Fault::WrongKind,
        );
        faults(Lea(1, C(0)), &[], Fault::WrongKind);
        // The pc moves, and then advances.
        gives(Lea(0, C(2)), &[], 0, cap(P::RX, Global, 0, 4, 3));
        gives(
            Lea(0, R(1)),
            &[(1, Word::Int(65_535))],
            0,
            cap(P::RX, Global, 0, 4, 65_536),
        );
        faults(
            Lea(0, R(1)),
            &[(1, Word::Int(65_536))],
            Fault::CannotAdvance,
        );
        faults(Lea(0, R(1)), &[(1, Word::Int(65_537))], Fault::OutOfRange);
    }

    #[test]
    fn rights_are_restricted() {
        let from = |permission, locality| [(1, cap(permission, locality, 9, 3, 7))];
        let to = |permission, locality| cap(permission, locality, 9, 3, 7);
        gives(
            Restrict(1, C(20)),
            &from(P::RX, Global),
            1,
            to(P::E, Global),
        );
        gives(Restrict(1, C(21)), &from(P::E, Global), 1, to(P::E, Local));
        gives(Restrict(1, C(0)), &from(P::E, Global), 1, to(P::O, Global));
        faults(Restrict(1, C(16)), &from(P::E, Global), Fault::NotBelow);
        faults(Restrict(1, C(20)), &from(P::RX, Local), Fault::NotBelow);
        faults(Restrict(1, C(20)), &from(P::RWL, Global), Fault::NotBelow);
        for unknown in [2, 3, 30, 31, 32, 33, 511, -1, -4, -512] {
            faults(
                Restrict(1, C(unknown)),
                &from(P::RWLX, Global),
                Fault::UnknownPair,
            );
        }
        faults(Restrict(1, R(0)), &from(P::O, Global), Fault::WrongKind);
        faults(Restrict(1, C(2)), &[], Fault::WrongKind);
        gives(Restrict(0, C(1)), &[], 0, cap(P::O, Local, 0, 4, 1));
    }

    #[test]
    fn bounds_are_narrowed() {
        let from = |permission| [(1, cap(permission, Local, 2, 6, 65_536))];
        let to = |base, end| cap(P::O, Local, base, end, 65_536);
        gives(Subseg(1, C(2), C(6)), &from(P::O), 1, to(2, 6));
        gives(Subseg(1, C(6), C(2)), &from(P::O), 1, to(6, 2));
        gives(Subseg(1, C(9), C(0)), &from(P::O), 1, to(9, 0));
        faults(Subseg(1, C(1), C(6)), &from(P::O), Fault::NotBelow);
        faults(Subseg(1, C(2), C(7)), &from(P::O), Fault::NotBelow);
        faults(Subseg(1, C(-1), C(7)), &from(P::O), Fault::OutOfRange);
        faults(Subseg(1, C(1), C(-1)), &from(P::O), Fault::OutOfRange);
        faults(Subseg(1, C(-1), C(7)), &from(P::E), Fault::NotPermitted);
        faults(Subseg(1, C(2), R(0)), &from(P::E), Fault::WrongKind);
        let wide = [
            (1, cap(P::RO, Global, 0, 65_536, 0)),
            (2, Word::Int(65_536)),
            (3, Word::Int(65_537)),
        ];
        gives(
            Subseg(1, R(2), R(2)),
            &wide,
            1,
            cap(P::RO, Global, 65_536, 65_536, 0),
        );
        faults(Subseg(1, C(0), R(3)), &wide, Fault::OutOfRange);
        gives(Subseg(0, C(3), C(4)), &[], 0, cap(P::RX, Global, 3, 4, 1));
    }

    #[test]
    fn parts_are_read() {
        let with = [(1, cap(P::E, Local, 9, 3, 65_536))];
        gives(Getp(2, 1), &with, 2, Word::Int(5));
        gives(Getl(2, 1), &with, 2, Word::Int(1));
        gives(Getb(2, 1), &with, 2, Word::Int(9));
        gives(Gete(2, 1), &with, 2, Word::Int(3));
        gives(Geta(2, 1), &with, 2, Word::Int(65_536));
        gives(Geta(2, 0), &with, 2, Word::Int(0));
        for instruction in [Getp(2, 3), Getl(2, 3), Getb(2, 3), Gete(2, 3), Geta(2, 3)] {
            faults(instruction, &with, Fault::WrongKind);
        }
    }

    #[test]
    fn runs_stop_and_stay() {
        // A loop of one cell, then a halt on the last step of the budget.
        let mut looping = machine(Jmp(0), 1, &[]);
        assert_eq!(looping.run(0, &mut ()), 0);
        assert_eq!(looping.run(1_000, &mut ()), 1_000);
        assert_eq!(looping.standing, Standing::Running);
        let mut halting = machine(Halt, 1, &[]);
        assert_eq!(halting.run(1, &mut ()), 1);
        assert_eq!(halting.standing, Standing::Halted);
        assert_eq!(halting.run(u32::MAX, &mut ()), 0);
        let mut failing = machine(Fail, 1, &[]);
        assert_eq!(failing.run(u32::MAX, &mut ()), 1);
        let failed = Standing::Failed {
            fault: Fault::Ordered,
            place: Some(0),
        };
        assert_eq!(failing.standing, failed);
        assert_eq!(failing.run(5, &mut ()), 0);
        assert_eq!(failing.standing, failed);
    }
}
