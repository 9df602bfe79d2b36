//! Instructions, and how an integer holds one.

use crate::words::{Refusal, REGISTERS};

/// A register number. Those of an unpacked instruction are at most 15.
pub type Register = u8;

/// Operand A or B: a register or a constant. The constants of an unpacked
/// instruction are from −512 to 511.
#[derive(Clone, Copy, PartialEq, Eq, Debug)]
pub enum Operand {
    Register(Register),
    Constant(i16),
}

/// An instruction. The register D comes first, then A and B.
#[derive(Clone, Copy, PartialEq, Eq, Debug)]
pub enum Instruction {
    Fail,
    Halt,
    Jmp(Register),
    Jnz(Register, Operand),
    Move(Register, Operand),
    Load(Register, Register),
    Store(Register, Operand),
    Plus(Register, Operand, Operand),
    Minus(Register, Operand, Operand),
    Lt(Register, Operand, Operand),
    Lea(Register, Operand),
    Restrict(Register, Operand),
    Subseg(Register, Operand, Operand),
    Isptr(Register, Operand),
    Getp(Register, Register),
    Getl(Register, Register),
    Getb(Register, Register),
    Gete(Register, Register),
    Geta(Register, Register),
    Quot(Register, Operand, Operand),
}

use Instruction::*;

/// The instructions' names, each at the place of its opcode; there is no
/// opcode 0.
pub const NAMES: [&str; 21] = [
    "-", "fail", "halt", "jmp", "jnz", "move", "load", "store", "plus", "minus", "lt", "lea",
    "restrict", "subseg", "isptr", "getp", "getl", "getb", "gete", "geta", "quot",
];

/// The bit of an operand's eleven that says that it is a register.
const IS_REGISTER: u32 = 1 << 10;

impl Operand {
    /// The operand in eleven bits: the highest says which kind, the other ten
    /// are a register's number or a signed constant.
    #[inline]
    fn unpack(field: u32) -> Option<Operand> {
        let low = field & 0x3FF;
        if field & IS_REGISTER == 0 {
            // Ten bits of two's complement: sign-extended from bit 9.
            return Some(Operand::Constant(((low << 6) as u16 as i16) >> 6));
        }
        (low < REGISTERS as u32).then_some(Operand::Register(low as Register))
    }

    fn pack(self) -> Result<u32, Refusal> {
        match self {
            Operand::Register(register) if usize::from(register) < REGISTERS => {
                Ok(IS_REGISTER | u32::from(register))
            }
            Operand::Register(_) => Err(Refusal::NoRegister),
            Operand::Constant(constant) if (-512..=511).contains(&constant) => {
                Ok(constant as u32 & 0x3FF)
            }
            Operand::Constant(_) => Err(Refusal::OutOfRange),
        }
    }
}

/// The register in an operand's eleven bits, where a register must stand.
#[inline]
fn unpack_register(field: u32) -> Option<Register> {
    match Operand::unpack(field)? {
        Operand::Register(register) => Some(register),
        Operand::Constant(_) => None,
    }
}

/// An integer out of an opcode, D, and the eleven bits each of A and B,
/// whether or not it then holds an instruction.
pub fn assemble(opcode: u32, d: u32, a: u32, b: u32) -> i32 {
    (opcode << 26 | d << 22 | a << 11 | b) as i32
}

impl Instruction {
    /// The instruction that the integer holds, if it holds one.
    #[inline]
    pub fn unpack(integer: i32) -> Option<Instruction> {
        let bits = integer as u32;
        // Bit 31 belongs to no opcode: with it set, this is 32 or more.
        let opcode = bits >> 26;
        let d = (bits >> 22 & 15) as Register;
        let a = bits >> 11 & 0x7FF;
        let b = bits & 0x7FF;
        // Each line asks that the fields that its opcode does not use are zero.
        let instruction = match opcode {
            1 if d == 0 && a == 0 && b == 0 => Fail,
            2 if d == 0 && a == 0 && b == 0 => Halt,
            3 if a == 0 && b == 0 => Jmp(d),
            4 if b == 0 => Jnz(d, Operand::unpack(a)?),
            5 if b == 0 => Move(d, Operand::unpack(a)?),
            6 if b == 0 => Load(d, unpack_register(a)?),
            7 if b == 0 => Store(d, Operand::unpack(a)?),
            8 => Plus(d, Operand::unpack(a)?, Operand::unpack(b)?),
            9 => Minus(d, Operand::unpack(a)?, Operand::unpack(b)?),
            10 => Lt(d, Operand::unpack(a)?, Operand::unpack(b)?),
            11 if b == 0 => Lea(d, Operand::unpack(a)?),
            12 if b == 0 => Restrict(d, Operand::unpack(a)?),
            13 => Subseg(d, Operand::unpack(a)?, Operand::unpack(b)?),
            14 if b == 0 => Isptr(d, Operand::unpack(a)?),
            15 if b == 0 => Getp(d, unpack_register(a)?),
            16 if b == 0 => Getl(d, unpack_register(a)?),
            17 if b == 0 => Getb(d, unpack_register(a)?),
            18 if b == 0 => Gete(d, unpack_register(a)?),
            19 if b == 0 => Geta(d, unpack_register(a)?),
            20 => Quot(d, Operand::unpack(a)?, Operand::unpack(b)?),
            _ => return None,
        };
        Some(instruction)
    }

    /// The opcode, and the fields D, A and B that the instruction uses.
    fn fields(self) -> (u32, Option<Register>, Option<Operand>, Option<Operand>) {
        let register = |register| Some(Operand::Register(register));
        match self {
            Fail => (1, None, None, None),
            Halt => (2, None, None, None),
            Jmp(d) => (3, Some(d), None, None),
            Jnz(d, a) => (4, Some(d), Some(a), None),
            Move(d, a) => (5, Some(d), Some(a), None),
            Load(d, a) => (6, Some(d), register(a), None),
            Store(d, a) => (7, Some(d), Some(a), None),
            Plus(d, a, b) => (8, Some(d), Some(a), Some(b)),
            Minus(d, a, b) => (9, Some(d), Some(a), Some(b)),
            Lt(d, a, b) => (10, Some(d), Some(a), Some(b)),
            Lea(d, a) => (11, Some(d), Some(a), None),
            Restrict(d, a) => (12, Some(d), Some(a), None),
            Subseg(d, a, b) => (13, Some(d), Some(a), Some(b)),
            Isptr(d, a) => (14, Some(d), Some(a), None),
            Getp(d, a) => (15, Some(d), register(a), None),
            Getl(d, a) => (16, Some(d), register(a), None),
            Getb(d, a) => (17, Some(d), register(a), None),
            Gete(d, a) => (18, Some(d), register(a), None),
            Geta(d, a) => (19, Some(d), register(a), None),
            Quot(d, a, b) => (20, Some(d), Some(a), Some(b)),
        }
    }

    pub fn opcode(self) -> u32 {
        self.fields().0
    }

    /// The integer that holds the instruction: refused with 2 for a register
    /// above 15 in D, A or B, and otherwise with 3 for a constant that does
    /// not fit.
    pub fn pack(self) -> Result<i32, Refusal> {
        let (opcode, d, a, b) = self.fields();
        let d = d.unwrap_or(0);
        if usize::from(d) >= REGISTERS {
            return Err(Refusal::NoRegister);
        }
        let a = a.map_or(Ok(0), Operand::pack);
        let b = b.map_or(Ok(0), Operand::pack);
        match (a, b) {
            // A register that does not exist comes before any constant.
            (Err(Refusal::NoRegister), _) | (_, Err(Refusal::NoRegister)) => {
                Err(Refusal::NoRegister)
            }
            (a, b) => Ok(assemble(opcode, u32::from(d), a?, b?)),
        }
    }
}

#[cfg(test)]
mod tests {
    use super::Operand::{Constant, Register as Reg};
    use super::*;

    #[test]
    fn examples_of_the_rules() {
        let plus = Plus(2, Reg(3), Constant(1));
        assert_eq!(plus.pack(), Ok(547_362_817));
        assert_eq!(Instruction::unpack(547_362_817), Some(plus));
        assert_eq!(Halt.pack(), Ok(134_217_728));
        assert_eq!(Instruction::unpack(134_217_728), Some(Halt));
        assert_eq!(Instruction::unpack(0), None);
        assert_eq!(Store(1, Constant(7)).pack(), Ok(473_970_688));
    }

    #[test]
    fn packing_refuses_registers_before_constants() {
        assert_eq!(Jmp(16).pack(), Err(Refusal::NoRegister));
        assert_eq!(Load(0, 16).pack(), Err(Refusal::NoRegister));
        assert_eq!(Move(0, Constant(512)).pack(), Err(Refusal::OutOfRange));
        assert_eq!(Move(0, Constant(-513)).pack(), Err(Refusal::OutOfRange));
        assert_eq!(Move(16, Constant(512)).pack(), Err(Refusal::NoRegister));
        assert_eq!(
            Plus(0, Constant(512), Reg(16)).pack(),
            Err(Refusal::NoRegister)
        );
        assert_eq!(
            Plus(0, Reg(16), Constant(512)).pack(),
            Err(Refusal::NoRegister)
        );
        assert_eq!(
            Plus(0, Reg(15), Constant(512)).pack(),
            Err(Refusal::OutOfRange)
        );
    }

    /// An integer unpacks to an instruction exactly when that instruction
    /// packs into it: over every opcode, with each field at its edges.
    #[test]
    fn unpacking_is_the_inverse_of_packing() {
        let edges = [
            0, 1, 15, 16, 0x1FF, 0x200, 0x3FF, 0x400, 0x401, 0x40F, 0x410, 0x600, 0x7FF,
        ];
        let mut held = 0;
        for opcode in 0..64 {
            for d in 0..16 {
                for a in edges {
                    for b in edges {
                        let integer = assemble(opcode, d, a, b);
                        if let Some(instruction) = Instruction::unpack(integer) {
                            assert_eq!(instruction.pack(), Ok(integer));
                            assert_eq!(instruction.opcode(), opcode);
                            held += 1;
                        }
                    }
                }
            }
        }
        // Of the thirteen edges ten are operands, and three name a register.
        // fail and halt: 1 each; jmp: 16; two-field with any A: 16 × 10 each
        // of jnz, move, store, lea, restrict, isptr; with a register A: 16 × 3
        // each of load and five more; with A and B: 16 × 100 each of five.
        assert_eq!(held, 2 + 16 + 6 * 160 + 6 * 48 + 5 * 1600);
    }

    #[test]
    fn what_holds_no_instruction() {
        for integer in [
            assemble(0, 0, 0, 0),
            assemble(21, 0, 0, 0),
            assemble(31, 15, 0x7FF, 0x7FF),
            assemble(2, 0, 0, 0) | i32::MIN, // bit 31
            assemble(1, 1, 0, 0),            // an unused D
            assemble(2, 0, 0, 1),            // an unused B
            assemble(3, 1, 0x400, 0),        // an unused A that is a register
            assemble(5, 1, 0, 0x400),        // an unused B that is a register
            assemble(5, 1, 0x410, 0),        // register 16
            assemble(5, 1, 0x7FF, 0),        // register 1,023
            assemble(6, 1, 2, 0),            // a constant where a register must stand
            assemble(19, 1, 0, 0),           // the same with all of A zero
            -1,
        ] {
            assert_eq!(Instruction::unpack(integer), None, "{integer:#x}");
        }
    }
}
