//! The parts that sheets are drawn from: numbers at edges, words, and
//! instructions that fit the registers as they are.

use super::chance::Chance;
use crate::instructions::{assemble, Instruction, Operand, Register};
use crate::words::{Capability, Hand, Locality, Permission, Word, LIMIT, REGISTERS};

use Instruction::*;

/// What words are drawn for: a memory of this size, and whether capabilities
/// are mostly kept to few cells, so that a hand does not reach everything.
#[derive(Clone, Copy)]
pub struct Room {
    pub size: usize,
    pub narrow: bool,
}

impl Room {
    pub fn of(chance: &mut Chance, size: usize) -> Room {
        Room {
            size,
            narrow: chance.percent(45),
        }
    }

    /// A memory of any size.
    pub fn any(chance: &mut Chance) -> Room {
        let size = size(chance);
        Room::of(chance, size)
    }
}

/// The size of a memory: mostly 4 to 64 cells.
fn size(chance: &mut Chance) -> usize {
    let (low, high) = chance.weigh(&[
        (10, (0, 0)),
        (30, (1, 3)),
        (500, (4, 24)),
        (380, (25, 64)),
        (60, (65, 256)),
        (15, (257, 2_047)),
        (5, (2_048, 2_048)),
    ]);
    chance.within(low, high) as usize
}

/// A base, end or cursor: near the memory's edges, near those of all
/// addresses, or anywhere.
pub fn address(chance: &mut Chance, room: Room) -> u32 {
    let size = room.size as u32;
    match chance.below(12) {
        0 => 0,
        1 => 1,
        2 => size.saturating_sub(1),
        3 => size,
        4 => size + 1,
        5 => LIMIT - 1,
        6 => LIMIT,
        7 => chance.below(u64::from(LIMIT) + 1) as u32,
        _ => chance.below(u64::from(size) + 1) as u32,
    }
}

pub fn permission(chance: &mut Chance) -> Permission {
    chance.pick(&Permission::ALL)
}

pub fn locality(chance: &mut Chance) -> Locality {
    if chance.percent(35) {
        Locality::Local
    } else {
        Locality::Global
    }
}

/// Bounds of every kind: the whole memory, a part of it, one cell, edges
/// without any order, a base above the end.
fn bounds(chance: &mut Chance, room: Room) -> (u32, u32) {
    let cells = room.size as u32;
    if room.narrow && !chance.one_in(40) {
        let base = chance.below(u64::from(cells) + 1) as u32;
        return (base, base + chance.pick(&[0, 1, 1, 1, 2, 3, 6]));
    }
    match chance.below(12) {
        0 | 1 => (0, cells),
        2 => (0, LIMIT),
        3 => (0, cells + 1),
        4 => (address(chance, room), address(chance, room)),
        5 => {
            let (base, end) = part(chance, cells);
            (end, base)
        }
        6 | 7 => {
            let base = chance.below(u64::from(cells) + 1) as u32;
            (base, base + 1)
        }
        _ => part(chance, cells),
    }
}

fn part(chance: &mut Chance, cells: u32) -> (u32, u32) {
    let one = chance.below(u64::from(cells) + 1) as u32;
    let other = chance.below(u64::from(cells) + 1) as u32;
    (one.min(other), one.max(other))
}

/// A cursor, mostly one that the bounds cover.
fn cursor(chance: &mut Chance, room: Room, base: u32, end: u32) -> u32 {
    match chance.below(16) {
        0 => end,
        1 => base.saturating_sub(1),
        2 => address(chance, room),
        3 | 4 => base,
        5 | 6 => end.saturating_sub(1),
        _ if base < end => {
            base + chance.below(u64::from((end - base).min(room.size as u32 + 2))) as u32
        }
        _ => base,
    }
}

pub fn capability(chance: &mut Chance, room: Room) -> Capability {
    let permission = permission(chance);
    capability_with(chance, room, permission)
}

pub fn capability_with(chance: &mut Chance, room: Room, permission: Permission) -> Capability {
    let (base, end) = bounds(chance, room);
    let cursor = cursor(chance, room, base, end).min(LIMIT);
    Capability {
        permission,
        locality: locality(chance),
        base,
        end: end.min(LIMIT),
        cursor,
    }
}

/// An integer: at the edges of 32 bits, of addresses, of constants, of the
/// numbers of pairs, small, or anything.
pub fn integer(chance: &mut Chance, room: Room) -> i32 {
    let spread = chance.within(-1, 1) as i32;
    match chance.below(16) {
        0 => i32::MAX - chance.below(3) as i32,
        1 => i32::MIN + chance.below(3) as i32,
        2 => LIMIT as i32 + spread,
        3 => -(LIMIT as i32) + spread,
        4 => room.size as i32 + spread,
        5 => chance.pick(&[511, 512, -512, -513]),
        6 => chance.pick(&[
            1 << 30,
            -(1 << 30),
            (1 << 30) - 1,
            (1 << 30) + 1,
            1 << 16,
            46_341,
        ]),
        7 => chance.within(-2, 34) as i32,
        8 => chance.next() as i32,
        9 => (chance.next() as i32) >> chance.below(32),
        10 => address(chance, room) as i32,
        _ => chance.within(-4, 9) as i32,
    }
}

/// An integer at a limit of what can be done to the capability: an edge of its
/// bounds, a way for its cursor to an edge of all addresses, or the number of
/// a pair of rights.
pub fn integer_near(chance: &mut Chance, cap: &Capability) -> i32 {
    let spread = chance.within(-1, 1) as i32;
    let cursor = cap.cursor as i32;
    match chance.below(6) {
        0 => cap.base as i32 + spread,
        1 => cap.end as i32 + spread,
        2 => -cursor + spread,
        3 => LIMIT as i32 - cursor + spread,
        4 => cap.end as i32 - cursor + spread,
        _ => pair(chance, cap).into(),
    }
}

/// The number of a pair of rights: below those of the capability, or any, or
/// of none.
pub fn pair(chance: &mut Chance, cap: &Capability) -> i16 {
    if chance.one_in(10) {
        return chance.pick(&[2, 3, 6, 7, 22, 30, 31, 32, 33, 34, 64, 511, -1, -4, -512]);
    }
    let rounds = if chance.percent(75) { 40 } else { 1 };
    let mut drawn = (Permission::O, Locality::Local);
    for _ in 0..rounds {
        drawn = (permission(chance), locality(chance));
        if cap.rights_above(drawn.0, drawn.1) {
            break;
        }
    }
    (4 * drawn.0.code() + drawn.1.code()) as i16
}

/// Two integers for a quotient: mostly at or next to a half.
pub fn quotient(chance: &mut Chance, room: Room) -> (i32, i32) {
    if chance.one_in(12) {
        // The one quotient that 32 bits do not hold, and its neighbours.
        return (i32::MIN + chance.below(2) as i32, chance.pick(&[-1, -1, 1]));
    }
    let divisor = match chance.below(4) {
        0 => integer(chance, room),
        1 => chance.within(-9, 9) as i32,
        2 => chance.pick(&[1, -1, 2, -2, i32::MIN, i32::MAX, 0]),
        _ => (chance.next() as i32) >> chance.below(32),
    };
    if chance.one_in(4) {
        return (integer(chance, room), divisor);
    }
    let wide = i64::from(divisor);
    let most = i64::from(i32::MAX) / wide.abs().max(1);
    let most = if chance.one_in(3) { most } else { most.min(40) };
    let near = wide * chance.within(-most, most);
    let half = wide / 2 * chance.within(-1, 1);
    let dividend = near + half + chance.within(-1, 1);
    (
        dividend.clamp(i32::MIN.into(), i32::MAX.into()) as i32,
        divisor,
    )
}

/// A word of any kind.
pub fn word(chance: &mut Chance, room: Room) -> Word {
    match chance.below(20) {
        0..=5 => Word::ZERO,
        6..=8 => Word::Int(integer(chance, room)),
        9..=14 => Word::Cap(capability(chance, room)),
        15..=18 => {
            let hand = [Word::ZERO; REGISTERS];
            held(instruction(chance, &hand, room, 2))
        }
        _ => Word::Int(near_instruction(chance, room)),
    }
}

/// The word that holds an instruction; those that are drawn all pack.
pub fn held(instruction: Instruction) -> Word {
    Word::Int(instruction.pack().expect("a drawn instruction packs"))
}

pub fn constant(chance: &mut Chance) -> i16 {
    match chance.below(10) {
        0..=5 => chance.within(-4, 6) as i16,
        6 | 7 => chance.pick(&[511, 510, -512, -511, 256, 255, -256, 16, 32]),
        _ => chance.within(-512, 511) as i16,
    }
}

/// A register whose word fits, but one time in `slack` any register.
fn register(
    chance: &mut Chance,
    hand: &Hand,
    slack: u64,
    fits: impl Fn(&Word) -> bool,
) -> Register {
    let any = chance.below(REGISTERS as u64) as Register;
    if chance.one_in(slack) {
        return any;
    }
    // The first that fits from there on, so that each of them is drawn.
    (0..REGISTERS as Register)
        .map(|step| (any + step) % REGISTERS as Register)
        .find(|&register| fits(&hand[usize::from(register)]))
        .unwrap_or(any)
}

/// A register to write to: seldom the pc, and mostly one that holds an
/// integer, so that capabilities last.
fn target(chance: &mut Chance, hand: &Hand) -> Register {
    if chance.one_in(40) {
        return 0;
    }
    if chance.percent(75) {
        return register(chance, hand, 20, is_integer).max(1);
    }
    chance.within(1, 15) as Register
}

fn is_integer(word: &Word) -> bool {
    matches!(word, Word::Int(_))
}

fn is_capability(word: &Word) -> bool {
    matches!(word, Word::Cap(_))
}

fn any_operand(chance: &mut Chance) -> Operand {
    if chance.percent(70) {
        Operand::Register(chance.below(REGISTERS as u64) as Register)
    } else {
        Operand::Constant(constant(chance))
    }
}

fn integer_operand(chance: &mut Chance, hand: &Hand, slack: u64) -> Operand {
    if chance.one_in(2 * slack) {
        any_operand(chance)
    } else if chance.percent(50) {
        Operand::Constant(constant(chance))
    } else {
        Operand::Register(register(chance, hand, 2 * slack, is_integer))
    }
}

/// A constant, or a register that holds the same, near the number wanted.
fn operand_for(chance: &mut Chance, hand: &Hand, slack: u64, wanted: i32) -> Operand {
    if chance.one_in(slack) || !(-512..=511).contains(&wanted) {
        let same = |word: &Word| *word == Word::Int(wanted);
        if chance.percent(50) {
            return Operand::Register(register(chance, hand, 3 * slack, same));
        }
        return integer_operand(chance, hand, slack);
    }
    Operand::Constant(wanted as i16)
}

/// An instruction that fits the registers as they are; one time in about
/// `slack`, each operand is anything.
pub fn instruction(chance: &mut Chance, hand: &Hand, room: Room, slack: u64) -> Instruction {
    let opcode = chance.weigh(&[
        (1, 1),
        (1, 2),
        (4, 3),
        (7, 4),
        (7, 5),
        (10, 6),
        (13, 7),
        (7, 8),
        (6, 9),
        (4, 10),
        (11, 11),
        (7, 12),
        (7, 13),
        (3, 14),
        (2, 15),
        (2, 16),
        (2, 17),
        (2, 18),
        (2, 19),
        (8, 20),
    ]);
    instruction_with(chance, hand, room, slack, opcode)
}

/// The same for an opcode from 1 to 20.
pub fn instruction_with(
    chance: &mut Chance,
    hand: &Hand,
    room: Room,
    slack: u64,
    opcode: u32,
) -> Instruction {
    let inside = |cap: &Capability| cap.covers_cursor() && (cap.cursor as usize) < room.size;
    let enterable = |word: &Word| {
        matches!(word, Word::Cap(cap)
            if inside(cap) && (cap.permission.executes() || cap.permission == Permission::E))
    };
    let readable =
        |word: &Word| matches!(word, Word::Cap(cap) if inside(cap) && cap.permission.reads());
    let writable =
        |word: &Word| matches!(word, Word::Cap(cap) if inside(cap) && cap.permission.writes());
    let movable = |word: &Word| matches!(word, Word::Cap(cap) if cap.permission != Permission::E);
    match opcode {
        1 => Fail,
        2 => Halt,
        3 => Jmp(register(chance, hand, slack, enterable)),
        4 => {
            let d = register(chance, hand, slack, enterable);
            Jnz(d, any_operand(chance))
        }
        5 => Move(target(chance, hand), any_operand(chance)),
        6 => {
            let d = target(chance, hand);
            Load(d, register(chance, hand, slack, readable))
        }
        7 => {
            let d = register(chance, hand, slack, writable);
            Store(d, any_operand(chance))
        }
        8 | 9 | 10 | 20 => {
            let d = target(chance, hand);
            let a = integer_operand(chance, hand, slack);
            let b = integer_operand(chance, hand, slack);
            match opcode {
                8 => Plus(d, a, b),
                9 => Minus(d, a, b),
                10 => Lt(d, a, b),
                _ => Quot(d, a, b),
            }
        }
        11 => {
            let d = register(chance, hand, slack, movable);
            if chance.percent(60) {
                return Lea(d, Operand::Constant(chance.within(-3, 3) as i16));
            }
            let wanted = near(chance, hand, d);
            Lea(d, operand_for(chance, hand, slack, wanted))
        }
        12 => {
            let d = register(chance, hand, slack, is_capability);
            let wanted = match hand[usize::from(d)] {
                Word::Cap(cap) => pair(chance, &cap),
                Word::Int(_) => constant(chance),
            };
            Restrict(d, operand_for(chance, hand, slack, wanted.into()))
        }
        13 => {
            let d = register(chance, hand, slack, movable);
            let (mut base, mut end) = (near(chance, hand, d), near(chance, hand, d));
            if let Word::Cap(cap) = hand[usize::from(d)] {
                if chance.percent(75) {
                    // Within the bounds, if they are in order.
                    base = (base.max(cap.base as i32)).min(cap.end.max(cap.base) as i32);
                    end = (end.max(base)).min(cap.end as i32);
                }
            }
            let a = operand_for(chance, hand, slack, base);
            Subseg(d, a, operand_for(chance, hand, slack, end))
        }
        14 => Isptr(target(chance, hand), any_operand(chance)),
        _ => {
            let d = target(chance, hand);
            let a = register(chance, hand, slack, is_capability);
            match opcode {
                15 => Getp(d, a),
                16 => Getl(d, a),
                17 => Getb(d, a),
                18 => Gete(d, a),
                _ => Geta(d, a),
            }
        }
    }
}

fn near(chance: &mut Chance, hand: &Hand, register: Register) -> i32 {
    match hand[usize::from(register)] {
        Word::Cap(cap) => integer_near(chance, &cap),
        Word::Int(_) => constant(chance).into(),
    }
}

/// An integer that is almost an instruction: an unused field set, a register
/// above 15, a constant where a register must stand, bit 31 set, or an opcode
/// that is none. One or the other comes out as an instruction after all.
pub fn near_instruction(chance: &mut Chance, room: Room) -> i32 {
    let hand = [Word::ZERO; REGISTERS];
    let drawn = instruction(chance, &hand, room, 2);
    let integer = drawn.pack().expect("a drawn instruction packs");
    let high_register = 0x400 | chance.pick(&[16, 17, 31, 32, 512, 1_023]);
    let d = chance.below(16) as u32;
    match chance.below(9) {
        // Any one bit.
        0 => integer ^ 1 << chance.below(32),
        // A constant where a register must stand.
        1 => assemble(
            chance.pick(&[6, 15, 16, 17, 18, 19]),
            d,
            chance.below(1_024) as u32,
            0,
        ),
        // A register above 15 in A, or in B.
        2 => assemble(
            chance.pick(&[4, 5, 6, 7, 11, 12, 14, 15, 19]),
            d,
            high_register,
            0,
        ),
        3 => assemble(chance.pick(&[8, 9, 10, 13, 20]), d, 0x401, high_register),
        // An unused D, A or B.
        4 => assemble(chance.pick(&[1, 2]), d, 0, 0),
        5 => assemble(
            chance.pick(&[1, 2, 3]),
            0,
            chance.pick(&[1, 0x400, 0x401, 0x3FF]),
            0,
        ),
        6 => integer | chance.pick(&[1, 0x400, 0x401, 0x200]),
        // Opcodes that are none.
        7 => assemble(chance.pick(&[0, 21, 22, 31]), d, 0x401, 0x401),
        _ => integer | i32::MIN,
    }
}

/// A hand: an executable pc over `code`, whose cursor is at its start; all
/// other registers anything.
pub fn hand(chance: &mut Chance, room: Room, code: (usize, usize)) -> Hand {
    let mut hand = [Word::ZERO; REGISTERS];
    for word in hand.iter_mut().skip(1) {
        *word = match chance.below(10) {
            0..=3 => Word::Int(integer(chance, room)),
            4 => Word::Cap(pc(chance, room, code)),
            5..=7 => {
                let permission = chance.pick(&[
                    Permission::RW,
                    Permission::RWL,
                    Permission::RWX,
                    Permission::RWLX,
                ]);
                Word::Cap(capability_with(chance, room, permission))
            }
            _ => Word::Cap(capability(chance, room)),
        };
    }
    // Some of the integers are at the limits of the capabilities.
    for index in 1..REGISTERS {
        let other = hand[chance.below(REGISTERS as u64) as usize];
        if let (Word::Int(_), Word::Cap(cap)) = (hand[index], other) {
            if chance.percent(50) {
                hand[index] = Word::Int(integer_near(chance, &cap));
            }
        }
    }
    hand[0] = Word::Cap(pc(chance, room, code));
    if chance.one_in(60) {
        hand[0] = word(chance, room);
    }
    hand
}

/// A capability that executes, at the start of the code.
pub fn pc(chance: &mut Chance, room: Room, code: (usize, usize)) -> Capability {
    let (start, stop) = (code.0 as u32, code.1 as u32);
    let permission = chance.pick(&[Permission::RX, Permission::RWX, Permission::RWLX]);
    let locality = locality(chance);
    if room.narrow && !chance.one_in(40) {
        return Capability {
            permission,
            locality,
            base: start,
            end: stop,
            cursor: start,
        };
    }
    let base = chance.weigh(&[(3, 0), (3, start), (1, start.saturating_sub(1))]);
    let end = chance.weigh(&[
        (4, room.size as u32),
        (3, stop),
        (1, room.size as u32 + 1),
        (1, LIMIT),
        (1, stop.saturating_sub(1)),
    ]);
    Capability {
        permission,
        locality,
        base,
        end,
        cursor: start,
    }
}
