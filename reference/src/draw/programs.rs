//! Programs of several kinds, each a sheet whose budget is still to be drawn.

use super::chance::Chance;
use super::parts::{self, held, Room};
use crate::instructions::{Instruction, Operand, Register};
use crate::machine::{Fault, Flow, Machine};
use crate::sheet::Sheet;
use crate::words::{Capability, Hand, Locality, Permission, Word, LIMIT, REGISTERS};

use Instruction::*;
use Operand::{Constant as C, Register as R};

fn sheet(hand: Hand, cells: Vec<Word>) -> Sheet {
    Sheet {
        budget: 0,
        hand,
        cells,
    }
}

fn words(chance: &mut Chance, room: Room) -> Vec<Word> {
    (0..room.size).map(|_| parts::word(chance, room)).collect()
}

/// Where code starts and stops: mostly at cell 0, and in the second half.
fn code_in(chance: &mut Chance, size: usize) -> (usize, usize) {
    let start = match chance.below(10) {
        0..=5 => 0,
        6..=8 => chance.below(size as u64 / 2 + 1) as usize,
        _ => chance.below(size as u64 + 1) as usize,
    };
    let least = if chance.percent(80) {
        start + (size - start) / 2
    } else {
        start
    };
    (start, chance.within(least as i64, size as i64) as usize)
}

/// Any words in any place.
pub fn soup(chance: &mut Chance) -> Sheet {
    let room = Room::any(chance);
    let code = code_in(chance, room.size);
    let mut hand = parts::hand(chance, room, code);
    if chance.percent(40) {
        hand = hand.map(|_| parts::word(chance, room));
    }
    sheet(hand, words(chance, room))
}

/// Instructions that fit the hand as it is at the opening.
pub fn loose(chance: &mut Chance) -> Sheet {
    let room = Room::any(chance);
    let code = code_in(chance, room.size);
    let hand = parts::hand(chance, room, code);
    let mut cells = words(chance, room);
    let slack = chance.pick(&[3, 8, 20]);
    for cell in &mut cells[code.0..code.1] {
        if !chance.one_in(30) {
            *cell = held(parts::instruction(chance, &hand, room, slack));
        }
    }
    sheet(hand, cells)
}

/// The cell that the next step loads or stores, if it does and there is one.
fn touched(machine: &Machine) -> Option<usize> {
    let register = match machine.fetch().ok()? {
        Load(_, register) | Store(register, _) => register,
        _ => return None,
    };
    match machine.registers[usize::from(register)] {
        Word::Cap(cap) if (cap.cursor as usize) < machine.cells.len() => Some(cap.cursor as usize),
        _ => None,
    }
}

/// What the last instruction of a guided program should do.
#[derive(Clone, Copy, PartialEq)]
enum Aim {
    Go,
    Halt,
    Fault(Fault),
}

fn aim(chance: &mut Chance) -> Aim {
    if chance.percent(25) {
        return Aim::Halt;
    }
    Aim::Fault(chance.weigh(&[
        (2, Fault::NoInstruction),
        (3, Fault::WrongKind),
        (4, Fault::NotPermitted),
        (4, Fault::NotCovered),
        (4, Fault::NoCell),
        (4, Fault::LocalNotStorable),
        (4, Fault::OutOfRange),
        (4, Fault::NotBelow),
        (2, Fault::ZeroDivisor),
        (1, Fault::Ordered),
        (3, Fault::CannotAdvance),
        (3, Fault::UnknownPair),
    ]))
}

/// A program that is drawn while it runs: whenever the pc comes to a cell that
/// nothing has touched yet, an instruction is drawn for it that goes on, until
/// the program is long enough; then one that halts or faults as wished.
///
/// The machine here only guides: whatever comes out is a sheet like another.
pub fn guided(chance: &mut Chance) -> Sheet {
    let mut room = Room::any(chance);
    room.size = room.size.max(1);
    let size = room.size;
    let code = code_in(chance, size);
    let hand = parts::hand(chance, room, code);
    let mut cells = words(chance, room);
    let mut machine = Machine::open(hand, cells.clone());
    // The cells that the run so far depends on.
    let mut settled = vec![false; size];
    let length = chance.pick(&[1, 3, 8, 20, 60]) + chance.below(6);
    let mut drawn = 0;
    for _ in 0..600 {
        let Word::Cap(pc) = machine.registers[0] else {
            break;
        };
        let at = pc.cursor as usize;
        if !pc.permission.executes() || !pc.covers_cursor() || at >= size {
            break;
        }
        if settled[at] {
            if let Some(cell) = touched(&machine) {
                settled[cell] = true;
            }
            if machine.step(&mut ()) != Ok(Flow::Go) {
                break;
            }
            continue;
        }
        settled[at] = true;
        drawn += 1;
        let aim = if drawn > length { aim(chance) } else { Aim::Go };
        let (attempts, slack) = if aim == Aim::Go { (16, 12) } else { (80, 3) };
        let mut gone = false;
        for attempt in 1..=attempts {
            let word = match aim {
                Aim::Halt => held(Halt),
                Aim::Fault(Fault::NoInstruction) => {
                    Word::Int(parts::near_instruction(chance, room))
                }
                _ => held(parts::instruction(chance, &machine.registers, room, slack)),
            };
            cells[at] = word;
            machine.cells[at] = word;
            // A step changes registers, and at most the one cell it touches.
            let registers = machine.registers;
            let cell = touched(&machine).map(|cell| (cell, machine.cells[cell]));
            let came = match machine.step(&mut ()) {
                Ok(Flow::Go) => Aim::Go,
                Ok(Flow::Halt) => Aim::Halt,
                Err(fault) => Aim::Fault(fault),
            };
            gone = came == Aim::Go;
            // Back to code that has run: mostly a loop without an end.
            let again = gone
                && matches!(machine.registers[0],
                Word::Cap(pc) if settled.get(pc.cursor as usize) == Some(&true));
            let wanted = came == aim && (!again || chance.one_in(8));
            if wanted || attempt == attempts {
                if let (true, Some((cell, _))) = (gone, cell) {
                    settled[cell] = true;
                }
                break;
            }
            machine.registers = registers;
            if let Some((cell, word)) = cell {
                machine.cells[cell] = word;
            }
        }
        if !gone {
            break;
        }
    }
    sheet(hand, cells)
}

/// Lays code from cell 0 on and `behind` more cells after it; gives the hand
/// with its pc, and the cells.
fn laid(chance: &mut Chance, code: &[Instruction], behind: usize) -> (Room, Hand, Vec<Word>) {
    let room = Room::of(chance, code.len() + behind);
    let hand = parts::hand(chance, room, (0, room.size));
    let mut cells: Vec<Word> = code.iter().map(|&instruction| held(instruction)).collect();
    for _ in 0..behind {
        let word = if chance.percent(70) {
            Word::ZERO
        } else {
            parts::word(chance, room)
        };
        cells.push(word);
    }
    (room, hand, cells)
}

fn cap(permission: Permission, locality: Locality, base: usize, end: usize, cursor: usize) -> Word {
    let [base, end, cursor] = [base, end, cursor].map(|number| (number as u32).min(LIMIT));
    Word::Cap(Capability {
        permission,
        locality,
        base,
        end,
        cursor,
    })
}

/// A capability that writes, over the cells from `base` to `end`.
fn writing(chance: &mut Chance, base: usize, end: usize, cursor: usize) -> Word {
    let permission = chance.weigh(&[
        (1, Permission::RW),
        (5, Permission::RWL),
        (1, Permission::RWX),
        (5, Permission::RWLX),
    ]);
    cap(permission, parts::locality(chance), base, end, cursor)
}

/// One operation after the other at the limits of its operands, and each
/// result stored in the next cell.
pub fn probes(chance: &mut Chance) -> Sheet {
    // Register 1 points at the results, 2 to 5 hold integers, 6 to 9
    // capabilities, 10 to 15 results.
    let mut code = Vec::new();
    let count = chance.within(1, 8) as usize;
    let quotients = chance.percent(30);
    for _ in 0..count {
        let d = chance.within(10, 15) as Register;
        let whole = |chance: &mut Chance| match chance.below(8) {
            0 => C(parts::constant(chance)),
            1 => R(chance.within(10, 15) as Register),
            _ => R(chance.within(2, 5) as Register),
        };
        let held_cap = |chance: &mut Chance| chance.within(6, 9) as Register;
        let kind = if quotients { 3 } else { chance.below(16) };
        match kind {
            0 => code.push(Plus(d, whole(chance), whole(chance))),
            1 => code.push(Minus(d, whole(chance), whole(chance))),
            2 => code.push(Lt(d, whole(chance), whole(chance))),
            3 => {
                let any = Quot(d, whole(chance), whole(chance));
                code.push(chance.pick(&[any, Quot(d, R(2), R(3)), Quot(d, R(4), R(5))]));
            }
            4 | 5 => code.extend([Move(d, R(held_cap(chance))), Lea(d, whole(chance))]),
            6..=8 => {
                let number = if chance.percent(60) {
                    let any = parts::capability(
                        chance,
                        Room {
                            size: 8,
                            narrow: false,
                        },
                    );
                    C(parts::pair(chance, &any))
                } else {
                    whole(chance)
                };
                code.extend([Move(d, R(held_cap(chance))), Restrict(d, number)]);
            }
            9 | 10 => {
                let narrowed = Subseg(d, whole(chance), whole(chance));
                code.extend([Move(d, R(held_cap(chance))), narrowed]);
            }
            11 => code.push(Isptr(d, R(chance.below(16) as Register))),
            _ => {
                let a = held_cap(chance);
                code.push(chance.pick(&[
                    Getp(d, a),
                    Getl(d, a),
                    Getb(d, a),
                    Gete(d, a),
                    Geta(d, a),
                ]));
            }
        }
        code.extend([Store(1, R(d)), Lea(1, C(1))]);
    }
    code.push(Halt);
    // Sometimes the pc itself is moved as far as it goes.
    let away = chance.below(code.len() as u64) as usize;
    let goes_away = chance.one_in(15);
    if goes_away {
        code[away] = Lea(0, R(2));
    }
    let (room, mut hand, cells) = laid(chance, &code, count);
    let size = cells.len();
    hand[0] = cap(Permission::RX, parts::locality(chance), 0, size, 0);
    hand[1] = writing(chance, code.len(), size, code.len());
    for word in &mut hand[6..=9] {
        let mut drawn = parts::capability(chance, room);
        if chance.percent(50) {
            // Bounds far from all edges, with room on both sides.
            drawn.base = chance.within(2, 30_000) as u32;
            drawn.end = chance.within(30_001, 60_000) as u32;
            drawn.cursor = chance.within(1, 65_535) as u32;
        }
        *word = Word::Cap(drawn);
    }
    for register in 2..=5 {
        hand[register] = match hand[chance.within(6, 9) as usize] {
            Word::Cap(near) if chance.percent(60) => Word::Int(parts::integer_near(chance, &near)),
            _ => Word::Int(parts::integer(chance, room)),
        };
    }
    if quotients {
        for registers in [(2, 3), (4, 5)] {
            let (dividend, divisor) = parts::quotient(chance, room);
            hand[registers.0] = Word::Int(dividend);
            hand[registers.1] = Word::Int(divisor);
        }
    }
    if goes_away {
        let edge = chance.weigh(&[(3, LIMIT as i32), (1, 0), (1, size as i32)]);
        hand[2] = Word::Int(edge - away as i32 + chance.within(-1, 1) as i32);
    }
    for word in &mut hand[10..=15] {
        *word = Word::Int(parts::integer(chance, room));
    }
    sheet(hand, cells)
}

/// One instruction that may fail more than one of its checks at once: which
/// comes first decides.
pub fn clash(chance: &mut Chance) -> Sheet {
    let behind = chance.within(1, 6) as usize;
    let code = [Halt; 2];
    let (_, mut hand, mut cells) = laid(chance, &code, behind);
    let size = cells.len();
    let far = LIMIT as usize;
    for word in &mut hand[1..=8] {
        // Covered and there, covered and beyond the memory, or not covered.
        let (base, end, cursor) = chance.pick(&[
            (0, size, size - 1),
            (1, far, 1),
            (0, size + 1, size),
            (size, far, far - 1),
            (size, far, far),
            (1, size, 0),
            (0, size, size),
            (size, 1, 1),
            (far, 0, far),
        ]);
        let any = parts::permission(chance);
        let permission = chance.pick(&[any, Permission::RW, Permission::RWX, Permission::E]);
        *word = cap(permission, parts::locality(chance), base, end, cursor);
    }
    for word in &mut hand[9..=15] {
        *word = Word::Int(chance.pick(&[
            0,
            1,
            -1,
            2,
            size as i32,
            far as i32,
            far as i32 + 1,
            -(far as i32),
            i32::MIN,
            i32::MAX,
        ]));
    }
    hand[0] = cap(
        chance.pick(&[Permission::RX, Permission::RWX, Permission::RWLX]),
        parts::locality(chance),
        0,
        size,
        0,
    );
    let pointer = if chance.one_in(8) {
        chance.within(0, 15)
    } else {
        chance.within(1, 8)
    } as Register;
    let mut operand = || match chance.below(5) {
        0 => C(parts::constant(chance)),
        1 => R(chance.within(0, 8) as Register),
        _ => R(chance.within(9, 15) as Register),
    };
    let (a, b) = (operand(), operand());
    let stored = R(chance.within(0, 9) as Register);
    let d = chance.pick(&[0, 15]);
    cells[0] = held(chance.weigh(&[
        (8, Store(pointer, stored)),
        (2, Load(d, pointer)),
        (3, Lea(pointer, a)),
        (3, Subseg(pointer, a, b)),
        (3, Restrict(pointer, a)),
        (2, Quot(d, a, b)),
        (1, Plus(d, a, b)),
        (1, Minus(d, a, b)),
        (1, Lt(d, a, b)),
        (1, Geta(d, pointer)),
    ]));
    sheet(hand, cells)
}

/// A loop that counts down, its body drawn.
pub fn counting(chance: &mut Chance) -> Sheet {
    // Register 2 counts, register 3 points at the head of the loop.
    let length = chance.within(0, 6) as usize;
    let size = length + 3 + chance.within(1, 30) as usize;
    let room = Room::of(chance, size);
    let mut hand = parts::hand(chance, room, (0, size));
    hand[0] = Word::Cap(parts::pc(chance, room, (0, size)));
    hand[2] = Word::Int(match chance.below(4) {
        0 => chance.within(100, 3_000) as i32,
        1 => chance.within(-3, 3) as i32,
        _ => chance.within(2, 60) as i32,
    });
    hand[3] = hand[0];
    let mut code = Vec::new();
    while code.len() < length {
        let instruction = parts::instruction(chance, &hand, room, 30);
        let keeps_the_loop = match instruction {
            Fail | Halt | Jmp(_) | Jnz(..) => false,
            Store(..) => true,
            Move(d, _)
            | Load(d, _)
            | Lea(d, _)
            | Restrict(d, _)
            | Isptr(d, _)
            | Getp(d, _)
            | Getl(d, _)
            | Getb(d, _)
            | Gete(d, _)
            | Geta(d, _)
            | Plus(d, ..)
            | Minus(d, ..)
            | Lt(d, ..)
            | Subseg(d, ..)
            | Quot(d, ..) => !matches!(d, 0 | 2 | 3),
        };
        if keeps_the_loop || chance.one_in(60) {
            code.push(instruction);
        }
    }
    code.extend([Minus(2, R(2), C(1)), Jnz(3, R(2)), Halt]);
    let mut cells: Vec<Word> = code.into_iter().map(held).collect();
    while cells.len() < size {
        cells.push(parts::word(chance, room));
    }
    sheet(hand, cells)
}

/// A capability of permission E, entered, and a way back.
pub fn entering(chance: &mut Chance) -> Sheet {
    // Register 1 leads in, register 2 leads back.
    let mut caller = vec![Move(2, R(0)), Lea(2, C(4))];
    caller.push(Restrict(2, C(chance.pick(&[20, 21, 16, 17, 24, 28, 1]))));
    caller.push(match chance.below(4) {
        0 => Jnz(1, C(parts::constant(chance))),
        1 => Jnz(1, R(chance.within(1, 15) as Register)),
        _ => Jmp(1),
    });
    let after = Room {
        size: 20,
        narrow: false,
    };
    let like = parts::hand(chance, after, (0, after.size));
    for _ in 0..chance.below(3) {
        caller.push(parts::instruction(chance, &like, after, 5));
    }
    caller.push(if chance.percent(80) { Halt } else { Fail });
    // Inside: reach for the cell behind the code through the pc, add to it,
    // write it back, and leave.
    let start = caller.len();
    let by = C(parts::constant(chance));
    let mut callee = vec![Move(4, R(0)), Lea(4, C(6)), Load(5, 4), Plus(5, R(5), by)];
    if chance.one_in(4) {
        // What entering has made of the E.
        callee[3] = chance.pick(&[Getp(5, 0), Getl(5, 0), Getb(5, 0), Gete(5, 0), Geta(5, 0)]);
    }
    callee.push(match chance.below(5) {
        0 => Store(4, R(5)),
        1 | 2 => Store(6, R(5)),
        3 => Store(6, R(0)),
        _ => Store(6, R(chance.below(16) as Register)),
    });
    callee.push(if chance.percent(85) {
        Jmp(2)
    } else {
        Move(0, R(2))
    });
    let stop = start + callee.len();
    let behind = chance.within(1, 12) as usize;
    let code: Vec<Instruction> = caller.into_iter().chain(callee).collect();
    let (room, mut hand, mut cells) = laid(chance, &code, behind);
    let size = cells.len();
    cells[stop] = match chance.below(5) {
        0 => parts::word(chance, room),
        _ => Word::Int(parts::integer(chance, room)),
    };
    hand[0] = cap(
        chance.pick(&[Permission::RX, Permission::RWX, Permission::RWLX]),
        parts::locality(chance),
        0,
        chance.pick(&[start, size]),
        0,
    );
    let permission = chance.weigh(&[
        (12, Permission::E),
        (1, Permission::RX),
        (1, Permission::RWX),
        (1, Permission::RWLX),
        (1, Permission::RO),
        (1, Permission::O),
    ]);
    let end = chance.weigh(&[(8, size), (2, stop + 1), (1, stop), (1, start), (1, 0)]);
    let entry = chance.weigh(&[(10, start), (1, start + 1), (1, end), (1, LIMIT as usize)]);
    hand[1] = cap(permission, parts::locality(chance), start, end, entry);
    hand[6] = writing(chance, stop, size, stop);
    if chance.one_in(6) {
        // Do to an E what it does not allow.
        let wrong = parts::instruction(chance, &hand, room, 2);
        let at = chance.below(start as u64) as usize;
        cells[at] = held(match wrong {
            Load(d, _) => Load(d, 1),
            Store(_, a) => Store(1, a),
            Lea(_, a) => Lea(1, a),
            Subseg(_, a, b) => Subseg(1, a, b),
            Restrict(_, a) => Restrict(1, a),
            other => other,
        });
    }
    sheet(hand, cells)
}

/// Capabilities chained through cells, and a walk along them.
pub fn chain(chance: &mut Chance) -> Sheet {
    let code = if chance.percent(50) {
        vec![Load(1, 1), Isptr(4, R(1)), Jnz(3, R(4)), Halt]
    } else {
        // Leaves a mark on the way.
        vec![Move(5, R(1)), Load(1, 1), Store(5, C(9)), Jmp(3)]
    };
    let start = code.len();
    let behind = chance.within(2, 40) as usize;
    let (room, mut hand, mut cells) = laid(chance, &code, behind);
    let size = cells.len();
    hand[0] = cap(Permission::RX, parts::locality(chance), 0, start, 0);
    hand[3] = hand[0];
    let link = |chance: &mut Chance, to: usize| {
        let permission = chance.weigh(&[
            (5, Permission::RW),
            (5, Permission::RWL),
            (3, Permission::RO),
            (3, Permission::RWLX),
            (2, Permission::RX),
        ]);
        let permission = if chance.one_in(25) {
            parts::permission(chance)
        } else {
            permission
        };
        let (base, end) = if chance.one_in(20) {
            (to + 1, to)
        } else {
            (to, to + 1)
        };
        cap(permission, parts::locality(chance), base, end, to)
    };
    let mut at = chance.within(start as i64, size as i64 - 1) as usize;
    hand[1] = link(chance, at);
    for _ in 0..behind {
        let to = match chance.below(30) {
            0 => size,
            1 => at,
            _ => chance.within(start as i64, size as i64 - 1) as usize,
        };
        cells[at] = link(chance, to);
        at = to.min(size - 1);
    }
    if chance.percent(50) {
        cells[at] = Word::Int(parts::integer(chance, room));
    }
    sheet(hand, cells)
}

/// A walk that fills cells until an edge stops it.
pub fn filling(chance: &mut Chance) -> Sheet {
    let by = chance.pick(&[1, 1, 1, 2, -1, -1, 3, 0]);
    let what = chance.within(1, 7) as Register;
    let mut code = vec![
        Store(1, R(what)),
        Lea(1, C(by)),
        Plus(2, R(2), C(parts::constant(chance))),
        Jmp(3),
    ];
    if chance.percent(30) {
        code.insert(2, Subseg(1, R(4), R(5)));
        code.insert(3, Geta(4, 1));
    }
    let behind = if chance.one_in(40) {
        2_048 - code.len()
    } else {
        chance.within(1, 60) as usize
    };
    let (room, mut hand, cells) = laid(chance, &code, behind);
    let (start, size) = (code.len(), cells.len());
    hand[0] = cap(Permission::RX, parts::locality(chance), 0, size, 0);
    hand[3] = hand[0];
    let base = chance.pick(&[start, start, 0, size - 1, start + 1]);
    let end = chance.pick(&[size, size, size - 1, size + 1, LIMIT as usize]);
    let cursor = if by < 0 { size.min(end) - 1 } else { start };
    hand[1] = writing(chance, base, end, cursor);
    hand[2] = Word::Int(parts::integer(chance, room));
    hand[4] = Word::Int(base as i32);
    hand[5] = Word::Int(end as i32);
    sheet(hand, cells)
}

/// A loop that rewrites one of its own instructions.
pub fn patching(chance: &mut Chance) -> Sheet {
    // Register 1 points at the cell to patch, register 2 holds what to write,
    // register 3 points at the head, register 4 changes what is written.
    let mut code = vec![
        Store(1, R(2)),
        Plus(2, R(2), R(4)),
        Move(5, C(parts::constant(chance))),
    ];
    if chance.percent(40) {
        code.push(Lea(1, C(chance.within(-1, 1) as i16)));
    }
    if chance.percent(40) {
        code.push(Load(6, 1));
    }
    code.push(if chance.percent(70) {
        Jmp(3)
    } else {
        Jnz(3, R(2))
    });
    code.push(Halt);
    let behind = chance.within(1, 20) as usize;
    let (room, mut hand, mut cells) = laid(chance, &code, behind);
    let size = cells.len();
    let permission = chance.pick(&[Permission::RWX, Permission::RWX, Permission::RWLX]);
    hand[0] = cap(permission, parts::locality(chance), 0, size, 0);
    hand[3] = hand[0];
    let patched = chance.weigh(&[(8, 2), (1, 0), (1, 1), (2, 3), (1, code.len() - 1)]);
    hand[1] = cap(permission, parts::locality(chance), 0, size, patched);
    let fresh = parts::instruction(chance, &hand, room, 10);
    hand[2] = match chance.below(12) {
        0 => Word::Int(parts::near_instruction(chance, room)),
        1 => Word::Cap(parts::capability(chance, room)),
        _ => held(fresh),
    };
    // The next constant, operand, register or opcode.
    hand[4] = Word::Int(chance.weigh(&[
        (3, 1),
        (4, 1 << 11),
        (1, 1 << 22),
        (1, 1 << 26),
        (1, -1),
        (1, -(1 << 11)),
        (3, 0),
    ]));
    if chance.one_in(3) {
        cells[2] = held(parts::instruction(chance, &hand, room, 10));
    }
    sheet(hand, cells)
}

/// Cells full of capabilities, for the survey to follow; mostly little to run.
pub fn web(chance: &mut Chance) -> Sheet {
    let mut room = Room::any(chance);
    room.size = room.size.max(1);
    let size = room.size;
    let reach = chance.pick(&[1, 1, 2, 4, 16]);
    let wild = chance.pick(&[8, 60, 400]);
    let steps = chance.one_in(3);
    let link = |chance: &mut Chance, at: usize| {
        let permission = chance.weigh(&[
            (2, Permission::O),
            (6, Permission::RO),
            (4, Permission::RW),
            (2, Permission::RWL),
            (4, Permission::RX),
            (6, Permission::E),
            (2, Permission::RWX),
            (1, Permission::RWLX),
        ]);
        if chance.one_in(wild) {
            return Word::Cap(parts::capability_with(chance, room, permission));
        }
        let base = if steps {
            // One cell to the next, or a few back.
            (at + 1).saturating_sub(chance.pick(&[0, 0, 0, 1, 3]))
        } else {
            chance.below(size as u64 + 1) as usize
        };
        let end = base + chance.below(reach + 1) as usize;
        cap(permission, parts::locality(chance), base, end, base)
    };
    let empty = chance.pick(&[2, 4, 10, 50]);
    let mut cells = Vec::with_capacity(size);
    for at in 0..size {
        let word = if chance.one_in(empty) {
            Word::Int(parts::integer(chance, room))
        } else {
            link(chance, at)
        };
        cells.push(word);
    }
    let mut hand = [Word::ZERO; REGISTERS];
    for _ in 0..chance.within(1, 4) {
        let register = chance.below(REGISTERS as u64) as usize;
        let at = chance.below(size as u64) as usize;
        hand[register] = link(chance, at);
    }
    if chance.percent(50) {
        // A few steps through the web.
        let at = chance.below(size as u64) as usize;
        let stop = (at + 6).min(size);
        hand[0] = cap(Permission::RX, Locality::Global, at, stop, at);
        for cell in &mut cells[at..stop] {
            *cell = held(parts::instruction(chance, &hand, room, 12));
        }
    }
    sheet(hand, cells)
}
