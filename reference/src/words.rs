//! Words: integers and capabilities, the groups that they pack into, and the
//! orders of permissions, localities and bounds.

/// The highest base, end or cursor, and the most cells that a memory has.
pub const LIMIT: u32 = 65_536;

/// The registers of a hand.
pub const REGISTERS: usize = 16;

/// Sixteen words, one for each register from register 0 on.
pub type Hand = [Word; REGISTERS];

/// Why a call was refused. The numbers are those of the rules.
#[derive(Clone, Copy, PartialEq, Eq, Debug)]
#[repr(u8)]
pub enum Refusal {
    NoCell = 1,
    NoRegister = 2,
    OutOfRange = 3,
    UnknownCode = 4,
    MalformedGroup = 5,
    ShortChart = 6,
    MalformedInput = 7,
}

impl Refusal {
    pub fn number(self) -> u8 {
        self as u8
    }
}

/// What a capability allows.
#[derive(Clone, Copy, PartialEq, Eq, Debug)]
#[repr(u8)]
#[allow(clippy::upper_case_acronyms)]
pub enum Permission {
    O = 0,
    RO = 1,
    RW = 2,
    RWL = 3,
    RX = 4,
    E = 5,
    RWX = 6,
    RWLX = 7,
}

use Permission::*;

impl Permission {
    /// All permissions, each at the place of its code.
    pub const ALL: [Permission; 8] = [O, RO, RW, RWL, RX, E, RWX, RWLX];

    pub fn code(self) -> u32 {
        self as u32
    }

    pub fn from_code(code: u32) -> Option<Permission> {
        Permission::ALL.get(code as usize).copied()
    }

    #[inline]
    pub fn reads(self) -> bool {
        !matches!(self, O | E)
    }

    #[inline]
    pub fn writes(self) -> bool {
        matches!(self, RW | RWL | RWX | RWLX)
    }

    #[inline]
    pub fn executes(self) -> bool {
        matches!(self, RX | RWX | RWLX)
    }

    #[inline]
    pub fn stores_local(self) -> bool {
        matches!(self, RWL | RWLX)
    }

    /// The order of permissions: O is below all; E is below E, RX, RWX and
    /// RWLX; any other is below one that has all its letters.
    pub fn below(self, other: Permission) -> bool {
        match self {
            O => true,
            E => matches!(other, E | RX | RWX | RWLX),
            _ => {
                // None of the six that come here lacks the letter R, which
                // neither O nor E has: nothing but O and E is below E.
                (!self.reads() || other.reads())
                    && (!self.writes() || other.writes())
                    && (!self.stores_local() || other.stores_local())
                    && (!self.executes() || other.executes())
            }
        }
    }
}

/// Where a capability may be stored.
#[derive(Clone, Copy, PartialEq, Eq, Debug)]
#[repr(u8)]
pub enum Locality {
    Global = 0,
    Local = 1,
}

impl Locality {
    pub fn code(self) -> u32 {
        self as u32
    }

    pub fn from_code(code: u32) -> Option<Locality> {
        match code {
            0 => Some(Locality::Global),
            1 => Some(Locality::Local),
            _ => None,
        }
    }

    /// The order of localities: Local is below Global, each is below itself.
    pub fn below(self, other: Locality) -> bool {
        self == Locality::Local || other == Locality::Global
    }
}

/// A capability. Base, end and cursor are from 0 to 65,536; all code that
/// makes one or changes one of them keeps this.
#[derive(Clone, Copy, PartialEq, Eq, Debug)]
pub struct Capability {
    pub permission: Permission,
    pub locality: Locality,
    pub base: u32,
    pub end: u32,
    pub cursor: u32,
}

impl Capability {
    /// Makes a capability from plain numbers. An unknown code is refused
    /// whatever the numbers are.
    pub fn make(
        permission: u32,
        locality: u32,
        base: u32,
        end: u32,
        cursor: u32,
    ) -> Result<Capability, Refusal> {
        let permission = Permission::from_code(permission).ok_or(Refusal::UnknownCode)?;
        let locality = Locality::from_code(locality).ok_or(Refusal::UnknownCode)?;
        if base > LIMIT || end > LIMIT || cursor > LIMIT {
            return Err(Refusal::OutOfRange);
        }
        Ok(Capability {
            permission,
            locality,
            base,
            end,
            cursor,
        })
    }

    /// Whether the capability covers its own cursor.
    #[inline]
    pub fn covers_cursor(&self) -> bool {
        self.base <= self.cursor && self.cursor < self.end
    }

    /// Whether the bounds from `base` to `end` are below those of the
    /// capability. Only the numbers count.
    pub fn bounds_above(&self, base: u32, end: u32) -> bool {
        base >= self.base && end <= self.end
    }

    /// Whether the rights given are below those of the capability.
    pub fn rights_above(&self, permission: Permission, locality: Locality) -> bool {
        permission.below(self.permission) && locality.below(self.locality)
    }
}

/// An integer or a capability.
#[derive(Clone, Copy, PartialEq, Eq, Debug)]
pub enum Word {
    Int(i32),
    Cap(Capability),
}

impl Word {
    pub const ZERO: Word = Word::Int(0);

    /// The group of the word.
    pub fn pack(self) -> [u8; 8] {
        let number = match self {
            Word::Int(integer) => u64::from(integer as u32),
            Word::Cap(cap) => {
                1 << 63
                    | u64::from(cap.permission.code()) << 59
                    | u64::from(cap.locality.code()) << 57
                    | u64::from(cap.base) << 40
                    | u64::from(cap.end) << 23
                    | u64::from(cap.cursor) << 6
            }
        };
        number.to_be_bytes()
    }

    /// The word that the bytes pack; refused with 5 where they pack none.
    pub fn unpack(bytes: &[u8]) -> Result<Word, Refusal> {
        let group: [u8; 8] = bytes.try_into().map_err(|_| Refusal::MalformedGroup)?;
        let number = u64::from_be_bytes(group);
        if number >> 63 == 0 {
            // Bits 63 to 32 of an integer are zero.
            let bits = u32::try_from(number).map_err(|_| Refusal::MalformedGroup)?;
            return Ok(Word::Int(bits as i32));
        }
        // Bits 5 to 0 of a capability are zero.
        if number & 0x3F != 0 {
            return Err(Refusal::MalformedGroup);
        }
        let field = |lowest: u32, bits: u32| (number >> lowest) as u32 & ((1 << bits) - 1);
        Capability::make(
            field(59, 4),
            field(57, 2),
            field(40, 17),
            field(23, 17),
            field(6, 17),
        )
        .map(Word::Cap)
        .map_err(|_| Refusal::MalformedGroup)
    }
}

#[cfg(test)]
mod tests {
    use super::*;

    fn cap(permission: Permission, locality: Locality, base: u32, end: u32, cursor: u32) -> Word {
        Word::Cap(Capability {
            permission,
            locality,
            base,
            end,
            cursor,
        })
    }

    #[test]
    fn groups_of_the_rules() {
        let examples = [
            (Word::Int(-1), [0, 0, 0, 0, 0xFF, 0xFF, 0xFF, 0xFF]),
            (
                cap(RX, Locality::Global, 0, 3, 0),
                [0xA0, 0, 0, 0, 1, 0x80, 0, 0],
            ),
            (
                cap(RW, Locality::Local, 2, 3, 2),
                [0x92, 0, 2, 0, 1, 0x80, 0, 0x80],
            ),
        ];
        for (word, group) in examples {
            assert_eq!(word.pack(), group);
            assert_eq!(Word::unpack(&group), Ok(word));
        }
        assert_eq!(
            Word::unpack(&[0, 0, 0, 1, 0, 0, 0, 0]),
            Err(Refusal::MalformedGroup)
        );
    }

    #[test]
    fn every_edge_packs_and_unpacks() {
        for integer in [0, 1, -1, i32::MAX, i32::MIN] {
            assert_eq!(
                Word::unpack(&Word::Int(integer).pack()),
                Ok(Word::Int(integer))
            );
        }
        let edges = [0, 1, 65_535, 65_536];
        for permission in Permission::ALL {
            for locality in [Locality::Global, Locality::Local] {
                for base in edges {
                    for end in edges {
                        for cursor in edges {
                            let word = cap(permission, locality, base, end, cursor);
                            assert_eq!(Word::unpack(&word.pack()), Ok(word));
                        }
                    }
                }
            }
        }
    }

    #[test]
    fn groups_that_pack_no_word() {
        let refused = Err(Refusal::MalformedGroup);
        assert_eq!(Word::unpack(&[]), refused);
        assert_eq!(Word::unpack(&[0; 7]), refused);
        assert_eq!(Word::unpack(&[0; 9]), refused);
        // Any bit from 32 to 62 of an integer.
        for bit in 32..63 {
            assert_eq!(Word::unpack(&(1u64 << bit).to_be_bytes()), refused);
        }
        let number = u64::from_be_bytes(cap(RW, Locality::Local, 65_536, 65_536, 65_536).pack());
        // Any of the lowest six bits, an unknown code, a field above 65,536.
        for bit in [0, 1, 2, 3, 4, 5, 6, 22, 23, 39, 40, 55, 58, 62] {
            let flipped = number ^ 1 << bit;
            let became_valid = bit == 22 || bit == 39;
            assert_eq!(
                Word::unpack(&flipped.to_be_bytes()).is_ok(),
                became_valid,
                "bit {bit}"
            );
        }
    }

    #[test]
    fn making_checks_codes_before_numbers() {
        assert_eq!(Capability::make(8, 0, 0, 0, 0), Err(Refusal::UnknownCode));
        assert_eq!(Capability::make(0, 2, 0, 0, 0), Err(Refusal::UnknownCode));
        assert_eq!(
            Capability::make(8, 0, 65_537, 0, 0),
            Err(Refusal::UnknownCode)
        );
        assert_eq!(
            Capability::make(7, 2, 0, 0, 65_537),
            Err(Refusal::UnknownCode)
        );
        assert_eq!(
            Capability::make(7, 1, 65_537, 0, 0),
            Err(Refusal::OutOfRange)
        );
        assert_eq!(
            Capability::make(7, 1, 0, 65_537, 0),
            Err(Refusal::OutOfRange)
        );
        assert_eq!(
            Capability::make(7, 1, 0, 0, 65_537),
            Err(Refusal::OutOfRange)
        );
        assert!(Capability::make(7, 1, 65_536, 65_536, 65_536).is_ok());
    }

    #[test]
    fn the_order_of_permissions() {
        // Row by row: what each permission is below.
        let rows: [(Permission, &[Permission]); 8] = [
            (O, &[O, RO, RW, RWL, RX, E, RWX, RWLX]),
            (RO, &[RO, RW, RWL, RX, RWX, RWLX]),
            (RW, &[RW, RWL, RWX, RWLX]),
            (RWL, &[RWL, RWLX]),
            (RX, &[RX, RWX, RWLX]),
            (E, &[RX, E, RWX, RWLX]),
            (RWX, &[RWX, RWLX]),
            (RWLX, &[RWLX]),
        ];
        for (low, above) in rows {
            for high in Permission::ALL {
                assert_eq!(low.below(high), above.contains(&high), "{low:?} {high:?}");
            }
        }
    }

    #[test]
    fn the_laws_of_the_orders() {
        for a in Permission::ALL {
            assert!(a.below(a));
            for b in Permission::ALL {
                assert!(!(a.below(b) && b.below(a)) || a == b);
                for c in Permission::ALL {
                    assert!(!(a.below(b) && b.below(c)) || a.below(c));
                }
            }
        }
        use Locality::*;
        assert!(Local.below(Global) && Local.below(Local) && Global.below(Global));
        assert!(!Global.below(Local));
    }

    #[test]
    fn what_a_capability_covers() {
        let covers = |base, end, cursor| match cap(RO, Locality::Global, base, end, cursor) {
            Word::Cap(cap) => cap.covers_cursor(),
            Word::Int(_) => unreachable!(),
        };
        assert!(covers(2, 4, 2) && covers(2, 4, 3));
        assert!(!covers(2, 4, 1) && !covers(2, 4, 4));
        assert!(!covers(4, 2, 3) && !covers(4, 2, 2) && !covers(4, 2, 4) && !covers(3, 3, 3));
    }
}
