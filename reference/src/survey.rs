//! Surveys: which cells a hand reaches, and which of them it can write.

use crate::words::{Capability, Hand, Permission, Refusal, Word};

/// The two counts that a survey answers.
#[derive(Clone, Copy, PartialEq, Eq, Debug)]
pub struct Counts {
    /// The cells marked at all.
    pub marked: usize,
    /// The cells marked 2.
    pub writable: usize,
}

/// The cells that have not been taken yet, each found in almost no time.
///
/// For each cell, and for the end of the memory, `next` names an address at or
/// behind it; a cell that names itself has not been taken. All cells from one
/// that has been taken up to the one that it names have been taken too.
struct Left {
    next: Vec<u32>,
}

impl Left {
    fn all(size: usize) -> Left {
        Left {
            next: (0..=size as u32).collect(),
        }
    }

    /// The first cell at or behind the address that is left, or the size.
    fn first(&mut self, mut address: usize) -> usize {
        while self.next[address] as usize != address {
            // Halves the way for whoever comes here again.
            let further = self.next[self.next[address] as usize];
            self.next[address] = further;
            address = further as usize;
        }
        address
    }

    /// Takes each cell from `base` up to and without `end` that is left.
    fn take(&mut self, base: usize, end: usize, mut taken: impl FnMut(usize)) {
        let mut address = self.first(base);
        while address < end {
            // All cells up to the end have been taken once this is over.
            self.next[address] = end as u32;
            taken(address);
            address = self.first(address + 1);
        }
    }
}

/// Surveys the hand: the byte of each cell becomes 2 if a held capability that
/// writes covers the cell, else 1 if one other than O covers it, else 0.
///
/// Each cell is marked at most once at each of the two levels, and its word is
/// looked at when it is first covered. So the work grows with the cells and
/// the capabilities in them, not with the cells that each of those covers.
pub fn survey(hand: &Hand, cells: &[Word], chart: &mut [u8]) -> Result<Counts, Refusal> {
    let size = cells.len();
    let Some(chart) = chart.get_mut(..size) else {
        return Err(Refusal::ShortChart);
    };
    chart.fill(0);

    // Held, and still to be followed.
    let mut held: Vec<Capability> = Vec::with_capacity(hand.len());
    let mut uncovered = Left::all(size);
    let mut unwritable = Left::all(size);
    let mut counts = Counts {
        marked: 0,
        writable: 0,
    };

    let hold = |held: &mut Vec<Capability>, word: Word| {
        if let Word::Cap(cap) = word {
            // An O marks nothing and leads nowhere; nor does one that covers
            // no cell. An E counts like any other that does not write.
            if cap.permission != Permission::O && cap.base < cap.end && (cap.base as usize) < size {
                held.push(cap);
            }
        }
    };

    for &word in hand {
        hold(&mut held, word);
    }
    while let Some(cap) = held.pop() {
        let base = cap.base as usize;
        let end = (cap.end as usize).min(size);
        if cap.permission.writes() {
            unwritable.take(base, end, |address| {
                chart[address] = 2;
                counts.writable += 1;
            });
        }
        uncovered.take(base, end, |address| {
            chart[address] = chart[address].max(1);
            counts.marked += 1;
            hold(&mut held, cells[address]);
        });
    }
    Ok(counts)
}

#[cfg(test)]
mod tests {
    use super::*;
    use crate::draw::chance::Chance;
    use crate::draw::parts;
    use crate::words::{Locality, Permission as P};

    fn cap(permission: Permission, base: u32, end: u32) -> Word {
        Word::Cap(Capability {
            permission,
            locality: Locality::Global,
            base,
            end,
            cursor: 0,
        })
    }

    fn charted(hand: &Hand, cells: &[Word]) -> (Vec<u8>, Counts) {
        let mut chart = vec![9; cells.len() + 1];
        let counts = survey(hand, cells, &mut chart).unwrap();
        // Bytes past the size stay.
        assert_eq!(chart.pop(), Some(9));
        (chart, counts)
    }

    /// The definition, word for word: hold until nothing new is held.
    fn by_definition(hand: &Hand, cells: &[Word]) -> Vec<u8> {
        let covers = |word: &Word, address: usize| match word {
            Word::Cap(cap) => {
                cap.permission != P::O && cap.base as usize <= address && address < cap.end as usize
            }
            Word::Int(_) => false,
        };
        let mut held: Vec<Word> = hand.to_vec();
        loop {
            let before = held.len();
            for (address, word) in cells.iter().enumerate() {
                if held.iter().any(|holder| covers(holder, address)) && !held.contains(word) {
                    held.push(*word);
                }
            }
            if held.len() == before {
                break;
            }
        }
        let writes = |word: &Word| matches!(word, Word::Cap(cap) if cap.permission.writes());
        (0..cells.len())
            .map(|address| {
                let covering = || held.iter().filter(|word| covers(word, address));
                if covering().any(writes) {
                    2
                } else {
                    u8::from(covering().next().is_some())
                }
            })
            .collect()
    }

    #[test]
    fn follows_capabilities_through_cells() {
        let mut hand = [Word::ZERO; 16];
        hand[3] = cap(P::E, 0, 1);
        let mut cells = vec![Word::ZERO; 6];
        cells[0] = cap(P::RO, 2, 4);
        cells[2] = cap(P::O, 0, 6);
        cells[3] = cap(P::RW, 3, 5);
        cells[5] = cap(P::RWLX, 0, 65_536);
        let (chart, counts) = charted(&hand, &cells);
        assert_eq!(chart, [1, 0, 1, 2, 2, 0]);
        assert_eq!(
            counts,
            Counts {
                marked: 4,
                writable: 2
            }
        );
    }

    #[test]
    fn a_cell_covered_first_without_writing_is_raised_later() {
        let mut hand = [Word::ZERO; 16];
        hand[0] = cap(P::RX, 0, 3);
        hand[1] = cap(P::RW, 3, 1);
        let cells = [Word::ZERO, cap(P::RWL, 0, 2), Word::ZERO];
        let (chart, counts) = charted(&hand, &cells);
        assert_eq!(chart, [2, 2, 1]);
        assert_eq!(
            counts,
            Counts {
                marked: 3,
                writable: 2
            }
        );
    }

    #[test]
    fn a_short_chart_is_refused_and_untouched() {
        let mut chart = [7, 7];
        let result = survey(&[Word::ZERO; 16], &[Word::ZERO; 3], &mut chart);
        assert_eq!(result, Err(Refusal::ShortChart));
        assert_eq!(chart, [7, 7]);
        let counts = survey(&[cap(P::RW, 0, 65_536); 16], &[], &mut chart);
        assert_eq!(
            counts,
            Ok(Counts {
                marked: 0,
                writable: 0
            })
        );
        assert_eq!(chart, [7, 7]);
    }

    #[test]
    fn agrees_with_the_definition() {
        let mut chance = Chance::new(7);
        for _ in 0..3_000 {
            let size = chance.below(24) as usize;
            let narrow = |chance: &mut Chance| {
                let base = chance.below(size as u64 + 2) as u32;
                let end = base + chance.below(4) as u32;
                let permission = parts::permission(chance);
                let locality = Locality::Global;
                Word::Cap(Capability {
                    permission,
                    locality,
                    base,
                    end,
                    cursor: 0,
                })
            };
            let mut hand = [Word::ZERO; 16];
            for word in hand.iter_mut().take(3) {
                *word = narrow(&mut chance);
            }
            let cells: Vec<Word> = (0..size)
                .map(|_| {
                    if chance.one_in(3) {
                        Word::ZERO
                    } else {
                        narrow(&mut chance)
                    }
                })
                .collect();
            let (chart, counts) = charted(&hand, &cells);
            assert_eq!(chart, by_definition(&hand, &cells));
            assert_eq!(
                counts.marked,
                chart.iter().filter(|&&mark| mark > 0).count()
            );
            assert_eq!(
                counts.writable,
                chart.iter().filter(|&&mark| mark == 2).count()
            );
        }
    }
}
