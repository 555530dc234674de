//! The index that the port keeps beside the lent sorts, written from its definition (crates/resolved_sort/specs/Index.antt):
//! where a sort is looked for first, and which slots a lookup looks at.

use crate::memory::*;
use crate::verdict::Shape;

/// The slot at which a sort is looked for first. Kinds below 6 have part 0, and only functions have arguments.
pub fn place(kind: u16, part: u16, arguments: &[u16]) -> usize {
    let words = [kind, part].into_iter().chain(arguments.iter().copied());
    let mixed = words.fold(0_u32, |mixed, word| mixed.wrapping_mul(65_599).wrapping_add(word.into()));
    (mixed.wrapping_mul(2_654_435_761) >> 21) as usize
}

pub fn place_of(sort: &Shape) -> usize {
    place(sort.kind, sort.part, &sort.arguments)
}

/// The slot that is tried after one: after the last the first.
pub fn next(slot: usize) -> usize {
    (slot + 1) % INDEX
}

/// What a lookup found, and how many slots it looked at. The empty slot at which it ends is one of them.
#[derive(Clone, Copy, Debug, Eq, PartialEq)]
pub struct Looked {
    pub sort: Option<u16>,
    pub slots: usize,
    /// The slot that it looked at last.
    pub last: usize,
}

/// An index: at a slot the number of a sort plus one, or 0.
#[derive(Clone, Debug)]
pub struct Index {
    pub slots: [u16; INDEX],
}

impl Default for Index {
    fn default() -> Index {
        Index { slots: [0; INDEX] }
    }
}

impl Index {
    /// Looks from a place on for a sort of which this is true, up to the first empty slot.
    pub fn look(&self, place: usize, mut is: impl FnMut(u16) -> bool) -> Looked {
        let mut last = place;
        for slots in 1..=INDEX {
            match self.slots[last] {
                0 => return Looked { sort: None, slots, last },
                word if is(word - 1) => return Looked { sort: Some(word - 1), slots, last },
                _ => last = next(last),
            }
        }
        panic!("an index of so few sorts has an empty slot")
    }

    /// Puts a sort into the first empty slot from its place on.
    pub fn enter(&mut self, place: usize, sort: u16) -> Looked {
        let looked = self.look(place, |_| false);
        self.slots[looked.last] = sort + 1;
        looked
    }
}

/// How far from their places the sorts of an index stand.
#[derive(Clone, Copy, Debug, Default)]
pub struct Walks {
    /// The most slots that were looked at to enter a sort.
    pub longest: usize,
    /// Some sort went on from the last slot to the first.
    pub round: bool,
}

impl Walks {
    /// Of sorts that are entered in turn.
    pub fn of(sorts: impl Iterator<Item = Shape>) -> Walks {
        let (mut index, mut walks) = (Index::default(), Walks::default());
        for (number, sort) in sorts.enumerate() {
            let place = place_of(&sort);
            let looked = index.enter(place, number as u16);
            walks.longest = walks.longest.max(looked.slots);
            walks.round |= looked.last < place;
        }
        walks
    }
}

#[cfg(test)]
mod tests {
    use super::*;

    /// Worked out apart. The words 12 and 7 are mixed to 12 * 65,599 + 7 = 787,195; 787,195 * 2,654,435,761 modulo 2^32 is
    /// 1,134,801,547, whose first 11 of 32 bits are 541.
    #[test]
    fn places() {
        assert_eq!(place(12, 7, &[]), 541);
        assert_eq!(place(11, 3, &[2, 4]), 1_513);
        assert_eq!(place(13, 65_535, &[]), 423);
        assert_eq!(place(0, 0, &[]), 0);
    }

    /// The rows of crates/resolved_sort/proofs/IndexExamples.antt.
    #[test]
    fn places_of_the_samples() {
        let one = [(0, 0), (1, 0), (5, 0), (6, 1), (10, 65_535), (12, 7), (13, 7)];
        assert_eq!(one.map(|(kind, part)| place(kind, part, &[])), [0, 842, 117, 178, 1_991, 541, 1_383]);
        let functions: [&[u16]; 3] = [&[1], &[1, 2], &[2, 1]];
        assert_eq!(functions.map(|arguments| place(11, 3, arguments)), [907, 187, 1_812]);
        assert_eq!(place(11, 1_023, &[1_022; 16]), 306);
        assert_eq!(
            [(13, 768), (12, 2_288), (13, 2_365), (12, 4_872)].map(|(kind, part)| place(kind, part, &[])),
            [2_047; 4]
        );
    }

    #[test]
    fn a_walk_goes_round_the_end() {
        let mut index = Index::default();
        for sort in 0..3 {
            index.enter(INDEX - 1, sort);
        }
        assert_eq!(index.look(INDEX - 1, |sort| sort == 2), Looked { sort: Some(2), slots: 3, last: 1 });
        assert_eq!(index.look(INDEX - 1, |_| false), Looked { sort: None, slots: 4, last: 2 });
        assert_eq!(index.slots[INDEX - 1], 1);
        assert_eq!(index.slots[..3], [2, 3, 0]);
    }
}
