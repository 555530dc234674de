//! Sorts by the slot of the index at which they are looked for first, so that many can be put into one place.

use std::sync::LazyLock;

use lists::index;
use lists::memory::INDEX;
use lists::memory::kind;
use lists::rng::Rng;

pub static CROWD: LazyLock<Crowd> = LazyLock::new(Crowd::new);

/// A kind without parts, and a number.
pub type Numbered = (u16, u16);

/// The declared sorts and type variables of each slot: about 64.
pub struct Crowd {
    slots: Vec<Vec<Numbered>>,
}

impl Crowd {
    fn new() -> Crowd {
        let mut slots = vec![Vec::new(); INDEX];
        for kind in [kind::DEF, kind::TYPE_VAR] {
            for number in 0..=u16::MAX {
                slots[index::place(kind, number, &[])].push((kind, number));
            }
        }
        Crowd { slots }
    }

    /// Sorts that stand in the way of one that is looked for at a slot: up to `each` of that slot, then as many of the
    /// one before it, and so on round to where it began.
    pub fn before(&self, slot: usize, each: usize) -> impl Iterator<Item = Numbered> {
        (0..INDEX).flat_map(move |back| self.slots[(slot + INDEX - back) % INDEX].iter().copied().take(each))
    }
}

/// How many sorts of a slot are taken before those of the slot before it.
pub fn each(rng: &mut Rng) -> usize {
    rng.pick(&[1, 2, 4, 16, usize::MAX])
}

/// Whether a slot is so near the last one that a short walk goes round.
pub fn is_near_end(slot: usize) -> bool {
    slot >= INDEX - 8
}

#[cfg(test)]
mod tests {
    use super::*;

    #[test]
    fn every_slot_has_some() {
        assert_eq!(CROWD.slots.iter().map(Vec::len).sum::<usize>(), 2 << 16);
        assert!(CROWD.slots.iter().all(|sorts| sorts.len() > 30));
        assert!(CROWD.before(3, 5).take(20).all(|(kind, number)| index::place(kind, number, &[]) < 4));
    }
}
