//! Lists of a given number of sorts, to take times on.

use common::draft::Draft;
use common::junk::Junk;
use lists::memory::*;
use lists::rng::Rng;

use crate::cases::LARGEST;
use crate::cases::full::pad;

/// A list of `sorts` sorts and pairs of it to ask about: mostly relatives; of the fixed six alone,
/// any two that differ.
pub fn timed(seed: u64, index: u64, sorts: usize) -> (Memory, Vec<(u16, u16)>) {
    let rng = &mut Rng::of_list(seed, index);
    let mut draft = Draft::new(rng);
    let mut pairs = Vec::new();
    while draft.count() + 2 * LARGEST / 3 < sorts {
        let first = draft.count();
        draft.add(LARGEST / 3);
        pairs.push(draft.pair(first));
    }
    pad(&mut draft, sorts);
    if pairs.is_empty() {
        pairs = (0..20).map(|_| (draft.any(), draft.any())).collect();
    }
    pairs.retain(|(lhs, rhs)| lhs != rhs);
    (draft.memory(&Junk::new(seed)), pairs)
}
