//! What stands in lent words that no list uses.

use lists::memory::ROW;
use lists::memory::kind;
use lists::rng::Rng;

const LENGTH: usize = 1 << 16;

/// Three backgrounds, from which the junk of a list is cut at a random place.
pub struct Junk {
    backgrounds: [Vec<u16>; 3],
}

impl Junk {
    pub fn new(seed: u64) -> Junk {
        let rng = &mut Rng::of_list(seed, u64::MAX);
        let wild = (0..LENGTH).map(|_| word(rng)).collect();
        let likely = (0..LENGTH / ROW).flat_map(|_| likely_row(rng)).collect();
        Junk { backgrounds: [wild, likely, vec![0; LENGTH]] }
    }

    pub fn words(&self, rng: &mut Rng, length: usize) -> Vec<u16> {
        let background = &self.backgrounds[rng.below(self.backgrounds.len())];
        let at = ROW * rng.below((LENGTH - length) / ROW);
        background[at..][..length].to_vec()
    }
}

/// Any word.
pub fn word(rng: &mut Rng) -> u16 {
    rng.below(1 << 16) as u16
}

/// Four words that could be a row of a small list, so that a scan past the end of a list finds
/// what it looks for.
fn likely_row(rng: &mut Rng) -> [u16; ROW] {
    let mut below = |bound: u16| rng.below(bound.into()) as u16;
    [below(kind::TYPE_VAR + 1), below(30), below(20), below(4)]
}
