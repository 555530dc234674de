//! A question's call: the list in lent words, with what the index holds at entry.

use common::guard::guarded;
use common::guard::same_words;
use common::junk::Junk;
use lists::memory::INDEX;
use lists::memory::Memory;
use lists::rng::Rng;

/// What is lent. Questions that make no sorts take no index. Of it `memory` has the length.
#[derive(Clone, Debug)]
pub struct Call {
    pub memory: Memory,
    pub index: Vec<u16>,
}

impl Call {
    /// With an index of 2,048 words.
    pub fn new(memory: Memory) -> Call {
        Call { memory: Memory { index: INDEX, ..memory }, index: vec![0; INDEX] }
    }

    /// With an index of any words: mostly 2,048, in some calls more, in some too few.
    pub fn lend_index(&mut self, rng: &mut Rng, junk: &Junk) {
        let length = match rng.below(100) {
            0..=79 => INDEX,
            80..=87 => INDEX + 1,
            88..=93 => 2 * INDEX,
            94..=96 => INDEX - 1,
            _ => rng.below(INDEX),
        };
        self.index = junk.words(rng, length);
        self.memory.index = length;
    }
}

/// The slices as a call is lent them, each between guard words.
pub struct Lent {
    pub sorts: Vec<u16>,
    pub index: Vec<u16>,
}

impl Lent {
    pub fn new(call: &Call) -> Lent {
        Lent { sorts: guarded(&call.memory.sorts), index: guarded(&call.index) }
    }

    /// Whether both slices and their guard words are as expected.
    pub fn same(&self, expected: &Call) -> Result<(), String> {
        same_words("the sorts", &self.sorts, &guarded(&expected.memory.sorts))?;
        same_words("the index", &self.index, &guarded(&expected.index))
    }
}
