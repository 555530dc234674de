//! A call of the solver: the lists in lent words, with what scratch, index and outputs hold at entry.

use common::guard::GUARD;
use common::guard::between_guards;
use common::guard::guarded;
use common::guard::is_guarded;
use common::guard::put_guarded;
use common::guard::same_words;
use lists::memory::Memory;

pub use lists::given::Lent as Slice;

/// How many slices a call is lent.
pub const SLICES: usize = Slice::ALL.len();

/// What the slices of a call hold. Of scratch, index and outputs `memory` has the lengths.
#[derive(Clone, Debug, Default)]
pub struct Call {
    pub memory: Memory,
    pub scratch: Vec<u16>,
    pub index: Vec<u16>,
    pub typing: Vec<u16>,
    pub measure: Vec<u16>,
    pub choices: Vec<u16>,
}

impl Call {
    pub fn words(&self, slice: Slice) -> &[u16] {
        let memory = &self.memory;
        match slice {
            Slice::Sorts => &memory.sorts,
            Slice::Nodes => &memory.nodes,
            Slice::Bindings => &memory.bindings,
            Slice::Exprs => &memory.exprs,
            Slice::Names => &memory.names,
            Slice::Constraints => &memory.constraints,
            Slice::Overloads => &memory.overloads,
            Slice::Sources => &memory.sources,
            Slice::Scratch => &self.scratch,
            Slice::Index => &self.index,
            Slice::OutTyping => &self.typing,
            Slice::OutMeasure => &self.measure,
            Slice::OutChoices => &self.choices,
        }
    }

    pub fn words_mut(&mut self, slice: Slice) -> &mut Vec<u16> {
        let memory = &mut self.memory;
        match slice {
            Slice::Sorts => &mut memory.sorts,
            Slice::Nodes => &mut memory.nodes,
            Slice::Bindings => &mut memory.bindings,
            Slice::Exprs => &mut memory.exprs,
            Slice::Names => &mut memory.names,
            Slice::Constraints => &mut memory.constraints,
            Slice::Overloads => &mut memory.overloads,
            Slice::Sources => &mut memory.sources,
            Slice::Scratch => &mut self.scratch,
            Slice::Index => &mut self.index,
            Slice::OutTyping => &mut self.typing,
            Slice::OutMeasure => &mut self.measure,
            Slice::OutChoices => &mut self.choices,
        }
    }

    pub fn length(&self, slice: Slice) -> usize {
        self.words(slice).len()
    }

    /// Lends another number of words; new ones are `filler`.
    pub fn lend(&mut self, slice: Slice, length: usize, filler: u16) {
        self.words_mut(slice).resize(length, filler);
        self.told();
    }

    /// Tells `memory` the lengths of scratch, index and outputs.
    pub fn told(&mut self) {
        self.memory.scratch = self.scratch.len();
        self.memory.index = self.index.len();
        self.memory.out_typing = self.typing.len();
        self.memory.out_measure = self.measure.len();
        self.memory.out_choices = self.choices.len();
    }
}

/// The slices as a call is lent them, each between guard words. They are used again from call to call.
#[derive(Clone, Default)]
pub struct Lent {
    pub slices: [Vec<u16>; SLICES],
}

impl Lent {
    pub fn new(call: &Call) -> Lent {
        let mut lent = Lent::default();
        lent.fill(call);
        lent
    }

    pub fn fill(&mut self, call: &Call) {
        for (buffer, (slice, _)) in self.slices.iter_mut().zip(Slice::ALL) {
            put_guarded(buffer, call.words(slice));
        }
    }

    /// The words of a slice, without its guard words.
    pub fn words_mut(&mut self, slice: Slice) -> &mut [u16] {
        between_guards(&mut self.slices[slice as usize])
    }

    pub fn words(&self, slice: Slice) -> &[u16] {
        let buffer = &self.slices[slice as usize];
        &buffer[GUARD..buffer.len() - GUARD]
    }

    /// Whether all slices and guard words are as expected.
    pub fn same(&self, expected: &Call) -> Result<(), String> {
        for (buffer, (slice, name)) in self.slices.iter().zip(Slice::ALL) {
            let words = expected.words(slice);
            if !is_guarded(buffer, words) {
                return same_words(name, buffer, &guarded(words));
            }
        }
        Ok(())
    }
}
