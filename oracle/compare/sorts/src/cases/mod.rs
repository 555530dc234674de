//! The cases: lists with questions about them. Case N of a class and seed is always the same.

mod again;
mod chain;
mod clash;
mod damage;
mod full;
mod pairs;
mod sample;
mod timed;
mod words;

use common::draft::Draft;
use common::junk::Junk;
use lists::memory::Memory;
use lists::question::Question;
use lists::rng::Rng;
use lists::verdict::Shape;

use crate::call::Call;

pub use lists::generate::of_sorts;
pub use sample::sample;
pub use timed::timed;

/// Kinds of lists that can be made.
#[derive(Clone, Copy, Debug, Eq, PartialEq)]
pub enum Class {
    /// Every pair of the sorts up to size 4, each pair in a list of its own.
    Pairs,
    /// Random lists of all kinds of sorts.
    Mixed,
    /// Nesting up to 500 deep.
    Deep,
    /// Distances about 255 and beyond.
    Far,
    /// 1,022 to 1,024 sorts, some of these lists with 4,080 to 4,096 entries.
    FullRows,
    /// 4,080 to 4,096 entries.
    FullEntries,
    /// One or two faults, each pair of checks in turn.
    Damaged,
    /// A few words, counts or lengths changed at random.
    Words,
    /// Up to 1,024 sorts whose places in the index are those of the sorts that are asked about, or before them.
    Clash,
    /// Calls one after another over the same memory, some of which end with 15.
    Again,
}

impl Class {
    pub const ALL: [(Class, &'static str); 10] = [
        (Class::Pairs, "pairs"),
        (Class::Mixed, "mixed"),
        (Class::Deep, "deep"),
        (Class::Far, "far"),
        (Class::FullRows, "full-rows"),
        (Class::FullEntries, "full-entries"),
        (Class::Damaged, "damaged"),
        (Class::Words, "words"),
        (Class::Clash, "clash"),
        (Class::Again, "again"),
    ];

    pub fn name(self) -> &'static str {
        Class::ALL[self as usize].1
    }
}

/// A list in memory with questions about it.
pub struct Case {
    pub call: Call,
    pub questions: Vec<Question>,
    /// The questions are asked one after another over the same memory, each over what the call before has left.
    pub one_memory: bool,
    /// The check that must refuse every question, where a fault was planted.
    pub planted: Option<u16>,
}

impl Case {
    /// Every question about each of the pairs.
    fn about(memory: Memory, pairs: &[(u16, u16)]) -> Case {
        let questions = pairs.iter().flat_map(|&(lhs, rhs)| of_sorts(lhs, rhs)).collect();
        Case { call: Call::new(memory), questions, one_memory: false, planted: None }
    }
}

/// Makes the cases of one class and seed.
pub struct Cases {
    class: Class,
    seed: u64,
    junk: Junk,
    /// The sorts up to size 4.
    small: Vec<Shape>,
}

impl Cases {
    pub fn new(class: Class, seed: u64) -> Cases {
        Cases { class, seed, junk: Junk::new(seed), small: pairs::small_sorts() }
    }

    /// Case `index`, or `None` past the end of an enumerated class.
    pub fn case(&self, index: u64) -> Option<Case> {
        let rng = &mut Rng::of_list(self.seed, index);
        let mut case = match self.class {
            Class::Pairs => pairs::pair(Draft::new(rng), &self.junk, &self.small, index)?,
            Class::Mixed => mixed(Draft::new(rng), &self.junk),
            Class::Deep => chain::deep(Draft::new(rng), &self.junk),
            Class::Far => chain::far(Draft::new(rng), &self.junk),
            Class::FullRows => full::rows(Draft::new(rng), &self.junk),
            Class::FullEntries => full::entries(Draft::new(rng), &self.junk),
            Class::Damaged => damage::damaged(rng, &self.junk, index),
            Class::Words => words::changed(rng, &self.junk),
            Class::Clash => clash::clash(Draft::new(rng), &self.junk),
            Class::Again => again::again(Draft::new(rng), &self.junk),
        };
        case.call.lend_index(rng, &self.junk);
        Some(case)
    }
}

/// No sort of a random list is larger when written out.
const LARGEST: usize = 60;

fn mixed(mut draft: Draft, junk: &Junk) -> Case {
    let first = draft.count();
    add_sorts(&mut draft);
    let mut pairs = [first; 5].map(|first| draft.pair(first)).to_vec();
    pairs.push(draft.making_pair(first));
    Case::about(draft.memory(junk), &pairs)
}

fn add_sorts(draft: &mut Draft) {
    for _ in 0..draft.rng.between(2, 16) {
        draft.add(LARGEST);
    }
}
