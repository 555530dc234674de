//! The cases: lists to solve, in lent words. Case N of a class and seed is always the same.

mod again;
mod clash;
mod damage;
mod deep;
mod disguise;
mod dropped;
mod few;
mod full;
mod ground;
mod grown;
mod large;
mod pad;
mod sample;
mod short;
mod timed;
mod words;

use common::junk::Junk;
use lists::generate;
use lists::given::Given;
use lists::rng::Rng;

use crate::call::Call;
use crate::layout::More;
use crate::layout::laid_out;

pub use grown::Grown;
pub use sample::sample;
pub use sample::written;
pub use timed::Timed;

/// Kinds of lists that can be made.
#[derive(Clone, Copy, Debug, Eq, PartialEq)]
pub enum Class {
    /// Every list of one or two constraints from a stock of 517.
    Small,
    /// One to five constraints over a few sorts and nodes.
    Few,
    /// All five kinds of constraints, mostly ones that some assignment meets.
    Solve,
    /// The same, mostly Joins.
    Join,
    /// The same, mostly disjunctions and comprehensions.
    Choice,
    /// Choices that later components tell apart.
    Dropped,
    /// Entries and nodes filled up to what the search needs, or less.
    Edge,
    /// Every slice as long as it has to be, or one word shorter.
    Short,
    /// One or two faults, each pair of checks in turn.
    Damaged,
    /// A few words, counts or lengths changed at random.
    Words,
    /// Sorts filled up to what the search needs, or less.
    Full,
    /// Up to 256 constraints, 512 expressions, 512 variables, 1,024 overloads, 256 sources.
    Large,
    /// Nesting up to 1,500 deep.
    Deep,
    /// Up to 1,024 sorts whose places in the index are that of a sort that is looked for, or before it.
    Clash,
    /// Calls one after another over the same memory, many of which end with 15.
    Again,
}

impl Class {
    pub const ALL: [(Class, &'static str); 15] = [
        (Class::Small, "small"),
        (Class::Few, "few"),
        (Class::Solve, "solve"),
        (Class::Join, "join"),
        (Class::Choice, "choice"),
        (Class::Dropped, "dropped"),
        (Class::Edge, "edge"),
        (Class::Short, "short"),
        (Class::Damaged, "damaged"),
        (Class::Words, "words"),
        (Class::Full, "full"),
        (Class::Large, "large"),
        (Class::Deep, "deep"),
        (Class::Clash, "clash"),
        (Class::Again, "again"),
    ];

    pub fn name(self) -> &'static str {
        Class::ALL[self as usize].1
    }
}

/// A call, and the check that must refuse it where a fault was planted.
pub struct Case {
    pub call: Call,
    pub planted: Option<u16>,
    /// Calls that follow over the same memory: how many of the constraints each is told.
    pub again: Vec<usize>,
}

impl Case {
    pub fn new(call: Call) -> Case {
        Case { call, planted: None, again: Vec::new() }
    }
}

/// How many lists of one or two constraints there are, and a step that goes through them in another order, so that
/// the first ones are of all kinds.
const SMALL: u64 = 517 + 517 * 517;
const STEP: u64 = 104_729;

/// Makes the cases of one class and seed.
pub struct Cases {
    class: Class,
    seed: u64,
    junk: Junk,
}

impl Cases {
    pub fn new(class: Class, seed: u64) -> Cases {
        Cases { class, seed, junk: Junk::new(seed) }
    }

    /// Case `index`, or `None` past the end of an enumerated class.
    pub fn case(&self, index: u64) -> Option<Case> {
        let rng = &mut Rng::of_list(self.seed, index);
        let list = self.list(rng, index)?;
        Some(match self.class {
            Class::Short => short::case(rng, &self.junk, &list),
            Class::Damaged => damage::case(rng, &self.junk, list, index),
            Class::Words => words::case(rng, &self.junk, &list),
            Class::Again => again::case(rng, &self.junk, &list),
            _ => Case::new(laid_out(rng, &self.junk, &list, More::Any)),
        })
    }

    /// The list of case `index`, before it is laid out and damaged.
    pub fn list(&self, rng: &mut Rng, index: u64) -> Option<Given> {
        use generate::Class::*;
        Some(match self.class {
            Class::Small => {
                let number = (index < SMALL).then(|| index * STEP % SMALL)?;
                self.generated(Small, 1, number)?
            }
            Class::Few => disguised(rng, few::few),
            Class::Solve => disguised(rng, |rng| self.random(rng, Solve, index)),
            Class::Join => disguised(rng, |rng| self.random(rng, Join, index)),
            Class::Choice => disguised(rng, |rng| self.random(rng, Choice, index)),
            Class::Dropped => disguised(rng, dropped::dropped),
            Class::Short | Class::Damaged | Class::Words => self.any(rng, index),
            Class::Edge => full::edge(rng, |rng, turn| self.any(rng, index + (turn << 32))),
            Class::Full | Class::Again => full::sorts_edge(rng, |rng, turn| self.any(rng, index + (turn << 32))),
            Class::Large => long(rng, large::large),
            Class::Deep => long(rng, deep::deep),
            Class::Clash => clash::clash(rng, |rng, turn| self.any(rng, index + (turn << 32))),
        })
    }

    /// A list of one of the other classes.
    fn any(&self, rng: &mut Rng, index: u64) -> Given {
        use generate::Class::*;
        disguised(rng, |rng| match rng.below(10) {
            0..=4 => few::few(rng),
            5 | 6 => dropped::dropped(rng),
            7 => self.random(rng, Join, index),
            8 => self.random(rng, Choice, index),
            _ => self.random(rng, Solve, index),
        })
    }

    /// A list of a random class of the oracle's generator.
    fn random(&self, rng: &mut Rng, class: generate::Class, index: u64) -> Given {
        let size = rng.pick(&[1, 2, 2, 3, 3, 3, 4, 5]);
        self.generated(class, size, index).expect("a random class has no end")
    }

    fn generated(&self, class: generate::Class, size: usize, index: u64) -> Option<Given> {
        generate::case(class, self.seed, size, index).map(|case| case.list)
    }
}

fn disguised(rng: &mut Rng, list: impl FnOnce(&mut Rng) -> Given) -> Given {
    let mut list = list(rng);
    disguise::reorder(rng, &mut list);
    disguise::repack(rng, &mut list);
    list
}

/// A list that is long already; in some the room is just enough, or not.
fn long(rng: &mut Rng, list: impl FnOnce(&mut Rng) -> Given) -> Given {
    let mut list = list(rng);
    disguise::reorder(rng, &mut list);
    if rng.chance(30) {
        full::fill_up(rng, &mut list);
    }
    list
}
