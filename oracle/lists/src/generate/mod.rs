//! Makes lists: random ones, damaged ones, and enumerated small ones.
//!
//! Lists with heavily shared parts take exponential time in the Rust; they are left out by bounds
//! on the number of sorts, nodes and constraints.

mod damage;
mod draft;
mod enumerate;
mod random;
mod tree;

use crate::given::Given;
use crate::question::Question;
use crate::rng::Rng;

pub use damage::plant;
pub use random::of_sorts;

/// Kinds of lists that can be made.
#[derive(Clone, Copy, Debug, Eq, PartialEq)]
pub enum Class {
    /// All five kinds of constraints.
    Solve,
    /// Mostly Joins, with ground and open sources.
    Join,
    /// Mostly disjunctions and comprehensions: ties and dropped prefixes.
    Choice,
    /// As `Solve`, with small ceilings for the counting build.
    Room,
    /// As `Solve`, filled up to the document's ceilings.
    Full,
    /// As `Solve`, with the entries alone filled up to the document's ceilings.
    Entries,
    /// Nodes and bindings, with places to unify.
    Unify,
    /// Sorts, with pairs to order, join and meet.
    Lattice,
    /// One or two faults in a list.
    Damaged,
    /// Every list of one or two constraints from a small stock.
    Small,
    /// Every pair of sorts of at most three parts.
    Pairs,
}

impl Class {
    pub const ALL: [(Class, &'static str); 11] = [
        (Class::Solve, "solve"),
        (Class::Join, "join"),
        (Class::Choice, "choice"),
        (Class::Room, "room"),
        (Class::Full, "full"),
        (Class::Entries, "entries"),
        (Class::Unify, "unify"),
        (Class::Lattice, "lattice"),
        (Class::Damaged, "damaged"),
        (Class::Small, "small"),
        (Class::Pairs, "pairs"),
    ];

    pub fn name(self) -> &'static str {
        Class::ALL[self as usize].1
    }
}

/// A list with questions about it.
pub struct Case {
    pub list: Given,
    pub questions: Vec<Question>,
    /// The check that must refuse every question, where a fault was planted.
    pub planted: Option<u16>,
}

/// List `index` of a class, or `None` past the end of an enumerated one.
pub fn case(class: Class, seed: u64, size: usize, index: u64) -> Option<Case> {
    let mut rng = Rng::of_list(seed, index);
    let mut case = match class {
        Class::Solve | Class::Join | Class::Choice => random::solve(&mut rng, class, size),
        Class::Room => random::room(&mut rng, size),
        Class::Full => random::full(&mut rng, size),
        Class::Entries => random::entries(&mut rng, size),
        Class::Unify => random::unify(&mut rng, size),
        Class::Lattice => random::lattice(&mut rng, size),
        Class::Damaged => damage::damaged(&mut rng, size),
        Class::Small => enumerate::small(index)?,
        Class::Pairs => enumerate::pairs(index)?,
    };
    let planted = case.planted.map(|code| format!(" fault {code}")).unwrap_or_default();
    case.list.title = match class {
        Class::Small | Class::Pairs => format!("{} {index}", class.name()),
        _ => format!("{} seed {seed} size {size} number {index}{planted}", class.name()),
    };
    Some(case)
}
