//! Lists of the solver: the text format and the memory form of docs/FORMAT.md, a model of the checks before the search,
//! and a generator.

pub mod answer;
pub mod checks;
pub mod generate;
pub mod given;
pub mod index;
pub mod memory;
pub mod question;
pub mod read;
pub mod rng;
pub mod verdict;
pub mod write;
