//! The excerpt of merc: sorts, unifier and solver, cut from its unchanged text by the build, and
//! [ask], which puts a list into them; [Lattice] has the sorts alone, [Places] sorts and unifier, [Listed] all. Built
//! twice: plain, and counting (with the lines of `insertions.txt` and the `ledger`).

mod inference;
mod judge;
mod lattice;
#[cfg(feature = "counting")]
pub mod ledger;
mod places;
mod resolved_sort;
mod unification;

pub use judge::ask;
pub use lattice::Lattice;
pub use places::Listed;
pub use places::Places;

// The names under which the text of merc finds its own items.
pub(crate) use resolved_sort::ResolvedSort;
pub(crate) use resolved_sort::ResolvedSortId;
pub(crate) use resolved_sort::SortInterner;
pub(crate) use resolved_sort::number_generality;
pub(crate) use resolved_sort::number_sort_from_generality;
pub(crate) use unification::InferSort;
pub(crate) use unification::InferSortId;
pub(crate) use unification::Unifier;
