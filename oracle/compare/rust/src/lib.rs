//! Compares the Rust crate `julqetai` with the excerpt of merc: the same lists in one process, put in by safe types and
//! read out by them.

pub mod compare;
#[path = "../../../../rust/tests/random/mod.rs"]
pub mod random;
pub mod said;
pub mod wrong;
