//! The list program of docs/FORMAT.md, apart from the port: lines are read by the oracle's reader, lists answered by the
//! excerpt of merc and the model of the checks. And what is needed to compare another program with it.

pub mod cases;
pub mod damage;
pub mod fault;
pub mod lines;
pub mod messages;
pub mod odd;
pub mod program;
pub mod verdict;
