//! Compares the port's solver with the excerpt of merc: the same lists in one process, the answer and all lent
//! memory at exit.

pub mod call;
pub mod cases;
pub mod compare;
pub mod counts;
pub mod expected;
pub mod fault;
pub mod found;
pub mod layout;
pub mod port;
pub mod search;
pub mod speed;
pub mod stand_in;
pub mod text;
