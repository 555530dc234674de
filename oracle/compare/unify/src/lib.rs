//! Compares the port's unify with the excerpt of merc and with a model of document 01: the same
//! lists and places in one process, the answer and all lent memory at exit.

pub mod cases;
pub mod compare;
pub mod counts;
pub mod expected;
pub mod fault;
pub mod model;
pub mod port;
pub mod speed;
pub mod stand_in;
pub mod terms;
pub mod text;
