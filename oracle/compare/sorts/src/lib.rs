//! Compares the proved sorts layer with the excerpt of merc: the same lists and questions in one
//! process, the answer and all lent memory at exit.

pub mod call;
pub mod cases;
pub mod compare;
pub mod expected;
pub mod port;
pub mod speed;
pub mod text;
