//! Asks the excerpt of merc about lists.

pub mod ask;
pub mod computed;
pub mod options;
