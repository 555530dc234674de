//! Calls one after another over the same memory, about a list with little room: a call after one that ended with 15 or 16, and after
//! one whose search put its sorts back or kept them.

use common::junk::Junk;
use lists::given::Given;
use lists::rng::Rng;

use crate::cases::Case;
use crate::layout::More;
use crate::layout::laid_out;

/// The same list again, then fewer of its constraints, then all.
pub fn case(rng: &mut Rng, junk: &Junk, list: &Given) -> Case {
    let call = laid_out(rng, junk, list, More::Any);
    let all = call.memory.constraint_count;
    Case { again: vec![all, rng.below(all + 1), all], ..Case::new(call) }
}
