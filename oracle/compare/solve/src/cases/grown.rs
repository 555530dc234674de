//! Lists of one form and many sizes, to see how times grow.

use common::junk::Junk;
use lists::given::Given;
use lists::memory::*;
use lists::rng::Rng;

use crate::call::Call;
use crate::cases::few::few;
use crate::cases::ground::Ground;
use crate::cases::large::long_list;
use crate::cases::pad;
use crate::layout::More;
use crate::layout::laid_out;

/// What grows.
#[derive(Clone, Copy, Debug)]
pub enum Grown {
    /// Sorts beside one to five constraints that use few of them.
    Sorts,
    /// Constraints, each met in one way or at its first try.
    Constraints,
    /// Overloads of one disjunction, of which the next constraint takes one.
    Overloads,
}

impl Grown {
    /// With the sizes that are looked at.
    pub const ALL: [(Grown, &'static str, [usize; 6]); 3] = [
        (Grown::Sorts, "sorts", [30, 60, 125, 250, 500, 1_000]),
        (Grown::Constraints, "constraints", [8, 16, 32, 64, 128, 256]),
        (Grown::Overloads, "overloads", [32, 64, 128, 256, 512, 1_024]),
    ];

    /// List `index` of a seed.
    pub fn call(self, junk: &Junk, seed: u64, index: u64, size: usize) -> Call {
        let rng = &mut Rng::of_list(seed, index);
        let list = match self {
            Grown::Sorts => {
                let mut list = few(rng);
                pad::sorts(&mut list, size);
                list
            }
            Grown::Constraints => long_list(rng, size, 0, 0),
            Grown::Overloads => overloads(rng, size),
        };
        laid_out(rng, junk, &list, More::Exact)
    }
}

/// One overload is a number, the others are Bool, which does not widen.
fn overloads(rng: &mut Rng, size: usize) -> Given {
    let mut ground = Ground::new(rng);
    let place = ground.variable();
    let mut overloads = vec![kind::BOOL; size];
    let taken = ground.rng.below(size);
    overloads[taken] = ground.number();
    ground.disjunction(place, &overloads);
    ground.sub(place, kind::REAL);
    ground.finish()
}
