//! The lists of the timing.

use common::junk::Junk;
use lists::given::Given;
use lists::memory::*;
use lists::rng::Rng;

use crate::call::Call;
use crate::cases::dropped::dropped;
use crate::cases::few::few;
use crate::cases::ground::Ground;
use crate::cases::large::long_list;
use crate::cases::pad;
use crate::layout::More;
use crate::layout::laid_out;

#[derive(Clone, Copy, Debug)]
pub enum Timed {
    /// One to five constraints.
    Small,
    /// A choice of two variables at once, and one to four constraints that tell its overloads apart.
    Choice,
    /// Choices of numbers, each followed by the constraint that tells its overloads apart.
    Pruned,
    /// The same with all choices first.
    PrunedLate,
    /// 256 constraints.
    Long,
    /// 256 constraints, 512 variables and 512 expressions.
    LongAndWide,
    /// A measure of 250 components, which differ from the incumbent's at the end: choices told apart there.
    LongMeasure,
    /// One to five constraints beside 1,000 sorts.
    ManySorts,
}

impl Timed {
    pub const ALL: [(Timed, &'static str); 8] = [
        (Timed::Small, "small"),
        (Timed::Choice, "a choice, told apart"),
        (Timed::Pruned, "7 choices, pruned early"),
        (Timed::PrunedLate, "5 choices, pruned late"),
        (Timed::Long, "256 constraints"),
        (Timed::LongAndWide, "the same, 512 variables"),
        (Timed::LongMeasure, "250 components, 6 choices last"),
        (Timed::ManySorts, "small, 1,000 sorts"),
    ];

    /// List `index` of a seed.
    pub fn call(self, junk: &Junk, seed: u64, index: u64) -> Call {
        let rng = &mut Rng::of_list(seed, index);
        let list = match self {
            Timed::Small => few(rng),
            Timed::Choice => dropped(rng),
            Timed::Pruned => pruned(rng, 7, false),
            Timed::PrunedLate => pruned(rng, 5, true),
            Timed::Long => long_list(rng, MAX_CONSTRAINTS, 0, 0),
            Timed::LongAndWide => long_list(rng, MAX_CONSTRAINTS, MAX_EXPRESSIONS, MAX_VARIABLES),
            Timed::LongMeasure => long_measure(rng, 250, 6),
            Timed::ManySorts => many_sorts(rng),
        };
        laid_out(rng, junk, &list, More::Exact)
    }
}

fn pruned(rng: &mut Rng, choices: usize, late: bool) -> Given {
    let mut ground = Ground::new(rng);
    choose(&mut ground, choices, late);
    ground.finish()
}

/// Choices of numbers, and after each, or after all, the constraint that tells its overloads apart.
fn choose(ground: &mut Ground, choices: usize, late: bool) {
    let places: Vec<u16> = (0..choices).map(|_| ground.variable()).collect();
    for &place in &places {
        let overloads = [(); 4].map(|()| ground.number());
        ground.disjunction(place, &overloads);
        if !late {
            ground.sub(place, kind::REAL);
        }
    }
    if late {
        places.iter().for_each(|&place| ground.sub(place, kind::REAL));
    }
}

fn long_measure(rng: &mut Rng, components: usize, choices: usize) -> Given {
    let mut ground = Ground::new(rng);
    for _ in choices..components {
        let number = ground.number();
        ground.sub(number, kind::REAL);
    }
    choose(&mut ground, choices, false);
    ground.finish()
}

fn many_sorts(rng: &mut Rng) -> Given {
    let mut list = few(rng);
    pad::sorts(&mut list, 1_000);
    list
}
