//! Two sorts that are built side by side, one step of nesting at a time, so that their distance is
//! known while they grow.

use common::draft::Draft;
use common::draft::Way;
use common::junk::Junk;
use lists::memory::*;

use crate::cases::Case;

#[derive(Clone, Copy)]
struct Chain {
    lhs: u16,
    rhs: u16,
    /// The left one is equal to or below the right one; else the other way round.
    up: bool,
    /// How far they are apart.
    steps: usize,
}

/// Nesting up to 500 deep, mostly less. Some start with sorts that have no join, and in some the two
/// change sides on the way, so that there is no order.
pub fn deep(mut draft: Draft, junk: &Junk) -> Case {
    let depth = match draft.rng.below(100) {
        0..=84 => draft.rng.between(3, 30),
        85..=97 => draft.rng.between(30, 120),
        _ => draft.rng.between(120, 500),
    };
    let mut chain = numbers(&mut draft, 3);
    if draft.rng.chance(10) {
        chain.rhs = kind::BOOL;
    }
    for _ in 0..depth {
        chain = wrapped(&mut draft, chain, usize::MAX);
        if draft.rng.below(depth) == 0 && draft.rng.chance(50) {
            (chain.lhs, chain.rhs) = (chain.rhs, chain.lhs);
        }
        if !has_room(&draft) {
            break;
        }
    }
    asked(draft, junk, chain)
}

/// A distance about 255, or far beyond.
pub fn far(mut draft: Draft, junk: &Junk) -> Case {
    let distance = match draft.rng.chance(80) {
        true => draft.rng.between(250, 260),
        false => draft.rng.between(100, 800),
    };
    let mut chain = numbers(&mut draft, 3);
    while chain.steps < distance && has_room(&draft) {
        chain = match draft.rng.chance(10) {
            true => repeated(&mut draft, chain, distance),
            false => wrapped(&mut draft, chain, distance - chain.steps),
        };
    }
    asked(draft, junk, chain)
}

/// Whether one more step of nesting leaves the list below its ceilings.
fn has_room(draft: &Draft) -> bool {
    draft.count() + 2 <= MAX_SORTS - 6 && draft.entries.len() + 4 * MAX_ARGUMENTS <= MAX_ENTRIES
}

fn asked(mut draft: Draft, junk: &Junk, chain: Chain) -> Case {
    let room_for_a_third = draft.count() < MAX_SORTS / 3 && draft.entries.len() < MAX_ENTRIES / 3;
    let other = match room_for_a_third {
        true => draft.relative(chain.lhs, Way::Like, 5),
        false => draft.any(),
    };
    Case::about(draft.memory(junk), &[(chain.lhs, chain.rhs), (chain.rhs, chain.lhs), (other, chain.rhs)])
}

/// Two numbers, the first at most `most` steps below the second.
fn numbers(draft: &mut Draft, most: usize) -> Chain {
    let lhs = draft.rng.between(kind::POS.into(), kind::REAL.into());
    let steps = draft.rng.between(0, most.min(usize::from(kind::REAL) - lhs));
    Chain { lhs: lhs as u16, rhs: (lhs + steps) as u16, up: true, steps }
}

/// The two sorts as parts of larger ones that are at most `most` steps farther apart.
fn wrapped(draft: &mut Draft, chain: Chain, most: usize) -> Chain {
    match draft.rng.chance(50) {
        true => in_container(draft, chain, most),
        false => in_function(draft, chain, most),
    }
}

fn in_container(draft: &mut Draft, chain: Chain, most: usize) -> Chain {
    let (finite, infinite) =
        draft.rng.pick(&[(kind::LIST, kind::LIST), (kind::FSET, kind::SET), (kind::FBAG, kind::BAG)]);
    let steps = usize::from(finite != infinite && most > 0 && draft.rng.chance(60));
    let (low, high) = match steps {
        0 => [(finite, finite), (infinite, infinite)][draft.rng.below(2)],
        _ => (finite, infinite),
    };
    let (lhs, rhs) = if chain.up { (low, high) } else { (high, low) };
    Chain {
        lhs: draft.plain(lhs, chain.lhs),
        rhs: draft.plain(rhs, chain.rhs),
        up: chain.up,
        steps: chain.steps + steps,
    }
}

/// The two as the range or as an argument of functions; the other parts are numbers.
fn in_function(draft: &mut Draft, chain: Chain, most: usize) -> Chain {
    let count = draft.rng.pick(&[0, 1, 1, 2, 3, MAX_ARGUMENTS]);
    let place = draft.rng.between(0, count);
    let up = chain.up == (place == count);
    let mut steps = 0;
    let (mut lhs, mut rhs) = (Vec::new(), Vec::new());
    for position in 0..=count {
        let part = if position == place { chain } else { numbers(draft, most - steps) };
        if position != place {
            steps += part.steps;
        }
        let same_side = part.up == (up == (position == count));
        lhs.push(if same_side { part.lhs } else { part.rhs });
        rhs.push(if same_side { part.rhs } else { part.lhs });
    }
    Chain { lhs: function(draft, lhs), rhs: function(draft, rhs), up, steps: chain.steps + steps }
}

/// The two as all arguments of functions, as many times as the distance allows.
fn repeated(draft: &mut Draft, chain: Chain, distance: usize) -> Chain {
    let times = MAX_ARGUMENTS.min(distance / chain.steps.max(1)).min(2_000 / draft.size(chain.lhs)).max(1);
    let parts = |part: u16| [vec![part; times], vec![kind::BOOL]].concat();
    Chain {
        lhs: function(draft, parts(chain.lhs)),
        rhs: function(draft, parts(chain.rhs)),
        up: !chain.up,
        steps: times * chain.steps,
    }
}

/// The function of these parts, the last of which is its range.
fn function(draft: &mut Draft, mut parts: Vec<u16>) -> u16 {
    let range = parts.pop().expect("a function has a range");
    draft.function(parts, range)
}
