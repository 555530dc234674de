//! Times of questions about sorts. Each call is timed alone and from the same state: the port is handed the same counts
//! again, and for merc the list is put in anew, outside the time, before each call.

use std::hint::black_box;

use common::clock::Clock;
use common::draft::Draft;
use common::junk::Junk;
use common::times::Times;
use lists::memory::INDEX;
use lists::memory::MAX_ARGUMENTS;
use lists::memory::Memory;
use lists::memory::kind;
use lists::question::Question;
use lists::rng::Rng;
use merc_plain::Lattice;

use crate::cases::timed;
use crate::expected::expected;
use crate::port;

/// A question, as both sides are asked it.
#[derive(Clone, Copy)]
pub struct Kind {
    pub name: &'static str,
    port: fn(&mut [u16], usize, usize, &mut [u16], u16, u16) -> u64,
    merc: fn(&mut Lattice, u16, u16),
}

pub const KINDS: [Kind; 3] = [
    Kind {
        name: "order",
        port: |sorts, rows, entries, _, lhs, rhs| port::partial_cmp(sorts, rows, entries, lhs, rhs),
        merc: |lattice, lhs, rhs| {
            black_box(lattice.partial_cmp(lhs, rhs));
        },
    },
    Kind {
        name: "join",
        port: port::join,
        merc: |lattice, lhs, rhs| {
            black_box(lattice.join(lhs, rhs));
        },
    },
    Kind {
        name: "meet",
        port: port::meet,
        merc: |lattice, lhs, rhs| {
            black_box(lattice.meet(lhs, rhs));
        },
    },
];

/// Sorts of a list, and how often each question is asked.
pub const SIZES: [(usize, usize); 3] = [(6, 200), (100, 100), (1000, 20)];

/// Asks each question `repeats` times on lists of `sorts` sorts, as many lists as are needed.
pub fn times(clock: &Clock, seed: u64, sorts: usize, questions: usize, repeats: usize, kind: Kind) -> Vec<Times> {
    let lists = (0..).map(|index| timed(seed, index, sorts));
    let asked =
        lists.flat_map(|(memory, pairs)| pairs.into_iter().map(move |pair| (memory.clone(), pair)).collect::<Vec<_>>());
    asked.take(questions).map(|(memory, pair)| question(clock, &memory, pair, repeats, kind)).collect()
}

/// The checks alone are the order of a sort and itself.
fn question(clock: &Clock, memory: &Memory, (lhs, rhs): (u16, u16), repeats: usize, kind: Kind) -> Times {
    let (mut words, mut index) = (memory.sorts.clone(), [0; INDEX]);
    let (rows, entries) = (memory.sort_count, memory.entry_count);
    let load = || Lattice::load(black_box(memory));
    Times {
        port: clock.time(repeats, || (), |()| (kind.port)(&mut words, rows, entries, &mut index, lhs, rhs)),
        checks: clock.time(repeats, || (), |()| port::partial_cmp(&memory.sorts, rows, entries, lhs, lhs)),
        merc: clock.time(repeats, load, |lattice| (kind.merc)(lattice, lhs, rhs)),
        load: clock.time(repeats, || (), |()| load()),
    }
}

/// Sorts of the lists that tell how times grow with their number.
pub const GROWN: [usize; 9] = [6, 12, 25, 50, 100, 200, 400, 700, 1_000];

/// What a join of the functions of such a list interns: a function of 16 arguments, and for each of these a function of 16
/// arguments and the containers that are its arguments.
pub const INTERNED: usize = 1 + MAX_ARGUMENTS * (1 + MAX_ARGUMENTS);

/// The times of three questions about one list.
pub struct Grown {
    /// The order of Pos and Nat.
    pub order: Times,
    /// Their join, which interns nothing.
    pub join: Times,
    /// The join that interns, of sorts that are all in the list. A list of the fixed six has none.
    pub interning: Option<Times>,
}

impl Grown {
    /// The time of one interning: what the join that interns takes more than the one that does not.
    pub fn one_interning(&self, time: fn(&Times) -> f64) -> Option<f64> {
        self.interning.map(|interning| (time(&interning) - time(&self.join)) / INTERNED as f64)
    }
}

/// Asks about list `index` of those with so many sorts.
pub fn grown(clock: &Clock, seed: u64, index: u64, sorts: usize, repeats: usize) -> Grown {
    let (memory, functions) = grown_list(seed, index, sorts);
    if let Some(pair) = functions {
        assert_eq!(joined(&memory, pair), excerpt(&memory, pair), "the answer of the port is not the excerpt's");
    }
    let [order, join, _] = KINDS;
    let ask = |pair, kind| question(clock, &memory, pair, repeats, kind);
    let numbers = (kind::POS, kind::NAT);
    Grown { order: ask(numbers, order), join: ask(numbers, join), interning: functions.map(|pair| ask(pair, join)) }
}

/// The answer of the port.
fn joined(memory: &Memory, (lhs, rhs): (u16, u16)) -> u64 {
    let (rows, entries) = (memory.sort_count, memory.entry_count);
    port::join(&mut memory.sorts.clone(), rows, entries, &mut [0; INDEX], lhs, rhs)
}

fn excerpt(memory: &Memory, (lhs, rhs): (u16, u16)) -> u64 {
    expected(memory, Question::Join(lhs, rhs)).expect("the builds agree").packed()
}

/// The last sorts: two functions of containers, and two of these.
const FUNCTIONS: usize = 4;

/// A list of so many sorts, and two functions of it, each of 16 arguments that are a function of 16 containers. Up to 16 sorts have
/// an FSet and a Set, which are such arguments: those of one function are the FSets, those of the other the Sets. They are spread
/// over the list, so that a scan finds one in the middle of the list on average.
fn grown_list(seed: u64, index: u64, sorts: usize) -> (Memory, Option<(u16, u16)>) {
    let rng = &mut Rng::of_list(seed, index);
    let mut draft = Draft::new(rng);
    let fixed = draft.count();
    let parts = (sorts.saturating_sub(fixed + FUNCTIONS) / 2).min(MAX_ARGUMENTS);
    if parts == 0 {
        pad(&mut draft, sorts);
        return (draft.memory(&Junk::new(seed)), None);
    }
    let others = sorts - fixed - FUNCTIONS - 2 * parts;
    let (mut finite, mut infinite) = (Vec::new(), Vec::new());
    for part in 0..parts {
        pad(&mut draft, fixed + others * (2 * part + 1) / (2 * parts) + 2 * part);
        let last = draft.count() as u16 - 1;
        finite.push(draft.plain(kind::FSET, last));
        infinite.push(draft.plain(kind::SET, last));
    }
    pad(&mut draft, sorts - FUNCTIONS);
    let mut function = |parts: &[u16]| {
        let arguments = parts.iter().copied().cycle().take(MAX_ARGUMENTS).collect();
        draft.function(arguments, kind::BOOL)
    };
    let inner = [function(&finite), function(&infinite)];
    let outer = inner.map(|inner| function(&[inner]));
    (draft.memory(&Junk::new(seed)), Some(outer.into()))
}

/// Adds sorts that are asked about nowhere, up to a number of sorts.
fn pad(draft: &mut Draft, count: usize) {
    while draft.count() < count {
        let number = draft.count() as u16;
        match draft.rng.below(4) {
            0 => draft.plain(kind::DEF, number),
            1 => draft.plain(kind::TYPE_VAR, number),
            2 => draft.plain(kind::BAG, number - 1),
            _ => draft.plain(kind::LIST, number - 1),
        };
    }
}

#[cfg(test)]
mod tests {
    use super::*;
    use crate::expected::Expected;

    /// Each has its number of sorts, and the join finds the second function without a new sort.
    #[test]
    fn the_join_of_a_grown_list_makes_nothing() {
        for sorts in GROWN {
            let (memory, functions) = grown_list(1, 0, sorts);
            assert_eq!(memory.sort_count, sorts);
            assert_eq!(functions.is_some(), sorts > 6);
            if let Some((lhs, rhs)) = functions {
                let Ok(Expected::Bound { sort, sorts: left, .. }) = expected(&memory, Question::Join(lhs, rhs)) else {
                    panic!("a join of {sorts} sorts")
                };
                assert_eq!((sort, left.len()), (Some(rhs), sorts));
            }
        }
    }

    /// The containers of a list of 1,000 sorts are in its middle on average.
    #[test]
    fn the_containers_are_spread() {
        let (memory, _) = grown_list(1, 0, 1_000);
        let sets = (0..memory.sort_count).filter(|&number| memory.sort(number).kind == kind::SET);
        let numbers: Vec<usize> = sets.collect();
        assert_eq!(numbers.len(), MAX_ARGUMENTS);
        assert!((480..520).contains(&(numbers.iter().sum::<usize>() / MAX_ARGUMENTS)));
    }
}
