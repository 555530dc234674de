//! Random sorts, and sorts made from others so that they have a join, a meet, a distance.

use lists::memory::kind;
use lists::rng::Rng;

use crate::sort::BASIC;
use crate::sort::CONTAINERS;
use crate::sort::Sort;

const MOST_ARGUMENTS: usize = 16;

/// Where a sort that is made from another one stands to it.
#[derive(Clone, Copy)]
pub enum Way {
    /// Equal or wider.
    Up,
    /// Equal or narrower.
    Down,
    /// Wider at some places and narrower at others.
    Like,
}

impl Way {
    fn reversed(self) -> Way {
        match self {
            Way::Up => Way::Down,
            Way::Down => Way::Up,
            Way::Like => Way::Like,
        }
    }
}

/// A sort from one word to about as many as a line holds.
pub fn any_size(rng: &mut Rng) -> Sort {
    match rng.below(20) {
        0..7 => {
            let words = rng.between(1, 4);
            sort(rng, words)
        }
        7..13 => {
            let words = rng.between(3, 12);
            sort(rng, words)
        }
        13..15 => {
            let words = rng.between(12, 30);
            sort(rng, words)
        }
        15 => {
            let depth = rng.between(5, 30);
            deep(rng, depth)
        }
        16..18 => {
            let function = wide(rng);
            if rng.chance(25) { contained(rng, function) } else { function }
        }
        18 => {
            let arrows = rng.between(2, 12);
            curried(rng, arrows)
        }
        _ => basic(rng),
    }
}

/// A sort of about so many words.
pub fn sort(rng: &mut Rng, words: usize) -> Sort {
    match words {
        0 | 1 => basic(rng),
        _ if rng.chance(40) => {
            let part = sort(rng, words - 1);
            contained(rng, part)
        }
        _ => {
            let count = rng.between(1, MOST_ARGUMENTS.min(words - 1).min(5));
            let share = (words - 1) / (count + 1);
            let arguments = (0..count).map(|_| operand(rng, share)).collect();
            Sort::Function(arguments, Box::new(sort(rng, words - 1 - count * share)))
        }
    }
}

/// A sort that may be an argument: no function, but there may be one inside.
fn operand(rng: &mut Rng, words: usize) -> Sort {
    match words {
        0 | 1 => basic(rng),
        _ => {
            let part = sort(rng, words - 1);
            contained(rng, part)
        }
    }
}

fn basic(rng: &mut Rng) -> Sort {
    // Bool has no neighbours, so it comes less often than the numbers.
    match rng.chance(10) {
        true => Sort::Basic(kind::BOOL),
        false => Sort::Basic(rng.pick(&BASIC[1..]).1),
    }
}

pub fn contained(rng: &mut Rng, part: Sort) -> Sort {
    Sort::Container(rng.pick(&CONTAINERS).1, Box::new(part))
}

fn deep(rng: &mut Rng, depth: usize) -> Sort {
    let words = rng.between(1, 3);
    let core = sort(rng, words);
    (0..depth).fold(core, |part, _| contained(rng, part))
}

/// A function of many arguments, or two of them one behind the other.
pub fn wide(rng: &mut Rng) -> Sort {
    let range = if rng.chance(20) { wide(rng) } else { basic(rng) };
    let count = if rng.chance(50) { MOST_ARGUMENTS } else { rng.between(6, MOST_ARGUMENTS) };
    let arguments = (0..count).map(|_| {
        let words = if rng.chance(10) { 2 } else { 1 };
        operand(rng, words)
    });
    Sort::Function(arguments.collect(), Box::new(range))
}

fn curried(rng: &mut Rng, arrows: usize) -> Sort {
    (0..arrows).fold(basic(rng), |range, _| {
        let arguments = (0..rng.between(1, 2)).map(|_| operand(rng, 1)).collect();
        Sort::Function(arguments, Box::new(range))
    })
}

/// A sort of the same shape, moved at random places.
pub fn moved(rng: &mut Rng, sort: &Sort, way: Way) -> Sort {
    match sort {
        Sort::Basic(kind::BOOL) => sort.clone(),
        Sort::Basic(number) => Sort::Basic(moved_number(rng, *number, way)),
        Sort::Container(container, part) => {
            let container = moved_container(rng, *container, way);
            Sort::Container(container, Box::new(moved(rng, part, way)))
        }
        Sort::Function(arguments, range) => {
            let arguments = arguments.iter().map(|argument| moved(rng, argument, way.reversed())).collect();
            Sort::Function(arguments, Box::new(moved(rng, range, way)))
        }
    }
}

fn moved_number(rng: &mut Rng, number: u16, way: Way) -> u16 {
    let (low, high) = match way {
        Way::Up => (number, kind::REAL),
        Way::Down => (kind::POS, number),
        Way::Like => (kind::POS, kind::REAL),
    };
    match rng.chance(50) {
        true => number,
        false => rng.between(low.into(), high.into()) as u16,
    }
}

fn moved_container(rng: &mut Rng, container: u16, way: Way) -> u16 {
    if rng.chance(50) {
        return container;
    }
    match (container, way) {
        (kind::FSET, Way::Up | Way::Like) => kind::SET,
        (kind::FBAG, Way::Up | Way::Like) => kind::BAG,
        (kind::SET, Way::Down | Way::Like) => kind::FSET,
        (kind::BAG, Way::Down | Way::Like) => kind::FBAG,
        _ => container,
    }
}

/// The widest or the narrowest of the sorts that have a join with the sort.
pub fn outermost(sort: &Sort, way: Way) -> Sort {
    let up = matches!(way, Way::Up);
    match sort {
        Sort::Basic(kind::BOOL) => sort.clone(),
        Sort::Basic(_) => Sort::Basic(if up { kind::REAL } else { kind::POS }),
        Sort::Container(container, part) => {
            let container = match (*container, up) {
                (kind::SET | kind::FSET, true) => kind::SET,
                (kind::SET | kind::FSET, false) => kind::FSET,
                (kind::BAG | kind::FBAG, true) => kind::BAG,
                (kind::BAG | kind::FBAG, false) => kind::FBAG,
                (container, _) => container,
            };
            Sort::Container(container, Box::new(outermost(part, way)))
        }
        Sort::Function(arguments, range) => {
            let arguments = arguments.iter().map(|argument| outermost(argument, way.reversed())).collect();
            Sort::Function(arguments, Box::new(outermost(range, way)))
        }
    }
}

/// A sort into which the sort is materializable, where there is another one than itself.
pub fn converted(rng: &mut Rng, sort: &Sort) -> Sort {
    match sort {
        Sort::Basic(kind::BOOL) => sort.clone(),
        Sort::Basic(number) => Sort::Basic(rng.between((*number).into(), kind::REAL.into()) as u16),
        Sort::Container(kind::FSET, part) => Sort::Container(kind::SET, part.clone()),
        Sort::Container(kind::FBAG, part) => Sort::Container(kind::BAG, part.clone()),
        Sort::Container(..) => sort.clone(),
        Sort::Function(arguments, range) => Sort::Function(arguments.clone(), Box::new(converted(rng, range))),
    }
}

/// The sort with something else at one place: another basic sort or container, or an argument
/// fewer or more.
pub fn one_part_other(rng: &mut Rng, sort: &Sort) -> Sort {
    match sort {
        Sort::Basic(_) => Sort::Basic(rng.pick(&BASIC).1),
        Sort::Container(_, part) if rng.chance(30) => contained(rng, (**part).clone()),
        Sort::Container(container, part) => Sort::Container(*container, Box::new(one_part_other(rng, part))),
        Sort::Function(arguments, range) => {
            let mut arguments = arguments.clone();
            let at = rng.below(arguments.len() + 1);
            match rng.below(5) {
                0 if arguments.len() < MOST_ARGUMENTS => arguments.insert(at, basic(rng)),
                1 if arguments.len() > at.max(1) => drop(arguments.remove(at)),
                _ if at < arguments.len() => arguments[at] = one_part_other(rng, &arguments[at]),
                _ => return Sort::Function(arguments, Box::new(one_part_other(rng, range))),
            }
            Sort::Function(arguments, range.clone())
        }
    }
}
