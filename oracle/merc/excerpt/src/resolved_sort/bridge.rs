//! Puts a sort list into a [SortInterner] and reads sorts out of it.

use lists::memory::Memory;
use lists::memory::kind;
use lists::verdict::Shape;
use merc_syntax::ComplexSort;
use merc_syntax::Sort;
use merc_syntax::SortId;
use merc_syntax::TypeVarId;

use super::ResolvedSort;
use super::ResolvedSortId;
use super::SortInterner;

/// The primitive sorts by kind from [kind::BOOL] on.
const PRIMITIVES: [Sort; 5] = [Sort::Bool, Sort::Pos, Sort::Nat, Sort::Int, Sort::Real];

/// The containers by kind from [kind::LIST] on.
const CONTAINERS: [ComplexSort; 5] =
    [ComplexSort::List, ComplexSort::Set, ComplexSort::FSet, ComplexSort::Bag, ComplexSort::FBag];

pub(crate) fn container(kind: u16) -> ComplexSort {
    CONTAINERS[usize::from(kind - kind::LIST)]
}

pub(crate) fn sort_id(number: u16) -> ResolvedSortId {
    ResolvedSortId::new(usize::from(number))
}

/// Interns the rows of an accepted list in order, so that numbers of the list are ids here.
pub(crate) fn load(memory: &Memory) -> SortInterner {
    let mut sorts = SortInterner::new();
    for number in sorts.arena.len()..memory.sort_count {
        let row = memory.sort(number);
        let id = match row.kind {
            kind::LIST..=kind::FBAG => sorts.generic(container(row.kind), sort_id(row.part)),
            kind::FUNCTION => {
                let domain = memory.sort_arguments(row).iter().map(|&argument| sort_id(argument)).collect();
                sorts.function(domain, sort_id(row.part))
            }
            kind::DEF => sorts.def(SortId::new(usize::from(row.part))),
            kind::TYPE_VAR => sorts.var(TypeVarId::new(usize::from(row.part))),
            kind => panic!("an accepted list has no sort {number} of kind {kind}"),
        };
        assert_eq!(*id, number, "the rows of an accepted list are distinct sorts");
    }
    sorts
}

/// The sorts from number `first` on, in order of making.
pub(crate) fn sorts_from(sorts: &SortInterner, first: usize) -> Vec<Shape> {
    sorts.arena[first..].iter().map(shape).collect()
}

pub(crate) fn number(id: ResolvedSortId) -> u16 {
    word(*id)
}

fn word(index: usize) -> u16 {
    u16::try_from(index).expect("sort numbers fit a word")
}

pub(crate) fn shape(sort: &ResolvedSort) -> Shape {
    let plain = |kind, part| Shape { kind, part, arguments: Vec::new() };
    match sort {
        ResolvedSort::Unit => plain(kind::UNIT, 0),
        ResolvedSort::Primitive(sort) => plain(kind::BOOL + position(&PRIMITIVES, sort), 0),
        ResolvedSort::Container { op, subsort } => plain(kind::LIST + position(&CONTAINERS, op), number(*subsort)),
        ResolvedSort::Function { domain, range } => Shape {
            kind: kind::FUNCTION,
            part: number(*range),
            arguments: domain.iter().map(|&argument| number(argument)).collect(),
        },
        ResolvedSort::Def(id) => plain(kind::DEF, word(**id)),
        ResolvedSort::TypeVar(id) => plain(kind::TYPE_VAR, word(**id)),
    }
}

fn position<T: PartialEq>(all: &[T], one: &T) -> u16 {
    all.iter().position(|other| other == one).map(word).expect("every one is listed")
}
