//! The numbers of sorts, nodes, variables and expressions, which do not mix, and places.

use std::fmt;

/// The number of a sort in the sort list of a [Problem](crate::Problem): merc's `ResolvedSortId`.
#[derive(Clone, Copy, Debug, Eq, Hash, Ord, PartialEq, PartialOrd)]
pub struct SortId(pub u16);

/// The number of an inference node.
#[derive(Clone, Copy, Debug, Eq, Hash, Ord, PartialEq, PartialOrd)]
pub struct NodeId(pub u16);

/// The number of a unification variable.
#[derive(Clone, Copy, Debug, Eq, Hash, Ord, PartialEq, PartialOrd)]
pub struct SortVar(pub u16);

/// The number of an expression.
#[derive(Clone, Copy, Debug, Eq, Hash, Ord, PartialEq, PartialOrd)]
pub struct ExprId(pub u16);

impl SortId {
    /// The sort with a single element.
    pub const UNIT: SortId = SortId(0);
    /// Bool.
    pub const BOOL: SortId = SortId(1);
    /// Pos.
    pub const POS: SortId = SortId(2);
    /// Nat.
    pub const NAT: SortId = SortId(3);
    /// Int.
    pub const INT: SortId = SortId(4);
    /// Real.
    pub const REAL: SortId = SortId(5);
}

/// A row number as a word. Past the last word it is the last: a list that long is refused, whatever names its rows.
pub(crate) fn word(number: usize) -> u16 {
    u16::try_from(number).unwrap_or(u16::MAX)
}

/// A sort or a node: merc's `InferSortId`, where an interned sort needs no node of its own.
///
/// ```
/// use julqetai::{NodeId, Place, SortId};
///
/// assert_eq!(Place::from(SortId::NAT), Place::Sort(SortId(3)));
/// assert_eq!(Place::from(NodeId(0)), Place::Node(NodeId(0)));
/// ```
#[derive(Clone, Copy, Debug, Eq, Hash, Ord, PartialEq, PartialOrd)]
pub enum Place {
    /// An interned sort.
    Sort(SortId),
    /// An inference node.
    Node(NodeId),
}

/// The first word that is a node; the words below are sorts.
const FIRST_NODE: u16 = 1_024;

/// A word that names no sort and, as there are at most 2,048, no node. It is not the word of a free variable.
const NOWHERE: u16 = FREE - 1;

/// The binding of a free variable.
pub(crate) const FREE: u16 = 65_535;

impl Place {
    /// The place as one word. A number that no list can have becomes a word that names nothing.
    pub(crate) fn word(self) -> u16 {
        match self {
            Place::Sort(SortId(sort)) if sort < FIRST_NODE => sort,
            Place::Node(NodeId(node)) => FIRST_NODE.checked_add(node).unwrap_or(NOWHERE),
            Place::Sort(_) => NOWHERE,
        }
    }

    /// The place as a binding, which does not say that the variable is free.
    pub(crate) fn binding(self) -> u16 {
        self.word().min(NOWHERE)
    }

    /// The place that a word names.
    pub(crate) fn of(word: u16) -> Place {
        match word.checked_sub(FIRST_NODE) {
            None => Place::Sort(SortId(word)),
            Some(node) => Place::Node(NodeId(node)),
        }
    }
}

impl From<SortId> for Place {
    fn from(sort: SortId) -> Place {
        Place::Sort(sort)
    }
}

impl From<NodeId> for Place {
    fn from(node: NodeId) -> Place {
        Place::Node(node)
    }
}

/// As docs/FORMAT.md names it: one of the six words, or `s6`.
impl fmt::Display for SortId {
    fn fmt(&self, f: &mut fmt::Formatter<'_>) -> fmt::Result {
        match ["unit", "Bool", "Pos", "Nat", "Int", "Real"].get(usize::from(self.0)) {
            Some(name) => f.write_str(name),
            None => write!(f, "s{}", self.0),
        }
    }
}

/// As docs/FORMAT.md names it: `n0`.
impl fmt::Display for NodeId {
    fn fmt(&self, f: &mut fmt::Formatter<'_>) -> fmt::Result {
        write!(f, "n{}", self.0)
    }
}

/// As docs/FORMAT.md names it: `v0`.
impl fmt::Display for SortVar {
    fn fmt(&self, f: &mut fmt::Formatter<'_>) -> fmt::Result {
        write!(f, "v{}", self.0)
    }
}

/// As docs/FORMAT.md names it: `e0`.
impl fmt::Display for ExprId {
    fn fmt(&self, f: &mut fmt::Formatter<'_>) -> fmt::Result {
        write!(f, "e{}", self.0)
    }
}

impl fmt::Display for Place {
    fn fmt(&self, f: &mut fmt::Formatter<'_>) -> fmt::Result {
        match self {
            Place::Sort(sort) => sort.fmt(f),
            Place::Node(node) => node.fmt(f),
        }
    }
}

#[cfg(test)]
mod tests {
    use super::*;

    #[test]
    fn places_keep_apart() {
        assert_eq!(Place::Sort(SortId(1_023)).word(), 1_023);
        assert_eq!(Place::Node(NodeId(0)).word(), 1_024);
        assert_eq!(Place::Sort(SortId(1_024)).word(), NOWHERE);
        assert_eq!(Place::Node(NodeId(64_509)).word(), 65_533);
        assert_eq!(Place::Node(NodeId(64_510)).word(), NOWHERE);
        assert_eq!(Place::Node(NodeId(64_511)).word(), 65_535);
        assert_eq!(Place::Node(NodeId(64_511)).binding(), NOWHERE);
        assert_eq!(Place::Node(NodeId(64_512)).word(), NOWHERE);
        assert_eq!(Place::Node(NodeId(u16::MAX)).word(), NOWHERE);
        assert_eq!(Place::Sort(SortId(u16::MAX)).word(), NOWHERE);
        for word in [0, 5, 1_023, 1_024, 3_071, 65_533, 65_535] {
            assert_eq!(Place::of(word).word(), word);
        }
    }
}
