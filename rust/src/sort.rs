//! Sorts and nodes, and the list of sorts.

use crate::Place;
use crate::SortId;
use crate::SortVar;
use crate::numbers::word;

/// The container constructors of mCRL2.
#[derive(Clone, Copy, Debug, Eq, Hash, PartialEq)]
pub enum ComplexSort {
    /// Lists.
    List,
    /// Sets.
    Set,
    /// Finite sets.
    FSet,
    /// Bags.
    Bag,
    /// Finite bags.
    FBag,
}

impl ComplexSort {
    const ALL: [ComplexSort; 5] =
        [ComplexSort::List, ComplexSort::Set, ComplexSort::FSet, ComplexSort::Bag, ComplexSort::FBag];

    fn kind(self) -> u16 {
        kind::LIST + self as u16
    }

    pub(crate) fn of(kind: u16) -> Option<ComplexSort> {
        ComplexSort::ALL.into_iter().find(|op| op.kind() == kind)
    }
}

/// The kinds of rows.
pub(crate) mod kind {
    pub const UNIT: u16 = 0;
    pub const BOOL: u16 = 1;
    pub const POS: u16 = 2;
    pub const NAT: u16 = 3;
    pub const INT: u16 = 4;
    pub const REAL: u16 = 5;
    pub const LIST: u16 = 6;
    pub const FUNCTION: u16 = 11;
    pub const DEF: u16 = 12;
    pub const TYPE_VAR: u16 = 13;
    pub const VARIABLE: u16 = 14;
}

/// A sort by its parts, which are sorts of the same list: merc's `ResolvedSort`.
///
/// ```
/// use julqetai::{ComplexSort, Problem, Sort, SortId};
///
/// // Bool # List(Nat) -> Pos
/// let mut problem = Problem::new();
/// let list = problem.add_sort(Sort::Container { op: ComplexSort::List, subsort: SortId::NAT });
/// let function = problem.add_sort(Sort::Function { domain: &[SortId::BOOL, list], range: SortId::POS });
/// assert_eq!(function, SortId(7));
/// assert_eq!(problem.sort(list), Some(Sort::Container { op: ComplexSort::List, subsort: SortId::NAT }));
/// ```
#[derive(Clone, Copy, Debug, Eq, Hash, PartialEq)]
pub enum Sort<'a> {
    /// The sort with a single element.
    Unit,
    /// Bool.
    Bool,
    /// Pos.
    Pos,
    /// Nat.
    Nat,
    /// Int.
    Int,
    /// Real.
    Real,
    /// A container sort such as `List(S)`.
    Container {
        /// The container.
        op: ComplexSort,
        /// The sort of its elements.
        subsort: SortId,
    },
    /// A function sort, with up to 16 arguments.
    Function {
        /// The sorts of the arguments.
        domain: &'a [SortId],
        /// The sort of the result.
        range: SortId,
    },
    /// A declared sort, by its number.
    Def(u16),
    /// A type variable, by its number.
    TypeVar(u16),
}

/// An inference node by its parts, which are sorts and lower nodes: merc's `InferSort`.
#[derive(Clone, Copy, Debug, Eq, Hash, PartialEq)]
pub enum Node<'a> {
    /// A container whose element sort may contain variables.
    Generic {
        /// The container.
        op: ComplexSort,
        /// The place of its element sort.
        subsort: Place,
    },
    /// A function, with up to 16 arguments, whose sorts may contain variables.
    Function {
        /// The places of the arguments' sorts.
        domain: &'a [Place],
        /// The place of the result's sort.
        range: Place,
    },
    /// A unification variable.
    Var(SortVar),
}

/// A row of a sort or node list in words: kind, part, and the run of the arguments.
pub(crate) type Row = [u16; 4];

impl Sort<'_> {
    fn row(self, entries: usize) -> Row {
        let plain = |kind: u16, part: u16| [kind, part, 0, 0];
        match self {
            Sort::Unit => plain(kind::UNIT, 0),
            Sort::Bool => plain(kind::BOOL, 0),
            Sort::Pos => plain(kind::POS, 0),
            Sort::Nat => plain(kind::NAT, 0),
            Sort::Int => plain(kind::INT, 0),
            Sort::Real => plain(kind::REAL, 0),
            Sort::Container { op, subsort } => plain(op.kind(), subsort.0),
            Sort::Function { domain, range } => [kind::FUNCTION, range.0, word(entries), word(domain.len())],
            Sort::Def(number) => plain(kind::DEF, number),
            Sort::TypeVar(number) => plain(kind::TYPE_VAR, number),
        }
    }

    /// The sort that a row says, in a list that has these entries.
    fn of(row: Row, entries: &[SortId]) -> Option<Sort<'_>> {
        let [kind, part, start, count] = row;
        Some(match kind {
            kind::UNIT => Sort::Unit,
            kind::BOOL => Sort::Bool,
            kind::POS => Sort::Pos,
            kind::NAT => Sort::Nat,
            kind::INT => Sort::Int,
            kind::REAL => Sort::Real,
            kind::FUNCTION => {
                let domain = entries.get(usize::from(start)..)?.get(..usize::from(count))?;
                Sort::Function { domain, range: SortId(part) }
            }
            kind::DEF => Sort::Def(part),
            kind::TYPE_VAR => Sort::TypeVar(part),
            _ => Sort::Container { op: ComplexSort::of(kind)?, subsort: SortId(part) },
        })
    }
}

impl Node<'_> {
    pub(crate) fn row(self, entries: usize) -> Row {
        match self {
            Node::Generic { op, subsort } => [op.kind(), subsort.word(), 0, 0],
            Node::Function { domain, range } => [kind::FUNCTION, range.word(), word(entries), word(domain.len())],
            Node::Var(var) => [kind::VARIABLE, var.0, 0, 0],
        }
    }
}

/// Sorts, and the arguments of those that are functions.
#[derive(Clone, Debug, Default, Eq, PartialEq)]
pub(crate) struct SortList {
    pub(crate) rows: Vec<Row>,
    pub(crate) entries: Vec<SortId>,
    /// How deep each sort is nested, and the deepest.
    depths: Vec<usize>,
    pub(crate) deepest: usize,
}

impl SortList {
    pub(crate) fn push(&mut self, sort: Sort<'_>) {
        let depth = |part: &SortId| self.depths.get(usize::from(part.0)).map_or(0, |depth| depth + 1);
        let depth = match sort {
            Sort::Container { subsort, .. } => depth(&subsort),
            Sort::Function { domain, range } => domain.iter().map(depth).fold(depth(&range), usize::max),
            _ => 0,
        };
        self.depths.push(depth);
        self.deepest = self.deepest.max(depth);
        self.rows.push(sort.row(self.entries.len()));
        if let Sort::Function { domain, .. } = sort {
            self.entries.extend_from_slice(domain);
        }
    }

    pub(crate) fn get(&self, index: usize) -> Option<Sort<'_>> {
        Sort::of(*self.rows.get(index)?, &self.entries)
    }
}

/// The sorts that a search made, in order of making, each with its number. Their parts are sorts of the problem's list
/// or of these.
#[derive(Clone, Copy, Debug)]
pub struct NewSorts<'a> {
    pub(crate) list: &'a Made,
    pub(crate) next: usize,
}

/// Rows and arguments that a search made, after those of a list of `given` sorts.
#[derive(Clone, Debug, Default)]
pub(crate) struct Made {
    pub(crate) given: usize,
    pub(crate) rows: Vec<Row>,
    pub(crate) entries: Vec<SortId>,
}

impl<'a> Iterator for NewSorts<'a> {
    type Item = (SortId, Sort<'a>);

    fn next(&mut self) -> Option<(SortId, Sort<'a>)> {
        let sort = Sort::of(*self.list.rows.get(self.next)?, &self.list.entries)?;
        let number = SortId(word(self.list.given + self.next));
        self.next += 1;
        Some((number, sort))
    }

    fn size_hint(&self) -> (usize, Option<usize>) {
        let left = self.list.rows.len().saturating_sub(self.next);
        (left, Some(left))
    }
}

impl ExactSizeIterator for NewSorts<'_> {}
