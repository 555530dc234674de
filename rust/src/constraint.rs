//! The constraints, by the names of merc's inference.rs.

use crate::ExprId;
use crate::Place;
use crate::SortId;

/// What a name resolved to.
#[derive(Clone, Copy, Debug, Eq, Hash, PartialEq)]
pub enum NameTarget {
    /// A variable in scope.
    Variable,
    /// A declared constructor or mapping.
    Op {
        /// The sort of the overload.
        sort: SortId,
    },
    /// A polymorphic built-in, whose sort follows from those of its arguments.
    Builtin,
}

impl NameTarget {
    /// Kind and sort as words. Only an operation has a sort.
    pub(crate) fn words(self) -> [u16; 2] {
        match self {
            NameTarget::Variable => [1, 0],
            NameTarget::Op { sort } => [2, sort.0],
            NameTarget::Builtin => [3, 0],
        }
    }

    /// What kind and sort say; `None` for kind 0, which stands for an expression without a name.
    pub(crate) fn of(kind: u16, sort: u16) -> Option<NameTarget> {
        match kind {
            1 => Some(NameTarget::Variable),
            2 => Some(NameTarget::Op { sort: SortId(sort) }),
            3 => Some(NameTarget::Builtin),
            _ => None,
        }
    }
}

/// The kind of a number literal: `0` is natural, every other literal positive.
#[derive(Clone, Copy, Debug, Eq, Hash, PartialEq)]
pub enum LitKind {
    /// Any literal but `0`.
    Positive,
    /// The literal `0`.
    Natural,
}

/// One overload of a name: what it resolves to, and the place of its sort.
#[derive(Clone, Copy, Debug, Eq, Hash, PartialEq)]
pub struct Overload {
    /// What the name resolves to under this overload.
    pub target: NameTarget,
    /// The place of the overload's sort.
    pub sort: Place,
}

impl Overload {
    /// A declared operation whose sort has no variables.
    pub fn op(sort: SortId) -> Overload {
        Overload { target: NameTarget::Op { sort }, sort: Place::Sort(sort) }
    }
}

/// One constraint. Constraints are solved in the order in which they are added.
///
/// ```
/// use julqetai::{Constraint, LitKind, Problem, SortId, Workspace};
///
/// // The literal 0 is a Nat: generality 1.
/// let mut problem = Problem::new();
/// let (_, sort) = problem.fresh_var();
/// let literal = problem.add_expr(sort);
/// problem.add_constraint(Constraint::Lit { sort: sort.into(), kind: LitKind::Natural });
///
/// let mut workspace = Workspace::new();
/// let typing = workspace.solve(&problem)?;
/// assert_eq!(typing.sort(literal), Some(SortId::NAT));
/// assert_eq!(typing.measure(), [1]);
/// # Ok::<(), julqetai::Refusal>(())
/// ```
#[derive(Clone, Copy, Debug, Eq, Hash, PartialEq)]
pub enum Constraint<'a> {
    /// The sort of `lhs` is that of `rhs` or widens into it.
    Sub {
        /// What is widened.
        lhs: Place,
        /// What it is widened into.
        rhs: Place,
    },
    /// `sort` is a number sort that admits the literal.
    Lit {
        /// The place of the literal's sort.
        sort: Place,
        /// Which literals it stands for.
        kind: LitKind,
    },
    /// The overloads of a name; a typing has exactly one of them.
    Disjunction {
        /// The expression whose name target is chosen.
        expr: ExprId,
        /// The place of its sort.
        sort: Place,
        /// What can be chosen.
        disjuncts: &'a [Overload],
    },
    /// A set or bag comprehension: a `Bool` body makes it a set, a `Nat` or `Pos` body a bag.
    Comprehension {
        /// The place of the body's sort.
        body: Place,
        /// The place of the comprehension's own sort.
        node: Place,
        /// The sort of the bound variable.
        element: SortId,
    },
    /// `target` is the least common supersort of the sources, of which there is at least one.
    Join {
        /// What is joined.
        sources: &'a [Place],
        /// The place of the join.
        target: Place,
    },
}
