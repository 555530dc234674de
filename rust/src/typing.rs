//! What a solved problem hands out.

use std::fmt;

use crate::ExprId;
use crate::NameTarget;
use crate::NewSorts;
use crate::SortId;

/// An overload that was chosen.
#[derive(Clone, Copy, Debug, Eq, Hash, PartialEq)]
pub struct Choice {
    /// The expression of the disjunction.
    pub expr: ExprId,
    /// The position of the overload in that disjunction, from 0 on.
    pub position: usize,
}

/// A typing: a sort for each expression, and what the names resolved to. It stands in the memory of the
/// [Workspace](crate::Workspace) that found it.
///
/// ```
/// use julqetai::{Choice, NameTarget, Overload, Place, Problem, SortId, Workspace};
///
/// let mut problem = Problem::new();
/// let (_, sort) = problem.fresh_var();
/// let (name, variable) = (problem.add_expr(sort), problem.add_expr(SortId::BOOL));
/// problem.add_name(variable, NameTarget::Variable);
/// let builtin = Overload { target: NameTarget::Builtin, sort: Place::Sort(SortId::INT) };
/// problem.disjunction(name, sort, &[Overload::op(SortId::REAL), builtin]);
/// problem.sub(sort, SortId::INT);
///
/// let mut workspace = Workspace::new();
/// let typing = workspace.solve(&problem)?;
/// assert!(typing.sorts().eq([SortId::INT, SortId::BOOL]));
/// assert!(typing.names().eq([Some(NameTarget::Builtin), Some(NameTarget::Variable)]));
/// assert!(typing.choices().eq([Choice { expr: name, position: 1 }]));
/// # Ok::<(), julqetai::Refusal>(())
/// ```
#[derive(Clone, Copy)]
pub struct Typing<'a> {
    /// Sort, target kind and target sort of each expression.
    pub(crate) rows: &'a [[u16; 3]],
    pub(crate) measure: &'a [u16],
    pub(crate) choices: &'a [[u16; 2]],
    pub(crate) new: NewSorts<'a>,
}

impl<'a> Typing<'a> {
    /// The sort of an expression; `None` if the problem has no such expression.
    pub fn sort(&self, expr: ExprId) -> Option<SortId> {
        self.rows.get(usize::from(expr.0)).map(|row| SortId(row[0]))
    }

    /// What the name at an expression resolved to: its base name or, over that, what a disjunction chose.
    pub fn name(&self, expr: ExprId) -> Option<NameTarget> {
        self.rows.get(usize::from(expr.0)).and_then(|row| NameTarget::of(row[1], row[2]))
    }

    /// The sort of each expression, in their order.
    pub fn sorts(&self) -> impl ExactSizeIterator<Item = SortId> + use<'a> {
        self.rows.iter().map(|row| SortId(row[0]))
    }

    /// What the name at each expression resolved to, in their order.
    pub fn names(&self) -> impl ExactSizeIterator<Item = Option<NameTarget>> + use<'a> {
        self.rows.iter().map(|row| NameTarget::of(row[1], row[2]))
    }

    /// The measure: one component for each Sub, each Lit and each source of a Join, in their order. None is above 255.
    pub fn measure(&self) -> &'a [u16] {
        self.measure
    }

    /// The chosen overloads, one for each disjunction, by rising expression number, whatever the order of the
    /// disjunctions.
    pub fn choices(&self) -> impl ExactSizeIterator<Item = Choice> + use<'a> {
        self.choices.iter().map(|row| Choice { expr: ExprId(row[0]), position: usize::from(row[1]) })
    }

    /// The sorts that the search made, which a typing may name.
    pub fn new_sorts(&self) -> NewSorts<'a> {
        self.new
    }
}

/// Two typings are equal if they say the same, wherever they stand.
impl PartialEq for Typing<'_> {
    fn eq(&self, other: &Typing<'_>) -> bool {
        self.sorts().eq(other.sorts())
            && self.names().eq(other.names())
            && self.measure == other.measure
            && self.choices == other.choices
            && self.new.eq(other.new)
    }
}

impl Eq for Typing<'_> {}

impl fmt::Debug for Typing<'_> {
    fn fmt(&self, f: &mut fmt::Formatter<'_>) -> fmt::Result {
        f.debug_struct("Typing")
            .field("sorts", &self.sorts().collect::<Vec<_>>())
            .field("names", &self.names().collect::<Vec<_>>())
            .field("measure", &self.measure)
            .field("choices", &self.choices().collect::<Vec<_>>())
            .field("new_sorts", &self.new.collect::<Vec<_>>())
            .finish()
    }
}
