//! Stand-ins for the four types that the excerpt uses: data without behaviour.

use merc_utilities::TagIndex;

/// The primitive sorts of mCRL2.
#[derive(Clone, Copy, Debug, Eq, Hash, PartialEq)]
pub enum Sort {
    Bool,
    Pos,
    Int,
    Nat,
    Real,
}

/// The container constructors of mCRL2.
#[derive(Clone, Copy, Debug, Eq, Hash, PartialEq)]
pub enum ComplexSort {
    List,
    Set,
    FSet,
    FBag,
    Bag,
}

pub struct SortTag;

/// The declaration of a user-defined sort.
pub type SortId = TagIndex<usize, SortTag>;

pub struct TypeVarTag;

/// The declaration of a type variable.
pub type TypeVarId = TagIndex<usize, TypeVarTag>;
