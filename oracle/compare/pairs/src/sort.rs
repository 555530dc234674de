//! A sort as a line spells it.

use lists::memory::kind;

#[derive(Clone, Debug, Eq, PartialEq)]
pub enum Sort {
    /// One of Bool, Pos, Nat, Int and Real, by kind.
    Basic(u16),
    Container(u16, Box<Sort>),
    Function(Vec<Sort>, Box<Sort>),
}

/// The words for basic sorts and their kinds.
pub const BASIC: [(&str, u16); 5] =
    [("Bool", kind::BOOL), ("Pos", kind::POS), ("Nat", kind::NAT), ("Int", kind::INT), ("Real", kind::REAL)];

/// The words for containers and their kinds.
pub const CONTAINERS: [(&str, u16); 5] =
    [("List", kind::LIST), ("Set", kind::SET), ("FSet", kind::FSET), ("Bag", kind::BAG), ("FBag", kind::FBAG)];

/// The kind of a word in one of the two tables.
pub fn kind_of(words: &[(&str, u16)], word: &[u8]) -> Option<u16> {
    words.iter().find(|(other, _)| other.as_bytes() == word).map(|&(_, kind)| kind)
}

/// The word of a kind in one of the two tables.
pub fn word_of(words: &[(&'static str, u16)], kind: u16) -> Option<&'static str> {
    words.iter().find(|&&(_, other)| other == kind).map(|&(word, _)| word)
}
