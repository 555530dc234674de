//! The questions that can be asked about a list.

/// A question. Two words follow each but `Solve`: places for `Unify`, sort numbers elsewhere.
#[derive(Clone, Copy, Debug, Eq, PartialEq)]
pub enum Question {
    Solve,
    Unify(u16, u16),
    PartialCmp(u16, u16),
    Join(u16, u16),
    Meet(u16, u16),
    WideningDistance(u16, u16),
    IsMaterializable(u16, u16),
}
