//! Ways in which a list program may be wrong. The comparison must find each of them.

#[derive(Clone, Copy, Debug, Eq, PartialEq)]
pub enum Fault {
    WrongOnce,
    MeasureReversed,
    ChoicesByConstraint,
    PositionsFromOne,
    NewOnlyForTyping,
    OpByNumber,
    UnitByWord,
    TextOf199,
    TitleTrimmed,
    UnaskedUnsaid,
    NotPassedOver,
    AnswerAnywhere,
    GivenAfterQuestion,
    OtherQuestionsUnsaid,
    CeilingsObeyed,
    MoreNames,
    LinesFromZero,
    BytesAccepted201,
    MoreLookedAt,
    LongLineCut,
    LastWithoutLfLost,
    TabIsSpace,
    NulEndsLine,
    CarriageReturnDropped,
}

impl Fault {
    /// All of them, with the names that options give them and what is wrong.
    pub const ALL: [(Fault, &str, &str); 24] = [
        (Fault::WrongOnce, "once", "one verdict of a run is wrong, the 777th"),
        (Fault::MeasureReversed, "measure", "the components are from last to first"),
        (Fault::ChoicesByConstraint, "choices", "choices are in the order of the constraints"),
        (Fault::PositionsFromOne, "positions", "positions count from 1"),
        (Fault::NewOnlyForTyping, "new", "new sorts are told only for a typing"),
        (Fault::OpByNumber, "op", "the sort of an operation is told by its number"),
        (Fault::UnitByWord, "unit", "unit is told by its word"),
        (Fault::TextOf199, "199", "a sort with a text of 200 bytes is told by its number"),
        (Fault::TitleTrimmed, "title", "a `list` line loses the spaces around it"),
        (Fault::UnaskedUnsaid, "unasked", "a list without a question is passed over"),
        (Fault::NotPassedOver, "passed", "after a bad line the next one is read"),
        (Fault::AnswerAnywhere, "answer", "an answer may stand before the question"),
        (Fault::GivenAfterQuestion, "after", "lines of a list may follow a question"),
        (Fault::OtherQuestionsUnsaid, "other", "other questions are passed over"),
        (Fault::CeilingsObeyed, "ceilings", "a line `ceilings` is obeyed"),
        (Fault::MoreNames, "names", "513 base names are held"),
        (Fault::LinesFromZero, "zero", "lines count from 0"),
        (Fault::BytesAccepted201, "201", "201 bytes are accepted"),
        (Fault::MoreLookedAt, "looked", "bytes past the first 201 are looked at"),
        (Fault::LongLineCut, "long-cut", "what follows 201 bytes of a line is the next line"),
        (Fault::LastWithoutLfLost, "last-lost", "a last line without LF is not read"),
        (Fault::TabIsSpace, "tab", "a tab counts as a space"),
        (Fault::NulEndsLine, "nul-ends", "a line ends at a NUL byte"),
        (Fault::CarriageReturnDropped, "cr-dropped", "a CR before LF is dropped"),
    ];

    pub fn named(name: &str) -> Option<Fault> {
        Fault::ALL.iter().find(|(_, other, _)| *other == name).map(|&(fault, ..)| fault)
    }
}
