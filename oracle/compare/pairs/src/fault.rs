//! Ways in which a pair program may be wrong. The comparison must find each of them.

#[derive(Clone, Copy, Debug, Eq, PartialEq)]
pub enum Fault {
    ArrowTighter,
    ArrowsLeft,
    SeventeenArguments,
    CountGoesOn,
    BytesAccepted201,
    TabIsSpace,
    KnownWordEnds,
    HighLetters,
    AnyCase,
    EndOneLate,
    EndWithSpaces,
    EndTrimmed,
    BadSingle21,
    SecondCodeFirst,
    SecondLineKept,
    EmptyLineSkipped,
    EmptyRestIsLine,
    LastWithoutLfLost,
    CarriageReturnDropped,
    NulEndsLine,
    LongLineCut,
    JoinMeetExchanged,
    HeadInteriorExchanged,
    MaterializableBack,
}

impl Fault {
    /// All of them, with the names that options give them and what is wrong.
    pub const ALL: [(Fault, &str, &str); 24] = [
        (Fault::ArrowTighter, "arrow-tighter", "`->` binds tighter than `#`"),
        (Fault::ArrowsLeft, "arrows-left", "arrows group to the left"),
        (Fault::SeventeenArguments, "seventeen", "a seventeenth argument is taken"),
        (Fault::CountGoesOn, "count-goes-on", "the count of arguments goes on after `->`"),
        (Fault::BytesAccepted201, "201", "201 bytes are accepted"),
        (Fault::TabIsSpace, "tab", "a tab counts as a space"),
        (Fault::KnownWordEnds, "known-word", "a word ends where it is known, as in `NatPos`"),
        (Fault::HighLetters, "high-letters", "bytes above 127 are letters"),
        (Fault::AnyCase, "any-case", "`nat` is taken for `Nat`"),
        (Fault::EndOneLate, "end-late", "the unread end begins one byte late"),
        (Fault::EndWithSpaces, "end-spaces", "the unread end has the spaces before it"),
        (Fault::EndTrimmed, "end-trimmed", "the unread end loses spaces at its end"),
        (Fault::BadSingle21, "single-21", "21 for a last single line that is bad"),
        (Fault::SecondCodeFirst, "second-first", "the second line's code comes before the first's"),
        (Fault::SecondLineKept, "second-kept", "after a bad first line the second begins the next pair"),
        (Fault::EmptyLineSkipped, "empty-skipped", "empty lines are no lines"),
        (Fault::EmptyRestIsLine, "empty-rest", "after the last LF an empty line is read"),
        (Fault::LastWithoutLfLost, "last-lost", "a last line without LF is not read"),
        (Fault::CarriageReturnDropped, "cr-dropped", "a CR before LF is dropped"),
        (Fault::NulEndsLine, "nul-ends", "a line ends at a NUL byte"),
        (Fault::LongLineCut, "long-cut", "what follows 200 bytes of a line is the next line"),
        (Fault::JoinMeetExchanged, "join-meet", "join and meet are exchanged"),
        (Fault::HeadInteriorExchanged, "head-interior", "head and interior are exchanged"),
        (Fault::MaterializableBack, "back", "materializable from second to first"),
    ];

    pub fn named(name: &str) -> Option<Fault> {
        Fault::ALL.iter().find(|(_, other, _)| *other == name).map(|&(fault, ..)| fault)
    }
}
