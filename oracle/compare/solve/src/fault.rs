//! Ways in which a port may be wrong. The comparison must find each of them.

use lists::given::Counted;

use crate::call::Slice;

#[derive(Clone, Copy, Debug, Eq, PartialEq)]
pub enum Fault {
    // The verdict and the constraints.
    AlwaysNoTyping,
    FirstConstraintOnly,
    DisjunctionStops,
    TwoReadings,
    ReadingsOrder,
    ContainerAfterBody,
    ZeroIsPos,
    SevenIsNat,
    OccursDropped,

    // Widenings.
    EqualitySkipped,
    EmptyIsNoList,
    NarrowerFirst,
    RightAfterLeft,
    WiderReversed,
    NarrowerReversed,
    WideningGoesOn,

    // Joins.
    JoinNotMaterializable,
    JoinSecondWayToo,
    JoinFirstWaySkipped,
    JoinFromRight,
    JoinResolvesAll,
    JoinGivesUp,
    SourcesBackwards,

    // The measure.
    ComponentsFromZero,
    GeneralityPlusOne,
    InteriorCounted,
    ComparedFromBack,
    ComponentsSummed,

    // Pruning and leaves.
    PrunedOnEqual,
    PrunedBetweenSources,
    PrunedIsFound,
    NothingPruned,
    FirstLeafStays,
    TieNotMarked,
    MarkStays,
    TieMakesSorts,
    DefaultOnTop,

    // Room.
    SortRoom,
    EntryRoom,
    NodeRoom,
    NodeEntryRoom,
    EntryRoomOfSlice,
    NodesNotGivenBack,
    NodesGivenBackFirst,
    ResolvedNodesCount,
    AlwaysSorts,
    IncumbentSaves,

    // What is handed out.
    BoolForAll,
    OutputsUntouched,
    OutputsUnder18,
    OutputsBeforeRoom,
    BaseNameWins,
    NameSortCopied,
    NoneNotWritten,
    NamesPastCount,
    PositionInList,
    ChoicesByConstraint,
    FirstChoiceMissing,
    SlotsFromZero,
    LastChoiceTwice,
    MeasureToEnd,
    CountsMissing,
    EntriesNotCounted,
    ComponentsNotCounted,
    ChoicesNotCounted,
    CountsAfterRoom,

    // Sorts at exit.
    SortsLeftAfter15,
    SortsLeftAfter16,
    SortRowsNotCleared,
    SortEntriesNotCleared,
    SortsOneWordFew,
    SortsToCeiling,
    SortsGivenBackAfter17,
    SortsGivenBackAfter18,
    RowsPastKeptCleared,
    UnusedWordsLeft,

    // Nodes, scratch and bindings at exit.
    NodesLeftAfter17,
    NodesLeftAfterRoom,
    NodesLeftWhereNoneMade,
    NodeEntriesLeft,
    NodesOneWordFew,
    NodesToCeiling,
    ScratchOneWordFew,
    ScratchToCeiling,
    ScratchLeftAfter17,
    ScratchLeftAfterRoom,
    TrailEntryLeft,
    BindingsLeftAfterRoom,
    BindingLeft,
    JoinLeftOpen,
    BindingsFreed,

    // The index.
    IndexLeft,
    IndexLeftAfter17,
    IndexLeftAfterRoom,
    IndexOneWordFew,
    IndexToCeiling,
    IndexClearedByRefusal,
    IndexNotClearedFirst,
    IndexLastGivenMissing,
    IndexNewMissing,
    IndexClashOverwrites,
    IndexLooksOnce,
    IndexFirstTaken,
    IndexNotRound,

    // The checks.
    NotMade(u16),
    /// The earlier of two neighbouring checks comes after the later one.
    Exchanged(u16, u16),
    /// A full list is refused.
    Ceiling(Counted),
    ComponentCeiling,
    /// A slice that is one word short is taken.
    OneShort(Slice),
    /// The count of a list is taken for a number of 16 bits.
    Truncated(Counted),
    RunsByStart,
    OwnPart,
    StraysChecked,

    // Overload records.
    RecordSortFirst,
    RecordsTo1023,
    RecordsByWord,

    // Words that no call may change.
    Changed(Slice),
    ChangedAfterRefusal(Slice),
    Before(Slice),
    After(Slice),
}

/// The codes of the checks in their order.
pub const CODES: [u16; 13] = [1, 2, 3, 4, 5, 6, 7, 8, 9, 10, 11, 12, 14];

const SINGLE: [(Fault, &str); 105] = [
    (Fault::AlwaysNoTyping, "17 for everything"),
    (Fault::FirstConstraintOnly, "only the first constraint is obeyed"),
    (Fault::DisjunctionStops, "a disjunction stops at its first success"),
    (Fault::TwoReadings, "a comprehension has two readings only"),
    (Fault::ReadingsOrder, "a comprehension tries Nat before Bool"),
    (Fault::ContainerAfterBody, "a comprehension makes its container after it looked at the body"),
    (Fault::ZeroIsPos, "the literal 0 may be Pos"),
    (Fault::SevenIsNat, "the literal 7 starts at Nat"),
    (Fault::OccursDropped, "the occurs check is dropped"),
    (Fault::EqualitySkipped, "a widening does not try equality"),
    (Fault::EmptyIsNoList, "an empty list is no list"),
    (Fault::NarrowerFirst, "the narrower list comes before the wider one"),
    (Fault::RightAfterLeft, "the right side's list comes after the left's"),
    (Fault::WiderReversed, "wider sorts come farthest first"),
    (Fault::NarrowerReversed, "narrower sorts come farthest first"),
    (Fault::WideningGoesOn, "a widening goes on after its first success"),
    (Fault::JoinNotMaterializable, "a join is accepted that is not materializable"),
    (Fault::JoinSecondWayToo, "a Join tries its second way after the first found"),
    (Fault::JoinFirstWaySkipped, "a Join has no first way"),
    (Fault::JoinFromRight, "a Join joins its sources from the right"),
    (Fault::JoinResolvesAll, "a Join resolves the sources after an open one too"),
    (Fault::JoinGivesUp, "a Join without a first way gives up"),
    (Fault::SourcesBackwards, "a Join goes through its sources from last to first"),
    (Fault::ComponentsFromZero, "components of wider sorts begin at 0"),
    (Fault::GeneralityPlusOne, "components of literals are one too high"),
    (Fault::InteriorCounted, "components of a Join have the interior distance too"),
    (Fault::ComparedFromBack, "measures are compared from the back"),
    (Fault::ComponentsSummed, "measures are compared by their sums"),
    (Fault::PrunedOnEqual, "an equal prefix is dropped"),
    (Fault::PrunedBetweenSources, "a prefix is dropped between a Join's sources"),
    (Fault::PrunedIsFound, "a dropped prefix counts as found"),
    (Fault::NothingPruned, "no prefix is dropped"),
    (Fault::FirstLeafStays, "a smaller measure does not replace"),
    (Fault::TieNotMarked, "a tie is not marked"),
    (Fault::MarkStays, "a smaller measure leaves the mark of a tie"),
    (Fault::TieMakesSorts, "a tie makes sorts"),
    (Fault::DefaultOnTop, "the default stands at the top only"),
    (Fault::SortRoom, "15 comes at the last sort that fits"),
    (Fault::EntryRoom, "15 comes at the last entry that fits"),
    (Fault::NodeRoom, "16 comes at the last node that fits"),
    (Fault::NodeEntryRoom, "16 comes at the last node entry that fits"),
    (Fault::EntryRoomOfSlice, "entries past 4,096 are used where more is lent"),
    (Fault::NodesNotGivenBack, "nodes are not given back"),
    (Fault::NodesGivenBackFirst, "nodes are given back before the tries"),
    (Fault::ResolvedNodesCount, "the sorts of a wider list count as nodes"),
    (Fault::AlwaysSorts, "15 in place of 16"),
    (Fault::IncumbentSaves, "an incumbent saves a search that runs out of room"),
    (Fault::BoolForAll, "Bool for each expression"),
    (Fault::OutputsUntouched, "outputs are untouched under 0"),
    (Fault::OutputsUnder18, "outputs are written under 18"),
    (Fault::OutputsBeforeRoom, "outputs are written at leaves, before room ends"),
    (Fault::BaseNameWins, "a base name stays"),
    (Fault::NameSortCopied, "the unused sort of a name is handed out"),
    (Fault::NoneNotWritten, "a missing name is not written"),
    (Fault::NamesPastCount, "base names past the count are read"),
    (Fault::PositionInList, "a position counts in the whole overload list"),
    (Fault::ChoicesByConstraint, "choices come in the order of the constraints"),
    (Fault::FirstChoiceMissing, "the choice of the first expression is not written"),
    (Fault::SlotsFromZero, "each choice has the position of the one before, the first is not written"),
    (Fault::LastChoiceTwice, "the last choice is written twice"),
    (Fault::MeasureToEnd, "the measure is filled up with zeros"),
    (Fault::CountsMissing, "17 has no counts"),
    (Fault::EntriesNotCounted, "new entries are not counted"),
    (Fault::ComponentsNotCounted, "components are not counted"),
    (Fault::ChoicesNotCounted, "choices are not counted"),
    (Fault::CountsAfterRoom, "15 and 16 have counts"),
    (Fault::SortsLeftAfter15, "15 leaves the sorts that were made"),
    (Fault::SortsLeftAfter16, "16 leaves the sorts that were made"),
    (Fault::SortRowsNotCleared, "15 clears from the rows in use on"),
    (Fault::SortEntriesNotCleared, "15 does not clear entries"),
    (Fault::SortsOneWordFew, "15 clears one word of the sorts too few"),
    (Fault::SortsToCeiling, "15 clears sorts up to the ceiling only"),
    (Fault::SortsGivenBackAfter17, "17 gives new sorts back"),
    (Fault::SortsGivenBackAfter18, "18 gives new sorts back"),
    (Fault::RowsPastKeptCleared, "0 clears the rows past the kept sorts"),
    (Fault::UnusedWordsLeft, "unused words of new rows are not written"),
    (Fault::NodesLeftAfter17, "17 does not clear nodes"),
    (Fault::NodesLeftAfterRoom, "15 and 16 do not clear nodes"),
    (Fault::NodesLeftWhereNoneMade, "nodes are not cleared where none was made"),
    (Fault::NodeEntriesLeft, "node entries are not cleared"),
    (Fault::NodesOneWordFew, "one word of the nodes too few is cleared"),
    (Fault::NodesToCeiling, "nodes are cleared up to the ceiling only"),
    (Fault::ScratchOneWordFew, "one word of the scratch too few is cleared"),
    (Fault::ScratchToCeiling, "4,096 words of a longer scratch are cleared"),
    (Fault::ScratchLeftAfter17, "17 does not clear the scratch"),
    (Fault::ScratchLeftAfterRoom, "15 and 16 do not clear the scratch"),
    (Fault::BindingsLeftAfterRoom, "15 and 16 leave bindings"),
    (Fault::TrailEntryLeft, "undoing stops one entry of the trail early"),
    (Fault::BindingLeft, "one binding is left at exit"),
    (Fault::JoinLeftOpen, "bindings of a Join's first way are left"),
    (Fault::BindingsFreed, "given bindings are gone at exit"),
    (Fault::IndexLeft, "the index is not cleared"),
    (Fault::IndexLeftAfter17, "17 does not clear the index"),
    (Fault::IndexLeftAfterRoom, "15 and 16 do not clear the index"),
    (Fault::IndexOneWordFew, "one word of the index too few is cleared"),
    (Fault::IndexToCeiling, "2,048 words of a longer index are cleared"),
    (Fault::IndexClearedByRefusal, "a refusal clears the index"),
    (Fault::IndexNotClearedFirst, "what the index holds at entry is taken for sorts"),
    (Fault::IndexLastGivenMissing, "the last given sort is not in the index"),
    (Fault::IndexNewMissing, "a new sort is not put into the index"),
    (Fault::IndexClashOverwrites, "a sort takes the slot of another one"),
    (Fault::IndexLooksOnce, "a lookup looks at one slot only"),
    (Fault::IndexFirstTaken, "the sort of the first slot is taken as it is"),
    (Fault::IndexNotRound, "a walk ends at the last slot"),
    (Fault::ComponentCeiling, "256 components are refused"),
];

const CHECKED: [(Fault, &str); 3] = [
    (Fault::RunsByStart, "check 4 compares the starts of runs"),
    (Fault::OwnPart, "check 3 lets a sort have itself as part"),
    (Fault::StraysChecked, "overloads that no constraint has are checked"),
];

const OF_RECORDS: [(Fault, &str); 3] = [
    (Fault::RecordSortFirst, "the sort of an overload record comes before its kind"),
    (Fault::RecordsTo1023, "the last of 1,024 overload records is not read"),
    (Fault::RecordsByWord, "the overload words are taken for so many records"),
];

/// The lists that have a ceiling of their own.
const WITH_CEILING: [Counted; 9] = [
    Counted::Sorts,
    Counted::Entries,
    Counted::Nodes,
    Counted::NodeEntries,
    Counted::Vars,
    Counted::Exprs,
    Counted::Constraints,
    Counted::Overloads,
    Counted::Sources,
];

impl Fault {
    /// All of them, with what is wrong.
    pub fn all() -> Vec<(Fault, String)> {
        let single = SINGLE.iter().chain(&CHECKED).chain(&OF_RECORDS).map(|&(fault, what)| (fault, what.to_string()));
        let not_made = CODES.map(|code| (Fault::NotMade(code), format!("check {code} is not made")));
        let exchanged = CODES.windows(2).map(|codes| {
            let [early, late] = [codes[0], codes[1]];
            (Fault::Exchanged(early, late), format!("check {late} comes before {early}"))
        });
        let ceilings = WITH_CEILING.map(|list| (Fault::Ceiling(list), format!("full {} are refused", name(list))));
        let truncated = Counted::ALL
            .map(|(list, name)| (Fault::Truncated(list), format!("the count of {name} is taken as 16 bits")));
        let words = Slice::ALL.into_iter().flat_map(|(slice, name)| {
            [
                (Fault::OneShort(slice), format!("{name} one word short are taken")),
                (Fault::Changed(slice), format!("a word of {name} is changed")),
                (Fault::ChangedAfterRefusal(slice), format!("a word of {name} is changed after a refusal")),
                (Fault::Before(slice), format!("the word before {name} is changed")),
                (Fault::After(slice), format!("the word after {name} is changed")),
            ]
        });
        single.chain(not_made).chain(exchanged).chain(ceilings).chain(truncated).chain(words).collect()
    }
}

fn name(list: Counted) -> &'static str {
    Counted::ALL[list as usize].1
}
