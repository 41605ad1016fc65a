//! Ways in which the stand-in can be made wrong, to see that they are noticed.

use crate::faults::faults;

faults! {
    // Fresh blocks
    FreshDoesNothing,
    FreshKeepsPlans,
    FreshKeepsTaken,
    FreshKeepsRun,
    FreshGives1,

    // Holds: which, and in which order it is asked
    HoldAt8,
    HoldModulo8,
    HoldModulo256,
    HoldAsks26Before43,
    HoldAsks43First,
    HoldAsks26First,
    HoldAt8Gives25,
    HoldNeedsOneWordMore,
    HoldNeedsOneWordLess,
    /// A part of a word counts.
    HoldRoundsUp,
    /// Words taken are not counted.
    HoldIgnoresTaken,
    /// The words of the plan that is replaced are counted as free.
    HoldFreesReplaced,
    HoldOnlyWhereFree,
    HoldGivesNumberAlone,
    HoldRefusedInRun,

    // Holds: what is written
    /// From word 0 on.
    HoldWritesOverAll,
    /// Over the plan that the place held.
    HoldWritesOverReplaced,
    HoldWritesAWordMore,
    HoldClearsRest,
    HoldLeavesWords,
    HoldForgetsOthers,
    HoldForgetsReplaced,
    /// The plan that a place held stays.
    HoldKeepsReplaced,
    HoldTakesOneWordMore,
    HoldLanesReversed,

    // Holds: the run
    HoldKeepsRun,
    /// At other places than the running plan's.
    HoldElsewhereKeepsRun,
    /// Of the running plan's place alone.
    HoldThereKeepsRun,
    HoldStarts,
    RefusedImageEndsRun,
    RefusedImageEmptiesPlace,
    RefusedImageDropsRequest,
    Refused26EndsRun,
    Refused26EmptiesPlace,
    Refused26Writes,
    Refused43EndsRun,

    // Starts
    StartKeepsRequest,
    /// Where it is one for another plan than the one started.
    StartKeepsOtherRequest,
    StartTakesRequested,
    Start27DropsRequest,
    Start43DropsRequest,
    Start27EndsRun,
    Start43EndsRun,
    Start27Runs,
    StartAsks27First,
    StartAsks44,
    StartModulo8,
    StartOfNoneGives27,
    StartOf8Gives27,
    StartRefusedInRun,
    StartTakesFewerRecords,
    StartTakesMoreRecords,
    StartTakesUnevenRow,
    StartIgnoresWords,
    StartRoundsWordsUp,
    StartAsksAllWords,
    StartInCycle0,
    StartIn32Bits,
    StartInNextCycle,
    StartNotInLastCycle,
    StartsFirstLaneAlone,
    StartLeavesLastLane,
    StartLeavesShown,
    StartLeavesFirsts,
    StartLeavesRunning,

    // Requests
    RequestAsks44First,
    RequestBeforeStart,
    RequestBeforeStart43,
    RequestBeforeStart27,
    RequestIgnoresCycle,
    RequestIgnoresCores,
    RequestIgnoresLinks,
    /// Cores and links together.
    RequestComparesLanes,
    RequestComparesPrecision,
    /// How many words the tables take.
    RequestComparesWords,
    /// With the one that stands.
    RequestComparesWithRequested,
    RequestModulo8,
    RequestModulo256,
    RequestOfNone44,
    RequestOfRunning44,
    RequestOfRunningDoesNothing,
    RequestWhileOneStands44,
    /// The earlier one stays.
    RequestDoesNotReplace,
    Refused43Drops,
    Refused44Drops,
    Refused44Replaces,
    /// Not in the block.
    RequestKeptOutside,

    // Steps: when a request is taken
    NeverTaken,
    OnlyFirstTaken,
    TakenInMidCycle,
    /// The records' entries stay.
    TakenAsItStands,
    TakenAtTick1,
    TakenForLastTick,
    /// The records show it a tick too early.
    TakenWithLastTick,
    TakenACycleLate,
    /// Not by the first step after the request.
    NotTakenAtOnce,
    DroppedInMidCycle,
    TakenBackAgain,
    TakenInEvenCycles,
    NotTakenInLastCycle,
    TakenThough28,
    TakenThough27,
    Dropped28,

    // Steps: what is taken
    TakenOnFirstLane,
    TakenButOnLastLane,
    TakenOnCoresAlone,
    /// The running plan's tables in the first tick.
    ShownLate,
    ShownIdleFirst,
    TakenLanesReversed,
    TakenIsPlace0,
    TakenStartsCycle0,
    TakenSkipsACycle,
    TakenSkipsATick,

    // Steps: what is asked
    StepBeforeStart0,
    StepBeforeStart28,
    StepTakesFewerRecords,
    StepTakesMoreRecords,
    StepTakesUnevenRow,
    StepTakesNoRecords,
    StepAsks28First,
    StepAsksAllWords,
    /// Of the requested plan, though it is not due.
    StepAsksRequestedWords,
    /// The running plan goes on where the requested one's words are too few.
    StepGoesOnWithoutWords,
    StepNeverEnds,
    StepEndsACycleEarly,
    StepEndsATickEarly,
    EndGives27,
    EndEndsRun,
    StepWritesWords,
    StepMovesNothing,

    // The block
    LongerTaken,
    ShorterTaken,
    LengthModulo256,
    LengthModulo65536,
    OtherLengths0,
    OtherLengths43,
    OtherLengthsCleared,
    LengthAskedAfterImage,
    LengthAskedAfter43,
    FreshOfAnyLength,
}
