//! Ways in which the stand-in can be made wrong, to see that they are noticed.

use crate::faults::faults;

faults! {
    // Making
    /// Rows out of order are taken.
    Make32NotAsked,
    /// A task whose mask forbids its core is taken.
    Make9NotAsked,
    /// All of the check is asked.
    MakeAsksAll,
    /// 40 is asked too.
    MakeAsks40,
    /// 11 is asked too.
    MakeAsks11,
    /// 13 is asked of tasks that have a piece.
    MakeAsksBudgets,
    Make34First,
    MakeTakesOneWordLess,
    MakeWantsOneWordMore,
    MakeRefusedWrites,
    MakeWritesPast,
    /// Places past the image's pieces stay as an older draft had them.
    MakeKeepsOlderPieces,
    /// Equal rows are one piece.
    MakeJoinsEqualRows,
    MakeLeavesOutLastPiece,
    /// Places are counted from 1 on.
    MakePlacesFrom1,

    // Adding, and moving where it asks the same
    Asks34Before10,
    Asks34Before5,
    Asks10Before5,
    AddAt2048Gives33,
    AddAt2047Refused,
    AddReplaces,
    /// The place that the caller chooses is not used.
    AddAtLowestFree,
    KBelowPeriod,
    KUpToJobs,
    KNotAsked,
    LengthFromD,
    LengthFrom1,
    ReleaseNotAsked,
    ReleaseOneEarlier,
    ReleaseExcluded,
    DueIsNextRelease,
    DueOneLater,
    DueExcluded,
    DueNotAsked,
    EndsWrap,
    AsksOverlap,
    OnePieceForEachJob,
    AsksBudget,
    AsksEqualStarts,
    RefusedEditWrites,
    EditWritesPast,

    // Removing and moving
    RemovedPlaceStaysTaken,
    RemovedPlaceStillRead,
    /// A removed piece's place is free for reading, and for nothing else.
    RemovedPlaceNotUsedAgain,
    /// Later pieces move up.
    RemovalShiftsPlaces,
    RemovingNothingGives0,
    PlaceOf2048Gives34,
    MoveNotAsked,
    MoveToSameStartRefused,
    MoveNotStored,
    MoveAsks10Before33,

    // Totals
    SwitchesLeftOut,
    BudgetsForTotals,
    RemovalKeepsJobTotal,
    RemovalKeepsCoreTotal,
    AddingForgetsJobTotal,
    AddingForgetsCoreTotal,
    MoveCountsTwice,
    JobTotalsByTask,
    JobTotalsByK,
    CoreTotalsByVcpu,
    Totals16Bits,
    Totals30Bits,
    JobTotalOfOnePiece,

    // Readings
    JobAsks10Before5,
    JobKNotAsked,
    JobKBelowPeriod,
    JobWithoutPieceRefused,
    CoreNotAsked,
    CoreUpToCount,
    RefusedTotalNotZero,
    PlaceReadIntoThree,
    PlaceReadIntoFive,
    PlaceAsks34First,
    PlaceRefusedWrites,
    ReadingWrites,

    // What is asked of the words
    TakesFewerWords,
    /// Words past the first 32,768 must be as they were.
    WordsPastMatter,
    JobTotalsBelieved,
    CoreTotalsBelieved,
    PiecesBelieved,
    EverythingBelieved,
    ReadingsBelieve,
    RemovalBelieves,
}
