//! Ways in which the stand-in can be made wrong, to see that they are noticed.

use crate::faults::faults;

faults! {
    // The start
    StartKeepsCount,
    StartKeepsCompare,
    StartKeepsMatch,
    StartKeepsEnable,
    /// Bits that are neither match nor enable.
    StartKeepsOtherBits,
    StartEnables,
    /// At the count furthest away.
    StartSetsCompare,
    StartGives1,
    StartDoesNothing,

    // A reading: when the match is set
    NeverMatches,
    /// At every tick.
    AlwaysMatches,
    /// Compare is the old count, ticks or not.
    MatchAtOldCount,
    /// The same, once a tick has gone by.
    MatchAtOldCountWithTicks,
    /// Compare is old and new count, without a tick.
    MatchWithoutTick,
    /// No ticks are taken for 2^32.
    NoTickIsATurn,
    MatchOneLate,
    MatchOneEarly,
    /// Not when compare is passed.
    MatchJustAtCompareOnly,
    /// The count is at compare or past it, as numbers.
    MatchByLevel,
    /// The same, by the sign of the difference.
    MatchBySignedLevel,
    /// From the old count to the new one, as numbers.
    MatchWithoutWrap,
    GoneWithoutWrap,
    AheadWithoutWrap,
    /// 2^32 - 1 is taken for the number of values.
    GoneOneLessOverWrap,
    AheadOneLessOverWrap,
    SignedComparison,
    /// Ticks of half a turn are taken for a counter that went back.
    HalfATurnIsBack,
    /// A compare half a turn ahead is taken for one behind.
    HalfATurnIsBehind,
    Modulo16Bits,
    Modulo24Bits,
    Modulo31Bits,
    Compare0Never,
    CompareMaxNever,
    MatchOnlyWhereEnabled,
    /// Not where a match was cleared, until compare is written.
    ClearedForGood,

    // A reading: what else becomes of the registers
    MatchRecomputed,
    /// The same, where a tick has gone by.
    MatchRecomputedWithTicks,
    MatchToggled,
    MatchDisables,
    MatchEnables,
    /// As far on as it was ahead.
    MatchMovesCompare,
    MatchResetsCompare,
    CountStays,
    CountStaysWhereMatched,
    CountStaysAtCompare,
    /// A counter that wraps is not believed.
    CountNeverFalls,
    Count0Ignored,
    CountIsTicks,
    Count31Bits,
    /// Other bits of status are taken for a match.
    AnyStatusBitMatches,
    ReadingDisables,
    ReadingKeepsStatusBits,
    ReadingKeepsEnableBits,
    ReadingGivesMatch,

    // Reads
    CountReadsOneMore,
    /// As if a tick had gone by.
    ReadMovesCount,
    /// The same, and the match with it.
    ReadBringsInATick,
    ReadClearsMatch,
    ReadClearsOtherBits,
    StatusReadsWord,
    EnableReadsWord,
    /// Match and enable.
    StatusReadsInterrupt,
    StatusReads0,
    StatusReadsByte,
    StatusReadsAnyBit,
    EnableReadsAnyBit,
    CountReadsCompare,
    CompareReadsCount,
    StatusReadsEnable,
    EnableReadsStatus,
    CountReads39,
    RefusedReadGivesCount,
    RefusedReadGivesRegister,
    RefusedReadOfOtherLengthGives,
    RefusedRead39,
    RefusedRead0,
    /// Number and value in each other's place.
    ReadExchanged,
    ReadModulo16,
    ReadModulo256,
    ReadModulo65536,
    ReadRoundedDown,
    ReadBelow0,
    /// The bytes that lie there.
    ReadUnaligned,
    ReadBehind,

    // Writes to status
    ClearedBy0,
    ClearedByAny,
    ClearedByNonzero,
    ClearedBy1Alone,
    ClearedByBit1,
    ClearedByBit31,
    NeverCleared,
    ClearedOnlyWhereEnabled,
    ClearedOnlyPastCompare,
    SetBy1,
    SetByOtherBits,
    StatusStored,
    StatusToggled,
    StatusStoresWord,
    StatusKeepsOtherBits,
    ClearingDisables,
    ClearingResetsCompare,
    ClearingResetsCount,

    // Writes to enable
    EnabledByNonzero,
    EnabledByBit1,
    EnabledBy1Alone,
    NeverEnabled,
    NeverDisabled,
    EnableInverted,
    EnableToggled,
    EnableStoresWord,
    EnableKeepsOtherBits,
    EnableStaysWhereMatched,
    EnablingClears,
    DisablingClears,

    // Writes to compare
    CompareClears,
    /// Where it is the count.
    CompareMatches,
    /// Where it is behind the count.
    CompareBehindMatches,
    CompareDisables,
    Compare16Bits,
    Compare31Bits,
    CompareNotAtCount,
    CompareStaysWhereMatched,
    CompareResetsCount,
    CompareKeepsStatusBits,
    CompareKeepsEnableBits,

    // Writes to count, and others that are refused
    CountWritable,
    CountWritten39,
    CountWrite38,
    CountWriteIgnored,
    CountWriteOfSameTaken,
    RefusedWrite39,
    RefusedWriteBehindCount39,
    RefusedWrite0,
    RefusedWriteWrites,
    RefusedWriteWritesCompare,
    RefusedWriteClears,
    RefusedWriteClearsOtherBits,
    WriteModulo16,
    WriteModulo256,
    WriteModulo65536,
    WriteRoundedDown,
    WriteBelow0,
    WriteUnaligned,
    WriteBehind,

    // The interrupt
    NeverRaised,
    AlwaysRaised,
    RaisedByMatchAlone,
    RaisedByEnableAlone,
    RaisedByEither,
    RaisedByWords,
    RaisedByAnyBitOfBoth,
    RaisedGivesWord,
    RaisedGives2,
    RaisedAtCompare,
    InterruptClears,
    InterruptDisables,

    // The block
    LongerTaken,
    LongerStarted,
    LongerBroughtIn,
    LongerRead,
    LongerWritten,
    LongerRaised,
    ShorterStarted,
    ShorterRead,
    ShorterWritten,
    ShorterRaised,
    LengthModulo256,
    LengthModulo65536,
    OtherLengths27,
    OtherLengths0,
    OtherLengthsReset,
    /// A write is asked 39 before its block's length.
    CountOfOtherLength39,
    WriteToOtherLength39,
    InterruptOfOtherLength38,
    InterruptOfOtherLength1,
    BigEndian,
    CountAndCompareSwapped,
    StatusAndEnableSwapped,
    CompareAndStatusSwapped,
}
