//! Ways in which the stand-in can be made wrong, to see that they are noticed.

use crate::faults::faults;

faults! {
    // The number
    NumberLeftOut,
    NumberModulo100,
    NumberModulo256,
    NumberModulo65536,
    /// All numbers that no question has.
    NumbersFrom45Alike,
    /// Both are about overlaps.
    Numbers8And12Alike,
    /// Its digits and the row's stand together.
    NumberRunsIntoRow,

    // The table
    TableModulo256,
    TableLeftOut,
    Table0LeftOut,
    /// 0 is told by the row alone where that is 0 too.
    TableAndRow0LeftOut,
    Table11Alike,
    TablesFrom11Alike,
    NeighboursName,
    ChainsUnnamed,
    NoNames,
    NamesWithoutKind,
    NamesInCapitals,
    NamesInSmallLetters,
    NamesOfSeveral,
    NameRunsIntoWord,
    TableAsRow,
    TableAndRowExchanged,
    /// The lower one first.
    TableAndRowSorted,

    // The row
    RowLeftOut,
    RowModulo1000,
    RowModulo256,
    RowModulo65536,
    RowFrom1,
    RowSigned,
    RowInHex,
    RowInThousands,
    RowPadded,
    /// Where the table has no name, its digits and those of a padded row
    /// stand together.
    PaddedRowRunsIntoTable,
    /// The same of a row that is not padded.
    RowRunsIntoTable,
    /// No row of 0.
    Row0LeftOut,

    // The bytes of the line
    LineOf96Bytes,
    LongestOf96Bytes,
    Byte127,
    Byte31,
    ByteAbove127,
    TabsForSpaces,
    NewlineIncluded,
    ZeroByteIncluded,
    OtherWithMoreLent,

    // What is given and written
    GivesNothing,
    NothingForAccepted,
    NothingForUnknownNumbers,
    NothingForUnnamedTables,
    LengthOneMore,
    LengthOneLess,
    LengthOfBytesLent,
    LengthWhereTooFew,
    WritesWhereTooFew,
    WritesFirstWhereTooFew,
    CutWhereTooFew,
    CutWhereOneTooFew,
    WantsOneMore,
    Wants95,
    Wants96,
    TouchesNextByte,
    FillsUp,
    LeavesAByte,
    LentModulo256,
    LentModulo65536,
}
