//! Ways in which the stand-in can be made wrong, to see that they are noticed:
//! what a VCPU shows then depends on another one's guest, or on messages.

use crate::faults::faults;

faults! {
    // Rows
    PieceRowOneLess,
    PieceRowOneMore,
    PieceRowOnItsCore,
    /// As if pieces were in the order of tasks.
    PieceRowByTask,
    /// Windows without pieces do not count.
    WindowRowAmongUsed,
    RestOfLastPiecesWindow,
    AdjoiningPiecesAsOne,

    // Switches
    SwitchOfFirstPiecesCore,
    SwitchOnceWhileTaskStays,
    ChargeOnceWhileVcpuWorks,
    ChargeOfLastPiecesWindow,
    EmptyWindowUncharged,
    EmptyWindowIdle,
    IdleAsRest,

    // Pieces
    SixPiecesOfACore,
    TwelvePieces,
    FirstPieceLeftOut,
    LastPieceLeftOut,
    LastTaskLeftOut,
    WorkUpToBudgetOfTaskBefore,
    TwentyEntries,

    // What is not the cores' own
    SendersSwitchAsWork,
    ReadersSwitchAsRest,
    ChainsFirstWorkAsSwitch,
    LinksFirst,

    // One call alone
    BuildPieceRowOneLess,
    BuildAllPieceRowOneLess,

    // Steps
    RowOneLessInOddCycles,
    IdleFromCycle3,
    KindKeptRowKept,
    TableAtWord0,
    ShowsNextTick,
    ShortEntriesUnshown,
    IdleFromEntry16,
    RefusedFromEntry16,
    AllShowFirstLane,
    AllMoveFirstLaneAlone,
}
