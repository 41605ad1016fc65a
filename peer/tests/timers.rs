//! The tick timer (request 12) as a library gives it: a right one is not blamed,
//! and each wrong one is noticed.

use peer::as_peer;
use peer::boundary::{Boundary, Peer, STATE};
use peer::timers::{run, Asked, Difference, Fault, Met, Settings, Standin, Timers};

use Fault::*;

const ALL: Settings = Settings {
    seed: 1,
    first_list: 0,
    lists: 8_000,
    asked: Asked::All,
    trace: false,
};

/// Enough for every fault.
const SMALL: Settings = Settings {
    lists: 1_100,
    ..ALL
};

#[track_caller]
fn right(settings: &Settings, timers: &dyn Timers) -> Met {
    run(settings, timers, &Peer).unwrap_or_else(|found| panic!("{found}"))
}

fn wrong(asked: Asked, fault: Fault) -> Option<Difference> {
    let settings = Settings { asked, ..SMALL };
    run(&settings, &Standin(Some(fault)), &Peer).err()
}

#[test]
fn a_right_one_is_not_blamed() {
    for seed in 1..=2 {
        let met = right(&Settings { seed, ..ALL }, &Standin(None));
        println!("{met}");
        assert_eq!(met.missing(), Vec::<String>::new());
    }
    for asked in [Asked::Claims, Asked::Steps] {
        right(&Settings { asked, ..ALL }, &Standin(None));
    }
    right(&SMALL, &Peer);
}

#[test]
fn too_few_lists_are_noticed() {
    let missing = |lists| right(&Settings { lists, ..ALL }, &Peer).missing();
    let of_none = missing(0);
    for what in [
        "start: 38",
        "write: 39",
        "interrupt: 1",
        "reading: 17 bytes lent",
        "write: 65552 bytes lent",
        "reading: 2^32 ticks, a match missed",
        "interrupt: raised",
        "steps: over three wraps or more",
    ] {
        assert!(of_none.contains(&what.to_string()), "{what}: {of_none:?}");
    }
    let of_some = missing(100);
    assert!(of_some.contains(&"start: 65552 bytes lent".to_string()));
    assert!(of_some.len() < of_none.len());
}

#[test]
fn every_fault_is_noticed() {
    for fault in Fault::ALL {
        match wrong(Asked::All, *fault) {
            None => panic!("{fault:?} goes unnoticed"),
            Some(found) => println!("{fault:?}: list {}: {}", found.number, found.last()),
        }
    }
    println!("{} faults", Fault::ALL.len());
}

/// Faults that change no register as it is read of a block, and not whether the
/// interrupt is raised: the model notices them, and the claims have no say.
const NOT_CLAIMED: [Fault; 42] = [
    StartKeepsOtherBits,
    StartGives1,
    ReadingKeepsStatusBits,
    ReadingKeepsEnableBits,
    ReadingGivesMatch,
    ReadClearsOtherBits,
    RefusedReadGivesCount,
    RefusedReadGivesRegister,
    RefusedReadOfOtherLengthGives,
    RefusedRead39,
    RefusedRead0,
    ReadModulo16,
    ReadModulo256,
    ReadModulo65536,
    ReadRoundedDown,
    ReadBelow0,
    ReadUnaligned,
    ReadBehind,
    StatusStoresWord,
    StatusKeepsOtherBits,
    EnableStoresWord,
    EnableKeepsOtherBits,
    CompareKeepsStatusBits,
    CompareKeepsEnableBits,
    CountWrite38,
    CountWriteIgnored,
    CountWriteOfSameTaken,
    RefusedWrite39,
    RefusedWriteBehindCount39,
    RefusedWrite0,
    RefusedWriteClearsOtherBits,
    WriteBehind,
    LongerRead,
    LongerRaised,
    ShorterRead,
    ShorterRaised,
    OtherLengths27,
    OtherLengths0,
    CountOfOtherLength39,
    WriteToOtherLength39,
    InterruptOfOtherLength38,
    InterruptOfOtherLength1,
];

/// All others are noticed beside the true counter alone, without the model.
#[test]
fn faults_are_noticed_by_the_claims() {
    for fault in Fault::ALL {
        let noticed = wrong(Asked::Claims, *fault).is_some();
        assert_eq!(noticed, !NOT_CLAIMED.contains(fault), "{fault:?}");
    }
}

/// Faults that a load tool's loop stumbles over.
const BY_STEPS: [Fault; 60] = [
    StartKeepsCount,
    StartKeepsCompare,
    StartKeepsMatch,
    StartSetsCompare,
    StartGives1,
    StartDoesNothing,
    NeverMatches,
    AlwaysMatches,
    MatchAtOldCount,
    MatchAtOldCountWithTicks,
    NoTickIsATurn,
    MatchOneLate,
    MatchOneEarly,
    MatchByLevel,
    MatchBySignedLevel,
    MatchWithoutWrap,
    GoneWithoutWrap,
    AheadWithoutWrap,
    GoneOneLessOverWrap,
    AheadOneLessOverWrap,
    SignedComparison,
    HalfATurnIsBack,
    HalfATurnIsBehind,
    Modulo16Bits,
    Modulo24Bits,
    Modulo31Bits,
    Compare0Never,
    CompareMaxNever,
    MatchDisables,
    CountStays,
    CountNeverFalls,
    Count0Ignored,
    CountIsTicks,
    ReadingDisables,
    ReadingGivesMatch,
    CountReadsOneMore,
    ReadMovesCount,
    ReadBringsInATick,
    CountReadsCompare,
    CompareReadsCount,
    CountReads39,
    ReadExchanged,
    ClearedBy0,
    ClearedByBit1,
    ClearedByBit31,
    NeverCleared,
    SetBy1,
    StatusStored,
    ClearingDisables,
    EnabledByBit1,
    NeverEnabled,
    EnableInverted,
    CompareBehindMatches,
    CompareDisables,
    Compare16Bits,
    Compare31Bits,
    NeverRaised,
    AlwaysRaised,
    RaisedByEnableAlone,
    InterruptDisables,
];

#[test]
fn faults_are_noticed_by_the_steps() {
    for fault in BY_STEPS {
        assert!(wrong(Asked::Steps, fault).is_some(), "{fault:?}");
    }
}

/// A step of all lanes, over words and records.
type Step = fn(&[u8], &mut [u8]) -> u32;

/// A dispatcher with another such step.
struct Steps(Step);

impl Boundary for Steps {
    as_peer!(check, build, start, step, arrivals, gates);

    fn step_all(&self, words: &[u8], states: &mut [u8]) -> u32 {
        self.0(words, states)
    }
}

/// Steps as they should be, but for a record that is put back.
fn stepped_but_for(words: &[u8], states: &mut [u8], kept: std::ops::Range<usize>) -> u32 {
    let before = states[kept.clone()].to_vec();
    let number = Peer.step_all(words, states);
    states[kept].copy_from_slice(&before);
    number
}

/// The dispatcher's steps are looked at, not only counted.
#[test]
fn wrong_steps_are_noticed() {
    let steps = |by| run(&SMALL, &Peer, &Steps(by)).map(drop);
    assert!(steps(|words, states| Peer.step_all(words, states)).is_ok());
    let wrong: [Step; 6] = [
        |_, _| 0,
        |_, _| 28,
        |words, states| Peer.step_all(words, states) + Peer.step_all(words, states),
        |words, states| stepped_but_for(words, states, 0..STATE),
        // The last lane stays, and the first one's row.
        |words, states| stepped_but_for(words, states, states.len() - STATE..states.len()),
        |words, states| stepped_but_for(words, states, STATE - 4..STATE),
    ];
    for (turn, by) in wrong.into_iter().enumerate() {
        assert!(steps(by).is_err(), "{turn}");
    }
}

#[test]
fn a_difference_tells_where() {
    let found = wrong(Asked::All, MatchAtOldCount).expect("it is wrong");
    let (number, text) = (found.number, found.to_string());
    for part in [
        format!("difference in list {number} of seed 1\n"),
        "the block is now 40 bytes, ".to_string(),
        "reading of count ".to_string(),
        "the last is wrong:\nright is 0, leaving 40 bytes, ".to_string(),
        "\nfound is 0, leaving 40 bytes, ".to_string(),
        format!("made again by: timers 1 1 {number}\n"),
    ] {
        assert!(text.contains(&part), "{part}\n{text}");
    }
    let again = Settings {
        first_list: number,
        lists: 1,
        ..ALL
    };
    let found = run(&again, &Standin(Some(MatchAtOldCount)), &Peer).expect_err("it is wrong");
    assert_eq!(found.to_string(), text);
}

#[test]
fn each_seed_has_lists_of_its_own() {
    let met = |seed| right(&Settings { seed, ..SMALL }, &Peer).to_string();
    assert!(met(1) == met(1) && met(1) != met(2));
}
