//! Wrong readings of the two delays of a link: the mutants show each of them.

#[macro_use]
mod ways;

use peer::generate::accepted;
use peer::image::{Link, LINK};
use peer::mutate::mutant;
use peer::{asked_before, check, report, Answer, Plan, Rng};

ways! {
    /// Ways to read it.
    enum Reading { Right }

    /// What question 6 asks of the lowest delay.
    const WRONG_RANGES: 8 = {
        Nothing,
        BelowTheDelay,
        OneAboveTheDelay,
        AtMostAMillion,
        AtMostTheRate,
        OfTheFirstLinkOnly,
        OfLinksWithFramesOnly,
        TheOtherIsTheLowest,
    };

    /// Which delay 18 and 20 take.
    const WRONG_DELAYS: 6 = {
        Lowest,
        LowestBetweenHops,
        LowestToTheReceiver,
        Mean,
        Sum,
        None,
    };
}

use Reading::*;

/// The link as it would have to be for the right check to ask what a reading
/// does.
fn read(reading: Reading, link: &mut Link, is_first: bool, has_frames: bool) {
    let [_, _, delay, rate, lowest, ..] = *link;
    let only_if = |yes: bool| if yes { 0 } else { u32::MAX };
    let (delay, lowest) = match reading {
        Nothing => (delay, 0),
        BelowTheDelay => (delay, lowest.saturating_add(1)),
        OneAboveTheDelay => (delay, lowest.saturating_sub(1)),
        AtMostAMillion => (delay, only_if(lowest <= 1_000_000)),
        AtMostTheRate => (delay, only_if(lowest <= rate)),
        OfTheFirstLinkOnly if !is_first => (delay, 0),
        OfLinksWithFramesOnly if !has_frames => (delay, 0),
        TheOtherIsTheLowest => (lowest, delay),
        Lowest | LowestBetweenHops | LowestToTheReceiver => (lowest, 0),
        Mean => ((delay + lowest).div_ceil(2), 0),
        Sum => (delay + lowest, 0),
        None => (0, 0),
        _ => (delay, lowest),
    };
    (link[2], link[4]) = (delay, lowest);
}

/// The answer where a reading is taken; where it is taken in one question
/// alone, only whether it is the right one matters.
fn answer(reading: Reading, plan: &Plan, right: Answer) -> Answer {
    let number = right.number;
    let is_asked = match reading {
        LowestBetweenHops => number == 18,
        LowestToTheReceiver => number == 20,
        _ if WRONG_DELAYS.contains(&reading) => !asked_before(number, 7) || number == 0,
        _ => true,
    };
    if !is_asked {
        return right;
    }
    let mut plan = plan.clone();
    let frames = &plan.frames;
    for (row, link) in plan.links.iter_mut().enumerate() {
        let has_frames = frames.iter().any(|frame| frame[3] as usize == row);
        read(reading, link, row == 0, has_frames);
    }
    let answer = check(&plan.encode());
    // Stays begin elsewhere then, which is not what is read here.
    if answer.number == 41 && !asked_before(number, 41) {
        return right;
    }
    answer
}

#[test]
fn mutants_show_every_wrong_reading() {
    let wrong = [&WRONG_RANGES[..], &WRONG_DELAYS].concat();
    let mut shown = vec![0; wrong.len()];
    for case in 0..12_000 {
        let image = mutant(&mut Rng::for_case(26, case));
        let right = check(&image);
        if asked_before(right.number, 6) || right.number == 41 {
            continue;
        }
        let plan = Plan::decode(&image);
        assert_eq!(answer(Right, &plan, right), right);
        for (count, reading) in shown.iter_mut().zip(&wrong) {
            *count += u32::from(answer(*reading, &plan, right) != right);
        }
    }
    for (count, reading) in shown.into_iter().zip(wrong) {
        println!("{reading:?}: {count}");
        assert!(count >= 10, "{reading:?}: {count}");
    }
}

/// Any lowest delay from the plan's own up to the delay is as good as another,
/// for every answer and table, since stays only become shorter; one that is a
/// tick higher than the delay is refused.
#[test]
fn higher_lowest_delays_decide_nothing() {
    let mut refused = 0;
    for case in 0..2_000 {
        let mut rng = Rng::for_case(27, case);
        let plan = accepted(&mut rng);
        let mut other = plan.clone();
        for link in &mut other.links {
            link[4] = rng.within(link[4]..=link[2]);
        }
        assert_eq!(report(&other.encode()), report(&plan.encode()));
        if !plan.links.is_empty() {
            let row = rng.below(plan.links.len());
            other.links[row][4] = other.links[row][2] + 1;
            let answer = Answer::at(6, LINK, row as u32);
            assert_eq!(check(&other.encode()), answer);
            refused += 1;
        }
    }
    assert!(refused > 1_000, "{refused}");
}
