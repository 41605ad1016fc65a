//! Pairs of plans that differ in one VCPU's guest, and in what request 11
//! leaves free.

use super::bases::{any_base, crowded_base, Base};
use super::messages::{
    add_buffer, add_chain, add_stream, drop_buffer, drop_chain, drop_stream, reorder,
};
use super::rework::{Rework, WAYS};
use crate::image::{width, Plan, LINK};
use crate::joins::changes::{change_ground, vary, Change, Ground, Way, MESSAGES};
use crate::rng::Rng;

/// Two accepted plans, and whose guest differs.
#[derive(Clone, Debug)]
pub struct Pair {
    pub kind: &'static str,
    pub plans: [Plan; 2],
    pub guest: u32,
    /// How many were tried, this one included.
    pub tries: u64,
}

/// The pair of a number, made of this and the seed alone.
pub fn pair(seed: u64, number: u64) -> Pair {
    of_number(number, &mut Rng::for_case(seed, number))
}

/// Every way to change a guest in turn. Of sixteen pairs three differ in other
/// tables alone. Every five-hundredth is of crowded plans, if these have room.
pub fn of_number(number: u64, rng: &mut Rng) -> Pair {
    let turn = (number % 16) as usize;
    for tries in 1.. {
        let (base, turn) = match number % 500 {
            250 if tries < 4 => (crowded_base(number / 500, rng), rng.pick(&ROOMY)),
            _ => (any_base(rng), turn),
        };
        let made = match WAYS.get(turn) {
            Some(way) => reworked(way, &base, rng),
            None => others_alone(&base, rng),
        };
        if let Some((kind, changed)) = made {
            let mut plans = [base.plan, changed];
            if rng.chance(50) {
                plans.reverse();
            }
            let guest = base.guest;
            return Pair {
                kind,
                plans,
                guest,
                tries,
            };
        }
    }
    unreachable!("each way serves some plan")
}

/// The turns for crowded plans: pieces moved, and a guest remade.
const ROOMY: [usize; 2] = [0, 8];

/// A kind of pair, and the second plan.
type Made = Option<(&'static str, Plan)>;

fn reworked((kind, way): &(&'static str, super::rework::Way), base: &Base, rng: &mut Rng) -> Made {
    let mut rework = Rework::new(&base.plan, base.guest, rng);
    way(&mut rework)?;
    let mut plan = rework.settled()?;
    if plan == base.plan {
        return None;
    }
    for _ in 0..rng.pick(&[0, 0, 1, 2, 4]) {
        change_others(&mut plan, &base.plan, rng);
    }
    Some((kind, plan))
}

/// Nothing of the guest's differs, but other tables do.
fn others_alone(base: &Base, rng: &mut Rng) -> Made {
    let mut plan = base.plan.clone();
    for _ in 0..rng.within(1..=6) {
        change_others(&mut plan, &base.plan, rng);
    }
    (plan != base.plan).then_some(("other tables alone", plan))
}

/// Rows dropped, added and put in another order.
const ROWS: [Change; 7] = [
    drop_stream,
    drop_buffer,
    drop_chain,
    add_stream,
    add_buffer,
    add_chain,
    reorder,
];

/// Changes links, messages or chains of any tasks, if such a change is found.
fn change_others(plan: &mut Plan, other: &Plan, rng: &mut Rng) {
    let change: Change = match rng.below(10) {
        0..4 => rng.pick(&ROWS),
        4..7 => rng.pick(&MESSAGES),
        _ => links,
    };
    vary(plan, other, change, rng);
}

fn links(plan: &mut Plan, _: &Plan, rng: &mut Rng) -> Option<()> {
    let word = Way::Word(rng.below(width(LINK)));
    let way = rng.pick(&[word, word, Way::More, Way::Fewer, Way::Exchanged]);
    change_ground(plan, Ground::Links(way), rng)
}
