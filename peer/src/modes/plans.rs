//! The images of a shift: plans that can be changed between, plans that cannot,
//! and images that are refused.

use crate::answer::Answer;
use crate::check::check;
use crate::generate;
use crate::image::{row_of, Plan};
use crate::joins::changes::{change_ground, clear, vary, Ground, Way, ROWS};
use crate::mutate::mutate;
use crate::rng::Rng;
use crate::table::tables;

/// The longest cycle that is stepped through.
pub const SHORT: u32 = 60;

/// An image that can be held, or not.
#[derive(Clone, Debug)]
pub struct Offer {
    pub image: Vec<u8>,
    /// Its plan, or why it is refused.
    pub told: Result<Accepted, Answer>,
}

/// An accepted plan with the tables of all its lanes.
#[derive(Clone, Debug)]
pub struct Accepted {
    pub plan: Plan,
    pub tables: Vec<Vec<u32>>,
    /// How many words they take.
    pub words: usize,
}

impl Offer {
    pub fn of(image: Vec<u8>) -> Offer {
        let accepted = |tables: Vec<Vec<u32>>| Accepted {
            plan: Plan::decode(&image),
            words: tables.iter().map(Vec::len).sum(),
            tables,
        };
        Offer {
            told: tables(&image).map(accepted),
            image,
        }
    }

    pub fn is_accepted(&self) -> bool {
        self.told.is_ok()
    }

    /// The words that its tables take.
    pub fn words(&self) -> usize {
        self.told.as_ref().map_or(0, |accepted| accepted.words)
    }
}

/// Plans and images of a shift; the first is accepted.
pub fn offers(long: bool, rng: &mut Rng) -> Vec<Offer> {
    let base = if long { long_base(rng) } else { base(rng) };
    let mut plans = vec![base];
    for _ in 0..rng.within(1..=if long { 1 } else { 5 }) {
        let plan = rng.below(plans.len());
        let changed = changed(&plans[plan], rng);
        plans.push(changed);
    }
    let others = if long { 1 } else { rng.within(0..=4) };
    for _ in 0..others {
        let plan = rng.below(plans.len());
        let other = other(&plans[plan], rng);
        plans.push(other);
    }
    let accepted = |plan: &Plan| check(&plan.encode()).is_accepted();
    plans.retain(accepted);
    let refused = [0; 2].map(|_| refused(&plans[rng.below(plans.len())], rng));
    let images = plans.iter().map(Plan::encode).chain(refused);
    images.map(Offer::of).collect()
}

/// A plan of few ticks.
fn base(rng: &mut Rng) -> Plan {
    match rng.below(20) {
        0..7 => generate::tiny(rng),
        7..9 => generate::kept_core(rng),
        9..11 => generate::busy_links(rng),
        11 => generate::shared_buffer(rng),
        12 => units(rng),
        13..16 => simple(1, rng),
        16 => simple(2, rng),
        _ => {
            let cycle = rng.within(3..=20);
            simple(cycle, rng)
        }
    }
}

/// A plan that is stepped for some ticks of its cycle only.
fn long_base(rng: &mut Rng) -> Plan {
    match rng.below(6) {
        0 => generate::full(rng),
        1 => generate::large(rng),
        2 => generate::busy_core(rng),
        _ => generate::rich(rng),
    }
}

/// Tasks whose jobs fill their periods.
fn units(rng: &mut Rng) -> Plan {
    loop {
        let plan = generate::unit_periods(rng);
        if plan.cycle <= SHORT {
            return plan;
        }
    }
}

fn simple(cycle: u32, rng: &mut Rng) -> Plan {
    let counts = [rng.within(1..=3), rng.within(0..=2)];
    alike(cycle, counts, rng)
}

/// A plan with this H and so many cores and links: each core has windows side by
/// side, each with a piece or without.
fn alike(cycle: u32, [cores, links]: [u32; 2], rng: &mut Rng) -> Plan {
    let mut plan = Plan {
        cycle,
        precision: rng.pick(&[0, 1, 2, 3, 10_000]),
        ..Plan::default()
    };
    for core in 0..cores {
        let [d, v] = [0; 2].map(|_| rng.within(0..=1));
        plan.cores.push(row_of([rng.within(0..=3), d, v]));
        let mut start = rng.within(0..=cycle / 4);
        while start < cycle && plan.windows.len() < 60 {
            let length = rng.within(1..=cycle - start);
            if length > v && rng.chance(80) {
                add_window(&mut plan, core, start, length, rng);
            }
            start += length;
        }
    }
    for _ in 0..links {
        let ends = [rng.within(0..=1), rng.within(2..=3)];
        plan.links.push(row_of([ends[0], ends[1], 1, 100, 0]));
    }
    plan.put_in_order();
    plan
}

/// A window of a VCPU of its own, perhaps with a task of one piece.
fn add_window(plan: &mut Plan, core: u32, start: u32, length: u32, rng: &mut Rng) {
    let [_, d, v] = plan.cores[core as usize];
    let vcpu = plan.vcpus.len() as u32;
    plan.vcpus.push(row_of([core]));
    plan.windows.push(row_of([vcpu, start, length]));
    if length > v + d && rng.chance(70) {
        let task = plan.tasks.len() as u32;
        let begin = rng.within(0..=length - v - d - 1);
        let budget = rng.within(1..=length - v - d - begin);
        let row = [vcpu, 1 << core, plan.cycle, budget, plan.cycle];
        plan.tasks.push(row_of(row));
        let piece = [task, 0, start + v + begin, budget + d];
        plan.pieces.push(row_of(piece));
    }
}

/// A plan of the same H and as many cores and links.
fn changed(plan: &Plan, rng: &mut Rng) -> Plan {
    let mut changed = plan.clone();
    match rng.below(12) {
        // Cleared plans can be changed too, and others replaced.
        0 => clear(&mut changed),
        1..3 => changed = alike_to(plan, rng),
        _ => {
            for _ in 0..rng.within(1..=3) {
                vary(&mut changed, plan, any_change, rng);
            }
        }
    }
    changed
}

fn alike_to(plan: &Plan, rng: &mut Rng) -> Plan {
    let counts = [plan.cores.len(), plan.links.len()];
    alike(plan.cycle, counts.map(|count| count as u32), rng)
}

/// Rows moved, another P, other words of cores, windows and links.
fn any_change(plan: &mut Plan, other: &Plan, rng: &mut Rng) -> Option<()> {
    let ground = match rng.below(10) {
        0 => Ground::Precision,
        1 => Ground::Cores(Way::Word(rng.below(3))),
        2 | 3 => Ground::Windows(Way::Word(rng.within(1..=2) as usize)),
        4 => Ground::Windows(Way::More),
        5 => Ground::Links(Way::Word(rng.below(5))),
        _ => return rng.pick(&ROWS)(plan, other, rng),
    };
    change_ground(plan, ground, rng)
}

/// A plan of another H, or with more or fewer cores or links, or of any.
fn other(plan: &Plan, rng: &mut Rng) -> Plan {
    let mut other = plan.clone();
    match rng.below(6) {
        0 => {
            clear(&mut other);
            other.cycle += rng.within(1..=2);
        }
        1 | 2 => other.cores.push(row_of([rng.within(0..=15), 0, 0])),
        3 => other.links.push(row_of([0, 1, 1, 100, 0])),
        4 => drop(other.links.pop()),
        _ => return base(rng),
    }
    other
}

/// An image that some question refuses.
fn refused(plan: &Plan, rng: &mut Rng) -> Vec<u8> {
    for _ in 0..20 {
        let image = mutate(plan, rng);
        if !check(&image).is_accepted() {
            return image;
        }
    }
    plan.encode()[1..].to_vec()
}
