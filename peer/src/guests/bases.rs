//! Accepted plans with a guest to be changed.

use super::premises::is_guests;
use super::rework::rename;
use crate::generate::{self, cut_window};
use crate::image::Plan;
use crate::rng::Rng;

/// An accepted plan and a VCPU of it.
pub struct Base {
    pub plan: Plan,
    pub guest: u32,
}

/// Any plan that has a VCPU.
pub fn any_base(rng: &mut Rng) -> Base {
    loop {
        let plan = any_plan(rng);
        if !plan.vcpus.is_empty() {
            return with_guest(plan, rng);
        }
    }
}

/// A plan with as many rows as there may be, or as many windows, pieces or
/// entries.
pub fn crowded_base(turn: u64, rng: &mut Rng) -> Base {
    let plan = match turn % 4 {
        0 => generate::full(rng),
        1 => generate::busy_core(rng),
        2 => generate::most_entries(rng),
        _ => generate::longest_lane(rng),
    };
    with_guest(plan, rng)
}

fn any_plan(rng: &mut Rng) -> Plan {
    let mut plan = match rng.below(100) {
        0..28 => generate::kept_core(rng),
        28..56 => generate::tiny(rng),
        56..72 => generate::small_rich(rng),
        72..82 => generate::rich(rng),
        82..88 => generate::shared_buffer(rng),
        _ => generate::accepted(rng),
    };
    if rng.chance(30) {
        for _ in 0..rng.within(1..=4) {
            cut_window(&mut plan, rng);
        }
    }
    plan
}

fn with_guest(mut plan: Plan, rng: &mut Rng) -> Base {
    let guest = any_guest(&plan, rng);
    if rng.chance(50) {
        put_last(&mut plan, guest);
    }
    Base { plan, guest }
}

/// Mostly one that shares its core with others that have pieces.
fn any_guest(plan: &Plan, rng: &mut Rng) -> u32 {
    let vcpus: Vec<u32> = (0..plan.vcpus.len() as u32).collect();
    let near = vcpus.iter().copied();
    let near: Vec<u32> = near.filter(|vcpu| shares_core(plan, *vcpu)).collect();
    let busy = vcpus.iter().copied();
    let busy: Vec<u32> = busy.filter(|vcpu| has_tasks(plan, *vcpu)).collect();
    let choice = match rng.below(100) {
        0..55 => rng.pick_any(&near),
        55..85 => rng.pick_any(&busy),
        _ => None,
    };
    choice.unwrap_or(rng.pick(&vcpus))
}

fn has_tasks(plan: &Plan, vcpu: u32) -> bool {
    plan.tasks.iter().any(|task| task[0] == vcpu)
}

/// Whether another VCPU of its core has tasks.
pub fn shares_core(plan: &Plan, vcpu: u32) -> bool {
    let core = plan.core_of_vcpu(vcpu);
    let others = plan.tasks.iter().filter(|task| task[0] != vcpu);
    others
        .into_iter()
        .any(|task| plan.core_of_vcpu(task[0]) == core)
}

/// Gives the guest's tasks the last numbers.
fn put_last(plan: &mut Plan, guest: u32) {
    let mut order: Vec<u32> = (0..plan.tasks.len() as u32).collect();
    order.sort_by_key(|task| is_guests(plan, guest, *task));
    let mut numbers = vec![0; order.len()];
    for (new, old) in (0..).zip(&order) {
        numbers[*old as usize] = new;
    }
    let tasks = order.iter().map(|old| plan.tasks[*old as usize]);
    plan.tasks = tasks.collect();
    rename(plan, |task| numbers[task as usize]);
    plan.put_in_order();
}
