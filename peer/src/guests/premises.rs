//! What request 11 asks of two plans, besides that both are accepted.

use crate::image::{Piece, Plan, Task};

/// What has to be equal.
#[derive(Clone, Copy, Debug, PartialEq, Eq, PartialOrd, Ord)]
pub enum Premise {
    Cycle,
    Precision,
    Cores,
    Vcpus,
    Windows,
    /// The tasks of every VCPU but the guest's, with their numbers.
    Tasks,
    /// The pieces of these.
    Pieces,
}

/// The premises that two plans do not meet, where one VCPU's guest may differ.
/// None: the claim holds for them.
pub fn broken(first: &Plan, second: &Plan, guest: u32) -> Vec<Premise> {
    let equal = [
        (Premise::Cycle, first.cycle == second.cycle),
        (Premise::Precision, first.precision == second.precision),
        (Premise::Cores, first.cores == second.cores),
        (Premise::Vcpus, first.vcpus == second.vcpus),
        (Premise::Windows, first.windows == second.windows),
        (Premise::Tasks, kept(first, guest) == kept(second, guest)),
        (
            Premise::Pieces,
            kept_pieces(first, guest) == kept_pieces(second, guest),
        ),
    ];
    let broken = equal.into_iter().filter(|(_, equal)| !equal);
    broken.map(|(premise, _)| premise).collect()
}

/// The tasks of other VCPUs than the guest's, with their numbers.
fn kept(plan: &Plan, guest: u32) -> Vec<(usize, Task)> {
    let tasks = plan.tasks.iter().copied().enumerate();
    tasks.filter(|(_, task)| task[0] != guest).collect()
}

/// Their pieces, in order as all are.
pub fn kept_pieces(plan: &Plan, guest: u32) -> Vec<Piece> {
    let kept = |piece: &&Piece| !is_guests(plan, guest, piece[0]);
    plan.pieces.iter().filter(kept).copied().collect()
}

/// Whether a task is one of the guest's.
pub fn is_guests(plan: &Plan, guest: u32, task: u32) -> bool {
    plan.tasks[task as usize][0] == guest
}
