//! The free ticks of a VCPU's windows, and jobs placed in them.

use crate::charges::charges;
use crate::image::{Plan, Window};
use crate::rng::Rng;

/// Ticks from one on up to another, which is not included.
pub type Stretch = [u32; 2];

/// Free ticks of a VCPU, in the order of time: in its windows after their
/// charge, outside its pieces.
#[derive(Clone, Debug)]
pub struct Free {
    stretches: Vec<Stretch>,
    /// d of its core.
    switch: u32,
}

impl Free {
    pub fn of(plan: &Plan, vcpu: u32) -> Free {
        let charged = plan.windows.iter().zip(charges(plan));
        let own = charged.filter(|(window, _)| window[0] == vcpu);
        let stretch =
            |(&[_, start, length, ..], charge): (&Window, u32)| [start + charge, start + length];
        let mut free = Free {
            stretches: own.map(stretch).collect(),
            switch: plan.cores[plan.core_of_vcpu(vcpu) as usize][1],
        };
        for &[task, _, start, length, ..] in &plan.pieces {
            if plan.tasks[task as usize][0] == vcpu {
                free.take([start, start + length]);
            }
        }
        free
    }

    /// Takes ticks of one stretch.
    pub fn take(&mut self, [from, to]: Stretch) {
        let at = self.stretches.partition_point(|stretch| stretch[1] < to);
        if let Some(&[begin, end]) = self.stretches.get(at) {
            let rest = [[begin, from], [to, end]];
            let rest = rest.into_iter().filter(|rest| rest[0] < rest[1]);
            self.stretches.splice(at..=at, rest);
        }
    }

    /// The parts of stretches in some ticks that have room for a piece.
    fn within(&self, [from, to]: Stretch) -> Vec<Stretch> {
        let begin = self.stretches.partition_point(|stretch| stretch[1] <= from);
        let near = self.stretches[begin..].iter();
        let near = near.take_while(|stretch| stretch[0] < to);
        let parts = near.map(|stretch| [stretch[0].max(from), stretch[1].min(to)]);
        let has_room = |part: &Stretch| part[0] + self.switch < part[1];
        parts.filter(has_room).collect()
    }

    /// The most ticks of work that can be placed in some ticks.
    pub fn capacity(&self, within: Stretch) -> u32 {
        let parts = self.within(within).into_iter();
        parts.map(|part| part[1] - part[0] - self.switch).sum()
    }

    /// Takes room for one piece of so much work and gives start and length.
    pub fn place(&mut self, within: Stretch, work: u32, rng: &mut Rng) -> Option<[u32; 2]> {
        let length = work + self.switch;
        let mut parts = self.within(within);
        parts.retain(|part| part[0] + length <= part[1]);
        let [from, to] = rng.pick_any(&parts)?;
        let any = rng.within(from..=to - length);
        let start = rng.pick(&[from, to - length, any]);
        self.take([start, start + length]);
        Some([start, length])
    }

    /// Places a job's work in pieces, few where that can be.
    pub fn place_job(
        &mut self,
        within: Stretch,
        work: u32,
        rng: &mut Rng,
    ) -> Option<Vec<[u32; 2]>> {
        for _ in 0..2 {
            let mut free = self.clone();
            if let Some(pieces) = free.scatter(within, work, rng) {
                *self = free;
                return Some(pieces);
            }
        }
        self.fill(within, work)
    }

    /// Pieces of any length, up to four.
    fn scatter(&mut self, within: Stretch, work: u32, rng: &mut Rng) -> Option<Vec<[u32; 2]>> {
        let mut rest = work;
        let mut pieces = Vec::new();
        for last in [false, false, false, true] {
            let part = match last || rng.chance(50) {
                true => rest,
                false => rng.within(1..=rest),
            };
            pieces.push(self.place(within, part, rng)?);
            rest -= part;
            if rest == 0 {
                break;
            }
        }
        Some(pieces)
    }

    /// As much as goes into each stretch, from the first on.
    fn fill(&mut self, within: Stretch, work: u32) -> Option<Vec<[u32; 2]>> {
        let mut rest = work;
        let mut pieces = Vec::new();
        for [from, to] in self.within(within) {
            let part = rest.min(to - from - self.switch);
            if part > 0 {
                let length = part + self.switch;
                self.take([from, from + length]);
                pieces.push([from, length]);
                rest -= part;
            }
        }
        (rest == 0).then_some(pieces)
    }
}
