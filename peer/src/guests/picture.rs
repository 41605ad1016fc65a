//! What the core lanes show, by names that two plans have in common.

use std::fmt;

use crate::image::{Plan, Window};

const IDLE: u32 = 0;
pub const VCPU_SWITCH: u32 = 1;
const SPARE: u32 = 2;
const TASK_SWITCH: u32 = 3;
const WORK: u32 = 4;

/// The kinds that a core's lane can show.
pub const KINDS: usize = 5;

/// What a core shows in a tick.
#[derive(Clone, Copy, Debug, PartialEq, Eq)]
pub enum Seen {
    Idle,
    /// The guest, in a window of it: ticks outside pieces, a task switch or work.
    Guest {
        window: u32,
    },
    /// A window's VCPU switch, or its ticks outside pieces.
    Window {
        kind: u32,
        row: u32,
        words: Window,
    },
    /// A task switch or work of a task's job.
    Job {
        kind: u32,
        vcpu: u32,
        task: u32,
        job: u32,
    },
    /// No kind of a core, or a row that there is not.
    Nothing {
        kind: u32,
        row: u32,
    },
}

/// Whose guest may differ; with none, all is named.
pub type Guest = Option<u32>;

impl Seen {
    /// What a kind and row of a plan's tables stand for.
    pub fn of(plan: &Plan, guest: Guest, kind: u32, row: u32) -> Seen {
        let seen = Seen::named(plan, kind, row);
        let window = match seen {
            Some(seen) if !seen.is_free(guest) => return seen,
            Some(Seen::Window { row, .. }) => Some(row),
            Some(_) => window_of(plan, row),
            None => None,
        };
        match window {
            Some(window) => Seen::Guest { window },
            None => Seen::Nothing { kind, row },
        }
    }

    fn named(plan: &Plan, kind: u32, row: u32) -> Option<Seen> {
        match kind {
            IDLE if row == 0 => Some(Seen::Idle),
            VCPU_SWITCH | SPARE => {
                let words = *plan.windows.get(row as usize)?;
                Some(Seen::Window { kind, row, words })
            }
            TASK_SWITCH | WORK => {
                let [task, job, ..] = *plan.pieces.get(row as usize)?;
                let [vcpu, ..] = *plan.tasks.get(task as usize)?;
                Some(Seen::Job {
                    kind,
                    vcpu,
                    task,
                    job,
                })
            }
            _ => None,
        }
    }

    /// Whether the guest shows this, and may show something else there.
    fn is_free(self, guest: Guest) -> bool {
        guest.is_some() && self.vcpu() == guest && self.kind() != Some(VCPU_SWITCH)
    }

    /// Whose VCPU shows this, if one does that is named.
    pub fn vcpu(self) -> Option<u32> {
        match self {
            Seen::Window { words, .. } => Some(words[0]),
            Seen::Job { vcpu, .. } => Some(vcpu),
            _ => None,
        }
    }

    /// The kind, where it is named.
    pub fn kind(self) -> Option<u32> {
        match self {
            Seen::Idle => Some(IDLE),
            Seen::Guest { .. } => None,
            Seen::Window { kind, .. } | Seen::Job { kind, .. } | Seen::Nothing { kind, .. } => {
                Some(kind)
            }
        }
    }
}

/// The window that a piece begins in. Windows are in order, and those of one
/// VCPU apart.
fn window_of(plan: &Plan, piece: u32) -> Option<u32> {
    let [task, _, start, ..] = plan.pieces[piece as usize];
    let [vcpu, ..] = plan.tasks[task as usize];
    let begun = plan.windows.partition_point(|window| window[1] <= start);
    let own = |window: &Window| window[0] == vcpu;
    Some(plan.windows[..begun].iter().rposition(own)? as u32)
}

/// What one core shows from its first tick on, neighbours unlike.
pub type Course = Vec<(u32, Seen)>;

/// What all cores show.
#[derive(Clone, Debug, PartialEq, Eq)]
pub struct Picture {
    pub cycle: u32,
    pub cores: Vec<Course>,
}

impl Picture {
    /// As the tables of the core lanes have it.
    pub fn of(plan: &Plan, guest: Guest, tables: &[Vec<u32>]) -> Picture {
        let cores = tables.iter().take(plan.cores.len());
        Picture {
            cycle: plan.cycle,
            cores: cores.map(|table| course(plan, guest, table)).collect(),
        }
    }

    /// What a core shows at a tick, if there are such.
    pub fn at(&self, core: usize, tick: u32) -> Option<Seen> {
        let course = self.cores.get(core).filter(|_| tick < self.cycle)?;
        let begun = course.partition_point(|(first, _)| *first <= tick);
        Some(course[begun.checked_sub(1)?].1)
    }

    /// How many stretches show each kind, of other VCPUs than the guest's and
    /// of none.
    pub fn kinds(&self, guest: u32) -> [u64; KINDS] {
        let mut kinds = [0; KINDS];
        for (_, seen) in self.cores.iter().flatten() {
            if let (Some(kind), true) = (seen.kind(), seen.vcpu() != Some(guest)) {
                kinds[kind as usize] += 1;
            }
        }
        kinds
    }
}

fn course(plan: &Plan, guest: Guest, table: &[u32]) -> Course {
    let mut course = Course::new();
    for &[first, kind, row] in table[2..].as_chunks().0 {
        let seen = Seen::of(plan, guest, kind, row);
        if course.last().is_none_or(|(_, last)| *last != seen) {
            course.push((first, seen));
        }
    }
    course
}

/// What has to be the same.
#[derive(Clone, Copy, Debug, PartialEq, Eq)]
pub enum Asked {
    /// What other VCPUs than the guest's show, as the request says.
    Others,
    /// And what follows: idle ticks, the guest's ticks and its VCPU switches.
    All,
}

/// Where two plans differ in what they show.
#[derive(Clone, Copy, Debug, PartialEq, Eq)]
pub struct Change {
    pub core: usize,
    pub tick: u32,
    pub seen: [Seen; 2],
}

impl Change {
    /// Whether it is one of what is asked.
    pub fn is_of(&self, asked: Asked, guest: u32) -> bool {
        asked == Asked::All || self.is_others(guest)
    }

    /// Whether it is one that another VCPU than the guest's notices. If not, the
    /// guest has other ticks, or switches of its VCPU.
    pub fn is_others(&self, guest: u32) -> bool {
        let is_other = |seen: &Seen| match seen {
            Seen::Nothing { .. } => true,
            seen => seen.vcpu().is_some_and(|vcpu| vcpu != guest),
        };
        self.seen.iter().any(is_other)
    }
}

impl fmt::Display for Change {
    fn fmt(&self, out: &mut fmt::Formatter<'_>) -> fmt::Result {
        let Change { core, tick, seen } = self;
        let [one, other] = seen;
        write!(
            out,
            "core {core}, tick {tick}: it shows {one:?}, and the other {other:?}"
        )
    }
}

/// Every first tick of a stretch in which two pictures differ, core by core.
/// Cores and ticks that only one of them has are passed over.
pub fn changes(first: &Picture, second: &Picture) -> Vec<Change> {
    let cycle = first.cycle.min(second.cycle);
    let cores = first.cores.iter().zip(&second.cores).enumerate();
    let changes = cores.flat_map(|(core, (one, other))| changes_of_core(core, one, other));
    changes.filter(|change| change.tick < cycle).collect()
}

fn changes_of_core(core: usize, one: &Course, other: &Course) -> Vec<Change> {
    let mut changes = Vec::new();
    let mut courses = [&one[..], &other[..]];
    let mut seen = [Seen::Idle; 2];
    loop {
        let next = courses.iter().filter_map(|course| course.first());
        let Some(tick) = next.map(|(first, _)| *first).min() else {
            return changes;
        };
        for (course, seen) in courses.iter_mut().zip(&mut seen) {
            if let Some((now, later)) = course.split_first().filter(|(now, _)| now.0 == tick) {
                (*seen, *course) = (now.1, later);
            }
        }
        if seen[0] != seen[1] {
            changes.push(Change { core, tick, seen });
        }
    }
}

#[cfg(test)]
mod tests {
    use super::*;
    use crate::rng::Rng;

    const CYCLE: u32 = 30;

    fn any_seen(rng: &mut Rng) -> Seen {
        let window = rng.within(0..=1);
        let job = Seen::Job {
            kind: 4,
            vcpu: 1,
            task: 0,
            job: window,
        };
        rng.pick(&[Seen::Idle, Seen::Guest { window }, job])
    }

    /// Any course, and what it shows in each tick.
    fn any_course(rng: &mut Rng) -> (Course, Vec<Seen>) {
        let mut ticks: Vec<Seen> = Vec::new();
        while ticks.len() < CYCLE as usize {
            let seen = any_seen(rng);
            ticks.extend(vec![seen; 1 + rng.below(5)]);
        }
        ticks.truncate(CYCLE as usize);
        let mut course = Course::new();
        for (tick, seen) in (0..).zip(&ticks) {
            if course.last().is_none_or(|(_, last)| last != seen) {
                course.push((tick, *seen));
            }
        }
        (course, ticks)
    }

    fn picture(course: Course) -> Picture {
        Picture {
            cycle: CYCLE,
            cores: vec![course],
        }
    }

    #[test]
    fn changes_are_those_of_ticks() {
        let mut same = 0;
        for case in 0..5_000 {
            let mut rng = Rng::for_case(11, case);
            let (one, ticks) = any_course(&mut rng);
            let (other, others) = match rng.chance(20) {
                true => (one.clone(), ticks.clone()),
                false => any_course(&mut rng),
            };
            let [one, other] = [one, other].map(picture);
            let mut by_ticks = Vec::new();
            for tick in 0..CYCLE {
                let seen = [ticks[tick as usize], others[tick as usize]];
                assert_eq!([&one, &other].map(|of| of.at(0, tick)), seen.map(Some));
                let before = tick.checked_sub(1);
                let before = before.map(|tick| [ticks[tick as usize], others[tick as usize]]);
                if seen[0] != seen[1] && before != Some(seen) {
                    let core = 0;
                    by_ticks.push(Change { core, tick, seen });
                }
            }
            assert_eq!(changes(&one, &other), by_ticks);
            same += u32::from(by_ticks.is_empty());
        }
        assert!((900..1_200).contains(&same), "{same}");
    }
}
