//! A stand-in for the library's drafts, to try what runs beside it: totals are
//! kept in the words, by a layout of its own, and every call looks at all of
//! them. It can be made wrong in one way.

use std::collections::BTreeMap;

use super::calls::Drafts;
use super::faults::Fault;
use super::model::{PLACES, WORDS};
use crate::check::{examine, examine_rows};
use crate::image::{Piece, Plan};

use Fault::*;

/// The stand-in, with a fault or without.
#[derive(Clone, Copy, Debug, Default)]
pub struct Standin(pub Option<Fault>);

// The words: a mark, H, the numbers of cores and tasks; core by core d and
// total; task by task core, T, D and VCPU; place by place task, job, start,
// length (0 where it is free) and the job's total.
const MARK: u32 = 0x4452_4654;
const HEAD: usize = 4;
const CORES: usize = 32;
const TASKS: usize = 256;
const TASKS_AT: usize = HEAD + 2 * CORES;
const PLACES_AT: usize = TASKS_AT + 4 * TASKS;
const PLACE: usize = 5;

/// The total of a free place whose piece was removed, by one fault.
const USED: u32 = u32::MAX;
const NOT_AGAIN: [u32; PLACE] = [0, 0, 0, 0, USED];

/// Where a place's total is.
fn total_at(place: u32) -> usize {
    PLACES_AT + PLACE * place as usize + PLACE - 1
}

/// What the words say.
#[derive(Clone)]
struct Kept {
    cycle: u32,
    cores: Vec<KeptCore>,
    tasks: Vec<KeptTask>,
    places: Vec<Option<Held>>,
}

#[derive(Clone, Copy)]
struct KeptCore {
    d: u32,
    total: u32,
}

#[derive(Clone, Copy)]
struct KeptTask {
    core: u32,
    period: u32,
    deadline: u32,
    /// The VCPU's row, or the budget: for faults alone.
    extra: u32,
}

/// A piece with its job's total.
#[derive(Clone, Copy)]
struct Held {
    piece: Piece,
    total: u32,
}

impl Kept {
    fn jobs(&self, task: u32) -> u32 {
        self.cycle / self.tasks[task as usize].period
    }

    fn core_of(&mut self, task: u32) -> &mut KeptCore {
        let core = self.tasks[task as usize].core;
        &mut self.cores[core as usize]
    }

    fn d_of(&self, task: u32) -> u32 {
        self.cores[self.tasks[task as usize].core as usize].d
    }

    fn of_job(&mut self, task: u32, job: u32) -> impl Iterator<Item = &mut Held> {
        let held = self.places.iter_mut().flatten();
        held.filter(move |held| held.piece[..2] == [task, job])
    }

    fn held(&self, place: u32) -> Option<Held> {
        self.places.get(place as usize).copied().flatten()
    }

    /// Reads words whatever they say; none where they say too little.
    fn read(words: &[u32]) -> Option<Kept> {
        let &[mark, cycle, cores, tasks] = words.get(..HEAD)?.as_array()?;
        let (cores, tasks) = (cores as usize, tasks as usize);
        if words.len() < WORDS - 1 || mark != MARK || cores > CORES || tasks > TASKS {
            return None;
        }
        let core = |at: usize| KeptCore {
            d: words[HEAD + 2 * at],
            total: words[HEAD + 2 * at + 1],
        };
        let task = |at: usize| KeptTask {
            core: words[TASKS_AT + 4 * at],
            period: words[TASKS_AT + 4 * at + 1],
            deadline: words[TASKS_AT + 4 * at + 2],
            extra: words[TASKS_AT + 4 * at + 3],
        };
        let place = |at: usize| {
            let row = &words[PLACES_AT + PLACE * at..][..PLACE];
            (row[3] > 0).then_some(Held {
                piece: [row[0], row[1], row[2], row[3]],
                total: row[4],
            })
        };
        Some(Kept {
            cycle,
            cores: (0..cores).map(core).collect(),
            tasks: (0..tasks).map(task).collect(),
            places: (0..PLACES as usize).map(place).collect(),
        })
    }

    fn write(&self, words: &mut [u32]) {
        let (cores, tasks) = (self.cores.len() as u32, self.tasks.len() as u32);
        words[..HEAD].copy_from_slice(&[MARK, self.cycle, cores, tasks]);
        let rows = words[HEAD..TASKS_AT].as_chunks_mut().0;
        for (row, core) in rows.iter_mut().zip(&self.cores) {
            *row = [core.d, core.total];
        }
        let rows = words[TASKS_AT..PLACES_AT].as_chunks_mut().0;
        for (row, task) in rows.iter_mut().zip(&self.tasks) {
            *row = [task.core, task.period, task.deadline, task.extra];
        }
        let rows = words[PLACES_AT..].as_chunks_mut().0;
        for (row, held) in rows.iter_mut().zip(&self.places) {
            *row = match held {
                None if *row == NOT_AGAIN => NOT_AGAIN,
                None => [0; PLACE],
                Some(Held { piece, total }) => [piece[0], piece[1], piece[2], piece[3], *total],
            };
        }
    }

    /// Whether what pieces rest on is in range: H, d, T and D.
    fn rows_in_range(&self) -> bool {
        let cores = !self.cores.is_empty() && self.cores.iter().all(|core| core.d <= 1_000);
        let in_range = |task: &KeptTask| {
            (task.core as usize) < self.cores.len()
                && (1..=self.cycle).contains(&task.period)
                && self.cycle.is_multiple_of(task.period)
                && (1..=task.period).contains(&task.deadline)
        };
        (1..=1_000_000).contains(&self.cycle) && cores && self.tasks.iter().all(in_range)
    }
}

fn wide(word: u32) -> u64 {
    u64::from(word)
}

/// A word made of those past the draft's.
fn past(words: &[u32]) -> u32 {
    words[WORDS..].iter().fold(0, |sum, word| sum ^ word)
}

impl Standin {
    fn has(&self, fault: Fault) -> bool {
        self.0 == Some(fault)
    }

    /// What the words say, where they are a draft with true totals.
    fn draft(&self, words: &[u32]) -> Result<Kept, u32> {
        let least = if self.has(TakesFewerWords) {
            WORDS - 1
        } else {
            WORDS
        };
        if self.has(WordsPastMatter) && words.len() > WORDS && words[WORDS - 1] != past(words) {
            return Err(33);
        }
        let kept = Kept::read(words).filter(|_| words.len() >= least);
        kept.filter(|kept| self.is_true(kept)).ok_or(33)
    }

    fn draft_to_read(&self, words: &[u32]) -> Result<Kept, u32> {
        match self.0 {
            Some(ReadingsBelieve) => Standin(Some(EverythingBelieved)).draft(words),
            _ => self.draft(words),
        }
    }

    fn is_true(&self, kept: &Kept) -> bool {
        if !kept.rows_in_range() {
            return false;
        }
        let held = || kept.places.iter().flatten();
        let exist = held().all(|held| (held.piece[0] as usize) < kept.tasks.len());
        if !exist || self.has(EverythingBelieved) {
            return exist;
        }
        // Faults in what is asked of new pieces are none here.
        let ten = |held: &Held| Standin(None).ten(kept, &held.piece);
        if !self.has(PiecesBelieved) && !held().all(ten) {
            return false;
        }
        self.0.is_some_and(spoils_totals) || self.totals_are_true(kept)
    }

    fn totals_are_true(&self, kept: &Kept) -> bool {
        let mut cores = vec![0; kept.cores.len()];
        let mut jobs: BTreeMap<[u32; 2], u32> = BTreeMap::new();
        let held = || kept.places.iter().flatten();
        for Held { piece, .. } in held() {
            let core = &mut cores[kept.tasks[piece[0] as usize].core as usize];
            let job = jobs.entry([piece[0], piece[1]]).or_default();
            *core = piece[3].wrapping_add(*core);
            *job = piece[3].wrapping_add(*job);
        }
        let by_core = kept.cores.iter().map(|core| core.total).eq(cores);
        let by_job = held().all(|held| jobs[&[held.piece[0], held.piece[1]]] == held.total);
        (by_core || self.has(CoreTotalsBelieved)) && (by_job || self.has(JobTotalsBelieved))
    }

    /// Question 10 of a piece whose task exists.
    fn ten(&self, kept: &Kept, &[task, k, start, length]: &Piece) -> bool {
        let KeptTask {
            period, deadline, ..
        } = kept.tasks[task as usize];
        let (d, jobs) = (kept.d_of(task), kept.jobs(task));
        let k_yes = match self.0 {
            Some(KBelowPeriod) => k < period,
            Some(KUpToJobs) => k <= jobs,
            Some(KNotAsked) => true,
            _ => k < jobs,
        };
        let length_yes = match self.0 {
            Some(LengthFromD) => length >= d && length > 0,
            Some(LengthFrom1) => length > 0,
            _ => length > d,
        };
        let release = wide(k) * wide(period);
        let end = match self.0 {
            Some(EndsWrap) => wide(start.wrapping_add(length)),
            _ => wide(start) + wide(length),
        };
        let due = match self.0 {
            Some(DueIsNextRelease) => release + wide(period),
            Some(DueOneLater) => release + wide(deadline) + 1,
            _ => release + wide(deadline),
        };
        let begins = match self.0 {
            Some(ReleaseNotAsked) => true,
            Some(ReleaseOneEarlier) => wide(start) + 1 >= release,
            Some(ReleaseExcluded) => wide(start) > release,
            _ => wide(start) >= release,
        };
        let ends = match self.0 {
            Some(DueNotAsked) => true,
            Some(DueExcluded) => end < due,
            _ => end <= due,
        };
        k_yes && length_yes && begins && ends
    }

    /// What is asked beyond 5 and 10, by faults alone.
    fn asks_more(&self, kept: &Kept, place: u32, piece: &Piece) -> u32 {
        let others = kept.places.iter().enumerate();
        let others = others.filter(|(at, _)| *at != place as usize);
        let mut others = others.filter_map(|(_, held)| held.map(|held| held.piece));
        let core = |piece: &Piece| kept.tasks[piece[0] as usize].core;
        let one_job = |other: &Piece| other[..2] == piece[..2];
        match self.0 {
            Some(AsksOverlap) => {
                let clash = others.any(|other| {
                    let meet = piece[2] < other[2] + other[3] && other[2] < piece[2] + piece[3];
                    meet && core(&other) == core(piece)
                });
                u32::from(clash) * 12
            }
            Some(AsksEqualStarts) => u32::from(others.any(|other| other[2] == piece[2])) * 32,
            Some(OnePieceForEachJob) => u32::from(others.any(|other| one_job(&other))) * 34,
            Some(AsksBudget) => {
                let d = kept.d_of(piece[0]);
                let sum: u32 = others.filter(one_job).map(|other| other[3] - d).sum();
                let budget = kept.tasks[piece[0] as usize].extra;
                u32::from(sum + piece[3] - d > budget) * 13
            }
            _ => 0,
        }
    }

    /// The words of an image's plan.
    fn kept(&self, plan: &Plan) -> Kept {
        let core = |&[_, d, ..]: &[u32; 3]| KeptCore { d, total: 0 };
        let task = |task: &[u32; 5]| {
            let [vcpu, _, period, budget, deadline] = *task;
            KeptTask {
                core: plan.core_of_vcpu(vcpu),
                period,
                deadline,
                extra: match self.0 {
                    Some(CoreTotalsByVcpu) => vcpu,
                    _ => budget,
                },
            }
        };
        Kept {
            cycle: plan.cycle,
            cores: plan.cores.iter().map(core).collect(),
            tasks: plan.tasks.iter().map(task).collect(),
            places: vec![None; PLACES as usize],
        }
    }

    /// Puts a piece at a place and counts it.
    fn put(&self, kept: &mut Kept, place: u32, piece: Piece) {
        let [task, job, _, length] = piece;
        let counted = self.counted(kept, &piece);
        if !self.has(AddingForgetsCoreTotal) {
            let core = self.counting_core(kept, task);
            core.total = self.cut(core.total.wrapping_add(counted));
        }
        let mut total = counted;
        if !self.has(AddingForgetsJobTotal) {
            for held in kept.of_job(task, job) {
                held.total = self.cut(held.total.wrapping_add(counted));
                total = held.total;
            }
        }
        if self.has(JobTotalOfOnePiece) {
            total = length;
        }
        kept.places[place as usize] = Some(Held { piece, total });
    }

    /// Takes a piece away and counts it no more.
    fn take(&self, kept: &mut Kept, place: u32, Held { piece, .. }: Held) {
        let [task, job, ..] = piece;
        let counted = self.counted(kept, &piece);
        kept.places[place as usize] = None;
        if !self.has(RemovalKeepsCoreTotal) {
            let core = self.counting_core(kept, task);
            core.total = self.cut(core.total.wrapping_sub(counted));
        }
        if !self.has(RemovalKeepsJobTotal) {
            for held in kept.of_job(task, job) {
                held.total = self.cut(held.total.wrapping_sub(counted));
            }
        }
    }

    /// What a piece adds to its totals.
    fn counted(&self, kept: &Kept, &[task, _, _, length]: &Piece) -> u32 {
        match self.0 {
            Some(SwitchesLeftOut) => length - kept.d_of(task),
            Some(BudgetsForTotals) => kept.tasks[task as usize].extra,
            _ => length,
        }
    }

    fn counting_core<'a>(&self, kept: &'a mut Kept, task: u32) -> &'a mut KeptCore {
        if self.has(CoreTotalsByVcpu) {
            let vcpu = kept.tasks[task as usize].extra as usize;
            let core = vcpu % kept.cores.len();
            return &mut kept.cores[core];
        }
        kept.core_of(task)
    }

    fn cut(&self, total: u32) -> u32 {
        match self.0 {
            Some(Totals16Bits) => total & 0xFFFF,
            Some(Totals30Bits) => total & 0x3FFF_FFFF,
            _ => total,
        }
    }

    /// The plan of an image that a draft may be made of.
    fn plan(&self, image: &[u8]) -> Result<Plan, u32> {
        let asked = examine_rows(image).map_err(|refusal| refusal.number);
        let again = |change: fn(&mut Plan)| {
            let plan = Plan::decode(image);
            let mut changed = plan.clone();
            change(&mut changed);
            let asked = examine_rows(&changed.encode());
            asked.map(|_| plan).map_err(|refusal| refusal.number)
        };
        match (self.0, &asked) {
            (Some(Make32NotAsked), Err(32)) => again(Plan::put_in_order),
            (Some(Make9NotAsked), Err(9)) => {
                again(|plan| plan.tasks.iter_mut().for_each(|task| task[1] = u32::MAX))
            }
            (Some(MakeAsksAll), Ok(_)) => examine(image).map_err(|refusal| refusal.number),
            (Some(MakeAsks40), Ok((plan, _))) => match examine(image) {
                Err(refusal) if refusal.number == 40 => Err(40),
                _ => Ok(plan.clone()),
            },
            (Some(MakeAsks11), Ok((plan, _))) => match examine(image) {
                Err(refusal) if refusal.number == 11 => Err(11),
                _ => Ok(plan.clone()),
            },
            (Some(MakeAsksBudgets), Ok((plan, _))) => match examine(image) {
                Err(refusal) if refusal.number == 13 => Err(13),
                _ => Ok(plan.clone()),
            },
            _ => asked.map(|(plan, _)| plan),
        }
    }

    fn made(&self, image: &[u8], words: &mut [u32]) -> Result<(), u32> {
        let needed = match self.0 {
            Some(MakeTakesOneWordLess) => WORDS - 1,
            Some(MakeWantsOneWordMore) => WORDS + 1,
            _ => WORDS,
        };
        if self.has(Make34First) && words.len() < needed {
            return Err(34);
        }
        let mut plan = self.plan(image)?;
        if words.len() < needed {
            return Err(34);
        }
        let mut kept = self.kept(&plan);
        match self.0 {
            Some(MakeKeepsOlderPieces) => {
                let older = Kept::read(words).map_or(Vec::new(), |older| older.places);
                for (place, held) in (0..).zip(older).skip(plan.pieces.len()) {
                    let held = held.filter(|held| (held.piece[0] as usize) < kept.tasks.len());
                    if let Some(held) = held.filter(|held| self.ten(&kept, &held.piece)) {
                        self.put(&mut kept, place, held.piece);
                    }
                }
            }
            Some(MakeJoinsEqualRows) => plan.pieces.dedup(),
            Some(MakeLeavesOutLastPiece) if plan.pieces.len() == PLACES as usize => {
                plan.pieces.pop();
            }
            _ => {}
        }
        let first = u32::from(self.has(MakePlacesFrom1));
        for (place, piece) in (first..PLACES).zip(&plan.pieces) {
            self.put(&mut kept, place, *piece);
        }
        words[..WORDS - 1].fill(0);
        kept.write(words);
        if self.has(WordsPastMatter) {
            words[WORDS - 1] = past(words);
        }
        self.write_past(words, MakeWritesPast);
        Ok(())
    }

    fn added(&self, words: &mut [u32], place: u32, piece: Piece) -> Result<(), u32> {
        let mut kept = self.draft(words)?;
        let [task, ..] = piece;
        let exists = (task as usize) < kept.tasks.len();
        if self.has(AddAt2048Gives33) && place >= PLACES {
            return Err(33);
        }
        let highest = if self.has(AddAt2047Refused) {
            PLACES - 1
        } else {
            PLACES
        };
        let taken = place < PLACES && kept.held(place).is_some();
        let is_place = place < highest && (!taken || self.has(AddReplaces));
        let ten = exists && self.ten(&kept, &piece);
        let asked = match self.0 {
            Some(Asks34Before5) => [(34, is_place), (5, exists), (10, ten)],
            Some(Asks34Before10) => [(5, exists), (34, is_place), (10, ten)],
            Some(Asks10Before5) => [(10, ten), (5, exists), (34, is_place)],
            _ => [(5, exists), (10, ten), (34, is_place)],
        };
        if let Some((number, _)) = asked.into_iter().find(|(_, yes)| !yes) {
            return Err(number);
        }
        match self.asks_more(&kept, place, &piece) {
            0 => {}
            number => return Err(number),
        }
        if self.has(RemovedPlaceNotUsedAgain) && words[total_at(place)] == USED {
            return Err(34);
        }
        if let Some(held) = kept.held(place) {
            self.take(&mut kept, place, held);
        }
        let place = match self.0 {
            Some(AddAtLowestFree) => kept.places.iter().take_while(|held| held.is_some()).count(),
            _ => place as usize,
        };
        self.put(&mut kept, place as u32, piece);
        kept.write(words);
        Ok(())
    }

    fn removed(&self, words: &mut [u32], place: u32) -> Result<(), u32> {
        let mut kept = match self.0 {
            Some(RemovalBelieves) => Standin(Some(EverythingBelieved)).draft(words)?,
            _ => self.draft(words)?,
        };
        if self.has(PlaceOf2048Gives34) && place >= PLACES {
            return Err(34);
        }
        let Some(held) = kept.held(place) else {
            return if self.has(RemovingNothingGives0) {
                Ok(())
            } else {
                Err(33)
            };
        };
        if self.has(RemovedPlaceStillRead) && place.is_multiple_of(2) {
            return Ok(());
        }
        self.take(&mut kept, place, held);
        if self.has(RemovedPlaceStaysTaken) {
            kept.places[place as usize] = Some(held);
        }
        if self.has(RemovalShiftsPlaces) {
            kept.places.remove(place as usize);
            kept.places.push(None);
        }
        kept.write(words);
        if self.has(RemovedPlaceNotUsedAgain) {
            words[total_at(place)] = USED;
        }
        Ok(())
    }

    fn shifted(&self, words: &mut [u32], place: u32, start: u32) -> Result<(), u32> {
        let mut kept = self.draft(words)?;
        if self.has(MoveAsks10Before33) && start > kept.cycle {
            return Err(10);
        }
        let held = kept.held(place).ok_or(33u32)?;
        let [task, job, from, length] = held.piece;
        let piece = [task, job, start, length];
        if !self.has(MoveNotAsked) && !self.ten(&kept, &piece) {
            return Err(10);
        }
        if self.has(MoveToSameStartRefused) && start == from {
            return Err(34);
        }
        match self.asks_more(&kept, place, &piece) {
            0 => {}
            number => return Err(number),
        }
        if self.has(MoveNotStored) {
            return Ok(());
        }
        if !self.has(MoveCountsTwice) {
            self.take(&mut kept, place, held);
        }
        self.put(&mut kept, place, piece);
        kept.write(words);
        Ok(())
    }

    fn job_total(&self, words: &[u32], task: u32, job: u32) -> Result<u32, (u32, u32)> {
        let plain = |number: u32| (number, 0);
        let mut kept = self.draft_to_read(words).map_err(plain)?;
        if self.has(JobAsks10Before5) && job >= kept.cycle {
            return Err((10, 0));
        }
        if task as usize >= kept.tasks.len() {
            let rest = if self.has(RefusedTotalNotZero) { 1 } else { 0 };
            return Err((5, rest));
        }
        let jobs = match self.0 {
            Some(JobKBelowPeriod) => kept.tasks[task as usize].period,
            _ => kept.jobs(task),
        };
        if job >= jobs && !self.has(JobKNotAsked) {
            return Err((10, 0));
        }
        let sum = |counts: &dyn Fn(&Piece) -> bool| {
            let pieces = kept.places.iter().flatten().map(|held| held.piece);
            Ok(pieces.filter(counts).map(|piece| piece[3]).sum())
        };
        match self.0 {
            Some(JobTotalsByTask) => return sum(&|piece| piece[0] == task),
            Some(JobTotalsByK) => return sum(&|piece| piece[1] == job),
            _ => {}
        }
        let total = kept.of_job(task, job).next().map(|held| held.total);
        match total {
            None if self.has(JobWithoutPieceRefused) => Err((33, 0)),
            total => Ok(total.unwrap_or(0)),
        }
    }

    fn core_total(&self, words: &[u32], core: u32) -> Result<u32, (u32, u32)> {
        let plain = |number: u32| (number, 0);
        let kept = self.draft_to_read(words).map_err(plain)?;
        let count = kept.cores.len() as u32;
        match kept.cores.get(core as usize) {
            Some(core) => Ok(core.total),
            None if self.has(CoreNotAsked) && core < CORES as u32 => Ok(0),
            None if self.has(CoreUpToCount) && core == count => Ok(0),
            None => Err((5, 0)),
        }
    }

    fn piece(&self, words: &[u32], place: u32, lent: &mut [u32]) -> Result<(), u32> {
        if self.has(PlaceAsks34First) && lent.len() < 4 {
            return Err(34);
        }
        let kept = self.draft_to_read(words)?;
        if self.has(PlaceOf2048Gives34) && place >= PLACES {
            return Err(34);
        }
        let held = kept.held(place).ok_or(33u32)?;
        match lent.len() {
            3 if self.has(PlaceReadIntoThree) => lent.copy_from_slice(&held.piece[..3]),
            0..4 => return Err(34),
            _ => lent[..4].copy_from_slice(&held.piece),
        }
        if self.has(PlaceReadIntoFive) && lent.len() > 4 {
            lent[4] = held.total;
        }
        Ok(())
    }

    /// Writes the word behind the draft's, where this is the fault.
    fn write_past(&self, words: &mut [u32], fault: Fault) {
        if self.has(fault) && words.len() > WORDS {
            words[WORDS] ^= 1;
        }
    }

    fn edit(&self, words: &mut [u32], edit: impl Fn(&mut [u32]) -> Result<(), u32>) -> u32 {
        match edit(words) {
            Ok(()) => {
                self.write_past(words, EditWritesPast);
                0
            }
            Err(number) => {
                if self.has(RefusedEditWrites) && !words.is_empty() {
                    let last = words.len() - 1;
                    words[last] ^= 1;
                }
                number
            }
        }
    }

    fn reading(&self, words: &mut [u32], total: Result<u32, (u32, u32)>) -> u64 {
        if self.has(ReadingWrites) && words.len() >= WORDS {
            words[WORDS - 1] ^= 1;
        }
        match total {
            Ok(total) => wide(total) << 32,
            Err((number, total)) => wide(number) | wide(total) << 32,
        }
    }
}

/// Faults whose totals are no longer the sums. The stand-in believes them then,
/// or it would refuse its own words.
fn spoils_totals(fault: Fault) -> bool {
    [
        SwitchesLeftOut,
        BudgetsForTotals,
        RemovalKeepsJobTotal,
        RemovalKeepsCoreTotal,
        AddingForgetsJobTotal,
        AddingForgetsCoreTotal,
        MoveCountsTwice,
        CoreTotalsByVcpu,
        Totals16Bits,
        Totals30Bits,
        JobTotalOfOnePiece,
        RemovedPlaceStaysTaken,
    ]
    .contains(&fault)
}

impl Drafts for Standin {
    fn make(&self, image: &[u8], words: &mut [u32]) -> u32 {
        match self.made(image, words) {
            Ok(()) => 0,
            Err(number) => {
                if self.has(MakeRefusedWrites) && !words.is_empty() {
                    words[0] ^= 1;
                }
                number
            }
        }
    }

    fn add(&self, words: &mut [u32], place: u32, piece: Piece) -> u32 {
        self.edit(words, |words| self.added(words, place, piece))
    }

    fn remove(&self, words: &mut [u32], place: u32) -> u32 {
        self.edit(words, |words| self.removed(words, place))
    }

    fn shift(&self, words: &mut [u32], place: u32, start: u32) -> u32 {
        self.edit(words, |words| self.shifted(words, place, start))
    }

    fn job(&self, words: &mut [u32], task: u32, job: u32) -> u64 {
        let total = self.job_total(words, task, job);
        self.reading(words, total)
    }

    fn core(&self, words: &mut [u32], core: u32) -> u64 {
        let total = self.core_total(words, core);
        self.reading(words, total)
    }

    fn place(&self, words: &mut [u32], place: u32, piece: &mut [u32]) -> u32 {
        match self.piece(words, place, piece) {
            Ok(()) => 0,
            Err(number) => {
                if self.has(PlaceRefusedWrites) && !piece.is_empty() {
                    piece[0] = 0;
                }
                number
            }
        }
    }
}
