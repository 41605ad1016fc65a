//! A stand-in for the library's tables and steps, which can be made wrong in
//! one way.

use super::faults::Fault;
use crate::as_peer;
use crate::boundary::{read_state, read_words, write_state, write_words, Boundary, Peer, STATE};
use crate::charges::charges;
use crate::check::examine;
use crate::dispatch::{step, State};
use crate::image::{Plan, WORD};
use crate::table::{tables, Entry};

use Fault::*;

/// The stand-in, with a fault or without.
#[derive(Clone, Copy, Debug, Default)]
pub struct Standin(pub Option<Fault>);

impl Boundary for Standin {
    as_peer!(check, gates, start, arrivals);

    fn build(&self, image: &[u8], lane: u32, words: &mut [u8]) -> u64 {
        let faults = [BuildPieceRowOneLess, BuildAllPieceRowOneLess];
        match self.tables(image, faults) {
            Err(answer) => answer,
            Ok(tables) => match tables.get(lane as usize) {
                None => 25,
                Some(table) => lend(table, words),
            },
        }
    }

    fn build_all(&self, image: &[u8], words: &mut [u8]) -> u64 {
        let faults = [BuildAllPieceRowOneLess, BuildPieceRowOneLess];
        match self.tables(image, faults) {
            Err(answer) => answer,
            Ok(tables) => lend(&tables.concat(), words),
        }
    }

    fn step(&self, words: &[u8], state: &mut [u8]) -> u32 {
        match <&mut [u8; STATE]>::try_from(&mut *state) {
            Ok(record) if self.steps_wrongly() => self.step_one(words, record),
            _ => Peer.step(words, state),
        }
    }

    fn step_all(&self, words: &[u8], states: &mut [u8]) -> u32 {
        if !self.steps_wrongly() {
            return Peer.step_all(words, states);
        }
        let mut moved = states.to_vec();
        let (records, short) = moved.as_chunks_mut::<STATE>();
        for (lane, record) in records.iter_mut().enumerate() {
            if lane > 0 && self.is(AllMoveFirstLaneAlone) {
                continue;
            }
            match self.step_one(words, record) {
                0 => {}
                refusal => return refusal,
            }
        }
        if !short.is_empty() {
            return 27;
        }
        if let ([first, others @ ..], true) = (records, self.is(AllShowFirstLane)) {
            for record in others {
                record[20..].copy_from_slice(&first[20..]);
            }
        }
        states.copy_from_slice(&moved);
        0
    }
}

/// Writes words where they suffice.
fn lend(table: &[u32], words: &mut [u8]) -> u64 {
    if words.len() / WORD < table.len() {
        return 26;
    }
    write_words(table, words);
    0
}

impl Standin {
    fn is(&self, fault: Fault) -> bool {
        self.0 == Some(fault)
    }

    fn steps_wrongly(&self) -> bool {
        let faults = [
            RowOneLessInOddCycles,
            IdleFromCycle3,
            KindKeptRowKept,
            TableAtWord0,
            ShowsNextTick,
            ShortEntriesUnshown,
            IdleFromEntry16,
            RefusedFromEntry16,
            AllShowFirstLane,
            AllMoveFirstLaneAlone,
        ];
        self.0.is_some_and(|fault| faults.contains(&fault))
    }

    /// The tables of all lanes, by a call that has a fault of its own and does
    /// not have another one.
    fn tables(&self, image: &[u8], [own, other]: [Fault; 2]) -> Result<Vec<Vec<u32>>, u64> {
        let plan = examine(image).map_err(|refusal| refusal.code())?;
        let fault = match self.0 {
            Some(fault) if fault == own => Some(PieceRowOneLess),
            Some(fault) if fault == other => None,
            fault => fault,
        };
        let right = tables(image).map_err(|refusal| refusal.code())?;
        let builder = Builder::new(&plan, fault);
        let cores = 0..plan.cores.len() as u32;
        let cores = cores.map(|core| builder.table(core));
        let mut all: Vec<Vec<u32>> = cores.chain(right[plan.cores.len()..].to_vec()).collect();
        if fault == Some(LinksFirst) {
            all.rotate_left(plan.cores.len());
        }
        Ok(all)
    }

    fn step_one(&self, words: &[u8], record: &mut [u8; STATE]) -> u32 {
        let before = read_state(record);
        if self.is(RefusedFromEntry16) && before.entry >= 16 {
            return 27;
        }
        let words = read_words(words);
        let mut after = before;
        if self.is(TableAtWord0) {
            (after.first, after.entry) = (0, entry_at(&words, before.tick));
        }
        let number = step(&words, &mut after);
        if number == 0 {
            after.first = before.first;
            self.show(&words, &before, &mut after);
            *record = write_state(&after);
        }
        number
    }

    /// Makes what a step has shown wrong.
    fn show(&self, words: &[u32], before: &State, after: &mut State) {
        let is_piece = [3, 4].contains(&after.kind);
        let of_entry = |entry| {
            let [_, kind, row] = entry_of(words, before.first, entry);
            (kind, row)
        };
        let is_short = before.entry > 0
            && before.entry != after.entry
            && entry_of(words, before.first, before.entry)[0] == before.tick;
        (after.kind, after.row) = match self.0 {
            Some(RowOneLessInOddCycles) if is_piece && before.cycle % 2 == 1 => {
                (after.kind, after.row.saturating_sub(1))
            }
            Some(IdleFromCycle3) if before.cycle >= 3 => (0, 0),
            Some(IdleFromEntry16) if before.entry >= 16 => (0, 0),
            Some(KindKeptRowKept) if after.kind == before.kind => (after.kind, before.row),
            Some(ShowsNextTick) => of_entry(after.entry),
            Some(ShortEntriesUnshown) if is_short => of_entry(before.entry - 1),
            _ => (after.kind, after.row),
        };
    }
}

/// An entry of the table at a first word.
fn entry_of(words: &[u32], first: u32, entry: u32) -> Entry {
    let at = (first + 2 + 3 * entry) as usize;
    [words[at], words[at + 1], words[at + 2]]
}

/// The entry that the first table has at a tick.
fn entry_at(words: &[u32], tick: u32) -> u32 {
    let begun = |entry: &u32| entry_of(words, 0, *entry)[0] <= tick;
    (0..words[1]).take_while(begun).last().unwrap_or(0)
}

/// Tables of a plan's cores.
struct Builder<'a> {
    plan: &'a Plan,
    fault: Option<Fault>,
    charges: Vec<u32>,
    /// The pieces that each window holds, by row.
    held: Vec<Vec<usize>>,
}

/// A lane filled from tick 0 on.
#[derive(Default)]
struct Lane {
    filled: u32,
    entries: Vec<Entry>,
}

impl Lane {
    fn show(&mut self, until: u32, kind: u32, row: u32) {
        if self.filled < until {
            let is_new = |last: &Entry| last[1..] != [kind, row];
            if self.entries.last().is_none_or(is_new) {
                self.entries.push([self.filled, kind, row]);
            }
            self.filled = until;
        }
    }
}

/// The last piece that a lane has shown, and the window that holds it.
type Last = Option<(usize, usize)>;

impl<'a> Builder<'a> {
    fn new(plan: &'a Plan, fault: Option<Fault>) -> Builder<'a> {
        let mut held = vec![Vec::new(); plan.windows.len()];
        let place = |(window, &[vcpu, start, ..]): (usize, &[u32; 3])| ((vcpu, start), window);
        let windows: std::collections::BTreeMap<(u32, u32), usize> =
            plan.windows.iter().enumerate().map(place).collect();
        for (row, &[task, _, start, ..]) in plan.pieces.iter().enumerate() {
            let vcpu = plan.tasks[task as usize][0];
            let window = windows.range(..=(vcpu, start)).next_back();
            held[*window.expect("each piece has one").1].push(row);
        }
        Builder {
            plan,
            fault,
            charges: charges(plan),
            held,
        }
    }

    fn is(&self, fault: Fault) -> bool {
        self.fault == Some(fault)
    }

    fn table(&self, core: u32) -> Vec<u32> {
        let mut entries = self.entries(core);
        if self.is(TwentyEntries) && entries.len() > 20 {
            entries.truncate(20);
            entries[19] = [entries[19][0], 0, 0];
        }
        let head = [self.plan.cycle, entries.len() as u32];
        [&head, entries.as_flattened()].concat()
    }

    fn entries(&self, core: u32) -> Vec<Entry> {
        let mut lane = Lane::default();
        let mut last: Last = None;
        let mut shown = 0;
        for (window, &[vcpu, start, length, ..]) in self.plan.windows.iter().enumerate() {
            if self.plan.core_of_vcpu(vcpu) != core {
                continue;
            }
            self.idle(&mut lane, start, last);
            if self.is(EmptyWindowIdle) && self.held[window].is_empty() {
                lane.show(start + length, 0, 0);
                continue;
            }
            let until = (start + self.charge(window, last)).min(start + length);
            lane.show(until, 1, self.window_row(window));
            for &piece in &self.held[window] {
                shown += 1;
                if self.is_left_out(piece, shown) {
                    continue;
                }
                self.show_piece(&mut lane, window, piece, last);
                last = Some((piece, window));
            }
            lane.show(start + length, 2, self.rest_row(window, last));
        }
        self.idle(&mut lane, self.plan.cycle, last);
        lane.entries
    }

    /// Idle ticks up to one.
    fn idle(&self, lane: &mut Lane, until: u32, last: Last) {
        match last {
            Some((piece, window)) if self.is(IdleAsRest) && self.end(piece) == lane.filled => {
                lane.show(until, 2, window as u32);
            }
            _ => lane.show(until, 0, 0),
        }
    }

    fn end(&self, piece: usize) -> u32 {
        let [_, _, start, length, ..] = self.plan.pieces[piece];
        start + length
    }

    fn task_of(&self, piece: usize) -> u32 {
        self.plan.pieces[piece][0]
    }

    fn vcpu_of(&self, piece: usize) -> u32 {
        self.plan.tasks[self.task_of(piece) as usize][0]
    }

    fn show_piece(&self, lane: &mut Lane, window: usize, piece: usize, last: Last) {
        let [task, _, start, length, ..] = self.plan.pieces[piece];
        let end = start + length;
        let row = self.piece_row(piece, last);
        let rest = self.rest_row(window, last);
        lane.show(start, 2, rest);
        let until = (start + self.switch(piece, last)).min(end);
        let [streams, buffers, chains] = [
            self.plan.streams.iter().any(|stream| stream[0] == task),
            self.plan.buffers.iter().any(|buffer| buffer[2] == task),
            self.plan.chains.iter().any(|chain| chain[0] == task),
        ];
        match self.fault {
            Some(SendersSwitchAsWork) if streams => lane.show(until, 4, row),
            Some(ReadersSwitchAsRest) if buffers => lane.show(until, 2, rest),
            _ => lane.show(until, 3, row),
        }
        match self.fault {
            Some(ChainsFirstWorkAsSwitch) if chains => lane.show(end, 3, row),
            Some(WorkUpToBudgetOfTaskBefore) if task > 0 => {
                let [_, _, _, budget, ..] = self.plan.tasks[task as usize - 1];
                lane.show(end.min(until + budget), 4, row);
                lane.show(end, 2, rest);
            }
            _ => lane.show(end, 4, row),
        }
    }

    /// Whether a piece is not shown, the so-manieth of its core.
    fn is_left_out(&self, piece: usize, shown: usize) -> bool {
        let tasks = self.plan.tasks.len() as u32;
        match self.fault {
            Some(SixPiecesOfACore) => shown > 6,
            Some(TwelvePieces) => piece >= 12,
            Some(FirstPieceLeftOut) => piece == 0,
            Some(LastPieceLeftOut) => piece + 1 == self.plan.pieces.len(),
            Some(LastTaskLeftOut) => self.task_of(piece) + 1 == tasks,
            _ => false,
        }
    }

    fn charge(&self, window: usize, last: Last) -> u32 {
        let [vcpu, ..] = self.plan.windows[window];
        match (self.fault, last) {
            (Some(ChargeOnceWhileVcpuWorks), Some((piece, _))) if self.vcpu_of(piece) == vcpu => 0,
            (Some(ChargeOfLastPiecesWindow), Some((_, other))) => self.charges[other],
            (Some(EmptyWindowUncharged), _) if self.held[window].is_empty() => 0,
            _ => self.charges[window],
        }
    }

    fn switch(&self, piece: usize, last: Last) -> u32 {
        let task = self.task_of(piece);
        match (self.fault, last) {
            (Some(SwitchOfFirstPiecesCore), _) => self.plan.task_switch(self.task_of(0)),
            (Some(SwitchOnceWhileTaskStays), Some((other, _))) if self.task_of(other) == task => 0,
            _ => self.plan.task_switch(task),
        }
    }

    fn window_row(&self, window: usize) -> u32 {
        let used = self.held[..window].iter().filter(|held| !held.is_empty());
        match self.fault {
            Some(WindowRowAmongUsed) => used.count() as u32,
            _ => window as u32,
        }
    }

    fn rest_row(&self, window: usize, last: Last) -> u32 {
        match (self.fault, last) {
            (Some(RestOfLastPiecesWindow), Some((_, window))) => window as u32,
            _ => self.window_row(window),
        }
    }

    fn piece_row(&self, piece: usize, last: Last) -> u32 {
        let row = piece as u32;
        let [.., start, _] = self.plan.pieces[piece];
        match (self.fault, last) {
            (Some(PieceRowOneLess), _) => row.saturating_sub(1),
            (Some(PieceRowOneMore), _) => row + 1,
            (Some(PieceRowOnItsCore), _) => {
                let core = |piece| self.plan.core_of_task(self.task_of(piece));
                let before = (0..piece).filter(|other| core(*other) == core(piece));
                before.count() as u32
            }
            (Some(PieceRowByTask), _) => {
                let pieces = self.plan.pieces.iter();
                pieces
                    .filter(|other| **other < self.plan.pieces[piece])
                    .count() as u32
            }
            (Some(AdjoiningPiecesAsOne), Some((other, _))) if self.end(other) == start => {
                other as u32
            }
            _ => row,
        }
    }
}
