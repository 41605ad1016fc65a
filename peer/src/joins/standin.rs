//! A stand-in for the library's join: rows are words without types here, and
//! the questions a list. It can be made wrong in one way.

use super::crowded::APPENDED;
use super::faults::Fault;
use super::Joins;
use crate::answer::Answer;
use crate::check::{check, examine, examine_rows};
use crate::image::{
    point_back, set_word, word_at, Trailer, BUFFER, CHAIN, CORE, FRAME, LINK, LONGEST, PIECE,
    ROW_BOUNDS, STREAM, TABLES, TASK, TRAILER, VCPU, WIDTHS, WINDOW, WORD,
};
use crate::order::{FRAME_START, PIECE_START};
use crate::table::tables;

use Fault::*;

/// The stand-in, with a fault or without.
#[derive(Clone, Copy, Debug, Default)]
pub struct Standin(pub Option<Fault>);

impl Joins for Standin {
    fn join(
        &self,
        first: &[u8],
        second: &[u8],
        shared: u32,
        joined: &mut [u8],
        length: &mut [u32; 2],
    ) -> u64 {
        let attempt = Attempt {
            fault: self.0,
            images: [first, second],
            plans: [first, second].map(|image| examine_rows(image).is_ok().then(|| read(image))),
            shared: match self.0 {
                Some(SharedModulo256) => shared % 256,
                Some(SharedModulo65536) => shared % 65_536,
                _ => shared,
            },
            lent: joined.len(),
        };
        attempt.run(joined, length).code()
    }

    fn tables(&self, image: &[u8]) -> Option<Vec<Vec<u32>>> {
        tables(image).ok()
    }
}

type Row = Vec<u32>;

/// H, P and all rows of an image.
#[derive(Clone)]
struct Tables {
    head: [u32; 2],
    rows: [Vec<Row>; TABLES],
}

impl Tables {
    fn of(&self, table: u32) -> &Vec<Row> {
        &self.rows[table as usize - 1]
    }

    fn of_mut(&mut self, table: u32) -> &mut Vec<Row> {
        &mut self.rows[table as usize - 1]
    }
}

/// Reads an image whose tables lie as its trailer says.
fn read(image: &[u8]) -> Tables {
    let trailer = Trailer::read(image);
    let rows = |table: usize| {
        let (offset, count) = trailer.tables[table];
        let words = count as usize * WIDTHS[table];
        let word = |word| word_at(image, offset as usize + word * WORD);
        let words: Vec<u32> = (0..words).map(word).collect();
        words.chunks(WIDTHS[table]).map(<[u32]>::to_vec).collect()
    };
    Tables {
        head: [trailer.cycle, trailer.precision],
        rows: std::array::from_fn(rows),
    }
}

/// The image of tables.
fn write(tables: &Tables) -> Vec<u8> {
    let mut words: Vec<u32> = tables.rows.iter().flatten().flatten().copied().collect();
    let mut offset = 0;
    words.extend(tables.head);
    for (rows, width) in tables.rows.iter().zip(WIDTHS) {
        words.extend([offset, rows.len() as u32]);
        offset += (rows.len() * width * WORD) as u32;
    }
    words.push(offset);
    words.iter().flat_map(|word| word.to_le_bytes()).collect()
}

/// What is asked before the result's questions.
#[derive(Clone, Copy, PartialEq, Eq)]
enum Asked {
    First,
    Second,
    Ground,
    Shared,
    Room,
}

/// A call.
struct Attempt<'a> {
    fault: Option<Fault>,
    images: [&'a [u8]; 2],
    /// Those of images that pass the questions up to 10.
    plans: [Option<Tables>; 2],
    shared: u32,
    lent: usize,
}

impl Attempt<'_> {
    fn is(&self, fault: Fault) -> bool {
        self.fault == Some(fault)
    }

    fn run(&self, joined: &mut [u8], length: &mut [u32; 2]) -> Answer {
        for asked in self.order() {
            if let Err(refusal) = self.ask(asked) {
                self.refuse(asked, joined, length);
                return refusal;
            }
        }
        let image = self.image();
        let answer = self.answer(&image);
        self.finish(&image, answer, joined, length);
        match self.fault {
            Some(ResultNamedByNumberAlone) => Answer::plain(answer.number),
            Some(ResultRefusedAs37) if !answer.is_accepted() => Answer::plain(37),
            _ => answer,
        }
    }

    fn order(&self) -> [Asked; 5] {
        use Asked::*;
        match self.fault {
            Some(SecondAskedFirst) => [Second, First, Ground, Shared, Room],
            Some(Asks35BeforeSecond) => [First, Ground, Second, Shared, Room],
            Some(Asks36BeforeSecond) => [First, Shared, Second, Ground, Room],
            Some(Asks37BeforeSecond) => [First, Room, Second, Ground, Shared],
            Some(Asks36Before35) => [First, Second, Shared, Ground, Room],
            Some(Asks37Before36) => [First, Second, Ground, Room, Shared],
            Some(Asks37Before35) => [First, Second, Room, Ground, Shared],
            _ => [First, Second, Ground, Shared, Room],
        }
    }

    fn ask(&self, asked: Asked) -> Result<(), Answer> {
        let refused = |number, names: Fault, table| match self.is(names) {
            true => Err(Answer::at(number, table, 0)),
            false => Err(Answer::plain(number)),
        };
        let input = |image, to_10| match self.is(to_10) {
            true => examine_rows(image).map(drop),
            false => examine(image).map(drop),
        };
        match asked {
            Asked::First if self.is(First40NotAsked) => {
                let refusal = input(self.images[0], FirstAskedTo10).err();
                refusal
                    .filter(|refusal| refusal.number != 40)
                    .map_or(Ok(()), Err)
            }
            Asked::First => input(self.images[0], FirstAskedTo10),
            Asked::Second if self.is(SecondNamedByNumberAlone) => {
                input(self.images[1], SecondAskedTo10)
                    .map_err(|refusal| Answer::plain(refusal.number))
            }
            Asked::Second => input(self.images[1], SecondAskedTo10),
            Asked::Ground if !self.agree() => refused(35, Names35, CORE),
            Asked::Shared if !self.share() => refused(36, Names36, TASK),
            Asked::Room if !self.has_room() => {
                if self.is(AsksResultBefore37) {
                    let answer = check(&self.image());
                    if !answer.is_accepted() {
                        return Err(answer);
                    }
                }
                refused(37, Names37, TASK)
            }
            _ => Ok(()),
        }
    }

    /// Both plans; where one is none, another question refuses it.
    fn plans(&self) -> Option<[&Tables; 2]> {
        match &self.plans {
            [Some(first), Some(second)] => Some([first, second]),
            _ => None,
        }
    }

    /// Both plans as they are joined.
    fn both(&self) -> [&Tables; 2] {
        let [first, second] = self.plans().expect("both are asked before");
        match self.is(PlansExchanged) {
            true => [second, first],
            false => [first, second],
        }
    }

    /// Question 35.
    fn agree(&self) -> bool {
        let Some([first, second]) = self.plans() else {
            return true;
        };
        let cycle = self.is(CycleLeftOut) || first.head[0] == second.head[0];
        let precision = self.is(PrecisionLeftOut) || first.head[1] == second.head[1];
        let tables = [
            (CORE, CoresLeftOut, MoreCoresTaken),
            (VCPU, VcpusLeftOut, MoreVcpusTaken),
            (WINDOW, WindowsLeftOut, MoreWindowsTaken),
            (LINK, LinksLeftOut, MoreLinksTaken),
        ];
        let mut tables = tables.into_iter().filter(|table| !self.is(table.1));
        let agree = |(table, _, more_taken)| {
            let [one, other] = [first, second].map(|plan| self.compared(plan, table));
            let both = one.len().min(other.len());
            one == other || self.is(more_taken) && one[..both] == other[..both]
        };
        cycle && precision && tables.all(agree)
    }

    /// The rows of a table as 35 compares them.
    fn compared(&self, plan: &Tables, table: u32) -> Vec<Row> {
        let mut rows = plan.of(table).clone();
        match (self.fault, table) {
            (Some(CoresInAnyOrder), CORE) | (Some(LinksInAnyOrder), LINK) => rows.sort(),
            (Some(LastWordOfCoresLeftOut), CORE)
            | (Some(LastWordOfWindowsLeftOut), WINDOW)
            | (Some(LastWordOfLinksLeftOut), LINK) => {
                let shorter = |row: &mut Row| row.truncate(row.len() - 1);
                rows.iter_mut().for_each(shorter);
            }
            _ => {}
        }
        rows
    }

    /// Question 36.
    fn share(&self) -> bool {
        let Some([first, second]) = self.plans() else {
            return true;
        };
        let (one, other) = (first.of(TASK), second.of(TASK));
        let shared = u64::from(self.shared);
        let in_count = |rows: &[Row], below, not_asked| {
            let count = rows.len() as u64;
            let signed = self.is(SharedSigned) && self.shared >= 1 << 31;
            shared < count || shared == count && !self.is(below) || self.is(not_asked) || signed
        };
        in_count(one, SharedBelowFirst, SharedAskedOfSecondAlone)
            && in_count(other, SharedBelowSecond, SharedAskedOfFirstAlone)
            && !(self.shared == 0 && self.is(SharedOf0Refused))
            && self.are_equal(one, other)
    }

    fn are_equal(&self, one: &[Row], other: &[Row]) -> bool {
        let shared = self.shared_rows();
        let skipped = match self.fault {
            Some(SharedRowsNotCompared) => 0..shared,
            Some(LastSharedRowNotCompared) => shared.saturating_sub(1)..shared,
            Some(FirstSharedRowNotCompared) => 0..1,
            _ => 0..0,
        };
        let columns = [
            TaskVcpuNotCompared,
            TaskMaskNotCompared,
            TaskPeriodNotCompared,
            TaskBudgetNotCompared,
            TaskDeadlineNotCompared,
        ];
        let column = columns.iter().position(|fault| self.is(*fault));
        let compared = if self.is(AllTasksCompared) {
            one.len().min(other.len())
        } else {
            shared
        };
        let mut rows = (0..compared).filter(|row| !skipped.contains(row));
        rows.all(|row| equal_but_for(&one[row], &other[row], column))
    }

    /// As many shared tasks as there are in both plans.
    fn shared_rows(&self) -> usize {
        let counts = self.plans.iter().flatten().map(|plan| plan.of(TASK).len());
        let fewest = counts.min().unwrap_or(0);
        if self.is(SharedSigned) && self.shared >= 1 << 31 {
            return 0;
        }
        fewest.min(self.shared as usize)
    }

    /// Question 37.
    fn has_room(&self) -> bool {
        let Some([first, second]) = self.plans() else {
            return true;
        };
        let joined = self.compose();
        let in_bounds = |table: u32| {
            let [one, other, both] = [first, second, &joined].map(|plan| plan.of(table).len());
            let count = match self.is(LimitsOfSums) {
                true => one + other,
                false => both,
            };
            let most = ROW_BOUNDS[table as usize - 1].1 as usize;
            let exact = count == most && self.is_of(table, &LIMIT_ONE_LESS);
            count <= most && !exact || self.is_of(table, &LIMIT_NOT_ASKED)
        };
        APPENDED.into_iter().all(in_bounds) && self.bytes_suffice(self.image().len())
    }

    /// Whether the fault is one of those that are of a table.
    fn is_of(&self, table: u32, faults: &[(u32, Fault)]) -> bool {
        let mut own = faults.iter().filter(|(of, _)| *of == table);
        own.any(|(_, fault)| self.is(*fault))
    }

    fn bytes_suffice(&self, needed: usize) -> bool {
        match self.fault {
            Some(LentNotAsked) => true,
            Some(LentOneByteLess) => self.lent + 1 >= needed,
            Some(LentWordLess) => self.lent + WORD >= needed,
            Some(LentOneByteMore) => self.lent > needed,
            Some(LentLongestImage) => self.lent >= LONGEST,
            Some(LentInWords) => self.lent / WORD >= needed,
            Some(LentForBoth) => self.lent >= self.images[0].len() + self.images[1].len(),
            Some(LentModulo256) => self.lent % 256 >= needed % 256 && self.lent >= needed,
            _ => self.lent >= needed,
        }
    }

    /// The joined image.
    fn image(&self) -> Vec<u8> {
        let joined = self.compose();
        let mut image = write(&joined);
        let [first, _] = self.images;
        let own = Trailer::read(first).tables;
        let trailer = image.len() - TRAILER;
        for (table, (offset, count)) in own.into_iter().enumerate() {
            let at = trailer + (2 + 2 * table) * WORD;
            match self.fault {
                Some(OffsetsOfFirst) => set_word(&mut image, at, offset),
                Some(CountsOfFirst) => set_word(&mut image, at + WORD, count),
                _ => {}
            }
        }
        if self.is(LastWordOfFirst) {
            let at = image.len() - WORD;
            set_word(&mut image, at, (first.len() - TRAILER) as u32);
        } else {
            point_back(&mut image);
        }
        image
    }

    fn compose(&self) -> Tables {
        let mut composing = self.unordered();
        let key = |row: &Row, start: usize| match self.fault {
            Some(EqualStartsTheOtherWay) => {
                let words = row.iter().map(|word| u32::MAX - word);
                (row[start], words.collect())
            }
            _ => (row[start], row.clone()),
        };
        for (table, start, not_put, by_start, by_words) in [
            (
                PIECE,
                PIECE_START,
                PiecesNotPutInOrder,
                PiecesByStartAlone,
                PiecesByWords,
            ),
            (
                FRAME,
                FRAME_START,
                FramesNotPutInOrder,
                FramesByStartAlone,
                FramesByWords,
            ),
        ] {
            let rows = composing.of_mut(table);
            match self.fault {
                Some(fault) if fault == not_put => {}
                Some(fault) if fault == by_start => rows.sort_by_key(|row| row[start]),
                Some(fault) if fault == by_words => rows.sort(),
                _ => rows.sort_by_key(|row| key(row, start)),
            }
        }
        for (table, put) in [
            (STREAM, StreamsPutInOrder),
            (BUFFER, BuffersPutInOrder),
            (CHAIN, ChainsPutInOrder),
        ] {
            if self.is(put) {
                composing.of_mut(table).sort();
            }
        }
        composing
    }

    /// The joined tables, their rows as they come.
    fn unordered(&self) -> Tables {
        let [first, second] = self.both();
        let mut joined = first.clone();
        if self.is(WindowsOfBoth) {
            let windows = second.of(WINDOW).clone();
            joined.of_mut(WINDOW).extend(windows);
        }
        self.add_tasks(&mut joined, second);
        self.take_in(&mut joined, second, PIECE, &self.task_columns(PIECE), &[]);
        let columns = self.task_columns(STREAM);
        let streams = self.take_in(&mut joined, second, STREAM, &columns, &[]);
        let streams = self.streams(streams, first.of(STREAM).len());
        self.take_in(&mut joined, second, FRAME, &[0], &streams);
        for table in [BUFFER, CHAIN] {
            self.take_in(&mut joined, second, table, &self.task_columns(table), &[]);
        }
        joined
    }

    fn add_tasks(&self, joined: &mut Tables, second: &Tables) {
        let from = match self.is(SharedTasksAppendedAgain) {
            true => 0,
            false => self.shared_rows(),
        };
        let rows = second.of(TASK)[from..].to_vec();
        let tasks = joined.of_mut(TASK);
        match self.fault {
            Some(TasksOfSecondBeforeFirst) => {
                let shared = self.shared_rows();
                tasks.splice(shared..shared, rows);
            }
            Some(EqualTasksFound) => {
                let new = rows.into_iter().filter(|row| !tasks.contains(row));
                let new: Vec<Row> = new.collect();
                tasks.extend(new);
            }
            _ => tasks.extend(rows),
        }
    }

    /// The columns that name tasks, of those that are renumbered.
    fn task_columns(&self, table: u32) -> Vec<usize> {
        let columns = [
            (PIECE, 0, PieceTaskKept),
            (STREAM, 0, SenderKept),
            (STREAM, 1, ReceiverKept),
            (BUFFER, 1, WriterKept),
            (BUFFER, 2, ReaderKept),
            (CHAIN, 0, FirstTaskOfChainKept),
            (CHAIN, 1, LastTaskOfChainKept),
        ];
        let renumbered = |(of, column, kept)| (of == table && !self.is(kept)).then_some(column);
        let mut columns: Vec<usize> = columns.into_iter().filter_map(renumbered).collect();
        if table == BUFFER && self.is(BufferNumberRenumbered) {
            columns.push(0);
        }
        columns
    }

    fn task(&self, number: u32) -> u32 {
        let [first, second] = self.both();
        let count = first.of(TASK).len() as u32;
        let shared = self.shared_rows() as u32;
        let later = number.wrapping_sub(shared);
        match self.fault {
            Some(TasksNotRenumbered) => number,
            Some(SharedTasksRenumbered) => count + number,
            Some(NextTaskIsShared) if number == shared => number,
            _ if number < shared => number,
            Some(TasksFrom0) => later,
            Some(TasksFromCountOfSecond) => second.of(TASK).len() as u32 + later,
            Some(TasksOneMore) => count + later + 1,
            _ => count + later,
        }
    }

    /// Where streams went, as frames are told.
    fn streams(&self, places: Vec<u32>, known: usize) -> Vec<u32> {
        let numbers = 0..places.len() as u32;
        let known = known as u32;
        match self.fault {
            Some(FramesNotRenumbered) => numbers.collect(),
            Some(FramesRenumberedByCount) => numbers.map(|number| known + number).collect(),
            Some(FramesRenumberedByTheirTurn) => {
                let turn = |(number, place): (u32, u32)| match place < known {
                    true => place,
                    false => known + number,
                };
                numbers.zip(places).map(turn).collect()
            }
            Some(FramesRenumberedAsTasks) => numbers.map(|number| self.task(number)).collect(),
            _ => places,
        }
    }

    /// Takes in the second's rows of a table; those of frames by where streams
    /// went. Gives where each row went.
    fn take_in(
        &self,
        joined: &mut Tables,
        second: &Tables,
        table: u32,
        columns: &[usize],
        streams: &[u32],
    ) -> Vec<u32> {
        let rows = joined.of_mut(table);
        if self.is_of(table, &OF_FIRST_ONCE) {
            *rows = without_equals(rows);
        }
        let known = rows.clone();
        let mut found = Vec::new();
        let mut places = Vec::new();
        for row in second.of(table) {
            let new = self.renumbered(table, row, columns, streams);
            if self.leaves_out(table, &new) {
                continue;
            }
            let place = self.place(table, &known, rows, row, &new);
            let is_new = place.is_some_and(|place| !found.contains(&place));
            match place {
                Some(place) if is_new || !self.is_of(table, &FOUND_ONCE) => {
                    found.push(place);
                    places.push(place as u32);
                }
                _ if self.is(NothingAppended) => places.push(0),
                _ => {
                    rows.push(new);
                    places.push(rows.len() as u32 - 1);
                }
            }
        }
        if self.is(SecondBeforeFirst) && [BUFFER, CHAIN].contains(&table) {
            rows.rotate_left(known.len());
        }
        places
    }

    fn renumbered(&self, table: u32, row: &Row, columns: &[usize], streams: &[u32]) -> Row {
        let mut new = row.clone();
        if table == STREAM && self.is(QueuesLost) {
            new[5] = 0;
        }
        for &column in columns {
            new[column] = match table {
                FRAME => streams[row[column] as usize],
                _ => self.task(row[column]),
            };
        }
        new
    }

    /// Whether a row is not taken in at all.
    fn leaves_out(&self, table: u32, new: &Row) -> bool {
        let [first, _] = self.both();
        let tasks = self.shared_rows() as u32;
        match (self.fault, table) {
            (Some(PiecesOfSharedTasksLeftOut), PIECE) => new[0] < tasks,
            (Some(BuffersOfSharedTasksLeftOut), BUFFER) => new[1] < tasks && new[2] < tasks,
            (Some(ChainsOfSharedTasksLeftOut), CHAIN) => new[0] < tasks && new[1] < tasks,
            (Some(FramesOfFoundStreamsLeftOut), FRAME) => {
                (new[0] as usize) < first.of(STREAM).len()
            }
            _ => false,
        }
    }

    /// The row that a row of the second is, if it is one.
    fn place(
        &self,
        table: u32,
        known: &[Row],
        rows: &[Row],
        row: &Row,
        new: &Row,
    ) -> Option<usize> {
        if self.is_of(table, &ALL_APPENDED) {
            return None;
        }
        let among = match self.is_of(table, &AMONG_THEMSELVES) {
            true => rows,
            false => known,
        };
        let wanted = match self.is_of(table, &UNRENUMBERED) {
            true => row,
            false => new,
        };
        let skipped = NOT_COMPARED.iter().find(|(_, _, fault)| self.is(*fault));
        let column = skipped.and_then(|&(of, column, _)| (of == table).then_some(column));
        let is_equal = |other: &Row| equal_but_for(other, wanted, column);
        match self.is(HighestEqualStream) {
            true => among.iter().rposition(is_equal),
            false => among.iter().position(is_equal),
        }
    }

    /// The answer to the questions of the result.
    fn answer(&self, image: &[u8]) -> Answer {
        match self.fault {
            Some(ResultNotAsked) => Answer::ACCEPTED,
            Some(ResultAskedTo10) => examine_rows(image).err().unwrap_or(Answer::ACCEPTED),
            Some(Result41NotAsked) if check(image).number == 41 => Answer::ACCEPTED,
            Some(ResultAskedBeforeItsOrder) => check(&write(&self.unordered())),
            _ => check(image),
        }
    }

    /// What a refusal before the result's questions leaves.
    fn refuse(&self, asked: Asked, joined: &mut [u8], length: &mut [u32; 2]) {
        let after = match self.fault {
            Some(WritesAfterFirstRefused) => Some(Asked::First),
            Some(WritesAfterSecondRefused) => Some(Asked::Second),
            Some(WritesAfter35) => Some(Asked::Ground),
            Some(WritesAfter36) => Some(Asked::Shared),
            Some(WritesAfter37 | ClearsAfter37) => Some(Asked::Room),
            _ => None,
        };
        if after == Some(asked) {
            match self.is(ClearsAfter37) {
                true => joined.fill(0),
                false => copy(self.images[0], joined),
            }
        }
        let [first, _] = self.images;
        match self.fault {
            Some(LengthNotWritten | LengthNotWrittenAfterRefusal) => {}
            Some(LengthOfFirstAfterRefusal) => length[0] = first.len() as u32,
            Some(LengthAfter37) if asked == Asked::Room => length[0] = self.image().len() as u32,
            Some(LengthAfter36) if asked == Asked::Shared => length[0] = self.image().len() as u32,
            _ => length[0] = 0,
        }
    }

    /// What a call leaves that is done.
    fn finish(&self, image: &[u8], answer: Answer, joined: &mut [u8], length: &mut [u32; 2]) {
        let refused = !answer.is_accepted();
        let needed = image.len();
        match self.fault {
            Some(RefusedResultNotWritten) if refused => {
                length[0] = 0;
                return;
            }
            Some(RefusedResultWrittenInPart) if refused => copy(&image[..needed / 2], joined),
            Some(LeavesLastWord) => copy(&image[..needed - WORD], joined),
            Some(FillsUp) => {
                joined.fill(0);
                copy(image, joined);
            }
            Some(TouchesNextByte) => copy(&[image, &[0]].concat(), joined),
            _ => copy(image, joined),
        }
        length[0] = match self.fault {
            Some(LengthNotWritten) => return,
            Some(LengthOf0AfterRefusedResult) if refused => 0,
            Some(LengthInWords) => needed / WORD,
            Some(LengthWithoutTrailer) => needed - TRAILER,
            Some(LengthOfBytesLent) => self.lent,
            _ => needed,
        } as u32;
        if self.is(LengthInTwoWords) {
            length[1] = 0;
        }
    }
}

/// Copies as many bytes as there is room for.
fn copy(from: &[u8], to: &mut [u8]) {
    let count = from.len().min(to.len());
    to[..count].copy_from_slice(&from[..count]);
}

fn equal_but_for(one: &Row, other: &Row, skipped: Option<usize>) -> bool {
    let mut words = one.iter().zip(other).enumerate();
    words.all(|(column, (one, other))| one == other || Some(column) == skipped)
}

/// Each row once, where it stands first.
fn without_equals(rows: &[Row]) -> Vec<Row> {
    let mut kept: Vec<Row> = Vec::new();
    for row in rows {
        if !kept.contains(row) {
            kept.push(row.clone());
        }
    }
    kept
}

const LIMIT_NOT_ASKED: [(u32, Fault); 6] = [
    (TASK, TaskLimitNotAsked),
    (PIECE, PieceLimitNotAsked),
    (STREAM, StreamLimitNotAsked),
    (FRAME, FrameLimitNotAsked),
    (BUFFER, BufferLimitNotAsked),
    (CHAIN, ChainLimitNotAsked),
];

const LIMIT_ONE_LESS: [(u32, Fault); 6] = [
    (TASK, TaskLimitOneLess),
    (PIECE, PieceLimitOneLess),
    (STREAM, StreamLimitOneLess),
    (FRAME, FrameLimitOneLess),
    (BUFFER, BufferLimitOneLess),
    (CHAIN, ChainLimitOneLess),
];

const OF_FIRST_ONCE: [(u32, Fault); 2] = [
    (STREAM, EqualStreamsOfFirstOnce),
    (CHAIN, EqualChainsOfFirstOnce),
];

const FOUND_ONCE: [(u32, Fault); 2] = [(STREAM, StreamsFoundOnce), (CHAIN, ChainsFoundOnce)];

const ALL_APPENDED: [(u32, Fault); 5] = [
    (PIECE, PiecesAllAppended),
    (STREAM, StreamsAllAppended),
    (FRAME, FramesAllAppended),
    (BUFFER, BuffersAllAppended),
    (CHAIN, ChainsAllAppended),
];

const AMONG_THEMSELVES: [(u32, Fault); 2] = [
    (STREAM, StreamsFoundAmongThemselves),
    (CHAIN, ChainsFoundAmongThemselves),
];

const UNRENUMBERED: [(u32, Fault); 5] = [
    (PIECE, PiecesLookedForUnrenumbered),
    (STREAM, StreamsLookedForUnrenumbered),
    (FRAME, FramesLookedForUnrenumbered),
    (BUFFER, BuffersLookedForUnrenumbered),
    (CHAIN, ChainsLookedForUnrenumbered),
];

const NOT_COMPARED: [(u32, usize, Fault); 12] = [
    (PIECE, 2, PieceStartNotCompared),
    (PIECE, 3, PieceLengthNotCompared),
    (STREAM, 2, StreamLatencyNotCompared),
    (STREAM, 3, StreamHopsNotCompared),
    (STREAM, 4, StreamPayloadNotCompared),
    (STREAM, 5, StreamQueueNotCompared),
    (FRAME, 3, FrameLinkNotCompared),
    (FRAME, 4, FrameStartNotCompared),
    (BUFFER, 0, BufferNumberNotCompared),
    (BUFFER, 2, BufferReaderNotCompared),
    (CHAIN, 1, ChainLastTaskNotCompared),
    (CHAIN, 2, ChainLimitNotCompared),
];
