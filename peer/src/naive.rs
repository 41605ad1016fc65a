//! A deliberately naive twin: the paper's sentences, one by one, over all
//! rows, pairs and ticks. It is there to be compared with, and shares no code
//! with the rest but the answer, the state and the boundary's trait. The list
//! of questions and the sizes of rows and tables stand in one place for both.

use crate::answer::Answer;
use crate::boundary::Boundary;
use crate::dispatch::State;
use crate::image::{LONGEST, ROW_BOUNDS, TABLES, TRAILER, WIDTHS};
use crate::questions::QUESTIONS;

/// A number that no sum or product of words comes near the ends of.
type Number = i128;

/// Words of a row. The tables count from 1.
fn words_of_a_row(table: usize) -> Number {
    WIDTHS[table - 1] as Number
}

const CORE: usize = 1;
const VCPU: usize = 2;
const TASK: usize = 3;
const WINDOW: usize = 4;
const PIECE: usize = 5;
const LINK: usize = 6;
const STREAM: usize = 7;
const FRAME: usize = 8;
const BUFFER: usize = 9;
const CHAIN: usize = 10;

/// Where a question is answered no.
enum No {
    Plain,
    Row(usize, Number),
}

/// All questions, in the order of their list.
pub fn check(image: &[u8]) -> Answer {
    ask(image, QUESTIONS)
}

/// Some questions, in this order. Those that they rely on must be answered yes,
/// or be asked before.
pub fn ask(image: &[u8], questions: &[u32]) -> Answer {
    let asked = Image { bytes: image };
    for &number in questions {
        match asked.question(number) {
            None => {}
            Some(No::Plain) => return Answer::plain(number),
            Some(No::Row(table, row)) => return Answer::at(number, table as u32, row as u32),
        }
    }
    Answer::ACCEPTED
}

/// The same, then 25 and 26, then the table.
pub fn build(image: &[u8], lane: u32, words: &mut [u32]) -> Answer {
    let answer = check(image);
    if !answer.is_accepted() {
        return answer;
    }
    let plan = Image { bytes: image };
    if Number::from(lane) >= plan.rows(CORE) + plan.rows(LINK) {
        return Answer::plain(25);
    }
    let table = plan.table(Number::from(lane));
    if words.len() < table.len() {
        return Answer::plain(26);
    }
    for (index, word) in table.iter().enumerate() {
        words[index] = *word as u32;
    }
    Answer::ACCEPTED
}

/// The check, then 5 of the frame that is named, then 26, then both arrivals.
pub fn arrivals(image: &[u8], frame: u32, ticks: &mut [u32]) -> Answer {
    let answer = check(image);
    if !answer.is_accepted() {
        return answer;
    }
    let plan = Image { bytes: image };
    if Number::from(frame) >= plan.rows(FRAME) {
        return Answer::at(5, FRAME as u32, frame);
    }
    if ticks.len() < 2 {
        return Answer::plain(26);
    }
    [ticks[0], ticks[1]] = arrivals_unasked(image, frame);
    Answer::ACCEPTED
}

/// The check, then 25 of the link that is named, then 42, then its gate list.
pub fn gates(image: &[u8], link: u32, words: &mut [u32]) -> Answer {
    let answer = check(image);
    if !answer.is_accepted() {
        return answer;
    }
    let plan = Image { bytes: image };
    if Number::from(link) >= plan.rows(LINK) {
        return Answer::plain(25);
    }
    let list = plan.gates(Number::from(link));
    if words.len() < 1 + 2 * list.len() {
        return Answer::plain(42);
    }
    words[0] = list.len() as u32;
    for (index, (octet, interval)) in list.iter().enumerate() {
        words[1 + 2 * index] = *octet as u32;
        words[2 + 2 * index] = *interval as u32;
    }
    Answer::ACCEPTED
}

/// Earliest and latest arrival of a frame that there is, without a question
/// asked.
///
/// The image must be one that questions 1 to 9 accept.
pub fn arrivals_unasked(image: &[u8], frame: u32) -> [u32; 2] {
    let plan = Image { bytes: image };
    let frame = Number::from(frame);
    let link = plan.frame_link(frame);
    let earliest = plan.frame_end(frame) + plan.lowest_delay(link);
    let latest = plan.frame_end(frame) + plan.delay(link);
    [earliest as u32, latest as u32]
}

/// The table of a lane that there is, without a question asked. Where rows
/// overlap, pieces are shown before windows, and lower rows before higher.
///
/// The image must be one that questions 1 to 9 accept.
pub fn table_unasked(image: &[u8], lane: u32) -> Vec<u32> {
    let plan = Image { bytes: image };
    let table = plan.table(Number::from(lane));
    table.iter().map(|word| *word as u32).collect()
}

struct Image<'a> {
    bytes: &'a [u8],
}

/// Reading the image.
impl Image<'_> {
    fn length(&self) -> Number {
        self.bytes.len() as Number
    }

    fn word(&self, byte: Number) -> Number {
        let byte = |index: Number| Number::from(self.bytes[(byte + index) as usize]);
        byte(0) + 256 * byte(1) + 256 * 256 * byte(2) + 256 * 256 * 256 * byte(3)
    }

    fn last_word(&self) -> Number {
        self.word(self.length() - 4)
    }

    fn trailer_begin(&self) -> Number {
        self.length() - TRAILER as Number
    }

    fn trailer(&self, index: Number) -> Number {
        self.word(self.trailer_begin() + 4 * index)
    }

    fn cycle(&self) -> Number {
        self.trailer(0)
    }

    fn precision(&self) -> Number {
        self.trailer(1)
    }

    fn offset(&self, table: usize) -> Number {
        self.trailer(2 * table as Number)
    }

    fn rows(&self, table: usize) -> Number {
        self.trailer(2 * table as Number + 1)
    }

    fn end(&self, table: usize) -> Number {
        self.offset(table) + 4 * words_of_a_row(table) * self.rows(table)
    }

    fn cell(&self, table: usize, row: Number, column: Number) -> Number {
        self.word(self.offset(table) + 4 * (words_of_a_row(table) * row + column))
    }
}

/// Names for the columns.
impl Image<'_> {
    fn node(&self, core: Number) -> Number {
        self.cell(CORE, core, 0)
    }
    fn d(&self, core: Number) -> Number {
        self.cell(CORE, core, 1)
    }
    fn v(&self, core: Number) -> Number {
        self.cell(CORE, core, 2)
    }
    fn vcpu_core(&self, vcpu: Number) -> Number {
        self.cell(VCPU, vcpu, 0)
    }
    fn task_vcpu(&self, task: Number) -> Number {
        self.cell(TASK, task, 0)
    }
    fn task_core(&self, task: Number) -> Number {
        self.vcpu_core(self.task_vcpu(task))
    }
    fn task_node(&self, task: Number) -> Number {
        self.node(self.task_core(task))
    }
    fn period(&self, task: Number) -> Number {
        self.cell(TASK, task, 2)
    }
    fn budget(&self, task: Number) -> Number {
        self.cell(TASK, task, 3)
    }
    fn deadline(&self, task: Number) -> Number {
        self.cell(TASK, task, 4)
    }
    fn window_core(&self, window: Number) -> Number {
        self.vcpu_core(self.window_vcpu(window))
    }
    fn window_start(&self, window: Number) -> Number {
        self.cell(WINDOW, window, 1)
    }
    fn window_length(&self, window: Number) -> Number {
        self.cell(WINDOW, window, 2)
    }
    fn window_vcpu(&self, window: Number) -> Number {
        self.cell(WINDOW, window, 0)
    }
    fn window_end(&self, window: Number) -> Number {
        self.window_start(window) + self.window_length(window)
    }
    fn piece_task(&self, piece: Number) -> Number {
        self.cell(PIECE, piece, 0)
    }
    fn piece_job(&self, piece: Number) -> Number {
        self.cell(PIECE, piece, 1)
    }
    fn piece_core(&self, piece: Number) -> Number {
        self.task_core(self.piece_task(piece))
    }
    fn piece_start(&self, piece: Number) -> Number {
        self.cell(PIECE, piece, 2)
    }
    fn piece_length(&self, piece: Number) -> Number {
        self.cell(PIECE, piece, 3)
    }
    fn piece_end(&self, piece: Number) -> Number {
        self.piece_start(piece) + self.piece_length(piece)
    }
    fn link_from(&self, link: Number) -> Number {
        self.cell(LINK, link, 0)
    }
    fn link_to(&self, link: Number) -> Number {
        self.cell(LINK, link, 1)
    }
    fn delay(&self, link: Number) -> Number {
        self.cell(LINK, link, 2)
    }
    fn rate(&self, link: Number) -> Number {
        self.cell(LINK, link, 3)
    }
    fn lowest_delay(&self, link: Number) -> Number {
        self.cell(LINK, link, 4)
    }
    fn sender(&self, stream: Number) -> Number {
        self.cell(STREAM, stream, 0)
    }
    fn receiver(&self, stream: Number) -> Number {
        self.cell(STREAM, stream, 1)
    }
    fn latency(&self, stream: Number) -> Number {
        self.cell(STREAM, stream, 2)
    }
    fn hops(&self, stream: Number) -> Number {
        self.cell(STREAM, stream, 3)
    }
    fn payload(&self, stream: Number) -> Number {
        self.cell(STREAM, stream, 4)
    }
    fn queue(&self, stream: Number) -> Number {
        self.cell(STREAM, stream, 5)
    }
    fn frame_stream(&self, frame: Number) -> Number {
        self.cell(FRAME, frame, 0)
    }
    fn frame_job(&self, frame: Number) -> Number {
        self.cell(FRAME, frame, 1)
    }
    fn frame_hop(&self, frame: Number) -> Number {
        self.cell(FRAME, frame, 2)
    }
    fn frame_link(&self, frame: Number) -> Number {
        self.cell(FRAME, frame, 3)
    }
    fn frame_start(&self, frame: Number) -> Number {
        self.cell(FRAME, frame, 4)
    }
    fn frame_end(&self, frame: Number) -> Number {
        self.frame_start(frame) + self.frame_length(frame)
    }
    fn buffer_number(&self, buffer: Number) -> Number {
        self.cell(BUFFER, buffer, 0)
    }
    fn writer(&self, buffer: Number) -> Number {
        self.cell(BUFFER, buffer, 1)
    }
    fn reader(&self, buffer: Number) -> Number {
        self.cell(BUFFER, buffer, 2)
    }
    fn first_task(&self, chain: Number) -> Number {
        self.cell(CHAIN, chain, 0)
    }
    fn last_task(&self, chain: Number) -> Number {
        self.cell(CHAIN, chain, 1)
    }
    fn limit(&self, chain: Number) -> Number {
        self.cell(CHAIN, chain, 2)
    }
}

/// What the paper's words before the questions say.
impl Image<'_> {
    fn jobs(&self, task: Number) -> Number {
        self.cycle() / self.period(task)
    }

    /// Whether the window begins at the tick where another of the same VCPU
    /// ends.
    fn continues(&self, window: Number) -> bool {
        (0..self.rows(WINDOW)).any(|another| {
            another != window
                && self.window_vcpu(another) == self.window_vcpu(window)
                && self.window_end(another) == self.window_start(window)
        })
    }

    /// The ticks of a window that its VCPU switch takes.
    fn charge(&self, window: Number) -> Number {
        if self.window_start(window) == 0 {
            return self.v(self.window_core(window));
        }
        if self.continues(window) {
            return 0;
        }
        self.v(self.window_core(window))
    }

    /// 8 × (payload + 42) / rate ticks, rounded up, on the frame's own link.
    fn frame_length(&self, frame: Number) -> Number {
        let bits = 8 * (self.payload(self.frame_stream(frame)) + 42);
        let rate = self.rate(self.frame_link(frame));
        if bits % rate == 0 {
            bits / rate
        } else {
            bits / rate + 1
        }
    }

    fn pieces_of(&self, task: Number, job: Number) -> Vec<Number> {
        let of_job =
            |piece: &Number| self.piece_task(*piece) == task && self.piece_job(*piece) == job;
        (0..self.rows(PIECE)).filter(of_job).collect()
    }

    fn first_start(&self, task: Number, job: Number) -> Number {
        let pieces = self.pieces_of(task, job);
        let starts = pieces.iter().map(|piece| self.piece_start(*piece));
        starts.min().expect("13 is answered yes")
    }

    fn last_end(&self, task: Number, job: Number) -> Number {
        let pieces = self.pieces_of(task, job);
        let ends = pieces.iter().map(|piece| self.piece_end(*piece));
        ends.max().expect("13 is answered yes")
    }

    fn frames_of(&self, stream: Number, job: Number, hop: Number) -> Vec<Number> {
        let of_hop = |frame: &Number| {
            self.frame_stream(*frame) == stream
                && self.frame_job(*frame) == job
                && self.frame_hop(*frame) == hop
        };
        (0..self.rows(FRAME)).filter(of_hop).collect()
    }

    /// The one frame of a stream, job and hop, after question 16.
    fn frame_of(&self, stream: Number, job: Number, hop: Number) -> Number {
        self.frames_of(stream, job, hop)[0]
    }

    fn arrival(&self, frame: Number) -> Number {
        self.frame_end(frame) + self.delay(self.frame_link(frame)) + self.precision()
    }
}

fn overlap(a: Number, b: Number, c: Number, d: Number) -> bool {
    a < d && c < b
}

/// The questions.
impl Image<'_> {
    fn question(&self, number: u32) -> Option<No> {
        match number {
            1 => plain((TRAILER..=LONGEST).contains(&self.bytes.len())),
            2 => plain(self.last_word() == self.trailer_begin()),
            3 => plain(self.layout_is_right()),
            4 => plain((1..=1_000_000).contains(&self.cycle()) && self.precision() <= 10_000),
            5 => self.each_row(|table, row| self.row_numbers_exist(table, row)),
            6 => self.each_row(|table, row| self.values_in_range(table, row)),
            7 => self.each(WINDOW, |window| self.window_fits(window)),
            8 => self.no_pair(WINDOW, |low, high| self.windows_clash(low, high)),
            9 => self.each(TASK, |task| self.mask_allows(task)),
            10 => self.each(PIECE, |piece| self.piece_in_job(piece)),
            11 => self.each(PIECE, |piece| self.piece_in_window(piece)),
            12 => self.no_pair(PIECE, |low, high| self.pieces_clash(low, high)),
            13 => self.each(TASK, |task| self.pieces_sum(task)),
            14 => self.each(STREAM, |stream| self.ends_match(stream)),
            15 => self.each(FRAME, |frame| self.frame_in_job(frame)),
            16 => self.each(STREAM, |stream| self.one_frame_each(stream)),
            17 => self.each(STREAM, |stream| self.routes_lead(stream)),
            18 => self.each(FRAME, |frame| self.follows_hop(frame)),
            19 => self.no_pair(FRAME, |low, high| self.frames_clash(low, high)),
            20 => self.each(STREAM, |stream| self.message_in_order(stream)),
            21 => self.each(STREAM, |stream| self.message_in_time(stream)),
            22 => self.each(BUFFER, |buffer| self.sides_match(buffer)),
            23 => self.each(BUFFER, |buffer| self.read_after_write(buffer)),
            24 => self.no_pair(BUFFER, |low, high| self.holds_clash(low, high)),
            29 => self.each(CHAIN, |chain| self.tasks_exist_and_differ(chain)),
            30 => self.each(CHAIN, |chain| self.path_joins(chain)),
            31 => self.each(CHAIN, |chain| self.chain_in_time(chain)),
            32 => [(WINDOW, 1), (PIECE, 2), (FRAME, 4)]
                .into_iter()
                .find_map(|(table, start)| {
                    self.each(table, |row| row == 0 || self.rises(table, start, row))
                }),
            40 => self.each(STREAM, |stream| (0..=7).contains(&self.queue(stream))),
            41 => self.no_pair(FRAME, |low, high| self.stays_clash(low, high)),
            _ => unreachable!("question {number} is listed and never asked"),
        }
    }

    /// All rows of all tables, lowest table first, then lowest row.
    fn each_row(&self, yes: impl Fn(usize, Number) -> bool) -> Option<No> {
        (1..=TABLES).find_map(|table| self.each(table, |row| yes(table, row)))
    }

    fn each(&self, table: usize, yes: impl Fn(Number) -> bool) -> Option<No> {
        let no = (0..self.rows(table)).find(|row| !yes(*row));
        no.map(|row| No::Row(table, row))
    }

    /// The lowest row that clashes with a lower one.
    fn no_pair(&self, table: usize, clash: impl Fn(Number, Number) -> bool) -> Option<No> {
        self.each(table, |high| !(0..high).any(|low| clash(low, high)))
    }

    fn layout_is_right(&self) -> bool {
        let bounds = |table: usize| {
            let (least, most) = ROW_BOUNDS[table - 1];
            Number::from(least) <= self.rows(table) && self.rows(table) <= Number::from(most)
        };
        (1..=TABLES).all(bounds)
            && self.offset(1) == 0
            && (2..=TABLES).all(|table| self.offset(table) == self.end(table - 1))
            && self.end(TABLES) == self.last_word()
    }

    fn row_numbers_exist(&self, table: usize, row: Number) -> bool {
        let names = |column: Number, named: usize| self.cell(table, row, column) < self.rows(named);
        match table {
            VCPU => names(0, CORE),
            TASK => names(0, VCPU),
            WINDOW => names(0, VCPU),
            PIECE => names(0, TASK),
            STREAM => names(0, TASK) && names(1, TASK),
            FRAME => names(0, STREAM) && names(3, LINK),
            BUFFER => names(1, TASK) && names(2, TASK),
            _ => true,
        }
    }

    fn values_in_range(&self, table: usize, row: Number) -> bool {
        match table {
            CORE => self.node(row) <= 15 && self.d(row) <= 1_000 && self.v(row) <= 1_000,
            TASK => {
                1 <= self.period(row)
                    && self.cycle() % self.period(row) == 0
                    && 1 <= self.budget(row)
                    && self.budget(row) <= self.deadline(row)
                    && self.deadline(row) <= self.period(row)
            }
            LINK => {
                self.link_from(row) <= 15
                    && self.link_to(row) <= 15
                    && self.link_from(row) != self.link_to(row)
                    && self.delay(row) <= 1_000_000
                    && (1..=10_000).contains(&self.rate(row))
                    && self.lowest_delay(row) <= self.delay(row)
            }
            STREAM => {
                self.sender(row) != self.receiver(row)
                    && self.latency(row) <= 1_000_000
                    && (1..=8).contains(&self.hops(row))
                    && (46..=1_500).contains(&self.payload(row))
            }
            BUFFER => self.buffer_number(row) <= 63 && self.writer(row) != self.reader(row),
            _ => true,
        }
    }

    /// Whether a row is not below the one before it: the start decides, else
    /// the first word, else the second, and so on.
    fn rises(&self, table: usize, start: Number, row: Number) -> bool {
        let mut columns = vec![start];
        columns.extend(0..words_of_a_row(table));
        for column in columns {
            let before = self.cell(table, row - 1, column);
            let own = self.cell(table, row, column);
            if own > before {
                return true;
            }
            if own < before {
                return false;
            }
        }
        true
    }

    fn window_fits(&self, window: Number) -> bool {
        self.window_length(window) > self.charge(window) && self.window_end(window) <= self.cycle()
    }

    fn windows_clash(&self, low: Number, high: Number) -> bool {
        self.window_core(low) == self.window_core(high)
            && overlap(
                self.window_start(low),
                self.window_end(low),
                self.window_start(high),
                self.window_end(high),
            )
    }

    fn mask_allows(&self, task: Number) -> bool {
        let bit = (0..self.task_core(task)).fold(1, |bit, _| 2 * bit);
        self.cell(TASK, task, 1) / bit % 2 == 1
    }

    fn piece_in_job(&self, piece: Number) -> bool {
        let (task, job) = (self.piece_task(piece), self.piece_job(piece));
        let release = job * self.period(task);
        let due = release + self.deadline(task);
        job < self.jobs(task)
            && self.piece_length(piece) > self.d(self.piece_core(piece))
            && release <= self.piece_start(piece)
            && self.piece_end(piece) <= due
    }

    fn piece_in_window(&self, piece: Number) -> bool {
        let vcpu = self.task_vcpu(self.piece_task(piece));
        (0..self.rows(WINDOW)).any(|window| {
            self.window_vcpu(window) == vcpu
                && self.window_start(window) <= self.piece_start(piece)
                && self.piece_end(piece) <= self.window_end(window)
                && self.window_start(window) + self.charge(window) <= self.piece_start(piece)
        })
    }

    fn pieces_clash(&self, low: Number, high: Number) -> bool {
        self.piece_core(low) == self.piece_core(high)
            && overlap(
                self.piece_start(low),
                self.piece_end(low),
                self.piece_start(high),
                self.piece_end(high),
            )
    }

    fn pieces_sum(&self, task: Number) -> bool {
        (0..self.jobs(task)).all(|job| {
            let pieces = self.pieces_of(task, job);
            let lengths = pieces.iter().map(|piece| self.piece_length(*piece));
            let count = pieces.len() as Number;
            lengths.sum::<Number>() == self.budget(task) + count * self.d(self.task_core(task))
        })
    }

    fn ends_match(&self, stream: Number) -> bool {
        let (sender, receiver) = (self.sender(stream), self.receiver(stream));
        self.period(sender) == self.period(receiver)
            && self.task_node(sender) != self.task_node(receiver)
    }

    fn frame_in_job(&self, frame: Number) -> bool {
        let (stream, job) = (self.frame_stream(frame), self.frame_job(frame));
        let period = self.period(self.sender(stream));
        job < self.jobs(self.sender(stream))
            && self.frame_hop(frame) < self.hops(stream)
            && job * period <= self.frame_start(frame)
            && self.frame_end(frame) <= (job + 1) * period
    }

    fn one_frame_each(&self, stream: Number) -> bool {
        (0..self.jobs(self.sender(stream))).all(|job| {
            (0..self.hops(stream)).all(|hop| self.frames_of(stream, job, hop).len() == 1)
        })
    }

    fn routes_lead(&self, stream: Number) -> bool {
        let from = self.task_node(self.sender(stream));
        (0..self.jobs(self.sender(stream))).all(|job| self.walk_leads(stream, job, 0, from))
    }

    /// Whether the hops that remain lead from a node to the receiver's.
    fn walk_leads(&self, stream: Number, job: Number, hop: Number, node: Number) -> bool {
        if hop == self.hops(stream) {
            return node == self.task_node(self.receiver(stream));
        }
        let link = self.frame_link(self.frame_of(stream, job, hop));
        self.link_from(link) == node && self.walk_leads(stream, job, hop + 1, self.link_to(link))
    }

    fn follows_hop(&self, frame: Number) -> bool {
        let (stream, job) = (self.frame_stream(frame), self.frame_job(frame));
        let hop = self.frame_hop(frame);
        hop == 0 || {
            let previous = self.frame_of(stream, job, hop - 1);
            self.frame_start(frame) >= self.arrival(previous)
        }
    }

    fn frames_clash(&self, low: Number, high: Number) -> bool {
        self.frame_link(low) == self.frame_link(high)
            && overlap(
                self.frame_start(low),
                self.frame_end(low),
                self.frame_start(high),
                self.frame_end(high),
            )
    }

    fn message_in_order(&self, stream: Number) -> bool {
        let (sender, receiver) = (self.sender(stream), self.receiver(stream));
        (0..self.jobs(sender)).all(|job| {
            let first_hop = self.frame_of(stream, job, 0);
            let last_hop = self.frame_of(stream, job, self.hops(stream) - 1);
            self.frame_start(first_hop) >= self.last_end(sender, job)
                && self.first_start(receiver, job) >= self.arrival(last_hop)
        })
    }

    fn message_in_time(&self, stream: Number) -> bool {
        let (sender, receiver) = (self.sender(stream), self.receiver(stream));
        let bound = if self.latency(stream) == 0 {
            self.deadline(receiver)
        } else {
            self.latency(stream)
        };
        (0..self.jobs(sender)).all(|job| {
            let taken = self.last_end(receiver, job) - self.first_start(sender, job);
            taken + self.precision() <= bound
        })
    }

    /// Where a frame's stay on its link begins.
    fn stay_start(&self, frame: Number) -> Number {
        let (stream, job) = (self.frame_stream(frame), self.frame_job(frame));
        let hop = self.frame_hop(frame);
        if hop == 0 {
            return self.last_end(self.sender(stream), job);
        }
        let previous = self.frame_of(stream, job, hop - 1);
        let lowest = self.lowest_delay(self.frame_link(previous));
        let from = self.frame_start(previous) + lowest - self.precision();
        if from < 0 {
            0
        } else {
            from
        }
    }

    fn stays_clash(&self, low: Number, high: Number) -> bool {
        let queue = |frame: Number| self.queue(self.frame_stream(frame));
        self.frame_link(low) == self.frame_link(high)
            && queue(low) == queue(high)
            && overlap(
                self.stay_start(low),
                self.frame_end(low),
                self.stay_start(high),
                self.frame_end(high),
            )
    }

    fn sides_match(&self, buffer: Number) -> bool {
        let (writer, reader) = (self.writer(buffer), self.reader(buffer));
        self.period(writer) == self.period(reader)
            && self.task_node(writer) == self.task_node(reader)
    }

    fn read_after_write(&self, buffer: Number) -> bool {
        let (writer, reader) = (self.writer(buffer), self.reader(buffer));
        (0..self.jobs(writer))
            .all(|job| self.first_start(reader, job) >= self.last_end(writer, job))
    }

    fn holds_clash(&self, low: Number, high: Number) -> bool {
        let one_buffer = self.buffer_number(low) == self.buffer_number(high)
            && self.task_node(self.writer(low)) == self.task_node(self.writer(high));
        one_buffer
            && self.holds(low).iter().any(|&(a, b)| {
                let holds = self.holds(high);
                holds.iter().any(|&(c, d)| overlap(a, b, c, d))
            })
    }

    fn holds(&self, buffer: Number) -> Vec<(Number, Number)> {
        let (writer, reader) = (self.writer(buffer), self.reader(buffer));
        let hold = |job| (self.first_start(writer, job), self.last_end(reader, job));
        (0..self.jobs(writer)).map(hold).collect()
    }

    fn tasks_exist_and_differ(&self, chain: Number) -> bool {
        let (first, last) = (self.first_task(chain), self.last_task(chain));
        first < self.rows(TASK) && last < self.rows(TASK) && first != last
    }

    /// Round by round: the messages that the tasks reached by then send, and
    /// the tasks that read these. No path takes more rounds than there are
    /// tasks.
    fn path_joins(&self, chain: Number) -> bool {
        let mut reached = vec![false; self.rows(TASK) as usize];
        reached[self.first_task(chain) as usize] = true;
        for _ in 0..self.rows(TASK) {
            let before = reached.clone();
            let sent = |task: Number| before[task as usize];
            for stream in (0..self.rows(STREAM)).filter(|stream| sent(self.sender(*stream))) {
                reached[self.receiver(stream) as usize] = true;
            }
            for buffer in (0..self.rows(BUFFER)).filter(|buffer| sent(self.writer(*buffer))) {
                reached[self.reader(buffer) as usize] = true;
            }
        }
        reached[self.last_task(chain) as usize]
    }

    fn chain_in_time(&self, chain: Number) -> bool {
        let (first, last) = (self.first_task(chain), self.last_task(chain));
        let limit = if self.limit(chain) == 0 {
            self.deadline(last)
        } else {
            self.limit(chain)
        };
        (0..self.jobs(first)).all(|job| {
            let taken = self.last_end(last, job) - self.first_start(first, job);
            taken + self.precision() <= limit
        })
    }
}

fn plain(yes: bool) -> Option<No> {
    if yes {
        None
    } else {
        Some(No::Plain)
    }
}

/// The tables, tick by tick.
impl Image<'_> {
    fn table(&self, lane: Number) -> Vec<Number> {
        let mut entries: Vec<[Number; 3]> = Vec::new();
        for tick in 0..self.cycle() {
            let (kind, row) = self.shown(lane, tick);
            let same = |last: &[Number; 3]| last[1] == kind && last[2] == row;
            if !entries.last().is_some_and(same) {
                entries.push([tick, kind, row]);
            }
        }
        let mut table = vec![self.cycle(), entries.len() as Number];
        table.extend(entries.iter().flatten());
        table
    }

    /// What a lane shows at a tick: kind and row.
    fn shown(&self, lane: Number, tick: Number) -> (Number, Number) {
        if lane < self.rows(CORE) {
            self.shown_on_core(lane, tick)
        } else {
            self.shown_on_link(lane - self.rows(CORE), tick)
        }
    }

    fn shown_on_core(&self, core: Number, tick: Number) -> (Number, Number) {
        for piece in 0..self.rows(PIECE) {
            let start = self.piece_start(piece);
            if self.piece_core(piece) == core && start <= tick && tick < self.piece_end(piece) {
                let kind = if tick < start + self.d(core) { 3 } else { 4 };
                return (kind, piece);
            }
        }
        for window in 0..self.rows(WINDOW) {
            let start = self.window_start(window);
            if self.window_core(window) == core && start <= tick && tick < self.window_end(window) {
                let kind = if tick < start + self.charge(window) {
                    1
                } else {
                    2
                };
                return (kind, window);
            }
        }
        (0, 0)
    }

    fn shown_on_link(&self, link: Number, tick: Number) -> (Number, Number) {
        let sends = |frame: &Number| {
            self.frame_link(*frame) == link
                && self.frame_start(*frame) <= tick
                && tick < self.frame_end(*frame)
        };
        match (0..self.rows(FRAME)).find(sends) {
            Some(frame) => (5, frame),
            None => (0, 0),
        }
    }
}

/// The gates, tick by tick.
impl Image<'_> {
    fn gates(&self, link: Number) -> Vec<(Number, Number)> {
        let mut list: Vec<(Number, Number)> = Vec::new();
        for tick in 0..self.cycle() {
            let octet = self.octet(link, tick);
            match list.pop() {
                Some((before, interval)) if before == octet => list.push((octet, interval + 1)),
                other => {
                    list.extend(other);
                    list.push((octet, 1));
                }
            }
        }
        list
    }

    /// Bit q is 1 if the link's lane shows a frame of a stream of queue q.
    fn octet(&self, link: Number, tick: Number) -> Number {
        let (kind, frame) = self.shown(self.rows(CORE) + link, tick);
        if kind != 5 {
            return 0;
        }
        let queue = self.queue(self.frame_stream(frame));
        (0..queue).fold(1, |bit, _| 2 * bit)
    }
}

/// Steps one lane, word by word.
pub fn step(words: &[u32], state: &mut State) -> u32 {
    let refusal = refused(words, state);
    if refusal == 0 {
        *state = moved(words, state);
    }
    refusal
}

/// Steps all lanes, or none.
pub fn step_all(words: &[u32], states: &mut [State]) -> u32 {
    for state in states.iter() {
        let refusal = refused(words, state);
        if refusal != 0 {
            return refusal;
        }
    }
    for state in states.iter_mut() {
        *state = moved(words, state);
    }
    0
}

/// A word of the state's table.
fn table_word(words: &[u32], state: &State, index: Number) -> Number {
    Number::from(words[(Number::from(state.first) + index) as usize])
}

fn first_tick(words: &[u32], state: &State, entry: Number) -> Number {
    table_word(words, state, 2 + 3 * entry)
}

fn refused(words: &[u32], state: &State) -> u32 {
    let room = words.len() as Number - Number::from(state.first);
    if room < 2 || room < 2 + 3 * table_word(words, state, 1) {
        return 27;
    }
    let (tick, entry) = (Number::from(state.tick), Number::from(state.entry));
    let (cycle, count) = (table_word(words, state, 0), table_word(words, state, 1));
    if entry >= count || tick >= cycle || first_tick(words, state, entry) > tick {
        return 27;
    }
    if entry + 1 < count && first_tick(words, state, entry + 1) <= tick {
        return 27;
    }
    if state.cycle == u64::MAX && tick == cycle - 1 {
        return 28;
    }
    0
}

fn moved(words: &[u32], state: &State) -> State {
    let (tick, entry) = (Number::from(state.tick), Number::from(state.entry));
    let (cycle, count) = (table_word(words, state, 0), table_word(words, state, 1));
    let mut next = *state;
    next.kind = table_word(words, state, 2 + 3 * entry + 1) as u32;
    next.row = table_word(words, state, 2 + 3 * entry + 2) as u32;
    if tick == cycle - 1 {
        next.cycle = state.cycle + 1;
        next.tick = 0;
        next.entry = 0;
        return next;
    }
    next.tick = (tick + 1) as u32;
    if entry + 1 < count && first_tick(words, state, entry + 1) <= tick + 1 {
        next.entry = (entry + 1) as u32;
    }
    next
}

/// The naive twin at the byte boundary.
pub struct Naive;

impl Boundary for Naive {
    fn check(&self, image: &[u8]) -> u64 {
        check(image).code()
    }

    fn build(&self, image: &[u8], lane: u32, words: &mut [u8]) -> u64 {
        let mut row: Vec<u32> = (0..words.len() / 4).map(|i| word(words, i)).collect();
        let answer = build(image, lane, &mut row);
        for (index, word) in row.iter().enumerate() {
            set_word(words, index, *word);
        }
        answer.code()
    }

    fn start(&self, cycle: u64, first: u32, state: &mut [u8]) -> u32 {
        if state.len() != 28 {
            return 27;
        }
        let fields = [cycle as u32, (cycle >> 32) as u32, 0, 0, first, 0, 0];
        for (index, field) in fields.iter().enumerate() {
            set_word(state, index, *field);
        }
        0
    }

    fn step(&self, words: &[u8], state: &mut [u8]) -> u32 {
        if state.len() != 28 {
            return 27;
        }
        self.step_all(words, state)
    }

    fn step_all(&self, words: &[u8], states: &mut [u8]) -> u32 {
        let row: Vec<u32> = (0..words.len() / 4).map(|i| word(words, i)).collect();
        let records = states.len() / 28;
        let mut moved_states = Vec::new();
        for record in 0..records {
            let mut state = record_at(states, record);
            let refusal = step(&row, &mut state);
            if refusal != 0 {
                return refusal;
            }
            moved_states.push(state);
        }
        if !states.len().is_multiple_of(28) {
            return 27;
        }
        for (record, state) in moved_states.iter().enumerate() {
            set_record(states, record, state);
        }
        0
    }

    fn arrivals(&self, image: &[u8], frame: u32, ticks: &mut [u8]) -> u64 {
        let mut row: Vec<u32> = (0..ticks.len() / 4).map(|i| word(ticks, i)).collect();
        let answer = arrivals(image, frame, &mut row);
        for (index, word) in row.iter().enumerate() {
            set_word(ticks, index, *word);
        }
        answer.code()
    }

    fn gates(&self, image: &[u8], link: u32, words: &mut [u8]) -> u64 {
        let mut row: Vec<u32> = (0..words.len() / 4).map(|i| word(words, i)).collect();
        let answer = gates(image, link, &mut row);
        for (index, word) in row.iter().enumerate() {
            set_word(words, index, *word);
        }
        answer.code()
    }
}

fn word(bytes: &[u8], index: usize) -> u32 {
    (0..4).fold(0, |word, byte| {
        word + (u32::from(bytes[4 * index + byte]) << (8 * byte))
    })
}

fn set_word(bytes: &mut [u8], index: usize, word: u32) {
    for byte in 0..4 {
        bytes[4 * index + byte] = (word >> (8 * byte)) as u8;
    }
}

fn record_at(states: &[u8], record: usize) -> State {
    let field = |index: usize| word(states, 7 * record + index);
    State {
        cycle: u64::from(field(0)) + (u64::from(field(1)) << 32),
        tick: field(2),
        entry: field(3),
        first: field(4),
        kind: field(5),
        row: field(6),
    }
}

fn set_record(states: &mut [u8], record: usize, state: &State) {
    let mut set = |index: usize, value: u32| set_word(states, 7 * record + index, value);
    set(0, state.cycle as u32);
    set(1, (state.cycle >> 32) as u32);
    set(2, state.tick);
    set(3, state.entry);
    set(4, state.first);
    set(5, state.kind);
    set(6, state.row);
}
