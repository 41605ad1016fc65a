//! Question 32, case by case, and wrong readings of it: the mutants show each
//! of them.

mod cases;
#[macro_use]
mod ways;

use std::collections::BTreeMap;

use cases::{case_a, case_b, case_chain, two_hops, two_rows};
use peer::generate::{full, rich, small_rich, tiny};
use peer::image::{row_of, rows_of, Frame, Piece, Window};
use peer::mutate::{aim, mutant};
use peer::{asked_before, build, check, line, naive, report, Answer, Plan, Rng, QUESTIONS};

#[track_caller]
fn expect(plan: &Plan, number: u32, table: u32, row: u32) {
    let (image, answer) = (plan.encode(), Answer::at(number, table, row));
    assert_eq!(check(&image), answer);
    assert_eq!(naive::check(&image), answer);
    if !answer.is_accepted() {
        assert_eq!(report(&image), format!("{answer}\n{}\n", line(answer)));
        let mut words = [7; 20];
        assert_eq!(build(&image, 99, &mut words), answer);
        assert_eq!(words, [7; 20]);
    }
}

/// Four cores and VCPUs, tasks, links and streams to name, and no rows in the
/// three tables. What is named here is refused by a later question, unless it
/// is refused by 32.
fn bare() -> Plan {
    Plan {
        cycle: 100,
        cores: rows_of(&[[0, 0, 0], [1, 0, 0], [2, 0, 0], [3, 0, 0]]),
        vcpus: rows_of(&[[0], [1], [2], [3]]),
        tasks: (0..4).map(|vcpu| row_of([vcpu, 15, 100, 1, 100])).collect(),
        links: rows_of(&[[0, 1, 0, 352]; 4]),
        streams: rows_of(&[[0, 1, 0, 1, 46]; 4]),
        ..Plan::default()
    }
}

/// Whether these windows pass 32, else the row that is named.
#[track_caller]
fn windows(rows: &[[u32; 3]], named: Option<u32>) {
    let mut plan = bare();
    plan.windows = rows_of(rows);
    asked(&plan, 4, named);
}

#[track_caller]
fn pieces(rows: &[[u32; 4]], named: Option<u32>) {
    let mut plan = bare();
    plan.pieces = rows_of(rows);
    asked(&plan, 5, named);
}

#[track_caller]
fn frames(rows: &[[u32; 5]], named: Option<u32>) {
    let mut plan = bare();
    plan.frames = rows_of(rows);
    asked(&plan, 8, named);
}

#[track_caller]
fn asked(plan: &Plan, table: u32, named: Option<u32>) {
    let answer = check(&plan.encode());
    assert_eq!(answer, naive::check(&plan.encode()));
    match named {
        Some(row) => assert_eq!(answer, Answer::at(32, table, row)),
        None => assert!(
            !asked_before(answer.number, 6) && answer.number != 6,
            "{answer}"
        ),
    }
}

#[test]
fn starts_rise() {
    windows(&[], None);
    windows(&[[3, 99, 1]], None);
    windows(&[[3, 0, 9], [2, 1, 8], [1, 1_000, 7]], None);
    windows(&[[0, 1, 1], [1, 0, 2]], Some(1));
    windows(&[[0, 5, 1], [1, 6, 2], [2, 5, 3]], Some(2));
    pieces(&[[3, 9, 0, 9], [2, 8, 1, 8], [1, 7, 2, 7]], None);
    pieces(&[[0, 0, 1, 1], [1, 1, 0, 2]], Some(1));
    frames(&[[3, 9, 9, 3, 0], [2, 8, 8, 2, 1]], None);
    frames(&[[0, 0, 0, 0, 1], [1, 1, 1, 1, 0]], Some(1));
}

/// Starts are unsigned, and no later question has bounded them yet.
#[test]
fn words_are_unsigned() {
    let (half, most) = (1 << 31, u32::MAX);
    windows(&[[0, half - 1, 1], [0, half, 1], [0, most, 1]], None);
    windows(&[[0, half, 1], [0, half - 1, 1]], Some(1));
    windows(&[[0, most, 1], [0, 0, 1]], Some(1));
    windows(&[[0, 5, half - 1], [0, 5, half], [0, 5, most]], None);
    windows(&[[0, 5, half], [0, 5, half - 1]], Some(1));
    pieces(&[[0, half - 1, 5, 1], [0, half, 5, 1]], None);
    pieces(&[[0, most, 5, 1], [0, 1, 5, 1]], Some(1));
    frames(&[[0, 0, 0, 0, half - 1], [0, 0, 0, 0, most]], None);
    frames(&[[0, 0, half, 0, 5], [0, 0, 1, 0, 5]], Some(1));
}

/// Of one start, each word decides if those before it are equal, whatever
/// those behind it are.
#[test]
fn ties_are_broken_word_by_word() {
    windows(&[[0, 5, 9], [1, 5, 2]], None);
    windows(&[[1, 5, 2], [0, 5, 9]], Some(1));
    windows(&[[1, 5, 2], [1, 5, 3]], None);
    windows(&[[1, 5, 3], [1, 5, 2]], Some(1));

    pieces(&[[0, 9, 5, 9], [1, 0, 5, 0]], None);
    pieces(&[[1, 0, 5, 0], [0, 9, 5, 9]], Some(1));
    pieces(&[[1, 2, 5, 9], [1, 3, 5, 0]], None);
    pieces(&[[1, 3, 5, 0], [1, 2, 5, 9]], Some(1));
    pieces(&[[1, 2, 5, 3], [1, 2, 5, 4]], None);
    pieces(&[[1, 2, 5, 4], [1, 2, 5, 3]], Some(1));

    frames(&[[0, 9, 9, 3, 5], [1, 0, 0, 0, 5]], None);
    frames(&[[1, 0, 0, 0, 5], [0, 9, 9, 3, 5]], Some(1));
    frames(&[[1, 2, 9, 3, 5], [1, 3, 0, 0, 5]], None);
    frames(&[[1, 3, 0, 0, 5], [1, 2, 9, 3, 5]], Some(1));
    frames(&[[1, 2, 3, 3, 5], [1, 2, 4, 0, 5]], None);
    frames(&[[1, 2, 4, 0, 5], [1, 2, 3, 3, 5]], Some(1));
    frames(&[[1, 2, 3, 1, 5], [1, 2, 3, 2, 5]], None);
    frames(&[[1, 2, 3, 2, 5], [1, 2, 3, 1, 5]], Some(1));
}

/// A start decides before all words that stand before it in the row.
#[test]
fn starts_come_first() {
    windows(&[[3, 4, 9], [0, 5, 1]], None);
    windows(&[[0, 5, 1], [3, 4, 9]], Some(1));
    pieces(&[[3, 9, 4, 9], [0, 0, 5, 0]], None);
    pieces(&[[0, 0, 5, 0], [3, 9, 4, 9]], Some(1));
    frames(&[[3, 9, 9, 3, 4], [0, 0, 0, 0, 5]], None);
    frames(&[[0, 0, 0, 0, 5], [3, 9, 9, 3, 4]], Some(1));
}

#[test]
fn equal_rows_stand_side_by_side() {
    windows(&[[1, 5, 2]; 1024], None);
    pieces(&[[1, 2, 5, 3]; 2048], None);
    frames(&[[1, 2, 3, 1, 5]; 512], None);
    windows(&[[1, 5, 2], [1, 5, 3], [1, 5, 2]], Some(2));
    // In accepted plans there are none: 8, 12 and 16 refuse them.
    let mut plan = case_a();
    plan.windows = rows_of(&[[0, 0, 10]; 2]);
    expect(&plan, 8, 4, 1);
    let mut plan = case_a();
    plan.pieces = rows_of(&[[0, 0, 2, 4]; 2]);
    expect(&plan, 12, 5, 1);
    let mut plan = case_b();
    plan.frames = rows_of(&[[0, 0, 0, 0, 6]; 2]);
    expect(&plan, 16, 7, 0);
}

/// The first row that is below its predecessor, not the last, and not one
/// that is only below an earlier row.
#[test]
fn the_first_row_is_named() {
    windows(&[[0, 5, 1], [0, 3, 1], [0, 4, 1], [0, 2, 1]], Some(1));
    windows(&[[0, 1, 1], [0, 9, 1], [0, 8, 1], [0, 8, 2]], Some(2));
    pieces(&[[0, 0, 7, 1], [0, 0, 8, 1], [0, 0, 0, 1]], Some(2));
    let mut rows: Vec<_> = (0..512).map(|start| [0, 0, 0, 0, start]).collect();
    frames(&rows, None);
    rows.swap(510, 511);
    frames(&rows, Some(511));
    rows.swap(0, 1);
    frames(&rows, Some(1));
}

#[test]
fn the_lowest_table_is_named() {
    let mut plan = two_hops([704, 88], 11);
    expect(&plan, 0, 0, 0);
    plan.frames.swap(0, 1);
    expect(&plan, 32, 8, 1);
    plan.pieces.swap(0, 1);
    expect(&plan, 32, 5, 1);
    plan.windows.swap(0, 1);
    expect(&plan, 32, 4, 1);
    // Though its row is higher.
    plan.windows = rows_of(&[[0, 0, 30], [1, 0, 30], [1, 30, 30], [0, 30, 30]]);
    expect(&plan, 32, 4, 3);
}

/// Other tables may have any order.
#[test]
fn no_other_table_is_asked() {
    let plan = Plan {
        cores: rows_of(&[[9, 1, 2], [0, 1, 2]]),
        ..case_b()
    };
    expect(&plan, 17, 7, 0);
    let mut plan = two_rows();
    plan.buffers.swap(0, 1);
    expect(&plan, 0, 0, 0);
    let mut plan = case_chain();
    plan.chains = rows_of(&[[1, 2, 9], [0, 2, 17]]);
    expect(&plan, 0, 0, 0);
}

/// Asked after 5 and before 6, each over all tables before the next.
#[test]
fn asked_after_5_and_before_6() {
    let mut plan = case_b();
    plan.windows.swap(0, 1);
    expect(&plan, 32, 4, 1);
    let with = |change: fn(&mut Plan)| {
        let mut plan = plan.clone();
        change(&mut plan);
        plan
    };
    expect(&with(|plan| plan.cycle = 0), 4, 0, 0);
    expect(&with(|plan| plan.vcpus[1] = row_of([2])), 5, 2, 1);
    expect(&with(|plan| plan.windows[0][0] = 2), 5, 4, 0);
    expect(&with(|plan| plan.frames[0][0] = 1), 5, 8, 0);
    expect(&with(|plan| plan.buffers = rows_of(&[[0, 0, 2]])), 5, 9, 0);
    expect(&with(|plan| plan.cores[0][0] = 16), 32, 4, 1);
    expect(&with(|plan| plan.tasks[0][2] = 0), 32, 4, 1);
    expect(&with(|plan| plan.windows[0][2] = 0), 32, 4, 1);
    expect(&with(|plan| plan.links[0][3] = 0), 32, 4, 1);
    expect(&with(|plan| plan.chains = rows_of(&[[9, 9, 9]])), 32, 4, 1);
    let mut plan = case_b();
    plan.pieces.swap(0, 1);
    plan.cores[0][0] = 16;
    expect(&plan, 32, 5, 1);
    plan.pieces.swap(0, 1);
    expect(&plan, 6, 1, 0);
    assert_eq!(QUESTIONS[3..9], [4, 5, 32, 6, 40, 7]);
    assert!(asked_before(5, 32) && asked_before(32, 6) && asked_before(32, 31));
    assert!(!asked_before(6, 32) && !asked_before(32, 32) && !asked_before(0, 32));
}

/// The papers' cases, with their rows as they stand.
#[test]
fn the_papers_cases_are_in_order() {
    for plan in [case_a(), case_b(), case_chain(), two_rows()] {
        assert_eq!(plan.out_of_order(), None);
        expect(&plan, 0, 0, 0);
    }
}

/// What is accepted is otherwise unaltered: any order of the three tables is
/// accepted once it is put right, and refused else.
#[test]
fn order_is_all_that_is_asked() {
    let mut refused = 0;
    for case in 0..1_000 {
        let mut rng = Rng::for_case(31, case);
        let plan = rich(&mut rng);
        let mut shuffled = plan.clone();
        rng.shuffle(&mut shuffled.windows);
        rng.shuffle(&mut shuffled.pieces);
        rng.shuffle(&mut shuffled.frames);
        let number = check(&shuffled.encode()).number;
        assert_eq!(number, if shuffled == plan { 0 } else { 32 });
        refused += u32::from(number == 32);
        assert_eq!(shuffled.in_order(), plan);
    }
    assert!(refused >= 900, "{refused}");
    let mut plan = full(&mut Rng::new(7));
    plan.frames.swap(510, 511);
    assert_eq!(check(&plan.encode()), Answer::at(32, 8, 511));
}

/// In accepted plans rows with one start differ in their first word.
#[test]
fn first_words_tell_accepted_rows_apart() {
    fn differ<const W: usize>(rows: &[[u32; W]], start: usize) -> bool {
        let tie = |two: &&[[u32; W]]| two[0][start] == two[1][start];
        let mut ties = rows.windows(2).filter(tie);
        ties.all(|two| two[0][0] < two[1][0])
    }
    for case in 0..1_000 {
        let mut rng = Rng::for_case(32, case);
        let plan = tiny(&mut rng);
        assert!(differ(&plan.windows, 1) && differ(&plan.pieces, 2) && differ(&plan.frames, 4));
    }
}

ways! {
    /// Ways to read question 32.
    enum Reading { Right }

    const WRONG: 29 = {
        NotAsked,
        NotOfWindows,
        NotOfPieces,
        NotOfFrames,
        // What rows rise by
        StartsAlone,
        FirstWordOnly,
        FirstTwoWordsOnly,
        AllButTheLastWord,
        LastWordFirst,
        TiesFall,
        StartsFall,
        RowsAsTheyStand,
        EqualStartsRefused,
        EqualRowsRefused,
        SignedStarts,
        SignedWords,
        EndsAfterStarts,
        // Among which rows
        OfOnePlace,
        OfOneFirstWord,
        LastPairLeftOut,
        FirstPairLeftOut,
        // What is named
        NamesPredecessor,
        NamesLast,
        NamesHighestTable,
        NamesLowestRow,
        // When it is asked
        BeforeFour,
        BeforeFive,
        AfterSix,
        AtTheEnd,
    };
}

use Reading::*;

/// A table's rows, each as words, with the place of the start among them and
/// the core, or link, of each row.
struct Table {
    number: u32,
    start: usize,
    rows: Vec<Vec<u32>>,
    places: Vec<u32>,
}

fn tables(plan: &Plan) -> [Table; 3] {
    // Before question 5 a row may name none.
    let core = |vcpu: u32| plan.vcpus.get(vcpu as usize).map_or(0, |row| row[0]);
    let vcpu = |task: u32| plan.tasks.get(task as usize).map_or(0, |row| row[0]);
    [
        Table {
            number: 4,
            start: 1,
            rows: plan.windows.iter().map(|row| row.to_vec()).collect(),
            places: plan.windows.iter().map(|row| core(row[0])).collect(),
        },
        Table {
            number: 5,
            start: 2,
            rows: plan.pieces.iter().map(|row| row.to_vec()).collect(),
            places: plan.pieces.iter().map(|row| core(vcpu(row[0]))).collect(),
        },
        Table {
            number: 8,
            start: 4,
            rows: plan.frames.iter().map(|row| row.to_vec()).collect(),
            places: plan.frames.iter().map(|row| row[3]).collect(),
        },
    ]
}

impl Reading {
    /// What rows rise by.
    fn key(self, table: &Table, row: usize) -> Vec<i64> {
        let words = &table.rows[row];
        let wide = |word: u32| i64::from(word);
        let signed = |word: u32| i64::from(word as i32);
        let start = wide(words[table.start]);
        let rest: Vec<i64> = words.iter().copied().map(wide).collect();
        let (start, rest) = match self {
            StartsAlone => (start, Vec::new()),
            FirstWordOnly => (start, rest[..1].to_vec()),
            FirstTwoWordsOnly => (start, rest[..2].to_vec()),
            AllButTheLastWord => {
                // Of a frame the last word is its start.
                let last = if table.number == 8 {
                    3
                } else {
                    words.len() - 1
                };
                (start, rest[..last].to_vec())
            }
            LastWordFirst => (start, rest.into_iter().rev().collect()),
            TiesFall => (start, rest.into_iter().map(|word| -word).collect()),
            StartsFall => (-start, rest),
            RowsAsTheyStand => (0, rest),
            SignedStarts => (signed(words[table.start]), rest),
            SignedWords => (start, words.iter().copied().map(signed).collect()),
            EndsAfterStarts => {
                // A frame's end is not in its row.
                let end = if table.number == 8 {
                    0
                } else {
                    rest[words.len() - 1]
                };
                (start, [vec![end], rest].concat())
            }
            _ => (start, rest),
        };
        [vec![start], rest].concat()
    }

    /// Whether a row is below the one before it.
    fn falls(self, table: &Table, row: usize) -> bool {
        let skipped = match self {
            NotAsked => true,
            NotOfWindows => table.number == 4,
            NotOfPieces => table.number == 5,
            NotOfFrames => table.number == 8,
            LastPairLeftOut => row == table.rows.len() - 1,
            FirstPairLeftOut => row == 1,
            _ => false,
        };
        let before = match self {
            OfOnePlace => (0..row).rfind(|other| table.places[*other] == table.places[row]),
            OfOneFirstWord => (0..row).rfind(|other| table.rows[*other][0] == table.rows[row][0]),
            _ => row.checked_sub(1),
        };
        !skipped
            && before.is_some_and(|before| {
                let (own, before) = (self.key(table, row), self.key(table, before));
                let refused = match self {
                    EqualStartsRefused => own[0] == before[0],
                    EqualRowsRefused => own == before,
                    _ => false,
                };
                refused || own < before
            })
    }

    /// What this reading names.
    fn answer(self, tables: &[Table]) -> Option<Answer> {
        let mut found = Vec::new();
        for table in tables {
            let mut falls = (0..table.rows.len()).filter(|row| self.falls(table, *row));
            let row = match self {
                NamesLast => falls.next_back(),
                NamesPredecessor => falls.next().map(|row| row - 1),
                _ => falls.next(),
            };
            found.extend(row.map(|row| Answer::at(32, table.number, row as u32)));
        }
        match self {
            NamesHighestTable => found.pop(),
            NamesLowestRow => found.into_iter().min_by_key(|answer| answer.row),
            _ => found.first().copied(),
        }
    }

    /// Whether this reading is shown by a plan with these answers: the right
    /// one, and that of the plan put in order.
    fn is_shown(self, tables: &[Table], right: Answer, in_order: Answer) -> bool {
        let first = self.answer(tables);
        match self {
            BeforeFour => right.number == 4 && first.is_some(),
            BeforeFive => right.number == 5 && first.is_some(),
            AfterSix => right.number == 32 && in_order.number == 6,
            AtTheEnd => right.number == 32 && !in_order.is_accepted(),
            _ => !asked_before(right.number, 32) && first != Right.answer(tables),
        }
    }
}

/// The table, and the word by which the row named is below its predecessor.
fn deciding(plan: &Plan, named: Answer) -> (u32, usize) {
    let found = tables(plan)
        .into_iter()
        .find(|table| table.number == named.table);
    let table = found.expect("one of three");
    let row = named.row as usize;
    let (before, own) = (&table.rows[row - 1], &table.rows[row]);
    let differs = |column: &usize| before[*column] != own[*column];
    let column = std::iter::once(table.start)
        .chain(0..own.len())
        .find(differs);
    (named.table, column.expect("rows that differ"))
}

#[test]
fn mutants_show_every_wrong_reading() {
    let mut shown = [0; WRONG.len()];
    // By table, and by the word that decides: the start, or another.
    let mut decided: BTreeMap<(u32, usize), u32> = BTreeMap::new();
    for case in 0..10_000 {
        let mut rng = Rng::for_case(33, case);
        let image = mutant(&mut rng);
        let right = check(&image);
        if asked_before(right.number, 4) {
            continue;
        }
        let plan = Plan::decode(&image);
        if plan.pieces.len() > 300 {
            continue;
        }
        let tables = tables(&plan);
        let in_order = check(&plan.clone().in_order().encode());
        if !asked_before(right.number, 32) {
            let first = Some(right).filter(|answer| answer.number == 32);
            assert_eq!(Right.answer(&tables), first, "{plan:?}");
            assert!(first.is_some() || in_order.number == right.number);
        }
        if right.number == 32 {
            *decided.entry(deciding(&plan, right)).or_insert(0) += 1;
        }
        for (count, reading) in shown.iter_mut().zip(WRONG) {
            *count += u32::from(reading.is_shown(&tables, right, in_order));
        }
    }
    println!("{decided:?}");
    let words = [(4, 3), (5, 4), (8, 5)];
    for (table, column) in words.into_iter().flat_map(|(table, words)| {
        let columns = 0..words;
        columns.map(move |column| (table, column))
    }) {
        let count = decided.get(&(table, column)).copied().unwrap_or(0);
        assert!(count >= 3, "table {table}, word {column}: {count}");
    }
    for (count, reading) in shown.into_iter().zip(WRONG) {
        println!("{reading:?}: {count}");
        assert!(count >= 5, "{reading:?}: {count}");
    }
}

/// The aim meets its question often, also in the smallest plans.
#[test]
fn aims_meet_the_question() {
    for shape in [tiny, small_rich] {
        let mut met = 0;
        for case in 0..400 {
            let mut rng = Rng::for_case(34, case);
            let mut plan = shape(&mut rng);
            if aim(32, &mut plan, &mut rng).is_some() {
                met += u32::from(check(&plan.encode()).number == 32);
            }
        }
        println!("{met} of 400");
        assert!(met >= 200, "{met}");
    }
}

/// Aims at other questions leave most plans in order.
#[test]
fn other_aims_keep_the_order() {
    let [mut all, mut refused] = [0, 0];
    for case in 0..4_000 {
        let mut rng = Rng::for_case(35, case);
        let mut plan = small_rich(&mut rng);
        let mut others = QUESTIONS[3..].to_vec();
        others.retain(|number| *number != 32);
        let question = rng.pick(&others);
        if aim(question, &mut plan, &mut rng).is_some() {
            all += 1;
            refused += u32::from(check(&plan.encode()).number == 32);
        }
    }
    println!("{refused} of {all}");
    assert!(
        (all / 400..all / 30).contains(&refused),
        "{refused} of {all}"
    );
}

/// Place, start and end of each row, for the question that asks whether they
/// overlap. The questions before it are answered yes.
fn intervals(plan: &Plan, question: u32) -> Vec<[u32; 3]> {
    match question {
        8 => {
            let window = |&[vcpu, start, length, ..]: &Window| {
                [plan.core_of_vcpu(vcpu), start, start + length]
            };
            plan.windows.iter().map(window).collect()
        }
        12 => {
            let piece = |&[task, _, start, length, ..]: &Piece| {
                [plan.core_of_task(task), start, start + length]
            };
            plan.pieces.iter().map(piece).collect()
        }
        19 => {
            let frame = |&[stream, _, _, link, start, ..]: &Frame| {
                [link, start, start + plan.frame_ticks(stream, link)]
            };
            plan.frames.iter().map(frame).collect()
        }
        _ => {
            let stay = |frame: &Frame| {
                let &[stream, _, _, link, start, ..] = frame;
                let queue = 8 * link + plan.streams[stream as usize][5];
                let end = start + plan.frame_ticks(stream, link);
                [queue, stays_from(plan, frame), end]
            };
            plan.frames.iter().map(stay).collect()
        }
    }
}

/// Where a frame's stay begins.
fn stays_from(plan: &Plan, &[stream, k, hop, ..]: &Frame) -> u32 {
    if hop == 0 {
        let job = [plan.streams[stream as usize][0], k];
        let pieces = plan.pieces.iter().filter(|piece| piece[..2] == job);
        let ends = pieces.map(|piece| piece[2] + piece[3]);
        return ends.max().expect("13 is answered yes");
    }
    let mut frames = plan.frames.iter();
    let previous = frames.find(|frame| frame[..3] == [stream, k, hop - 1]);
    let &[_, _, _, link, start, ..] = previous.expect("16 is answered yes");
    (start + plan.links[link as usize][4]).saturating_sub(plan.precision)
}

/// Checks of overlap may use neighbours: those of one place, and not those of
/// the table.
#[test]
fn neighbours_of_one_place_suffice() {
    let mut wrong = BTreeMap::from([(8, 0), (12, 0), (19, 0), (41, 0)]);
    for case in 0..12_000 {
        let image = mutant(&mut Rng::for_case(36, case));
        let right = check(&image);
        if asked_before(right.number, 8) {
            continue;
        }
        let plan = Plan::decode(&image);
        if plan.pieces.len() > 300 {
            continue;
        }
        for (&question, wrong) in &mut wrong {
            if asked_before(right.number, question) {
                continue;
            }
            let rows = intervals(&plan, question);
            let clash = |row: usize, other: Option<usize>| {
                let [place, start, _] = rows[row];
                other.is_some_and(|other| rows[other][0] == place && rows[other][2] > start)
            };
            let before = |row: usize| (0..row).rfind(|other| rows[*other][0] == rows[row][0]);
            let of_place = (0..rows.len()).find(|row| clash(*row, before(*row)));
            let of_table = (0..rows.len()).find(|row| clash(*row, row.checked_sub(1)));
            let named = Some(right.row as usize).filter(|_| right.number == question);
            assert_eq!(of_place, named, "question {question} of {plan:?}");
            *wrong += u32::from(of_table != named);
        }
    }
    println!("{wrong:?}");
    assert!(wrong.values().all(|count| *count >= 8), "{wrong:?}");
}
