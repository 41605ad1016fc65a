//! The line in words (request 9) as a library gives it: a right one is not
//! blamed, whatever its wording, and each wrong one is noticed.

use peer::lines::{run, Difference, Fault, Lines, Met, Settings, Standin};
use peer::{kind, line, Answer, LONGEST_LINE};

const ALL: Settings = Settings {
    seed: 1,
    answers: 20_000,
    trace: false,
};

#[track_caller]
fn right(settings: &Settings, theirs: &dyn Lines) -> Met {
    run(settings, theirs).unwrap_or_else(|found| panic!("{found}"))
}

fn wrong(theirs: &dyn Lines) -> Option<Difference> {
    run(&ALL, theirs).err()
}

#[test]
fn a_right_one_is_not_blamed() {
    for seed in 1..=3 {
        let met = right(&Settings { seed, ..ALL }, &Standin(None));
        println!("{met}");
        assert_eq!(met.missing(), [""; 0]);
    }
}

#[test]
fn too_few_answers_are_noticed() {
    let missing = |answers| right(&Settings { answers, ..ALL }, &Standin(None)).missing();
    let of_none = missing(0);
    assert_eq!(of_none.len(), 45 + 12 + 10 + 3);
    for what in [
        "a number 0",
        "a number 44",
        "a table 0",
        "a table 11",
        "a row of 1 digits",
        "a row of 10 digits",
        "answers that differ in the number alone",
        "answers that differ in the table alone",
        "answers that differ in the row alone",
    ] {
        assert!(of_none.contains(&what.to_string()), "{what}: {of_none:?}");
    }
    assert!(missing(4_000).contains(&"a row of 3 digits".to_string()));
}

/// A composition of its own.
struct Composed(fn(Answer) -> String);

impl Lines for Composed {
    fn line(&self, answer: Answer, lent: &mut [u8]) -> u32 {
        write(&self.0(answer), lent)
    }
}

fn write(line: &str, lent: &mut [u8]) -> u32 {
    match lent.get_mut(..line.len()) {
        None => 0,
        Some(part) => {
            part.copy_from_slice(line.as_bytes());
            line.len() as u32
        }
    }
}

/// The name or the number of a table.
fn rows(table: u32) -> String {
    kind(table).map_or(table.to_string(), str::to_string)
}

fn brief(Answer { number, table, row }: Answer) -> String {
    format!("{}.{row}.{number}", rows(table))
}

/// The row first, and other kinds and numbers besides.
fn wordy(Answer { number, table, row }: Answer) -> String {
    let rows = rows(table);
    format!("row {row} ({rows}), not window 0 or task 3: number {number}!")
}

/// As long as a line may be.
fn long(answer: Answer) -> String {
    format!("{:~<width$}", line(answer), width = LONGEST_LINE)
}

#[test]
fn other_words_are_as_good() {
    for composed in [brief, wordy, long] {
        right(&ALL, &Composed(composed));
    }
}

#[test]
fn every_fault_is_noticed() {
    for fault in Fault::ALL {
        match wrong(&Standin(Some(*fault))) {
            None => panic!("{fault:?} goes unnoticed"),
            Some(found) => println!("{fault:?}: {}: {}", found.answer, found.how),
        }
    }
    println!("{} faults", Fault::ALL.len());
}

/// A faulty line without the words "row" and "table" for its numbers.
struct Bare(Fault);

impl Lines for Bare {
    fn line(&self, answer: Answer, lent: &mut [u8]) -> u32 {
        let mut line = [0; 200];
        let length = Standin(Some(self.0)).line(answer, &mut line) as usize;
        let line = std::str::from_utf8(&line[..length]).expect("words");
        write(&line.replace("row ", "").replace("table ", ""), lent)
    }
}

/// Faults of what a line says are noticed without these words too, all but
/// one: two numbers that nothing is said of may stand in any order.
#[test]
fn faults_of_words_are_noticed_in_other_words() {
    let of_words = Fault::ALL.iter();
    let of_words = of_words.take_while(|fault| **fault != Fault::LineOf96Bytes);
    for fault in of_words {
        let noticed = wrong(&Bare(*fault)).is_some();
        assert_eq!(noticed, *fault != Fault::TableAndRowExchanged, "{fault:?}");
    }
}

/// The line of the number before, for one answer alone.
fn line_but_for(answer: Answer, wrong: [u32; 3]) -> String {
    let Answer { number, table, row } = answer;
    match [number, table, row] == wrong {
        true => line(Answer::at(number - 1, table, row)),
        false => line(answer),
    }
}

/// One pair of answers with one line is enough.
#[test]
fn two_answers_with_one_line_are_noticed() {
    let composed: [fn(Answer) -> String; 4] = [
        |answer| line_but_for(answer, [1, 0, 0]),
        |answer| line_but_for(answer, [8, 4, 2_047]),
        |answer| line_but_for(answer, [44, 11, 10]),
        |answer| line_but_for(answer, [60, 13, u32::MAX]),
    ];
    for composed in composed {
        let found = wrong(&Composed(composed)).expect("one line is there twice");
        assert!(found.how.contains("it is the line of "), "{found}");
    }
}

#[test]
fn a_difference_tells_where() {
    let found = wrong(&Standin(Some(Fault::RowModulo1000))).expect("rows are higher");
    let expected = "difference at the answer 0 0 2047\n\
                    the line \"answer 0: table 0, row 47\": it has no number 2047 for the row alone\n\
                    made again by: lines 20000 1\n";
    assert_eq!(found.to_string(), expected);
    let found = wrong(&Standin(Some(Fault::WantsOneMore))).expect("enough is enough");
    let how = "the line \"answer 0: table 0, row 0\", with 24 bytes lent: gives 0, and not 24";
    assert_eq!(found.how, how);
}
