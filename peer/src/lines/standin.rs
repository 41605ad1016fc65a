//! A stand-in for the library's line: this package's composition, which can be
//! made wrong in one way.

use super::faults::Fault;
use super::Lines;
use crate::answer::Answer;
use crate::line::{kind, line, LONGEST_LINE};

use Fault::*;

/// The stand-in, with a fault or without.
#[derive(Clone, Copy, Debug, Default)]
pub struct Standin(pub Option<Fault>);

impl Lines for Standin {
    fn line(&self, answer: Answer, lent: &mut [u8]) -> u32 {
        match self.0 {
            None => write(line(answer).as_bytes(), lent),
            Some(fault) => write_wrong(fault, answer, lent),
        }
    }
}

/// Writes the line where the bytes suffice; gives its length, or 0.
fn write(line: &[u8], lent: &mut [u8]) -> u32 {
    match lent.get_mut(..line.len()) {
        None => 0,
        Some(part) => {
            part.copy_from_slice(line);
            line.len() as u32
        }
    }
}

/// Writes, and gives 0 all the same.
fn refuse(line: &[u8], lent: &mut [u8]) -> u32 {
    write(line, lent);
    0
}

fn write_wrong(fault: Fault, answer: Answer, lent: &mut [u8]) -> u32 {
    let line = wrong_bytes(fault, answer, lent.len());
    let (length, count) = (line.len(), lent.len());
    let suffices = count >= length;
    match fault {
        GivesNothing => 0,
        NothingForAccepted if answer.is_accepted() => 0,
        NothingForUnknownNumbers if answer.number > 44 => 0,
        NothingForUnnamedTables if kind(answer.table).is_none() => 0,
        LengthOneMore if suffices => write(&line, lent) + 1,
        LengthOneLess if suffices => write(&line, lent) - 1,
        LengthOfBytesLent if suffices => write(&line, lent).max(count as u32),
        LengthWhereTooFew if !suffices => length as u32,
        WritesWhereTooFew if !suffices => refuse(&line[..count], lent),
        WritesFirstWhereTooFew if !suffices => refuse(&line[..count.min(1)], lent),
        CutWhereTooFew if !suffices => write(&line[..count], lent),
        CutWhereOneTooFew if count + 1 == length => write(&line[..count], lent),
        WantsOneMore if count == length => 0,
        Wants95 if count < LONGEST_LINE => 0,
        Wants96 if count <= LONGEST_LINE => 0,
        TouchesNextByte if count > length => write(&[&line[..], &[0]].concat(), lent) - 1,
        FillsUp if suffices => {
            lent.fill(b' ');
            write(&line, lent)
        }
        LeavesAByte if suffices => {
            let first = lent[0];
            let given = write(&line, lent);
            lent[0] = first;
            given
        }
        LentModulo256 if count % 256 < length => 0,
        LentModulo65536 if count % 65_536 < length => 0,
        _ => write(&line, lent),
    }
}

/// The line's bytes, where so many are lent.
fn wrong_bytes(fault: Fault, answer: Answer, count: usize) -> Vec<u8> {
    let mut line = wrong_line(fault, answer).into_bytes();
    match fault {
        LineOf96Bytes => line.resize(96, b'.'),
        LongestOf96Bytes if line.len() == 51 => line.resize(96, b'.'),
        Byte127 => line.push(127),
        Byte31 => line.push(31),
        ByteAbove127 => line.push(0xE9),
        NewlineIncluded => line.push(b'\n'),
        ZeroByteIncluded => line.push(0),
        OtherWithMoreLent if count >= 200 => line.push(b'.'),
        _ => {}
    }
    line
}

/// The composition, taken apart and put together wrongly.
fn wrong_line(fault: Fault, answer: Answer) -> String {
    let Answer { number, table, row } = wrong_words(fault, answer);
    let right = format!("answer {number}: {}", place(fault, table, row));
    match fault {
        NumberLeftOut => place(fault, table, row),
        NumbersFrom45Alike if number >= 45 => format!("unknown: {}", place(fault, table, row)),
        Numbers8And12Alike if [8, 12].contains(&number) => {
            format!("overlap: {}", place(fault, table, row))
        }
        NumberRunsIntoRow if kind(table).is_some() => {
            format!("{}, row {number}{row}", rows(fault, table))
        }
        TabsForSpaces => right.replace(' ', "\t"),
        _ => right,
    }
}

fn wrong_words(fault: Fault, answer: Answer) -> Answer {
    let Answer { number, table, row } = answer;
    let unnamed = kind(table).is_none();
    match fault {
        NumberModulo100 => Answer::at(number % 100, table, row),
        NumberModulo256 => Answer::at(number % 256, table, row),
        NumberModulo65536 => Answer::at(number % 65_536, table, row),
        TableModulo256 => Answer::at(number, table % 256, row),
        RowModulo1000 => Answer::at(number, table, row % 1_000),
        RowModulo256 => Answer::at(number, table, row % 256),
        RowModulo65536 => Answer::at(number, table, row % 65_536),
        RowFrom1 => Answer::at(number, table, row.wrapping_add(1)),
        NeighboursName if !unnamed => Answer::at(number, table % 10 + 1, row),
        _ => answer,
    }
}

/// Table and row.
fn place(fault: Fault, table: u32, row: u32) -> String {
    let unnamed = kind(table).is_none();
    let (rows, told) = (rows(fault, table), told(fault, row));
    match fault {
        TableLeftOut if unnamed => format!("row {told}"),
        Table0LeftOut if table == 0 => format!("row {told}"),
        TableAndRow0LeftOut if (table, row) == (0, 0) => "row 0".to_string(),
        NamesWithoutKind if !unnamed => format!("row {told}"),
        NameRunsIntoWord if !unnamed => format!("{rows}number {told}"),
        TableAsRow if unnamed => format!("table {told}, row {told}"),
        TableAndRowExchanged if unnamed => format!("table {told}, row {table}"),
        TableAndRowSorted if unnamed => format!("{}, {}", table.min(row), table.max(row)),
        RowLeftOut => rows,
        Row0LeftOut if row == 0 => rows,
        PaddedRowRunsIntoTable if unnamed => format!("table {table}{row:010}"),
        RowRunsIntoTable if unnamed => format!("table {table}{row}"),
        _ => format!("{rows}, row {told}"),
    }
}

/// The table's number, or the name of its rows.
fn rows(fault: Fault, table: u32) -> String {
    match (fault, kind(table)) {
        (Table11Alike, _) if table == 11 => "table 0".to_string(),
        (TablesFrom11Alike, None) if table > 0 => "no table".to_string(),
        (ChainsUnnamed, Some("chain")) => "table 10".to_string(),
        (NamesInCapitals, Some(kind)) => kind.to_uppercase(),
        (NamesInSmallLetters, Some(kind)) => kind.to_lowercase(),
        (NamesOfSeveral, Some(kind)) => format!("{kind}s"),
        (NoNames, _) | (_, None) => format!("table {table}"),
        (_, Some(kind)) => kind.to_string(),
    }
}

/// The row's number.
fn told(fault: Fault, row: u32) -> String {
    match fault {
        RowSigned => format!("{}", row as i32),
        RowInHex => format!("{row:x}"),
        RowInThousands if row >= 1_000 => format!("{},{:03}", row / 1_000, row % 1_000),
        RowPadded => format!("{row:04}"),
        _ => format!("{row}"),
    }
}
