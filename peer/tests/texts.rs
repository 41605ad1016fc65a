//! Programs that print something wrong are noticed, also as processes, and a
//! right one is not blamed.

#[macro_use]
mod ways;

use std::path::PathBuf;
use std::process::{Command, Output};

use peer::image::{LONGEST, TABLES};
use peer::texts::{image, run, Met, Process, Settings};
use peer::{kind, line, report, Answer, QUESTIONS};

const ALL: Settings = Settings {
    seed: 1,
    first_image: 0,
    images: 3_000,
};

fn own(image: &[u8]) -> Result<Vec<u8>, String> {
    Ok(report(image).into_bytes())
}

#[test]
fn the_images_include_all_they_should() {
    for seed in 1..=3 {
        let met = run(&Settings { seed, ..ALL }, &own).expect("there is no difference");
        assert_eq!(met.missing(), [""; 0]);
        assert_eq!(met.answers.total(), 3_000);
    }
}

#[test]
fn too_few_images_are_noticed() {
    let missing = |images| {
        let met = run(&Settings { images, ..ALL }, &own).expect("there is no difference");
        met.missing()
    };
    let of_none = missing(0);
    assert_eq!(of_none.len(), QUESTIONS.len() + TABLES + 4 + 4 + 6 + 3);
    for what in [
        "a refusal by question 1",
        "a refusal by question 32",
        "a refused core",
        "a refused chain",
        "a refused row of 4 digits",
        "a shown row of 2 digits",
        "a first tick of 6 digits",
        "a lane with 9217 entries",
        "a text with 96 lanes",
        "a text of 10338 lines",
    ] {
        assert!(of_none.contains(&what.to_string()), "{what}: {of_none:?}");
    }
    assert!(!missing(60).is_empty());
}

#[test]
fn what_stands_in_a_text() {
    let mut met = Met::default();
    met.meet("0 0 0\nyes\n0 0 0 0\n0 12 1 3\n1 0 5 1234\n");
    met.meet("10 5 104\nno\n");
    assert_eq!((met.answers.of(0), met.answers.of(10)), (1, 1));
    assert_eq!((met.most_lines, met.most_bytes), (5, 38));
    assert_eq!((met.most_lanes, met.most_entries), (2, 2));
    assert!(met.refused_tables.iter().eq(&[5]));
    assert_eq!(met.refused_rows.highest, 104);
    assert_eq!(met.shown_rows.highest, 1_234);
    assert_eq!(met.first_ticks.highest, 12);
    let missing = met.missing();
    let lacks = |what: &str| missing.contains(&what.to_string());
    assert!(!lacks("a refused row of 3 digits") && lacks("a refused row of 4 digits"));
    assert!(!lacks("a shown row of 4 digits") && lacks("a shown row of 3 digits"));
}

ways! {
    /// Ways to be wrong.
    enum Wrong { RowsModulo(u32), RefusedRowsModulo(u32), ShownRowsModulo(u32), TicksModulo(u32) }

    const TEXTS: 15 = {
        PrintsNothing,
        FirstLineOnly,
        FirstTwoLinesOnly,
        FirstLineTwice,
        AcceptsAll,
        AcceptsAnyLength,
        NamesNoTable,
        LaneZeroForEveryLane,
        LanesFromOne,
        SixtyFourLanes,
        HundredEntries,
        NoLastLineEnd,
        EmptyLineMore,
        AtMost65536Bytes,
        AtMost10000Lines,
    };

    const INPUTS: 3 = {
        ReadsNoMoreThanTheLongest,
        Reads4096Bytes,
        LeavesAPartOfAWord,
    };

    const FAILURES: 2 = { FailsIfRefused, FailsIfEmpty };

    /// What is wrong is the line in words, or where it stands.
    const IN_WORDS: 9 = {
        WordsTwice,
        WordsFirst,
        WordsLast,
        WordsAfterRefusalsOnly,
        WordsAfterAcceptancesOnly,
        WordsWithoutNewline,
        WordsWithoutNewlineIfRefused,
        WordsForTheNextRow,
        WordsForAccepted,
    };

    const WORDS_BYTES: 12 = {
        NoWords,
        EmptyWords,
        OneSpace,
        WordsOf97Bytes,
        WordsOf97BytesOnce,
        WordsOf1000Bytes,
        WordsWithByte127,
        WordsWithTab,
        WordsWithByteAbove127,
        WordsWithByte0,
        WordsWithReturn,
        WordsInColour,
    };

    const WORDS_SAY: 20 = {
        AnswerForWords,
        SameWordsForAll,
        WordsWithoutNumber,
        WordsWithNumberModulo10,
        WordsByLength,
        WordsWithRowModulo1000,
        WordsWithRowModulo256,
        WordsWithoutRow,
        WordsWithoutRow0,
        WordsWithRowFrom1,
        WordsWithRowInHex,
        WordsWithRowInThousands,
        WordsWithRowPadded,
        WordsWithRowBehindNumber,
        WordsWithNeighboursName,
        WordsWithoutName,
        WordsWithTableNumber,
        WordsInSmallLetters,
        WordsOfSeveral,
        WordsWithoutTable0,
    };
}

use Wrong::*;

/// A program that is wrong in one way.
fn wrong(way: Wrong, image: &[u8]) -> Result<Vec<u8>, String> {
    let text = report(taken(way, image));
    match way {
        FailsIfRefused if !text.starts_with("0 ") => Err("refused".to_string()),
        FailsIfEmpty if image.is_empty() => Err("empty".to_string()),
        _ if IN_WORDS.contains(&way) => Ok(moved(way, &text).into_bytes()),
        _ if WORDS_BYTES.contains(&way) => Ok(with_bytes(way, &text)),
        _ if WORDS_SAY.contains(&way) => Ok(with_words(way, &text, image.len()).into_bytes()),
        _ => Ok(changed(way, &text).into_bytes()),
    }
}

/// A text's first line, its second and all others, each with line ends.
fn parts(text: &str) -> [&str; 3] {
    let mut lines = text.splitn(3, '\n').map(str::len);
    let mut next = || lines.next().expect("a text has two lines") + 1;
    let (first, second) = (next(), next());
    let (answer, others) = text.split_at(first);
    let (words, entries) = others.split_at(second);
    [answer, words, entries]
}

/// With the line in words elsewhere, or another one.
fn moved(way: Wrong, text: &str) -> String {
    let [answer, words, entries] = parts(text);
    let (accepted, bare) = (answer == "0 0 0\n", words.trim_end());
    let Answer { number, table, row } = answer_of(text);
    match way {
        WordsTwice => format!("{answer}{words}{words}{entries}"),
        WordsFirst => format!("{words}{answer}{entries}"),
        WordsLast if accepted => format!("{answer}{entries}{words}"),
        WordsAfterRefusalsOnly if accepted => format!("{answer}{entries}"),
        WordsAfterAcceptancesOnly if !accepted => answer.to_string(),
        WordsWithoutNewline if accepted => format!("{answer}{bare}{entries}"),
        WordsWithoutNewlineIfRefused if !accepted => format!("{answer}{bare}"),
        WordsForTheNextRow if !accepted => {
            format!("{answer}{}\n", line(Answer::at(number, table, row + 1)))
        }
        WordsForAccepted => format!("{answer}{}\n{entries}", line(Answer::ACCEPTED)),
        _ => text.to_string(),
    }
}

/// With other bytes for the line in words.
fn with_bytes(way: Wrong, text: &str) -> Vec<u8> {
    let [answer, words, entries] = parts(text);
    let mut line = words.trim_end().as_bytes().to_vec();
    match way {
        NoWords => return format!("{answer}{entries}").into_bytes(),
        EmptyWords => line.clear(),
        OneSpace => line = vec![b' '],
        WordsOf97Bytes => line.resize(96, b'.'),
        WordsOf97BytesOnce if answer.starts_with("31 ") => line.resize(96, b'.'),
        WordsOf1000Bytes => line.resize(999, b'.'),
        WordsWithByte127 => line.push(127),
        WordsWithTab => line.push(b'\t'),
        WordsWithByteAbove127 => line.push(0xE9),
        WordsWithByte0 => line.push(0),
        WordsWithReturn => line.push(b'\r'),
        WordsInColour => line.splice(..0, *b"\x1b[31m").for_each(drop),
        _ => {}
    }
    line.push(b'\n');
    [answer.as_bytes(), &line, entries.as_bytes()].concat()
}

/// With a line in words that says something else.
fn with_words(way: Wrong, text: &str, length: usize) -> String {
    let [answer, _, entries] = parts(text);
    let line = words_of(way, answer_of(text), length);
    format!("{answer}{line}\n{entries}")
}

fn words_of(way: Wrong, answer: Answer, length: usize) -> String {
    let Answer { number, table, row } = answer;
    let of = |number, table, row| line(Answer::at(number, table, row));
    let right = line(answer);
    let name = kind(table).unwrap_or("table");
    let other_row = |told: String| right.replace(&format!("row {row}"), &format!("row {told}"));
    match way {
        AnswerForWords => answer.to_string(),
        SameWordsForAll => "look it up in the manual".to_string(),
        WordsWithoutNumber => right.replace(&format!("answer {number}: "), ""),
        WordsWithNumberModulo10 => of(number % 10, table, row),
        WordsByLength => format!("{right}, {length} bytes"),
        WordsWithRowModulo1000 => of(number, table, row % 1_000),
        WordsWithRowModulo256 => of(number, table, row % 256),
        WordsWithoutRow => right.replace(&format!(", row {row}"), ""),
        WordsWithoutRow0 if row == 0 => right.replace(", row 0", ""),
        WordsWithRowFrom1 => of(number, table, row + 1),
        WordsWithRowInHex => other_row(format!("{row:x}")),
        WordsWithRowInThousands if row >= 1_000 => {
            other_row(format!("{},{:03}", row / 1_000, row % 1_000))
        }
        WordsWithRowPadded => other_row(format!("{row:04}")),
        WordsWithRowBehindNumber => format!("{name} {number}{row}"),
        WordsWithNeighboursName if table > 0 => of(number, table % 10 + 1, row),
        WordsWithoutName if table > 0 => format!("answer {number}: row {row}"),
        WordsWithTableNumber => format!("answer {number}: table {table}, row {row}"),
        WordsInSmallLetters => right.to_lowercase(),
        WordsOfSeveral if table > 0 => right.replace(name, &format!("{name}s")),
        WordsWithoutTable0 => right.replace("table 0, ", ""),
        _ => right,
    }
}

fn answer_of(text: &str) -> Answer {
    let [answer, ..] = parts(text);
    match words(answer.trim_end())[..] {
        [number, table, row] => Answer::at(number, table, row),
        _ => panic!("an answer has three words"),
    }
}

/// What of the image it takes.
fn taken(way: Wrong, image: &[u8]) -> &[u8] {
    let length = image.len();
    match way {
        ReadsNoMoreThanTheLongest => &image[..length.min(LONGEST)],
        Reads4096Bytes => &image[..length.min(4_096)],
        LeavesAPartOfAWord => &image[..length / 4 * 4],
        _ => image,
    }
}

fn changed(way: Wrong, text: &str) -> String {
    let [first, in_words, entries] = parts(text);
    let answer = first.trim_end();
    match way {
        PrintsNothing => String::new(),
        FirstLineOnly => first.to_string(),
        FirstTwoLinesOnly => format!("{first}{in_words}"),
        FirstLineTwice => format!("{first}{text}"),
        AcceptsAll => text.replacen(answer, "0 0 0", 1),
        AcceptsAnyLength => text.replacen("1 0 0\n", "0 0 0\n", 1),
        NoLastLineEnd => text.trim_end().to_string(),
        EmptyLineMore => format!("{text}\n"),
        AtMost65536Bytes => text[..text.len().min(65_536)].to_string(),
        AtMost10000Lines => text.split_inclusive('\n').take(10_000).collect(),
        _ => {
            let answer = joined(vec![changed_answer(way, answer)]);
            let entries = joined(changed_entries(way, entries.lines()));
            format!("{answer}{in_words}{entries}")
        }
    }
}

fn changed_answer(way: Wrong, answer: &str) -> Vec<u32> {
    let mut answer = words(answer);
    match way {
        RowsModulo(number) | RefusedRowsModulo(number) => answer[2] %= number,
        NamesNoTable => answer[1] = 0,
        _ => {}
    }
    answer
}

fn changed_entries<'a>(way: Wrong, lines: impl Iterator<Item = &'a str>) -> Vec<Vec<u32>> {
    let mut entries: Vec<Vec<u32>> = lines.map(words).collect();
    for entry in &mut entries {
        match way {
            RowsModulo(number) | ShownRowsModulo(number) => entry[3] %= number,
            TicksModulo(number) => entry[1] %= number,
            LanesFromOne => entry[0] += 1,
            _ => {}
        }
    }
    match way {
        SixtyFourLanes => entries.retain(|entry| entry[0] < 64),
        LaneZeroForEveryLane => return lane_zero_for_every_lane(&entries),
        HundredEntries => return hundred_of_each_lane(&entries),
        _ => {}
    }
    entries
}

fn lanes(entries: &[Vec<u32>]) -> Vec<&[Vec<u32>]> {
    entries.chunk_by(|one, next| one[0] == next[0]).collect()
}

fn lane_zero_for_every_lane(entries: &[Vec<u32>]) -> Vec<Vec<u32>> {
    let lanes = lanes(entries);
    let copy = |lane: &[Vec<u32>]| {
        let number = lane[0][0];
        let entry = move |entry: &Vec<u32>| vec![number, entry[1], entry[2], entry[3]];
        lanes[0].iter().map(entry).collect::<Vec<_>>()
    };
    lanes.iter().copied().flat_map(copy).collect()
}

fn hundred_of_each_lane(entries: &[Vec<u32>]) -> Vec<Vec<u32>> {
    let hundred = |lane: &[Vec<u32>]| lane[..lane.len().min(100)].to_vec();
    lanes(entries).into_iter().flat_map(hundred).collect()
}

fn words(line: &str) -> Vec<u32> {
    let word = |word: &str| word.parse().expect("a line has numbers");
    line.split(' ').map(word).collect()
}

fn joined(lines: Vec<Vec<u32>>) -> String {
    let line = |words: Vec<u32>| {
        let words: Vec<String> = words.iter().map(u32::to_string).collect();
        words.join(" ") + "\n"
    };
    lines.into_iter().map(line).collect()
}

#[test]
fn each_wrong_program_is_noticed() {
    let rows = [10, 100, 256, 1_000, 1_024];
    let ways = rows
        .iter()
        .flat_map(|&number| {
            [
                RowsModulo(number),
                RefusedRowsModulo(number),
                ShownRowsModulo(number),
            ]
        })
        .chain([1_000, 65_536, 100_000].map(TicksModulo))
        .chain(TEXTS)
        .chain(INPUTS)
        .chain(FAILURES);
    for way in ways {
        told(way);
    }
}

/// What is told of a wrong program.
fn told(way: Wrong) -> String {
    match run(&ALL, &|image| wrong(way, image)) {
        Ok(_) => panic!("{way:?} goes unnoticed"),
        Err(difference) => difference.to_string(),
    }
}

/// A wrong line in words is noticed as such, and one in another place.
#[test]
fn each_wrong_line_in_words_is_noticed() {
    for way in IN_WORDS.into_iter().chain(WORDS_BYTES).chain(WORDS_SAY) {
        let told = told(way);
        let line = match way {
            WordsFirst => "line 1, ",
            WordsTwice | WordsLast | WordsAfterRefusalsOnly => "line 3, ",
            _ => "line 2, ",
        };
        println!("{way:?}: {told}");
        assert!(told.contains(line), "{way:?}: {told}");
    }
}

/// The same with nothing changed: it is the changes that are noticed.
#[test]
fn a_text_taken_apart_and_joined_is_right() {
    let settings = Settings { images: 300, ..ALL };
    run(&settings, &|image| wrong(RowsModulo(u32::MAX), image)).expect("nothing is changed");
}

/// Its wording is the program's own affair.
#[test]
fn other_words_are_as_good() {
    let other = |image: &[u8]| {
        let text = report(image);
        let [first, _, entries] = parts(&text);
        let Answer { number, table, row } = answer_of(&text);
        let rows = kind(table).map_or(format!("table {table}"), str::to_string);
        let line = format!("[{rows} #{row}] see window, table 3 and piece {number}~");
        Ok(format!("{first}{line}\n{entries}").into_bytes())
    };
    run(&ALL, &other).unwrap_or_else(|difference| panic!("{difference}"));
    let longest = |image: &[u8]| {
        let text = report(image);
        let [first, words, entries] = parts(&text);
        Ok(format!("{first}{:95}\n{entries}", words.trim_end()).into_bytes())
    };
    run(&ALL, &longest).unwrap_or_else(|difference| panic!("{difference}"));
}

#[test]
fn a_difference_tells_where() {
    let found = run(&ALL, &|image| wrong(FirstTwoLinesOnly, image));
    let difference = found.expect_err("accepted plans have lines");
    let told = difference.to_string();
    let (seed, number) = (difference.seed, difference.number);
    let image = image(seed, number);
    let text = report(&image);
    let third = text.lines().nth(2).expect("an accepted plan's text");
    let expected = format!(
        "difference in image {number} of seed 1, {} bytes\n\
         line 3, ours: \"{third}\\n\"\n\
         line 3, theirs: no such line\n\
         the image is made again by: generate text 1 {number}\n",
        image.len()
    );
    assert_eq!(told, expected);
    let again = Command::new(env!("CARGO_BIN_EXE_generate"))
        .args(["text", "1", &number.to_string()])
        .output();
    assert_eq!(again.expect("generate runs").stdout, image);
}

/// A shell script in a file; `$check` in it is the package's own program. It
/// is written by a process of its own, since no file can be run while this one
/// may have it open.
fn script(name: &str, lines: &str) -> PathBuf {
    let path = PathBuf::from(env!("CARGO_TARGET_TMPDIR")).join(name);
    let check = env!("CARGO_BIN_EXE_peer-check");
    let content = format!("#!/bin/sh\ncheck='{check}'\n{lines}\n");
    let mut write = Command::new("sh");
    write.args(["-c", "printf %s \"$2\" > \"$1\" && chmod +x \"$1\"", "sh"]);
    write.arg(&path).arg(content);
    assert!(write.status().expect("sh runs").success());
    path
}

fn texts(program: PathBuf, images: &str) -> Output {
    let mut command = Command::new(env!("CARGO_BIN_EXE_texts"));
    command.arg(program).arg(images);
    command.output().expect("texts runs")
}

#[test]
fn the_packages_own_program_passes() {
    let output = texts(env!("CARGO_BIN_EXE_peer-check").into(), "3000");
    let told = String::from_utf8_lossy(&output.stdout);
    assert!(output.status.success(), "{output:?}");
    assert!(told.contains("\n3000 images, "), "{told}");
    assert!(told.ends_with("\nno difference\n"), "{told}");
}

#[test]
fn too_few_images_end_with_a_failure() {
    let output = texts(env!("CARGO_BIN_EXE_peer-check").into(), "20");
    let told = String::from_utf8_lossy(&output.stderr);
    assert_eq!(output.status.code(), Some(1));
    let lack = "the images did not include a text with 96 lanes\n";
    assert!(told.contains(lack), "{told}");
}

/// A byte more than the longest image has is enough. On raw inputs, which
/// every tenth image is: all their lengths are here.
#[test]
fn a_program_may_stop_reading() {
    let lines = format!("head -c {} | \"$check\"", LONGEST + 1);
    let process = Process(script("stops-reading", &lines).into());
    for first_image in (0..1_400).step_by(10) {
        let one = Settings {
            first_image,
            images: 1,
            ..ALL
        };
        let found = run(&one, &|image| process.text(image));
        found.unwrap_or_else(|difference| panic!("{difference}"));
    }
}

#[test]
fn wrong_processes_are_noticed() {
    let wrong = [
        (
            "first-line-only",
            "\"$check\" | head -n 1",
            "line 2, theirs: no such line: it should be there",
        ),
        (
            "first-two-lines-only",
            "\"$check\" | head -n 2",
            "line 3, theirs: no such line",
        ),
        (
            "line-in-words-aside",
            "\"$check\" | sed '2w /dev/stderr\n2d'",
            "line 2, theirs: ",
        ),
        (
            "reads-once",
            "dd bs=65536 count=1 2>/dev/null | \"$check\"",
            "line 1, ",
        ),
        (
            "reads-nothing",
            "\"$check\" < /dev/null",
            "line 1, theirs: \"1 0 0\\n\"",
        ),
        (
            "last-digits",
            "\"$check\" | sed 's/[0-9]*\\([0-9]\\)$/\\1/'",
            "line ",
        ),
        (
            "fails-at-the-end",
            "\"$check\"; exit 3",
            "the program fails: exit status: 3",
        ),
        ("is-killed", "kill -9 $$", "the program fails: signal: 9"),
    ];
    for (name, lines, told) in wrong {
        let output = texts(script(name, lines), "300");
        let found = String::from_utf8_lossy(&output.stdout);
        assert_eq!(output.status.code(), Some(1), "{name}: {found}");
        assert!(found.starts_with("difference in image "), "{name}: {found}");
        assert!(found.contains(told), "{name}: {found}");
    }
}

#[test]
fn a_program_that_is_not_there_is_a_failure() {
    let output = texts("no/such/program".into(), "1");
    let found = String::from_utf8_lossy(&output.stdout);
    assert_eq!(output.status.code(), Some(1));
    assert!(found.contains("the program fails: "), "{found}");
}
