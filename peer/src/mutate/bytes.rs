//! Changes of the image's bytes, among them those aimed at questions 1 to 3.

use crate::image::{
    point_back, row_of, set_word, width, word_at, Plan, Trailer, CHAIN, LINK, LONGEST, ROW_BOUNDS,
    STREAM, TABLES, TRAILER, WIDTHS, WORD,
};
use crate::rng::Rng;

/// Aims at one of the first three questions.
pub fn aim(question: u32, plan: Plan, rng: &mut Rng) -> Vec<u8> {
    match question {
        1 => length(plan.encode(), rng),
        2 => last_word(plan.encode(), rng),
        _ => layout(plan, rng),
    }
}

/// Overwrites some words of the image with words that are often telling.
pub fn scatter(mut image: Vec<u8>, rng: &mut Rng) -> Vec<u8> {
    for _ in 0..rng.within(1..=3) {
        let at = rng.below(image.len() / WORD) * WORD;
        let other = rng.below(image.len() / WORD) * WORD;
        let (old, near) = (word_at(&image, at), word_at(&image, other));
        let any = rng.word();
        let words = [
            0,
            1,
            old.wrapping_add(1),
            old.wrapping_sub(1),
            old.wrapping_add(1 << 30),
            near,
            any,
            any % 16,
            (1 << 30) + 1,
            1 << 31,
            u32::MAX,
            u32::MAX - any % 16,
        ];
        set_word(&mut image, at, rng.pick(&words));
    }
    image
}

fn length(mut image: Vec<u8>, rng: &mut Rng) -> Vec<u8> {
    match rng.below(5) {
        0 => image.clear(),
        1 => image.truncate(rng.below(TRAILER)),
        3 => {
            // As short as images once were.
            let shorter = OLD_TRAILER + rng.below(TRAILER - OLD_TRAILER);
            image.drain(..image.len() - shorter);
            set_word(&mut image, shorter - WORD, (shorter - OLD_TRAILER) as u32);
        }
        2 => {
            image.truncate(TRAILER - 1);
            image.fill(0);
        }
        _ => {
            let longer = LONGEST + 1 + rng.below(9);
            image.resize(longer, 0);
            point_back(&mut image);
        }
    }
    image
}

fn last_word(mut image: Vec<u8>, rng: &mut Rng) -> Vec<u8> {
    let at = image.len() - WORD;
    let old = word_at(&image, at);
    match rng.below(6) {
        5 => return nine_tables(image, rng),
        0 => image.truncate((at + rng.below(WORD)).max(TRAILER)),
        1 => image.extend((0..=rng.below(8)).map(|byte| byte as u8)),
        2 => image.insert(0, 0),
        3 => set_word(&mut image, at, rng.word()),
        _ => {
            let near = [
                old + 1,
                old.wrapping_sub(1),
                old + 4,
                old + (TRAILER - OLD_TRAILER) as u32,
                old + TRAILER as u32,
                u32::MAX,
            ];
            set_word(&mut image, at, rng.pick(&near));
        }
    }
    image
}

/// Trailer and last word before there were chains.
const OLD_TRAILER: usize = TRAILER - 2 * WORD;

/// The image without a tenth table, its last word as it was or as it would be
/// now.
fn nine_tables(mut image: Vec<u8>, rng: &mut Rng) -> Vec<u8> {
    let at = offset_byte(&image, CHAIN as usize - 1);
    let begin = word_at(&image, at) as usize;
    image.drain(at..at + 2 * WORD);
    let end = image.len() - OLD_TRAILER;
    image.drain(begin..end);
    let length = image.len();
    let pointed = if rng.chance(70) { OLD_TRAILER } else { TRAILER };
    set_word(
        &mut image,
        length - WORD,
        length.saturating_sub(pointed) as u32,
    );
    image
}

fn layout(mut plan: Plan, rng: &mut Rng) -> Vec<u8> {
    match rng.below(7) {
        0 => one_table(plan.encode(), rng),
        1 => {
            too_many_rows(&mut plan, rng);
            plan.encode()
        }
        2 => {
            plan.cores.clear();
            plan.encode()
        }
        3 => widened(plan, rng),
        4 => many_tables(plan.encode(), rng),
        5 => {
            let (table, words) = rng.pick(&[(LINK, 3), (LINK, 4), (STREAM, 5), (STREAM, 5)]);
            old_rows(plan.encode(), table, words)
        }
        _ => one_count(plan.encode(), rng),
    }
}

/// The byte of a table's offset in the trailer; its count is a word later.
fn offset_byte(image: &[u8], table: usize) -> usize {
    image.len() - TRAILER + WORD * (2 + 2 * table)
}

fn one_table(mut image: Vec<u8>, rng: &mut Rng) -> Vec<u8> {
    let at = offset_byte(&image, rng.below(TABLES));
    let old = word_at(&image, at);
    let changes = [4, 1, 12, 1 << 30, 1 << 31, u32::MAX, u32::MAX - 3];
    set_word(&mut image, at, old.wrapping_add(rng.pick(&changes)));
    image
}

/// A count that is off by one, or right modulo 2^30 only: with four bytes to
/// a word its table's end is right modulo 2^32.
fn one_count(mut image: Vec<u8>, rng: &mut Rng) -> Vec<u8> {
    let table = rng.below(TABLES);
    let at = offset_byte(&image, table) + WORD;
    let old = word_at(&image, at);
    let counts = [
        old.wrapping_add(1),
        old.wrapping_sub(1),
        old | 1 << 30,
        old | 1 << 31,
        old | 3 << 30,
        (1 << 30) + 1,
        ROW_BOUNDS[table].1 + 1,
        u32::MAX,
    ];
    set_word(&mut image, at, rng.pick(&counts));
    image
}

/// Counts beyond 2^30 with offsets that follow from them modulo 2^32.
fn many_tables(mut image: Vec<u8>, rng: &mut Rng) -> Vec<u8> {
    let mut next = 0_u32;
    let chosen = rng.below(TABLES);
    for (table, width) in WIDTHS.iter().enumerate() {
        let at = offset_byte(&image, table);
        let mut count = word_at(&image, at + WORD);
        if table == chosen {
            count = count.wrapping_add(rng.pick(&[1, 1 << 30, (1 << 30) + 1, u32::MAX]));
        }
        set_word(&mut image, at, next);
        set_word(&mut image, at + WORD, count);
        next = next.wrapping_add(count.wrapping_mul((width * WORD) as u32));
    }
    image
}

/// Rows of a table of only so many words, as they once were, and all else in
/// its place.
fn old_rows(mut image: Vec<u8>, table: u32, words: usize) -> Vec<u8> {
    let (begin, rows) = Trailer::read(&image).tables[table as usize - 1];
    let gone = (width(table) - words) * WORD;
    for row in (0..rows as usize).rev() {
        let end = begin as usize + (row + 1) * width(table) * WORD;
        image.drain(end - gone..end);
    }
    for later in table as usize..TABLES {
        let at = offset_byte(&image, later);
        let offset = word_at(&image, at) - rows * gone as u32;
        set_word(&mut image, at, offset);
    }
    point_back(&mut image);
    image
}

/// One more row than a table may have, laid out as it should be.
fn too_many_rows(plan: &mut Plan, rng: &mut Rng) {
    match rng.below(6) {
        0 => plan.cores.resize(33, row_of([0, 0, 0])),
        1 => plan.vcpus.resize(65, row_of([0])),
        2 => plan.links.resize(65, row_of([0, 1, 0, 1])),
        3 => plan.streams.resize(65, row_of([0, 1, 0, 1, 46])),
        4 => plan.chains.resize(33, row_of([0, 1, 0])),
        _ => plan.buffers.resize(65, row_of([0, 0, 1])),
    }
}

/// Bytes between two tables or before the trailer that belong to neither;
/// the last word takes them into account.
fn widened(plan: Plan, rng: &mut Rng) -> Vec<u8> {
    let mut image = plan.encode();
    let at = match rng.below(TABLES + 1) {
        TABLES => image.len() - TRAILER,
        table => word_at(&image, offset_byte(&image, table)) as usize,
    };
    let count = rng.pick(&[1, 2, 3, 4, 4, 8]);
    image.splice(at..at, vec![0; count]);
    point_back(&mut image);
    image
}
