//! The answers whose lines are asked for: aimed ones first, then random ones,
//! each with relatives that a careless line would not tell from it.

use crate::answer::Answer;
use crate::rng::Rng;

/// Number, table, row.
type Words = [u32; 3];

/// So many answers of a seed.
pub fn answers(count: u64, seed: u64) -> impl Iterator<Item = Answer> {
    let random = (0..).flat_map(move |case| family(&mut Rng::for_case(seed, case)));
    let words = aimed().into_iter().chain(random);
    let answers = words.map(|[number, table, row]| Answer::at(number, table, row));
    answers.take(count as usize)
}

/// Answers of every seed.
fn aimed() -> Vec<Words> {
    let mut words = numbers_and_tables();
    words.extend(digit_counts());
    words.extend(exchanged());
    words.extend(cut_digits());
    words.extend(bits());
    words
}

/// Every number that questions have or may get, every table and some more,
/// and rows at the edges.
fn numbers_and_tables() -> Vec<Words> {
    let rows = [0, 9, 10, 2_047, u32::MAX];
    cube(&Vec::from_iter(0..=60), &Vec::from_iter(0..=13), &rows)
}

fn cube(numbers: &[u32], tables: &[u32], rows: &[u32]) -> Vec<Words> {
    let mut words = Vec::new();
    for &number in numbers {
        for &table in tables {
            words.extend(rows.iter().map(|&row| [number, table, row]));
        }
    }
    words
}

/// The least and the highest word of each number of digits.
fn least_and_highest() -> (Vec<u32>, Vec<u32>) {
    let least: Vec<u32> = (0..10).map(|digits| 10_u32.pow(digits)).collect();
    let mut highest: Vec<u32> = least[1..].iter().map(|word| word - 1).collect();
    highest.push(u32::MAX);
    (least, highest)
}

/// Words of every number of digits, in every place beside every other.
fn digit_counts() -> Vec<Words> {
    let (least, highest) = least_and_highest();
    let named = Vec::from_iter(1..=10);
    let mut words = cube(&least, &least, &least);
    words.extend(cube(&highest, &highest, &highest));
    words.extend(cube(&[10, 4_444], &named, &least));
    words.extend(cube(&[10, 4_444], &named, &highest));
    words.extend(cube(&highest, &[1, 10], &[7]));
    words
}

/// Tables without a name, and rows, each beside each.
fn exchanged() -> Vec<Words> {
    let others = [0, 11, 12, 15, 20, 100, 1_000, 65_536, u32::MAX - 1];
    cube(&[0, 10, 44, 45], &others, &others)
}

/// Digits in a row, cut at every place: 1 and 23, 12 and 3.
fn cut_digits() -> Vec<Words> {
    let mut words = Vec::new();
    for digits in ["123456789123", "111111111111", "101010101", "2047"] {
        for at in 1..digits.len() {
            let (one, other) = digits.split_at(at);
            words.extend(read([one, "5", other]));
            words.extend(read([one, "12", other]));
            words.extend(read(["10", one, other]));
            words.extend(read([one, other, "0"]));
            let cuts = (1..other.len()).map(|cut| other.split_at(cut));
            words.extend(cuts.filter_map(|(table, row)| read([one, table, row])));
        }
    }
    words
}

/// The words that these digits are, if each is one.
fn read(digits: [&str; 3]) -> Option<Words> {
    let words = digits.map(|digits| digits.parse().ok());
    let is_one =
        |place: usize| words[place].is_some_and(|word: u32| word.to_string() == digits[place]);
    (0..3)
        .all(is_one)
        .then(|| words.map(Option::unwrap_or_default))
}

/// Answers that differ in one bit of one word.
fn bits() -> Vec<Words> {
    let mut words = Vec::new();
    for base in [[10, 5, 7], [10, 12, 7], [0, 0, 0], [u32::MAX; 3]] {
        words.push(base);
        for place in 0..3 {
            words.extend((0..32).map(|bit| with(base, place, base[place] ^ 1 << bit)));
        }
    }
    words
}

fn with(mut words: Words, place: usize, word: u32) -> Words {
    words[place] = word;
    words
}

/// A random answer, and its relatives.
fn family(rng: &mut Rng) -> Vec<Words> {
    let base = [any_word(rng), any_table(rng), any_word(rng)];
    let [number, table, row] = base;
    let mut words = vec![base, [number, row, table], [row, table, number]];
    for place in 0..3 {
        words.push(with(base, place, relative(base[place], rng)));
    }
    words.extend(moved([number, table], rng).map(|[one, other]| [one, other, row]));
    words.extend(moved([table, row], rng).map(|[one, other]| [number, one, other]));
    words.extend(moved([number, row], rng).map(|[one, other]| [one, table, other]));
    words
}

/// A word of any number of digits.
fn any_word(rng: &mut Rng) -> u32 {
    rng.word() / 10_u32.pow(rng.within(0..=9))
}

fn any_table(rng: &mut Rng) -> u32 {
    if rng.chance(40) {
        rng.within(1..=10)
    } else {
        any_word(rng)
    }
}

/// Another word that has something of this one.
fn relative(word: u32, rng: &mut Rng) -> u32 {
    let power = 10_u32.pow(rng.within(1..=9));
    match rng.below(12) {
        0 => word.wrapping_add(1),
        1 => word.wrapping_sub(1),
        2 => word.checked_mul(10).unwrap_or(word / 10),
        3 => word / 10,
        4 => word % 1_000,
        5 => word.wrapping_add(1_000),
        6 => word % 256,
        7 => word % 65_536,
        8 => word.wrapping_add(256),
        9 => word.wrapping_add(65_536),
        10 => word.wrapping_add(power),
        _ => word % power,
    }
}

/// Two words whose digits, one after the other, are those of these two.
fn moved(words: [u32; 2], rng: &mut Rng) -> Option<[u32; 2]> {
    let digits = words.map(|word| word.to_string()).concat();
    let (one, other) = digits.split_at(rng.within(1..=digits.len() as u32 - 1) as usize);
    read([one, other, "0"]).map(|[one, other, _]| [one, other])
}

#[cfg(test)]
mod tests {
    use super::*;

    #[test]
    fn digits_are_cut() {
        let words = cut_digits();
        let cut = [[123, 5, 456_789_123], [1_234, 5, 56_789_123], [10, 204, 7]];
        assert!(cut.iter().all(|answer| words.contains(answer)));
        assert!(words.contains(&[20, 47, 0]) && words.contains(&[20, 4, 7]));
        // No word begins with a 0 that is not all of it, or is too high.
        assert!(!words.contains(&[2, 47, 0]));
        assert_eq!(read(["2", "047", "0"]), None);
        assert_eq!(read(["2", "4294967296", "0"]), None);
    }

    #[test]
    fn aimed_answers_leave_room_for_random_ones() {
        assert_eq!(aimed().len(), 7_620);
        assert_eq!(answers(20_000, 1).count(), 20_000);
    }

    #[test]
    fn each_seed_has_answers_of_its_own() {
        let random = |seed| Vec::from_iter(answers(20_000, seed).skip(10_000));
        assert!(random(1) == random(1) && random(1) != random(2));
    }
}
