//! The tables of a plan as an implementation builds them, to be stepped.

use crate::boundary::{read_words, Boundary};
use crate::image::{Plan, WORD};
use crate::rng::Rng;

/// By which call tables are built.
#[derive(Clone, Copy, Debug, PartialEq, Eq, PartialOrd, Ord)]
pub enum Way {
    All,
    EachLane,
}

/// As many words as the tables of all lanes of any accepted plan take.
const ALL_LANES_WORDS: usize = 31_200;

/// The tables of all lanes in one row of words.
pub struct Built {
    pub words: Vec<u8>,
    /// Where each lane's table begins, in words.
    pub firsts: Vec<u32>,
    pub tables: Vec<Vec<u32>>,
}

impl Built {
    /// The tables of an accepted plan, or what is wrong with them.
    pub fn of(plan: &Plan, by: &dyn Boundary, way: Way, rng: &mut Rng) -> Result<Built, String> {
        let image = plan.encode();
        let built = match way {
            Way::All => all(&image, plan.lanes(), by)?,
            Way::EachLane => each_lane(&image, plan.lanes(), by, rng)?,
        };
        match built.tables.iter().position(|table| !is_sound(table)) {
            None => Ok(built),
            Some(lane) => Err(format!("the table of lane {lane} is none")),
        }
    }
}

/// Whether a table has an entry at tick 0, and later ones later.
fn is_sound(table: &[u32]) -> bool {
    let entries = table[2..].as_chunks::<3>().0;
    let rise = entries.windows(2).all(|pair| pair[0][0] < pair[1][0]);
    entries.first().is_some_and(|entry| entry[0] == 0) && rise
}

fn all(image: &[u8], lanes: usize, by: &dyn Boundary) -> Result<Built, String> {
    let mut words = vec![0; ALL_LANES_WORDS * WORD];
    match by.build_all(image, &mut words) {
        0 => {}
        answer => return Err(format!("building all tables gives {answer}")),
    }
    let mut built = Built {
        words: Vec::new(),
        firsts: Vec::new(),
        tables: Vec::new(),
    };
    let read = read_words(&words);
    let mut rest = &read[..];
    for lane in 0..lanes {
        let (table, later) = front(rest).ok_or(format!("lane {lane} has no table"))?;
        built.firsts.push((read.len() - rest.len()) as u32);
        built.tables.push(table.to_vec());
        rest = later;
    }
    words.truncate((read.len() - rest.len()) * WORD);
    built.words = words;
    Ok(built)
}

/// The table at the front of a row of words, and what is behind it.
fn front(words: &[u32]) -> Option<(&[u32], &[u32])> {
    let entries = *words.get(1)? as usize;
    words.split_at_checked(2 + 3 * entries)
}

/// Each lane's table by itself, in any order and with words between.
fn each_lane(
    image: &[u8],
    lanes: usize,
    by: &dyn Boundary,
    rng: &mut Rng,
) -> Result<Built, String> {
    let mut order: Vec<usize> = (0..lanes).collect();
    rng.shuffle(&mut order);
    let mut built = Built {
        words: Vec::new(),
        firsts: vec![0; lanes],
        tables: vec![Vec::new(); lanes],
    };
    for lane in order {
        let between = rng.below(3) * WORD;
        built.words.extend(rng.bytes(between));
        let table = by.table(image, lane as u32);
        let table = table.ok_or(format!("the table of lane {lane} is refused"))?;
        built.firsts[lane] = (built.words.len() / WORD) as u32;
        built.tables[lane] = read_words(&table);
        built.words.extend(table);
    }
    Ok(built)
}
