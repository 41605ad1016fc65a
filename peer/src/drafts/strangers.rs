//! Words that someone else has changed: then every call is refused by 33, or
//! the words are a draft, with true totals. Nothing is known of the layout.

use std::collections::BTreeMap;

use super::aims;
use super::beside::{Alike, Beside};
use super::calls::Call;
use super::lent::LentWords;
use super::model::{jobs_of, Draft, PLACES, WORDS};
use crate::image::Piece;
use crate::rng::Rng;

/// A stranger's change: how it was made, and the first words after it.
struct Change {
    kind: &'static str,
    words: Vec<u32>,
    now: Now,
}

/// What is known of words after a stranger's change.
pub enum Now {
    /// They are this draft.
    Draft(Draft),
    /// Some of them are of this draft.
    PartOf(Draft),
    Unknown,
}

/// Changes the words of a draft, calls, and puts the words back. Where they
/// are an unknown draft then, and this is wanted, all places are read, once.
pub fn visit(beside: &mut Beside, all: &mut bool, rng: &mut Rng) -> Alike {
    let kept = beside.words.part().to_vec();
    let (draft, memory) = (beside.draft.clone(), beside.memory.clone());
    let Some(change) = any_change(beside, &kept[..WORDS], rng)? else {
        return Ok(());
    };
    let changed = listed(&kept, &change.words);
    beside.note(format!("a stranger's change: {}{changed}", change.kind));
    beside.words.overwrite(&change.words);
    judge(beside, change.kind, change.now, all, rng)?;
    beside.note("the words are put back".to_string());
    beside.words.overwrite(&kept);
    (beside.draft, beside.memory) = (draft, memory);
    if rng.chance(25) {
        beside.survey(false, rng)
    } else {
        beside.call(Call::Core { core: 0 }).map(drop)
    }
}

/// The words that were changed, where they are few.
fn listed(kept: &[u32], words: &[u32]) -> String {
    let pairs = kept.iter().zip(words).enumerate();
    let changed = pairs.filter(|(_, (before, after))| before != after);
    let list: Vec<_> = changed
        .map(|(at, (before, after))| format!(", word {at} from {before} to {after}"))
        .collect();
    if list.len() > 20 {
        return format!(", {} words", list.len());
    }
    list.concat()
}

fn any_change(beside: &Beside, kept: &[u32], rng: &mut Rng) -> Alike<Option<Change>> {
    let plain = |kind: &'static str, words: Vec<u32>| Change {
        kind,
        words,
        now: Now::Unknown,
    };
    let state = rng.below(beside.states.len().max(1));
    let state = beside.states.get(state);
    Ok(match rng.below(21) {
        0..5 => Some(plain(
            "words that edits write",
            at_some(&beside.edited, kept, rng),
        )),
        5..9 => Some(plain(
            "words that making writes",
            at_some(&beside.written, kept, rng),
        )),
        9 => Some(plain("any words", at_some(&[], kept, rng))),
        10..14 => state.map(|state| Change {
            kind: "two states mixed",
            words: mixed(kept, &state.words, rng),
            now: Now::PartOf(state.draft.clone()),
        }),
        14 => state.map(|state| Change {
            kind: "an older state",
            words: state.words.clone(),
            now: Now::Draft(state.draft.clone()),
        }),
        15..18 => another(beside, kept, rng)?,
        18 => Some(plain("words exchanged", exchanged(beside, kept, rng))),
        19 => beside.draft.clone().map(|draft| Change {
            kind: "words past the first 32,768",
            words: changed_past(beside, rng),
            now: Now::Draft(draft),
        }),
        _ => Some(match rng.below(3) {
            0 => plain("all 0", vec![0; WORDS]),
            1 => plain("all 1", vec![u32::MAX; WORDS]),
            _ => plain("noise", (0..WORDS).map(|_| rng.word()).collect()),
        }),
    })
}

/// Changes some of these words, or any where there are none.
fn at_some(at: &[usize], kept: &[u32], rng: &mut Rng) -> Vec<u32> {
    let mut words = kept.to_vec();
    let count = rng.pick(&[1, 1, 1, 2, 3, 8]);
    for _ in 0..count {
        let at = match rng.pick_any(at) {
            Some(at) => at,
            None => rng.below(WORDS),
        };
        let near = rng.pick(&[1, 2, 4, u32::MAX, u32::MAX - 1, 1 << 31, 1 << 16]);
        words[at] = match rng.below(4) {
            0 => 0,
            1 => rng.word(),
            2 => kept[rng.below(WORDS)],
            _ => words[at].wrapping_add(near),
        };
    }
    words
}

/// Each word of one of two states.
fn mixed(kept: &[u32], other: &[u32], rng: &mut Rng) -> Vec<u32> {
    let percent = rng.pick(&[10, 50, 90]);
    let pairs = kept.iter().zip(other);
    let one_of = |(own, other): (&u32, &u32)| {
        if own != other && rng.chance(percent) {
            *other
        } else {
            *own
        }
    };
    pairs.map(one_of).collect()
}

/// Other words past those of the draft.
fn changed_past(beside: &Beside, rng: &mut Rng) -> Vec<u32> {
    let mut words = beside.words.part().to_vec();
    words[WORDS..].fill_with(|| rng.word());
    words
}

/// Two words that are written change places.
fn exchanged(beside: &Beside, kept: &[u32], rng: &mut Rng) -> Vec<u32> {
    let mut words = kept.to_vec();
    let all = [&beside.edited[..], &beside.written[..]];
    let pair = all.map(|some| rng.pick_any(some).unwrap_or(0));
    words.swap(pair[0], pair[1]);
    words
}

/// The words of another image's draft, or a part of them.
fn another(beside: &Beside, kept: &[u32], rng: &mut Rng) -> Alike<Option<Change>> {
    let image = super::images::loose(rng).encode();
    let draft = Draft::make(&image, WORDS).map_err(|number| format!("our own: {number}"))?;
    let mut other = LentWords::noise(WORDS, rng);
    if beside.theirs.make(&image, other.lend(WORDS)) != 0 {
        return Err("another draft is made".to_string());
    }
    let mut words = other.part().to_vec();
    let cut = match rng.below(4) {
        0 => {
            return Ok(Some(Change {
                kind: "another draft",
                words,
                now: Now::Draft(draft),
            }))
        }
        1 => WORDS / 2,
        2 => rng.below(WORDS),
        _ => rng.below(14_000),
    };
    if rng.chance(50) {
        words[cut..].copy_from_slice(&kept[cut..]);
    } else {
        words[..cut].copy_from_slice(&kept[..cut]);
    }
    Ok(Some(Change {
        kind: "parts of two drafts",
        words,
        now: Now::PartOf(draft),
    }))
}

/// Asks of words of which nothing may be known whether all calls refuse them,
/// or totals are true and stay so. All places are read, or as many as seem to
/// be enough.
pub fn judge(
    beside: &mut Beside,
    kind: &'static str,
    now: Now,
    all: &mut bool,
    rng: &mut Rng,
) -> Alike {
    // Every draft has a core 0.
    let number = beside.foreign(Call::Core { core: 0 })?.number;
    if ![0, 33].contains(&number) {
        return Err("the total of core 0 gives 0 or 33".to_string());
    }
    beside.met.stranger(kind, number == 0);
    if let Now::Draft(draft) = now {
        beside.draft = Some(draft);
        return go_on(beside, rng);
    }
    if number == 33 {
        return all_refuse(beside, rng);
    }
    let mut learned = Learned::of(beside, &now, all, rng)?;
    learned.ask_totals(beside, rng)?;
    learned.edit(beside, rng)?;
    learned.ask_totals(beside, rng)
}

/// Readings and edits of a draft that is known.
fn go_on(beside: &mut Beside, rng: &mut Rng) -> Alike {
    beside.survey(false, rng)?;
    for _ in 0..6 {
        let call = aims::any_call(beside.known(), &beside.memory, rng);
        beside.call(call)?;
    }
    Ok(())
}

/// Calls that a draft that was there would take are refused.
fn all_refuse(beside: &mut Beside, rng: &mut Rng) -> Alike {
    let mut calls = vec![
        Call::Add {
            place: PLACES,
            piece: [u32::MAX; 4],
        },
        Call::Remove { place: 0 },
        Call::Move { place: 0, start: 0 },
        Call::Job { task: 0, job: 0 },
        Call::Core { core: 32 },
        Call::Place { place: 0, lent: 3 },
    ];
    if let Some(draft) = &beside.draft {
        let memory = &beside.memory;
        calls.extend((0..2).filter_map(|_| aims::accepted_edit(draft, memory, rng)));
        calls.extend((0..2).map(|_| aims::any_call(draft, memory, rng)));
    }
    for call in calls {
        if beside.foreign(call)?.number != 33 {
            return Err("33 is right, as before".to_string());
        }
    }
    Ok(())
}

/// The pieces of a draft of which nothing is known, as far as they were read.
/// Those not read are taken to be as before; where totals then are not true,
/// all are read.
struct Learned {
    pieces: BTreeMap<u32, Piece>,
    is_whole: bool,
}

impl Learned {
    fn of(beside: &mut Beside, now: &Now, all: &mut bool, rng: &mut Rng) -> Alike<Learned> {
        let before = beside.draft.as_ref().map(|draft| draft.pieces().clone());
        let mut origins: Vec<_> = before.into_iter().collect();
        if let Now::PartOf(draft) = now {
            origins.push(draft.pieces().clone());
        }
        if !std::mem::take(all) {
            for pieces in &origins {
                let learned = Learned::nearly(beside, pieces, &origins, rng)?;
                if learned.untrue(beside, rng)?.is_none() {
                    return Ok(learned);
                }
            }
        }
        let mut learned = Learned {
            pieces: BTreeMap::new(),
            is_whole: true,
        };
        learned.read_all(beside)?;
        Ok(learned)
    }

    /// These pieces, but for places that are read: some, and those where the
    /// drafts differ that the words may be of.
    fn nearly(
        beside: &mut Beside,
        pieces: &BTreeMap<u32, Piece>,
        origins: &[BTreeMap<u32, Piece>],
        rng: &mut Rng,
    ) -> Alike<Learned> {
        let mut learned = Learned {
            pieces: pieces.clone(),
            is_whole: false,
        };
        let mut places: Vec<u32> = pieces.keys().copied().collect();
        rng.shuffle(&mut places);
        places.truncate(16);
        places.extend((0..6).map(|_| rng.within(0..=PLACES - 1)));
        let differ = |place: &u32| {
            let mut others = origins.iter();
            others.any(|other| other.get(place) != pieces.get(place))
        };
        places.extend((0..PLACES).filter(differ).take(60));
        for place in places {
            learned.read(beside, place)?;
        }
        Ok(learned)
    }

    fn read(&mut self, beside: &mut Beside, place: u32) -> Alike<Option<Piece>> {
        let piece = beside.foreign_piece(place)?;
        match piece {
            Some(piece) => self.pieces.insert(place, piece),
            None => self.pieces.remove(&place),
        };
        Ok(piece)
    }

    fn read_all(&mut self, beside: &mut Beside) -> Alike {
        self.is_whole = true;
        (0..PLACES).try_for_each(|place| self.read(beside, place).map(drop))
    }

    /// Asks whether totals are the sums over the pieces.
    fn ask_totals(&mut self, beside: &mut Beside, rng: &mut Rng) -> Alike {
        match self.untrue(beside, rng)? {
            None => Ok(()),
            Some(_) if !self.is_whole => {
                self.read_all(beside)?;
                self.ask_totals(beside, rng)
            }
            Some(how) => Err(how),
        }
    }

    /// A total that is not the sum over the pieces.
    fn untrue(&self, beside: &mut Beside, rng: &mut Rng) -> Alike<Option<String>> {
        let mut of_cores = 0;
        for core in 0..=32 {
            let outcome = beside.foreign(Call::Core { core })?;
            match outcome.number {
                0 => of_cores += u64::from(outcome.total),
                5 => break,
                _ => return Ok(Some("a core's total gives 0 or 5".to_string())),
            }
        }
        let sum = |pieces: &mut dyn Iterator<Item = &Piece>| -> u64 {
            pieces.map(|piece| u64::from(piece[3])).sum()
        };
        let of_pieces = sum(&mut self.pieces.values());
        if of_cores != of_pieces {
            let how = format!("cores' totals sum to {of_cores}, pieces to {of_pieces}");
            return Ok(Some(how));
        }
        let mut jobs = jobs_of(&self.pieces);
        if !self.is_whole || jobs.len() > 300 {
            rng.shuffle(&mut jobs);
            jobs.truncate(10);
        }
        for [task, job] in jobs {
            let outcome = beside.foreign(Call::Job { task, job })?;
            let of_job = |piece: &&Piece| piece[..2] == [task, job];
            let of_pieces = sum(&mut self.pieces.values().filter(of_job));
            if (outcome.number, u64::from(outcome.total)) != (0, of_pieces) {
                return Ok(Some(format!("the job's pieces sum to {of_pieces}")));
            }
        }
        Ok(None)
    }

    /// Edits that a draft with these pieces takes, and some that it may.
    fn edit(&mut self, beside: &mut Beside, rng: &mut Rng) -> Alike {
        for place in self.worth_editing(beside, rng) {
            if let Some(piece) = self.read(beside, place)? {
                self.edit_piece(beside, place, piece)?;
            }
        }
        let Some(draft) = beside.draft.clone() else {
            return Ok(());
        };
        for _ in 0..3 {
            let call = aims::any_call(&draft, &beside.memory, rng);
            if let Some(place) = call.edited_place() {
                self.read(beside, place)?;
                if beside.foreign(call)?.number == 0 {
                    self.follow(beside, call)?;
                }
            }
        }
        Ok(())
    }

    /// Pieces that the stranger changed, or any.
    fn worth_editing(&self, beside: &Beside, rng: &mut Rng) -> Vec<u32> {
        let mut places: Vec<u32> = self.pieces.keys().copied().collect();
        rng.shuffle(&mut places);
        if let Some(draft) = &beside.draft {
            places.sort_by_key(|place| draft.pieces().get(place) == self.pieces.get(place));
        }
        places.truncate(2);
        places
    }

    /// Takes a piece away and back, and moves it to where it is.
    fn edit_piece(&mut self, beside: &mut Beside, place: u32, piece: Piece) -> Alike {
        let edits = [
            Call::Remove { place },
            Call::Add { place, piece },
            Call::Move {
                place,
                start: piece[2],
            },
        ];
        for call in edits {
            if beside.foreign(call)?.number != 0 {
                return Err("a draft with this piece takes this".to_string());
            }
            self.follow(beside, call)?;
        }
        Ok(())
    }

    /// What is at the place of an edit that was taken, which was read before.
    fn follow(&mut self, beside: &mut Beside, call: Call) -> Alike {
        let (place, expected) = match call {
            Call::Add { place, piece } => (place, Some(piece)),
            Call::Remove { place } => (place, None),
            Call::Move { place, start } => {
                let before = self.pieces.get(&place);
                let moved = before.map(|&[task, job, _, length]| [task, job, start, length]);
                (place, moved)
            }
            _ => return Ok(()),
        };
        if self.read(beside, place)? != expected {
            return Err(format!("the place has {expected:?}"));
        }
        Ok(())
    }
}
