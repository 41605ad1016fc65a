//! Stepping dispatch tables: questions 27 and 28.

/// Where a lane stands: the fields of the 28-byte record, in its order.
#[derive(Clone, Copy, Debug, PartialEq, Eq)]
pub struct State {
    pub cycle: u64,
    pub tick: u32,
    pub entry: u32,
    /// The first word of the lane's table.
    pub first: u32,
    /// The kind and row last shown.
    pub kind: u32,
    pub row: u32,
}

/// A start in any cycle, for a table at any first word.
pub fn start(cycle: u64, first: u32) -> State {
    State {
        cycle,
        tick: 0,
        entry: 0,
        first,
        kind: 0,
        row: 0,
    }
}

/// Steps one lane: 0, or 27 or 28 with the state unchanged.
pub fn step(words: &[u32], state: &mut State) -> u32 {
    match stepped(words, state) {
        Ok(next) => {
            *state = next;
            0
        }
        Err(refusal) => refusal,
    }
}

/// Steps all lanes: 0, or the number of the lowest refused record with every
/// record unchanged.
pub fn step_all(words: &[u32], states: &mut [State]) -> u32 {
    let all: Result<Vec<State>, u32> = states.iter().map(|state| stepped(words, state)).collect();
    match all {
        Ok(next) => {
            states.copy_from_slice(&next);
            0
        }
        Err(refusal) => refusal,
    }
}

/// The state one tick on, or the number of the question answered no.
fn stepped(words: &[u32], state: &State) -> Result<State, u32> {
    let position = Position::find(words, state).ok_or(27_u32)?;
    let [_, kind, row] = position.entry;
    let mut next = *state;
    (next.kind, next.row) = (kind, row);
    if position.is_last_tick {
        next.cycle = state.cycle.checked_add(1).ok_or(28_u32)?;
        (next.tick, next.entry) = (0, 0);
    } else {
        next.tick += 1;
        next.entry += u32::from(position.next_first == Some(next.tick));
    }
    Ok(next)
}

/// What a fitting state stands at.
struct Position {
    entry: [u32; 3],
    /// The next entry's first tick, if there is one.
    next_first: Option<u32>,
    is_last_tick: bool,
}

impl Position {
    /// The position of a state that fits its words.
    fn find(words: &[u32], state: &State) -> Option<Position> {
        let table = words.get(state.first as usize..)?;
        let (&[cycle, count], rest) = table.split_first_chunk()?;
        let entries = rest.as_chunks::<3>().0.get(..count as usize)?;
        let entry = *entries.get(state.entry as usize)?;
        let next_first = entries.get(state.entry as usize + 1).map(|next| next[0]);
        let fits = state.tick < cycle
            && entry[0] <= state.tick
            && next_first.is_none_or(|first| state.tick < first);
        fits.then(|| Position {
            entry,
            next_first,
            is_last_tick: state.tick == cycle - 1,
        })
    }
}
