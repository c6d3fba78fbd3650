//! Models in the house form.

use crate::draws::Draws;
use crate::letters::LETTERS;

/// The kind of a state record.
pub const STATE_KIND: u8 = 0x20;
/// The bytes of a state record.
pub const RECORD_BYTES: usize = 11;
/// The most states of a model.
pub const MOST_STATES: usize = 64;
/// The most bytes of a model.
pub const MOST_BYTES: usize = MOST_STATES * RECORD_BYTES;

/// One state of a model.
#[derive(Debug, Clone, Copy, PartialEq, Eq)]
pub struct State {
    /// Its letter, 0 to 63 in a good model.
    pub letter: u8,
    /// 1 if it is initial, else 0, in a good model.
    pub flag: u8,
    /// The states that it leads to, bit t for state t.
    pub successors: u64,
}

/// The records of some states.
pub fn bytes_of(states: &[State]) -> Vec<u8> {
    let mut out = Vec::with_capacity(states.len() * RECORD_BYTES);
    for state in states {
        out.extend([STATE_KIND, state.letter, state.flag]);
        out.extend(state.successors.to_le_bytes());
    }
    out
}

/// The set of the first so many states.
pub fn all(count: usize) -> u64 {
    match count {
        0 => 0,
        _ => u64::MAX >> (MOST_STATES - count.min(MOST_STATES)),
    }
}

/// How the states of a drawn model lead to each other.
#[derive(Debug, Clone, Copy)]
enum Ways {
    /// One or two successors each.
    Sparse,
    /// About half of all.
    Dense,
    /// All.
    Full,
    /// The next one, and from the last the first.
    Ring,
    /// The next one, and from the last nowhere.
    Chain,
    /// None up to two each: some states are dead ends.
    Few,
}

/// A good model of 0 to 64 states.
pub fn accepted(draws: &mut Draws) -> Vec<u8> {
    let count = count(draws);
    bytes_of(&states(draws, count))
}

fn count(draws: &mut Draws) -> usize {
    match draws.below(4) {
        0 => draws.between(0, 4),
        1 => draws.between(1, 16),
        2 => draws.between(62, MOST_STATES),
        _ => draws.between(0, MOST_STATES),
    }
}

/// Good states, so many of them; with few letters the highest propositions never hold.
pub fn states(draws: &mut Draws, count: usize) -> Vec<State> {
    let ways = draws.one_of(&[
        Ways::Sparse,
        Ways::Sparse,
        Ways::Dense,
        Ways::Full,
        Ways::Ring,
        Ways::Chain,
        Ways::Few,
        Ways::Few,
    ]);
    let bound = draws.one_of(&[2, 4, 8, LETTERS]);
    let initial_once_in = draws.between(1, count.max(1));
    let state = |at| State {
        letter: draws.below(bound) as u8,
        flag: u8::from(at == 0 || draws.once_in(initial_once_in)),
        successors: successors(draws, ways, at, count),
    };
    (0..count).map(state).collect()
}

fn successors(draws: &mut Draws, ways: Ways, at: usize, count: usize) -> u64 {
    match ways {
        Ways::Sparse => 1 << draws.below(count) | 1 << draws.below(count),
        Ways::Dense => draws.word() & all(count),
        Ways::Full => all(count),
        Ways::Ring => 1 << ((at + 1) % count),
        Ways::Chain if at + 1 < count => 1 << (at + 1),
        Ways::Chain => 0,
        Ways::Few => (0..draws.below(3)).fold(0, |set, _| set | 1 << draws.below(count)),
    }
}

/// A good model in which some run spells the letters, up to the 64th: one or more states for each letter, each of which
/// leads to all those of the next and perhaps elsewhere, under shuffled numbers. Those of the last letter mostly lead to
/// some state; now and then they are dead ends, so that no run may be left. No letters, no states.
pub fn spelling(draws: &mut Draws, letters: &[u8]) -> Vec<u8> {
    if letters.is_empty() {
        return Vec::new();
    }
    let mut steps: Vec<usize> = (0..letters.len().min(MOST_STATES)).collect();
    for _ in 0..draws.below(MOST_STATES - steps.len() + 1) {
        steps.push(draws.below(letters.len()));
    }
    shuffle(draws, &mut steps);
    let stray_once_in = draws.one_of(&[1, 4, 1000]);
    let on = match draws.once_in(8) {
        true => 0,
        false => 1 << draws.below(steps.len()),
    };
    let state = |&step: &usize| State {
        letter: letters[step],
        flag: u8::from(step == 0),
        successors: match states_of(&steps, step + 1) {
            0 => on,
            next => next | stray(draws, stray_once_in, steps.len()),
        },
    };
    bytes_of(&steps.iter().map(state).collect::<Vec<_>>())
}

/// The set of the states that stand for a step.
fn states_of(steps: &[usize], step: usize) -> u64 {
    let members = (0..steps.len()).filter(|&at| steps[at] == step);
    members.fold(0, |set, at| set | 1 << at)
}

/// Now and then a successor out of turn.
fn stray(draws: &mut Draws, once_in: usize, count: usize) -> u64 {
    match draws.once_in(once_in) {
        true => 1 << draws.below(count),
        false => 0,
    }
}

fn shuffle(draws: &mut Draws, several: &mut [usize]) {
    for last in (1..several.len()).rev() {
        several.swap(draws.below(last + 1), last);
    }
}

/// States in a ring: each leads to the next, the last to the first, which alone is initial. Proposition 0 holds in
/// one of them, if any.
pub fn ring(count: usize, marked: Option<usize>) -> Vec<u8> {
    let state = |at| State {
        letter: u8::from(marked == Some(at)),
        flag: u8::from(at == 0),
        successors: 1 << ((at + 1) % count),
    };
    bytes_of(&(0..count).map(state).collect::<Vec<_>>())
}

/// As many states as there can be, of any letters: each leads to the next and to some other, the last to the first, and
/// about one in eight is initial. All of them last.
pub fn round(draws: &mut Draws) -> Vec<u8> {
    let state = |at| State {
        letter: draws.below(LETTERS) as u8,
        flag: u8::from(at == 0 || draws.once_in(8)),
        successors: 1u64 << ((at + 1) % MOST_STATES) | 1 << draws.below(MOST_STATES),
    };
    bytes_of(&(0..MOST_STATES).map(state).collect::<Vec<_>>())
}

/// States of which each leads to all, all initial; state k has letter k.
pub fn full(count: usize) -> Vec<u8> {
    let state = |at| State {
        letter: at as u8,
        flag: 1,
        successors: all(count),
    };
    bytes_of(&(0..count).map(state).collect::<Vec<_>>())
}

#[cfg(test)]
mod tests {
    use super::*;

    #[test]
    fn sets_of_all_states() {
        assert_eq!(all(0), 0);
        assert_eq!(all(3), 0b111);
        assert_eq!(all(64), u64::MAX);
    }

    #[test]
    fn drawn_models_are_whole_records() {
        let mut draws = Draws::new(1);
        for _ in 0..200 {
            let model = accepted(&mut draws);
            assert!(model.len() <= MOST_BYTES);
            assert_eq!(model.len() % RECORD_BYTES, 0);
        }
    }
}
