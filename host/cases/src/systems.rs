//! Models given by two formulas, one for the initial states and one for the step: good pairs, and bytes at the limits.

use crate::draws::Draws;
use crate::hostile::{joined_left, joined_right, nested};
use crate::rules::kind::*;
use crate::rules::PROPOSITIONS;

/// The most bytes of two formulas, with the kind that stands before each.
pub const MOST_BYTES: usize = 255;
/// The kinds that stand before the formulas.
const MARKS: usize = 2;

/// Two formulas, each behind its kind.
pub fn system(initial: &[u8], step: &[u8]) -> Vec<u8> {
    [&[INITIAL], initial, &[STEP], step].concat()
}

/// What a formula may name.
#[derive(Debug, Clone, Copy)]
struct Names {
    propositions: usize,
    /// Once in so many times a proposition is the next state's; 0 for never.
    next_once_in: usize,
}

/// A good pair of at most 255 bytes.
pub fn accepted(draws: &mut Draws) -> Vec<u8> {
    match draws.below(4) {
        0 => jobs(draws),
        1 => {
            let most = draws.one_of(&[MARKS + 2, 12, 40, MOST_BYTES]);
            let length = draws.between(MARKS + 2, most);
            of_length(draws, length)
        }
        2 => {
            let length = draws.between(MOST_BYTES - 3, MOST_BYTES);
            of_length(draws, length)
        }
        _ => {
            let length = draws.between(MARKS + 2, 24);
            of_length(draws, length)
        }
    }
}

/// A good pair of exactly so many bytes, 4 or more; more than 255 are too many.
pub fn of_length(draws: &mut Draws, length: usize) -> Vec<u8> {
    let both = length - MARKS;
    let first = match draws.below(4) {
        0 => 1,
        1 => both - 1,
        _ => draws.between(1, both - 1),
    };
    let propositions = draws.one_of(&[1, 2, PROPOSITIONS]);
    let names = |next_once_in| Names {
        propositions,
        next_once_in,
    };
    let next_once_in = draws.one_of(&[1, 2, 2, 4]);
    let mut out = vec![INITIAL];
    put_formula(draws, names(0), first, &mut out);
    out.push(STEP);
    put_formula(draws, names(next_once_in), both - first, &mut out);
    out
}

/// A formula of exactly so many bytes.
fn put_formula(draws: &mut Draws, names: Names, length: usize, out: &mut Vec<u8>) {
    match length {
        0 => {}
        1 => out.push(draws.one_of(&[TRUE, FALSE])),
        2 => put_atom(draws, names, out),
        _ if length == 3 && draws.once_in(2) || draws.once_in(4) => {
            out.push(NOT);
            put_formula(draws, names, length - 1, out);
        }
        _ => {
            out.push(draws.one_of(&[AND, OR]));
            let rest = length - 1;
            // Deep to the left, deep to the right, or anything.
            let any = draws.between(1, rest - 1);
            let first = match draws.below(6) {
                0 => 2.min(rest - 1),
                1 => rest.saturating_sub(2).max(1),
                _ => any,
            };
            put_formula(draws, names, first, out);
            put_formula(draws, names, rest - first, out);
        }
    }
}

fn put_atom(draws: &mut Draws, names: Names, out: &mut Vec<u8>) {
    let next = names.next_once_in > 0 && draws.once_in(names.next_once_in);
    let kind = if next { NEXT } else { PROPOSITION };
    out.extend([kind, draws.below(names.propositions) as u8]);
}

/// Flags of a few jobs, as a person would write them: each begins as it is said, and each either stays, turns, is what
/// another one was, or is free.
pub fn jobs(draws: &mut Draws) -> Vec<u8> {
    let flags = draws.between(1, PROPOSITIONS) as u8;
    let mut initial = vec![TRUE];
    let mut step = vec![TRUE];
    for flag in 0..flags {
        let now = [PROPOSITION, flag];
        let next = [NEXT, flag];
        let other = [PROPOSITION, draws.below(flags.into()) as u8];
        match draws.below(4) {
            0 => initial = join(AND, &initial, &now),
            1..=2 => initial = join(AND, &initial, &nested(NOT, 1, &now)),
            _ => {}
        }
        match draws.below(6) {
            0..=1 => step = join(AND, &step, &alike(&next, &now)),
            2 => step = join(AND, &step, &alike(&next, &nested(NOT, 1, &now))),
            3 => step = join(AND, &step, &alike(&next, &other)),
            4 => step = join(AND, &step, &join(OR, &next, &nested(NOT, 1, &other))),
            _ => {}
        }
    }
    system(&initial, &step)
}

fn join(kind: u8, a: &[u8], b: &[u8]) -> Vec<u8> {
    [&[kind], a, b].concat()
}

/// Both or neither.
fn alike(a: &[u8], b: &[u8]) -> Vec<u8> {
    join(OR, &join(AND, a, b), &nested(NOT, 1, &join(OR, a, b)))
}

/// A counter of six bits: it begins at 0 and goes through all states in a ring.
pub fn counter() -> Vec<u8> {
    let turns = |bit| nested(NOT, 1, &alike(&[NEXT, bit], &[PROPOSITION, bit]));
    let zero = |bit| vec![NOT, PROPOSITION, bit];
    let (mut initial, mut step) = (zero(0), turns(0));
    for bit in 1..PROPOSITIONS as u8 {
        // A bit turns exactly if the one below it falls.
        let falls = [AND, PROPOSITION, bit - 1, NOT, NEXT, bit - 1];
        step = join(AND, &step, &alike(&turns(bit), &falls));
        initial = join(AND, &initial, &zero(bit));
    }
    system(&initial, &step)
}

/// All bytes up to a length, over some bytes.
pub fn all_up_to(length: usize, alphabet: &[u8]) -> Vec<Vec<u8>> {
    let mut all = vec![vec![]];
    let mut last = all.clone();
    for _ in 0..length {
        let longer = |bytes: &Vec<u8>| -> Vec<_> {
            alphabet
                .iter()
                .map(|&b| [&bytes[..], &[b]].concat())
                .collect()
        };
        last = last.iter().flat_map(longer).collect();
        all.extend_from_slice(&last);
    }
    all
}

/// All hostile pairs.
pub fn hostile() -> Vec<Vec<u8>> {
    [deep(), too_long(), out_of_place(), bodies(), cuts()].concat()
}

/// Formulas as deep as the bytes allow, for the initial states, for the step and for both, and one byte past that.
pub fn deep() -> Vec<Vec<u8>> {
    let mut systems = Vec::new();
    let room = MOST_BYTES - MARKS;
    for atom in [&[TRUE][..], &[FALSE], &[PROPOSITION, 5], &[NEXT, 5]] {
        let size = atom.len();
        let mut each = |room: usize, put: &dyn Fn(&[u8]) -> Vec<u8>| {
            for more in [0, 1] {
                systems.push(put(&nested(NOT, room - size + more, atom)));
            }
            let count = (room + 1) / (size + 1);
            for kind in [AND, OR] {
                systems.push(put(&joined_left(kind, atom, count)));
                systems.push(put(&joined_right(kind, atom, count)));
                systems.push(put(&joined_left(kind, atom, count + 1)));
                // Each operand under nots of its own.
                let under = nested(NOT, 3, atom);
                let count = (room + 1) / (under.len() + 1);
                systems.push(put(&joined_left(kind, &under, count)));
                systems.push(put(&joined_right(kind, &under, count)));
            }
        };
        each(room - 1, &|formula| system(&[TRUE], formula));
        each(room - 1, &|formula| system(formula, &[TRUE]));
        each(room / 2, &|formula| system(formula, formula));
        each(room / 2, &|formula| {
            system(&nested(NOT, room / 2 - 1, &[TRUE]), formula)
        });
    }
    // Nothing but operators, and all room taken.
    for kind in [NOT, AND, OR, INITIAL, STEP, NEXT, PROPOSITION] {
        for length in [MOST_BYTES, MOST_BYTES + 1] {
            systems.push(vec![kind; length]);
            systems.push(nested(INITIAL, 1, &vec![kind; length - 1]));
            systems.push([&[INITIAL, TRUE, STEP][..], &vec![kind; length - 3]].concat());
        }
    }
    systems.push(counter());
    systems
}

/// Pairs of more than 255 bytes, some of which a short counter of bytes would take for shorter ones.
fn too_long() -> Vec<Vec<u8>> {
    let good = system(&[TRUE], &[TRUE]);
    let mut systems = vec![vec![0xFF; 256], vec![0; 1000], vec![INITIAL; 300]];
    for length in [256, 257, 260, 511, 512, 516, 65_535, 65_536, 65_540] {
        let mut long = good.clone();
        long.resize(length, TRUE);
        systems.push(long);
        systems.push(system(&nested(NOT, length - 4, &[TRUE]), &[TRUE]));
    }
    systems
}

/// Every byte in the place of each kind of some pairs.
fn out_of_place() -> Vec<Vec<u8>> {
    let mut systems = Vec::new();
    let good = [
        system(&[TRUE], &[TRUE]),
        system(&[AND, TRUE, NOT, FALSE], &[OR, NEXT, 0, PROPOSITION, 5]),
    ];
    for pair in good {
        for at in 0..=pair.len() {
            for byte in 0..=0xFF {
                let mut other = pair.clone();
                match at < pair.len() {
                    true => other[at] = byte,
                    false => other.push(byte),
                }
                systems.push(other);
            }
        }
    }
    systems
}

/// Numbers of propositions that there are and that there are not, deep and shallow, now and next.
fn bodies() -> Vec<Vec<u8>> {
    let mut systems = Vec::new();
    for number in [0, 4, 5, 6, 7, 8, 63, 64, 0x80, 0xFE, 0xFF] {
        for kind in [PROPOSITION, NEXT] {
            for nots in [0, 1, 100] {
                let atom = nested(NOT, nots, &[kind, number]);
                systems.push(system(&atom, &[TRUE]));
                systems.push(system(&[TRUE], &atom));
                systems.push(system(&[PROPOSITION, 1], &join(AND, &[NEXT, 3], &atom)));
                systems.push(system(&join(OR, &atom, &[PROPOSITION, 2]), &atom));
            }
        }
    }
    systems
}

/// Good pairs cut after each byte.
fn cuts() -> Vec<Vec<u8>> {
    let counter = counter();
    let short = system(&[PROPOSITION, 1], &join(AND, &[NEXT, 3], &[NOT, NEXT, 2]));
    let cut = |pair: Vec<u8>| (0..=pair.len()).map(move |length| pair[..length].to_vec());
    cut(counter).chain(cut(short)).collect()
}

#[cfg(test)]
mod tests {
    use super::*;

    #[test]
    fn drawn_pairs_have_their_length() {
        let mut draws = Draws::new(4);
        for length in 4..300 {
            assert_eq!(of_length(&mut draws, length).len(), length);
        }
        for _ in 0..1000 {
            assert!(accepted(&mut draws).len() <= MOST_BYTES);
            assert!(jobs(&mut draws).len() <= MOST_BYTES);
        }
    }

    #[test]
    fn the_counter_is_short_enough() {
        assert_eq!(counter().len(), 253);
    }

    #[test]
    fn deep_pairs_fill_the_limit() {
        let lengths: Vec<usize> = deep().iter().map(Vec::len).collect();
        assert!(lengths.contains(&MOST_BYTES));
        assert!(lengths.contains(&(MOST_BYTES + 1)));
        let all = all_up_to(2, &[1, 2]);
        assert_eq!(all.len(), 7);
        assert_eq!(all[6], [2, 2]);
    }
}
