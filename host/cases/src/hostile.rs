//! Inputs at the limits and past them: nesting as deep as the bytes allow, weights past every word, cut records.

use crate::models::{self, bytes_of, State, MOST_BYTES, MOST_STATES, RECORD_BYTES};
use crate::rules::kind::*;
use crate::rules::{ANY, MOST_BYTES as MOST_RULE_BYTES, P0};

/// The operators with two rules as operands.
const PAIRS: [u8; 5] = [THEN, OVERLAP, CHOICE, WITHIN, BOTH];

/// A kind so many times before what it is of.
pub fn nested(kind: u8, times: usize, operand: &[u8]) -> Vec<u8> {
    let mut rule = vec![kind; times];
    rule.extend_from_slice(operand);
    rule
}

/// So many operands joined such that the first is the deepest.
pub fn joined_left(kind: u8, operand: &[u8], count: usize) -> Vec<u8> {
    nested(kind, count - 1, &operand.repeat(count))
}

/// So many operands joined such that the last is the deepest.
pub fn joined_right(kind: u8, operand: &[u8], count: usize) -> Vec<u8> {
    let link = nested(kind, 1, operand);
    [link.repeat(count - 1), operand.to_vec()].concat()
}

/// All hostile rules.
pub fn rules() -> Vec<Vec<u8>> {
    [
        repetitions(),
        formulas(),
        pairs(),
        at_the_weight(),
        deep(),
        past_every_word(),
        too_long(),
        counts(),
    ]
    .concat()
}

/// Counts so many times before what they are of.
pub fn counted(least: u8, most: u8, times: usize, operand: &[u8]) -> Vec<u8> {
    [&[COUNTED, least, most].repeat(times)[..], operand].concat()
}

/// So many letters that satisfy a formula.
pub fn hits(least: u8, most: u8, formula: &[u8]) -> Vec<u8> {
    [&[HITS, least, most], formula].concat()
}

/// Counts as deep as the bytes allow, complete and cut, light and past every word; counts that are none; no parts of what
/// is far too heavy.
fn counts() -> Vec<Vec<u8>> {
    let mut rules = Vec::new();
    for (least, most) in [(15, 15), (1, 1), (0, 1), (0, 15), (0, 0), (2, 2)] {
        rules.push(counted(least, most, 85, &[]));
        for times in [1, 2, 3, 6, 7, 83, 84] {
            rules.push(counted(least, most, times, &[EMPTY]));
            rules.push(counted(least, most, times, &ANY));
            rules.push(counted(least, most, times, &P0));
            rules.push(counted(least, most, times, &nested(STAR, 1, &P0)));
            rules.push(counted(least, most, times, &hits(0, 15, &[TRUE])));
        }
        rules.push(hits(least, most, &nested(NOT, 251, &[TRUE])));
        rules.push(hits(least, most, &nested(NOT, 252, &[])));
        rules.push(hits(least, most, &joined_left(AND, &[TRUE], 126)));
        for count in [3, 4, 31, 32, 33, 42, 50] {
            rules.push(joined_left(THEN, &hits(least, most, &[TRUE]), count));
            rules.push(joined_right(BOTH, &hits(least, most, &[TRUE]), count));
        }
    }
    // Deep and many: the copies above, below and between single ones.
    let once = |times: usize, operand: &[u8]| counted(1, 1, times, operand);
    rules.push(counted(15, 15, 1, &counted(2, 2, 1, &once(80, &P0))));
    rules.push(once(80, &counted(0, 15, 1, &counted(0, 2, 1, &P0))));
    rules.push(once(
        40,
        &counted(0, 15, 1, &once(40, &nested(STAR, 1, &P0))),
    ));
    rules.push(counted(4, 4, 3, &once(81, &[EMPTY])));
    rules.push(counted(2, 2, 6, &once(78, &[EMPTY])));
    rules.push([&[STAR, COUNTED, 1, 1].repeat(62)[..], &P0].concat());
    rules.push([&[COUNTED, 0, 1, PLUS].repeat(63)[..], &ANY].concat());
    // No parts of what is too heavy, which weigh 1 also inside.
    for power in [7, 8, 16, 32, 63, 64, 65, 83] {
        let none = counted(0, 0, 1, &joined_left(BOTH, &ANY, power));
        rules.push([&[THEN][..], &P0, &none[..none.len().min(250)]].concat());
        rules.push(counted(15, 15, 1, &none[..none.len().min(252)]));
        rules.push(none);
    }
    rules.push(counted(0, 0, 42, &counted(15, 15, 42, &[EMPTY])));
    rules.push([&[COUNTED, 0, 0, COUNTED, 15, 15].repeat(42)[..], &ANY].concat());
    rules.push([&[COUNTED, 15, 15, COUNTED, 0, 0].repeat(42)[..], &ANY].concat());
    // Counts that are none, with and without an operand, alone and under what is too heavy.
    for kind in [COUNTED, HITS] {
        for (least, most) in [
            (1, 0),
            (15, 14),
            (0, 16),
            (16, 16),
            (16, 0),
            (255, 255),
            (0, 255),
        ] {
            let bad = [kind, least, most];
            rules.push(bad.to_vec());
            rules.push(bad[..2].to_vec());
            rules.push([&bad[..], &[TRUE]].concat());
            rules.push([&bad[..], &P0].concat());
            rules.push([&counted(15, 15, 50, &[])[..], &bad, &ANY].concat());
            rules.push([&counted(0, 0, 1, &bad)[..], &ANY, &[EMPTY]].concat());
        }
        rules.push([kind, 0, 0, 0xFF].to_vec());
    }
    rules
}

/// The deepest nesting of repetitions, complete and cut.
fn repetitions() -> Vec<Vec<u8>> {
    let mut rules = Vec::new();
    for kind in [STAR, PLUS] {
        rules.push(nested(kind, MOST_RULE_BYTES - 1, &[EMPTY]));
        rules.push(nested(kind, MOST_RULE_BYTES - 2, &ANY));
        rules.push(nested(kind, MOST_RULE_BYTES - 3, &P0));
        rules.push(nested(kind, MOST_RULE_BYTES, &[]));
        rules.push(nested(kind, MOST_RULE_BYTES - 1, &[TRUE]));
    }
    rules.push([[STAR, PLUS].repeat(126), P0.to_vec()].concat());
    rules
}

/// The deepest nesting of formulas, complete and cut.
fn formulas() -> Vec<Vec<u8>> {
    let mut rules = Vec::new();
    let mut letter = |formula: Vec<u8>| rules.push(nested(LETTER, 1, &formula));
    letter(nested(NOT, MOST_RULE_BYTES - 2, &[TRUE]));
    letter(nested(NOT, MOST_RULE_BYTES - 3, &[PROPOSITION, 5]));
    letter(nested(NOT, MOST_RULE_BYTES - 1, &[]));
    letter(nested(NOT, MOST_RULE_BYTES - 2, &[EMPTY]));
    for kind in [AND, OR] {
        letter(joined_left(kind, &[TRUE], 127));
        letter(joined_right(kind, &[FALSE], 127));
        letter(joined_right(kind, &[PROPOSITION, 3], 84));
        letter(nested(kind, MOST_RULE_BYTES - 1, &[]));
        letter(joined_left(kind, &[PROPOSITION, 6], 80));
    }
    rules
}

/// The deepest nesting of each operator with two operands, complete and cut.
fn pairs() -> Vec<Vec<u8>> {
    let mut rules = Vec::new();
    for kind in PAIRS {
        rules.push(joined_left(kind, &[EMPTY], 128));
        rules.push(joined_right(kind, &[EMPTY], 128));
        rules.push(joined_left(kind, &ANY, 85));
        rules.push(joined_right(kind, &ANY, 85));
        rules.push(nested(kind, MOST_RULE_BYTES, &[]));
        rules.push(nested(kind, MOST_RULE_BYTES - 1, &[EMPTY]));
        rules.push(nested(kind, 127, &[EMPTY; 127]));
        rules.push(nested(kind, 126, &[EMPTY; 128]));
    }
    rules
}

/// Rules that weigh 64 or little less, as long and as wide as can be, and 65.
fn at_the_weight() -> Vec<Vec<u8>> {
    let twice = [STAR, PLUS, EMPTY];
    let letter = nested(STAR, 4, &P0);
    let mut rules = vec![
        joined_left(CHOICE, &nested(STAR, 6, &[EMPTY]), 32),
        joined_right(CHOICE, &nested(PLUS, 6, &[EMPTY]), 32),
        joined_left(BOTH, &twice, 64),
        joined_right(BOTH, &twice, 64),
        joined_left(BOTH, &P0, 6),
        joined_right(BOTH, &ANY, 6),
        joined_left(BOTH, &ANY, 7),
        joined_left(CHOICE, &joined_left(THEN, &P0, 16), 2),
        joined_left(THEN, &[EMPTY], 65),
        [&[WITHIN, WITHIN, EMPTY, EMPTY, THEN, EMPTY], &ANY[..]].concat(),
        [&[WITHIN, THEN, EMPTY], &ANY[..], &[WITHIN, EMPTY, EMPTY]].concat(),
        [&[WITHIN, WITHIN, EMPTY, EMPTY, STAR], &ANY[..]].concat(),
        [WITHIN, EMPTY]
            .repeat(2)
            .into_iter()
            .chain([EMPTY])
            .collect(),
        [WITHIN, EMPTY]
            .repeat(3)
            .into_iter()
            .chain([EMPTY])
            .collect(),
    ];
    for kind in [THEN, OVERLAP] {
        rules.push(joined_left(kind, &twice, 64));
        rules.push(joined_right(kind, &twice, 64));
        rules.push(joined_left(kind, &letter, 32));
        rules.push(joined_right(kind, &letter, 32));
        rules.push(joined_left(kind, &ANY, 32));
        rules.push(joined_right(kind, &ANY, 33));
    }
    rules
}

/// Accepted rules of 255 bytes that take a deep stack: repetitions as deep as they go, above and below each operator
/// that works on arrays of its own, and above the deepest formulas.
pub fn deep() -> Vec<Vec<u8>> {
    let six = ANY.repeat(6);
    let heaviest = [&[WITHIN, WITHIN, EMPTY, EMPTY], &ANY[..]].concat();
    let mut rules = vec![
        // Products above the repetitions, which stand in the first operand or in the last.
        [&[BOTH; 5][..], &[STAR; 238], &six].concat(),
        [&[BOTH; 5][..], &six[2..], &[PLUS; 238], &ANY].concat(),
        [
            [&[BOTH][..], &ANY].concat().repeat(5),
            vec![STAR; 238],
            ANY.to_vec(),
        ]
        .concat(),
        // Products below the repetitions.
        [&[STAR; 238][..], &[BOTH; 5], &six].concat(),
        nested(PLUS, 252, &[BOTH, EMPTY, EMPTY]),
        nested(STAR, 252, &[WITHIN, EMPTY, EMPTY]),
        nested(STAR, 249, &heaviest),
        [&[WITHIN, WITHIN][..], &[STAR; 249], &heaviest[2..]].concat(),
        [&heaviest[..4], &[PLUS; 249], &ANY].concat(),
        // As deep by pairs as by repetitions, so that operands wait on every level.
        [&[STAR; 129][..], &joined_left(THEN, &[EMPTY], 63), &[]].concat(),
        nested(STAR, 127, &joined_left(CHOICE, &[EMPTY], 32)),
        nested(STAR, 127, &joined_right(BOTH, &[EMPTY], 64)),
    ];
    for kind in PAIRS {
        // Each pair with one repetition above it: the deepest turns of one and the other.
        let turns = [STAR, kind, EMPTY].repeat(if kind == WITHIN { 2 } else { 63 });
        rules.push([&turns[..], &[EMPTY]].concat());
    }
    for (stars, nots) in [(126, 126), (200, 52), (52, 200)] {
        let letter = [&[LETTER][..], &nested(NOT, nots, &[TRUE])].concat();
        rules.push(nested(STAR, stars, &letter));
        let both = [
            &[BOTH; 5][..],
            &letter[..nots - 12],
            &[TRUE],
            &ANY.repeat(5),
        ]
        .concat();
        rules.push(nested(PLUS, stars, &both));
    }
    rules
}

/// Weights of 2 to the 7th up to past the 64th, with and without a rest that a word which wraps would show.
fn past_every_word() -> Vec<Vec<u8>> {
    let mut rules = Vec::new();
    for power in [7, 8, 9, 15, 16, 17, 31, 32, 33, 63, 64, 65, 85] {
        let heavy = joined_left(BOTH, &ANY, power);
        rules.push([&[THEN, EMPTY][..], &heavy].concat());
        rules.push([&[CHOICE][..], &heavy, &[EMPTY]].concat());
        rules.push([&[STAR][..], &heavy].concat());
        rules.push([&heavy[..], &[EMPTY]].concat());
        rules.push([&[THEN][..], &joined_left(THEN, &[EMPTY], 31), &heavy].concat());
        rules.push(heavy);
    }
    rules
}

/// Rules of more than 255 bytes, some of which a short counter of bytes would take for shorter ones.
fn too_long() -> Vec<Vec<u8>> {
    let mut rules: Vec<Vec<u8>> = [256, 257, 300, 511, 512, 65_536, 65_537, 70_000]
        .iter()
        .map(|&length| nested(EMPTY, length, &[]))
        .collect();
    rules.push(nested(STAR, 255, &[EMPTY]));
    rules.push(vec![0xFF; 256]);
    rules.push(vec![0; 1000]);
    rules
}

/// Hostile letters: none, many, and bytes that are no letters at the ends and in between.
pub fn letters() -> Vec<Vec<u8>> {
    let many = vec![63; 3000];
    let last = [&many[..], &[64]].concat();
    vec![
        vec![],
        vec![0],
        vec![63],
        vec![64],
        vec![0xFF; 300],
        vec![0, 64, 0xFF],
        vec![63, 63, 0x80, 63],
        last,
        many,
    ]
}

/// All hostile models.
pub fn models() -> Vec<Vec<u8>> {
    [too_many(), cuts(), faults(), strays(), chains()].concat()
}

/// All states in a row, from the first to the last and the other way, with each end that goes nowhere, to itself or back.
fn chains() -> Vec<Vec<u8>> {
    let mut models = Vec::new();
    let last = MOST_STATES - 1;
    for end in [0, 1 << last, 1, 1 << (MOST_STATES / 2)] {
        let state = |at| State {
            letter: at as u8,
            flag: u8::from(at == 0),
            successors: if at < last { 2u64 << at } else { end },
        };
        models.push(bytes_of(&(0..MOST_STATES).map(state).collect::<Vec<_>>()));
    }
    for end in [0, 1, 1 << last] {
        let state = |at: usize| State {
            letter: 1,
            flag: u8::from(at == last),
            successors: if at > 0 { 1 << (at - 1) } else { end },
        };
        models.push(bytes_of(&(0..MOST_STATES).map(state).collect::<Vec<_>>()));
    }
    models
}

/// 64 states and more.
fn too_many() -> Vec<Vec<u8>> {
    let full = models::full(MOST_STATES);
    let mut models = vec![full.clone(), models::ring(MOST_STATES, None)];
    for after in [&[0x20][..], &[0], &[0xFF], &full[..RECORD_BYTES], &full] {
        models.push([&full[..], after].concat());
    }
    models.push(full.repeat(100));
    models
}

/// A model cut at every byte of its first and of its last records.
fn cuts() -> Vec<Vec<u8>> {
    let full = models::full(MOST_STATES);
    let places = (0..3 * RECORD_BYTES).chain(MOST_BYTES - RECORD_BYTES..MOST_BYTES);
    places.map(|length| full[..length].to_vec()).collect()
}

/// A fault in each field of the first, a middle and the last record of models of several sizes.
fn faults() -> Vec<Vec<u8>> {
    let mut models = Vec::new();
    for count in [1, 2, 63, MOST_STATES] {
        let good = models::full(count);
        for state in [0, count / 2, count - 1] {
            for (field, byte) in FAULTS {
                let mut model = good.clone();
                model[state * RECORD_BYTES + field] = byte;
                models.push(model);
            }
        }
    }
    models
}

/// Fields of a record with bytes that are wrong there, or just right.
const FAULTS: [(usize, u8); 12] = [
    (0, 0x00),
    (0, 0x1F),
    (0, 0x21),
    (0, 0x30),
    (1, 63),
    (1, 64),
    (1, 0xFF),
    (2, 0),
    (2, 2),
    (2, 0xFF),
    (3, 0xFF),
    (10, 0x80),
];

/// Successors that do not exist, alone and beside other faults.
fn strays() -> Vec<Vec<u8>> {
    let state = |successors| State {
        letter: 0,
        flag: 0,
        successors,
    };
    let mut models = vec![
        bytes_of(&[state(0), state(0b100), state(0b1000)]),
        bytes_of(&[state(1 << 63), state(1 << 2)]),
    ];
    for count in [1, 2, 31, 62, 63] {
        let mut states = vec![state(0); count];
        states[count - 1] = state(1 << count);
        let stray = bytes_of(&states);
        for after in [&[][..], &[0x21], &[0x20], &[0x20, 64], &[0x20, 0, 2]] {
            models.push([&stray[..], after].concat());
        }
    }
    models
}

#[cfg(test)]
mod tests {
    use super::*;

    #[test]
    fn complete_rules_fill_the_limit() {
        assert_eq!(nested(STAR, 254, &[EMPTY]).len(), MOST_RULE_BYTES);
        assert_eq!(joined_left(THEN, &[EMPTY], 128).len(), MOST_RULE_BYTES);
        assert_eq!(joined_right(THEN, &[EMPTY], 128).len(), MOST_RULE_BYTES);
        assert_eq!(
            joined_left(THEN, &[STAR, PLUS, EMPTY], 64).len(),
            MOST_RULE_BYTES
        );
        assert_eq!(counted(15, 15, 84, &P0).len(), MOST_RULE_BYTES);
        assert_eq!(
            hits(0, 15, &nested(NOT, 251, &[TRUE])).len(),
            MOST_RULE_BYTES
        );
    }
}
