//! Definition 2 and the plain judge.

use crate::draw::Draw;
use crate::spell::*;
use plain::{accepts, judge, read_rule, Rule};

/// Definition 2 without memory: every split is tried anew.
pub fn by_splitting(rule: &Rule, w: &[u8]) -> bool {
    let n = w.len();
    match rule {
        Rule::Empty => n == 0,
        Rule::Letter(formula) => n == 1 && formula.holds(w[0]),
        Rule::Then(a, b) => {
            (0..=n).any(|cut| by_splitting(a, &w[..cut]) && by_splitting(b, &w[cut..]))
        }
        Rule::Overlap(a, b) => {
            (0..n).any(|shared| by_splitting(a, &w[..=shared]) && by_splitting(b, &w[shared..]))
        }
        Rule::Or(a, b) => by_splitting(a, w) || by_splitting(b, w),
        Rule::LooseAnd(a, b) => {
            (by_splitting(a, w) && (0..=n).any(|cut| by_splitting(b, &w[..cut])))
                || (by_splitting(b, w) && (0..=n).any(|cut| by_splitting(a, &w[..cut])))
        }
        Rule::EqualAnd(a, b) => by_splitting(a, w) && by_splitting(b, w),
        Rule::Star(a) => star_by_splitting(a, w),
        Rule::Plus(a) => {
            (0..=n).any(|cut| by_splitting(a, &w[..cut]) && star_by_splitting(a, &w[cut..]))
        }
        Rule::Counted(counts, a) => {
            (counts.least..=counts.most).any(|parts| row_by_splitting(a, parts, w))
        }
        Rule::Hits(counts, formula) => {
            let satisfy = w.iter().filter(|&&letter| formula.holds(letter)).count();
            usize::from(counts.least) <= satisfy && satisfy <= usize::from(counts.most)
        }
    }
}

/// So many parts in a row; of parts that are all empty one speaks for all, so that not every split is tried.
fn row_by_splitting(a: &Rule, parts: u8, w: &[u8]) -> bool {
    match (parts, w) {
        (0, w) => w.is_empty(),
        (_, []) => by_splitting(a, &[]),
        _ => (0..=w.len())
            .any(|cut| by_splitting(a, &w[..cut]) && row_by_splitting(a, parts - 1, &w[cut..])),
    }
}

fn star_by_splitting(a: &Rule, w: &[u8]) -> bool {
    w.is_empty()
        || (1..=w.len()).any(|cut| by_splitting(a, &w[..cut]) && star_by_splitting(a, &w[cut..]))
}

/// All sequences over the first so many letters, up to a length.
pub fn sequences(letters: u8, longest: usize) -> Vec<Vec<u8>> {
    let mut all = vec![vec![]];
    let mut last = all.clone();
    for _ in 0..longest {
        last = last.iter().flat_map(|w| longer(w, letters)).collect();
        all.extend_from_slice(&last);
    }
    all
}

fn longer(w: &[u8], letters: u8) -> Vec<Vec<u8>> {
    (0..letters).map(|x| [w, &[x]].concat()).collect()
}

/// Holds judge, memory and splitting to what is known of a rule and a sequence.
fn hold(rule: &[u8], letters: &[u8], expected: bool) {
    let read = read_rule(rule).unwrap().rule;
    assert_eq!(judge(rule, letters), Ok(expected), "{rule:x?} {letters:?}");
    assert_eq!(accepts(&read, letters), expected);
    assert_eq!(by_splitting(&read, letters), expected);
}

#[test]
fn the_sequences_of_the_scope_document() {
    hold(&empty(), &[], true);
    hold(&empty(), &[0], false);
    hold(&p(0), &[1], true);
    hold(&p(0), &[], false);
    hold(&p(0), &[1, 1], false);
    hold(&overlap(&p(0), &p(1)), &[3], true);
    hold(&overlap(&p(0), &p(1)), &[1, 2], false);
    hold(&then(&p(0), &p(1)), &[1, 2], true);
    hold(&then(&p(0), &p(1)), &[3], false);
    let p0_then_p1 = then(&p(0), &p(1));
    hold(&loose_and(&p(0), &p0_then_p1), &[1, 2], true);
    hold(&loose_and(&p(0), &p0_then_p1), &[1], false);
    hold(&equal_and(&p(0), &p0_then_p1), &[1, 2], false);
    hold(&plus(&empty()), &[], true);
    hold(&overlap(&star(&p(0)), &star(&p(0))), &[], false);
}

#[test]
fn readings_that_are_easily_mistaken() {
    // Both parts of an overlap are non-empty, though both operands accept the empty sequence.
    hold(&overlap(&star(&p(0)), &star(&p(0))), &[1], true);
    hold(&overlap(&empty(), &p(0)), &[1], false);
    // `[+]` of what needs a letter does not accept the empty sequence, `[*]` does.
    hold(&plus(&p(0)), &[], false);
    hold(&star(&p(0)), &[], true);
    // In `&` either operand may be the one that is done first, even before any letter.
    hold(&loose_and(&then(&p(0), &p(1)), &p(0)), &[1, 2], true);
    hold(&loose_and(&empty(), &p(1)), &[2], true);
    hold(&loose_and(&p(0), &p(1)), &[3], true);
    hold(&loose_and(&p(0), &p(1)), &[1], false);
    // The operand of a repetition may accept the empty sequence or be a repetition.
    hold(&star(&star(&empty())), &[0], false);
    hold(&star(&plus(&star(&p(0)))), &[1, 1, 1], true);
}

#[test]
fn parts_in_a_row() {
    // Three to five expiries.
    let expiries = counted(3, 5, &p(0));
    for length in 0..8 {
        hold(&expiries, &vec![1; length], (3..=5).contains(&length));
    }
    hold(&expiries, &[1, 1, 0, 1], false);
    // Empty parts count.
    hold(&counted(3, 3, &empty()), &[], true);
    hold(&counted(3, 3, &empty()), &[0], false);
    hold(&counted(2, 2, &star(&p(0))), &[1], true);
    hold(&counted(2, 2, &star(&p(0))), &[], true);
    // Parts of several lengths.
    let one_or_two = or(&p(0), &then(&p(0), &p(0)));
    hold(&counted(2, 2, &one_or_two), &[1], false);
    hold(&counted(2, 2, &one_or_two), &[1; 4], true);
    hold(&counted(2, 2, &one_or_two), &[1; 5], false);
    // No parts are the empty sequence, whatever the operand is.
    hold(&counted(0, 0, &p(0)), &[], true);
    hold(&counted(0, 0, &p(0)), &[1], false);
    hold(&counted(0, 1, &p(0)), &[], true);
    hold(&counted(0, 1, &p(0)), &[1], true);
    hold(&counted(0, 1, &p(0)), &[1, 1], false);
    hold(&counted(15, 15, &p(0)), &[1; 15], true);
    hold(&counted(15, 15, &p(0)), &[1; 16], false);
    let heavy = nested(0x15, 40, &p(0));
    assert_eq!(judge(&counted(0, 0, &heavy), &[1]), Ok(false));
}

#[test]
fn letters_that_satisfy() {
    let expiries = hits(3, 5, &proposition(0));
    hold(&expiries, &[1, 1, 1], true);
    hold(&expiries, &[0, 1, 2, 3, 4, 5, 6], true);
    hold(&expiries, &[1, 1], false);
    hold(&expiries, &[1; 6], false);
    hold(&expiries, &[], false);
    hold(&hits(0, 0, &proposition(0)), &[], true);
    hold(&hits(0, 0, &proposition(0)), &[0, 2, 4], true);
    hold(&hits(0, 0, &proposition(0)), &[0, 1], false);
    hold(&hits(2, 2, &[0x02]), &[9, 0], true);
    hold(&hits(1, 15, &[0x03]), &[9, 0], false);
    hold(&hits(15, 15, &proposition(0)), &[1; 15], true);
}

#[test]
fn the_judge_refuses_in_order() {
    let rule = p(0);
    assert_eq!(judge(&[], &[64; 17]), refused(2, 0));
    assert_eq!(judge(&nested(0x12, 32, &rule), &[64; 17]), refused(7, 0));
    assert_eq!(judge(&rule, &[64; 17]), refused(23, 0));
    assert_eq!(judge(&rule, &[0; 17]), refused(23, 0));
    assert_eq!(judge(&rule, &[63, 64, 255]), refused(22, 1));
    assert_eq!(judge(&rule, &[255; 16]), refused(22, 0));
    assert_eq!(judge(&star(&rule), &[63; 16]), Ok(true));
}

#[test]
fn deep_rules_are_judged_soon() {
    let stars = repeated(0x17, 252, &p(0));
    assert_eq!(judge(&stars, &[1; 16]), Ok(true));
    let mut last_wrong = [1; 16];
    last_wrong[15] = 2;
    assert_eq!(judge(&stars, &last_wrong), Ok(false));
    assert_eq!(judge(&repeated(0x18, 252, &p(0)), &last_wrong), Ok(false));
    assert_eq!(judge(&nested(0x16, 127, &empty()), &[]), Ok(true));
    let nots = letter(&repeated(0x04, 253, &[0x02]));
    assert_eq!(judge(&nots, &[0]), Ok(false));
    // Counts as deep as bytes and weight allow: fifteen empty parts above, below and between single ones.
    let once = |times, rule: Vec<u8>| (0..times).fold(rule, |rule, _| counted(1, 1, &rule));
    let many = counted(15, 15, &counted(0, 2, &plus(&p(0))));
    assert_eq!(judge(&once(80, many), &[1; 16]), Ok(true));
    let many = counted(0, 15, &counted(2, 2, &once(79, star(&p(0)))));
    assert_eq!(judge(&many, &last_wrong), Ok(false));
    let between = counted(15, 15, &once(80, counted(0, 4, &empty())));
    assert_eq!(judge(&between, &[1; 16]), Ok(false));
}

#[test]
fn memory_changes_no_answer() {
    let mut draw = Draw::new(1);
    for _ in 0..150 {
        let rule = read_rule(&draw.light_rule(4, 2, 64)).unwrap().rule;
        for w in sequences(4, 4) {
            assert_eq!(
                accepts(&rule, &w),
                by_splitting(&rule, &w),
                "{rule:?} {w:?}"
            );
        }
    }
}
