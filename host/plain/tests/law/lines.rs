//! What rulecheck prints.

use crate::spell::*;
use plain::line;

/// The input for a rule and a model.
fn input(rule: &[u8], model: &[u8]) -> Vec<u8> {
    [&[rule.len() as u8], rule, model].concat()
}

/// The model of the worked example, with the successors of its second state and its last.
fn example(second: u64, last: u64) -> Vec<u8> {
    let states = [
        state(1, true, 2),
        state(2, false, second),
        state(4, false, last),
    ];
    states.concat()
}

#[test]
fn the_worked_examples() {
    for second in [2, 6] {
        assert_eq!(
            line(&input(&worked(), &example(second, 0))),
            "none pairs 2 uses 0 1 2"
        );
    }
    assert_eq!(
        line(&input(&worked(), &example(6, 1))),
        "found 3 pairs 3: 0 1 2 uses 0 1 2"
    );
    let heavy = nested(0x12, 32, &p(0));
    assert_eq!(line(&input(&heavy, &example(6, 0))), "refused 7 at 0");
}

#[test]
fn the_first_worked_example_byte_by_byte() {
    let bytes = [
        0x0C, 0x12, 0x10, 0x01, 0x00, 0x12, 0x17, 0x10, 0x01, 0x01, 0x10, 0x01, 0x02, // rule
        0x20, 0x01, 0x01, 0x02, 0, 0, 0, 0, 0, 0, 0, // state 0
        0x20, 0x02, 0x00, 0x06, 0, 0, 0, 0, 0, 0, 0, // state 1
        0x20, 0x04, 0x00, 0x00, 0, 0, 0, 0, 0, 0, 0, // state 2
    ];
    assert_eq!(line(&bytes), "none pairs 2 uses 0 1 2");
}

#[test]
fn a_length_beyond_the_input_leaves_no_model() {
    assert_eq!(line(&[0xFF, 0x11]), "none pairs 0 uses -");
    assert_eq!(line(&[0x02, 0x11]), "none pairs 0 uses -");
    assert_eq!(line(&[0x05, 0x12, 0x11]), "refused 2 at 2");
}

#[test]
fn no_input_is_an_empty_rule() {
    assert_eq!(line(&[]), "refused 2 at 0");
    assert_eq!(line(&[0x00]), "refused 2 at 0");
    assert_eq!(line(&[0x00, 0x11]), "refused 2 at 0");
}

#[test]
fn places_are_offsets_in_the_rule_or_the_model() {
    assert_eq!(line(&[0x02, 0x10, 0x07]), "refused 3 at 1");
    assert_eq!(line(&[0x01, 0x11, 0x20, 0x40]), "refused 14 at 1");
    assert_eq!(line(&[0x01, 0x11, 0x21]), "refused 12 at 0");
    let full = state(0, true, 0).repeat(64);
    let over = [&full[..], &[0xFF; 4000]].concat();
    assert_eq!(line(&input(&empty(), &full)), "none pairs 0 uses -");
    assert_eq!(line(&input(&empty(), &over)), "refused 11 at 704");
}

#[test]
fn states_are_told_in_decimal() {
    let states: Vec<u8> = (0..64)
        .flat_map(|number| state((number == 63) as u8, number == 63, 1 << 63))
        .collect();
    assert_eq!(line(&input(&p(0), &states)), "found 1 pairs 1: 63 uses 0");
}

#[test]
fn a_line_ends_with_the_propositions_that_stand_in_the_rule() {
    let one = state(0, true, 1);
    let ending = |rule: &[u8]| {
        let line = line(&input(rule, &one));
        line.split_once(" uses ")
            .map(|(_, ending)| ending.to_string())
    };
    let sure = node(0x06, &[&proposition(4), &node(0x04, &[&proposition(4)])]);
    assert_eq!(ending(&letter(&sure)).as_deref(), Some("4"));
    assert_eq!(ending(&letter(&[0x02])).as_deref(), Some("-"));
    assert_eq!(
        ending(&or(&p(5), &then(&p(3), &p(5)))).as_deref(),
        Some("3 5")
    );
    assert_eq!(ending(&loose_and(&p(2), &p(0))).as_deref(), Some("0 2"));
    let all = (1..6).fold(p(0), |rule, number| then(&p(number), &rule));
    assert_eq!(ending(&all).as_deref(), Some("0 1 2 3 4 5"));
    assert_eq!(ending(&[0x10, 0x01, 0x06]), None);
}
