//! Every refusal, by each call that can give it.

use crate::inputs::{state, three_states, RULE};
use cases::hostile::joined_left;
use cases::line_input;
use cases::rules::{ANY, P0};
use gongcollar::{build_into, follow, judge, read_model, read_rule, rulecheck, trim_into};
use gongcollar::{raw, Refusal, Table, Walker, Workspace};
use std::fmt::Debug;

/// Faulty rules, with their refusals and the numbers of these.
fn faulty_rules() -> Vec<(Vec<u8>, Refusal, u64)> {
    let heavy = joined_left(0x16, &ANY, 64);
    vec![
        (vec![0x17; 256], Refusal::RuleTooLong { place: 0 }, 1),
        (vec![], Refusal::RuleEnded { place: 0 }, 2),
        (vec![0x10, 0x01], Refusal::RuleEnded { place: 2 }, 2),
        (vec![0x12, 0x1B], Refusal::UnknownKind { place: 1 }, 3),
        (vec![0x19, 0xFF], Refusal::RuleEnded { place: 2 }, 2),
        (vec![0x02], Refusal::WrongSort { place: 0 }, 4),
        (
            vec![0x10, 0x05, 0x02, 0x11],
            Refusal::WrongSort { place: 3 },
            4,
        ),
        (
            vec![0x10, 0x01, 0x06],
            Refusal::UnknownProposition { place: 2 },
            5,
        ),
        (vec![0x11, 0x11], Refusal::BytesAfterRule { place: 1 }, 6),
        (
            [&heavy[..], &[0]].concat(),
            Refusal::BytesAfterRule { place: 191 },
            6,
        ),
        (
            [&[0x12][..], &heavy, &[0x19, 2, 1]].concat(),
            Refusal::BadCounts { place: 193 },
            8,
        ),
        (heavy, Refusal::TooHeavy { place: 0 }, 7),
        (vec![0x19, 2, 1, 0xFF], Refusal::BadCounts { place: 1 }, 8),
        (vec![0x19, 0, 16, 0x11], Refusal::BadCounts { place: 1 }, 8),
        (vec![0x1A, 16, 16], Refusal::BadCounts { place: 1 }, 8),
        (vec![0x1A, 15, 15, 0x11], Refusal::WrongSort { place: 3 }, 4),
    ]
}

/// Faulty models in the same way.
fn faulty_models() -> Vec<(Vec<u8>, Refusal, u64)> {
    let full = state(0, 0, 0).repeat(64);
    let good = state(5, 1, 1);
    vec![
        (
            [&full[..], &[0x20]].concat(),
            Refusal::TooManyStates { place: 704 },
            11,
        ),
        (
            [&good[..], &[0x21]].concat(),
            Refusal::NotAState { place: 11 },
            12,
        ),
        (vec![0x20], Refusal::StateCutShort { place: 1 }, 13),
        (
            good[..10].to_vec(),
            Refusal::StateCutShort { place: 10 },
            13,
        ),
        (vec![0x20, 0x40], Refusal::StateLetter { place: 1 }, 14),
        (vec![0x20, 0x00, 0x02], Refusal::StateFlag { place: 2 }, 15),
        (
            [&good[..], &state(0, 0, 0b100)].concat(),
            Refusal::MissingSuccessor { place: 14 },
            16,
        ),
    ]
}

fn refused<T: Debug>(answer: Result<T, Refusal>, expected: Refusal, number: u64) {
    let refusal = answer.unwrap_err();
    assert_eq!(refusal, expected);
    assert_eq!(refusal.number(), number);
    let begins = format!("refused {number} at {}: ", expected.place());
    assert!(refusal.to_string().starts_with(&begins));
}

#[test]
fn faulty_rules_are_refused_by_every_call_that_reads_one() {
    for (rule, expected, number) in faulty_rules() {
        refused(read_rule(&rule), expected, number);
        refused(Table::build(&rule), expected, number);
        refused(build_into(&rule, &mut []), expected, number);
        refused(judge(&rule, &[64; 17]), expected, number);
        let mut workspace = Workspace::new();
        refused(workspace.search(&rule, &[0]), expected, number);
        refused(workspace.search_trimmed(&rule, &[0]), expected, number);
    }
}

#[test]
fn faulty_models_are_refused_by_every_call_that_reads_one() {
    for (model, expected, number) in faulty_models() {
        refused(read_model(&model), expected, number);
        let mut workspace = Workspace::new();
        refused(workspace.search(&RULE, &model), expected, number);
        refused(workspace.search_trimmed(&RULE, &model), expected, number);
    }
}

#[test]
fn refusals_are_printed_as_lines() {
    for (rule, expected, number) in faulty_rules() {
        if rule.len() < 256 {
            let line = format!("refused {number} at {}", expected.place());
            assert_eq!(rulecheck(&line_input(&rule, &[])), line);
        }
    }
    for (model, expected, number) in faulty_models() {
        let line = format!("refused {number} at {}", expected.place());
        assert_eq!(rulecheck(&line_input(&RULE, &model)), line);
    }
}

#[test]
fn the_judge_takes_sixteen_letters_below_64() {
    assert!(!judge(&P0, &[1; 16]).unwrap());
    refused(
        judge(&P0, &[64; 17]),
        Refusal::TooManyLetters { place: 0 },
        23,
    );
    refused(
        judge(&P0, &[0, 63, 64, 255]),
        Refusal::EventLetter { place: 2 },
        22,
    );
}

/// A walker that has taken so many letters, in some states of the rule's table, with no mark that a start would set.
fn somewhere(table: &Table, taken: u32) -> Walker {
    Walker::from(raw::Walker {
        set: 0b1010,
        finals: table.finals(),
        taken,
        first: 3,
        matched: 7,
    })
}

#[test]
fn a_refused_step_leaves_the_walker() {
    let table = Table::build(&RULE).unwrap();
    let short = &table.entries()[..4095];
    for taken in [0, 5, u32::MAX] {
        let before = somewhere(&table, taken);
        let mut walker = before;
        let letter = Refusal::EventLetter { place: 0 };
        refused(walker.step(&table, 64), letter, 22);
        refused(walker.stepped(&table, 64), letter, 22);
        let slice = Refusal::ShortSlice { place: 0 };
        refused(walker.step(short, 64), slice, 21);
        refused(walker.stepped([], 0), slice, 21);
        assert_eq!(walker, before);
        assert_eq!(raw::step(before.into(), short, 0).walker, before.into());
    }
}

#[test]
fn a_walker_counts_as_far_as_it_can() {
    let table = Table::build(&RULE).unwrap();
    let mut walker = somewhere(&table, u32::MAX - 1);
    assert_eq!(walker.step(&table, 2), Ok(false));
    assert_eq!(walker.taken(), u32::MAX);
    let full = Refusal::FullCount { place: 0 };
    let before = walker;
    refused(walker.step(&table, 2), full, 25);
    refused(walker.stepped(&table, 2), full, 25);
    assert_eq!(walker, before);
    // Also where the set is empty, and nothing could come of another letter.
    let mut nowhere = Walker::from(raw::Walker {
        set: 0,
        ..before.into()
    });
    refused(nowhere.step(&table, 2), full, 25);
}

#[test]
fn a_walk_is_refused_by_its_table_then_by_its_first_bad_letter() {
    let table = Table::build(&RULE).unwrap();
    for short in [0, 1, 4095] {
        let entries = &table.entries()[..short];
        for letters in [&[][..], &[64], &[1, 2, 4]] {
            let refusal = Refusal::ShortSlice { place: 0 };
            refused(follow(entries, table.finals(), letters), refusal, 21);
        }
    }
    for (letters, place) in [(&[64][..], 0), (&[1, 255, 64], 1), (&[1, 2, 4, 64], 3)] {
        refused(table.follow(letters), Refusal::EventLetter { place }, 22);
    }
}

#[test]
fn a_table_is_trimmed_if_it_stands_inside_its_weight() {
    let none = [0; gongcollar::ENTRIES];
    for (weight, finals) in [(1, 0), (1, 1), (64, u64::MAX)] {
        assert!(trim_into(&mut none.clone(), weight, finals).is_ok());
    }
    for (weight, finals) in [(0, 0), (65, 0), (u64::MAX, 0), (1, 2), (63, 1 << 63)] {
        let refusal = Refusal::NoTable { place: 0 };
        refused(trim_into(&mut none.clone(), weight, finals), refusal, 24);
    }
    for at in [2, 64 * 2, 64 * 63 + 63] {
        let mut labels = none;
        labels[at] = 1;
        let refusal = Refusal::NoTable { place: 0 };
        refused(trim_into(&mut labels, 2, 1), refusal, 24);
    }
    let short = Refusal::ShortSlice { place: 0 };
    refused(trim_into(&mut none.clone()[1..], 0, 0), short, 21);
}

#[test]
fn a_refusal_is_an_error_of_the_standard_library() {
    fn search() -> Result<u64, Box<dyn std::error::Error>> {
        let mut workspace = Workspace::new();
        Ok(workspace.search(&[0x04], &three_states())?.pairs)
    }
    let said = search().unwrap_err().to_string();
    assert_eq!(
        said,
        "refused 4 at 0: a kind out of its place, as a formula for a rule or a rule for a formula"
    );
}
