//! Tables: the numbering operator by operator, and the meaning against Definition 2.

use crate::draw::Draw;
use crate::meanings::sequences;
use crate::spell::*;
use plain::{accepts, build, follow, read_rule, Table, TABLE_ENTRIES};

const P0: u64 = 0xAAAA_AAAA_AAAA_AAAA;
const P1: u64 = 0xCCCC_CCCC_CCCC_CCCC;
const P2: u64 = 0xF0F0_F0F0_F0F0_F0F0;
const TRUE: u64 = u64::MAX;

/// Holds the table of a rule to its weight, its finals and its only labels.
fn hold(rule: &[u8], weight: u64, finals: &[u64], labels: &[(usize, usize, u64)]) {
    let mut expected = Table {
        weight,
        finals: finals.iter().map(|q| 1 << q).sum(),
        labels: vec![0; TABLE_ENTRIES],
    };
    for &(from, to, label) in labels {
        expected.labels[64 * from + to] = label;
    }
    let built = build(rule, TABLE_ENTRIES).unwrap();
    assert!(built == expected, "{rule:x?}");
}

#[test]
fn the_worked_table() {
    let labels = [
        (0, 1, P0),
        (1, 3, P1),
        (2, 3, P1),
        (3, 3, P1),
        (1, 5, P2),
        (2, 5, P2),
        (3, 5, P2),
        (4, 5, P2),
    ];
    hold(&worked(), 6, &[5], &labels);
}

#[test]
fn tables_without_operands() {
    hold(&empty(), 1, &[0], &[]);
    hold(&p(1), 2, &[1], &[(0, 1, P1)]);
    hold(&letter(&[0x03]), 2, &[1], &[]);
}

#[test]
fn tables_of_then() {
    let labels = [(0, 1, P0), (1, 3, P1), (2, 3, P1)];
    hold(&then(&p(0), &p(1)), 4, &[3], &labels);
    // Both operands' finals, since b may be empty; b's state 0 stays, final and never entered.
    let labels = [(0, 1, P0), (1, 3, P1), (2, 3, P1), (3, 3, P1)];
    hold(&then(&p(0), &star(&p(1))), 4, &[1, 2, 3], &labels);
}

#[test]
fn tables_of_overlap() {
    let labels = [(0, 1, P0), (2, 3, P1), (0, 3, P0 & P1)];
    hold(&overlap(&p(0), &p(1)), 4, &[3], &labels);
    // State 1 of a has a way to a final too, and a's finals are final no more.
    let labels = [
        (0, 1, P0),
        (1, 1, P0),
        (2, 3, P1),
        (3, 3, P1),
        (0, 3, P0 & P1),
        (1, 3, P0 & P1),
    ];
    hold(&overlap(&star(&p(0)), &star(&p(1))), 4, &[2, 3], &labels);
}

#[test]
fn overlap_unites_over_finals_and_takes_states_never_entered() {
    // States 1 and 3 of the left side are never entered, and lead to finals all the same.
    let labels = [
        (0, 2, P0),
        (0, 4, P1),
        (1, 2, P0),
        (3, 4, P1),
        (5, 6, P2),
        (0, 6, (P0 | P1) & P2),
        (1, 6, P0 & P2),
        (3, 6, P1 & P2),
    ];
    hold(&overlap(&or(&p(0), &p(1)), &p(2)), 7, &[6], &labels);
}

#[test]
fn tables_of_or() {
    let labels = [(0, 2, P0), (0, 4, P1), (1, 2, P0), (3, 4, P1)];
    hold(&or(&p(0), &p(1)), 5, &[2, 4], &labels);
    let labels = [(0, 3, P1), (2, 3, P1)];
    hold(&or(&empty(), &p(1)), 4, &[0, 1, 3], &labels);
}

#[test]
fn tables_of_equal_and() {
    hold(&equal_and(&p(0), &p(1)), 4, &[3], &[(0, 3, P0 & P1)]);
    // a moves 0 to 1 alone; b moves 0 to 1 and 1 to 1.
    let labels = [(0, 3, P0 & P1), (1, 3, P0 & P1)];
    hold(&equal_and(&p(0), &star(&p(1))), 4, &[2, 3], &labels);
    hold(&equal_and(&empty(), &star(&p(1))), 2, &[0, 1], &[]);
}

#[test]
fn tables_of_loose_and() {
    hold(
        &loose_and(&empty(), &empty()),
        7,
        &[0, 1, 2, 3, 4, 5, 6],
        &[],
    );
    let both = P0 & P1;
    let labels = [
        (0, 6, both),
        (0, 12, both),
        (1, 6, both),
        (2, 8, P0),
        (3, 8, P0),
        (4, 8, P0),
        (9, 12, both),
        (11, 16, P1),
        (13, 16, P1),
        (15, 16, P1),
    ];
    let finals = [6, 7, 8, 12, 14, 16];
    hold(&loose_and(&p(0), &p(1)), 17, &finals, &labels);
}

#[test]
fn loose_and_is_the_rule_that_it_is_built_as() {
    let mut draw = Draw::new(2);
    let any = star(&anything());
    for _ in 0..40 {
        let (a, b) = (draw.light_rule(1, 2, 4), draw.light_rule(1, 2, 4));
        let written_out = or(
            &equal_and(&a, &then(&b, &any)),
            &equal_and(&then(&a, &any), &b),
        );
        let short = build(&loose_and(&a, &b), TABLE_ENTRIES);
        assert!(short == build(&written_out, TABLE_ENTRIES), "{a:x?} {b:x?}");
    }
}

#[test]
fn tables_of_repetitions() {
    let labels = [(0, 1, P0), (1, 1, P0)];
    hold(&star(&p(0)), 2, &[0, 1], &labels);
    hold(&plus(&p(0)), 2, &[1], &labels);
    hold(
        &star(&anything()),
        2,
        &[0, 1],
        &[(0, 1, TRUE), (1, 1, TRUE)],
    );
    hold(&plus(&empty()), 1, &[0], &[]);
}

#[test]
fn tables_of_counted_parts() {
    hold(&counted(0, 0, &p(0)), 1, &[0], &[]);
    hold(&counted(0, 0, &nested(0x15, 40, &p(0))), 1, &[0], &[]);
    hold(&counted(1, 1, &p(0)), 2, &[1], &[(0, 1, P0)]);
    hold(&counted(0, 1, &p(0)), 2, &[0, 1], &[(0, 1, P0)]);
    let labels = [(0, 1, P0), (1, 3, P0), (2, 3, P0)];
    hold(&counted(2, 2, &p(0)), 4, &[3], &labels);
    // The second copy may be left out: its state 0 is final, never entered, and makes the first one's finals final.
    hold(&counted(1, 2, &p(0)), 4, &[1, 2, 3], &labels);
    hold(&counted(0, 2, &p(0)), 4, &[0, 1, 2, 3], &labels);
    let labels = [(0, 1, P0), (1, 3, P0), (2, 3, P0), (3, 5, P0), (4, 5, P0)];
    hold(&counted(3, 3, &p(0)), 6, &[5], &labels);
    hold(&counted(2, 3, &p(0)), 6, &[3, 4, 5], &labels);
    hold(&counted(1, 3, &p(0)), 6, &[1, 2, 3, 4, 5], &labels);
    hold(&counted(0, 3, &p(0)), 6, &[0, 1, 2, 3, 4, 5], &labels);
    hold(&counted(3, 3, &empty()), 3, &[0, 1, 2], &[]);
}

#[test]
fn counted_parts_are_written_out() {
    let mut draw = Draw::new(5);
    for _ in 0..40 {
        let a = draw.light_rule(1, 2, 8);
        let three = then(&a, &then(&a, &a));
        let short = build(&counted(3, 3, &a), TABLE_ENTRIES);
        assert!(short == build(&three, TABLE_ENTRIES), "{a:x?}");
    }
}

#[test]
fn tables_of_letters_that_satisfy() {
    let not = !P1;
    let p1 = proposition(1);
    hold(&hits(0, 0, &p1), 2, &[0, 1], &[(0, 1, not), (1, 1, not)]);
    let labels = [
        (0, 1, not),
        (0, 2, P1),
        (1, 1, not),
        (1, 2, P1),
        (2, 2, not),
    ];
    hold(&hits(0, 1, &p1), 3, &[0, 1, 2], &labels);
    hold(&hits(1, 1, &p1), 3, &[2], &labels);
    let labels = [&labels[..], &[(2, 3, P1), (3, 3, not)]].concat();
    hold(&hits(0, 2, &p1), 4, &[0, 1, 2, 3], &labels);
    hold(&hits(1, 2, &p1), 4, &[2, 3], &labels);
    hold(&hits(2, 2, &p1), 4, &[3], &labels);
    let labels = [(0, 2, TRUE), (1, 2, TRUE)];
    hold(&hits(0, 1, &[0x02]), 3, &[0, 1, 2], &labels);
}

#[test]
fn the_builder_refuses_the_rule_first() {
    assert_eq!(build(&[], 0), refused(2, 0));
    assert_eq!(build(&nested(0x12, 32, &p(0)), 0), refused(7, 0));
    assert_eq!(build(&p(0), 4095), refused(21, 0));
    assert!(build(&p(0), 4096).is_ok());
    assert!(build(&p(0), 5000).is_ok());
}

#[test]
fn the_heaviest_table_is_a_chain() {
    let rule = nested(0x12, 31, &p(0));
    let table = build(&rule, TABLE_ENTRIES).unwrap();
    assert_eq!((table.weight, table.finals), (64, 1 << 63));
    assert_eq!(follow(&table.labels, table.finals, &[1; 32]), Ok(true));
    assert_eq!(follow(&table.labels, table.finals, &[1; 31]), Ok(false));
}

/// What is promised of every table beside its meaning.
fn hold_shape(rule: &[u8], table: &Table) {
    let weight = table.weight as usize;
    assert_eq!(table.weight, read_rule(rule).unwrap().weight);
    assert_eq!(table.labels.len(), TABLE_ENTRIES);
    assert_eq!(table.finals.checked_shr(weight as u32).unwrap_or(0), 0);
    for (place, &label) in table.labels.iter().enumerate() {
        let (p, q) = (place / 64, place % 64);
        let inside = p < weight && q < weight;
        assert!(label == 0 || (inside && q != 0), "{rule:x?} {p} {q}");
    }
}

/// Holds the table of a rule to Definition 2 on some sequences.
fn hold_meaning(rule: &[u8], sequences: impl IntoIterator<Item = Vec<u8>>) {
    let table = build(rule, TABLE_ENTRIES).unwrap();
    hold_shape(rule, &table);
    let read = read_rule(rule).unwrap().rule;
    for w in sequences {
        let walked = follow(&table.labels, table.finals, &w);
        assert_eq!(walked, Ok(accepts(&read, &w)), "{rule:x?} {w:?}");
    }
}

#[test]
fn tables_mean_what_definition_2_says() {
    let mut draw = Draw::new(3);
    for _ in 0..300 {
        let rule = draw.light_rule(4, 2, 64);
        hold_meaning(&rule, sequences(4, 4));
    }
}

#[test]
fn tables_mean_the_same_over_all_letters_and_longer_sequences() {
    let mut draw = Draw::new(4);
    for _ in 0..400 {
        let rule = draw.light_rule(5, 6, 64);
        hold_meaning(&rule, (0..20).map(|length| draw.letters(length, 6)));
    }
}
