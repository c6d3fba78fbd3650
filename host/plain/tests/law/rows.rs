//! Rows by letter: the other way round by definition, back again, and steps over them.

use crate::draw::Draw;
use crate::spell::*;
use plain::{build, follow, follow_rows, labels_of, rows_of, start, step, step_rows, trim};
use plain::{Walker, TABLE_ENTRIES};

/// Any words: all bits alike, few, half or many of them.
fn words(draw: &mut Draw, length: usize) -> Vec<u64> {
    let sort = draw.below(5);
    let word = |draw: &mut Draw| match sort {
        0 => draw.number(),
        1 => draw.number() & draw.number() & draw.number() & draw.number(),
        2 => draw.number() | draw.number() | draw.number(),
        3 => u64::from(draw.once_in(64)) << draw.below(64),
        _ => [0, u64::MAX][draw.below(2)],
    };
    (0..length).map(|_| word(draw)).collect()
}

/// Tables of rules, whole and trimmed, and words that are no rule's table.
fn tables(draw: &mut Draw) -> Vec<Vec<u64>> {
    let built = build(&draw.light_rule(4, 3, 64), TABLE_ENTRIES).unwrap();
    let trimmed = trim(&built.labels, built.weight, built.finals).unwrap();
    vec![
        built.labels,
        trimmed.labels,
        words(draw, TABLE_ENTRIES),
        words(draw, 5000),
    ]
}

#[test]
fn a_row_has_a_state_where_the_label_has_the_letter() {
    let mut draw = Draw::new(9);
    for _ in 0..6 {
        for table in tables(&mut draw) {
            let rows = rows_of(&table, TABLE_ENTRIES).unwrap();
            assert_eq!(rows.len(), TABLE_ENTRIES);
            for at in 0..TABLE_ENTRIES * 64 {
                let (x, p, q) = (at >> 12, at >> 6 & 63, at & 63);
                let in_row = rows[64 * x + p] >> q & 1;
                assert_eq!(in_row, table[64 * p + q] >> x & 1, "{x} {p} {q}");
            }
        }
    }
}

#[test]
fn the_two_ways_undo_each_other() {
    let mut draw = Draw::new(10);
    for _ in 0..12 {
        for table in tables(&mut draw) {
            let rows = rows_of(&table, TABLE_ENTRIES).unwrap();
            let back = labels_of(&rows, TABLE_ENTRIES).unwrap();
            assert_eq!(back, table[..TABLE_ENTRIES]);
            // The same words taken for rows.
            let labels = labels_of(&table, TABLE_ENTRIES).unwrap();
            let back = rows_of(&labels, TABLE_ENTRIES).unwrap();
            assert_eq!(back, table[..TABLE_ENTRIES]);
        }
    }
}

#[test]
fn the_rows_of_the_worked_table() {
    let table = build(&worked(), TABLE_ENTRIES).unwrap();
    let rows = rows_of(&table.labels, TABLE_ENTRIES).unwrap();
    let row = |letter: usize, state: usize| rows[64 * letter + state];
    assert_eq!(row(1, 0), 1 << 1);
    assert_eq!(row(2, 0), 0);
    assert_eq!(row(2, 1), 1 << 3);
    assert_eq!(row(4, 1), 1 << 5);
    assert_eq!(row(6, 2), 1 << 3 | 1 << 5);
    assert_eq!(row(4, 4), 1 << 5);
    assert_eq!(row(63, 5), 0);
    assert!(rows[..64].iter().all(|&row| row == 0));
    // The highest letter and the highest states.
    let mut corner = vec![0; TABLE_ENTRIES];
    corner[64 * 62 + 63] = 1 << 61;
    let rows = rows_of(&corner, TABLE_ENTRIES).unwrap();
    assert_eq!(rows[64 * 61 + 62], 1 << 63);
    assert_eq!(rows.iter().filter(|&&row| row != 0).count(), 1);
}

#[test]
fn conversions_refuse_21_alone() {
    let words = vec![1; TABLE_ENTRIES];
    for (one, other) in [(0, 4096), (4095, 4096), (4096, 4095), (4096, 0), (0, 0)] {
        assert_eq!(rows_of(&words[..one], other), refused(21, 0));
        assert_eq!(labels_of(&words[..one], other), refused(21, 0));
    }
    // Entries past the first 4,096 say nothing.
    let longer = [&words[..], &[u64::MAX; 9]].concat();
    assert_eq!(rows_of(&longer, 9000), rows_of(&words, TABLE_ENTRIES));
    assert_eq!(labels_of(&longer, 9000), labels_of(&words, TABLE_ENTRIES));
}

fn any_walker(draw: &mut Draw) -> Walker {
    Walker {
        set: words(draw, 1)[0],
        finals: words(draw, 1)[0],
        taken: [0, 7, u32::MAX - 1, u32::MAX][draw.below(4)],
        first: draw.below(3) as u32,
        matched: draw.once_in(2),
    }
}

#[test]
fn a_step_over_the_rows_is_the_step_over_the_table() {
    let mut draw = Draw::new(11);
    let (mut answers, mut refusals) = (0, 0);
    for _ in 0..24 {
        for table in tables(&mut draw) {
            let rows = rows_of(&table, TABLE_ENTRIES).unwrap();
            for letter in [0, 1, 62, 63, 64, 255, draw.below(64) as u8] {
                let walker = any_walker(&mut draw);
                let over_table = step(walker, &table, letter);
                assert_eq!(step_rows(walker, &rows, letter), over_table);
                answers += usize::from(over_table.is_ok());
                refusals += usize::from(over_table.is_err());
                let short = &rows[..TABLE_ENTRIES - 1];
                assert_eq!(step_rows(walker, short, letter), refused(21, 0));
            }
        }
    }
    assert!(answers >= 150 && refusals >= 150, "{answers} {refusals}");
}

#[test]
fn a_step_over_rows_refuses_21_then_22_then_25() {
    let rows = vec![u64::MAX; TABLE_ENTRIES];
    let full = Walker {
        taken: u32::MAX,
        ..start(1)
    };
    assert_eq!(step_rows(full, &rows[1..], 64), refused(21, 0));
    assert_eq!(step_rows(full, &rows, 64), refused(22, 0));
    assert_eq!(step_rows(full, &rows, 63), refused(25, 0));
    let (next, matches) = step_rows(start(2), &rows, 63).unwrap();
    assert!(matches && next.matched);
    assert_eq!((next.set, next.taken, next.first), (u64::MAX, 1, 1));
}

#[test]
fn each_member_has_a_row() {
    let mut rows = vec![0; TABLE_ENTRIES];
    rows[64 * 5 + 3] = 0b01;
    rows[64 * 5 + 9] = 0b10;
    // The same state under another letter, and another state under the same letter.
    rows[64 * 3 + 5] = u64::MAX;
    rows[64 * 5 + 4] = u64::MAX;
    let at = |set| Walker { set, ..start(0) };
    let set = |set, letter| step_rows(at(set), &rows, letter).unwrap().0.set;
    assert_eq!(set(1 << 3 | 1 << 9, 5), 0b11);
    assert_eq!(set(1 << 3, 5), 0b01);
    assert_eq!(set(1 << 9, 5), 0b10);
    assert_eq!(set(1 << 10, 5), 0);
    assert_eq!(set(0, 5), 0);
}

#[test]
fn a_walk_over_the_rows_is_the_walk_over_the_table() {
    let mut draw = Draw::new(12);
    for _ in 0..24 {
        let finals = words(&mut draw, 1)[0];
        for table in tables(&mut draw) {
            let rows = rows_of(&table, TABLE_ENTRIES).unwrap();
            let length = draw.below(40);
            let mut letters = draw.letters(length, 6);
            if draw.once_in(3) {
                let at = draw.below(length + 1);
                letters.insert(at, 64 + draw.below(192) as u8);
            }
            let over_table = follow(&table, finals, &letters);
            assert_eq!(follow_rows(&rows, finals, &letters), over_table);
            assert_eq!(follow_rows(&rows[1..], finals, &letters), refused(21, 0));
        }
    }
}
