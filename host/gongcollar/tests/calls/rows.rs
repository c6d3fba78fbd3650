//! Rows by letter: both conversions, steps and whole sequences over them, and every refusal.

use crate::inputs::RULE;
use cases::Draws;
use gongcollar::{follow, raw, rows_into, table_into, LentRows, Refusal, Rows, Table, Walker};
use gongcollar::{ENTRIES, STATES};

const JUNK: u64 = 0x7777;
const LONG: usize = 5000;

fn any_words(seed: u64) -> Vec<u64> {
    let mut draws = Draws::new(seed);
    (0..ENTRIES).map(|_| draws.set()).collect()
}

#[test]
fn a_row_has_a_state_where_the_label_has_the_letter() {
    for table in [
        any_words(1),
        Table::build(&RULE).unwrap().entries().to_vec(),
    ] {
        let mut rows = vec![JUNK; LONG];
        rows_into(&table, &mut rows).unwrap();
        for (at, &row) in rows[..ENTRIES].iter().enumerate() {
            let (letter, from) = (at / STATES, at % STATES);
            let bit = |to: usize| (table[STATES * from + to] >> letter & 1) << to;
            assert_eq!(row, (0..STATES).map(bit).sum(), "{letter} {from}");
        }
        assert!(rows[ENTRIES..].iter().all(|&word| word == JUNK));
    }
}

#[test]
fn each_conversion_undoes_the_other() {
    for words in [any_words(2), vec![0; ENTRIES], vec![u64::MAX; ENTRIES]] {
        let (mut there, mut back) = (vec![JUNK; LONG], vec![JUNK; LONG]);
        rows_into(&words, &mut there).unwrap();
        table_into(&there, &mut back).unwrap();
        assert_eq!(back[..ENTRIES], words);
        table_into(&words, &mut there).unwrap();
        rows_into(&there, &mut back).unwrap();
        assert_eq!(back[..ENTRIES], words);
        assert!(back[ENTRIES..].iter().all(|&word| word == JUNK));
    }
}

#[test]
fn a_short_slice_is_refused_and_nothing_changes() {
    let short = Refusal::ShortSlice { place: 0 };
    let words = any_words(3);
    for (one, other) in [
        (0, 0),
        (0, LONG),
        (ENTRIES - 1, LONG),
        (ENTRIES, ENTRIES - 1),
        (ENTRIES, 0),
    ] {
        for convert in [rows_into, table_into] {
            let mut out = vec![JUNK; other];
            assert_eq!(convert(&words[..one], &mut out), Err(short));
            assert!(out.iter().all(|&word| word == JUNK));
        }
    }
    let done = raw::Done {
        refused: 21,
        place: 0,
    };
    assert_eq!(raw::rows_of(&words, &mut []), done);
    assert_eq!(raw::table_of(&[], &mut [0; ENTRIES]), done);
}

#[test]
fn a_table_is_had_again_from_its_rows() {
    let mut table = Table::build(&RULE).unwrap();
    for _ in 0..2 {
        let rows = table.rows();
        assert_eq!(Rows::from(&table), rows);
        assert_eq!(Table::from(&rows), table);
        assert_eq!(
            (rows.weight(), rows.finals()),
            (table.weight(), table.finals())
        );
        assert_eq!((rows.uses(), rows.walker()), (table.uses(), table.walker()));
        for (letter, state) in [(64, 0), (255, 0), (0, 64)] {
            assert_eq!(rows.row(letter, state), 0);
        }
        assert_eq!(rows.row(1, 0), rows.entries()[64]);
        // A trimmed table has rows like any other.
        table.trim();
    }
}

#[test]
fn a_walker_steps_over_rows_as_over_the_table() {
    let table = Table::build(&RULE).unwrap();
    let rows = table.rows();
    let (mut over_table, mut over_rows) = (table.walker(), rows.walker());
    for letter in [1, 2, 64, 2, 6, 4, 255, 0] {
        let by_value = over_rows
            .stepped(&rows, letter)
            .map(|x| (x.walker, x.matches));
        let answer = over_table.step(&table, letter);
        assert_eq!(over_rows.step(&rows, letter), answer);
        assert_eq!(over_rows, over_table);
        assert_eq!(by_value, answer.map(|matches| (over_table, matches)));
    }
    assert_eq!((over_rows.taken(), over_rows.first_match()), (6, Some(4)));
    let mut walker = rows.walker();
    let said: Vec<_> = walker.steps(&rows, [1, 4, 4]).collect();
    assert_eq!(said, [Ok(false), Ok(true), Ok(false)]);
}

#[test]
fn a_step_over_rows_is_refused_as_one_over_a_table() {
    let rows = any_words(4);
    let numbers = raw::Walker {
        set: 0b1010,
        finals: 1,
        taken: u32::MAX,
        first: 3,
        matched: 7,
    };
    let mut walker = Walker::from(numbers);
    let (short, whole) = (LentRows(&rows[1..]), LentRows(&rows));
    for (rows, letter, expected) in [
        (short, 64, Refusal::ShortSlice { place: 0 }),
        (short, 0, Refusal::ShortSlice { place: 0 }),
        (whole, 64, Refusal::EventLetter { place: 0 }),
        (whole, 63, Refusal::FullCount { place: 0 }),
    ] {
        assert_eq!(walker.step(rows, letter), Err(expected));
        assert_eq!(walker.stepped(rows, letter), Err(expected));
        assert_eq!(walker, numbers.into());
        let stepped = raw::Stepped {
            refused: expected.number(),
            walker: numbers,
            ..Default::default()
        };
        assert_eq!(raw::step_rows(numbers, rows.0, letter), stepped);
    }
}

#[test]
fn whole_sequences_over_rows() {
    let table = Table::build(&RULE).unwrap();
    let rows = table.rows();
    let many = [vec![1], vec![2; 10_000], vec![4]].concat();
    for letters in [
        &many[..],
        &many[1..],
        &many[..9],
        &[],
        &[1, 255, 64],
        &[1, 2, 4, 64],
    ] {
        assert_eq!(rows.follow(letters), table.follow(letters));
        let lent = LentRows(rows.entries());
        assert_eq!(follow(lent, rows.finals(), letters), table.follow(letters));
        let short = LentRows(&rows.entries()[1..]);
        let refusal = Refusal::ShortSlice { place: 0 };
        assert_eq!(follow(short, rows.finals(), letters), Err(refusal));
    }
    assert_eq!(rows.follow(&many), Ok(true));
    let moved = raw::Moved {
        refused: 22,
        place: 1,
        ..Default::default()
    };
    assert_eq!(raw::follow_rows(rows.entries(), 1, &[0, 64]), moved);
}
