//! The walker.

use crate::spell::*;
use plain::{accepts, build, follow, read_rule, start, step, Walker, TABLE_ENTRIES};

/// A walker that no start made: somewhere in a walk.
fn at(set: u64, finals: u64) -> Walker {
    Walker {
        set,
        finals,
        taken: 7,
        first: 0,
        matched: false,
    }
}

/// The set that a step leads to, and whether it matches.
fn moved(walker: Walker, table: &[u64], letter: u8) -> Result<(u64, bool), plain::Refusal> {
    step(walker, table, letter).map(|(walker, matches)| (walker.set, matches))
}

#[test]
fn a_step_unites_what_its_members_reach() {
    let table = build(&worked(), TABLE_ENTRIES).unwrap();
    let walk = |set, letter| moved(at(set, table.finals), &table.labels, letter);
    assert_eq!(walk(1 << 0, 1), Ok((1 << 1, false)));
    assert_eq!(walk(1 << 1, 2), Ok((1 << 3, false)));
    assert_eq!(walk(1 << 1, 6), Ok((1 << 3 | 1 << 5, true)));
    assert_eq!(walk(1 << 0 | 1 << 4, 5), Ok((1 << 1 | 1 << 5, true)));
    assert_eq!(walk(1 << 5, 63), Ok((0, false)));
    assert_eq!(walk(0, 63), Ok((0, false)));
}

#[test]
fn a_step_looks_at_every_row_and_column() {
    // Not the table of any rule: state 63 goes to 63 and to 0, and entries past the first 4,096 say nothing.
    let mut table = vec![0; TABLE_ENTRIES];
    table[64 * 63 + 63] = 1 << 63;
    table[64 * 63] = 1 << 63;
    table.push(u64::MAX);
    let walk = |set, finals, letter| moved(at(set, finals), &table, letter);
    assert_eq!(walk(1 << 63, 1, 63), Ok((1 << 63 | 1, true)));
    assert_eq!(walk(1 << 63, 1, 62), Ok((0, false)));
    assert_eq!(walk(u64::MAX, 2, 63), Ok((1 << 63 | 1, false)));
}

#[test]
fn a_step_refuses_21_then_22_then_25() {
    let table = vec![0; TABLE_ENTRIES];
    let full = Walker {
        taken: u32::MAX,
        ..start(0)
    };
    for walker in [start(0), full] {
        assert_eq!(step(walker, &table[..4095], 64), refused(21, 0));
        assert_eq!(step(walker, &table[..4095], 0), refused(21, 0));
        assert_eq!(step(walker, &table, 64), refused(22, 0));
        assert_eq!(step(walker, &table, 255), refused(22, 0));
    }
    assert_eq!(step(full, &table, 63), refused(25, 0));
    assert_eq!(moved(start(0), &table, 63), Ok((0, false)));
    let nearly = Walker {
        taken: u32::MAX - 1,
        ..full
    };
    let last = step(nearly, &table, 63).unwrap().0;
    assert_eq!((last.taken, last.matched), (u32::MAX, false));
}

/// What a walker remembers is what Definition 2 says of the beginnings of what it took.
#[test]
fn the_first_match_is_the_shortest_beginning_that_is_accepted() {
    let rules = [
        worked(),
        star(&p(0)),
        then(&p(0), &star(&p(0))),
        then(&star(&anything()), &p(1)),
        then(&p(0), &then(&anything(), &anything())),
    ];
    let letters = [[1, 1, 1, 1], [1, 2, 4, 4], [0, 0, 2, 2], [1, 6, 6, 0]];
    for rule in rules {
        let table = build(&rule, TABLE_ENTRIES).unwrap();
        let rule = read_rule(&rule).unwrap().rule;
        for letters in letters {
            let mut walker = start(table.finals);
            for taken in 0..=letters.len() {
                let first = (0..=taken).find(|&n| accepts(&rule, &letters[..n]));
                assert_eq!(walker.taken as usize, taken);
                assert_eq!(walker.matched, first.is_some());
                assert_eq!(walker.first as usize, first.unwrap_or(0));
                if let Some(&letter) = letters.get(taken) {
                    walker = step(walker, &table.labels, letter).unwrap().0;
                }
            }
        }
    }
}

#[test]
fn a_walker_that_no_start_made_is_stepped_as_it_stands() {
    // In a final state with no match: the next match is its first, and a first without a mark stays.
    let loops = vec![u64::MAX; TABLE_ENTRIES];
    let odd = Walker {
        first: 3,
        ..at(1, 1)
    };
    let next = step(odd, &loops, 0).unwrap().0;
    assert_eq!((next.taken, next.first, next.matched), (8, 8, true));
    let nowhere = vec![0; TABLE_ENTRIES];
    let next = step(odd, &nowhere, 0).unwrap().0;
    assert_eq!((next.taken, next.first, next.matched), (8, 3, false));
}

#[test]
fn following_refuses_21_then_22_at_its_index() {
    let table = vec![0; TABLE_ENTRIES];
    assert_eq!(follow(&table[..4095], 1, &[]), refused(21, 0));
    assert_eq!(follow(&table[..4095], 1, &[64]), refused(21, 0));
    assert_eq!(follow(&table, 1, &[0, 63, 64, 99]), refused(22, 2));
    assert_eq!(follow(&table, 1, &[]), Ok(true));
    assert_eq!(follow(&table, 2, &[]), Ok(false));
}

#[test]
fn a_walk_of_many_letters_stays_right() {
    // p0 at every third letter.
    let rule = star(&then(&p(0), &then(&anything(), &anything())));
    let table = build(&rule, TABLE_ENTRIES).unwrap();
    let mut walker = start(table.finals);
    for index in 0..3000 {
        let letter = (index % 3 == 0) as u8;
        let (next, matches) = step(walker, &table.labels, letter).unwrap();
        assert_eq!(matches, index % 3 == 2);
        walker = next;
    }
    let letters = [1, 0, 0].repeat(1000);
    assert_eq!(follow(&table.labels, table.finals, &letters), Ok(true));
    assert_eq!(
        follow(&table.labels, table.finals, &letters[1..]),
        Ok(false)
    );
}
