//! The worked examples of the scope document.

use crate::inputs::{dead_end, pair, state, three_states, two_of_three, P1, RULE};
use cases::hostile::joined_left;
use cases::rules::P0;
use cases::{heavy, line_input, models};
use gongcollar::{follow, judge, lasting, read_model, read_rule, rulecheck};
use gongcollar::{Refusal, Table, Workspace};

const LABEL_P0: u64 = 0xAAAA_AAAA_AAAA_AAAA;
const LABEL_P1: u64 = 0xCCCC_CCCC_CCCC_CCCC;
const LABEL_P2: u64 = 0xF0F0_F0F0_F0F0_F0F0;

/// Judge, table, walker and the whole walk all say whether the rule accepts the letters.
fn accepts(rule: &[u8], letters: &[u8]) -> bool {
    let judged = judge(rule, letters).unwrap();
    let table = Table::build(rule).unwrap();
    let mut walker = table.walker();
    for &letter in letters {
        let matches = walker.step(&table, letter).unwrap();
        assert_eq!(matches, walker.matches());
    }
    assert_eq!(walker.matches(), judged);
    assert_eq!(table.follow(letters), Ok(judged));
    judged
}

#[test]
fn the_listed_sequences() {
    let then = pair(0x12, &P0, &P1);
    assert!(accepts(&[0x11], &[]));
    assert!(!accepts(&[0x11], &[0]));
    assert!(accepts(&P0, &[1]));
    assert!(!accepts(&P0, &[]));
    assert!(!accepts(&P0, &[1, 1]));
    assert!(accepts(&pair(0x13, &P0, &P1), &[3]));
    assert!(!accepts(&pair(0x13, &P0, &P1), &[1, 2]));
    assert!(accepts(&then, &[1, 2]));
    assert!(!accepts(&then, &[3]));
    assert!(accepts(&pair(0x15, &P0, &then), &[1, 2]));
    assert!(!accepts(&pair(0x15, &P0, &then), &[1]));
    assert!(!accepts(&pair(0x16, &P0, &then), &[1, 2]));
    assert!(accepts(&[0x18, 0x11], &[]));
    let star: &[u8] = &[0x17, 0x10, 0x01, 0x00];
    assert!(!accepts(&pair(0x13, star, star), &[]));
}

#[test]
fn the_worked_table() {
    let table = Table::build(&RULE).unwrap();
    assert_eq!(table.weight(), 6);
    assert_eq!(table.finals(), 1 << 5);
    let mut labels = vec![0; gongcollar::ENTRIES];
    labels[1] = LABEL_P0;
    for from in [1, 2, 3] {
        labels[64 * from + 3] = LABEL_P1;
    }
    for from in [1, 2, 3, 4] {
        labels[64 * from + 5] = LABEL_P2;
    }
    assert_eq!(table.entries(), labels);
    assert_eq!(table.label(3, 5), LABEL_P2);
    assert_eq!(table.label(64, 0), 0);
    assert_eq!(table.label(0, 64), 0);
}

#[test]
fn the_worked_walk() {
    let table = Table::build(&RULE).unwrap();
    let after_p0 = table.walker().stepped(&table, 1).unwrap();
    assert_eq!(after_p0.walker.set(), 0b10);
    assert!(!after_p0.matches);
    let after_both = after_p0.walker.stepped(table.entries(), 6).unwrap();
    assert_eq!(after_both.walker.set(), 1 << 3 | 1 << 5);
    assert!(after_both.matches);
    assert_eq!(after_both.walker.first_match(), Some(2));
}

/// The letters that a walker takes, and at how many it has matched first after each.
fn firsts(rule: &[u8], letters: &[u8]) -> Vec<Option<u32>> {
    let table = Table::build(rule).unwrap();
    let mut walker = table.walker();
    let mut firsts = vec![walker.first_match()];
    for (index, &letter) in letters.iter().enumerate() {
        let by_value = walker.stepped(&table, letter).unwrap();
        assert_eq!(walker.step(&table, letter), Ok(by_value.matches));
        assert_eq!(walker, by_value.walker);
        assert_eq!(walker.taken() as usize, index + 1);
        firsts.push(walker.first_match());
    }
    firsts
}

#[test]
fn the_first_match_is_remembered() {
    let star: &[u8] = &[0x17, 0x10, 0x01, 0x00];
    assert_eq!(firsts(star, &[1, 0, 1]), [Some(0); 4]);
    assert_eq!(firsts(&P0, &[1, 1]), [None, Some(1), Some(1)]);
    assert_eq!(firsts(&P0, &[2, 1]), [None; 3]);
    let plus: &[u8] = &[0x18, 0x10, 0x01, 0x00];
    assert_eq!(firsts(plus, &[1, 1]), [None, Some(1), Some(1)]);
    let late = firsts(&RULE, &[1, 2, 2, 2, 4, 4]);
    assert_eq!(late[..5], [None; 5]);
    assert_eq!(late[5..], [Some(5); 2]);
}

#[test]
fn events_are_followed_as_they_come() {
    let table = Table::build(&RULE).unwrap();
    let mut walker = table.walker();
    let day = [1, 2, 64, 2, 4];
    let said: Vec<_> = walker.steps(&table, day).collect();
    let refusal = Refusal::EventLetter { place: 0 };
    assert_eq!(
        said,
        [Ok(false), Ok(false), Err(refusal), Ok(false), Ok(true)]
    );
    assert_eq!((walker.taken(), walker.first_match()), (4, Some(4)));
    // From a slice too; and what is not asked for is not taken.
    let mut walker = table.walker();
    assert_eq!(walker.steps(&table, &day).take(2).count(), 2);
    assert_eq!(walker.taken(), 2);
    assert_eq!(walker.steps(&table, &day).size_hint(), (5, Some(5)));
}

#[test]
fn whole_sequences_of_any_length() {
    let table = Table::build(&RULE).unwrap();
    let many = [vec![1], vec![2; 10_000], vec![4]].concat();
    assert_eq!(table.follow(&many), Ok(true));
    assert_eq!(table.follow(&many[1..]), Ok(false));
    // Finals that are not the rule's: a fresh walker is in state 0, and that alone.
    assert_eq!(follow(&table, 1, &[]), Ok(true));
    assert_eq!(follow(&table, !1, &[]), Ok(false));
    assert_eq!(follow(&table, 1 << 3, &many[..5]), Ok(true));
}

/// Two rows of 16 letters under `|`, which weigh 65.
fn one_too_heavy() -> Vec<u8> {
    let half = joined_left(0x12, &P0, 16);
    pair(0x14, &half, &half)
}

#[test]
fn weights_at_the_limit() {
    let row = joined_left(0x12, &P0, 32);
    assert_eq!(read_rule(&row).unwrap().weight, 64);
    let refusal = read_rule(&one_too_heavy()).unwrap_err();
    assert_eq!(refusal, Refusal::TooHeavy { place: 0 });
}

#[test]
fn the_worked_search() {
    let mut workspace = Workspace::new();
    let found = workspace.search(&RULE, &three_states()).unwrap();
    assert_eq!(found.run, Some(&[0, 1, 2][..]));
    assert_eq!(found.pairs, 3);
    assert_eq!(workspace.table(), Table::build(&RULE).unwrap().entries());
    for model in [dead_end(), two_of_three()] {
        let none = workspace.search(&RULE, &model).unwrap();
        assert_eq!((none.run, none.pairs), (None, 2));
    }
}

#[test]
fn the_worked_lines() {
    assert_eq!(
        rulecheck(&line_input(&RULE, &three_states())),
        "found 3 pairs 3: 0 1 2 uses 0 1 2"
    );
    for model in [dead_end(), two_of_three()] {
        assert_eq!(
            rulecheck(&line_input(&RULE, &model)),
            "none pairs 2 uses 0 1 2"
        );
    }
    assert_eq!(
        rulecheck(&line_input(&one_too_heavy(), &[])),
        "refused 7 at 0"
    );
    assert_eq!(rulecheck(&[]), "refused 2 at 0");
    assert_eq!(rulecheck(&[0xFF, 0x11]), "none pairs 0 uses -");
}

#[test]
fn states_that_last() {
    let set = |model: &[u8]| lasting(model).map(|x| (x.states, x.set));
    assert_eq!(set(&three_states()), Ok((3, 0b111)));
    assert_eq!(set(&dead_end()), Ok((3, 0b011)));
    assert_eq!(set(&[]), Ok((0, 0)));
    let dead: Vec<u64> = lasting(&dead_end()).unwrap().dead_ends().collect();
    assert_eq!(dead, [2]);
    // A chain of all states into a dead end, and the same with a loop at its end.
    let chain = |last| -> Vec<u8> {
        let way = |at: u64| if at < 63 { 2 << at } else { last };
        (0..64).flat_map(|at| state(1, 1, way(at))).collect()
    };
    assert_eq!(set(&chain(0)), Ok((64, 0)));
    assert_eq!(lasting(&chain(0)).unwrap().dead_ends().count(), 64);
    assert_eq!(set(&chain(1 << 63)), Ok((64, u64::MAX)));
    let line = |last| rulecheck(&line_input(&RULE, &chain(last)));
    assert_eq!(line(0), "none pairs 0 uses 0 1 2");
    assert_eq!(line(1 << 63), "none pairs 64 uses 0 1 2");
    assert_eq!(set(&[0x20]), Err(Refusal::StateCutShort { place: 1 }));
}

#[test]
fn a_model_may_be_empty_or_full() {
    assert_eq!(read_model(&[]).unwrap().states, 0);
    let full = state(0, 1, u64::MAX).repeat(64);
    assert_eq!(read_model(&full).unwrap().states, 64);
}

#[test]
fn a_rule_of_the_empty_sequence_is_never_found() {
    let mut workspace = Workspace::default();
    let searched = workspace.search(&[0x11], &three_states()).unwrap();
    assert_eq!((searched.run, searched.pairs), (None, 0));
}

#[test]
fn a_long_run_is_printed_whole() {
    let ring = models::ring(64, Some(33));
    let rule = heavy::cycle_then_p0(31);
    let mut workspace = Workspace::new();
    let searched = workspace.search(&rule, &ring).unwrap();
    let run: Vec<u8> = (0..1954).map(|i| (i % 64) as u8).collect();
    assert_eq!(searched.run, Some(&run[..]));
    assert_eq!(searched.pairs, 1955);
    let states: Vec<String> = run.iter().map(u8::to_string).collect();
    let line = format!("found 1954 pairs 1955: {} uses 0", states.join(" "));
    assert_eq!(rulecheck(&line_input(&rule, &ring)), line);
}

#[test]
fn calls_run_in_several_threads() {
    let rule = heavy::cycle_then_p0(31);
    let model = models::ring(64, Some(33));
    let line = rulecheck(&line_input(&rule, &model));
    let many = || {
        let mut workspace = Workspace::new();
        for _ in 0..3 {
            assert_eq!(workspace.search(&rule, &model).unwrap().pairs, 1955);
            assert_eq!(workspace.search(&RULE, &three_states()).unwrap().pairs, 3);
            assert_eq!(rulecheck(&line_input(&rule, &model)), line);
            assert!(accepts(&RULE, &[1, 2, 2, 4]));
        }
    };
    std::thread::scope(|threads| {
        for _ in 0..4 {
            threads.spawn(many);
        }
    });
}
