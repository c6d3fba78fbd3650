//! What becomes of lent slices: short ones, long ones, and all of them after a refusal.

use crate::inputs::{state, three_states, two_of_three, RULE};
use cases::line_input;
use gongcollar::{build_into, judge, raw, rulecheck_into};
use gongcollar::{search_into, search_trimmed_into, trim_into};
use gongcollar::{Lent, Refusal, Table, Workspace, ENTRIES, LINE_BYTES};

/// What stands in a lent slice before the call.
const JUNK: u8 = 0x77;
const LONG: usize = 5000;
const SHORT: [usize; 3] = [0, 1, ENTRIES - 1];

/// Four slices of given lengths.
struct Slices {
    table: Vec<u64>,
    work1: Vec<u16>,
    work2: Vec<u16>,
    run: Vec<u8>,
}

impl Slices {
    fn of(lengths: [usize; 4]) -> Slices {
        Slices {
            table: vec![JUNK.into(); lengths[0]],
            work1: vec![JUNK.into(); lengths[1]],
            work2: vec![JUNK.into(); lengths[2]],
            run: vec![JUNK; lengths[3]],
        }
    }

    fn lent(&mut self) -> Lent<'_> {
        Lent {
            table: &mut self.table,
            work1: &mut self.work1,
            work2: &mut self.work2,
            run: &mut self.run,
        }
    }

    fn untouched(&self) -> bool {
        junk(&self.table) && junk(&self.work1) && junk(&self.work2) && junk(&self.run)
    }

    /// The working slices are as an answer leaves them, and so is the table slice past its 4,096 entries.
    fn worked(&self) -> bool {
        let cleared = |work: &[u16]| work[..ENTRIES].iter().all(|&x| x == 0);
        cleared(&self.work1)
            && cleared(&self.work2)
            && junk(&self.work1[ENTRIES..])
            && junk(&self.work2[ENTRIES..])
            && junk(&self.table[ENTRIES..])
    }
}

fn junk<T: Copy + PartialEq + From<u8>>(slice: &[T]) -> bool {
    slice.iter().all(|&x| x == T::from(JUNK))
}

#[test]
fn a_built_table_ends_at_its_entries() {
    let mut lent = vec![u64::MAX; LONG];
    build_into(&RULE, &mut lent).unwrap();
    assert_eq!(lent[..ENTRIES], *Table::build(&RULE).unwrap().entries());
    assert!(lent[ENTRIES..].iter().all(|&x| x == u64::MAX));
}

#[test]
fn a_refused_build_changes_nothing() {
    for length in SHORT {
        let mut lent = vec![JUNK.into(); length];
        let refusal = build_into(&RULE, &mut lent).unwrap_err();
        assert_eq!(refusal, Refusal::ShortSlice { place: 0 });
        assert!(junk(&lent));
    }
    let mut lent = vec![JUNK.into(); LONG];
    assert!(build_into(&RULE[..11], &mut lent).is_err());
    assert!(junk(&lent));
}

#[test]
fn a_find_writes_its_run_and_no_more() {
    for length in [ENTRIES, LONG] {
        let mut slices = Slices::of([length; 4]);
        search_into(&RULE, &three_states(), slices.lent()).unwrap();
        assert!(slices.worked());
        assert_eq!(
            slices.table[..ENTRIES],
            *Table::build(&RULE).unwrap().entries()
        );
        assert_eq!(slices.run[..3], [0, 1, 2]);
        assert!(junk(&slices.run[3..]));
    }
}

#[test]
fn a_trimmed_search_leaves_the_trimmed_table() {
    let mut slices = Slices::of([LONG; 4]);
    search_trimmed_into(&RULE, &three_states(), slices.lent()).unwrap();
    assert!(slices.worked());
    let mut table = Table::build(&RULE).unwrap();
    table.trim();
    assert_eq!(slices.table[..ENTRIES], *table.entries());
    assert_eq!(slices.run[..3], [0, 1, 2]);
    assert!(junk(&slices.run[3..]));
    let mut slices = Slices::of([LONG, LONG, LONG, ENTRIES - 1]);
    assert!(search_trimmed_into(&RULE, &three_states(), slices.lent()).is_err());
    assert!(slices.untouched());
}

#[test]
fn a_trimmed_table_ends_at_its_entries() {
    let mut lent = vec![u64::MAX; LONG];
    let built = build_into(&RULE, &mut lent).unwrap();
    let trimmed = trim_into(&mut lent, built.weight, built.finals).unwrap();
    assert_eq!((trimmed.weight, trimmed.finals), (4, 1 << 3));
    let mut table = Table::build(&RULE).unwrap();
    table.trim();
    assert_eq!(lent[..ENTRIES], *table.entries());
    assert!(lent[ENTRIES..].iter().all(|&x| x == u64::MAX));
    // Again nothing changes.
    let before = lent.clone();
    let again = trim_into(&mut lent, trimmed.weight, trimmed.finals).unwrap();
    assert_eq!((again, lent), (trimmed, before));
}

#[test]
fn a_refused_trim_changes_nothing() {
    for length in SHORT {
        let mut lent = vec![JUNK.into(); length];
        let refusal = trim_into(&mut lent, 64, 1).unwrap_err();
        assert_eq!(refusal, Refusal::ShortSlice { place: 0 });
        assert!(junk(&lent));
    }
    // Labels everywhere are outside every weight but 64.
    for (weight, finals) in [(0, 0), (1, 1), (63, 1), (65, 1), (u64::MAX, 1)] {
        let mut lent = vec![JUNK.into(); LONG];
        let refusal = trim_into(&mut lent, weight, finals).unwrap_err();
        assert_eq!(refusal, Refusal::NoTable { place: 0 });
        assert!(junk(&lent));
    }
}

#[test]
fn a_search_that_finds_nothing_leaves_the_output() {
    let mut slices = Slices::of([LONG; 4]);
    search_into(&RULE, &two_of_three(), slices.lent()).unwrap();
    assert!(slices.worked());
    assert!(junk(&slices.run));
}

#[test]
fn a_search_with_a_short_slice_changes_nothing() {
    for short in SHORT {
        for which in 0..4 {
            let mut lengths = [LONG; 4];
            lengths[which] = short;
            let mut slices = Slices::of(lengths);
            let refusal = search_into(&RULE, &three_states(), slices.lent()).unwrap_err();
            assert_eq!(refusal, Refusal::ShortSlice { place: 0 });
            assert!(slices.untouched());
        }
    }
}

#[test]
fn a_search_of_a_faulty_rule_or_model_changes_nothing() {
    let mut slices = Slices::of([LONG; 4]);
    assert!(search_into(&[0x12], &three_states(), slices.lent()).is_err());
    assert!(search_into(&RULE, &[0x20], slices.lent()).is_err());
    assert!(slices.untouched());
}

#[test]
fn the_same_bytes_may_be_read_twice() {
    // The empty rule, read as one letter and as a model of which the first byte is no state.
    let bytes = [0x11];
    assert_eq!(judge(&bytes, &bytes), Ok(false));
    let refusal = Workspace::new().search(&bytes, &bytes).unwrap_err();
    assert_eq!(refusal, Refusal::NotAState { place: 0 });
}

#[test]
fn a_line_ends_at_its_length() {
    let input = line_input(&RULE, &three_states());
    let mut out = vec![JUNK; LINE_BYTES + 100];
    let line = rulecheck_into(&input, &mut out).unwrap();
    assert_eq!(line, b"found 3 pairs 3: 0 1 2 uses 0 1 2");
    let length = line.len();
    assert!(junk(&out[length..]));
    for short in [0, 1, LINE_BYTES - 1] {
        let mut out = vec![JUNK; short];
        assert_eq!(rulecheck_into(&input, &mut out), None);
        assert!(junk(&out));
    }
}

#[test]
fn a_refusal_has_no_other_field() {
    let refused = 2;
    let place = 1;
    let rule = raw::Rule {
        refused,
        place,
        ..Default::default()
    };
    assert_eq!(raw::read_rule(&[0x12]), rule);
    let built = raw::Built {
        refused,
        place,
        ..Default::default()
    };
    assert_eq!(raw::build(&[0x12], &mut [0; ENTRIES]), built);
    let judged = raw::Judged {
        refused,
        place,
        ..Default::default()
    };
    assert_eq!(raw::judge(&[0x12], &[]), judged);
    let lasts = raw::Lasts {
        refused: 16,
        place: 3,
        ..Default::default()
    };
    assert_eq!(raw::lasting(&state(0, 1, 2)), lasts);
    let mut slices = Slices::of([ENTRIES; 4]);
    let searched = raw::Searched {
        refused,
        place,
        ..Default::default()
    };
    assert_eq!(raw::search(&[0x12], &[], &mut slices.lent()), searched);
    let walker = raw::Walker {
        set: 5,
        finals: 7,
        taken: 9,
        first: 2,
        matched: 3,
    };
    let stepped = raw::Stepped {
        refused: 21,
        walker,
        ..Default::default()
    };
    assert_eq!(raw::step(walker, &[], 64), stepped);
    let mut lent = walker;
    let moved = raw::Moved {
        refused: 21,
        ..Default::default()
    };
    assert_eq!(raw::step_lent(&mut lent, &[], 64), moved);
    assert_eq!(lent, walker);
    let moved = raw::Moved {
        refused: 22,
        place: 1,
        ..Default::default()
    };
    assert_eq!(raw::follow(&[u64::MAX; ENTRIES], 1, &[0, 64]), moved);
    assert_eq!(
        raw::search_trimmed(&[0x12], &[], &mut slices.lent()),
        searched
    );
    let trimmed = raw::Trimmed {
        refused: 24,
        ..Default::default()
    };
    assert_eq!(raw::trim(&mut [0; ENTRIES], 3, 0b1000), trimmed);
}
