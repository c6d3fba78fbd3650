//! Trimming (2026-04): a table without the states that do no work.

use crate::refusal::{Refusal, NO_TABLE, SLICE_TOO_SHORT};
use crate::set::{has, members, only, WORD};
use crate::table::{entry, Table, TABLE_ENTRIES};
use crate::walk::START;

/// Trims the table of that weight and those finals, whatever it is. Refuses 21, then 24.
pub fn trim(table: &[u64], weight: u64, finals: u64) -> Result<Table, Refusal> {
    let Some(labels) = table.get(..TABLE_ENTRIES) else {
        return Err(Refusal::at(SLICE_TOO_SHORT, 0));
    };
    if !stands(labels, weight, finals) {
        return Err(Refusal::at(NO_TABLE, 0));
    }
    Ok(trimmed(labels, finals))
}

/// A weight from 1 to 64, and all finals and labels inside it.
fn stands(labels: &[u64], weight: u64, finals: u64) -> bool {
    let inside = |state: usize| (state as u64) < weight;
    let labelled = (0..TABLE_ENTRIES).filter(|&at| labels[at] != 0);
    (1..=WORD as u64).contains(&weight)
        && members(finals).all(inside)
        && labelled
            .map(|at| (at / WORD, at % WORD))
            .all(|(p, q)| inside(p) && inside(q))
}

/// The kept states in rising order, with the labels between them.
pub(crate) fn trimmed(labels: &[u64], finals: u64) -> Table {
    let leads = |p, q| labels[entry(p, q)] != 0;
    let reached = grown(START, leads);
    let ending = grown(finals, |q, p| leads(p, q));
    let kept: Vec<usize> = members(reached & ending | START).collect();
    let mut table = Table {
        weight: kept.len() as u64,
        finals: 0,
        labels: vec![0; TABLE_ENTRIES],
    };
    for (i, &p) in kept.iter().enumerate() {
        for (j, &q) in kept.iter().enumerate() {
            table.labels[entry(i, j)] = labels[entry(p, q)];
        }
        if has(finals, p) {
            table.finals |= only(i);
        }
    }
    table
}

/// The set with all that `leads` leads to from it.
fn grown(start: u64, leads: impl Fn(usize, usize) -> bool) -> u64 {
    let mut set = start;
    loop {
        let next = (0..WORD).filter(|&q| members(set).any(|p| leads(p, q)));
        let larger = next.map(only).fold(set, |set, q| set | q);
        if larger == set {
            return set;
        }
        set = larger;
    }
}

#[cfg(test)]
mod tests {
    use super::*;
    use crate::{build, follow};

    /// `{p0;{{p1}[*];p2}}`
    const EXAMPLE: [u8; 12] = [
        0x12, 0x10, 0x01, 0x00, 0x12, 0x17, 0x10, 0x01, 0x01, 0x10, 0x01, 0x02,
    ];
    const LABELS: [u64; 3] = [
        0xAAAA_AAAA_AAAA_AAAA,
        0xCCCC_CCCC_CCCC_CCCC,
        0xF0F0_F0F0_F0F0_F0F0,
    ];

    #[test]
    fn the_example_has_four_states_that_work() {
        let built = build(&EXAMPLE, TABLE_ENTRIES).unwrap();
        let table = trim(&built.labels, built.weight, built.finals).unwrap();
        assert_eq!((table.weight, table.finals), (4, 1 << 3));
        let mut labels = vec![0; TABLE_ENTRIES];
        for (p, q, proposition) in [(0, 1, 0), (1, 2, 1), (1, 3, 2), (2, 2, 1), (2, 3, 2)] {
            labels[entry(p, q)] = LABELS[proposition];
        }
        assert_eq!(table.labels, labels);
        assert_eq!(trim(&table.labels, 4, 1 << 3), Ok(table.clone()));
        for letters in [&[1, 4][..], &[1, 2, 2, 4], &[1, 2], &[4], &[]] {
            let whole = follow(&built.labels, built.finals, letters);
            assert_eq!(follow(&table.labels, table.finals, letters), whole);
        }
    }

    #[test]
    fn nothing_is_one_state() {
        // {p0;false}
        let built = build(&[0x12, 0x10, 0x01, 0x00, 0x10, 0x03], TABLE_ENTRIES).unwrap();
        let table = trim(&built.labels, built.weight, built.finals).unwrap();
        assert_eq!((table.weight, table.finals), (1, 0));
        assert_eq!(table.labels, vec![0; TABLE_ENTRIES]);
    }

    #[test]
    fn labels_into_state_0_stay() {
        // 0 to 1 and back, 1 to itself; 1 is final, 2 goes to 0 and nothing enters it.
        let mut labels = vec![0; TABLE_ENTRIES + 1];
        for (p, q) in [(0, 1), (1, 0), (1, 1), (2, 0)] {
            labels[entry(p, q)] = 7;
        }
        let table = trim(&labels, 3, 2).unwrap();
        assert_eq!((table.weight, table.finals), (2, 2));
        labels[entry(2, 0)] = 0;
        assert_eq!(table.labels, labels[..TABLE_ENTRIES]);
    }

    #[test]
    fn what_is_no_table_is_refused() {
        let number = |labels: &[u64], weight, finals| {
            let refusal = trim(labels, weight, finals).unwrap_err();
            (refusal.number, refusal.place)
        };
        let none = vec![0; TABLE_ENTRIES];
        assert_eq!(number(&none[1..], 0, 0), (21, 0));
        assert_eq!(number(&none, 0, 0), (24, 0));
        assert_eq!(number(&none, 65, 0), (24, 0));
        assert_eq!(number(&none, u64::MAX, 0), (24, 0));
        assert_eq!(number(&none, 3, 0b1000), (24, 0));
        for (p, q) in [(0, 3), (3, 0), (63, 63)] {
            let mut labels = none.clone();
            labels[entry(p, q)] = 1 << 63;
            assert_eq!(number(&labels, 3, 0), (24, 0));
        }
        let mut longer = vec![0; TABLE_ENTRIES + 1];
        longer[TABLE_ENTRIES] = 1;
        assert!(trim(&longer, 64, u64::MAX).is_ok());
    }
}
