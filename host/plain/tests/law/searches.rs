//! The search: its refusals, the traps, and drawn models against the definition over runs.

use std::collections::BTreeSet;

use crate::draw::Draw;
use crate::spell::*;
use plain::{accepts, build, read_model, read_rule, search, start, step};
use plain::{Model, Rule, Searched, Table, TABLE_ENTRIES};

fn found(run: &[u8], pairs: u64) -> Searched {
    Searched {
        run: Some(run.to_vec()),
        pairs,
    }
}

fn none(pairs: u64) -> Searched {
    Searched { run: None, pairs }
}

fn hold(rule: &[u8], model: &[Spelled], expected: Searched) {
    assert_eq!(search(rule, &model.concat(), ENOUGH), Ok(expected));
}

#[test]
fn the_search_refuses_in_order() {
    let short = |slice: usize| {
        let mut slices = ENOUGH;
        slices[slice] -= 1;
        slices
    };
    assert_eq!(search(&[0x02], &[0x00], [0; 4]), refused(4, 0));
    assert_eq!(
        search(&nested(0x12, 32, &p(0)), &[0x00], [0; 4]),
        refused(7, 0)
    );
    assert_eq!(search(&p(0), &[0x00], [0; 4]), refused(12, 0));
    assert_eq!(search(&p(0), &state(0, true, 2), [0; 4]), refused(16, 3));
    for slice in 0..4 {
        assert_eq!(search(&p(0), &[], short(slice)), refused(21, 0));
    }
    assert_eq!(search(&p(0), &[], [5000; 4]), Ok(none(0)));
}

#[test]
fn the_worked_search() {
    let states = |second, last| {
        [
            state(1, true, 2),
            state(2, false, second),
            state(4, false, last),
        ]
    };
    hold(&worked(), &states(6, 0), none(2));
    hold(&worked(), &states(2, 0), none(2));
    hold(&worked(), &states(6, 1), found(&[0, 1, 2], 3));
    hold(&worked(), &states(6, 4), found(&[0, 1, 2], 3));
}

#[test]
fn without_runs_there_is_nothing() {
    hold(&star(&anything()), &[], none(0));
    hold(&star(&anything()), &[state(0, false, 1)], none(0));
}

#[test]
fn a_rule_of_the_empty_sequence_alone_is_never_found() {
    hold(&empty(), &[state(0, true, 1)], none(0));
    hold(&star(&empty()), &[state(0, true, 1)], none(0));
    hold(&or(&empty(), &p(0)), &[state(0, true, 1)], none(0));
}

#[test]
fn a_dead_end_closes_no_run() {
    let rule = then(&p(0), &p(1));
    hold(&rule, &[state(1, true, 2), state(2, false, 0)], none(0));
    hold(
        &rule,
        &[state(1, true, 2), state(2, false, 2)],
        found(&[0, 1], 2),
    );
    // The way through state 1 is shorter, and ends there.
    let model = [
        state(1, true, 6),
        state(2, false, 0),
        state(1, false, 8),
        state(2, false, 4),
    ];
    let rule = then(&star(&p(0)), &p(1));
    hold(&rule, &model, found(&[0, 2, 3], 3));
}

#[test]
fn what_leads_to_dead_ends_alone_is_none_of_a_run() {
    let chain = |last| -> Vec<Spelled> {
        (0..64)
            .map(|number| match number {
                63 => state(2, false, last),
                _ => state(1, number == 0, 1 << (number + 1)),
            })
            .collect()
    };
    let rule = then(&star(&p(0)), &p(1));
    let whole: Vec<u8> = (0..64).collect();
    hold(&rule, &chain(0), none(0));
    hold(&rule, &chain(1 << 63), found(&whole, 64));
    hold(&rule, &chain(1), found(&whole, 64));
}

#[test]
fn the_finds_own_length_counts_in_full() {
    let model = [state(1, true, 1), state(2, true, 2), state(1, true, 4)];
    let rule = or(&p(0), &then(&p(1), &p(2)));
    hold(&rule, &model, found(&[0], 3));
}

#[test]
fn the_first_run_may_go_on_from_any_table_state() {
    // After p0 the table is in two states; the lower one goes on to the higher model state only.
    let model = [state(1, true, 6), state(2, false, 2), state(4, false, 4)];
    let rule = or(&then(&p(0), &p(2)), &then(&p(0), &p(1)));
    hold(&rule, &model, found(&[0, 1], 4));
    // The lowest state that meets a pair is passed over where nothing more can match after it.
    let model = [
        state(1, true, 4),
        state(1, true, 8),
        state(0, false, 4),
        state(2, false, 8),
    ];
    hold(&then(&p(0), &p(1)), &model, found(&[1, 3], 3));
}

#[test]
fn the_lower_state_at_the_first_difference_wins() {
    // 0 3 and 1 2 both match; so does 0 2 in the second model.
    let last = [state(2, false, 4), state(2, false, 8)];
    let rule = then(&p(0), &p(1));
    let model = [&[state(1, true, 8), state(1, true, 4)][..], &last].concat();
    hold(&rule, &model, found(&[0, 3], 4));
    let model = [&[state(1, true, 12), state(1, true, 4)][..], &last].concat();
    hold(&rule, &model, found(&[0, 2], 4));
}

#[test]
fn a_model_state_is_met_again_with_another_table_state() {
    // One state that loops; the rule needs it three times.
    let rule = then(&p(0), &then(&p(0), &p(0)));
    hold(&rule, &[state(1, true, 1)], found(&[0, 0, 0], 3));
}

#[test]
fn long_runs_are_found() {
    // 31 letters at a time round a ring of 64 states, until p0 in state 33 follows a full round of the rule.
    let round = nested(0x12, 30, &anything());
    let rule = then(&star(&round), &p(0));
    let ring: Vec<Spelled> = (0..64)
        .map(|number| state((number == 33) as u8, number == 0, 1 << ((number + 1) % 64)))
        .collect();
    let run: Vec<u8> = (0..1954).map(|index| (index % 64) as u8).collect();
    hold(&rule, &ring, found(&run, 1955));
}

/// What is known when a case is compared.
struct Case {
    rule: Rule,
    table: Table,
    model: Model,
    answer: Searched,
}

fn case(rule: &[u8], model: &[u8]) -> Case {
    let case = Case {
        rule: read_rule(rule).unwrap().rule,
        table: build(rule, TABLE_ENTRIES).unwrap(),
        model: read_model(model).unwrap(),
        answer: search(rule, model, ENOUGH).unwrap(),
    };
    let bound = case.bound() as u64;
    assert!(case.answer.pairs <= bound);
    assert!(case.answer.run.iter().all(|run| run.len() as u64 <= bound));
    case
}

impl Case {
    /// s·(n-1): no shortest run to a pair is longer, since nothing enters state 0.
    fn bound(&self) -> usize {
        self.model.letters.len() * (self.table.weight as usize - 1)
    }

    /// The model states that a run may go on to, or begin with if it has none yet, and still be continued for
    /// ever.
    fn next_states(&self, run: &[u8]) -> Vec<u8> {
        let set = match run.last() {
            None => self.model.initial,
            Some(&state) => self.model.successors[state as usize],
        };
        let goes_on = can_go(&self.model, self.model.letters.len());
        (0..64)
            .filter(|state| (set & goes_on) >> state & 1 == 1)
            .collect()
    }

    fn letters(&self, run: &[u8]) -> Vec<u8> {
        run.iter()
            .map(|&s| self.model.letters[s as usize])
            .collect()
    }

    /// The runs that are one state longer, in order.
    fn longer(&self, runs: &[Vec<u8>]) -> Vec<Vec<u8>> {
        runs.iter()
            .flat_map(|run| {
                self.next_states(run)
                    .into_iter()
                    .map(|s| [run, &[s][..]].concat())
            })
            .collect()
    }

    fn table_states(&self, run: &[u8]) -> u64 {
        let fresh = start(self.table.finals);
        let after = self.letters(run).iter().fold(fresh, |walker, &letter| {
            step(walker, &self.table.labels, letter).unwrap().0
        });
        after.set
    }

    /// The pairs that a run meets at its end.
    fn pairs_of(&self, run: &[u8]) -> Vec<(u8, u8)> {
        let set = self.table_states(run);
        let state = *run.last().unwrap();
        (0..64)
            .filter(|q| set >> q & 1 == 1)
            .map(|q| (state, q))
            .collect()
    }

    /// The answer by trying all runs in order, judged by Definition 2; nothing if there are too many.
    fn by_runs(&self, most: usize) -> Option<Searched> {
        let mut pairs = BTreeSet::new();
        let mut runs: Vec<Vec<u8>> = vec![vec![]];
        for _ in 0..self.bound() {
            runs = self.longer(&runs);
            if runs.len() > most {
                return None;
            }
            pairs.extend(runs.iter().flat_map(|run| self.pairs_of(run)));
            let run = runs
                .iter()
                .find(|run| accepts(&self.rule, &self.letters(run)));
            if let Some(run) = run {
                return Some(found(run, pairs.len() as u64));
            }
        }
        Some(none(pairs.len() as u64))
    }

    /// As `by_runs`, but of the runs that end in the same state with the same set of table states only the
    /// first goes on: the others could only do the same later.
    fn by_sets(&self, most: usize) -> Option<Searched> {
        let mut pairs = BTreeSet::new();
        let mut seen = BTreeSet::new();
        let mut runs: Vec<Vec<u8>> = vec![vec![]];
        while !runs.is_empty() {
            runs = self.longer(&runs);
            runs.retain(|run| seen.insert((*run.last().unwrap(), self.table_states(run))));
            if seen.len() > most {
                return None;
            }
            pairs.extend(runs.iter().flat_map(|run| self.pairs_of(run)));
            let matches = |run: &&Vec<u8>| self.table_states(run) & self.table.finals != 0;
            if let Some(run) = runs.iter().find(matches) {
                return Some(found(run, pairs.len() as u64));
            }
        }
        Some(none(pairs.len() as u64))
    }
}

/// The states from which so many steps can be taken, one after the other. Of as many as there are states, some
/// two enter the same state, and what lies between them can be gone for ever.
pub fn can_go(model: &Model, steps: usize) -> u64 {
    let all = (0..model.letters.len()).map(|state| 1 << state).sum();
    (0..steps).fold(all, |goes_on, _| {
        let ways = model.successors.iter().enumerate();
        ways.filter(|(_, &successors)| successors & goes_on != 0)
            .map(|(state, _)| 1 << state)
            .sum()
    })
}

/// How many compared cases found a run of two states or more, found one of one state, found none.
#[derive(Debug, Default)]
struct Tally {
    long: usize,
    short: usize,
    none: usize,
}

impl Tally {
    fn add(&mut self, answer: &Searched) {
        match &answer.run {
            Some(run) if run.len() > 1 => self.long += 1,
            Some(_) => self.short += 1,
            None => self.none += 1,
        }
    }

    /// Whether the cases were of every sort.
    fn is_broad(&self) -> bool {
        self.long >= 100 && self.short >= 100 && self.none >= 100
    }
}

/// Compares drawn searches, of up to so many states and so much weight, with the answer by another way
/// where it gives one.
fn compare(most: (usize, u64), seed: u64, by: impl Fn(&Case) -> Option<Searched>) -> Tally {
    let mut draw = Draw::new(seed);
    let mut tally = Tally::default();
    for round in 0..1000 {
        let rule = match round % 4 {
            0 => draw.light_rule(4, 2, most.1),
            1 => draw.chain(2, 2, most.1),
            2 => draw.chain(4, 2, most.1),
            _ => draw.fork(2, most.1),
        };
        let states = 1 + draw.below(most.0).max(draw.below(most.0));
        let model = draw.model(states, 2, 2 + states / 4);
        let case = case(&rule, &model);
        if let Some(expected) = by(&case) {
            assert_eq!(case.answer, expected, "{rule:x?} {model:x?}");
            tally.add(&expected);
        }
    }
    tally
}

#[test]
fn the_answer_is_the_one_over_all_runs() {
    let tally = compare((4, 20), 5, |case| case.by_runs(200));
    assert!(tally.is_broad(), "{tally:?}");
}

#[test]
fn the_answer_is_the_one_over_sets_in_larger_models() {
    let tally = compare((24, 64), 6, |case| case.by_sets(1000));
    assert!(tally.is_broad(), "{tally:?}");
}
