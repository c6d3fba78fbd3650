//! The twin held to the plain crate, on generated inputs: verdict, run, pairs, propositions, refusals, and what becomes
//! of the lent slices.

use cases::{damage, heavy, hostile, letters, models, rules, Draws};
use twin::{Lent, Searched};

const ENTRIES: usize = 4096;
/// What stands in the lent slices before a search.
const JUNK: u8 = 0xA5;

/// The four slices, some entries longer than they must be.
#[derive(Debug, Clone, PartialEq, Eq)]
struct Slices {
    table: Vec<u64>,
    work1: Vec<u16>,
    work2: Vec<u16>,
    run: Vec<u8>,
}

impl Slices {
    fn new(lengths: [usize; 4]) -> Slices {
        Slices {
            table: vec![u64::from(JUNK); lengths[0]],
            work1: vec![u16::from(JUNK); lengths[1]],
            work2: vec![u16::from(JUNK); lengths[2]],
            run: vec![JUNK; lengths[3]],
        }
    }

    fn search(&mut self, rule: &[u8], model: &[u8]) -> Result<Searched, twin::Refusal> {
        let mut lent = Lent {
            table: &mut self.table,
            work1: &mut self.work1,
            work2: &mut self.work2,
            run: &mut self.run,
        };
        twin::search(rule, model, &mut lent)
    }
}

/// One search, with slices of these lengths.
fn hold(rule: &[u8], model: &[u8], lengths: [usize; 4]) {
    let mut slices = Slices::new(lengths);
    let mut expected = slices.clone();
    let said = slices.search(rule, model);
    match plain::search(rule, model, lengths) {
        Err(refusal) => {
            let told = said.map_err(|x| (x.number, x.place as u64));
            assert_eq!(told, Err((refusal.number, refusal.place)), "{rule:02x?}");
        }
        Ok(searched) => {
            let said = said.expect("the plain crate accepts it");
            let length = searched.run.as_ref().map(Vec::len);
            let uses = plain::read_rule(rule).unwrap().rule.names();
            assert_eq!(
                (said.length, said.pairs as u64, said.uses),
                (length, searched.pairs, uses),
                "{rule:02x?} {model:02x?}"
            );
            let table = plain::build(rule, ENTRIES).unwrap();
            expected.table[..ENTRIES].copy_from_slice(&table.labels);
            expected.work1[..ENTRIES].fill(0);
            expected.work2[..ENTRIES].fill(0);
            let run = searched.run.unwrap_or_default();
            expected.run[..run.len()].copy_from_slice(&run);
        }
    }
    assert_eq!(slices, expected, "{rule:02x?} {model:02x?}");
}

const LONG: [usize; 4] = [ENTRIES, ENTRIES + 3, ENTRIES + 1, ENTRIES + 2];

/// A model that was made for the rule, or any.
fn model_for(draws: &mut Draws, rule: &[u8]) -> Vec<u8> {
    match plain::build(rule, ENTRIES) {
        Ok(table) if draws.once_in(2) => {
            let letters = letters::followed(draws, &table.labels, table.finals, 64);
            models::spelling(draws, &letters)
        }
        _ => models::accepted(draws),
    }
}

#[test]
fn drawn_searches() {
    let mut draws = Draws::new(20_261_001);
    for _ in 0..4000 {
        let rule = rules::accepted(&mut draws);
        let model = model_for(&mut draws, &rule);
        hold(&rule, &model, LONG);
    }
}

#[test]
fn damaged_inputs() {
    let mut draws = Draws::new(20_261_002);
    for _ in 0..4000 {
        let rule = rules::accepted(&mut draws);
        let model = model_for(&mut draws, &rule);
        hold(&damage::damaged_more(&mut draws, &rule), &model, LONG);
        hold(&rule, &damage::damaged_more(&mut draws, &model), LONG);
    }
}

#[test]
fn short_slices() {
    let model = models::ring(3, Some(1));
    for short in 0..4 {
        let mut lengths = LONG;
        lengths[short] = ENTRIES - 1;
        hold(&heavy::row_of_any(), &model, lengths);
        hold(&[], &model, lengths);
        hold(&heavy::row_of_any(), &[0], lengths);
    }
}

#[test]
fn hard_searches() {
    for rule in [
        heavy::cycle_then_p0(31),
        heavy::cycle_then_never(31),
        heavy::row_of_any(),
        heavy::dense_and_never(),
        heavy::dense_again_and_never(),
    ] {
        for model in [
            vec![],
            models::ring(63, None),
            models::ring(64, Some(33)),
            models::full(64),
        ] {
            hold(&rule, &model, LONG);
        }
    }
}

#[test]
fn hostile_rules() {
    let model = models::full(5);
    let named = [heavy::for_the_builder(), heavy::for_the_judge()].concat();
    let heavy = named.into_iter().map(|rule| rule.bytes);
    for rule in hostile::rules().into_iter().chain(heavy) {
        hold(&rule, &model, LONG);
    }
}
