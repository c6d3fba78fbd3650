//! The search: breadth first over the product of model and table.
//!
//! The product is the one of source document 002: from a pair of a model state and a table state one goes
//! to a successor of the model state, and the table moves by that successor's letter. Only runs that can be
//! continued for ever count, so the model is searched without the states from which no endless run leaves.

use crate::model::{read_model, Model};
use crate::reader::read_rule;
use crate::refusal::{Refusal, SLICE_TOO_SHORT};
use crate::rule::Rule;
use crate::set::{members, only};
use crate::table::{table_of, Table, TABLE_ENTRIES};
use crate::trim::trimmed;
use crate::walk::{reached, START};

/// What a search answers.
#[derive(Debug, Clone, PartialEq, Eq)]
pub struct Searched {
    /// The first shortest run that the rule accepts, as model states; none if there is no run of any length.
    pub run: Option<Vec<u8>>,
    /// The number of pairs that are met over runs no longer than the find, or over all runs.
    pub pairs: u64,
}

/// Searches the model for a run that the rule accepts. The four lengths are those of the lent slices.
/// Refuses a faulty rule, then a faulty model, then 21.
pub fn search(rule: &[u8], model: &[u8], slices: [usize; 4]) -> Result<Searched, Refusal> {
    let (rule, model) = read(rule, model, slices)?;
    Ok(Product::new(&model, &table_of(&rule)).search())
}

/// The same with the table trimmed before it looks (2026-04).
pub fn search_trimmed(rule: &[u8], model: &[u8], slices: [usize; 4]) -> Result<Searched, Refusal> {
    let (rule, model) = read(rule, model, slices)?;
    let table = table_of(&rule);
    Ok(Product::new(&model, &trimmed(&table.labels, table.finals)).search())
}

fn read(rule: &[u8], model: &[u8], slices: [usize; 4]) -> Result<(Rule, Model), Refusal> {
    let rule = read_rule(rule)?.rule;
    let model = read_model(model)?;
    if slices.iter().any(|&length| length < TABLE_ENTRIES) {
        return Err(Refusal::at(SLICE_TOO_SHORT, 0));
    }
    Ok((rule, model.without_dead_ends()))
}

/// A set of pairs: for each model state a set of table states.
type Pairs = Vec<u64>;

/// Model and table together.
struct Product<'a> {
    model: &'a Model,
    finals: u64,
    /// For each model state and table state: the table states after the model state's letter.
    moves: Vec<Vec<u64>>,
}

impl<'a> Product<'a> {
    /// The product of the two.
    fn new(model: &'a Model, table: &Table) -> Product<'a> {
        let moves_by = |letter| {
            table
                .states()
                .map(|q| reached(only(q), &table.labels, letter))
                .collect()
        };
        Product {
            model,
            finals: table.finals,
            moves: model
                .letters
                .iter()
                .map(|&letter| moves_by(letter))
                .collect(),
        }
    }

    /// Forward for the pairs, and back for the run if one was found.
    fn search(&self) -> Searched {
        let levels = self.levels();
        let found = levels.last().is_some_and(|level| self.has_final(level));
        Searched {
            pairs: levels.iter().map(count).sum(),
            run: found.then(|| self.first_run(&self.useful(&levels))),
        }
    }

    /// The pairs by the length of the shortest run that meets them, from length 1 on, up to and with the
    /// first length that meets a final state; or all there are.
    fn levels(&self) -> Vec<Pairs> {
        let mut levels: Vec<Pairs> = vec![];
        let mut seen = self.no_pairs();
        let mut level = self.first_pairs();
        while count(&level) > 0 {
            seen = joined(&seen, &level);
            let next = if self.has_final(&level) {
                self.no_pairs()
            } else {
                without(&self.pairs_after(&level), &seen)
            };
            levels.push(level);
            level = next;
        }
        levels
    }

    /// The pairs of the levels from which a final pair of the last level is reached, level by level.
    fn useful(&self, levels: &[Pairs]) -> Vec<Pairs> {
        let mut useful: Vec<Pairs> = vec![];
        for level in levels.iter().rev() {
            let kept = match useful.last() {
                None => self.finals_of(level),
                Some(next) => self.leading_to(level, next),
            };
            useful.push(kept);
        }
        useful.reverse();
        useful
    }

    /// The run that takes the lowest useful state at each length.
    ///
    /// The next state may be useful through any table state that the beginning can have led to, so all of
    /// them are kept.
    fn first_run(&self, useful: &[Pairs]) -> Vec<u8> {
        let mut run = vec![];
        let mut choices = self.model.initial;
        let mut tables = START;
        for level in useful {
            let state = members(choices)
                .find(|&state| self.moved(tables, state) & level[state] != 0)
                .expect("each useful pair is met by a useful beginning");
            run.push(state as u8);
            choices = self.model.successors[state];
            tables = self.moved(tables, state);
        }
        run
    }

    /// The table states after the model state's letter, from a set of table states.
    fn moved(&self, tables: u64, state: usize) -> u64 {
        members(tables).fold(0, |after, q| after | self.moves[state][q])
    }

    fn no_pairs(&self) -> Pairs {
        vec![0; self.model.size()]
    }

    /// The pairs after runs of one state.
    fn first_pairs(&self) -> Pairs {
        let mut first = self.no_pairs();
        for state in members(self.model.initial) {
            first[state] = self.moved(START, state);
        }
        first
    }

    /// The pairs one step after those of the level.
    fn pairs_after(&self, level: &Pairs) -> Pairs {
        let mut after = self.no_pairs();
        for state in states_of(level) {
            for next in members(self.model.successors[state]) {
                after[next] |= self.moved(level[state], next);
            }
        }
        after
    }

    /// The pairs of the level with a final table state.
    fn finals_of(&self, level: &Pairs) -> Pairs {
        level.iter().map(|tables| tables & self.finals).collect()
    }

    /// Whether a pair of the level has a final table state.
    fn has_final(&self, level: &Pairs) -> bool {
        count(&self.finals_of(level)) > 0
    }

    /// The pairs of the level from which one step leads to a pair of the other set.
    fn leading_to(&self, level: &Pairs, goal: &Pairs) -> Pairs {
        let mut leading = self.no_pairs();
        for state in states_of(level) {
            leading[state] = members(level[state])
                .filter(|&q| self.leads_to(state, q, goal))
                .map(only)
                .sum();
        }
        leading
    }

    /// Whether one step leads from the pair into the set.
    fn leads_to(&self, state: usize, q: usize, goal: &Pairs) -> bool {
        members(self.model.successors[state]).any(|next| self.moves[next][q] & goal[next] != 0)
    }
}

/// The model states that stand in some pair.
fn states_of(pairs: &Pairs) -> impl Iterator<Item = usize> + '_ {
    (0..pairs.len()).filter(|&state| pairs[state] != 0)
}

/// The number of pairs.
fn count(pairs: &Pairs) -> u64 {
    pairs.iter().map(|tables| tables.count_ones() as u64).sum()
}

/// The pairs that are in either set.
fn joined(a: &Pairs, b: &Pairs) -> Pairs {
    a.iter().zip(b).map(|(a, b)| a | b).collect()
}

/// The pairs that are in the first set and not in the second.
fn without(a: &Pairs, b: &Pairs) -> Pairs {
    a.iter().zip(b).map(|(a, b)| a & !b).collect()
}
