//! The calls of [`gongcollar::raw`] as the plain library has them, the later content of lent slices included.

use crate::lent::Slices;
use gongcollar::raw::{
    Built, Done, Judged, Lasts, Model, Moved, Rule, Searched, Stepped, Trimmed, Walker, Written,
};
use gongcollar::{ENTRIES, LINE_BYTES, MODEL_BYTES};
use plain::Refusal;

/// An answer that can be a refusal.
trait Answer {
    fn refused(refusal: Refusal) -> Self;
}

macro_rules! answers {
    ($($answer:ident),*) => {
        $(impl Answer for $answer {
            fn refused(Refusal { number, place }: Refusal) -> $answer {
                $answer {
                    refused: number,
                    place,
                    ..$answer::default()
                }
            }
        })*
    };
}

answers!(Built, Judged, Lasts, Model, Moved, Rule, Searched, Trimmed, Written);

/// The answer of what was found, or the refusal.
fn told<T, A: Answer>(found: Result<T, Refusal>, answer: impl FnOnce(T) -> A) -> A {
    found.map_or_else(A::refused, answer)
}

/// What `read_rule` should answer.
pub fn read_rule(rule: &[u8]) -> Rule {
    told(plain::read_rule(rule), |read| Rule {
        weight: read.weight,
        uses: read.rule.names(),
        ..Rule::default()
    })
}

/// What stands in a rule; nothing in a refused one.
pub fn names(rule: &[u8]) -> u64 {
    plain::read_rule(rule).map_or(0, |read| read.rule.names())
}

/// What `build` should answer and write.
pub fn build(rule: &[u8], table: &mut [u64]) -> Built {
    told(plain::build(rule, table.len()), |built| {
        table[..ENTRIES].copy_from_slice(&built.labels);
        Built {
            weight: built.weight,
            finals: built.finals,
            uses: names(rule),
            ..Built::default()
        }
    })
}

/// What `judge` should answer.
pub fn judge(rule: &[u8], letters: &[u8]) -> Judged {
    told(plain::judge(rule, letters), |accepts| Judged {
        accepts: accepts.into(),
        uses: names(rule),
        ..Judged::default()
    })
}

/// A walker as the plain library has it: any mark but 0 says that it has matched.
fn plain_walker(walker: Walker) -> plain::Walker {
    plain::Walker {
        set: walker.set,
        finals: walker.finals,
        taken: walker.taken,
        first: walker.first,
        matched: walker.matched != 0,
    }
}

fn numbers(walker: plain::Walker) -> Walker {
    Walker {
        set: walker.set,
        finals: walker.finals,
        taken: walker.taken,
        first: walker.first,
        matched: walker.matched.into(),
    }
}

/// What `start` should answer.
pub fn start(finals: u64) -> Walker {
    numbers(plain::start(finals))
}

/// What `step` should answer.
pub fn step(walker: Walker, table: &[u64], letter: u8) -> Stepped {
    let said = plain::step(plain_walker(walker), table, letter);
    stepped(walker, said)
}

/// What `step_rows` should answer.
pub fn step_rows(walker: Walker, rows: &[u64], letter: u8) -> Stepped {
    let said = plain::step_rows(plain_walker(walker), rows, letter);
    stepped(walker, said)
}

/// After a refusal the walker is as it came.
fn stepped(walker: Walker, said: Result<(plain::Walker, bool), Refusal>) -> Stepped {
    match said {
        Ok((after, matches)) => Stepped {
            matches: matches.into(),
            walker: numbers(after),
            ..Stepped::default()
        },
        Err(Refusal { number, place }) => Stepped {
            refused: number,
            place,
            walker,
            ..Stepped::default()
        },
    }
}

/// What `follow` should answer.
pub fn follow(table: &[u64], finals: u64, letters: &[u8]) -> Moved {
    told(plain::follow(table, finals, letters), moved)
}

/// What `follow_rows` should answer.
pub fn follow_rows(rows: &[u64], finals: u64, letters: &[u8]) -> Moved {
    told(plain::follow_rows(rows, finals, letters), moved)
}

fn moved(matches: bool) -> Moved {
    Moved {
        matches: matches.into(),
        ..Moved::default()
    }
}

/// What `rows_of` should answer and write.
pub fn rows_of(table: &[u64], rows: &mut [u64]) -> Done {
    converted(plain::rows_of(table, rows.len()), rows)
}

/// What `table_of` should answer and write.
pub fn table_of(rows: &[u64], table: &mut [u64]) -> Done {
    converted(plain::labels_of(rows, table.len()), table)
}

fn converted(said: Result<Vec<u64>, Refusal>, out: &mut [u64]) -> Done {
    match said {
        Ok(words) => {
            out[..ENTRIES].copy_from_slice(&words);
            Done::default()
        }
        Err(Refusal { number, place }) => Done {
            refused: number,
            place,
        },
    }
}

/// What `formula_model` should answer and write.
pub fn formula_model(formulas: &[u8], model: &mut [u8]) -> Written {
    told(plain::formula_model(formulas, model.len()), |bytes| {
        model[..MODEL_BYTES].copy_from_slice(&bytes);
        Written {
            length: MODEL_BYTES as u64,
            ..Written::default()
        }
    })
}

/// What `read_model` should answer.
pub fn read_model(model: &[u8]) -> Model {
    told(plain::read_model(model), |read| Model {
        states: read.letters.len() as u64,
        ..Model::default()
    })
}

/// What `lasting` should answer.
pub fn lasting(model: &[u8]) -> Lasts {
    told(plain::lasting(model), |told| Lasts {
        states: told.states,
        lasting: told.set,
        ..Lasts::default()
    })
}

/// What `trim` should answer and write.
pub fn trim(table: &mut [u64], weight: u64, finals: u64) -> Trimmed {
    told(plain::trim(table, weight, finals), |trimmed| {
        table[..ENTRIES].copy_from_slice(&trimmed.labels);
        Trimmed {
            weight: trimmed.weight,
            finals: trimmed.finals,
            ..Trimmed::default()
        }
    })
}

/// What `search` should answer and write.
pub fn search(rule: &[u8], model: &[u8], slices: &mut Slices) -> Searched {
    let searched = plain::search(rule, model, slices.lengths());
    search_as(searched, rule, slices, |table| {
        build(rule, table);
    })
}

/// What `search_trimmed` should answer and write.
pub fn search_trimmed(rule: &[u8], model: &[u8], slices: &mut Slices) -> Searched {
    let searched = plain::search_trimmed(rule, model, slices.lengths());
    search_as(searched, rule, slices, |table| {
        let built = build(rule, table);
        trim(table, built.weight, built.finals);
    })
}

/// What a search should answer and write, and what it leaves in the table slice.
fn search_as(
    searched: Result<plain::Searched, Refusal>,
    rule: &[u8],
    slices: &mut Slices,
    leave: impl FnOnce(&mut [u64]),
) -> Searched {
    told(searched, |searched| {
        slices.work1[..ENTRIES].fill(0);
        slices.work2[..ENTRIES].fill(0);
        leave(&mut slices.table);
        Searched {
            uses: names(rule),
            ..found(searched, &mut slices.run)
        }
    })
}

fn found(searched: plain::Searched, output: &mut [u8]) -> Searched {
    let run = searched.run.as_deref();
    let shown = run.unwrap_or_default();
    output[..shown.len()].copy_from_slice(shown);
    Searched {
        found: run.is_some().into(),
        length: shown.len() as u64,
        pairs: searched.pairs,
        ..Searched::default()
    }
}

/// What `rulecheck` should answer and write.
pub fn rulecheck(input: &[u8], out: &mut [u8]) -> u64 {
    if out.len() < LINE_BYTES {
        return 0;
    }
    let line = plain::line(input);
    out[..line.len()].copy_from_slice(line.as_bytes());
    line.len() as u64
}
