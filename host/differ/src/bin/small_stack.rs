//! Hostile and heavy inputs through every call of the library, on the first thread: to be started under a small stack,
//! as by `ulimit -s 512`. The answers are held to the plain library's, which has a thread with a large stack.
//!
//! A stack that does not suffice ends the process by a signal; an answer that is wrong gives the status 1.

use cases::{heavy, hostile, line_input, models, systems, texts};
use differ::expected;
use gongcollar::raw::{self, Built, Judged, Moved, Rule, Stepped, Trimmed, Written};
use gongcollar::{read_text_into, write_text_into, Workspace};
use gongcollar::{ENTRIES, MODEL_BYTES, RULE_BYTES, TEXT_BYTES};
use std::process::ExitCode;
use std::thread;

/// What the plain library may use.
const LARGE_STACK: usize = 256 << 20;
const LETTERS: [u8; 16] = [1; 16];

/// What a search says: the run and the pairs, or the refusal's number and place.
type Searched = Result<(Option<Vec<u8>>, u64), (u64, u64)>;

/// What the calls say of one rule.
#[derive(Debug, PartialEq)]
struct Said {
    read: Rule,
    built: Built,
    followed: Moved,
    by_rows: (Stepped, Moved),
    judged: Judged,
    trimmed: Trimmed,
    searched: Searched,
    searched_trimmed: Searched,
    line: String,
}

/// What the library's search says.
fn told_by_library(searched: Result<gongcollar::Searched<'_>, gongcollar::Refusal>) -> Searched {
    searched
        .map(|found| (found.run.map(<[u8]>::to_vec), found.pairs))
        .map_err(|refusal| (refusal.number(), refusal.place()))
}

/// What the search by the book says.
fn told_by_the_book(searched: Result<plain::Searched, plain::Refusal>) -> Searched {
    searched
        .map(|found| (found.run, found.pairs))
        .map_err(|refusal| (refusal.number, refusal.place))
}

fn by_library(rule: &[u8], model: &[u8]) -> Said {
    let mut workspace = Workspace::new();
    let searched = told_by_library(workspace.search(rule, model));
    let searched_trimmed = told_by_library(workspace.search_trimmed(rule, model));
    let (mut table, mut rows) = (vec![0; ENTRIES], vec![0; ENTRIES]);
    let built = raw::build(rule, &mut table);
    raw::rows_of(&table, &mut rows);
    raw::table_of(&rows, &mut table);
    Said {
        read: raw::read_rule(rule),
        built,
        followed: raw::follow(&table, built.finals, &LETTERS),
        by_rows: (
            raw::step_rows(raw::start(built.finals), &rows, LETTERS[0]),
            raw::follow_rows(&rows, built.finals, &LETTERS),
        ),
        judged: raw::judge(rule, &LETTERS),
        trimmed: raw::trim(&mut table, built.weight, built.finals),
        searched,
        searched_trimmed,
        line: gongcollar::rulecheck(&line_input(rule, model)),
    }
}

fn by_the_book(rule: &[u8], model: &[u8]) -> Said {
    let searched = told_by_the_book(plain::search(rule, model, [ENTRIES; 4]));
    let searched_trimmed = told_by_the_book(plain::search_trimmed(rule, model, [ENTRIES; 4]));
    let mut table = vec![0; ENTRIES];
    let built = expected::build(rule, &mut table);
    Said {
        read: expected::read_rule(rule),
        built,
        followed: expected::follow(&table, built.finals, &LETTERS),
        by_rows: (
            expected::step(expected::start(built.finals), &table, LETTERS[0]),
            expected::follow(&table, built.finals, &LETTERS),
        ),
        judged: expected::judge(rule, &LETTERS),
        trimmed: expected::trim(&mut table, built.weight, built.finals),
        searched,
        searched_trimmed,
        line: plain::line(&line_input(rule, model)),
    }
}

fn inputs() -> Vec<Vec<u8>> {
    let named = [heavy::for_the_judge(), heavy::for_the_builder()].concat();
    let heavy = named.into_iter().map(|rule| rule.bytes);
    hostile::rules().into_iter().chain(heavy).collect()
}

/// What reading a text says: the bytes and the weight, or the refusal's number and place.
type Read = Result<(Vec<u8>, u64), (u64, u64)>;

fn text_by_library(text: &[u8]) -> Read {
    let mut out = [0; RULE_BYTES];
    read_text_into(text, &mut out)
        .map(|(bytes, rule)| (bytes.to_vec(), rule.weight))
        .map_err(|refusal| (refusal.number(), refusal.place()))
}

fn text_by_the_book(text: &[u8]) -> Read {
    plain::read_text(text, RULE_BYTES)
        .map(|given| (given.written, given.weight))
        .map_err(|refusal| (refusal.number, refusal.place))
}

/// The text of a rule, if it has one.
fn written_by_library(rule: &[u8]) -> Option<Vec<u8>> {
    let mut out = [0; TEXT_BYTES];
    write_text_into(rule, &mut out)
        .ok()
        .map(|(text, _)| text.to_vec())
}

fn written_by_the_book(rule: &[u8]) -> Option<Vec<u8>> {
    plain::write_text(rule, TEXT_BYTES)
        .ok()
        .map(|given| given.written)
}

fn formulas() -> Vec<Vec<u8>> {
    let heavy = heavy::for_the_models().into_iter().map(|pair| pair.bytes);
    systems::hostile().into_iter().chain(heavy).collect()
}

/// The model of two formulas, and what is said of it.
type Made = (Written, Vec<u8>);

fn model_by_library(formulas: &[u8]) -> Made {
    let mut out = vec![0; MODEL_BYTES];
    (raw::formula_model(formulas, &mut out), out)
}

fn model_by_the_book(formulas: &[u8]) -> Made {
    let mut out = vec![0; MODEL_BYTES];
    (expected::formula_model(formulas, &mut out), out)
}

/// How many rules the libraries differ on.
fn differing(rules: &[Vec<u8>], model: &[u8], said: &[Said]) -> usize {
    let differs = |(rule, said): &(&Vec<u8>, &Said)| by_the_book(rule, model) != **said;
    rules.iter().zip(said).filter(differs).count()
}

fn main() -> ExitCode {
    let rules = inputs();
    let model = models::full(models::MOST_STATES);
    let said: Vec<Said> = rules.iter().map(|rule| by_library(rule, &model)).collect();
    let texts = texts::hostile();
    let read: Vec<Read> = texts.iter().map(|text| text_by_library(text)).collect();
    let written: Vec<_> = rules.iter().map(|rule| written_by_library(rule)).collect();
    let formulas = formulas();
    let made: Vec<Made> = formulas.iter().map(|pair| model_by_library(pair)).collect();
    let (count, text_count, pair_count) = (rules.len(), texts.len(), formulas.len());
    let checker = thread::Builder::new().stack_size(LARGE_STACK);
    let checked = checker.spawn(move || {
        let texts = texts.iter().zip(&read);
        let wrong_texts = texts.filter(|(text, read)| text_by_the_book(text) != **read);
        let written = rules.iter().zip(&written);
        let wrong_written = written.filter(|(rule, text)| written_by_the_book(rule) != **text);
        let made = formulas.iter().zip(&made);
        let wrong_made = made.filter(|(pair, made)| model_by_the_book(pair) != **made);
        differing(&rules, &model, &said)
            + wrong_texts.count()
            + wrong_written.count()
            + wrong_made.count()
    });
    let Some(wrong) = checked.ok().and_then(|thread| thread.join().ok()) else {
        eprintln!("the plain library could not be asked");
        return ExitCode::FAILURE;
    };
    println!(
        "{count} hostile rules through thirteen calls each, {text_count} hostile texts and {pair_count} hostile pairs of formulas on this stack, {wrong} answered wrongly"
    );
    ExitCode::from(u8::from(wrong > 0))
}
