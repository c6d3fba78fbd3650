//! Rows by letter: any words converted both ways by both libraries, and steps and walks over rows held to those over the
//! table.

use crate::expected;
use crate::lent::{self, difference};
use crate::report::{hex, Outcome};
use crate::trials::{any_walker, some_letters, unlike, unlike_safe, yes_or_no, Trials};
use cases::{hostile, letters, rules};
use gongcollar::raw::{self, Done};
use gongcollar::{follow, rows_into, table_into, LentRows, Refusal, Walker, ENTRIES};

const TABLES: usize = 700;
/// The number of steps over each table, and of whole sequences.
const STEPS: usize = 6;
const WALKS: usize = 2;

/// A conversion: by the book, as it is declared, as it is safe; and the one that undoes it.
struct Conversion {
    name: &'static str,
    expected: fn(&[u64], &mut [u64]) -> Done,
    raw: fn(&[u64], &mut [u64]) -> Done,
    safe: fn(&[u64], &mut [u64]) -> Result<(), Refusal>,
    undo: fn(&[u64], &mut [u64]) -> Done,
}

const CONVERSIONS: [Conversion; 2] = [
    Conversion {
        name: "rows_of",
        expected: expected::rows_of,
        raw: raw::rows_of,
        safe: rows_into,
        undo: raw::table_of,
    },
    Conversion {
        name: "table_of",
        expected: expected::table_of,
        raw: raw::table_of,
        safe: table_into,
        undo: raw::rows_of,
    },
];

/// All trials of rows.
pub fn run(trials: &mut Trials) {
    for _ in 0..TABLES {
        let labels = lent::labels(&mut trials.draws);
        let finals = trials.draws.set();
        one(trials, "random labels", &labels, finals);
        let words = lent::table(&mut trials.draws);
        one(trials, "any words", &words, finals);
        let rule = rules::accepted(&mut trials.draws);
        if let Ok(built) = plain::build(&rule, ENTRIES) {
            one(trials, "a rule's labels", &built.labels, built.finals);
            if let Ok(trimmed) = plain::trim(&built.labels, built.weight, built.finals) {
                one(trials, "trimmed", &trimmed.labels, trimmed.finals);
            }
        }
    }
    for word in [0, 1, 1 << 63, u64::MAX] {
        for length in [0, 1, ENTRIES - 1, ENTRIES, ENTRIES + 9] {
            one(trials, "hostile", &vec![word; length], word);
        }
        let labels = vec![word; ENTRIES];
        for letters in hostile::letters() {
            walk(trials, "hostile", &labels, word, &letters);
        }
    }
}

/// One table, or words taken for one: converted both ways, and stepped over.
fn one(trials: &mut Trials, sort: &'static str, words: &[u64], finals: u64) {
    for conversion in &CONVERSIONS {
        convert(trials, conversion, sort, words);
    }
    for _ in 0..STEPS {
        let walker = raw::Walker {
            finals,
            ..any_walker(&mut trials.draws)
        };
        let letter = match trials.draws.once_in(6) {
            true => trials.draws.one_of(&[63, 64, 0x80, 0xFF]),
            false => trials.draws.below(letters::LETTERS) as u8,
        };
        step(trials, sort, walker, words, letter);
    }
    for _ in 0..WALKS {
        let letters = some_letters(&mut trials.draws);
        walk(trials, sort, words, finals, &letters);
    }
}

fn convert(trials: &mut Trials, conversion: &Conversion, sort: &'static str, words: &[u64]) {
    let mut out = lent::table(&mut trials.draws);
    let (mut safe_out, mut expected_out) = (out.clone(), out.clone());
    let want = (conversion.expected)(words, &mut expected_out);
    let got = (conversion.raw)(words, &mut out);
    let safe = (conversion.safe)(words, &mut safe_out);
    let fault = unlike(got, want)
        .or_else(|| difference("out", &out, &expected_out))
        .or_else(|| unlike_safe(safe, want.refused, want.place, ()))
        .or_else(|| difference("safe out", &safe_out, &expected_out))
        .or_else(|| {
            let mut back = (want.refused == 0).then(|| vec![0; ENTRIES])?;
            let undone = (conversion.undo)(&out, &mut back);
            unlike(undone, Done::default()).or_else(|| difference("back", &back, words))
        });
    let fault = fault.map(|text| {
        let (entries, lent) = (words.len(), out.len());
        format!("{entries} entries, {lent} lent: {text}")
    });
    let outcome = Outcome::of(want.refused, "converted");
    trials.report.note(conversion.name, sort, outcome, fault);
}

/// The rows of a table as the library has them. Where the table is too short so are the rows.
fn rows_of(table: &[u64]) -> Vec<u64> {
    let mut rows = vec![0; table.len()];
    raw::rows_of(table, &mut rows);
    rows
}

/// A step over the rows, which is the one over the table.
fn step(trials: &mut Trials, sort: &'static str, walker: raw::Walker, table: &[u64], letter: u8) {
    let rows = rows_of(table);
    let want = expected::step(walker, table, letter);
    let got = raw::step_rows(walker, &rows, letter);
    let mut safe = Walker::from(walker);
    let answer = safe.step(LentRows(&rows), letter);
    let by_value = Walker::from(walker).stepped(LentRows(&rows), letter);
    let by_value = by_value.map(|stepped| (stepped.walker, stepped.matches));
    let after = Walker::from(want.walker);
    let matches = want.matches == 1;
    let (refused, place) = (want.refused, want.place);
    let fault = unlike(expected::step_rows(walker, &rows, letter), want)
        .or_else(|| unlike(got, want))
        .or_else(|| unlike(raw::step(walker, table, letter), got))
        // The same words taken for rows.
        .or_else(|| {
            let taken = expected::step_rows(walker, table, letter);
            unlike(raw::step_rows(walker, table, letter), taken)
        })
        .or_else(|| unlike_safe(answer, refused, place, matches))
        .or_else(|| unlike(safe, after))
        .or_else(|| unlike_safe(by_value, refused, place, (after, matches)));
    let fault = fault.map(|text| {
        let entries = table.len();
        format!("{walker:x?}, {entries} entries, letter {letter:02X}: {text}")
    });
    let outcome = Outcome::of(want.refused, yes_or_no(matches));
    trials.report.note("step_rows", sort, outcome, fault);
}

/// A whole sequence over the rows, which is followed as over the table.
fn walk(trials: &mut Trials, sort: &'static str, table: &[u64], finals: u64, letters: &[u8]) {
    let rows = rows_of(table);
    let want = expected::follow(table, finals, letters);
    let got = raw::follow_rows(&rows, finals, letters);
    let safe = follow(LentRows(&rows), finals, letters);
    let fault = unlike(expected::follow_rows(&rows, finals, letters), want)
        .or_else(|| unlike(got, want))
        .or_else(|| unlike(raw::follow(table, finals, letters), got))
        .or_else(|| unlike_safe(safe, want.refused, want.place, want.matches == 1));
    let fault = fault.map(|text| {
        let (entries, letters) = (table.len(), hex(letters));
        format!("{entries} entries, finals {finals:x}, letters {letters}: {text}")
    });
    let outcome = Outcome::of(want.refused, yes_or_no(want.matches == 1));
    trials.report.note("follow_rows", sort, outcome, fault);
}
