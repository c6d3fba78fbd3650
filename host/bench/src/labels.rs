//! What the label of a formula takes, beside reading its bytes.

use crate::timing::several;
use cases::hostile::{joined_left, nested};
use cases::rules::kind::{AND, LETTER, NOT, PROPOSITION, TRUE};
use gongcollar::ENTRIES;
use std::hint::black_box;
use std::time::Duration;

/// A call may take less than a clock can tell, so that some are timed at once.
const AT_ONCE: u32 = 50;
const ROUNDS: usize = 401;

/// Prints the times of reading and of building one letter, whose formula is short, deep or wide.
pub fn run() {
    let short = [PROPOSITION, 0];
    let cases = [
        ("a formula of two bytes", short.to_vec()),
        ("252 nested not", nested(NOT, 252, &short)),
        ("127 formulas under and", joined_left(AND, &[TRUE], 127)),
        ("84 propositions under and", joined_left(AND, &short, 84)),
    ];
    println!();
    println!("The label of one letter. {AT_ONCE} calls are timed at once, {ROUNDS} times, of which the middle one counts.");
    println!("A builder reads the rule first: what building takes beside reading is its time without the reader's.");
    println!();
    println!(
        "{:<30}{:>10}{:>10}{:>10}{:>20}",
        "", "read", "build", "beside", "times the first"
    );
    let mut first = None;
    for (name, formula) in &cases {
        let rule = nested(LETTER, 1, formula);
        let (read, build) = times(&rule);
        let beside = build.saturating_sub(read);
        let first = *first.get_or_insert(beside);
        println!(
            "{name:<30}{:>10}{:>10}{:>10}{:>20.1}",
            micros(read),
            micros(build),
            micros(beside),
            beside.as_secs_f64() / first.as_secs_f64()
        );
    }
}

/// What reading the rule takes, and building it.
fn times(rule: &[u8]) -> (Duration, Duration) {
    let mut table = vec![0; ENTRIES];
    let read = middle(|| gongcollar::read_rule(black_box(rule)).is_ok());
    let build = middle(|| gongcollar::build_into(black_box(rule), &mut table).is_ok());
    (read, build)
}

fn middle(mut call: impl FnMut() -> bool) -> Duration {
    let all = several(ROUNDS, || {
        for _ in 0..AT_ONCE {
            black_box(call());
        }
    });
    all.median() / AT_ONCE
}

/// A time in microseconds, to two places.
fn micros(time: Duration) -> String {
    format!("{:.2}", time.as_secs_f64() * 1e6)
}
