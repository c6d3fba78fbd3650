//! What a step of a walker takes in a host's own records: 10,000 of them over a day of events.

use crate::timing::several;
use cases::draws::Draws;
use gongcollar::{raw, Rule, Table};
use std::time::Duration;

const WALKERS: usize = 10_000;
/// An event for each quarter of an hour, from each.
const EVENTS: usize = 96;
const ROUNDS: usize = 11;
const RULES: [&str; 3] = [
    "{p0;{{p1}[*];p2}}",
    "{{true}[*];{p0;{{!p1}[*];p2}}}",
    "{{{true}[*];p0}&{{true}[*];p1}}",
];

/// An event of the walker at this place.
struct Event {
    walker: usize,
    letter: u8,
}

/// Prints what one step takes in the mean, by value and where the walker stands, and over rows by letter.
pub fn run(seed: u64) {
    let mut draws = Draws::new(seed);
    let day: Vec<Event> = (0..WALKERS * EVENTS)
        .map(|_| Event {
            walker: draws.below(WALKERS),
            letter: draws.below(8) as u8,
        })
        .collect();
    println!();
    println!("A day of {} events over a record of {WALKERS} walkers, in microseconds for one event; {ROUNDS} days, of", day.len());
    println!("which the middle one counts. The events are the same for each rule, and come from the walkers in any order.");
    println!();
    println!(
        "{:<36}{:>10}{:>10}{:>10}{:>10}",
        "", "by value", "lent", "by rows", "matched"
    );
    for rule in RULES {
        let built = rule
            .parse()
            .and_then(|rule: Rule| Table::build(rule.bytes()));
        let table = built.expect("a good rule");
        let (by_value, _) = days(
            table.finals(),
            table.entries(),
            &day,
            |walker, table, letter| {
                *walker = raw::step(*walker, table, letter).walker;
            },
        );
        let (lent, matched) = days(
            table.finals(),
            table.entries(),
            &day,
            |walker, table, letter| {
                raw::step_lent(walker, table, letter);
            },
        );
        let (by_rows, _) = days(
            table.finals(),
            table.rows().entries(),
            &day,
            |walker, rows, letter| {
                *walker = raw::step_rows(*walker, rows, letter).walker;
            },
        );
        println!(
            "{rule:<36}{:>10}{:>10}{:>10}{matched:>10}",
            micros(by_value),
            micros(lent),
            micros(by_rows)
        );
    }
}

/// The middle time of one event, and how many walkers have matched when the day is over.
fn days(
    finals: u64,
    entries: &[u64],
    day: &[Event],
    step: impl Fn(&mut raw::Walker, &[u64], u8),
) -> (Duration, usize) {
    let fresh = raw::start(finals);
    let mut records = vec![fresh; WALKERS];
    let times = several(ROUNDS, || {
        records.fill(fresh);
        for event in day {
            step(&mut records[event.walker], entries, event.letter);
        }
    });
    let matched = records.iter().filter(|walker| walker.matched != 0).count();
    (times.median() / day.len() as u32, matched)
}

/// A time in microseconds, to three places.
fn micros(time: Duration) -> String {
    format!("{:.3}", time.as_secs_f64() * 1e6)
}
