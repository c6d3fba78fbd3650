//! Rows by letter: what a step over them takes beside one over the table, what the conversions take, and a day of a
//! million events followed over each.

use crate::timing::several;
use cases::draws::Draws;
use cases::heavy;
use gongcollar::{raw, rows_into, table_into, Rule, Table, ENTRIES};
use std::hint::black_box;
use std::time::Duration;

/// A step may take less than a clock can tell, so that many are timed at once, each with another letter.
const AT_ONCE: u32 = 640;
const ROUNDS: usize = 401;
/// How many states the walker may be in.
const MEMBERS: [u32; 3] = [1, 8, 64];
const EVENTS: usize = 1_000_000;
const DAYS: usize = 11;
const EXAMPLE: &str = "{p0;{{p1}[*];p2}}";
/// Rules of which some state is left after any events.
const RULES: [&str; 3] = [
    "{{true}[*];{p0;{{p1}[*];p2}}}",
    "{{true}[*];{p0;{{!p1}[*];p2}}}",
    "{{{true}[*];p0}&{{true}[*];p1}}",
];

/// Prints all of it; false if a step or a day over rows differs from that over the table.
pub fn run(seed: u64) -> bool {
    let mut draws = Draws::new(seed);
    let dense: Vec<u64> = (0..ENTRIES).map(|_| draws.word()).collect();
    let same = steps(&dense, &mut draws);
    conversions(&dense);
    days(&mut draws) && same
}

/// A set of so many states.
fn set(draws: &mut Draws, members: u32) -> u64 {
    let mut set = u64::MAX;
    while set.count_ones() > members {
        set &= !(1 << draws.below(64));
    }
    set
}

fn steps(dense: &[u64], draws: &mut Draws) -> bool {
    println!();
    println!("One step of a walker that may be in so many states, over a table of any words and over its rows by letter, in");
    println!("microseconds; {AT_ONCE} steps are timed at once, {ROUNDS} times, of which the middle one counts.");
    println!();
    println!(
        "{:<30}{:>10}{:>10}{:>12}",
        "states", "table", "rows", "times less"
    );
    let mut rows = vec![0; ENTRIES];
    raw::rows_of(dense, &mut rows);
    let mut same = true;
    for members in MEMBERS {
        let walker = raw::Walker {
            set: set(draws, members),
            ..raw::start(1)
        };
        let table = step(|letter| raw::step(walker, dense, letter));
        let by_rows = step(|letter| raw::step_rows(walker, &rows, letter));
        let ratio = table.as_secs_f64() / by_rows.as_secs_f64();
        println!(
            "{members:<30}{:>10}{:>10}{ratio:>12.1}",
            micros(table),
            micros(by_rows)
        );
        let alike =
            |letter| raw::step(walker, dense, letter) == raw::step_rows(walker, &rows, letter);
        same &= (0..64).all(alike);
    }
    same
}

/// The middle time of one step, over all letters alike.
fn step(mut call: impl FnMut(u8) -> raw::Stepped) -> Duration {
    let all = several(ROUNDS, || {
        for number in 0..AT_ONCE {
            black_box(call(black_box((number % 64) as u8)));
        }
    });
    all.median() / AT_ONCE
}

fn conversions(dense: &[u64]) {
    println!();
    println!(
        "A whole table converted, in microseconds; {ROUNDS} times, of which the middle one counts."
    );
    println!();
    println!(
        "{:<30}{:>10}{:>12}{:>12}",
        "", "labels", "to rows", "and back"
    );
    let (example, many) = (table_of(EXAMPLE), dense_table());
    for (name, table) in [
        ("no labels", &[0; ENTRIES][..]),
        (EXAMPLE, example.entries()),
        (DENSE, many.entries()),
        ("any words", dense),
        ("all bits", &[u64::MAX; ENTRIES]),
    ] {
        let (mut rows, mut back) = (vec![0; ENTRIES], vec![0; ENTRIES]);
        let there = several(ROUNDS, || rows_into(black_box(table), &mut rows).is_ok());
        let again = several(ROUNDS, || table_into(black_box(&rows), &mut back).is_ok());
        let labels = table.iter().filter(|&&label| label != 0).count();
        println!(
            "{name:<30}{labels:>10}{:>12}{:>12}",
            micros(there.median()),
            micros(again.median())
        );
    }
}

const DENSE: &str = "31 true[*] and false under ;";

fn dense_table() -> Table {
    Table::build(&heavy::dense_and_never()).expect("a good rule")
}

fn table_of(rule: &str) -> Table {
    let rule: Rule = rule.parse().expect("a good rule");
    Table::build(rule.bytes()).expect("a good rule")
}

fn days(draws: &mut Draws) -> bool {
    let day: Vec<u8> = (0..EVENTS).map(|_| draws.below(8) as u8).collect();
    println!();
    println!("A day of {EVENTS} events of one place followed at once, in events for one second; {DAYS} days, of which the middle");
    println!("one counts.");
    println!();
    println!(
        "{:<44}{:>14}{:>14}{:>12}",
        "", "table", "rows", "times more"
    );
    let mut same = true;
    for rule in RULES {
        same &= days_over(rule, &table_of(rule), &day);
    }
    same & days_over(DENSE, &dense_table(), &day)
}

fn days_over(name: &str, table: &Table, day: &[u8]) -> bool {
    let rows = table.rows();
    let over_table = several(DAYS, || table.follow(black_box(day))).median();
    let over_rows = several(DAYS, || rows.follow(black_box(day))).median();
    let ratio = over_table.as_secs_f64() / over_rows.as_secs_f64();
    println!(
        "{name:<44}{:>14}{:>14}{ratio:>12.1}",
        per_second(over_table, day.len()),
        per_second(over_rows, day.len())
    );
    table.follow(day) == rows.follow(day)
}

/// So many events in so long, as events in a second.
fn per_second(time: Duration, events: usize) -> String {
    format!("{:.0}", events as f64 / time.as_secs_f64())
}

/// A time in microseconds, to three places.
fn micros(time: Duration) -> String {
    format!("{:.3}", time.as_secs_f64() * 1e6)
}
