//! Inputs that take long.

use crate::timing::{micros, several};
use cases::{heavy, models};
use gongcollar::{Refusal, Searched, Workspace, ENTRIES};
use std::fmt::Debug;

const CALLS: usize = 25;
const LETTERS: [u8; 16] = [1; 16];

/// Prints the times of the hard cases; false if the libraries say different things of one.
pub fn run() -> bool {
    println!();
    println!("Hard cases. Each call is made {CALLS} times.");
    let searches = searches();
    let growth = growth();
    let builds = builds();
    let judges = judges();
    searches && growth && builds && judges
}

fn heading(title: &str) {
    println!();
    println!("{:<60}{:>20}{:>20}", "", "proved", "plain");
    println!(
        "{title:<60}{:>10}{:>10}{:>10}{:>10}",
        "median", "largest", "median", "largest"
    );
}

/// One input through both libraries: its times, and what they say of it.
fn row<T: PartialEq + Debug>(
    name: &str,
    mut proved: impl FnMut() -> T,
    mut plain: impl FnMut() -> T,
) -> bool {
    let same = proved() == plain();
    let ours = several(CALLS, &mut proved);
    let theirs = several(CALLS, &mut plain);
    println!(
        "{name:<60}{:>10}{:>10}{:>10}{:>10}",
        micros(ours.median()),
        micros(ours.largest()),
        micros(theirs.median()),
        micros(theirs.largest())
    );
    if !same {
        println!("  the libraries differ: {:?} and {:?}", proved(), plain());
    }
    same
}

/// The hard searches: a name, the rule and the model.
pub fn searched() -> [(&'static str, Vec<u8>, Vec<u8>); 6] {
    [
        (
            "ring of 64, rounds of 31 and p0",
            heavy::cycle_then_p0(31),
            models::ring(64, Some(33)),
        ),
        (
            "ring of 63, rounds of 31 and no p0",
            heavy::cycle_then_p0(31),
            models::ring(63, None),
        ),
        (
            "all of 64, 31 true[*] and false",
            heavy::dense_and_never(),
            models::full(64),
        ),
        (
            "all of 64, rounds of 31 and false",
            heavy::cycle_then_never(31),
            models::full(64),
        ),
        (
            "all of 64, 32 times true",
            heavy::row_of_any(),
            models::full(64),
        ),
        (
            "all of 64, 125 [+] of 31 true[*] and false",
            heavy::dense_again_and_never(),
            models::full(64),
        ),
    ]
}

fn searches() -> bool {
    heading("search");
    let cases = searched();
    let mut same = true;
    for (name, rule, model) in &cases {
        same &= search(name, rule, model);
    }
    heading("search over the trimmed table");
    for (name, rule, model) in &cases {
        same &= search_trimmed(name, rule, model);
    }
    same
}

/// Rings of twice as many states each time: how the time grows with the pairs.
fn growth() -> bool {
    heading("search, as the pairs grow");
    let rule = heavy::cycle_then_p0(31);
    let mut same = true;
    for count in [8, 16, 32, 64] {
        let name = format!("ring of {count}, rounds of 31 and no p0");
        same &= search(&name, &rule, &models::ring(count, None));
    }
    same
}

/// What a search says: the length of the run and the pairs.
type Said = Option<(Option<usize>, u64)>;

fn search(name: &str, rule: &[u8], model: &[u8]) -> bool {
    let mut workspace = Workspace::new();
    let proved = || ours(workspace.search(rule, model));
    let plain = || theirs(plain::search(rule, model, [ENTRIES; 4]));
    both(name, proved, plain)
}

fn search_trimmed(name: &str, rule: &[u8], model: &[u8]) -> bool {
    let mut workspace = Workspace::new();
    let proved = || ours(workspace.search_trimmed(rule, model));
    let plain = || theirs(plain::search_trimmed(rule, model, [ENTRIES; 4]));
    both(name, proved, plain)
}

fn ours(searched: Result<Searched<'_>, Refusal>) -> Said {
    let searched = searched.ok()?;
    Some((searched.run.map(<[u8]>::len), searched.pairs))
}

fn theirs(searched: Result<plain::Searched, plain::Refusal>) -> Said {
    let searched = searched.ok()?;
    Some((searched.run.map(|run| run.len()), searched.pairs))
}

/// One search through both libraries, with what it says.
fn both(name: &str, mut proved: impl FnMut() -> Said, plain: impl FnMut() -> Said) -> bool {
    let name = format!("{name}: {}", told(proved()));
    row(&name, proved, plain)
}

fn told(said: Said) -> String {
    match said {
        Some((Some(length), pairs)) => format!("{length} states, {pairs} pairs"),
        Some((None, pairs)) => format!("none, {pairs} pairs"),
        None => "refused".to_string(),
    }
}

fn builds() -> bool {
    heading("build");
    let mut table = vec![0; ENTRIES];
    let mut same = true;
    for rule in heavy::for_the_builder() {
        same &= row(
            rule.name,
            || gongcollar::build_into(&rule.bytes, &mut table).map_or(0, |built| built.finals),
            || plain::build(&rule.bytes, ENTRIES).map_or(0, |built| built.finals),
        );
    }
    same
}

fn judges() -> bool {
    heading("judge, 16 letters");
    let mut same = true;
    for rule in heavy::for_the_judge() {
        same &= row(
            rule.name,
            || gongcollar::judge(&rule.bytes, &LETTERS).ok(),
            || plain::judge(&rule.bytes, &LETTERS).ok(),
        );
    }
    same
}
