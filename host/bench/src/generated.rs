//! Generated rules and models.

use crate::timing::{self, columns, several, Times};
use cases::{letters, models, rules, Draws};
use gongcollar::{Table, Workspace, ENTRIES, STATES};

const CASES: usize = 1000;
/// Each call is made so many times, of which the middle one counts.
const CALLS: usize = 5;

/// A rule and a model.
pub struct Case {
    pub rule: Vec<u8>,
    pub model: Vec<u8>,
}

/// Accepted rules, half of them with a model of which some run follows the rule's table, half with any model.
pub fn cases(seed: u64) -> Vec<Case> {
    let mut draws = Draws::new(seed);
    (0..CASES).map(|at| case(&mut draws, at % 2 == 0)).collect()
}

fn case(draws: &mut Draws, followed: bool) -> Case {
    let rule = rules::accepted(draws);
    let model = match Table::build(&rule) {
        Ok(table) if followed => {
            let letters = letters::followed(draws, table.entries(), table.finals(), STATES);
            models::spelling(draws, &letters)
        }
        _ => models::accepted(draws),
    };
    Case { rule, model }
}

/// Prints the times of build and search over the generated cases.
pub fn run(seed: u64) {
    let cases = cases(seed);
    println!();
    println!("{CASES} generated rules and models, seed {seed}. Each call is made {CALLS} times, of which the middle one");
    println!("counts. {}", outcomes(&cases));
    columns();
    let mut table = vec![0; ENTRIES];
    row("build, proved", &cases, |case| {
        gongcollar::build_into(&case.rule, &mut table).is_ok()
    });
    row("build, plain", &cases, |case| {
        plain::build(&case.rule, ENTRIES).is_ok()
    });
    let mut workspace = Workspace::new();
    row("search, proved", &cases, |case| {
        workspace.search(&case.rule, &case.model).is_ok()
    });
    row("search, plain", &cases, |case| {
        plain::search(&case.rule, &case.model, [ENTRIES; 4]).is_ok()
    });
    row("trimmed, proved", &cases, |case| {
        workspace.search_trimmed(&case.rule, &case.model).is_ok()
    });
    row("trimmed, plain", &cases, |case| {
        plain::search_trimmed(&case.rule, &case.model, [ENTRIES; 4]).is_ok()
    });
    sizes(&cases);
}

/// Prints what trimming saves: the weights of the rules' tables, and the pairs of the searches.
fn sizes(cases: &[Case]) {
    println!();
    println!("`trimmed` is the search that trims the table before it looks. The weights of the tables and the");
    println!("pairs of the searches, with tables as they are built and as they are trimmed:");
    columns();
    let tables = || {
        cases
            .iter()
            .filter_map(|case| Table::build(&case.rule).ok())
    };
    let trimmed = tables().map(|mut table| {
        table.trim();
        table.weight()
    });
    numbers("weight, built", tables().map(|table| table.weight()));
    numbers("weight, trimmed", trimmed);
    let mut workspace = Workspace::new();
    let mut pairs = |case: &Case| Some(workspace.search(&case.rule, &case.model).ok()?.pairs);
    numbers("pairs, built", cases.iter().filter_map(&mut pairs));
    let mut pairs = |case: &Case| {
        Some(
            workspace
                .search_trimmed(&case.rule, &case.model)
                .ok()?
                .pairs,
        )
    };
    numbers("pairs, trimmed", cases.iter().filter_map(&mut pairs));
}

fn numbers(name: &str, numbers: impl Iterator<Item = u64>) {
    let mut sorted: Vec<u64> = numbers.collect();
    sorted.sort_unstable();
    let last = sorted.len().saturating_sub(1);
    let part = |percent: usize| {
        sorted
            .get(last * percent / 100)
            .copied()
            .unwrap_or_default()
    };
    println!(
        "{name:<20}{:>10}{:>10}{:>10}{:>12}",
        part(50),
        part(90),
        part(100),
        sorted.iter().sum::<u64>()
    );
}

/// How many of the searches find something.
fn outcomes(cases: &[Case]) -> String {
    let mut workspace = Workspace::new();
    let mut found = 0;
    let mut longest = 0;
    for case in cases {
        if let Ok(searched) = workspace.search(&case.rule, &case.model) {
            found += usize::from(searched.run.is_some());
            longest = longest.max(searched.run.map_or(0, <[u8]>::len));
        }
    }
    format!("{found} searches find a run, the longest of {longest} states.")
}

fn row<T>(name: &str, cases: &[Case], mut call: impl FnMut(&Case) -> T) {
    let middle = |case| several(CALLS, || call(case)).median();
    let times = cases.iter().map(middle).collect();
    timing::row(name, &Times::of(times));
}
