//! A thousand rules in one file, against the verdicts of the plain crate, which shares no code with the library.

use crate::shell::{text, Folder};
use cases::{models, rules, Draws};
use plain::{lasting, search, write_text, TABLE_ENTRIES};
use serde_json::Value;
use std::time::{Duration, Instant};

const RULES: usize = 1000;
const SEED: u64 = 20261116;
/// What a thousand rules may take, the program's start included.
const LIMIT: Duration = Duration::from_secs(1);

struct Thousand {
    folder: Folder,
    model: Vec<u8>,
    rules: Vec<Vec<u8>>,
}

/// Rules drawn by the grammar, in their texts, and a model in which about a third are found.
fn thousand(seed: u64) -> Thousand {
    let mut draws = Draws::new(seed);
    let model = loop {
        let model = models::accepted(&mut draws);
        if model.len() > 300 && lasting(&model).is_ok_and(|lasting| lasting.set.count_ones() > 20) {
            break model;
        }
    };
    let drawn: Vec<Vec<u8>> = (0..RULES).map(|_| rules::accepted(&mut draws)).collect();
    let folder = Folder::new();
    folder.write("model.gcm", &model);
    let lines: Vec<String> = drawn
        .iter()
        .enumerate()
        .map(|(at, rule)| format!("r{at}: {}\n", written(rule)))
        .collect();
    folder.write("rules.txt", lines.concat());
    Thousand {
        folder,
        model,
        rules: drawn,
    }
}

fn written(rule: &[u8]) -> String {
    let given = write_text(rule, usize::MAX).expect("a rule's text");
    text(&given.written)
}

#[test]
fn a_thousand_rules_agree_with_the_plain_crate() {
    for seed in [SEED, SEED + 1, SEED + 2] {
        let thousand = thousand(seed);
        let output = thousand
            .folder
            .run("gongcollar check model.gcm --rules rules.txt --json --no-warnings");
        assert_eq!(output.status.code(), Some(1), "{}", text(&output.stderr));
        let lines = text(&output.stdout);
        assert_eq!(lines.lines().count(), RULES);
        let mut found = 0;
        for (at, (line, rule)) in lines.lines().zip(&thousand.rules).enumerate() {
            let told: Value = serde_json::from_str(line).expect("JSON");
            let expected = search(rule, &thousand.model, [TABLE_ENTRIES; 4]).expect("a verdict");
            assert_eq!(told["name"], format!("r{at}"));
            assert_eq!(told["pairs"], expected.pairs, "{line}");
            let run = told["run"].as_array().map(|run| {
                run.iter()
                    .map(|step| step["state"].as_u64().expect("a state") as u8)
                    .collect::<Vec<u8>>()
            });
            assert_eq!(run, expected.run, "{line}");
            assert_eq!(
                told["verdict"],
                if expected.run.is_some() {
                    "found"
                } else {
                    "none"
                }
            );
            found += usize::from(expected.run.is_some());
        }
        assert!((100..900).contains(&found), "{found} found");
    }
}

#[test]
fn a_thousand_rules_take_less_than_a_second() {
    let thousand = thousand(SEED);
    // The quickest of three, since others may use the machine.
    let took = (0..3).map(|_| {
        let started = Instant::now();
        let output = thousand
            .folder
            .run("gongcollar check model.gcm --rules rules.txt");
        let took = started.elapsed();
        assert_eq!(output.status.code(), Some(1));
        assert_eq!(text(&output.stdout).lines().count(), RULES);
        took
    });
    let took = took.min().expect("a time");
    assert!(took < LIMIT, "{took:?}");
    println!("{RULES} rules: {took:?}");
}
