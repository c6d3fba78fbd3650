//! Holds the proved library to the plain one on generated inputs: `differ [SEED]`.
//!
//! Prints a line for each call and sort of input, and the first mismatches. The status is 1 if there is any.

use cases::damage::{damaged_more, likely_byte};
use cases::draws::seed_given;
use cases::{heavy, hostile, letters, line_input, models, rules, Draws};
use differ::lent;
use differ::trials::{any_walker, some_letters, Trials, LONG_WALK};
use gongcollar::raw;
use std::process::ExitCode;

const SEED: u64 = 20_260_101;
/// Every refusal of the interface; each must come up.
const REFUSALS: [u64; 23] = [
    1, 2, 3, 4, 5, 6, 7, 8, 9, 11, 12, 13, 14, 15, 16, 21, 22, 23, 24, 25, 30, 31, 32,
];
const FEWEST_CASES: usize = 20_000;

const VALID: usize = 3000;
const DAMAGED: usize = 4000;
const RANDOM: usize = 2000;
const MODELS: usize = 2000;
const WALKERS: usize = 400;
const STEPS: usize = 15;
const WALKS: usize = 2000;
const TRIMS: usize = 3000;
const RINGS: usize = 300;
const FORKS: usize = 2000;
/// Counts up to past the highest are tried, and the highest byte.
const COUNTS: [u8; 19] = [
    0, 1, 2, 3, 4, 5, 6, 7, 8, 9, 10, 11, 12, 13, 14, 15, 16, 17, 0xFF,
];

fn main() -> ExitCode {
    let Some(seed) = seed_given(SEED) else {
        eprintln!("usage: differ [SEED], a decimal number");
        return ExitCode::from(2);
    };
    let mut trials = Trials::new(seed);
    valid(&mut trials);
    rings(&mut trials);
    forks(&mut trials);
    counts(&mut trials);
    damaged(&mut trials);
    hostile_rules(&mut trials);
    hostile_models(&mut trials);
    random(&mut trials);
    short(&mut trials);
    good_and_bad_models(&mut trials);
    steps(&mut trials);
    walks(&mut trials);
    trims(&mut trials);
    differ::texts::run(&mut trials);
    differ::systems::run(&mut trials);
    differ::rows::run(&mut trials);
    differ::clinics::run(&mut trials);
    verdict(seed, &trials)
}

/// Good rules, some too heavy, with good models and letters.
fn valid(trials: &mut Trials) {
    for _ in 0..VALID {
        let rule = rules::of_any_weight(&mut trials.draws);
        let model = models::accepted(&mut trials.draws);
        all_calls(trials, "valid", &rule, &model);
        let rule = rules::accepted(&mut trials.draws);
        trials.search("valid", &rule, &model);
        trials.search_spelled("spelled", &rule);
        trials.sequences("valid", &rule);
    }
}

/// Rounds of a rule against rings of states, with runs of up to some thousand states.
fn rings(trials: &mut Trials) {
    for _ in 0..RINGS {
        let rule = heavy::cycle_then_p0(trials.draws.between(1, 31));
        let count = trials.draws.between(1, models::MOST_STATES);
        let marked = trials.draws.below(count + 1);
        let model = models::ring(count, (marked < count).then_some(marked));
        trials.search("rings", &rule, &model);
        trials.line("rings", &line_input(&rule, &model));
    }
}

/// Rules that several equally short runs match, in small models.
fn forks(trials: &mut Trials) {
    for _ in 0..FORKS {
        let rule = rules::fork(&mut trials.draws);
        let count = trials.draws.between(2, 12);
        let states = models::states(&mut trials.draws, count);
        trials.search("forks", &rule, &models::bytes_of(&states));
        trials.search_spelled("forks", &rule);
        trials.sequences("forks", &rule);
    }
}

/// Every two counts, good or bad, of a light rule and of a formula, also cut after each of their bytes.
fn counts(trials: &mut Trials) {
    for kind in [rules::kind::COUNTED, rules::kind::HITS] {
        for (least, most) in COUNTS.iter().flat_map(|&i| COUNTS.map(|j| (i, j))) {
            let rule = rules::counting(&mut trials.draws, kind, least, most);
            let model = models::accepted(&mut trials.draws);
            all_calls(trials, "counts", &rule, &model);
            trials.search_spelled("counts", &rule);
            trials.sequences("counts", &rule);
            for length in 1..=3 {
                trials.read_rule("counts", &rule[..length]);
            }
        }
    }
}

/// Good rules and models with a few bytes changed, cut, added or left out.
fn damaged(trials: &mut Trials) {
    for _ in 0..DAMAGED {
        let good = rules::of_any_weight(&mut trials.draws);
        let model = models::accepted(&mut trials.draws);
        let rule = damaged_more(&mut trials.draws, &good);
        let damaged_model = damaged_more(&mut trials.draws, &model);
        all_calls(trials, "damaged", &rule, &model);
        trials.search("damaged", &good, &damaged_model);
        let input = line_input(&good, &model);
        let input = damaged_more(&mut trials.draws, &input);
        trials.line("damaged", &input);
    }
}

fn hostile_rules(trials: &mut Trials) {
    for rule in hostile::rules() {
        let model = models::accepted(&mut trials.draws);
        all_calls(trials, "hostile", &rule, &model);
        trials.sequences("hostile", &rule);
        for letters in [vec![0; 16], vec![1; 16], vec![1; 17], vec![63, 64]] {
            trials.judge("hostile", &rule, &letters);
        }
        for model in [models::full(64), models::ring(64, Some(33)), vec![0x20]] {
            trials.search("hostile", &rule, &model);
            trials.line("hostile", &line_input(&rule, &model));
        }
    }
}

fn hostile_models(trials: &mut Trials) {
    for model in hostile::models() {
        trials.read_model("hostile", &model);
        trials.lasting("hostile", &model);
        let rule = rules::accepted(&mut trials.draws);
        trials.search("hostile", &rule, &model);
        trials.line("hostile", &line_input(&rule, &model));
    }
}

/// Bytes with no plan, or with a byte here and there that is likely to mean something.
fn random(trials: &mut Trials) {
    for _ in 0..RANDOM {
        let rule = any_bytes(&mut trials.draws, 270);
        let model = any_bytes(&mut trials.draws, 40);
        all_calls(trials, "random", &rule, &model);
        let input = any_bytes(&mut trials.draws, 1000);
        trials.line("random", &input);
    }
}

fn any_bytes(draws: &mut Draws, most: usize) -> Vec<u8> {
    let bound = draws.one_of(&[4, 16, most]);
    let count = draws.between(0, bound);
    match draws.once_in(2) {
        true => draws.bytes(count),
        false => (0..count).map(|_| likely_byte(draws)).collect(),
    }
}

/// Every rule of at most two bytes, and every input of rulecheck of at most one.
fn short(trials: &mut Trials) {
    trials.read_rule("short", &[]);
    trials.line("short", &[]);
    for first in 0..=0xFF {
        trials.read_rule("short", &[first]);
        trials.read_model("short", &[first]);
        trials.lasting("short", &[first]);
        trials.line("short", &[first]);
        for second in 0..=0xFF {
            trials.read_rule("short", &[first, second]);
        }
    }
}

/// Models alone: good, damaged, and bytes with no plan.
fn good_and_bad_models(trials: &mut Trials) {
    for _ in 0..MODELS {
        let model = models::accepted(&mut trials.draws);
        trials.read_model("valid", &model);
        trials.lasting("valid", &model);
        let damaged = damaged_more(&mut trials.draws, &model);
        trials.read_model("damaged", &damaged);
        trials.lasting("damaged", &damaged);
        let random = any_bytes(&mut trials.draws, 720);
        trials.read_model("random", &random);
        trials.lasting("random", &random);
    }
}

/// Walkers over labels that no rule has, and over those of a rule.
fn steps(trials: &mut Trials) {
    for _ in 0..WALKERS {
        let finals = trials.draws.set();
        trials.start("any finals", finals);
        let labels = lent::labels(&mut trials.draws);
        let walker = any_walker(&mut trials.draws);
        step_on(trials, "random labels", walker, &labels);
        let rule = rules::accepted(&mut trials.draws);
        if let Ok(built) = plain::build(&rule, gongcollar::ENTRIES) {
            trials.start("a rule's finals", built.finals);
            let walker = raw::start(built.finals);
            step_on(trials, "a rule's labels", walker, &built.labels);
        }
    }
}

fn step_on(trials: &mut Trials, sort: &'static str, walker: raw::Walker, labels: &[u64]) {
    let mut walker = walker;
    for _ in 0..STEPS {
        let letter = match trials.draws.once_in(10) {
            true => trials.draws.byte(),
            false => trials.draws.below(letters::LETTERS) as u8,
        };
        trials.step(sort, walker, labels, letter);
        // A refusal leaves the walker; an empty set would stay empty.
        raw::step_lent(&mut walker, labels, letter);
        if walker.set == 0 {
            walker.set = trials.draws.set();
        }
    }
}

/// Whole sequences: over labels that no rule has and over those of a rule, over a table that is too short, with letters
/// that are none, with none at all and with many.
fn walks(trials: &mut Trials) {
    for _ in 0..WALKS {
        let labels = lent::labels(&mut trials.draws);
        let finals = trials.draws.set();
        let letters = some_letters(&mut trials.draws);
        trials.follow("random labels", &labels, finals, &letters);
        let rule = rules::accepted(&mut trials.draws);
        let Ok(built) = plain::build(&rule, gongcollar::ENTRIES) else {
            continue;
        };
        let (labels, finals) = (&built.labels[..], built.finals);
        let along = letters::followed(&mut trials.draws, labels, finals, LONG_WALK);
        let beside = letters::nearly(&mut trials.draws, &along);
        let damaged = damaged_more(&mut trials.draws, &along);
        let anywhere = some_letters(&mut trials.draws);
        for letters in [along, beside, anywhere] {
            trials.follow("a rule's labels", labels, finals, &letters);
        }
        trials.follow("damaged", labels, finals, &damaged);
        let short = trials.draws.one_of(&[0, 1, 64, gongcollar::ENTRIES - 1]);
        trials.follow("damaged", &labels[..short], finals, &damaged);
    }
    for letters in hostile::letters() {
        for label in [0, 1, 1 << 63, u64::MAX] {
            let labels = vec![label; gongcollar::ENTRIES];
            for finals in [0, 1, 2, 1 << 63, u64::MAX] {
                trials.follow("hostile", &labels, finals, &letters);
                trials.follow("hostile", &labels[1..], finals, &letters);
            }
        }
    }
}

/// Tables of rules and of no rule, also with labels into state 0; the same with a stated weight, a final or a label that is
/// off; and labels with no plan.
fn trims(trials: &mut Trials) {
    for _ in 0..TRIMS {
        let rule = rules::accepted(&mut trials.draws);
        if let Ok(built) = plain::build(&rule, gongcollar::ENTRIES) {
            trials.trim("a rule's labels", &built.labels, built.weight, built.finals);
            trim_damaged(trials, built.labels, built.weight, built.finals);
        }
        let (labels, weight, finals) = lent::states(&mut trials.draws);
        trials.trim("random labels", &labels, weight, finals);
        trim_damaged(trials, labels, weight, finals);
        let labels = lent::labels(&mut trials.draws);
        let (weight, finals) = (trials.draws.below(67) as u64, trials.draws.set());
        trials.trim("no plan", &labels, weight, finals);
    }
    for label in [0, 1, 1 << 63, u64::MAX] {
        let labels = vec![label; gongcollar::ENTRIES];
        for weight in [0, 1, 63, 64, 65, u64::MAX] {
            for finals in [0, 1, 2, 1 << 63, u64::MAX] {
                trials.trim("hostile", &labels, weight, finals);
                trials.trim("hostile", &labels[1..], weight, finals);
            }
        }
    }
}

/// A table with one thing off: its length, its weight, a final, or a label.
fn trim_damaged(trials: &mut Trials, mut labels: Vec<u64>, weight: u64, finals: u64) {
    let draws = &mut trials.draws;
    let (mut weight, mut finals) = (weight, finals);
    match draws.below(4) {
        0 => labels.truncate(draws.one_of(&[0, 1, gongcollar::ENTRIES - 1])),
        1 => weight = draws.one_of(&[0, weight - 1, weight + 1, 64, 65, u64::MAX]),
        2 => finals |= 1 << draws.below(gongcollar::STATES),
        _ => labels[draws.below(gongcollar::ENTRIES)] = draws.word(),
    }
    trials.trim("damaged", &labels, weight, finals);
}

/// One rule and one model through every call that takes them.
fn all_calls(trials: &mut Trials, sort: &'static str, rule: &[u8], model: &[u8]) {
    trials.read_rule(sort, rule);
    trials.build(sort, rule);
    let count = trials.draws.below(18);
    let letters = letters::perhaps_bad(&mut trials.draws, count);
    trials.judge(sort, rule, &letters);
    trials.search(sort, rule, model);
    trials.line(sort, &line_input(rule, model));
}

fn verdict(seed: u64, trials: &Trials) -> ExitCode {
    let report = &trials.report;
    print!("{}", report.lines());
    for text in report.told() {
        println!("mismatch, seed {seed}: {text}");
    }
    let seen = report.refusals();
    let missing: Vec<_> = REFUSALS
        .iter()
        .filter(|number| !seen.contains(number))
        .collect();
    println!(
        "seed {seed}: {} cases, {} mismatches, refusals that never came up: {missing:?}",
        report.cases(),
        report.mismatches()
    );
    let good = report.mismatches() == 0 && missing.is_empty() && report.cases() >= FEWEST_CASES;
    ExitCode::from(u8::from(!good))
}
