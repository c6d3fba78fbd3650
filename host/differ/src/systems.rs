//! Models given by formulas: written by both libraries, into outputs of every length that matters, read back, and
//! searched.

use crate::expected;
use crate::lent::difference;
use crate::report::{hex, Outcome};
use crate::trials::{unlike, unlike_safe, Trials};
use cases::damage::{damaged_more, likely_byte};
use cases::rules::kind;
use cases::systems::{accepted, all_up_to, hostile, of_length, MOST_BYTES};
use cases::{heavy, rules};
use gongcollar::{formula_model, formula_model_into, raw, MODEL_BYTES};

const GENERATED: usize = 3000;
/// The number of damaged pairs of each generated one.
const DAMAGED: usize = 4;
const RANDOM: usize = 4000;
const SEARCHED: usize = 1000;
/// None, one byte short, as many as are asked for, and some more.
const LENT: [usize; 4] = [0, MODEL_BYTES - 1, MODEL_BYTES, MODEL_BYTES + 16];
/// All that a short pair can be made of, one byte for each sort.
const FEW: [u8; 10] = [
    0x00,
    kind::PROPOSITION,
    kind::TRUE,
    kind::NOT,
    kind::AND,
    0x06,
    kind::NEXT,
    kind::LETTER,
    kind::INITIAL,
    kind::STEP,
];

/// All trials of formulas.
pub fn run(trials: &mut Trials) {
    for _ in 0..GENERATED {
        let formulas = accepted(&mut trials.draws);
        write(trials, "valid", &formulas);
        for _ in 0..DAMAGED {
            let formulas = damaged_more(&mut trials.draws, &formulas);
            write(trials, "damaged", &formulas);
        }
    }
    for length in MOST_BYTES - 3..=MOST_BYTES + 3 {
        for _ in 0..40 {
            let formulas = of_length(&mut trials.draws, length);
            write(trials, "at the limit", &formulas);
        }
    }
    for formulas in hostile() {
        write(trials, "hostile", &formulas);
    }
    for pair in heavy::for_the_models() {
        write(trials, "hostile", &pair.bytes);
    }
    for _ in 0..RANDOM {
        let formulas = random(trials);
        write(trials, "random", &formulas);
    }
    let every: Vec<u8> = (0..=0xFF).collect();
    for formulas in all_up_to(2, &every) {
        write(trials, "short", &formulas);
    }
    for formulas in all_up_to(5, &FEW) {
        write(trials, "short, of few bytes", &formulas);
    }
    for _ in 0..SEARCHED {
        search(trials);
    }
}

/// Bytes with no plan, or likely ones, behind the first kind or not.
fn random(trials: &mut Trials) -> Vec<u8> {
    let draws = &mut trials.draws;
    let most = draws.one_of(&[4, 16, MOST_BYTES + 10]);
    let count = draws.between(0, most);
    let mut bytes = match draws.once_in(3) {
        true => draws.bytes(count),
        false => (0..count).map(|_| likely_byte(draws)).collect(),
    };
    if draws.once_in(2) {
        bytes.insert(0, kind::INITIAL);
    }
    bytes
}

/// One pair of formulas over junk of several lengths; of one length where it is refused for itself.
fn write(trials: &mut Trials, sort: &'static str, formulas: &[u8]) {
    match plain::read_system(formulas) {
        Ok(system) => {
            for length in LENT {
                write_into(trials, sort, formulas, length);
            }
            read_back(trials, sort, formulas, &system.model());
        }
        Err(_) => {
            let length = trials.draws.one_of(&LENT);
            write_into(trials, sort, formulas, length);
        }
    }
}

fn write_into(trials: &mut Trials, sort: &'static str, formulas: &[u8], length: usize) {
    let mut out = trials.draws.bytes(length);
    let (mut safe_out, mut expected_out) = (out.clone(), out.clone());
    let want = expected::formula_model(formulas, &mut expected_out);
    let got = raw::formula_model(formulas, &mut out);
    let safe = formula_model_into(formulas, &mut safe_out).map(|model| model.len() as u64);
    let fault = unlike(got, want)
        .or_else(|| difference("out", &out, &expected_out))
        .or_else(|| unlike_safe(safe, want.refused, want.place, want.length))
        .or_else(|| difference("safe out", &safe_out, &expected_out));
    let fault = fault.map(|text| format!("formulas {}, {length} lent: {text}", hex(formulas)));
    let outcome = Outcome::of(want.refused, "written");
    trials.report.note("formula_model", sort, outcome, fault);
}

/// What is written is a model to every reader, and says what the formulas say.
fn read_back(trials: &mut Trials, sort: &'static str, formulas: &[u8], want: &plain::Model) {
    let fault = match formula_model(formulas) {
        Err(refusal) => Some(refusal.to_string()),
        Ok(model) => {
            let read = plain::read_model(model.bytes());
            let states = 0..want.letters.len();
            let letters: Vec<_> = states.clone().map(|x| model.letter(x)).collect();
            let successors: Vec<_> = states.map(|x| model.successors(x)).collect();
            unlike(read, Ok(want.clone()))
                .or_else(|| unlike(raw::read_model(model.bytes()).states, 64))
                .or_else(|| unlike(letters, want.letters.iter().copied().map(Some).collect()))
                .or_else(|| unlike(model.initial(), want.initial))
                .or_else(|| unlike(&successors, &want.successors))
        }
    };
    let fault = fault.map(|text| format!("formulas {}: {text}", hex(formulas)));
    let ways = want.successors.iter().map(|set| set.count_ones()).sum();
    let outcome = Outcome::Answer(match ways {
        0u32 => "no step",
        4096 => "every step",
        _ => "some steps",
    });
    trials
        .report
        .note("formulas read back", sort, outcome, fault);
}

/// A rule searched in the model of two formulas.
fn search(trials: &mut Trials) {
    let formulas = match trials.draws.once_in(2) {
        true => cases::systems::jobs(&mut trials.draws),
        false => accepted(&mut trials.draws),
    };
    let rule = rules::accepted(&mut trials.draws);
    if let Ok(model) = formula_model(&formulas) {
        trials.search("of formulas", &rule, model.bytes());
        trials.lasting("of formulas", model.bytes());
    }
}
