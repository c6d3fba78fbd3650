//! Models given by formulas, of which the longest have 255 bytes.

use crate::timing::{micros, several};
use cases::heavy;
use gongcollar::{formula_model_into, MODEL_BYTES};

/// Each call is made so many times by the proved library.
const CALLS: usize = 1001;
/// And by the plain one, which asks each formula 4,096 times.
const PLAIN_CALLS: usize = 5;

/// Prints the times of writing the model of two formulas; false if the libraries differ.
pub fn run() -> bool {
    println!();
    println!("The model of two formulas, 64 states. Each call is made {CALLS} times by the proved library, {PLAIN_CALLS} times by the");
    println!("plain one.");
    println!();
    println!("{:<52}{:>8}{:>20}{:>20}", "", "", "proved", "plain");
    println!(
        "{:<52}{:>8}{:>10}{:>10}{:>10}{:>10}",
        "", "bytes", "median", "largest", "median", "largest"
    );
    let mut same = true;
    for pair in heavy::for_the_models() {
        same &= row(pair.name, &pair.bytes);
    }
    same
}

fn row(name: &str, formulas: &[u8]) -> bool {
    let mut out = [0; MODEL_BYTES];
    let ours = several(CALLS, || formula_model_into(formulas, &mut out).is_ok());
    let theirs = several(PLAIN_CALLS, || {
        plain::formula_model(formulas, MODEL_BYTES).is_ok()
    });
    println!(
        "{name:<52}{:>8}{:>10}{:>10}{:>10}{:>10}",
        formulas.len(),
        micros(ours.median()),
        micros(ours.largest()),
        micros(theirs.median()),
        micros(theirs.largest())
    );
    let same = plain::formula_model(formulas, MODEL_BYTES).is_ok_and(|model| model == out);
    if !same {
        println!("  the libraries differ");
    }
    same
}
