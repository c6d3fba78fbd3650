//! Times of the proved library and of the plain one on the same inputs, and the stack that the proved one takes:
//! `bench [SEED]`, or `bench stacks` for the stack alone, where an emulator's times would say nothing. `bench twin` has
//! the proved search and its twin by turns, and ends with the ratio; `bench once` makes each of these searches once, for
//! a tool that counts instructions. The status is 1 if the libraries differ, or a call takes more stack than it may.

mod generated;
mod hard;
mod labels;
mod rows;
mod searchers;
mod stack;
mod systems;
mod texts;
mod timing;
mod twin;
mod walkers;

use cases::draws::seed_given;
use std::process::ExitCode;

const SEED: u64 = 20_260_110;

fn main() -> ExitCode {
    let words: Vec<String> = std::env::args().skip(1).collect();
    let well = match words.first().map(String::as_str) {
        Some("stacks") => stack::run(),
        Some("twin") => twin::run(SEED),
        Some("once") => twin::once(SEED),
        _ => match seed_given(SEED) {
            Some(seed) => all(seed),
            None => {
                eprintln!("usage: bench [SEED], a decimal number, or bench stacks, twin or once");
                return ExitCode::from(2);
            }
        },
    };
    ExitCode::from(u8::from(!well))
}

/// All times, and the stacks.
fn all(seed: u64) -> bool {
    println!("Times in microseconds, of one call each. A call does all that it promises: it reads the rule and");
    println!("the model, and clears what is lent to it. The proved library works in lent slices; the plain one");
    println!("has no slices to clear, and its time includes the memory that it takes for itself.");
    if let Some(processor) = processor() {
        println!("Processor: {processor}");
    }
    generated::run(seed);
    labels::run();
    walkers::run(seed);
    let rows = rows::run(seed);
    let models = systems::run();
    let same = hard::run();
    let back = texts::run();
    let shallow = stack::run();
    rows && models && same && back && shallow
}

/// The name of the processor, where the system tells it.
fn processor() -> Option<String> {
    let told = std::fs::read_to_string("/proc/cpuinfo").ok()?;
    let line = told.lines().find(|line| line.starts_with("model name"))?;
    let (_, name) = line.split_once(':')?;
    Some(name.trim().to_string())
}
