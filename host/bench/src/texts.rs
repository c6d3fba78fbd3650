//! Rules of 255 bytes as text: reading and writing.

use crate::timing::{micros, several};
use cases::hostile::{counted, hits, joined_right, nested};
use gongcollar::{read_text_into, write_text_into, RULE_BYTES, TEXT_BYTES};

/// Each call is made so many times.
const CALLS: usize = 1001;

/// Unfinished texts of so many characters, each nested to its end.
const LENGTHS: [usize; 4] = [160, 320, 640, 1280];

/// Rules of 255 bytes that are accepted, with a name.
fn rules() -> Vec<(&'static str, Vec<u8>)> {
    let starred = nested(0x17, 4, &[0x10, 0x01, 0x00]);
    vec![
        (
            "252 nested [*] of p0",
            nested(0x17, 252, &[0x10, 0x01, 0x00]),
        ),
        (
            "252 nested not",
            [&[0x10][..], &nested(0x04, 252, &[0x01, 0x05])].concat(),
        ),
        (
            "127 formulas under and",
            [&[0x10][..], &joined_right(0x05, &[0x02], 127), &[]].concat(),
        ),
        (
            "32 p0[*][*][*][*] under ;",
            joined_right(0x12, &starred, 32),
        ),
        (
            "84 nested [*1..1] of p0",
            counted(1, 1, 84, &[0x10, 0x01, 0x00]),
        ),
        (
            "[=10..15] of 250 nested not",
            hits(10, 15, &nested(0x04, 250, &[0x01, 0x05])),
        ),
    ]
}

/// Prints the times of reading and writing; false if one is not read back as it was written.
pub fn run() -> bool {
    println!();
    println!("Rules of 254 and 255 bytes as text. Each call is made {CALLS} times.");
    println!();
    println!(
        "{:<30}{:>8}{:>12}{:>10}{:>10}{:>10}{:>10}",
        "", "bytes", "characters", "read", "largest", "write", "largest"
    );
    let back = rules().iter().all(|(name, rule)| row(name, rule));
    growth();
    back
}

/// Prints how the time of reading grows with the text: twice as many characters should take twice as long.
fn growth() {
    println!();
    print!("{:<30}", "reading, as the text grows");
    for count in LENGTHS {
        print!("{count:>10}");
    }
    println!();
    let mut bytes = [0; RULE_BYTES];
    for (name, character) in [("nested !", b"!"), ("nested (", b"("), ("nested {", b"{")] {
        print!("{name:<30}");
        for count in LENGTHS {
            let text = character.repeat(count);
            let read = several(CALLS, || read_text_into(&text, &mut bytes).is_err());
            print!("{:>10}", micros(read.median()));
        }
        println!();
    }
}

fn row(name: &str, rule: &[u8]) -> bool {
    let mut text = [0; TEXT_BYTES];
    let written = several(CALLS, || write_text_into(rule, &mut text).is_ok());
    let Ok((characters, _)) = write_text_into(rule, &mut text) else {
        println!("{name} is not written");
        return false;
    };
    let characters = characters.to_vec();
    let mut bytes = [0; RULE_BYTES];
    let read = several(CALLS, || read_text_into(&characters, &mut bytes).is_ok());
    println!(
        "{name:<30}{:>8}{:>12}{:>10}{:>10}{:>10}{:>10}",
        rule.len(),
        characters.len(),
        micros(read.median()),
        micros(read.largest()),
        micros(written.median()),
        micros(written.largest())
    );
    matches!(read_text_into(&characters, &mut bytes), Ok((back, _)) if back == rule)
}
