//! Rules as text: read and written by both libraries, into outputs of every length that matters.

use crate::lent::difference;
use crate::report::{hex, Outcome};
use crate::trials::Trials;
use cases::texts::{damaged, hostile, random};
use cases::{damage::damaged_more, rules, Draws};
use gongcollar::raw::{self, Text};
use gongcollar::{read_text_into, write_text_into, Refusal, Rule, RuleInfo};

const GENERATED: usize = 3000;
const RANDOM: usize = 3000;
/// The number of damaged texts of each generated one.
const DAMAGED: usize = 6;
/// More than any text takes.
const ROOM: usize = 1400;

type Written = Result<plain::Given, plain::Refusal>;
/// What was written, the weight, and what is named.
type Owned = (Vec<u8>, u64, u64);
type Safe<'a> = Result<(&'a [u8], RuleInfo), Refusal>;

/// All trials of texts.
pub fn run(trials: &mut Trials) {
    for _ in 0..GENERATED {
        let rule = rules::of_any_weight(&mut trials.draws);
        write(trials, "generated", &rule);
        if let Ok(given) = plain::write_text(&rule, ROOM) {
            back_and_forth(trials, &rule, &given.written);
            for _ in 0..DAMAGED {
                let text = damaged(&mut trials.draws, &given.written);
                read(trials, "damaged", &text);
            }
        }
        let rule = damaged_more(&mut trials.draws, &rule);
        write(trials, "damaged", &rule);
    }
    for text in hostile() {
        read(trials, "hostile", &text);
        for _ in 0..DAMAGED {
            let text = damaged(&mut trials.draws, &text);
            read(trials, "hostile, damaged", &text);
        }
    }
    for rule in cases::hostile::rules() {
        write(trials, "hostile", &rule);
    }
    for _ in 0..RANDOM {
        let most = trials.draws.one_of(&[3, 12, 1300]);
        let text = random(&mut trials.draws, most);
        read(trials, "random", &text);
    }
}

/// The text of a rule, and the rule of its text.
fn back_and_forth(trials: &mut Trials, rule: &[u8], text: &[u8]) {
    read(trials, "generated", text);
    let text = String::from_utf8_lossy(text);
    let fault = match text.parse::<Rule>() {
        Ok(read) if read.bytes() == rule && read.to_string() == text => None,
        other => Some(format!("rule {}, text {text}: {other:x?}", hex(rule))),
    };
    let outcome = Outcome::Answer("the same");
    trials
        .report
        .note("text and back", "generated", outcome, fault);
}

fn read(trials: &mut Trials, sort: &'static str, text: &[u8]) {
    let want = plain::read_text(text, ROOM);
    for room in rooms(&mut trials.draws, &want) {
        let want = plain::read_text(text, room);
        let told = format!("text {:?}", String::from_utf8_lossy(text));
        let calls = (
            |out: &mut [u8]| raw::read_text(text, out),
            |out: &mut [u8]| owned(read_text_into(text, out)),
        );
        one(trials, "read_text", sort, room, &want, &told, calls);
    }
}

fn write(trials: &mut Trials, sort: &'static str, rule: &[u8]) {
    let want = plain::write_text(rule, ROOM);
    for room in rooms(&mut trials.draws, &want) {
        let want = plain::write_text(rule, room);
        let told = format!("rule {}", hex(rule));
        let calls = (
            |out: &mut [u8]| raw::write_text(rule, out),
            |out: &mut [u8]| owned(write_text_into(rule, out)),
        );
        one(trials, "write_text", sort, room, &want, &told, calls);
    }
}

/// Exactly long enough, one short, and some other length.
fn rooms(draws: &mut Draws, want: &Written) -> Vec<usize> {
    let other = draws.one_of(&[0, 1, 254, 255, 256, 1279, 1280, ROOM]);
    match want {
        Ok(given) => vec![given.written.len(), given.written.len() - 1, other],
        Err(_) => vec![other],
    }
}

fn owned(safe: Safe<'_>) -> Result<Owned, (u64, u64)> {
    safe.map(|(written, rule)| (written.to_vec(), rule.weight, rule.uses.bits()))
        .map_err(|refusal| (refusal.number(), refusal.place()))
}

/// One call over junk: the answer, the later content of the output, and the same of the safe call.
fn one(
    trials: &mut Trials,
    call: &'static str,
    sort: &'static str,
    room: usize,
    want: &Written,
    told: &str,
    (numbers, safe): (
        impl Fn(&mut [u8]) -> Text,
        impl Fn(&mut [u8]) -> Result<Owned, (u64, u64)>,
    ),
) {
    let junk = trials.draws.bytes(room);
    let (mut out, mut safe_out, mut expected) = (junk.clone(), junk.clone(), junk);
    let (answer, owned) = match want {
        Ok(given) => {
            expected[..given.written.len()].copy_from_slice(&given.written);
            let answer = Text {
                length: given.written.len() as u64,
                weight: given.weight,
                uses: given.names,
                ..Text::default()
            };
            (
                answer,
                Ok((given.written.clone(), given.weight, given.names)),
            )
        }
        Err(refusal) => {
            let answer = Text {
                refused: refusal.number,
                place: refusal.place,
                ..Text::default()
            };
            (answer, Err((refusal.number, refusal.place)))
        }
    };
    let got = numbers(&mut out);
    let got_safe = safe(&mut safe_out);
    let fault = (got != answer)
        .then(|| format!("got {got:x?}, expected {answer:x?}"))
        .or_else(|| difference("out", &out, &expected))
        .or_else(|| (got_safe != owned).then(|| format!("safe: {got_safe:x?}")))
        .or_else(|| difference("safe out", &safe_out, &expected));
    let fault = fault.map(|text| format!("{told}, {room} lent: {text}"));
    let outcome = Outcome::of(answer.refused, "written");
    trials.report.note(call, sort, outcome, fault);
}
