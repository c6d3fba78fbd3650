//! `judge`: whether a rule accepts a short row of events.

use super::{names, rule};
use crate::args::Judge;
use crate::events::row;
use crate::output::Out;
use crate::trouble::{End, Place, Trouble};
use crate::Status;
use gongcollar::Refusal;

pub fn run(args: &Judge, out: &mut Out) -> Result<Status, End> {
    let names = names(&args.names)?;
    let ready = rule(&args.rule, &names, &args.place)?;
    let line = args.events.join(" ");
    let place = |start: usize, end: usize| Place {
        source: "events".into(),
        line: None,
        text: line.clone(),
        start,
        length: end - start,
    };
    let events = row(&line, &names)
        .map_err(|bad| Trouble::at(place(bad.at.start, bad.at.end), bad.what).hint(bad.expected))?;
    let letters: Vec<u8> = events.iter().map(|event| event.0).collect();
    let accepted = gongcollar::judge(ready.searched.bytes(), &letters).map_err(|refusal| {
        let what = format!("refused {}: {}", refusal.number(), refusal.says());
        match (refusal, events.get(refusal.place() as usize)) {
            (Refusal::EventLetter { .. }, Some((_, at))) => {
                Trouble::at(place(at.start, at.end), what)
            }
            (Refusal::TooManyLetters { .. }, _) => {
                Trouble::new(what).hint("`follow` takes any number of them, a line each")
            }
            _ => Trouble::new(what),
        }
    })?;
    out.line(if accepted {
        "matches"
    } else {
        "does not match"
    })?;
    Ok(if accepted {
        Status::Found
    } else {
        Status::Nothing
    })
}
