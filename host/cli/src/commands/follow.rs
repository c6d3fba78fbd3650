//! `follow`: events as they come, a line each.

use super::{names, rule};
use crate::args::Follow;
use crate::events::event;
use crate::files::{self, called, is_standard};
use crate::names::Names;
use crate::output::Out;
use crate::trouble::{End, Place, Trouble};
use crate::verdict::unexpected;
use crate::Status;
use gongcollar::{Table, Walker};
use std::fs::File;
use std::io::{BufRead, BufReader, Read};

/// The most bytes of a line.
const LINE_BYTES: u64 = 1 << 16;

pub fn run(args: &Follow, out: &mut Out) -> Result<Status, End> {
    let from = args.names.names.as_deref();
    if from.is_some_and(is_standard) && is_standard(&args.file) {
        return Err(Trouble::new("names and events cannot both come from standard input").into());
    }
    let names = names(&args.names)?;
    let ready = rule(&args.rule, &names, &args.place)?;
    let table = Table::build(ready.searched.bytes()).map_err(unexpected)?;
    // Rows by letter say what the table says, and an event is taken in less time.
    let rows = table.rows();
    let mut walker = rows.walker();
    let mut lines = Lines::open(args)?;
    tell_first(&walker, None, out)?;
    while let Some(line) = lines.next()? {
        if let Some(letter) = taken(&line, &names)? {
            let before = walker.first_match();
            walker.step(&rows, letter).map_err(|refusal| {
                line.trouble(
                    0,
                    line.text.len(),
                    format!("refused {}: {}", refusal.number(), refusal.says()),
                )
            })?;
            if before.is_none() {
                tell_first(&walker, Some(line.number), out)?;
            }
        }
    }
    tell_end(&walker, out)
}

/// Tells a first match as soon as there is one.
fn tell_first(walker: &Walker, line: Option<usize>, out: &mut Out) -> Result<(), End> {
    match (walker.first_match(), line) {
        (Some(events), Some(line)) => out.line(format!(
            "first match after {} (line {line})",
            counted(events)
        ))?,
        (Some(events), None) => out.line(format!("first match after {}", counted(events)))?,
        (None, _) => return Ok(()),
    }
    out.flush()
}

fn tell_end(walker: &Walker, out: &mut Out) -> Result<Status, End> {
    let events = counted(walker.taken());
    if walker.first_match().is_none() {
        out.line(format!("no match in {events}"))?;
        return Ok(Status::Nothing);
    }
    let matches = match walker.matches() {
        true => "matches",
        false => "does not match",
    };
    out.line(format!("end after {events}; the whole row {matches}"))?;
    Ok(Status::Found)
}

fn counted(events: u32) -> String {
    match events {
        1 => "1 event".into(),
        events => format!("{events} events"),
    }
}

/// The letter of a line, unless it is blank or a comment.
fn taken(line: &Line, names: &Names) -> Result<Option<u8>, Trouble> {
    let said = line.text.split('#').next().unwrap_or(&line.text);
    if said.trim().is_empty() {
        return Ok(None);
    }
    let read = event(said, names);
    read.map(Some).map_err(|bad| {
        line.trouble(bad.at.start, bad.at.len(), bad.what)
            .hint(bad.expected)
    })
}

struct Line {
    source: String,
    number: usize,
    text: String,
}

impl Line {
    fn trouble(&self, start: usize, length: usize, what: String) -> Trouble {
        let place = Place {
            source: self.source.clone(),
            line: Some(self.number),
            text: self.text.clone(),
            start,
            length,
        };
        Trouble::at(place, what)
    }
}

/// Lines one at a time, as they come.
struct Lines {
    source: String,
    from: BufReader<File>,
    number: usize,
}

impl Lines {
    fn open(args: &Follow) -> Result<Lines, Trouble> {
        Ok(Lines {
            source: called(&args.file),
            from: BufReader::new(files::open(&args.file)?),
            number: 0,
        })
    }

    fn next(&mut self) -> Result<Option<Line>, Trouble> {
        let mut bytes = Vec::new();
        let read = self
            .from
            .by_ref()
            .take(LINE_BYTES)
            .read_until(b'\n', &mut bytes);
        read.map_err(|error| Trouble::read(&self.source, &error))?;
        if bytes.is_empty() {
            return Ok(None);
        }
        self.number += 1;
        let bad =
            |what: &str| Trouble::new(format!("{}: line {} {what}", self.source, self.number));
        if bytes.len() as u64 == LINE_BYTES && !bytes.ends_with(b"\n") {
            return Err(bad("is too long for an event"));
        }
        files::warn_if_cut(&self.source, &bytes);
        let text = String::from_utf8(bytes).map_err(|_| bad("is no text"))?;
        Ok(Some(Line {
            source: self.source.clone(),
            number: self.number,
            text: text.trim_end_matches(['\n', '\r']).into(),
        }))
    }
}
