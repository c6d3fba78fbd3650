//! `text`: the text of a rule's bytes.

use super::names;
use crate::args::Text;
use crate::output::Out;
use crate::rules::named;
use crate::trouble::{End, Place, Trouble};
use crate::Status;
use gongcollar::Rule;
use std::ops::Range;

pub fn run(args: &Text, out: &mut Out) -> Result<Status, End> {
    let names = names(&args.names)?;
    let line = args.bytes.join(" ");
    let typed = typed(&line)?;
    let bytes: Vec<u8> = typed.iter().map(|byte| byte.0).collect();
    let rule = Rule::from_bytes(&bytes).map_err(|refusal| {
        let place = refusal.place() as usize;
        let what = format!(
            "refused {} at byte {place}: {}",
            refusal.number(),
            refusal.says()
        );
        let at = typed
            .get(place)
            .map_or(line.len()..line.len(), |byte| byte.1.clone());
        trouble(&line, at, what)
    })?;
    out.line(named(&rule, &names)?)?;
    Ok(Status::Nothing)
}

/// The bytes, each with where it was typed: two digits each, blanks between them or not.
fn typed(line: &str) -> Result<Vec<(u8, Range<usize>)>, Trouble> {
    let mut typed = Vec::new();
    let mut start = 0;
    while let Some(first) = line[start..].chars().next() {
        if first.is_whitespace() {
            start += first.len_utf8();
            continue;
        }
        let digits = line
            .get(start..start + 2)
            .filter(|two| two.bytes().all(|digit| digit.is_ascii_hexdigit()));
        let Some(byte) = digits.and_then(|digits| u8::from_str_radix(digits, 16).ok()) else {
            let what = "this is no byte of two hexadecimal digits";
            return Err(trouble(line, start..start + first.len_utf8(), what.into())
                .hint("expected bytes as `12 10 01 00`"));
        };
        typed.push((byte, start..start + 2));
        start += 2;
    }
    Ok(typed)
}

fn trouble(line: &str, at: Range<usize>, what: String) -> Trouble {
    let place = Place {
        source: "bytes".into(),
        line: None,
        text: line.into(),
        start: at.start,
        length: at.len(),
    };
    Trouble::at(place, what)
}
