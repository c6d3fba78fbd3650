//! The second way: what a text says, word by word, held against the bytes that were made of it.
//!
//! Nothing is shared with the reader: lines are cut by their signs, and every bit of the bytes is asked for by itself. So
//! it is where formulas say the model: their text is evaluated for each two states, and held against the proved call's
//! bytes.

use super::evaluator::Formula;
use super::reader::Read;

/// The first difference between a text that was read and what was made of it.
pub fn agrees(text: &str, read: &Read) -> Result<(), String> {
    let lines: Vec<Vec<String>> = text.lines().map(words).collect();
    let named = lines.iter().find(|line| first(line) == "propositions");
    let propositions = named.map_or(&[][..], |line| &line[1..]);
    names_agree(propositions, read)?;
    match (formula(text, "initial"), formula(text, "step")) {
        (Some(initial), Some(step)) => formulas_agree([initial, step], propositions, read),
        (None, None) => states_agree(&lines, propositions, read),
        _ => Err("one formula".into()),
    }
}

fn names_agree(propositions: &[String], read: &Read) -> Result<(), String> {
    let called = (0..propositions.len()).all(|at| read.names.proposition(at) == propositions[at]);
    match called && read.names.given().len() == propositions.len() {
        true => Ok(()),
        false => Err("the names of the propositions".into()),
    }
}

/// What stands behind a word and its colon, which begin a line.
fn formula<'a>(text: &'a str, word: &str) -> Option<&'a str> {
    let mut lines = text.lines().filter_map(|line| {
        let said = &line[..line.find('#').unwrap_or(line.len())];
        let (head, formula) = said.split_once(':')?;
        (head.trim() == word).then_some(formula)
    });
    lines.next().filter(|_| lines.next().is_none())
}

fn formulas_agree(texts: [&str; 2], propositions: &[String], read: &Read) -> Result<(), String> {
    let cut = |text: &str| Formula::cut(text, propositions).ok_or("a word of a formula");
    let (initial, step) = (cut(texts[0])?, cut(texts[1])?);
    if read.bytes.len() != 704 || !read.names.are_letters() {
        return Err("64 states".into());
    }
    for now in 0..64 {
        let record = &read.bytes[11 * now..11 * now + 11];
        let has = |next: usize| record[3 + next / 8] & 1 << (next % 8) != 0;
        let same = record[0] == 0x20
            && usize::from(record[1]) == now
            && initial.holds(now, now).map(u8::from) == Some(record[2])
            && (0..64).all(|next| step.holds(now, next) == Some(has(next)));
        if !same {
            return Err(format!("state {now}"));
        }
    }
    Ok(())
}

fn states_agree(lines: &[Vec<String>], propositions: &[String], read: &Read) -> Result<(), String> {
    let states: Vec<Said> = lines
        .iter()
        .filter(|line| first(line) == "state")
        .map(|line| said(line))
        .collect();
    if read.bytes.len() != 11 * states.len() {
        return Err(format!(
            "{} states, and {} bytes",
            states.len(),
            read.bytes.len()
        ));
    }
    for (at, state) in states.iter().enumerate() {
        let record = &read.bytes[11 * at..11 * at + 11];
        let same = head_agrees(record, state)
            && letter_agrees(record[1], state, propositions)
            && successors_agree(&record[3..], state, &states)
            && name_agrees(at, state, read);
        if !same {
            return Err(format!("state {at}"));
        }
    }
    Ok(())
}

/// What stands before a comment, cut at blanks and around the signs.
fn words(line: &str) -> Vec<String> {
    let said = &line[..line.find('#').unwrap_or(line.len())];
    let spaced = said.replace("->", " -> ").replace(':', " : ");
    spaced.split_whitespace().map(String::from).collect()
}

fn first(line: &[String]) -> &str {
    line.first().map_or("", |word| word)
}

/// The words of a state's line by where they stand.
struct Said<'a> {
    head: &'a [String],
    holds: &'a [String],
    next: &'a [String],
}

fn said(line: &[String]) -> Said<'_> {
    let place = |sign: &str| {
        line.iter()
            .position(|word| word == sign)
            .unwrap_or(line.len())
    };
    let (colon, arrow) = (place(":"), place("->"));
    Said {
        head: line.get(1..colon).unwrap_or(&[]),
        holds: line.get(colon + 1..arrow).unwrap_or(&[]),
        next: line.get(arrow + 1..).unwrap_or(&[]),
    }
}

impl Said<'_> {
    fn name(&self) -> Option<&String> {
        self.head.iter().find(|word| *word != "initial")
    }

    /// Whether a word means this state, which has the number.
    fn is(&self, word: &str, number: usize) -> bool {
        self.name().is_some_and(|name| name == word) || word.parse() == Ok(number)
    }
}

fn head_agrees(record: &[u8], state: &Said) -> bool {
    let initial = state.head.iter().any(|word| word == "initial");
    record[0] == 0x20 && record[2] == if initial { 1 } else { 0 }
}

fn letter_agrees(letter: u8, state: &Said, propositions: &[String]) -> bool {
    let means = |word: &String, bit: usize| {
        propositions.get(bit) == Some(word) || word.strip_prefix('p') == Some(&bit.to_string())
    };
    let says = |bit: usize| state.holds.iter().any(|word| means(word, bit));
    (0..8).all(|bit| (letter & 1 << bit != 0) == says(bit))
        && state.holds.len() == letter.count_ones() as usize
}

fn successors_agree(bytes: &[u8], state: &Said, states: &[Said]) -> bool {
    let says = |to: usize| {
        states
            .get(to)
            .is_some_and(|target| state.next.iter().any(|word| target.is(word, to)))
    };
    let has = |to: usize| bytes[to / 8] & 1 << (to % 8) != 0;
    let ways = bytes
        .iter()
        .map(|byte| byte.count_ones() as usize)
        .sum::<usize>();
    (0..64).all(|to| has(to) == says(to)) && ways == state.next.len()
}

fn name_agrees(at: usize, state: &Said, read: &Read) -> bool {
    let name = state.name().filter(|name| name.parse() != Ok(at));
    read.names.state_name(at) == name.map(|name| name.as_str())
}

#[cfg(test)]
mod tests {
    use super::super::reader::read;
    use super::*;

    const TEXT: &str =
        "propositions expire thin\nstate idle initial: expire -> 1 last\nstate: p1 thinned->";

    fn good() -> (String, Read) {
        let text = TEXT.replace(" thinned", "").replace("last", "idle") + " idle # round";
        let read = read("jobs", &text).expect("a model");
        (text, read)
    }

    #[test]
    fn what_was_read_agrees() {
        let (text, read) = good();
        assert_eq!(agrees(&text, &read), Ok(()));
    }

    #[test]
    fn every_bit_and_every_name_counts() {
        let (text, read) = good();
        for byte in 0..read.bytes.len() {
            for bit in 0..8 {
                let mut wrong = read.clone();
                wrong.bytes[byte] ^= 1 << bit;
                assert!(agrees(&text, &wrong).is_err(), "byte {byte} bit {bit}");
            }
        }
        let mut short = read.clone();
        short.bytes.truncate(11);
        assert!(agrees(&text, &short).is_err());
        for (from, to) in [
            ("idle", "idles"),
            ("thin", "thins"),
            ("state:", "state x:"),
            ("p1-> idle", "p1-> 1"),
        ] {
            assert!(
                agrees(&text.replace(from, to).replace(" thins", " x"), &read).is_err(),
                "{from}"
            );
        }
    }
    const FORMULAS: &str =
        "propositions a b\nstep: ((next(b)|!a) & (p3|!next(p5)))\ninitial: (!a&b) # first";

    #[test]
    fn every_byte_of_a_model_by_formulas_counts() {
        let read = read("jobs", FORMULAS).expect("a model");
        assert_eq!(agrees(FORMULAS, &read), Ok(()));
        // Every byte, and of the first and the last state every bit.
        let bits = |byte: usize| {
            if byte % 693 < 11 {
                0..8
            } else {
                byte % 8..byte % 8 + 1
            }
        };
        for (byte, bit) in (0..704).flat_map(|byte| bits(byte).map(move |bit| (byte, bit))) {
            let mut wrong = read.clone();
            wrong.bytes[byte] ^= 1 << bit;
            assert!(agrees(FORMULAS, &wrong).is_err(), "byte {byte} bit {bit}");
        }
        for (from, to) in [
            ("!a&b", "!a|b"),
            ("next(b)", "next(a)"),
            ("next(b)", "b"),
            ("!next(p5)", "next(p5)"),
            ("p3", "p4"),
            ("a b", "b a"),
            ("a b", "a c"),
            ("step", "stop"),
            ("(!a&b)", "(!a&b"),
            ("(!a&b)", "!a&b"),
            ("(!a&b)", ""),
        ] {
            assert!(
                agrees(&FORMULAS.replacen(from, to, 1), &read).is_err(),
                "{from} {to}"
            );
        }
    }
}
