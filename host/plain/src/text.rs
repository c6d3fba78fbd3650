//! Rules as text, requests 2026-01 and 2026-05.
//!
//! A text is read by a grammar that is written down as data: each symbol has its ways on. All that may still be needed is
//! kept, for every way that the characters so far could have been taken, and each of these can be gone on with; a
//! character that none of them takes is where the longest beginning of a rule text ends.

use crate::formula::Formula;
use crate::refusal::{Refusal, NO_TEXT, OUTPUT_TOO_SHORT, RULE_TOO_LONG, TEXT_TOO_LONG, TOO_HEAVY};
use crate::rule::{Counts, Rule, LAST_COUNT};
use crate::{read_rule, ReadRule};

/// The most characters that a text may have.
const LONGEST_TEXT: usize = 1280;

/// The most bytes that a rule may have.
const LONGEST_RULE: usize = 255;

/// What reading or writing a text gives: what is written to the output, the rule's weight, and what stands in it.
#[derive(Debug, Clone, PartialEq, Eq)]
pub struct Given {
    /// The bytes of the rule, or the characters of its text.
    pub written: Vec<u8>,
    /// The number of states of the rule's table.
    pub weight: u64,
    /// The propositions that stand in the rule, bit i for proposition i.
    pub names: u64,
}

/// Reads a text, for an output of so many bytes.
pub fn read_text(text: &[u8], room: usize) -> Result<Given, Refusal> {
    if text.len() > LONGEST_TEXT {
        return Err(Refusal::at(TEXT_TOO_LONG, 0));
    }
    if let Some(place) = first_fault(text) {
        return Err(Refusal::at(NO_TEXT, place));
    }
    let written = bytes_of_text(text);
    if written.len() > LONGEST_RULE {
        return Err(Refusal::at(RULE_TOO_LONG, 0));
    }
    // The bytes of a text are a rule's, so that only the weight can be at fault.
    let read = read_rule(&written).map_err(|_| Refusal::at(TOO_HEAVY, 0))?;
    given(written, &read, room)
}

/// Writes the text of a rule's bytes, for an output of so many characters.
pub fn write_text(rule: &[u8], room: usize) -> Result<Given, Refusal> {
    let read = read_rule(rule)?;
    let mut written = String::new();
    put_rule(&read.rule, &mut written);
    given(written.into_bytes(), &read, room)
}

fn given(written: Vec<u8>, read: &ReadRule, room: usize) -> Result<Given, Refusal> {
    if written.len() > room {
        return Err(Refusal::at(OUTPUT_TOO_SHORT, 0));
    }
    Ok(Given {
        written,
        weight: read.weight,
        names: read.rule.names(),
    })
}

fn put_rule(rule: &Rule, out: &mut String) {
    match rule {
        Rule::Letter(formula) => put_formula(formula, out),
        Rule::Empty => out.push_str("[*0]"),
        Rule::Then(a, b) => put_pair(a, ";", b, out),
        Rule::Overlap(a, b) => put_pair(a, ":", b, out),
        Rule::Or(a, b) => put_pair(a, "|", b, out),
        Rule::LooseAnd(a, b) => put_pair(a, "&", b, out),
        Rule::EqualAnd(a, b) => put_pair(a, "&&", b, out),
        Rule::Star(a) => put_repeat(a, "[*]", out),
        Rule::Plus(a) => put_repeat(a, "[+]", out),
        Rule::Counted(counts, a) => put_repeat(a, &format!("[*{}", counts_text(*counts)), out),
        Rule::Hits(counts, formula) => {
            put_formula(formula, out);
            out.push_str(&format!("[={}", counts_text(*counts)));
        }
    }
}

fn put_pair(a: &Rule, sign: &str, b: &Rule, out: &mut String) {
    out.push('{');
    put_rule(a, out);
    out.push_str(sign);
    put_rule(b, out);
    out.push('}');
}

fn put_repeat(a: &Rule, sign: &str, out: &mut String) {
    out.push('{');
    put_rule(a, out);
    out.push('}');
    out.push_str(sign);
}

/// What follows `[*` or `[=`.
fn counts_text(counts: Counts) -> String {
    format!("{}..{}]", counts.least, counts.most)
}

fn put_formula(formula: &Formula, out: &mut String) {
    match formula {
        Formula::Proposition(number) => out.push_str(&format!("p{number}")),
        Formula::True => out.push_str("true"),
        Formula::False => out.push_str("false"),
        Formula::Not(a) => {
            out.push('!');
            put_formula(a, out);
        }
        Formula::And(a, b) => put_join(a, '&', b, out),
        Formula::Or(a, b) => put_join(a, '|', b, out),
    }
}

fn put_join(a: &Formula, sign: char, b: &Formula, out: &mut String) {
    out.push('(');
    put_formula(a, out);
    out.push(sign);
    put_formula(b, out);
    out.push(')');
}

/// What may be needed next, beside a very character: a rule; a formula; the digit of a proposition; what follows the
/// first formula of a pair, the first rule of a pair or of a repetition, and `&` between two rules; what follows `}[`;
/// what may follow a formula that stands as a rule; what follows `[*` or `[=`.
const RULE: u8 = b'R';
const FORMULA: u8 = b'F';
const DIGIT: u8 = b'D';
const JOIN: u8 = b'J';
const TAIL: u8 = b'T';
const SECOND: u8 = b'S';
const REPEAT: u8 = b'A';
const HITS: u8 = b'H';
const COUNTS: u8 = b'C';

const FORMULAS: [&str; 5] = ["pD", "true", "false", "!F", "(FJ"];
const RULES: [&str; 2] = ["[*0]", "{RT"];

/// The ways on from a symbol. None begins with a capital, and capitals are no characters of a text.
fn ways(symbol: u8) -> Vec<String> {
    let owned = |ways: &[&str]| ways.iter().map(|way| way.to_string()).collect();
    match symbol {
        RULE => {
            let mut both: Vec<String> = owned(&RULES);
            both.extend(FORMULAS.iter().map(|way| format!("{way}H")));
            both
        }
        FORMULA => owned(&FORMULAS),
        DIGIT => owned(&["0", "1", "2", "3", "4", "5"]),
        JOIN => owned(&["&F)", "|F)"]),
        TAIL => owned(&[";R}", ":R}", "|R}", "&S", "}[A"]),
        // The second rule, or `&` and the second rule.
        SECOND => {
            let mut both: Vec<String> = owned(&["&R}"]);
            both.extend(ways(RULE).iter().map(|way| format!("{way}}}")));
            both
        }
        REPEAT => owned(&["*]", "+]", "*C"]),
        HITS => owned(&["", "[=C"]),
        COUNTS => all_counts().map(counts_text).collect(),
        character => vec![char::from(character).to_string()],
    }
}

/// All that can be said of how many.
fn all_counts() -> impl Iterator<Item = Counts> {
    let pairs = (0..=LAST_COUNT).flat_map(|least| (0..=LAST_COUNT).map(move |most| (least, most)));
    pairs.filter_map(|(least, most)| Counts::of(least, most))
}

/// What is needed after the character, for every way that it can be taken; what is needed first stands last.
fn after(needed: &[u8], character: u8) -> Vec<Vec<u8>> {
    let Some((&symbol, later)) = needed.split_last() else {
        return Vec::new();
    };
    let taken = |way: String| match way.as_bytes() {
        [] => after(later, character),
        [first, rest @ ..] if *first == character => {
            let mut next = later.to_vec();
            next.extend(rest.iter().rev());
            vec![next]
        }
        _ => Vec::new(),
    };
    ways(symbol).into_iter().flat_map(taken).collect()
}

/// The length of the longest beginning that some rule text shares; nothing where the text is a rule's.
fn first_fault(text: &[u8]) -> Option<usize> {
    let mut possible = vec![vec![RULE]];
    for (place, &character) in text.iter().enumerate() {
        let taken = possible.iter().flat_map(|needed| after(needed, character));
        possible = taken.collect();
        if possible.is_empty() {
            return Some(place);
        }
    }
    let complete = |needed: &Vec<u8>| needed.iter().all(|&symbol| symbol == HITS);
    (!possible.iter().any(complete)).then_some(text.len())
}

/// The bytes of a text that is a rule's.
fn bytes_of_text(text: &[u8]) -> Vec<u8> {
    let mut bytes = Vec::new();
    let rest = rule_bytes(text, &mut bytes);
    debug_assert!(rest.is_empty());
    bytes
}

/// Takes a rule from the front of the text; what follows it comes back.
fn rule_bytes<'a>(text: &'a [u8], bytes: &mut Vec<u8>) -> &'a [u8] {
    match text[0] {
        b'[' => {
            bytes.push(0x11);
            &text[4..]
        }
        b'{' => {
            let kind = bytes.len();
            bytes.push(0);
            let rest = rule_bytes(&text[1..], bytes);
            let signs: [(&[u8], u8); 8] = [
                (b";", 0x12),
                (b":", 0x13),
                (b"|", 0x14),
                (b"&&", 0x16),
                (b"&", 0x15),
                (b"}[*]", 0x17),
                (b"}[+]", 0x18),
                (b"}[*", 0x19),
            ];
            let (sign, byte) = *signs
                .iter()
                .find(|(sign, _)| rest.starts_with(sign))
                .expect("a sign");
            bytes[kind] = byte;
            let rest = &rest[sign.len()..];
            match byte {
                0x17 | 0x18 => rest,
                0x19 => counts_bytes(rest, kind + 1, bytes),
                _ => &rule_bytes(rest, bytes)[1..],
            }
        }
        _ => {
            let kind = bytes.len();
            bytes.push(0x10);
            let rest = formula_bytes(text, bytes);
            match rest.strip_prefix(b"[=") {
                None => rest,
                Some(counts) => {
                    bytes[kind] = 0x1A;
                    counts_bytes(counts, kind + 1, bytes)
                }
            }
        }
    }
}

/// Takes counts from the front of the text; their bytes stand before the operand's.
fn counts_bytes<'a>(text: &'a [u8], place: usize, bytes: &mut Vec<u8>) -> &'a [u8] {
    let begins = |counts: &Counts| text.starts_with(counts_text(*counts).as_bytes());
    let counts = all_counts().find(begins).expect("counts");
    bytes.splice(place..place, [counts.least, counts.most]);
    &text[counts_text(counts).len()..]
}

/// Takes a formula from the front of the text.
fn formula_bytes<'a>(text: &'a [u8], bytes: &mut Vec<u8>) -> &'a [u8] {
    match text[0] {
        b'p' => {
            bytes.extend([0x01, text[1] - b'0']);
            &text[2..]
        }
        b't' => {
            bytes.push(0x02);
            &text[4..]
        }
        b'f' => {
            bytes.push(0x03);
            &text[5..]
        }
        b'!' => {
            bytes.push(0x04);
            formula_bytes(&text[1..], bytes)
        }
        _ => {
            let kind = bytes.len();
            bytes.push(0);
            let rest = formula_bytes(&text[1..], bytes);
            bytes[kind] = if rest[0] == b'&' { 0x05 } else { 0x06 };
            &formula_bytes(&rest[1..], bytes)[1..]
        }
    }
}

#[cfg(test)]
mod tests {
    use super::*;
    use std::collections::BTreeSet;

    /// All texts of at most so many characters over these words, by the request's words: `grown` says what one more
    /// operator makes of some texts.
    fn closed(
        words: &[&str],
        most: usize,
        grown: impl Fn(&str, &str) -> Vec<String>,
    ) -> BTreeSet<String> {
        let mut known: BTreeSet<String> = words.iter().map(|word| word.to_string()).collect();
        loop {
            let fits = |a: &str, b: &str| a.len() + b.len() < most;
            let pairs = known.iter().flat_map(|a| known.iter().map(move |b| (a, b)));
            let grown = pairs
                .filter(|(a, b)| fits(a, b))
                .flat_map(|(a, b)| grown(a, b));
            let more: Vec<String> = grown.filter(|text| text.len() <= most).collect();
            let count = known.len();
            known.extend(more);
            if known.len() == count {
                return known;
            }
        }
    }

    /// A few counts, as the whole of them would be too many texts.
    const A_FEW: [&str; 2] = ["0..1", "9..15"];

    fn texts(most: usize) -> BTreeSet<String> {
        let formulas = closed(&["p0", "p5", "true", "false"], most, |a, b| {
            vec![format!("!{a}"), format!("({a}&{b})"), format!("({a}|{b})")]
        });
        let mut words: Vec<&str> = formulas.iter().map(String::as_str).collect();
        let hits = |formula: &String| A_FEW.map(|counts| format!("{formula}[={counts}]"));
        let hits: Vec<String> = formulas.iter().flat_map(hits).collect();
        words.extend(hits.iter().map(String::as_str));
        words.push("[*0]");
        closed(&words, most, |a, b| {
            let pair = |sign| format!("{{{a}{sign}{b}}}");
            let mut more: Vec<String> = [";", ":", "|", "&", "&&"].map(pair).to_vec();
            more.extend([format!("{{{a}}}[*]"), format!("{{{a}}}[+]")]);
            more.extend(A_FEW.map(|counts| format!("{{{a}}}[*{counts}]")));
            more
        })
    }

    #[test]
    fn the_places_of_the_request() {
        let cases = [
            ("", 0),
            ("p0x", 2),
            ("{p0}", 4),
            ("{p0&&&p1}", 5),
            ("(p0&&p1)", 4),
            ("[*]", 2),
            ("tru", 3),
            ("p6", 1),
            ("p0[", 3),
            ("p0[=2..1", 8),
            ("p0[=2..1]", 8),
            ("p0[=3..2]", 7),
            ("p0[=16", 5),
            ("p0[=01", 5),
            ("p0[=12..11]", 9),
            ("p0[=1..16]", 8),
            ("p0[=0..015]", 8),
            ("p0[=1..0]", 7),
            ("p0[=0.]", 6),
            ("p0[=0..]", 7),
            ("p0[*0..1]", 3),
            ("(p0[=0..1]&p1)", 3),
            ("!p0[=0..1][", 10),
            ("{p0}[*0]", 7),
            ("{p0}[=0..1]", 5),
            ("{p0}[*3..2]", 9),
            ("{p0}[*10..9]", 10),
            ("[*0..1]", 3),
            ("[*0][=0..1]", 4),
            ("{p0}[*]x", 7),
        ];
        for (text, place) in cases {
            assert_eq!(first_fault(text.as_bytes()), Some(place), "{text}");
        }
    }

    #[test]
    fn short_texts_are_read_and_written_back() {
        for text in texts(9) {
            let read = read_text(text.as_bytes(), LONGEST_RULE).unwrap();
            let back = write_text(&read.written, LONGEST_TEXT).unwrap();
            assert_eq!(back.written, text.as_bytes());
        }
    }

    /// Every string of four characters after some beginnings, beside all texts of counts.
    #[test]
    fn counts_are_refused_where_no_counts_go_on() {
        const CHARACTERS: &[u8; 7] = b"01269.]";
        let texts: Vec<String> = all_counts().map(counts_text).collect();
        assert_eq!(texts.len(), 136);
        for (operator, given) in [
            ("p0[=", ""),
            ("p0[=", "2.."),
            ("p0[=", "12.."),
            ("{p0}[*", "1"),
            ("{p0}[*", "1.."),
        ] {
            for number in 0..CHARACTERS.len().pow(4) {
                let digit = |power| CHARACTERS[number / CHARACTERS.len().pow(power) % 7];
                let string: Vec<u8> = given.bytes().chain((0..4).map(digit)).collect();
                let shared = |n: &usize| {
                    texts
                        .iter()
                        .any(|text| text.as_bytes().starts_with(&string[..*n]))
                };
                let longest = (0..=string.len()).rev().find(shared);
                let place = longest.map(|n| operator.len() + n);
                match first_fault(&[operator.as_bytes(), &string].concat()) {
                    None => assert!(texts.iter().any(|text| text.as_bytes() == string)),
                    fault => assert_eq!(fault, place, "{operator} {string:?}"),
                }
            }
        }
    }

    #[test]
    fn counts_are_read_and_written_back() {
        for counts in all_counts() {
            let (text, Counts { least, most }) = (counts_text(counts), counts);
            let given = read_text(format!("!p5[={text}").as_bytes(), LONGEST_RULE).unwrap();
            assert_eq!(given.written, [0x1A, least, most, 0x04, 0x01, 5]);
            assert_eq!((given.weight, given.names), (u64::from(most) + 2, 1 << 5));
            let given = read_text(format!("{{p4}}[*{text}").as_bytes(), LONGEST_RULE).unwrap();
            assert_eq!(given.written, [0x19, least, most, 0x10, 0x01, 4]);
            assert_eq!(
                given.weight,
                u64::from(most).max(1) * if most == 0 { 1 } else { 2 }
            );
            let back = write_text(&given.written, LONGEST_TEXT).unwrap();
            assert_eq!(back.written, format!("{{p4}}[*{text}").as_bytes());
        }
    }

    /// What two characters begin can be completed within twelve.
    #[test]
    fn a_fault_ends_the_longest_shared_beginning() {
        let texts = texts(12);
        let shared = |part: &str| texts.iter().any(|text| text.starts_with(part));
        let alphabet = "p05x!(){}[]*+;&|true f";
        for a in alphabet.chars() {
            for b in alphabet.chars() {
                let string: String = [a, b].into_iter().collect();
                let longest = (0..=2).rev().find(|&n| shared(&string[..n]));
                match first_fault(string.as_bytes()) {
                    Some(place) => assert_eq!(Some(place), longest, "{string}"),
                    None => assert!(texts.contains(&string)),
                }
            }
        }
    }
}
