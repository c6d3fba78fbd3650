//! The reader of formulas: `(written & !next(deleted))` becomes bytes, which the proved call makes a model of.
//!
//! It goes over the words and signs once, and nothing in it calls itself, however deep a formula is.

use super::lines::{Line, Token};
use super::reader::INITIAL_WORD;
use crate::names::{in_words, Names};
use crate::trouble::Trouble;
use gongcollar::{formula_model, Refusal, FORMULAS_BYTES};

/// The word for a proposition of the next state.
pub const NEXT_WORD: &str = "next";

const PROPOSITION_KIND: u8 = 0x01;
const TRUE_KIND: u8 = 0x02;
const FALSE_KIND: u8 = 0x03;
const NOT_KIND: u8 = 0x04;
const AND_KIND: u8 = 0x05;
const OR_KIND: u8 = 0x06;
const NEXT_KIND: u8 = 0x07;
const INITIAL_KIND: u8 = 0x30;
const STEP_KIND: u8 = 0x31;

// What helps where something else has to stand.
const ONE: &str = "`next(..)` has one proposition in it; a sign stands before it, as `!next(p0)`";
const JOINED: &str = "two formulas are joined in brackets of their own, as `(f&g)` and `((f&g)&h)`";
const BRACKETS: &str =
    "brackets stand around two formulas with a sign between, and around the name in `next(..)`";
const SIGNS: &str = "the signs are one `&` and one `|`, each between two formulas";
const IMPLIES: &str = "the signs are `!`, `&` and `|`: that f implies g is `(!f|g)`";
const BYTES: &str = "a proposition is two bytes, with `next` or without; `true`, `false`, `!`, `&`, `|` and the line's \
                     first word are one each";

/// A line that says a formula: its bytes in the house form, and what each of them was made of.
#[derive(Debug)]
pub struct Stated<'a> {
    line: Line<'a>,
    bytes: Vec<u8>,
    typed: Vec<Token<'a>>,
    named: u64,
}

impl<'a> Stated<'a> {
    /// Reads a line that begins with this word.
    pub fn read(line: &Line<'a>, word: Token<'a>, names: &Names) -> Result<Stated<'a>, Trouble> {
        let mut reader = Reader {
            names,
            parts: line.parts(word.end(), length),
            at: 0,
            open: Vec::new(),
            stated: Stated {
                line: *line,
                bytes: Vec::new(),
                typed: Vec::new(),
                named: 0,
            },
            is_step: word.text != INITIAL_WORD,
        };
        let kind = if reader.is_step {
            STEP_KIND
        } else {
            INITIAL_KIND
        };
        reader.stated.push(kind, word);
        reader.needs(&[":"], "`:`")?;
        while !reader.takes_part()? {}
        Ok(reader.stated)
    }

    /// The line.
    pub fn line(&self) -> &Line<'a> {
        &self.line
    }

    /// The set of the propositions that it names, now or next.
    pub fn named(&self) -> u64 {
        self.named
    }

    fn push(&mut self, byte: u8, typed: Token<'a>) {
        self.bytes.push(byte);
        self.typed.push(typed);
    }
}

/// The model that two formulas say, as the proved call writes it.
pub fn model_of(initial: &Stated, step: &Stated) -> Result<Vec<u8>, Trouble> {
    let formulas = [&initial.bytes[..], &step.bytes].concat();
    match formula_model(&formulas) {
        Ok(model) => Ok(model.bytes().to_vec()),
        Err(refusal) => Err(explain(refusal, initial, step)),
    }
}

/// A refusal of the proved call in terms of what was typed.
fn explain(refusal: Refusal, initial: &Stated, step: &Stated) -> Trouble {
    let (first, second) = (initial.bytes.len(), step.bytes.len());
    // A place is an offset in the formulas' bytes.
    let refused = |place: usize, says: &str| {
        let (stated, at) = match place.checked_sub(first) {
            Some(at) => (step, at),
            None => (initial, place),
        };
        let typed = stated.typed.get(at).copied();
        let what = format!("refused {}: {says}", refusal.number());
        stated
            .line
            .trouble(typed.unwrap_or(stated.line.end()), what)
    };
    match refusal {
        Refusal::FormulasTooLong { .. } => refused(FORMULAS_BYTES, refusal.says())
            .hint(format!(
                "this is where byte {} would stand; `initial:` has {first} and `step:` {second}",
                FORMULAS_BYTES + 1
            ))
            .hint(BYTES),
        Refusal::WrongSort { place } => {
            refused(place as usize, "`initial:` says nothing of a next state")
                .hint("`next(..)` stands in the line `step:` alone")
        }
        _ => Trouble::slip(format!("the formulas made of the text are {refusal}")),
    }
}

/// Letters of all kinds hang together, so that no part of a word is taken for a name.
fn in_formula_words(c: char) -> bool {
    c.is_alphanumeric() || in_words(c)
}

/// The length of the first word or other character.
fn length(rest: &str) -> usize {
    match rest.find(|c| !in_formula_words(c)).unwrap_or(rest.len()) {
        0 => rest.chars().next().map_or(0, char::len_utf8),
        word => word,
    }
}

/// A bracket that is still open: where the byte of its sign stands, and whether the sign was read.
#[derive(Debug)]
struct Open {
    at: usize,
    signed: bool,
}

struct Reader<'a, 'b> {
    names: &'b Names,
    parts: Vec<Token<'a>>,
    at: usize,
    open: Vec<Open>,
    stated: Stated<'a>,
    is_step: bool,
}

impl<'a> Reader<'a, '_> {
    /// Takes one part where a formula is needed, and all that closes behind it. Answers whether the line is at its end.
    fn takes_part(&mut self) -> Result<bool, Trouble> {
        let Some(part) = self.next() else {
            return Err(self.no_formula(None));
        };
        match part.text {
            "!" => {
                self.stated.push(NOT_KIND, part);
                return Ok(false);
            }
            "(" => {
                let at = self.stated.bytes.len();
                self.open.push(Open { at, signed: false });
                // The sign's byte comes to stand here.
                self.stated.push(0, part);
                return Ok(false);
            }
            "true" => self.stated.push(TRUE_KIND, part),
            "false" => self.stated.push(FALSE_KIND, part),
            NEXT_WORD => self.take_next(part).map_err(|trouble| trouble.hint(ONE))?,
            word if word.starts_with(in_formula_words) => {
                self.take_proposition(PROPOSITION_KIND, part, part)?;
            }
            _ => return Err(self.no_formula(Some(part))),
        }
        self.close()
    }

    /// `next(p0)`.
    fn take_next(&mut self, word: Token<'a>) -> Result<(), Trouble> {
        self.needs(&["("], "`(`")?;
        let Some(name) = self.next() else {
            return Err(self.stated.line.unexpected(None).hint(self.propositions()));
        };
        let end = self.parts.get(self.at).map_or(name.end(), Token::end);
        let whole = self.stated.line.stretch(word.start, end);
        self.take_proposition(NEXT_KIND, name, whole)?;
        self.needs(&[")"], "`)`")?;
        Ok(())
    }

    fn take_proposition(
        &mut self,
        kind: u8,
        name: Token<'a>,
        whole: Token<'a>,
    ) -> Result<(), Trouble> {
        let Some(number) = self.names.find_proposition(name.text) else {
            let line = &self.stated.line;
            let trouble = match name.text.starts_with(in_formula_words) {
                true => line.trouble(name, format!("no proposition is called `{}`", name.text)),
                false => line.unexpected(Some(name)),
            };
            return Err(trouble.hint(match kind {
                NEXT_KIND => self.propositions(),
                _ => self.formulas(),
            }));
        };
        self.stated.named |= 1 << number;
        self.stated.push(kind, whole);
        // A number of a proposition is at most 5.
        self.stated.push(number as u8, whole);
        Ok(())
    }

    /// A formula is complete: the brackets that it closes, and the sign before the next one, or the line's end.
    fn close(&mut self) -> Result<bool, Trouble> {
        while let Some(Open { at, signed }) = self.open.pop() {
            let hint = self.sign_hint();
            if signed {
                self.needs(&[")"], "`)`").map_err(hint)?;
                continue;
            }
            let sign = self.needs(&["&", "|"], "`&` or `|`").map_err(hint)?;
            self.stated.bytes[at] = if sign.text == "&" { AND_KIND } else { OR_KIND };
            self.stated.typed[at] = sign;
            self.open.push(Open { at, signed: true });
            return Ok(false);
        }
        let hint = self.sign_hint();
        match self.next() {
            None => Ok(true),
            Some(part) => Err(hint(self.unexpected(Some(part), "the line's end"))),
        }
    }

    fn next(&mut self) -> Option<Token<'a>> {
        let part = self.parts.get(self.at).copied();
        self.at += 1;
        part
    }

    /// Takes what has to stand here.
    fn needs(&mut self, texts: &[&str], expected: &str) -> Result<Token<'a>, Trouble> {
        match self.next() {
            Some(part) if texts.contains(&part.text) => Ok(part),
            other => Err(self.unexpected(other, expected)),
        }
    }

    fn unexpected(&self, part: Option<Token>, expected: &str) -> Trouble {
        let trouble = self.stated.line.unexpected(part);
        trouble.hint(format!("expected {expected}"))
    }

    /// What helps if the next sign cannot stand behind a formula.
    fn sign_hint(&self) -> fn(Trouble) -> Trouble {
        match self.parts.get(self.at).map_or("", |part| part.text) {
            "&" | "|" => |trouble| trouble.hint(JOINED),
            ")" => |trouble| trouble.hint(BRACKETS),
            "-" | "=" | "<" | ">" => |trouble| trouble.hint(IMPLIES),
            _ => |trouble| trouble,
        }
    }

    /// What stands where a formula has to begin.
    fn no_formula(&self, part: Option<Token>) -> Trouble {
        let trouble = self.stated.line.unexpected(part).hint(self.formulas());
        match part.map_or("", |part| part.text) {
            "&" | "|" => trouble.hint(SIGNS),
            "-" | "=" | "<" | ">" => trouble.hint(IMPLIES),
            _ => trouble,
        }
    }

    fn propositions(&self) -> String {
        format!("expected {}", self.names.propositions_in_words())
    }

    fn formulas(&self) -> String {
        let next = if self.is_step { " `next(`," } else { "" };
        format!("{},{next} `!`, `(`, `false`, `true`", self.propositions())
    }
}
