//! The reader of models as text.
//!
//! ```text
//! propositions expire thin write        # names for p0, p1, p2; optional
//! state idle initial: expire -> idle busy
//! state busy: thin -> busy done
//! state done: write -> idle
//! ```
//!
//! Or two formulas in the place of the states:
//!
//! ```text
//! initial: (expire & !thin)
//! step: (next(thin) | !expire)
//! ```

use super::formulas::{model_of, Stated, NEXT_WORD};
use super::lines::{Line, Token};
use super::{RECORD, STATE_KIND};
use crate::names::{clash, in_words, is_name, Names, PROPOSITIONS};
use crate::trouble::Trouble;
use gongcollar::STATES;

/// The words with which lines begin; one of them marks an initial state, too.
pub const PROPOSITIONS_WORD: &str = "propositions";
pub const STATE_WORD: &str = "state";
pub const INITIAL_WORD: &str = "initial";
pub const STEP_WORD: &str = "step";

/// What a text says.
#[derive(Debug, Clone, PartialEq, Eq)]
pub struct Read {
    /// The model in the house form.
    pub bytes: Vec<u8>,
    /// What its propositions and states are called.
    pub names: Names,
    /// The set of the propositions that the formulas name, if formulas say the model.
    pub named: Option<u64>,
}

/// Reads a text.
pub fn read(source: &str, text: &str) -> Result<Read, Trouble> {
    let mut said = Said::default();
    for (number, line) in text.lines().enumerate() {
        let line = Line::new(source, number + 1, line);
        said.take(&line)?;
    }
    match said {
        Said {
            initial: Some(initial),
            step: Some(step),
            ..
        } => stated(&initial, &step, said.propositions.given()),
        Said {
            initial: None,
            step: None,
            ..
        } => drawn(source, said),
        Said { initial, .. } => {
            let missing = initial.map_or(INITIAL_WORD, |_| STEP_WORD);
            let what = format!("{source}: there is no line `{missing}: FORMULA`");
            Err(Trouble::new(what).hint(TWO_FORMULAS))
        }
    }
}

const TWO_FORMULAS: &str =
    "a model by formulas has one line `initial: FORMULA` and one line `step: FORMULA`";
const NOT_BOTH: &str =
    "a model has lines for its states, or the two lines `initial:` and `step:`, and not both";

/// The model that two formulas say.
fn stated(initial: &Stated, step: &Stated, propositions: Vec<String>) -> Result<Read, Trouble> {
    Ok(Read {
        bytes: model_of(initial, step)?,
        names: Names::by_letter(propositions),
        named: Some(initial.named() | step.named()),
    })
}

/// The model that was drawn.
fn drawn(source: &str, said: Said) -> Result<Read, Trouble> {
    if said.states.is_empty() {
        return Err(Trouble::new(format!("{source}: there is no state"))
            .hint("expected a line for each, as `state idle initial: p0 -> idle`")
            .hint("or two formulas, as `initial: p0` and `step: next(p0)`"));
    }
    said.finish()
}

/// The words and signs of a line that draws.
fn words<'a>(line: &Line<'a>) -> Result<Vec<Token<'a>>, Trouble> {
    let parts = line.parts(0, length);
    let fits = |part: &&Token| [":", "->"].contains(&part.text) || part.text.starts_with(in_words);
    match parts.iter().find(|part| !fits(part)) {
        Some(&other) => Err(line
            .trouble(other, format!("`{}` has no meaning here", other.text))
            .hint("expected words of letters a to z, digits and _, and the signs `:` and `->`")),
        None => Ok(parts),
    }
}

/// The length of the first word, sign, blank or other character.
fn length(rest: &str) -> usize {
    let word = rest.find(|c| !in_words(c)).unwrap_or(rest.len());
    match rest.chars().next() {
        _ if word > 0 => word,
        Some('-') if rest.starts_with("->") => 2,
        Some(first) => first.len_utf8(),
        None => 0,
    }
}

/// A state's line, its successors still words.
#[derive(Debug)]
struct Drawn<'a> {
    line: Line<'a>,
    letter: u8,
    initial: bool,
    successors: Vec<Token<'a>>,
}

/// The line that names propositions.
#[derive(Debug, Default)]
struct Named<'a> {
    line: Option<Line<'a>>,
    words: Vec<Token<'a>>,
}

impl Named<'_> {
    fn given(&self) -> Vec<String> {
        self.words.iter().map(|word| word.text.into()).collect()
    }
}

/// What was read so far.
#[derive(Debug, Default)]
struct Said<'a> {
    propositions: Named<'a>,
    names: Vec<Option<String>>,
    states: Vec<Drawn<'a>>,
    initial: Option<Stated<'a>>,
    step: Option<Stated<'a>>,
}

impl<'a> Said<'a> {
    /// Takes one line. What later kinds of lines there are has its place here.
    fn take(&mut self, line: &Line<'a>) -> Result<(), Trouble> {
        let Some(&first) = line.parts(0, length).first() else {
            return Ok(());
        };
        match first.text {
            PROPOSITIONS_WORD => self.take_propositions(line, first, &words(line)?[1..]),
            STATE_WORD => self.take_state(line, first, &words(line)?[1..]),
            INITIAL_WORD | STEP_WORD => self.take_formula(line, first),
            other => {
                words(line)?;
                Err(line
                    .trouble(first, format!("`{other}` begins no line of a model"))
                    .hint("expected `propositions`, `state`, `initial` or `step`"))
            }
        }
    }

    fn take_formula(&mut self, line: &Line<'a>, first: Token<'a>) -> Result<(), Trouble> {
        if let Some(state) = self.states.first() {
            return Err(line
                .trouble(first, "a formula stands beside states")
                .hint(format!(
                    "{NOT_BOTH}; the states begin in line {}",
                    state.line.number
                )));
        }
        let before = match first.text {
            INITIAL_WORD => &self.initial,
            _ => &self.step,
        };
        if let Some(before) = before {
            let what = format!("a second line `{}:`", first.text);
            let hint = format!(
                "{TWO_FORMULAS}; the other stands in line {}",
                before.line().number
            );
            return Err(line.trouble(first, what).hint(hint));
        }
        self.check_next()?;
        let names = Names::by_letter(self.propositions.given());
        let stated = Some(Stated::read(line, first, &names)?);
        match first.text {
            INITIAL_WORD => self.initial = stated,
            _ => self.step = stated,
        }
        Ok(())
    }

    /// In formulas `next` is a word of its own.
    fn check_next(&self) -> Result<(), Trouble> {
        let Named { line, words } = &self.propositions;
        let clashes = |word: &&Token| word.text.eq_ignore_ascii_case(NEXT_WORD);
        match (line, words.iter().find(clashes)) {
            (Some(line), Some(&word)) => Err(line
                .trouble(
                    word,
                    format!(
                        "`{}` is a word of formulas, so it cannot name a proposition",
                        word.text
                    ),
                )
                .hint("expected another name")),
            _ => Ok(()),
        }
    }

    fn take_propositions(
        &mut self,
        line: &Line<'a>,
        first: Token<'a>,
        words: &[Token<'a>],
    ) -> Result<(), Trouble> {
        if self.propositions.line.is_some() {
            return Err(line.trouble(first, "the propositions were named before"));
        }
        if !self.states.is_empty() {
            let what = "propositions are named before the first state";
            return Err(line.trouble(first, what));
        }
        if self.initial.is_some() || self.step.is_some() {
            let what = "propositions are named before the formulas";
            return Err(line.trouble(first, what));
        }
        for (at, &word) in words.iter().enumerate() {
            self.check_proposition(line, word, &words[..at])?;
        }
        if words.is_empty() {
            return Err(line.trouble(line.end(), "expected the name of p0, then that of p1"));
        }
        self.propositions = Named {
            line: Some(*line),
            words: words.to_vec(),
        };
        Ok(())
    }

    fn check_proposition(
        &self,
        line: &Line<'a>,
        word: Token<'a>,
        before: &[Token<'a>],
    ) -> Result<(), Trouble> {
        if before.len() == PROPOSITIONS {
            let what = format!("there are {PROPOSITIONS} propositions, and no more");
            return Err(line.trouble(word, what));
        }
        if !is_name(word.text) {
            return Err(line
                .trouble(word, format!("`{}` is no name", word.text))
                .hint(NAMES));
        }
        if let Some(clash) = clash(word.text, before.len()) {
            return Err(line.trouble(word, clash).hint("expected another name"));
        }
        if before.iter().any(|name| name.text == word.text) {
            let what = format!("`{}` names two propositions", word.text);
            return Err(line.trouble(word, what));
        }
        Ok(())
    }

    fn take_state(
        &mut self,
        line: &Line<'a>,
        first: Token<'a>,
        words: &[Token<'a>],
    ) -> Result<(), Trouble> {
        if let Some(formula) = self.initial.as_ref().or(self.step.as_ref()) {
            return Err(line
                .trouble(first, "a state stands beside formulas")
                .hint(format!(
                    "{NOT_BOTH}; a formula stands in line {}",
                    formula.line().number
                )));
        }
        if self.states.len() == STATES {
            let what = format!("a model has at most {STATES} states");
            return Err(line.trouble(first, what));
        }
        let mut words = Words { line, words, at: 0 };
        let name = self.take_name(&mut words)?;
        let initial = words.takes(INITIAL_WORD);
        let before_colon = match (&name, initial) {
            (_, true) => "`:`",
            (Some(_), false) => "`initial` or `:`",
            (None, false) => "a name, `initial` or `:`",
        };
        words.needs(":", before_colon)?;
        let names = Names::new(self.propositions.given(), Vec::new());
        let letter = take_letter(&mut words, &names)?;
        words.needs("->", &format!("{}, or `->`", names.propositions_in_words()))?;
        let successors = take_successors(&mut words)?;
        self.names.push(name);
        self.states.push(Drawn {
            line: *line,
            letter,
            initial,
            successors,
        });
        Ok(())
    }

    /// The state's name, if there is one. Its number may stand there as well.
    fn take_name(&self, words: &mut Words<'a, '_>) -> Result<Option<String>, Trouble> {
        let (line, number) = (words.line, self.states.len());
        let Some(word) = words.next_if(|text| text.starts_with(in_words) && text != INITIAL_WORD)
        else {
            return Ok(None);
        };
        let name = word.text;
        if name == number.to_string() {
            return Ok(None);
        }
        if name.bytes().all(|byte| byte.is_ascii_digit()) {
            let what = format!("this is state {number}, and not {name}: states are counted from 0");
            return Err(line.trouble(word, what));
        }
        if !is_name(name) {
            return Err(line
                .trouble(word, format!("`{name}` is no name"))
                .hint(NAMES));
        }
        if self.names.iter().flatten().any(|other| other == name) {
            return Err(line.trouble(word, format!("two states are called `{name}`")));
        }
        Ok(Some(name.into()))
    }

    /// Finds the successors, which may stand before their states, and makes the bytes.
    fn finish(self) -> Result<Read, Trouble> {
        let mut bytes = Vec::with_capacity(RECORD * self.states.len());
        for state in &self.states {
            let successors = self.successors(state)?;
            bytes.extend([STATE_KIND, state.letter, u8::from(state.initial)]);
            bytes.extend(successors.to_le_bytes());
        }
        Ok(Read {
            bytes,
            names: Names::new(self.propositions.given(), self.names),
            named: None,
        })
    }

    fn successors(&self, state: &Drawn<'a>) -> Result<u64, Trouble> {
        let mut set = 0;
        for &word in &state.successors {
            let Some(successor) = self.find(word.text) else {
                return Err(state
                    .line
                    .trouble(word, format!("no state is called `{}`", word.text))
                    .hint(format!(
                        "expected one of: {}, or a state's number",
                        self.callings().join(", ")
                    )));
            };
            let bit = 1u64 << successor;
            if set & bit != 0 {
                let what = format!("`{}` stands here twice", word.text);
                return Err(state.line.trouble(word, what));
            }
            set |= bit;
        }
        Ok(set)
    }

    /// The state that a word means: its name, or its number.
    fn find(&self, word: &str) -> Option<usize> {
        let named = self
            .names
            .iter()
            .position(|name| name.as_deref() == Some(word));
        let number = || (0..self.states.len()).find(|number| number.to_string() == word);
        named.or_else(number)
    }

    fn callings(&self) -> Vec<String> {
        let names = Names::new(Vec::new(), self.names.clone());
        (0..self.states.len())
            .map(|state| names.state(state))
            .collect()
    }
}

const NAMES: &str = "a name has letters a to z, digits and _, and begins with no digit";

/// The words of a line that are still to be read.
struct Words<'a, 'b> {
    line: &'b Line<'a>,
    words: &'b [Token<'a>],
    at: usize,
}

impl<'a> Words<'a, '_> {
    fn next_if(&mut self, wanted: impl Fn(&str) -> bool) -> Option<Token<'a>> {
        let word = *self.words.get(self.at)?;
        wanted(word.text).then(|| {
            self.at += 1;
            word
        })
    }

    fn takes(&mut self, text: &str) -> bool {
        self.next_if(|next| next == text).is_some()
    }

    /// Takes what has to stand here.
    fn needs(&mut self, text: &str, expected: &str) -> Result<(), Trouble> {
        if self.takes(text) {
            return Ok(());
        }
        Err(self.unexpected().hint(format!("expected {expected}")))
    }

    fn unexpected(&self) -> Trouble {
        self.line.unexpected(self.words.get(self.at).copied())
    }
}

/// The propositions of a state.
fn take_letter(words: &mut Words, names: &Names) -> Result<u8, Trouble> {
    let mut letter = 0;
    while let Some(word) = words.next_if(|text| text.starts_with(in_words)) {
        let Some(proposition) = names.find_proposition(word.text) else {
            let what = format!("no proposition is called `{}`", word.text);
            let expected = format!("expected {}, or `->`", names.propositions_in_words());
            return Err(words.line.trouble(word, what).hint(expected));
        };
        let bit = 1 << proposition;
        if letter & bit != 0 {
            let what = format!("`{}` holds here already", word.text);
            return Err(words.line.trouble(word, what));
        }
        letter |= bit;
    }
    Ok(letter)
}

/// All that is left, which has to be words.
fn take_successors<'a>(words: &mut Words<'a, '_>) -> Result<Vec<Token<'a>>, Trouble> {
    let mut successors = Vec::new();
    while let Some(word) = words.next_if(|text| text.starts_with(in_words)) {
        successors.push(word);
    }
    match words.at == words.words.len() {
        true => Ok(successors),
        false => Err(words
            .unexpected()
            .hint("expected a state, or the line's end")),
    }
}
