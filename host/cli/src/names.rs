//! Names for propositions and states. Everything proved knows numbers alone.

use gongcollar::STATES;

/// How many propositions there are.
pub const PROPOSITIONS: usize = 6;
/// How many states are told where each letter is one.
const SOME: usize = 6;

/// The names of a model. What has none is called by its number: `p3`, or `3` for a state.
#[derive(Debug, Clone, Default, PartialEq, Eq)]
pub struct Names {
    propositions: Vec<String>,
    states: Callings,
}

/// What the states of a model are called.
#[derive(Debug, Clone, PartialEq, Eq)]
enum Callings {
    /// By a name, those that have one.
    Names(Vec<Option<String>>),
    /// By what holds in them: each letter is a state.
    Letters,
}

impl Default for Callings {
    fn default() -> Callings {
        Callings::Names(Vec::new())
    }
}

/// What every proposition is called too.
pub fn numbered(proposition: usize) -> String {
    format!("p{proposition}")
}

/// Whether a word can be a name: ASCII letters, digits and `_`, no digit first.
pub fn is_name(word: &str) -> bool {
    word.starts_with(|c: char| c.is_ascii_alphabetic() || c == '_') && word.chars().all(in_words)
}

/// Whether a character can stand in a word.
pub fn in_words(c: char) -> bool {
    c.is_ascii_alphanumeric() || c == '_'
}

/// Why a word cannot name a proposition, if it cannot: in a rule it would be read as something else, or be taken for it.
pub fn clash(word: &str, proposition: usize) -> Option<String> {
    let lower = word.to_ascii_lowercase();
    if lower == "true" || lower == "false" {
        return Some(format!(
            "`{word}` is a word of rules, so it cannot name a proposition"
        ));
    }
    let digits = lower.strip_prefix('p').unwrap_or("");
    let number = !digits.is_empty() && digits.bytes().all(|byte| byte.is_ascii_digit());
    (number && word != numbered(proposition)).then(|| {
        format!(
            "`{word}` reads as a proposition's number, so it cannot name proposition {proposition}"
        )
    })
}

impl Names {
    /// Names of propositions, the first for p0, and of states.
    pub fn new(propositions: Vec<String>, states: Vec<Option<String>>) -> Names {
        Names {
            propositions,
            states: Callings::Names(states),
        }
    }

    /// Names of propositions, for a model in which each letter is a state and is called so: `{expire thin}`.
    pub fn by_letter(propositions: Vec<String>) -> Names {
        Names {
            propositions,
            states: Callings::Letters,
        }
    }

    /// What a proposition is called.
    pub fn proposition(&self, proposition: usize) -> String {
        match self.propositions.get(proposition) {
            Some(name) => name.clone(),
            None => numbered(proposition),
        }
    }

    /// What a state is called.
    pub fn state(&self, state: usize) -> String {
        match self.states {
            // A state is below 64.
            Callings::Letters => self.letter(state as u8),
            Callings::Names(_) => self.state_word(state),
        }
    }

    /// The word for a state in a model's text: its name, or its number.
    pub fn state_word(&self, state: usize) -> String {
        match self.state_name(state) {
            Some(name) => name.to_string(),
            None => state.to_string(),
        }
    }

    /// The state's name, if it has one.
    pub fn state_name(&self, state: usize) -> Option<&str> {
        match &self.states {
            Callings::Letters => None,
            Callings::Names(names) => names.get(state).and_then(|name| name.as_deref()),
        }
    }

    /// Whether each letter is a state, and is called so.
    pub fn are_letters(&self) -> bool {
        self.states == Callings::Letters
    }

    /// A state of a run: what it is called, and what holds in it, once if that is the same.
    pub fn state_with_letter(&self, state: usize, letter: u8) -> String {
        match self.states {
            Callings::Letters => self.state(state),
            Callings::Names(_) => format!("{} {}", self.state(state), self.letter(letter)),
        }
    }

    /// A state where its number alone would not say that it is one.
    pub fn state_in_words(&self, state: usize) -> String {
        match (&self.states, self.state_name(state)) {
            (Callings::Names(_), None) => format!("state {state}"),
            _ => self.state(state),
        }
    }

    /// The names that were given to propositions, the first for p0.
    pub fn given(&self) -> &[String] {
        &self.propositions
    }

    /// The proposition that a word means.
    pub fn find_proposition(&self, word: &str) -> Option<usize> {
        (0..PROPOSITIONS).find(|&number| {
            word == numbered(number)
                || self
                    .propositions
                    .get(number)
                    .is_some_and(|name| name == word)
        })
    }

    /// The names of the propositions in a set.
    pub fn members(&self, set: u64) -> Vec<String> {
        (0..PROPOSITIONS)
            .filter(|number| set >> number & 1 == 1)
            .map(|number| self.proposition(number))
            .collect()
    }

    /// A letter as the set of what holds in it: `{expire thin}`.
    pub fn letter(&self, letter: u8) -> String {
        format!("{{{}}}", self.members(letter.into()).join(" "))
    }

    /// The names of the states in a set.
    pub fn states(&self, set: u64) -> Vec<String> {
        (0..STATES)
            .filter(|state| set >> state & 1 == 1)
            .map(|state| self.state(state))
            .collect()
    }

    /// The same, where there may be many: the first of them, and how many others there are.
    pub fn some_states(&self, set: u64, called: impl Fn(usize) -> String) -> String {
        let members: Vec<usize> = (0..STATES).filter(|state| set >> state & 1 == 1).collect();
        let some = match self.states {
            Callings::Letters => members.len().min(SOME),
            Callings::Names(_) => members.len(),
        };
        let mut said: Vec<String> = members[..some].iter().map(|&state| called(state)).collect();
        match members.len() - some {
            0 => {}
            1 => said.push("and 1 other".into()),
            others => said.push(format!("and {others} others")),
        }
        said.join(", ")
    }

    /// What can be written for a proposition, in words.
    pub fn propositions_in_words(&self) -> String {
        let numbers = format!("p0 to p{}", PROPOSITIONS - 1);
        match self.propositions.as_slice() {
            [] => numbers,
            names => format!("{} or {numbers}", names.join(", ")),
        }
    }
}

#[cfg(test)]
mod tests {
    use super::*;

    fn names() -> Names {
        let propositions = ["expire", "p1", "write"].map(String::from).to_vec();
        Names::new(propositions, vec![Some("idle".into()), None])
    }

    #[test]
    fn what_has_no_name_has_its_number() {
        let names = names();
        assert_eq!(names.letter(0b1111), "{expire p1 write p3}");
        assert_eq!(names.letter(0), "{}");
        assert_eq!(names.states(0b111), ["idle", "1", "2"]);
        assert_eq!(names.find_proposition("write"), Some(2));
        assert_eq!(names.find_proposition("p2"), Some(2));
        assert_eq!(names.find_proposition("p6"), None);
        assert_eq!(names.find_proposition("Write"), None);
    }

    #[test]
    fn words_of_rules_are_no_names() {
        for word in ["true", "False", "p3", "P0", "p6", "p10", "p00"] {
            assert!(clash(word, 0).is_some(), "{word}");
        }
        for word in ["p0", "p", "p1x", "trues", "expire", "_p1"] {
            assert_eq!(clash(word, 0), None, "{word}");
        }
    }

    #[test]
    fn names_are_ascii() {
        assert!(is_name("a_1") && is_name("_"));
        for word in ["", "1a", "a-b", "\u{440}0", "a b"] {
            assert!(!is_name(word), "{word}");
        }
    }
}
