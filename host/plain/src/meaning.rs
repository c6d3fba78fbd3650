//! Definition 2: which sequences a rule accepts, found by splitting them.

use crate::rule::{Rule, LAST_COUNT};

/// Whether the rule accepts the letters, by Definition 2.
pub fn accepts(rule: &Rule, letters: &[u8]) -> bool {
    Subrule::new(rule, letters).accepts(0, letters.len())
}

/// A rule inside the rule, with what is already known of the parts of the letters that it accepts.
///
/// Splitting asks for the same part again and again; each answer is found once and remembered.
struct Subrule<'a> {
    rule: &'a Rule,
    letters: &'a [u8],
    operands: Vec<Subrule<'a>>,
    accepted: Memory,
    repeated: Memory,
    /// Rows of as many parts as the index says.
    rows: Vec<Memory>,
}

impl<'a> Subrule<'a> {
    /// Nothing is known yet.
    fn new(rule: &'a Rule, letters: &'a [u8]) -> Subrule<'a> {
        let operands = operands(rule)
            .into_iter()
            .map(|operand| Subrule::new(operand, letters))
            .collect();
        Subrule {
            rule,
            letters,
            operands,
            accepted: Memory::new(letters.len()),
            repeated: Memory::new(letters.len()),
            rows: (0..=LAST_COUNT)
                .map(|_| Memory::new(letters.len()))
                .collect(),
        }
    }

    /// Whether the rule accepts the part from the first index up to, not including, the second.
    fn accepts(&mut self, from: usize, to: usize) -> bool {
        if let Some(known) = self.accepted.recall(from, to) {
            return known;
        }
        let answer = self.judge(from, to);
        self.accepted.keep(from, to, answer);
        answer
    }

    /// The lines of Definition 2, one for each operator.
    fn judge(&mut self, from: usize, to: usize) -> bool {
        match self.rule {
            Rule::Empty => from == to,
            Rule::Letter(formula) => to == from + 1 && formula.holds(self.letters[from]),
            Rule::Then(..) => (from..=to).any(|cut| self.first(from, cut) && self.second(cut, to)),
            Rule::Overlap(..) => {
                (from..to).any(|shared| self.first(from, shared + 1) && self.second(shared, to))
            }
            Rule::Or(..) => self.first(from, to) || self.second(from, to),
            Rule::LooseAnd(..) => {
                (self.first(from, to) && (from..=to).any(|cut| self.second(from, cut)))
                    || (self.second(from, to) && (from..=to).any(|cut| self.first(from, cut)))
            }
            Rule::EqualAnd(..) => self.first(from, to) && self.second(from, to),
            Rule::Star(_) => self.repeats(from, to),
            Rule::Plus(_) => (from..=to).any(|cut| self.first(from, cut) && self.repeats(cut, to)),
            Rule::Counted(counts, _) => counts.numbers().any(|parts| self.row(parts, from, to)),
            Rule::Hits(counts, formula) => {
                let letters = &self.letters[from..to];
                let satisfy = letters.iter().filter(|&&letter| formula.holds(letter));
                counts.numbers().contains(&satisfy.count())
            }
        }
    }

    /// Whether the first operand accepts the part.
    fn first(&mut self, from: usize, to: usize) -> bool {
        self.operands[0].accepts(from, to)
    }

    /// Whether the second operand accepts the part.
    fn second(&mut self, from: usize, to: usize) -> bool {
        self.operands[1].accepts(from, to)
    }

    /// Whether `[*]` of the operand accepts the part; `[+]` leans on it too.
    fn repeats(&mut self, from: usize, to: usize) -> bool {
        if let Some(known) = self.repeated.recall(from, to) {
            return known;
        }
        let answer =
            from == to || (from + 1..=to).any(|cut| self.first(from, cut) && self.repeats(cut, to));
        self.repeated.keep(from, to, answer);
        answer
    }

    /// Whether so many parts in a row, which the operand accepts, are the part; some of them may be empty.
    fn row(&mut self, parts: usize, from: usize, to: usize) -> bool {
        if parts == 0 {
            return from == to;
        }
        if let Some(known) = self.rows[parts].recall(from, to) {
            return known;
        }
        let answer = (from..=to).any(|cut| self.first(from, cut) && self.row(parts - 1, cut, to));
        self.rows[parts].keep(from, to, answer);
        answer
    }
}

/// The rules that a rule is made of, none, one or two.
fn operands(rule: &Rule) -> Vec<&Rule> {
    match rule {
        Rule::Letter(_) | Rule::Empty | Rule::Hits(..) => vec![],
        Rule::Then(a, b)
        | Rule::Overlap(a, b)
        | Rule::Or(a, b)
        | Rule::LooseAnd(a, b)
        | Rule::EqualAnd(a, b) => vec![a, b],
        Rule::Star(a) | Rule::Plus(a) | Rule::Counted(_, a) => vec![a],
    }
}

/// Answers about parts of the letters.
struct Memory {
    ends: usize,
    answers: Vec<Option<bool>>,
}

impl Memory {
    /// Holds no answer, and takes no room until it does.
    fn new(letters: usize) -> Memory {
        Memory {
            ends: letters + 1,
            answers: Vec::new(),
        }
    }

    /// The answer about this part, if there is one.
    fn recall(&self, from: usize, to: usize) -> Option<bool> {
        self.answers.get(from * self.ends + to).copied().flatten()
    }

    /// Remembers the answer about this part.
    fn keep(&mut self, from: usize, to: usize, answer: bool) {
        self.answers.resize(self.ends * self.ends, None);
        self.answers[from * self.ends + to] = Some(answer);
    }
}
