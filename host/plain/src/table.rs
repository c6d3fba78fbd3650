//! The rule's automaton with symbolic labels, in the scope document's numbering of states; for counted rules in the
//! project's own.

use std::ops::Range;

use crate::reader::read_rule;
use crate::refusal::{Refusal, SLICE_TOO_SHORT};
use crate::rule::{Counts, Rule};
use crate::set::{has, only, WORD};

/// How many labels a table has: one for each two of 64 states.
pub const TABLE_ENTRIES: usize = WORD * WORD;

/// The label of `true`: every letter.
const EVERY_LETTER: u64 = u64::MAX;

/// A rule's automaton; every walk over it begins in state 0.
#[derive(Debug, Clone, PartialEq, Eq)]
pub struct Table {
    /// The number of states.
    pub weight: u64,
    /// The set of final states.
    pub finals: u64,
    /// 4,096 labels; the one from p to q stands at 64p+q, 0 if nothing leads there.
    pub labels: Vec<u64>,
}

/// Builds the rule's table; refuses a faulty rule, then 21 for a lent slice of fewer entries.
pub fn build(rule: &[u8], table_len: usize) -> Result<Table, Refusal> {
    let read = read_rule(rule)?;
    if table_len < TABLE_ENTRIES {
        return Err(Refusal::at(SLICE_TOO_SHORT, 0));
    }
    Ok(table_of(&read.rule))
}

/// Where the label from p to q stands.
pub(crate) fn entry(p: usize, q: usize) -> usize {
    WORD * p + q
}

/// The table of a rule that weighs at most 64.
pub(crate) fn table_of(rule: &Rule) -> Table {
    match rule {
        Rule::Letter(formula) => letter(formula.label()),
        Rule::Empty => empty(),
        Rule::Then(a, b) => then(&table_of(a), &table_of(b)),
        Rule::Overlap(a, b) => overlap(&table_of(a), &table_of(b)),
        Rule::Or(a, b) => or(&table_of(a), &table_of(b)),
        Rule::LooseAnd(a, b) => loose_and(&table_of(a), &table_of(b)),
        Rule::EqualAnd(a, b) => equal_and(&table_of(a), &table_of(b)),
        Rule::Star(a) => star(&table_of(a)),
        Rule::Plus(a) => plus(&table_of(a)),
        // An operand of which there are no parts may weigh anything.
        Rule::Counted(Counts { most: 0, .. }, _) => empty(),
        Rule::Counted(counts, a) => counted(*counts, &table_of(a)),
        Rule::Hits(counts, formula) => hits(*counts, formula.label()),
    }
}

/// One state, and it is final.
fn empty() -> Table {
    let mut table = Table::of_weight(1);
    table.make_final(0);
    table
}

/// Two states, and the label leads from the first to the second, which is final.
fn letter(label: u64) -> Table {
    let mut table = Table::of_weight(2);
    table.unite(0, 1, label);
    table.make_final(1);
    table
}

/// `;`: where a may end, b may begin.
fn then(a: &Table, b: &Table) -> Table {
    let m = a.size();
    let mut table = Table::of_weight(m + b.size());
    table.take_labels(a, 0);
    table.take_labels(b, m);
    for p in a.states().filter(|&p| a.is_final(p)) {
        table.take_row(p, b, 0, m);
    }
    table.take_finals(b, m);
    if b.is_final(0) {
        table.take_finals(a, 0);
    }
    table
}

/// `:`: the letter that brings a to its end is also b's first.
fn overlap(a: &Table, b: &Table) -> Table {
    let m = a.size();
    let mut table = Table::of_weight(m + b.size());
    table.take_labels(a, 0);
    table.take_labels(b, m);
    for p in a.states() {
        let ending = a.ending(p);
        for j in b.states() {
            table.unite(p, m + j, ending & b.label(0, j));
        }
    }
    table.take_finals(b, m);
    table
}

/// `|`: a new initial state begins as a does and as b does.
fn or(a: &Table, b: &Table) -> Table {
    let past_a = 1 + a.size();
    let mut table = Table::of_weight(past_a + b.size());
    table.take_labels(a, 1);
    table.take_labels(b, past_a);
    table.take_row(0, a, 0, 1);
    table.take_row(0, b, 0, past_a);
    table.take_finals(a, 1);
    table.take_finals(b, past_a);
    if a.is_final(0) || b.is_final(0) {
        table.make_final(0);
    }
    table
}

/// `&&`: state i·n+j stands for a in i and b in j, both moved by the same letter.
fn equal_and(a: &Table, b: &Table) -> Table {
    let n = b.size();
    let mut table = Table::of_weight(a.size() * n);
    for p in table.states() {
        for q in table.states() {
            table.unite(p, q, a.label(p / n, q / n) & b.label(p % n, q % n));
        }
        if a.is_final(p / n) && b.is_final(p % n) {
            table.make_final(p);
        }
    }
    table
}

/// `&`: `{a && {b;true[*]}} | {{a;true[*]} && b}`, put together from the other operators.
fn loose_and(a: &Table, b: &Table) -> Table {
    let anything = star(&letter(EVERY_LETTER));
    let b_done_first = equal_and(a, &then(b, &anything));
    let a_done_first = equal_and(&then(a, &anything), b);
    or(&b_done_first, &a_done_first)
}

/// `[+]`: where a may end, it may begin again.
fn plus(a: &Table) -> Table {
    let mut table = a.clone();
    for p in a.states().filter(|&p| a.is_final(p)) {
        table.take_row(p, a, 0, 0);
    }
    table
}

/// `[*]`: as `[+]`, and may end before it begins.
fn star(a: &Table) -> Table {
    let mut table = plus(a);
    table.make_final(0);
    table
}

/// `[*i..j]`: j copies of a, each put before the later ones by `;`, so that copy c of a's m states stands at c·m. It may
/// end before a copy as soon as there were i parts.
fn counted(counts: Counts, a: &Table) -> Table {
    let most = counts.most.into();
    let mut rest = empty();
    for copies in 1..=most {
        // These are the last copies: so many parts were had before them.
        let had = most - copies;
        rest = match copies {
            1 => a.clone(),
            _ => then(a, &rest),
        };
        if had >= counts.least.into() {
            rest.make_final(0);
        }
    }
    rest
}

/// `[=i..j]`: state 0 before the first letter, and 1+c after letters of which c satisfied the formula.
fn hits(counts: Counts, label: u64) -> Table {
    let most = usize::from(counts.most);
    let mut table = Table::of_weight(most + 2);
    for state in table.states() {
        let satisfied = state.saturating_sub(1);
        table.unite(state, 1 + satisfied, !label);
        if satisfied < most {
            table.unite(state, 2 + satisfied, label);
        }
        if counts.numbers().contains(&satisfied) {
            table.make_final(state);
        }
    }
    table
}

impl Table {
    /// This many states, no labels and no finals.
    fn of_weight(weight: usize) -> Table {
        Table {
            weight: weight as u64,
            finals: 0,
            labels: vec![0; TABLE_ENTRIES],
        }
    }

    /// The number of states.
    pub(crate) fn size(&self) -> usize {
        self.weight as usize
    }

    /// The states.
    pub(crate) fn states(&self) -> Range<usize> {
        0..self.size()
    }

    /// The label from p to q.
    fn label(&self, p: usize, q: usize) -> u64 {
        self.labels[entry(p, q)]
    }

    /// Adds the letters to the label from p to q.
    fn unite(&mut self, p: usize, q: usize, letters: u64) {
        self.labels[entry(p, q)] |= letters;
    }

    /// Whether the state is final.
    fn is_final(&self, state: usize) -> bool {
        has(self.finals, state)
    }

    /// Makes the state final.
    fn make_final(&mut self, state: usize) {
        self.finals |= only(state);
    }

    /// The letters by which p goes to some final state.
    fn ending(&self, p: usize) -> u64 {
        self.states()
            .filter(|&q| self.is_final(q))
            .fold(0, |letters, q| letters | self.label(p, q))
    }

    /// Gives p what leaves a state of the operand, whose states are moved up.
    fn take_row(&mut self, p: usize, operand: &Table, state: usize, up: usize) {
        for q in operand.states() {
            self.unite(p, up + q, operand.label(state, q));
        }
    }

    /// Takes all labels of the operand, whose states are moved up.
    fn take_labels(&mut self, operand: &Table, up: usize) {
        for p in operand.states() {
            self.take_row(up + p, operand, p, up);
        }
    }

    /// Takes the finals of the operand, whose states are moved up.
    fn take_finals(&mut self, operand: &Table, up: usize) {
        for q in operand.states().filter(|&q| operand.is_final(q)) {
            self.make_final(up + q);
        }
    }
}
