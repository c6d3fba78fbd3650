//! Rules, models and letters drawn from a seed.

use crate::spell::{counted, hits, letter, node, or, proposition, state, then, Spelled};

fn weighs_at_most(rule: &[u8], most: u64) -> bool {
    plain::read_rule(rule).is_ok_and(|read| read.weight <= most)
}

/// A row of numbers that looks random and is the same for the same seed (splitmix64).
pub struct Draw(u64);

impl Draw {
    pub fn new(seed: u64) -> Draw {
        Draw(seed)
    }

    /// Any word.
    pub fn number(&mut self) -> u64 {
        self.0 = self.0.wrapping_add(0x9E37_79B9_7F4A_7C15);
        let mixed = (self.0 ^ (self.0 >> 30)).wrapping_mul(0xBF58_476D_1CE4_E5B9);
        let mixed = (mixed ^ (mixed >> 27)).wrapping_mul(0x94D0_49BB_1331_11EB);
        mixed ^ (mixed >> 31)
    }

    /// A number below the bound.
    pub fn below(&mut self, bound: usize) -> usize {
        (self.number() % bound as u64) as usize
    }

    /// True once in so many times.
    pub fn once_in(&mut self, times: usize) -> bool {
        self.below(times) == 0
    }

    /// A formula over the first so many propositions.
    pub fn formula(&mut self, depth: usize, propositions: usize) -> Spelled {
        if depth == 0 || self.once_in(2) {
            return self.small_formula(propositions);
        }
        let a = self.formula(depth - 1, propositions);
        let b = self.formula(depth - 1, propositions);
        match self.below(3) {
            0 => node(0x04, &[&a]),
            1 => node(0x05, &[&a, &b]),
            _ => node(0x06, &[&a, &b]),
        }
    }

    fn small_formula(&mut self, propositions: usize) -> Spelled {
        match self.below(16) {
            0..=1 => vec![0x02],
            2 => vec![0x03],
            _ => proposition(self.below(propositions) as u8),
        }
    }

    /// A formula over a state and the next one: some of the propositions are the next one's.
    pub fn step_formula(&mut self, depth: usize, propositions: usize) -> Spelled {
        let mut formula = self.formula(depth, propositions);
        let mut at = 0;
        while at < formula.len() {
            let named = formula[at] == 0x01;
            if named && self.once_in(2) {
                formula[at] = 0x07;
            }
            at += if named { 2 } else { 1 };
        }
        formula
    }

    /// A rule over the first so many propositions.
    pub fn rule(&mut self, depth: usize, propositions: usize) -> Spelled {
        if depth == 0 || self.once_in(6) {
            return self.small_rule(propositions);
        }
        let kind = 0x12 + self.below(8) as u8;
        let a = self.rule(depth - 1, propositions);
        match kind {
            0x17 | 0x18 => node(kind, &[&a]),
            0x19 => {
                let (least, most) = self.counts();
                counted(least, most, &a)
            }
            _ => node(kind, &[&a, &self.rule(depth - 1, propositions)]),
        }
    }

    /// Counts of which the larger is mostly small.
    fn counts(&mut self) -> (u8, u8) {
        let bound = if self.once_in(4) { 16 } else { 4 };
        let most = self.below(bound);
        (self.below(most + 1) as u8, most as u8)
    }

    fn small_rule(&mut self, propositions: usize) -> Spelled {
        match self.below(10) {
            0 | 1 => vec![0x11],
            2 => {
                let (least, most) = self.counts();
                hits(least, most, &self.formula(2, propositions))
            }
            _ => letter(&self.formula(2, propositions)),
        }
    }

    /// A rule that weighs at most so much.
    pub fn light_rule(&mut self, depth: usize, propositions: usize, most: u64) -> Spelled {
        loop {
            let rule = self.rule(depth, propositions);
            if weighs_at_most(&rule, most) {
                return rule;
            }
        }
    }

    /// So many drawn rules joined by `;`, which mostly needs several letters.
    pub fn chain(&mut self, parts: usize, propositions: usize, most: u64) -> Spelled {
        loop {
            let first = self.rule(1, propositions);
            let rule = (1..parts).fold(first, |rest, _| then(&self.rule(1, propositions), &rest));
            if weighs_at_most(&rule, most) {
                return rule;
            }
        }
    }

    /// Three orders of single letters joined by `|`: a beginning leaves the table in several states, and each
    /// of them goes on in another way.
    pub fn fork(&mut self, propositions: usize, most: u64) -> Spelled {
        loop {
            let ways = [(); 3].map(|_| self.letter_chain(propositions));
            let rule = or(&ways[0], &or(&ways[1], &ways[2]));
            if weighs_at_most(&rule, most) {
                return rule;
            }
        }
    }

    /// Two or three letters joined by `;`.
    fn letter_chain(&mut self, propositions: usize) -> Spelled {
        let last = letter(&self.formula(1, propositions));
        let rest = then(&letter(&self.formula(1, propositions)), &last);
        if self.once_in(2) {
            return rest;
        }
        then(&letter(&self.formula(1, propositions)), &rest)
    }

    /// Letters over the first so many propositions.
    pub fn letters(&mut self, length: usize, propositions: usize) -> Vec<u8> {
        (0..length)
            .map(|_| self.below(1 << propositions) as u8)
            .collect()
    }

    /// A model in which each state is a successor of each other once in so many times.
    pub fn model(&mut self, states: usize, propositions: usize, sparse: usize) -> Spelled {
        (0..states)
            .flat_map(|_| self.state(states, propositions, sparse))
            .collect()
    }

    fn state(&mut self, states: usize, propositions: usize, sparse: usize) -> Spelled {
        let successors = (0..states)
            .filter(|_| self.once_in(sparse))
            .map(|state| 1 << state)
            .sum();
        // Two draws together: with more propositions set, more rules find something.
        let letter = self.below(1 << propositions) | self.below(1 << propositions);
        state(letter as u8, self.once_in(2), successors)
    }
}
