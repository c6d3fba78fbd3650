//! Rules in the house form, drawn by the grammar with a weight that is chosen beforehand.

use crate::draws::Draws;

/// The kinds of the house form.
pub mod kind {
    #![allow(missing_docs)]
    pub const PROPOSITION: u8 = 0x01;
    pub const TRUE: u8 = 0x02;
    pub const FALSE: u8 = 0x03;
    pub const NOT: u8 = 0x04;
    pub const AND: u8 = 0x05;
    pub const OR: u8 = 0x06;
    pub const NEXT: u8 = 0x07;
    pub const LETTER: u8 = 0x10;
    pub const EMPTY: u8 = 0x11;
    pub const THEN: u8 = 0x12;
    pub const OVERLAP: u8 = 0x13;
    pub const CHOICE: u8 = 0x14;
    pub const WITHIN: u8 = 0x15;
    pub const BOTH: u8 = 0x16;
    pub const STAR: u8 = 0x17;
    pub const PLUS: u8 = 0x18;
    pub const COUNTED: u8 = 0x19;
    pub const HITS: u8 = 0x1A;
    pub const INITIAL: u8 = 0x30;
    pub const STEP: u8 = 0x31;
}

/// A letter of the formula true.
pub const ANY: [u8; 2] = [kind::LETTER, kind::TRUE];
/// A letter of proposition 0.
pub const P0: [u8; 3] = [kind::LETTER, kind::PROPOSITION, 0];

/// The most bytes of a rule.
pub const MOST_BYTES: usize = 255;
/// The most states of a rule's table.
pub const MOST_WEIGHT: usize = 64;
/// The number of propositions.
pub const PROPOSITIONS: usize = 6;
/// The highest count.
pub const MOST_COUNT: usize = 15;

/// How deep repetitions and formulas may nest in a drawn rule.
const DEPTH: usize = 4;
/// The heaviest rule that is drawn where any weight will do.
const HEAVIEST: usize = 90;

/// An operator with the weights of its operands.
#[derive(Debug, Clone, Copy)]
enum Shape {
    Empty,
    Letter,
    Repeat(u8),
    Pair(u8, usize, usize),
    /// The higher count, and the weight of what is counted.
    Counted(usize, usize),
    /// The higher count.
    Hits(usize),
}

/// What one rule is drawn from, so that rules differ in more than their weight.
#[derive(Debug, Clone, Copy)]
struct Plan {
    repeat_once_in: usize,
    count_once_in: usize,
    pairs: &'static [u8],
    propositions: usize,
}

/// All operators alike.
const MIXED: Plan = Plan {
    repeat_once_in: 5,
    count_once_in: 20,
    pairs: &[
        kind::THEN,
        kind::OVERLAP,
        kind::CHOICE,
        kind::WITHIN,
        kind::BOTH,
    ],
    propositions: PROPOSITIONS,
};

/// Long rows, which only long sequences match.
const ROWS: Plan = Plan {
    repeat_once_in: 40,
    count_once_in: 60,
    pairs: &[kind::THEN],
    ..MIXED
};

const OVERLAPS: Plan = Plan {
    repeat_once_in: 12,
    count_once_in: 30,
    pairs: &[kind::OVERLAP, kind::THEN, kind::THEN, kind::CHOICE],
    ..MIXED
};

const PRODUCTS: Plan = Plan {
    pairs: &[kind::BOTH, kind::WITHIN, kind::THEN],
    ..MIXED
};

const COUNTS: Plan = Plan {
    repeat_once_in: 12,
    count_once_in: 2,
    ..MIXED
};

/// With few propositions a letter often leads to several states at once.
fn plan(draws: &mut Draws) -> Plan {
    let propositions = draws.one_of(&[1, 2, 3, PROPOSITIONS]);
    let plan = draws.one_of(&[MIXED, ROWS, OVERLAPS, PRODUCTS, COUNTS]);
    Plan {
        propositions,
        ..plan
    }
}

/// A rule that is accepted: it weighs 1 to 64 and has at most 255 bytes.
pub fn accepted(draws: &mut Draws) -> Vec<u8> {
    let weight = weight_up_to(draws, MOST_WEIGHT);
    short_of_weight(draws, weight)
}

/// A rule of at most 255 bytes that weighs 1 or more, some of them above 64.
pub fn of_any_weight(draws: &mut Draws) -> Vec<u8> {
    let weight = weight_up_to(draws, HEAVIEST);
    short_of_weight(draws, weight)
}

/// Light rules are drawn more often, and the weights next to the limit too.
fn weight_up_to(draws: &mut Draws, most: usize) -> usize {
    match draws.below(4) {
        0 => draws.between(1, 8),
        1 => draws.between(1, 24),
        2 => draws.between(60.min(most), 66.min(most)),
        _ => draws.between(1, most),
    }
}

/// Rules of a weight are drawn until one is short enough; formulas become simpler with each.
fn short_of_weight(draws: &mut Draws, weight: usize) -> Vec<u8> {
    let mut depth = DEPTH;
    loop {
        let rule = of_weight(draws, weight, depth);
        if rule.len() <= MOST_BYTES {
            return rule;
        }
        depth = depth.saturating_sub(1);
    }
}

/// A rule of exactly this weight, 1 or more.
pub fn of_weight(draws: &mut Draws, weight: usize, depth: usize) -> Vec<u8> {
    let mut out = Vec::new();
    let plan = plan(draws);
    put_rule(draws, plan, weight, depth, &mut out);
    out
}

/// A choice between rows of equal length over few propositions: several runs match that are equally short, and they go
/// through different states of the table.
pub fn fork(draws: &mut Draws) -> Vec<u8> {
    let rows = draws.between(2, 5);
    let length = draws.between(1, 5);
    let plan = Plan {
        propositions: draws.between(1, 3),
        ..ROWS
    };
    let mut out = vec![kind::CHOICE; rows - 1];
    for _ in 0..rows {
        out.extend(vec![kind::THEN; length - 1]);
        for _ in 0..length {
            out.push(kind::LETTER);
            put_formula(draws, plan, 1, &mut out);
        }
    }
    out
}

/// Counted parts of a light rule, or letters that satisfy a formula.
pub fn counting(draws: &mut Draws, kind: u8, least: u8, most: u8) -> Vec<u8> {
    let plan = plan(draws);
    let mut out = vec![kind, least, most];
    match kind {
        kind::HITS => put_formula(draws, plan, DEPTH, &mut out),
        _ => {
            // 0 parts may be of anything.
            let heaviest = MOST_WEIGHT / usize::from(most).clamp(1, MOST_WEIGHT);
            let weight = draws.between(1, heaviest.min(8));
            put_rule(draws, plan, weight, 2, &mut out);
        }
    }
    out
}

fn put_rule(draws: &mut Draws, plan: Plan, weight: usize, depth: usize, out: &mut Vec<u8>) {
    match shape(draws, plan, weight, depth) {
        Shape::Empty => out.push(kind::EMPTY),
        Shape::Letter => {
            out.push(kind::LETTER);
            put_formula(draws, plan, depth, out);
        }
        Shape::Repeat(kind) => {
            out.push(kind);
            put_rule(draws, plan, weight, depth - 1, out);
        }
        Shape::Pair(kind, a, b) => {
            out.push(kind);
            put_rule(draws, plan, a, depth, out);
            put_rule(draws, plan, b, depth, out);
        }
        Shape::Counted(most, operand) => {
            put_counts(draws, kind::COUNTED, most, out);
            put_rule(draws, plan, operand, depth - 1, out);
        }
        Shape::Hits(most) => {
            put_counts(draws, kind::HITS, most, out);
            put_formula(draws, plan, depth, out);
        }
    }
}

/// The kind, some count up to the higher one, often one of the two ends, and the higher one.
fn put_counts(draws: &mut Draws, kind: u8, most: usize, out: &mut Vec<u8>) {
    let between = draws.between(0, most);
    let least = draws.one_of(&[0, most, between, between]);
    out.extend([kind, least as u8, most as u8]);
}

/// A shape whose operands can be given weights such that the whole has this one.
fn shape(draws: &mut Draws, plan: Plan, weight: usize, depth: usize) -> Shape {
    if depth > 0 && draws.once_in(plan.repeat_once_in) {
        return Shape::Repeat(draws.one_of(&[kind::STAR, kind::PLUS]));
    }
    if depth > 0 && draws.once_in(plan.count_once_in) {
        return counted(draws, weight);
    }
    let fits = (2..=MOST_COUNT + 2).contains(&weight);
    if fits && draws.once_in(2 * plan.count_once_in) {
        return Shape::Hits(weight - 2);
    }
    match weight {
        0 | 1 => Shape::Empty,
        2 if !draws.once_in(12) => Shape::Letter,
        _ => pair(draws, plan, weight),
    }
}

/// A weight as that of so many parts. No parts weigh 1, whatever they are of: now and then what is too heavy alone.
fn counted(draws: &mut Draws, weight: usize) -> Shape {
    if weight == 1 && draws.once_in(2) {
        let bound = draws.one_of(&[2, 8, 8, HEAVIEST]);
        return Shape::Counted(0, draws.between(1, bound));
    }
    let divisors: Vec<usize> = (1..=MOST_COUNT)
        .filter(|&most| weight.is_multiple_of(most))
        .collect();
    let most = draws.one_of(&divisors);
    Shape::Counted(most, weight / most)
}

/// A weight of 2 or more as that of an operator with two operands; `;` where the drawn one cannot have it.
fn pair(draws: &mut Draws, plan: Plan, weight: usize) -> Shape {
    let kind = draws.one_of(plan.pairs);
    let fitting = match kind {
        kind::CHOICE => choice(draws, weight),
        kind::WITHIN => within(draws, weight),
        kind::BOTH => both(draws, weight),
        kind => Some(in_a_row(draws, kind, weight)),
    };
    fitting.unwrap_or_else(|| in_a_row(draws, kind::THEN, weight))
}

/// Even weights are for letters, so that most operands have some.
fn in_a_row(draws: &mut Draws, kind: u8, weight: usize) -> Shape {
    let least = lightest(draws, kind, weight);
    let any = draws.between(least, weight - least);
    let first = match draws.once_in(6) {
        true => any,
        false => (any + any % 2).min(weight - least),
    };
    Shape::Pair(kind, first, weight - first)
}

/// A table of one state has no label, so that an overlap with it accepts nothing: it is drawn rarely.
fn lightest(draws: &mut Draws, kind: u8, weight: usize) -> usize {
    match kind == kind::OVERLAP && weight >= 4 && !draws.once_in(20) {
        true => 2,
        false => 1,
    }
}

fn choice(draws: &mut Draws, weight: usize) -> Option<Shape> {
    let rest = weight.checked_sub(1).filter(|&rest| rest >= 2)?;
    let first = draws.between(1, rest - 1);
    Some(Shape::Pair(kind::CHOICE, first, rest - first))
}

/// `&&` multiplies. A factor of 1 is rare, since such a product has no label.
fn both(draws: &mut Draws, weight: usize) -> Option<Shape> {
    if draws.once_in(8) {
        return Some(Shape::Pair(kind::BOTH, 1, weight));
    }
    let (a, b) = factors(draws, weight)?;
    Some(Shape::Pair(kind::BOTH, a, b))
}

/// `&` of weights m and n weighs one less than 2(m+1)(n+1).
fn within(draws: &mut Draws, weight: usize) -> Option<Shape> {
    if weight.is_multiple_of(2) {
        return None;
    }
    let (a, b) = factors(draws, weight.div_ceil(2))?;
    Some(Shape::Pair(kind::WITHIN, a - 1, b - 1))
}

/// Two numbers above 1 with this product.
fn factors(draws: &mut Draws, product: usize) -> Option<(usize, usize)> {
    let divisors: Vec<usize> = (2..product)
        .filter(|&d| product.is_multiple_of(d))
        .collect();
    if divisors.is_empty() {
        return None;
    }
    let first = draws.one_of(&divisors);
    Some((first, product / first))
}

fn put_formula(draws: &mut Draws, plan: Plan, depth: usize, out: &mut Vec<u8>) {
    let nested = depth > 0 && draws.once_in(3);
    if !nested {
        return put_atom(draws, plan, out);
    }
    let kind = draws.one_of(&[kind::NOT, kind::AND, kind::OR, kind::OR]);
    out.push(kind);
    put_formula(draws, plan, depth - 1, out);
    if kind != kind::NOT {
        put_formula(draws, plan, depth - 1, out);
    }
}

fn put_atom(draws: &mut Draws, plan: Plan, out: &mut Vec<u8>) {
    match draws.below(60) {
        0 => out.push(kind::FALSE),
        1..=10 => out.push(kind::TRUE),
        _ => {
            let proposition = draws.below(plan.propositions) as u8;
            out.extend([kind::PROPOSITION, proposition]);
        }
    }
}
