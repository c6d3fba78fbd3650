//! Builds the table of a rule in place: an operator's operands stand side by side and become its own block.

use crate::formulas::label;
use crate::kinds::*;
use crate::sets::members;
use crate::shapes::{Counts, Shape};
use crate::STATES;

/// The labels, a row for each state.
pub(crate) type Table = [[u64; STATES]; STATES];

/// The operands of a product are copied before their pairs take their place: 34 states at most, if each has two.
type Copies = [[u64; STATES]; COPIED];

const COPIED: usize = 34;

/// Builds the table of a good rule, and answers its finals.
pub(crate) fn build(rule: &[u8], table: &mut Table) -> u64 {
    table.as_flattened_mut().fill(0);
    build_at(rule, 0, table, 0).finals
}

/// The labels of the rule that stands at `at`, from base on, where there are none yet; and its shape.
fn build_at(rule: &[u8], at: usize, t: &mut Table, base: usize) -> Shape {
    match rule[at] {
        LETTER => {
            let (label, end) = label(rule, at + 1);
            t[base][base + 1] = label;
            Shape::letter(end)
        }
        kind @ (STAR | PLUS) => {
            let a = build_at(rule, at + 1, t, base);
            link(t, a.finals << base, base, base + a.weight);
            a.again(kind)
        }
        COUNTED => {
            let counts = Counts::at(rule, at);
            if counts.high == 0 {
                return Shape::of(rule, at);
            }
            let a = build_at(rule, at + 3, t, base);
            row(t, base, a, counts)
        }
        OCCURS => {
            let counts = Counts::at(rule, at);
            let (label, end) = label(rule, at + 3);
            tally(t, base, counts.high, label);
            Shape::occurs(counts, end)
        }
        kind @ THEN..=BOTH => pair(rule, at, t, base, kind),
        _ => Shape::empty(at + 1),
    }
}

/// An operator of two rules.
fn pair(rule: &[u8], at: usize, t: &mut Table, base: usize, kind: u8) -> Shape {
    // The product with a table of one state has no label, and its operands might not fit.
    if kind == BOTH {
        let a = Shape::of(rule, at + 1);
        let b = Shape::of(rule, a.end);
        if a.weight < 2 || b.weight < 2 {
            return a.pair(kind, b);
        }
    }
    let first = match kind {
        EITHER | WITHIN => base + 1,
        _ => base,
    };
    let a = build_at(rule, at + 1, t, first);
    let mid = first + a.weight;
    let b = build_at(rule, a.end, t, mid);
    let end = mid + b.weight;
    match kind {
        THEN => link(t, a.finals << base, mid, end),
        OVERLAP => overlap(t, base, mid, end, a.finals << base),
        EITHER => choice(t, base, mid, end),
        WITHIN => within(t, base, a, b),
        _ => both(t, base, a, b),
    }
    a.pair(kind, b)
}

/// Row p also gets what leaves src, the first state of a block that ends at `end`.
fn unite(t: &mut [[u64; STATES]], p: usize, src: usize, end: usize) {
    // A row that is its own source stays as it is.
    if let Ok([row, source]) = t.get_disjoint_mut([p, src]) {
        for (to, from) in row[src..end].iter_mut().zip(&source[src..end]) {
            *to |= from;
        }
    }
}

/// `;` and the repetitions: each of the finals also gets what leaves src.
fn link(t: &mut [[u64; STATES]], finals: u64, src: usize, end: usize) {
    for p in members(finals) {
        unite(t, p, src, end);
    }
}

/// `:`: each state of a goes on in b by way of each final of a, with the letters that both steps have.
fn overlap(t: &mut Table, base: usize, mid: usize, end: usize, finals: u64) {
    for p in base..mid {
        let Ok([row, source]) = t.get_disjoint_mut([p, mid]) else {
            continue;
        };
        for f in members(finals) {
            let by = row[f];
            for (to, from) in row[mid..end].iter_mut().zip(&source[mid..end]) {
                *to |= by & from;
            }
        }
    }
}

/// `|`: the new state at base gets what leaves the first states of the blocks behind it.
fn choice(t: &mut Table, base: usize, mid: usize, end: usize) {
    unite(t, base, base + 1, mid);
    unite(t, base, mid, end);
}

/// The block of n states at `from`, as it stands at `to` in the copy.
fn copy(copies: &mut Copies, t: &Table, from: usize, to: usize, n: usize) {
    for i in 0..n {
        copies[to + i][to..to + n].copy_from_slice(&t[from + i][from..from + n]);
    }
}

/// The pairs of m states, copied at 0, and n, copied at `second`, as a block at base.
fn product(t: &mut Table, copies: &Copies, base: usize, m: usize, n: usize, second: usize) {
    for first in 0..m {
        for other in 0..n {
            let pairs = &mut t[base + first * n + other][base..base + m * n];
            let others = &copies[second + other][second..second + n];
            for (part, by) in pairs.chunks_exact_mut(n).zip(&copies[first][..m]) {
                for (to, label) in part.iter_mut().zip(others) {
                    *to = by & label;
                }
            }
        }
    }
}

/// `&&`
fn both(t: &mut Table, base: usize, a: Shape, b: Shape) {
    let (m, n) = (a.weight, b.weight);
    let mut copies = [[0; STATES]; COPIED];
    copy(&mut copies, t, base, 0, m + n);
    product(t, &copies, base, m, n, m);
}

/// The block of a at `from`, copied to `to` with `true[*]` behind it.
fn copy_padded(copies: &mut Copies, t: &Table, from: usize, to: usize, a: Shape) {
    copy(copies, t, from, to, a.weight);
    let any = to + a.weight;
    copies[any][any + 1] = u64::MAX;
    copies[any + 1][any + 1] = u64::MAX;
    link(copies, a.finals << to, any, any + 2);
}

/// `&`, which is {a && {b;true[*]}} | {{a;true[*]} && b}: both sides are pairs over one copy.
fn within(t: &mut Table, base: usize, a: Shape, b: Shape) {
    let (m, n) = (a.weight, b.weight);
    let left = base + 1;
    let right = left + m * (n + 2);
    let mut copies = [[0; STATES]; COPIED];
    copy_padded(&mut copies, t, left, 0, a);
    copy_padded(&mut copies, t, left + m, m + 2, b);
    product(t, &copies, left, m, n + 2, m + 2);
    product(t, &copies, right, m + 2, n, m + 2);
    choice(t, base, right, right + (m + 2) * n);
}

/// `[*i..j]`: the block of one part stands once more for each further part, and is reached as in `;`, from the last
/// part to the first.
fn row(t: &mut Table, base: usize, a: Shape, counts: Counts) -> Shape {
    let n = a.weight;
    for i in base..base + n {
        for part in 1..counts.high {
            let to = part * n;
            let (from, row) = t.split_at_mut(i + 1);
            row[to - 1][base + to..base + to + n].copy_from_slice(&from[i][base..base + n]);
        }
    }
    let low = |part: usize| counts.low.saturating_sub(part);
    let last = counts.high - 1;
    let end = base + counts.high * n;
    (0..last).rev().fold(a.last(low(last)), |rest, part| {
        let first = base + part * n;
        link(t, a.finals << first, first + n, end);
        a.before(rest, low(part))
    })
}

/// `[=i..j]`: a state for each count of letters that satisfied the formula, and one before the first letter.
fn tally(t: &mut Table, base: usize, high: usize, label: u64) {
    let first = base + 1;
    let end = first + high + 1;
    for p in first..end {
        t[p][p] = !label;
        if p + 1 < end {
            t[p][p + 1] = label;
        }
    }
    unite(t, base, first, end);
}
