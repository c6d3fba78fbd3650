//! Models given by two formulas: which states are initial, and which may follow which.

use crate::models::{front, Model};
use crate::{raw, Refusal, MODEL_BYTES};
use std::borrow::Borrow;
use std::fmt;
use std::ops::{BitAnd, BitOr, BitXor, Not};

const PROPOSITION: u8 = 0x01;
const TRUE: u8 = 0x02;
const FALSE: u8 = 0x03;
const NOT: u8 = 0x04;
const AND: u8 = 0x05;
const OR: u8 = 0x06;
const NEXT: u8 = 0x07;
const INITIAL: u8 = 0x30;
const STEP: u8 = 0x31;

/// A formula over a state's propositions, and in a step also over those of the next state.
///
/// It is put together by `!`, `&`, `|` and `^`, of formulas or of references to them, and kept as its bytes. Nothing is
/// tested before a model is made of it: a proposition above 5, or one of the next state where there is none, is then
/// refused.
///
/// ```
/// use gongcollar::Formula;
///
/// let running = Formula::now(0);
/// let stops = &running & !Formula::next(0);
/// assert_eq!(stops.bytes(), [0x05, 0x01, 0x00, 0x04, 0x07, 0x00]);
/// assert_eq!(stops.to_string(), "(p0&!next(p0))");
/// assert_eq!(running.implies(Formula::truth()).to_string(), "(!p0|true)");
/// ```
#[derive(Debug, Clone, PartialEq, Eq, Hash)]
pub struct Formula {
    bytes: Vec<u8>,
}

impl Formula {
    /// Holds where the proposition does. Propositions are 0 to 5.
    pub fn now(proposition: u8) -> Formula {
        Formula::of([PROPOSITION, proposition])
    }

    /// Holds where the proposition does in the next state: for steps alone.
    pub fn next(proposition: u8) -> Formula {
        Formula::of([NEXT, proposition])
    }

    /// Holds everywhere.
    pub fn truth() -> Formula {
        Formula::of([TRUE])
    }

    /// Holds nowhere.
    pub fn falsehood() -> Formula {
        Formula::of([FALSE])
    }

    /// Holds where the proposition is next what it is now.
    ///
    /// ```
    /// use gongcollar::Formula;
    ///
    /// assert_eq!(Formula::kept(3), Formula::next(3).iff(Formula::now(3)));
    /// ```
    pub fn kept(proposition: u8) -> Formula {
        Formula::next(proposition).iff(Formula::now(proposition))
    }

    /// Holds where each of the formulas does: everywhere, if there are none.
    ///
    /// ```
    /// use gongcollar::Formula;
    ///
    /// let none_holds = Formula::all((0..3).map(|flag| !Formula::now(flag)));
    /// assert_eq!(none_holds.to_string(), "((!p0&!p1)&!p2)");
    /// ```
    pub fn all<F: Borrow<Formula>>(formulas: impl IntoIterator<Item = F>) -> Formula {
        Formula::row(AND, formulas).unwrap_or_else(Formula::truth)
    }

    /// Holds where at least one of the formulas does: nowhere, if there are none.
    pub fn any<F: Borrow<Formula>>(formulas: impl IntoIterator<Item = F>) -> Formula {
        Formula::row(OR, formulas).unwrap_or_else(Formula::falsehood)
    }

    /// Holds where the other formula does, and wherever this one does not.
    pub fn implies(&self, other: impl Borrow<Formula>) -> Formula {
        !self | other
    }

    /// Holds where both formulas do and where neither does. Each of them is written twice.
    pub fn iff(&self, other: impl Borrow<Formula>) -> Formula {
        let other = other.borrow();
        (self & other) | !(self | other)
    }

    /// The bytes in the house form.
    pub fn bytes(&self) -> &[u8] {
        &self.bytes
    }

    fn of(bytes: impl Into<Vec<u8>>) -> Formula {
        Formula {
            bytes: bytes.into(),
        }
    }

    /// An operator with its two operands.
    fn joined(kind: u8, a: &Formula, b: &Formula) -> Formula {
        Formula::of([&[kind], a.bytes(), b.bytes()].concat())
    }

    /// All of them joined, if there are any.
    fn row<F: Borrow<Formula>>(kind: u8, formulas: impl IntoIterator<Item = F>) -> Option<Formula> {
        let mut formulas = formulas.into_iter();
        let first = formulas.next()?.borrow().clone();
        let join = |a: Formula, b: F| Formula::joined(kind, &a, b.borrow());
        Some(formulas.fold(first, join))
    }
}

impl Not for &Formula {
    type Output = Formula;

    fn not(self) -> Formula {
        Formula::of([&[NOT], self.bytes()].concat())
    }
}

impl Not for Formula {
    type Output = Formula;

    fn not(self) -> Formula {
        !&self
    }
}

/// An operator on a formula or a reference to one, and on another.
macro_rules! operator {
    ($operator:ident, $method:ident, $joined:expr) => {
        impl<F: Borrow<Formula>> $operator<F> for &Formula {
            type Output = Formula;

            fn $method(self, other: F) -> Formula {
                let joined: fn(&Formula, &Formula) -> Formula = $joined;
                joined(self, other.borrow())
            }
        }

        impl<F: Borrow<Formula>> $operator<F> for Formula {
            type Output = Formula;

            fn $method(self, other: F) -> Formula {
                (&self).$method(other)
            }
        }
    };
}

operator!(BitAnd, bitand, |a, b| Formula::joined(AND, a, b));
operator!(BitOr, bitor, |a, b| Formula::joined(OR, a, b));
// Each operand is written twice.
operator!(BitXor, bitxor, |a, b| (a | b) & !(a & b));

/// As `(p0&!next(p1))`: like the formulas of a rule's text, and `next(p1)` is proposition 1 of the next state.
impl fmt::Display for Formula {
    fn fmt(&self, f: &mut fmt::Formatter<'_>) -> fmt::Result {
        // What is still to be written after operands: a sign after a first one, a bracket after a second one.
        let mut after: Vec<char> = Vec::new();
        let mut text = String::new();
        let mut bytes = self.bytes.iter();
        while let Some(&kind) = bytes.next() {
            match kind {
                NOT => text.push('!'),
                AND | OR => {
                    text.push('(');
                    after.push(if kind == AND { '&' } else { '|' });
                }
                _ => {
                    text += &atom(kind, bytes.by_ref());
                    close(&mut text, &mut after);
                }
            }
        }
        f.pad(&text)
    }
}

fn atom<'a>(kind: u8, mut body: impl Iterator<Item = &'a u8>) -> String {
    let mut named = || {
        body.next()
            .map_or(String::new(), |number| format!("p{number}"))
    };
    match kind {
        TRUE => "true".to_string(),
        FALSE => "false".to_string(),
        NEXT => format!("next({})", named()),
        _ => named(),
    }
}

/// An operand is complete: the brackets that it closes, and the sign before the next operand.
fn close(text: &mut String, after: &mut Vec<char>) {
    while let Some(sign) = after.pop() {
        text.push(sign);
        if sign != ')' {
            after.push(')');
            return;
        }
    }
}

/// A model given by two formulas. It has a state for each letter, state x with letter x: a state is which of the six
/// propositions hold in it.
///
/// ```
/// use gongcollar::{Formula, Rule, System, Workspace};
///
/// // The hourly values are written (p0), they are verified (p1), the quarter-hour values are deleted (p2).
/// let [written, verified, deleted] = [0, 1, 2].map(Formula::now);
/// let stays = |flag| Formula::now(flag).implies(Formula::next(flag));
/// let mut scheduler = System {
///     // Nothing is done yet.
///     initial: !&written & !&verified & !&deleted,
///     // What is done stays done; nothing is verified or deleted before the hourly values are written.
///     step: Formula::all((0..3).map(stays))
///         & Formula::next(1).implies(&written)
///         & Formula::next(2).implies(&written),
/// };
///
/// // At some time the quarter-hour values are deleted, and nothing was verified.
/// let rule: Rule = "{{true}[*];(p2&!p1)}".parse()?;
/// let mut workspace = Workspace::new();
/// let searched = workspace.search(rule.bytes(), scheduler.model()?.bytes())?;
/// assert_eq!(searched.run, Some(&[0b000, 0b001, 0b101][..]));
///
/// // Deletion waits for the verification.
/// scheduler.step = scheduler.step & Formula::next(2).implies(&verified);
/// let searched = workspace.search(rule.bytes(), scheduler.model()?.bytes())?;
/// assert_eq!(searched.run, None);
/// # Ok::<(), gongcollar::Refusal>(())
/// ```
#[derive(Debug, Clone, PartialEq, Eq, Hash)]
pub struct System {
    /// Holds in the states that are initial. It names nothing of a next state.
    pub initial: Formula,
    /// Holds of a state and a state that may follow it.
    pub step: Formula,
}

impl System {
    /// The two formulas in the house form, each behind its kind.
    ///
    /// ```
    /// use gongcollar::{Formula, System};
    ///
    /// let system = System { initial: Formula::truth(), step: Formula::kept(0) };
    /// assert_eq!(system.bytes()[..4], [0x30, 0x02, 0x31, 0x06]);
    /// ```
    pub fn bytes(&self) -> Vec<u8> {
        [&[INITIAL], self.initial.bytes(), &[STEP], self.step.bytes()].concat()
    }

    /// The model that the formulas say. They may have 255 bytes together.
    pub fn model(&self) -> Result<Model, Refusal> {
        formula_model(&self.bytes())
    }
}

/// As a line for each formula, `initial: ` and `step: ` before them.
impl fmt::Display for System {
    fn fmt(&self, f: &mut fmt::Formatter<'_>) -> fmt::Result {
        write!(f, "initial: {}\nstep: {}", self.initial, self.step)
    }
}

/// The model of two formulas in the house form: kind 30 and a formula for the initial states, kind 31 and one for the
/// step, in which kind 07 names a proposition of the next state.
///
/// ```
/// // Any state may be the first, and p0 holds in each that follows.
/// let model = gongcollar::formula_model(&[0x30, 0x02, 0x31, 0x07, 0x00])?;
/// assert_eq!((model.states(), model.initial()), (64, u64::MAX));
/// assert_eq!(model.successors(5), 0xAAAA_AAAA_AAAA_AAAA);
///
/// let refusal = gongcollar::formula_model(&[0x30, 0x07, 0x00, 0x31, 0x02]).unwrap_err();
/// assert_eq!((refusal.number(), refusal.place()), (4, 1));
/// # Ok::<(), gongcollar::Refusal>(())
/// ```
pub fn formula_model(formulas: &[u8]) -> Result<Model, Refusal> {
    let mut out = [0; MODEL_BYTES];
    Model::from_bytes(formula_model_into(formulas, &mut out)?)
}

/// The same into a lent slice of [`MODEL_BYTES`] bytes or more, which then begins with the model. A refusal changes
/// nothing.
///
/// ```
/// let mut out = [7; 720];
/// let model = gongcollar::formula_model_into(&[0x30, 0x03, 0x31, 0x02], &mut out)?;
/// assert_eq!(model.len(), gongcollar::MODEL_BYTES);
/// assert_eq!(model[..3], [0x20, 0, 0]);
/// assert_eq!(out[704], 7);
/// # Ok::<(), gongcollar::Refusal>(())
/// ```
pub fn formula_model_into<'a>(formulas: &[u8], out: &'a mut [u8]) -> Result<&'a [u8], Refusal> {
    let answer = raw::formula_model(formulas, out);
    Refusal::unless(answer.refused, answer.place, front(out, answer.length))
}

#[cfg(test)]
mod tests {
    use super::*;

    /// Whether a formula holds of two letters, by its text: the operands of an operator are told by their brackets.
    fn holds(text: &str, now: u8, next: u8) -> bool {
        let has = |letter: u8, name: &str| letter >> name[1..].parse::<u8>().unwrap() & 1 == 1;
        if let Some(inner) = text.strip_prefix('!') {
            return !holds(inner, now, next);
        }
        if let Some(inner) = text.strip_prefix("next(") {
            return has(next, inner.strip_suffix(')').unwrap());
        }
        if let Some(inner) = text.strip_prefix('(') {
            let inner = inner.strip_suffix(')').unwrap();
            let mut depth = 0;
            let at = inner.find(|sign| {
                depth += i32::from(sign == '(') - i32::from(sign == ')');
                depth == 0 && "&|".contains(sign)
            });
            let (a, b) = inner.split_at(at.unwrap());
            let (a, other) = (holds(a, now, next), holds(&b[1..], now, next));
            return if b.starts_with('&') {
                a && other
            } else {
                a || other
            };
        }
        match text {
            "true" => true,
            "false" => false,
            name => has(now, name),
        }
    }

    #[test]
    fn each_operator_holds_where_it_should() {
        let (a, b) = (Formula::now(0), Formula::next(3));
        for (now, next) in [(0, 0), (1, 0), (0, 8), (1, 8)] {
            let (x, y) = (now == 1, next == 8);
            let says = |formula: Formula| holds(&formula.to_string(), now, next);
            assert_eq!(says(&a & &b), x && y);
            assert_eq!(says(&a | &b), x || y);
            assert_eq!(says(&a ^ &b), x != y);
            assert_eq!(says(a.iff(&b)), x == y);
            assert_eq!(says(a.implies(&b)), !x || y);
            assert_eq!(says(!&a), !x);
            assert_eq!(says(Formula::all([&a, &b, &a])), x && y);
            assert_eq!(says(Formula::any([&a, &b, &a])), x || y);
            assert!(says(Formula::all::<Formula>([])));
            assert!(!says(Formula::any::<Formula>([])));
        }
    }

    #[test]
    fn formulas_and_references_are_joined_alike() {
        let (a, b) = (Formula::now(1), Formula::now(2));
        let joined = &a & &b;
        assert_eq!(a.clone() & b.clone(), joined);
        assert_eq!(a.clone() & &b, joined);
        assert_eq!(&a & b.clone(), joined);
        assert_eq!(joined.bytes(), [0x05, 0x01, 1, 0x01, 2]);
        assert_eq!((&a | &b).bytes(), [0x06, 0x01, 1, 0x01, 2]);
        assert_eq!((&a ^ &b).bytes(), [5, 6, 1, 1, 1, 2, 4, 5, 1, 1, 1, 2]);
        assert_eq!(a.iff(&b).bytes(), [6, 5, 1, 1, 1, 2, 4, 6, 1, 1, 1, 2]);
        assert_eq!(!a.clone(), !&a);
    }

    #[test]
    fn a_formula_is_written_as_text() {
        let (a, b) = (Formula::now(0), Formula::next(5));
        let formula = (&a & !(Formula::truth() | &b)) | Formula::falsehood();
        assert_eq!(formula.to_string(), "((p0&!(true|next(p5)))|false)");
        assert_eq!(format!("{:>5}|", !a), "  !p0|");
        let system = System {
            initial: Formula::truth(),
            step: b,
        };
        assert_eq!(system.to_string(), "initial: true\nstep: next(p5)");
        assert_eq!(system.bytes(), [0x30, 0x02, 0x31, 0x07, 0x05]);
    }

    /// However deep: nothing here calls itself.
    #[test]
    fn a_deep_formula_is_built_and_written() {
        let deep = (0..2000).fold(Formula::now(0), |formula, _| !formula);
        assert_eq!(deep.to_string().len(), 2002);
        let wide = Formula::all((0..2000).map(|_| Formula::now(0)));
        assert_eq!(wide.to_string().matches(')').count(), 1999);
    }
}
