//! Models given by formulas (2026-08): a formula for the initial states and one for the step, written out as a model.

use crate::bytes::Bytes;
use crate::formula::LAST_PROPOSITION;
use crate::model::Model;
use crate::reader::{AND, FALSE, HITS, LETTER, NOT, OR, PROPOSITION, TRUE};
use crate::refusal::{
    Refusal, BYTES_AFTER_RULE, FORMULAS_TOO_LONG, KIND_OUT_OF_PLACE, NO_SUCH_PROPOSITION,
    RULE_ENDED, SLICE_TOO_SHORT, UNKNOWN_KIND,
};
use crate::set::{only, WORD};

/// The most bytes that the two formulas may have, with what stands before each.
const LONGEST_SYSTEM: usize = 255;

/// How many bytes all 64 records of a model have.
pub const MODEL_BYTES: usize = 704;

const NEXT: u8 = 0x07;
const INITIAL: u8 = 0x30;
const STEP: u8 = 0x31;

/// A formula over a state and a state that may follow it.
#[derive(Debug, Clone, PartialEq, Eq)]
pub enum StepFormula {
    /// Holds where the first state's letter has this proposition.
    Now(u8),
    /// Holds where the second one's has it.
    Next(u8),
    /// Holds of any two states.
    True,
    /// Holds of none.
    False,
    /// Holds where the operand does not.
    Not(Box<StepFormula>),
    /// Holds where both operands do.
    And(Box<StepFormula>, Box<StepFormula>),
    /// Holds where at least one operand does.
    Or(Box<StepFormula>, Box<StepFormula>),
}

impl StepFormula {
    /// Whether the formula holds of a state of this letter and one of that.
    pub fn holds(&self, now: u8, next: u8) -> bool {
        match self {
            StepFormula::Now(number) => now >> number & 1 == 1,
            StepFormula::Next(number) => next >> number & 1 == 1,
            StepFormula::True => true,
            StepFormula::False => false,
            StepFormula::Not(a) => !a.holds(now, next),
            StepFormula::And(a, b) => a.holds(now, next) && b.holds(now, next),
            StepFormula::Or(a, b) => a.holds(now, next) || b.holds(now, next),
        }
    }
}

/// A transition system whose states are the 64 letters.
#[derive(Debug, Clone, PartialEq, Eq)]
pub struct System {
    /// In which states a run may begin; it names nothing of a next state.
    pub initial: StepFormula,
    /// Which state may follow which.
    pub step: StepFormula,
}

impl System {
    /// The model that the two formulas say: state x has letter x.
    pub fn model(&self) -> Model {
        let states = || 0..WORD as u8;
        let set = |holds: &dyn Fn(u8) -> bool| -> u64 {
            let members = states().filter(|&state| holds(state));
            members.map(|state| only(state.into())).sum()
        };
        Model {
            letters: states().collect(),
            initial: set(&|x| self.initial.holds(x, x)),
            successors: states().map(|x| set(&|y| self.step.holds(x, y))).collect(),
        }
    }
}

/// The model of two formulas in the house form, for a lent slice of so many bytes. Refuses 9, then 2 to 6 in reading
/// order, then 21.
pub fn formula_model(formulas: &[u8], model_len: usize) -> Result<Vec<u8>, Refusal> {
    let system = read_system(formulas)?;
    if model_len < MODEL_BYTES {
        return Err(Refusal::at(SLICE_TOO_SHORT, 0));
    }
    Ok(system.model().bytes())
}

/// Reads the two formulas, or refuses them with 9 or with 2 to 6.
pub fn read_system(formulas: &[u8]) -> Result<System, Refusal> {
    if formulas.len() > LONGEST_SYSTEM {
        return Err(Refusal::at(FORMULAS_TOO_LONG, 0));
    }
    let mut bytes = Bytes::new(formulas);
    next_mark(&mut bytes, INITIAL)?;
    let initial = next_formula(&mut bytes, Of::OneState)?;
    next_mark(&mut bytes, STEP)?;
    let step = next_formula(&mut bytes, Of::TwoStates)?;
    if !bytes.ended() {
        return Err(Refusal::at(BYTES_AFTER_RULE, bytes.place()));
    }
    Ok(System { initial, step })
}

/// What a formula may speak of.
#[derive(Debug, Clone, Copy, PartialEq, Eq)]
enum Of {
    /// A state, so that no kind names a next one.
    OneState,
    /// A state and the next one.
    TwoStates,
}

/// The kind that must stand at the next byte.
fn next_mark(bytes: &mut Bytes, mark: u8) -> Result<(), Refusal> {
    let place = bytes.place();
    match bytes.next(RULE_ENDED)? {
        kind if kind == mark => Ok(()),
        kind => Err(misplaced(kind, place)),
    }
}

/// The formula that begins at the next byte.
fn next_formula(bytes: &mut Bytes, of: Of) -> Result<StepFormula, Refusal> {
    let place = bytes.place();
    let kind = bytes.next(RULE_ENDED)?;
    match kind {
        PROPOSITION => Ok(StepFormula::Now(next_number(bytes)?)),
        NEXT if of == Of::TwoStates => Ok(StepFormula::Next(next_number(bytes)?)),
        TRUE => Ok(StepFormula::True),
        FALSE => Ok(StepFormula::False),
        NOT => Ok(StepFormula::Not(boxed(bytes, of)?)),
        AND => Ok(StepFormula::And(boxed(bytes, of)?, boxed(bytes, of)?)),
        OR => Ok(StepFormula::Or(boxed(bytes, of)?, boxed(bytes, of)?)),
        kind => Err(misplaced(kind, place)),
    }
}

fn boxed(bytes: &mut Bytes, of: Of) -> Result<Box<StepFormula>, Refusal> {
    Ok(Box::new(next_formula(bytes, of)?))
}

/// The number of a proposition, which is the next byte.
fn next_number(bytes: &mut Bytes) -> Result<u8, Refusal> {
    let place = bytes.place();
    let number = bytes.next(RULE_ENDED)?;
    if number > LAST_PROPOSITION {
        return Err(Refusal::at(NO_SUCH_PROPOSITION, place));
    }
    Ok(number)
}

/// The refusal of a kind where it may not stand: 4 if it is one of the request's table or of the rules', else 3.
fn misplaced(kind: u8, place: usize) -> Refusal {
    let number = match kind {
        PROPOSITION..=OR | NEXT | LETTER..=HITS | INITIAL | STEP => KIND_OUT_OF_PLACE,
        _ => UNKNOWN_KIND,
    };
    Refusal::at(number, place)
}
