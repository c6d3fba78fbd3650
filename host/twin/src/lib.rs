//! The proved search once more in Rust, by the same method, to measure the proved one against.
//!
//! It does all that `gc_search` does, from the same bytes, in the same lent slices, with the same clearing: reads the
//! rule and weighs it, reads the model, builds the rule's table in place, takes out the states that no endless run
//! leaves, and searches. The method is the proved library's: the rule is walked in its bytes, with no tree in memory;
//! an operator's operands are built side by side and joined in place; the search has the table's rows by letter, goes
//! forward by levels of sets that it marks and lists in a queue, backward over the queue, and then picks. Nothing is
//! proved here. What is free is the writing: each step is put as one would put it in Rust for speed, with no `unsafe`.
//!
//! | step | module |
//! |---|---|
//! | rules: reading and weighing | `rules` |
//! | formulas and their labels | `formulas` |
//! | the table of a rule | `tables`, `shapes` |
//! | models: reading, and which states last | `models` |
//! | rows by letter | `rows` |
//! | the passes of the search | `forward`, `backward`, `pick` |

#![forbid(unsafe_code)]
#![deny(missing_docs)]

mod backward;
mod formulas;
mod forward;
mod kinds;
mod models;
mod pick;
mod refusal;
mod rows;
mod rules;
mod sets;
mod shapes;
mod tables;

pub use refusal::Refusal;

use models::Model;
use refusal::SHORT_SLICE;
use tables::Table;

/// The most states of a table or a model, and the number of letters.
const STATES: usize = 64;

/// The entries that a search uses of each lent slice.
const ENTRIES: usize = STATES * STATES;

/// The set of table state 0, in which every run begins.
const FIRST: u64 = 1;

/// A word for each pair of a model state and a table state, a row for each model state.
type Pairs = [[u16; STATES]; STATES];

/// What a search is lent, of 4,096 entries or more each.
#[derive(Debug)]
pub struct Lent<'a> {
    /// Takes the rule's table.
    pub table: &'a mut [u64],
    /// Working space; its first 4,096 entries are 0 after an answer.
    pub work1: &'a mut [u16],
    /// Working space; its first 4,096 entries are 0 after an answer.
    pub work2: &'a mut [u16],
    /// Takes the shown run.
    pub run: &'a mut [u8],
}

/// What a search says.
#[derive(Debug, Clone, Copy, PartialEq, Eq)]
pub struct Searched {
    /// The number of states of the first shortest run that matches, with which the output begins; or that there is none.
    pub length: Option<usize>,
    /// The number of pairs of a model state and a table state that were reached.
    pub pairs: usize,
    /// The propositions that the rule names, bit i for proposition i.
    pub uses: u64,
}

/// Searches the model for the first shortest run that matches the rule and can be continued for ever. A refusal leaves
/// what is lent as it was.
pub fn search(rule: &[u8], model: &[u8], lent: &mut Lent<'_>) -> Result<Searched, Refusal> {
    let known = rules::read(rule)?;
    let model = models::read(model)?;
    let Some((table, marks, queue, run)) = spaces(lent) else {
        return Err(Refusal::at(SHORT_SLICE, 0));
    };
    let finals = tables::build(rule, table);
    let model = model.without_dead_ends();
    let (length, pairs) = passes(&model, table, known.weight, finals, marks, queue, run);
    Ok(Searched {
        length,
        pairs,
        uses: known.uses,
    })
}

/// What is used of the lent slices, if they are long enough.
#[allow(clippy::type_complexity)]
fn spaces<'a>(
    lent: &'a mut Lent<'_>,
) -> Option<(
    &'a mut Table,
    &'a mut Pairs,
    &'a mut [u16; ENTRIES],
    &'a mut [u8; ENTRIES],
)> {
    Some((
        lent.table.as_chunks_mut().0.first_chunk_mut()?,
        lent.work1.as_chunks_mut().0.first_chunk_mut()?,
        lent.work2.first_chunk_mut()?,
        lent.run.first_chunk_mut()?,
    ))
}

/// The search over a table of so many states: the run's length, and the number of pairs. Whatever marks and queue hold,
/// they are 0 at the end.
fn passes(
    model: &Model,
    table: &Table,
    weight: usize,
    finals: u64,
    marks: &mut Pairs,
    queue: &mut [u16; ENTRIES],
    run: &mut [u8; ENTRIES],
) -> (Option<usize>, usize) {
    let mut rows = [[0; STATES]; STATES];
    rows::fill(&mut rows, table, weight, model.used_letters());
    marks.as_flattened_mut().fill(0);
    let end = forward::forward(model, &rows, finals, marks, queue);
    let length = end.found.then(|| {
        let listed = &queue[..end.count];
        let useful = backward::backward(model, &rows, finals, marks, listed, end.level);
        let run = &mut run[..usize::from(end.level)];
        pick::pick(model, &rows, marks, &useful, run);
        run.len()
    });
    marks[..model.states].as_flattened_mut().fill(0);
    queue.fill(0);
    (length, end.count)
}
