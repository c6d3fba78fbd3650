//! The proved search and its twin in Rust, as one thing: what they are lent, and what they say.

use cases::Draws;
use gongcollar::{raw, ENTRIES};

/// What both say of a search: the run, the pairs and the propositions; or the refusal's number and place.
pub type Said = Result<(Option<Vec<u8>>, u64, u64), (u64, u64)>;

/// The four slices that both are lent.
#[derive(Debug, Clone, PartialEq, Eq)]
pub struct Slices {
    table: Vec<u64>,
    work1: Vec<u16>,
    work2: Vec<u16>,
    pub run: Vec<u8>,
}

impl Slices {
    /// As many entries as a search asks for.
    pub fn new() -> Slices {
        Slices {
            table: vec![0; ENTRIES],
            work1: vec![0; ENTRIES],
            work2: vec![0; ENTRIES],
            run: vec![0; ENTRIES],
        }
    }

    /// Junk, of which now and then one is too short.
    pub fn junk(draws: &mut Draws) -> Slices {
        let junk = draws.byte();
        let mut short = || usize::from(draws.once_in(50));
        Slices {
            table: vec![junk.into(); ENTRIES - short()],
            work1: vec![junk.into(); ENTRIES - short()],
            work2: vec![junk.into(); ENTRIES - short()],
            run: vec![junk; ENTRIES - short()],
        }
    }
}

/// One of the two.
pub trait Searcher {
    type Answer;
    fn search(slices: &mut Slices, rule: &[u8], model: &[u8]) -> Self::Answer;
    /// What an answer says; the run stands in the output.
    fn said(answer: Self::Answer, output: &[u8]) -> Said;
}

/// The proved library.
pub struct Proved;

/// Its twin.
pub struct Twin;

impl Searcher for Proved {
    type Answer = raw::Searched;

    fn search(slices: &mut Slices, rule: &[u8], model: &[u8]) -> raw::Searched {
        let mut lent = raw::Lent {
            table: &mut slices.table,
            work1: &mut slices.work1,
            work2: &mut slices.work2,
            run: &mut slices.run,
        };
        raw::search(rule, model, &mut lent)
    }

    fn said(answer: raw::Searched, output: &[u8]) -> Said {
        if answer.refused != 0 {
            return Err((answer.refused, answer.place));
        }
        let run = (answer.found == 1).then(|| output[..answer.length as usize].to_vec());
        Ok((run, answer.pairs, answer.uses))
    }
}

impl Searcher for Twin {
    type Answer = Result<twin::Searched, twin::Refusal>;

    fn search(slices: &mut Slices, rule: &[u8], model: &[u8]) -> Self::Answer {
        let mut lent = twin::Lent {
            table: &mut slices.table,
            work1: &mut slices.work1,
            work2: &mut slices.work2,
            run: &mut slices.run,
        };
        twin::search(rule, model, &mut lent)
    }

    fn said(answer: Self::Answer, output: &[u8]) -> Said {
        let searched = answer.map_err(|refusal| (refusal.number, refusal.place as u64))?;
        let run = searched.length.map(|length| output[..length].to_vec());
        Ok((run, searched.pairs as u64, searched.uses))
    }
}
