//! The calls of the C interface one for one, over slices, with answers of plain numbers.
//!
//! All that is unsafe in this crate stands in this file. Most users want the crate's own functions, which turn a
//! refusal into an error; these are for those who want every field of an answer as it came.

use std::borrow::Cow;

// Declared from the repository's include/gongcollar.h, the one place that hosts declare from: a change there is
// made here too, and nowhere else; a test holds the two together.

/// What `gc_read_rule` answers.
#[repr(C)]
#[derive(Debug, Clone, Copy, Default, PartialEq, Eq)]
pub struct Rule {
    /// 0 for an answer, else the refusal's number.
    pub refused: u64,
    /// Where the refusal is.
    pub place: u64,
    /// The number of states of the rule's table.
    pub weight: u64,
    /// The propositions that the rule names, bit i for proposition i.
    pub uses: u64,
}

/// What `gc_build` answers.
#[repr(C)]
#[derive(Debug, Clone, Copy, Default, PartialEq, Eq)]
pub struct Built {
    /// 0 for an answer, else the refusal's number.
    pub refused: u64,
    /// Where the refusal is.
    pub place: u64,
    /// The number of states.
    pub weight: u64,
    /// The set of final states, bit q for state q.
    pub finals: u64,
    /// The propositions that the rule names, bit i for proposition i.
    pub uses: u64,
}

/// What `gc_judge` answers.
#[repr(C)]
#[derive(Debug, Clone, Copy, Default, PartialEq, Eq)]
pub struct Judged {
    /// 0 for an answer, else the refusal's number.
    pub refused: u64,
    /// Where the refusal is.
    pub place: u64,
    /// 1 if the rule accepts the letters, else 0.
    pub accepts: u64,
    /// The propositions that the rule names, bit i for proposition i.
    pub uses: u64,
}

/// A walker, as a host keeps it in a record of its own.
#[repr(C)]
#[derive(Debug, Clone, Copy, Default, PartialEq, Eq, Hash)]
pub struct Walker {
    /// The states that it may be in, bit q for state q.
    pub set: u64,
    /// The final states, bit q for state q.
    pub finals: u64,
    /// How many letters it has taken.
    pub taken: u32,
    /// How many it had taken at its first match; 0 if there is none yet.
    pub first: u32,
    /// 1 if there was a match, else 0; any other number counts as 1.
    pub matched: u32,
}

/// What `gc_step` and `gc_step_rows` answer.
#[repr(C)]
#[derive(Debug, Clone, Copy, Default, PartialEq, Eq)]
pub struct Stepped {
    /// 0 for an answer, else the refusal's number.
    pub refused: u64,
    /// Where the refusal is.
    pub place: u64,
    /// 1 if a final state is in the set now, else 0.
    pub matches: u64,
    /// The walker after the step; after a refusal, as it came.
    pub walker: Walker,
}

/// What `gc_step_lent`, `gc_follow` and `gc_follow_rows` answer.
#[repr(C)]
#[derive(Debug, Clone, Copy, Default, PartialEq, Eq)]
pub struct Moved {
    /// 0 for an answer, else the refusal's number.
    pub refused: u64,
    /// Where the refusal is.
    pub place: u64,
    /// 1 if a final state is in the set after the letter, or after all of them; else 0.
    pub matches: u64,
}

/// What `gc_rows_of` and `gc_table_of` answer.
#[repr(C)]
#[derive(Debug, Clone, Copy, Default, PartialEq, Eq)]
pub struct Done {
    /// 0 for an answer, else the refusal's number.
    pub refused: u64,
    /// Where the refusal is.
    pub place: u64,
}

/// What `gc_read_model` answers.
#[repr(C)]
#[derive(Debug, Clone, Copy, Default, PartialEq, Eq)]
pub struct Model {
    /// 0 for an answer, else the refusal's number.
    pub refused: u64,
    /// Where the refusal is.
    pub place: u64,
    /// The number of states.
    pub states: u64,
}

/// What `gc_lasting` answers.
#[repr(C)]
#[derive(Debug, Clone, Copy, Default, PartialEq, Eq)]
pub struct Lasts {
    /// 0 for an answer, else the refusal's number.
    pub refused: u64,
    /// Where the refusal is.
    pub place: u64,
    /// The number of states.
    pub states: u64,
    /// The states from which an endless run leaves, bit s for state s.
    pub lasting: u64,
}

/// What `gc_formula_model` answers.
#[repr(C)]
#[derive(Debug, Clone, Copy, Default, PartialEq, Eq)]
pub struct Written {
    /// 0 for an answer, else the refusal's number.
    pub refused: u64,
    /// Where the refusal is.
    pub place: u64,
    /// The number of bytes that were written.
    pub length: u64,
}

/// What `gc_search` and `gc_search_trimmed` answer.
#[repr(C)]
#[derive(Debug, Clone, Copy, Default, PartialEq, Eq)]
pub struct Searched {
    /// 0 for an answer, else the refusal's number.
    pub refused: u64,
    /// Where the refusal is.
    pub place: u64,
    /// 1 if some run matches, else 0.
    pub found: u64,
    /// The number of states of the shown run.
    pub length: u64,
    /// The number of pairs of a model state and a table state that were reached.
    pub pairs: u64,
    /// The propositions that the rule names, bit i for proposition i.
    pub uses: u64,
}

/// What `gc_trim` answers.
#[repr(C)]
#[derive(Debug, Clone, Copy, Default, PartialEq, Eq)]
pub struct Trimmed {
    /// 0 for an answer, else the refusal's number.
    pub refused: u64,
    /// Where the refusal is.
    pub place: u64,
    /// The number of states that are left.
    pub weight: u64,
    /// The set of final states at their new numbers, bit q for state q.
    pub finals: u64,
}

/// What `gc_read_text` and `gc_write_text` answer.
#[repr(C)]
#[derive(Debug, Clone, Copy, Default, PartialEq, Eq)]
pub struct Text {
    /// 0 for an answer, else the refusal's number.
    pub refused: u64,
    /// Where the refusal is.
    pub place: u64,
    /// The number of bytes, or of characters, that were written.
    pub length: u64,
    /// The number of states of the rule's table.
    pub weight: u64,
    /// The propositions that the rule names, bit i for proposition i.
    pub uses: u64,
}

/// What a search is lent. Each slice wants [`ENTRIES`](crate::ENTRIES) entries or more.
#[derive(Debug)]
pub struct Lent<'a> {
    /// Takes the rule's table.
    pub table: &'a mut [u64],
    /// Working space; its first 4,096 entries are 0 after an answer.
    pub work1: &'a mut [u16],
    /// Working space; its first 4,096 entries are 0 after an answer.
    pub work2: &'a mut [u16],
    /// Takes the shown run.
    pub run: &'a mut [u8],
}

mod c {
    use super::{
        Built, Done, Judged, Lasts, Model, Moved, Rule, Searched, Stepped, Text, Trimmed, Walker,
        Written,
    };

    extern "C" {
        pub fn gc_read_rule(rule: *const u8, rule_len: usize) -> Rule;
        pub fn gc_build(
            rule: *const u8,
            rule_len: usize,
            table: *mut u64,
            table_len: usize,
        ) -> Built;
        pub fn gc_judge(
            rule: *const u8,
            rule_len: usize,
            letters: *const u8,
            letters_len: usize,
        ) -> Judged;
        pub fn gc_start(finals: u64) -> Walker;
        pub fn gc_step(walker: Walker, table: *const u64, table_len: usize, letter: u8) -> Stepped;
        pub fn gc_step_lent(
            walker: *mut Walker,
            table: *const u64,
            table_len: usize,
            letter: u8,
        ) -> Moved;
        pub fn gc_follow(
            table: *const u64,
            table_len: usize,
            finals: u64,
            letters: *const u8,
            letters_len: usize,
        ) -> Moved;
        pub fn gc_rows_of(
            table: *const u64,
            table_len: usize,
            rows: *mut u64,
            rows_len: usize,
        ) -> Done;
        pub fn gc_table_of(
            rows: *const u64,
            rows_len: usize,
            table: *mut u64,
            table_len: usize,
        ) -> Done;
        pub fn gc_step_rows(
            walker: Walker,
            rows: *const u64,
            rows_len: usize,
            letter: u8,
        ) -> Stepped;
        pub fn gc_follow_rows(
            rows: *const u64,
            rows_len: usize,
            finals: u64,
            letters: *const u8,
            letters_len: usize,
        ) -> Moved;
        pub fn gc_read_model(model: *const u8, model_len: usize) -> Model;
        pub fn gc_formula_model(
            formulas: *const u8,
            formulas_len: usize,
            model: *mut u8,
            model_len: usize,
        ) -> Written;
        pub fn gc_lasting(model: *const u8, model_len: usize) -> Lasts;
        pub fn gc_search(
            rule: *const u8,
            rule_len: usize,
            model: *const u8,
            model_len: usize,
            table: *mut u64,
            table_len: usize,
            work1: *mut u16,
            work1_len: usize,
            work2: *mut u16,
            work2_len: usize,
            run: *mut u8,
            run_len: usize,
        ) -> Searched;
        pub fn gc_trim(table: *mut u64, table_len: usize, weight: u64, finals: u64) -> Trimmed;
        pub fn gc_search_trimmed(
            rule: *const u8,
            rule_len: usize,
            model: *const u8,
            model_len: usize,
            table: *mut u64,
            table_len: usize,
            work1: *mut u16,
            work1_len: usize,
            work2: *mut u16,
            work2_len: usize,
            run: *mut u8,
            run_len: usize,
        ) -> Searched;
        pub fn gc_rulecheck(
            input: *const u8,
            input_len: usize,
            out: *mut u8,
            out_len: usize,
        ) -> u64;
        pub fn gc_read_text(text: *const u8, text_len: usize, out: *mut u8, out_len: usize)
            -> Text;
        pub fn gc_write_text(
            rule: *const u8,
            rule_len: usize,
            out: *mut u8,
            out_len: usize,
        ) -> Text;
    }
}

// Every SAFETY line below leans on this: a slice's pointer is never null, not even that of an empty slice; pointer
// and count are of one live borrow that outlasts the call; what is lent for writing is borrowed alone.

/// The second slice, or a copy of it where it shares bytes with the first, which safe code may ask for and the header
/// does not allow.
fn apart<'a, T>(first: &[T], second: &'a [u8]) -> Cow<'a, [u8]> {
    let (a, b) = (first.as_ptr_range(), second.as_ptr_range());
    if a.start.cast() < b.end && b.start < a.end.cast() {
        Cow::Owned(second.to_vec())
    } else {
        Cow::Borrowed(second)
    }
}

/// `gc_read_rule`: what is known of a rule.
pub fn read_rule(rule: &[u8]) -> Rule {
    // SAFETY: one slice that is only read.
    unsafe { c::gc_read_rule(rule.as_ptr(), rule.len()) }
}

/// `gc_build`: the rule's table into a lent slice.
pub fn build(rule: &[u8], table: &mut [u64]) -> Built {
    // SAFETY: `table` is borrowed alone, so it does not overlap `rule`.
    unsafe { c::gc_build(rule.as_ptr(), rule.len(), table.as_mut_ptr(), table.len()) }
}

/// `gc_judge`: whether a rule accepts some letters.
pub fn judge(rule: &[u8], letters: &[u8]) -> Judged {
    let letters = apart(rule, letters);
    // SAFETY: two slices that are only read, and that do not overlap.
    unsafe { c::gc_judge(rule.as_ptr(), rule.len(), letters.as_ptr(), letters.len()) }
}

/// `gc_start`: a fresh walker.
pub fn start(finals: u64) -> Walker {
    // SAFETY: nothing is lent.
    unsafe { c::gc_start(finals) }
}

/// `gc_step`: one step of a walker, which is given back.
pub fn step(walker: Walker, table: &[u64], letter: u8) -> Stepped {
    // SAFETY: one slice that is only read.
    unsafe { c::gc_step(walker, table.as_ptr(), table.len(), letter) }
}

/// `gc_step_lent`: the same where the walker stands.
pub fn step_lent(walker: &mut Walker, table: &[u64], letter: u8) -> Moved {
    // SAFETY: `walker` is borrowed alone, so it does not overlap `table`, which is only read.
    unsafe { c::gc_step_lent(walker, table.as_ptr(), table.len(), letter) }
}

/// `gc_follow`: whether a fresh walker matches at the end of a whole sequence.
pub fn follow(table: &[u64], finals: u64, letters: &[u8]) -> Moved {
    let letters = apart(table, letters);
    // SAFETY: two slices that are only read, and that do not overlap.
    unsafe {
        c::gc_follow(
            table.as_ptr(),
            table.len(),
            finals,
            letters.as_ptr(),
            letters.len(),
        )
    }
}

/// `gc_rows_of`: the rows by letter of a table into a lent slice.
pub fn rows_of(table: &[u64], rows: &mut [u64]) -> Done {
    // SAFETY: `rows` is borrowed alone, so it does not overlap `table`.
    unsafe { c::gc_rows_of(table.as_ptr(), table.len(), rows.as_mut_ptr(), rows.len()) }
}

/// `gc_table_of`: the table that has these rows into a lent slice.
pub fn table_of(rows: &[u64], table: &mut [u64]) -> Done {
    // SAFETY: `table` is borrowed alone, so it does not overlap `rows`.
    unsafe { c::gc_table_of(rows.as_ptr(), rows.len(), table.as_mut_ptr(), table.len()) }
}

/// `gc_step_rows`: one step of a walker over rows by letter.
pub fn step_rows(walker: Walker, rows: &[u64], letter: u8) -> Stepped {
    // SAFETY: one slice that is only read.
    unsafe { c::gc_step_rows(walker, rows.as_ptr(), rows.len(), letter) }
}

/// `gc_follow_rows`: whether a fresh walker matches at the end of a whole sequence, over rows by letter.
pub fn follow_rows(rows: &[u64], finals: u64, letters: &[u8]) -> Moved {
    let letters = apart(rows, letters);
    // SAFETY: two slices that are only read, and that do not overlap.
    unsafe {
        c::gc_follow_rows(
            rows.as_ptr(),
            rows.len(),
            finals,
            letters.as_ptr(),
            letters.len(),
        )
    }
}

/// `gc_read_model`: what is known of a model.
pub fn read_model(model: &[u8]) -> Model {
    // SAFETY: one slice that is only read.
    unsafe { c::gc_read_model(model.as_ptr(), model.len()) }
}

/// `gc_formula_model`: the model of two formulas into a lent slice.
pub fn formula_model(formulas: &[u8], model: &mut [u8]) -> Written {
    // SAFETY: `model` is borrowed alone, so it does not overlap `formulas`.
    unsafe {
        c::gc_formula_model(
            formulas.as_ptr(),
            formulas.len(),
            model.as_mut_ptr(),
            model.len(),
        )
    }
}

/// `gc_lasting`: the states of a model from which an endless run leaves.
pub fn lasting(model: &[u8]) -> Lasts {
    // SAFETY: one slice that is only read.
    unsafe { c::gc_lasting(model.as_ptr(), model.len()) }
}

/// A call that searches: both take the same.
type Searching = unsafe extern "C" fn(
    *const u8,
    usize,
    *const u8,
    usize,
    *mut u64,
    usize,
    *mut u16,
    usize,
    *mut u16,
    usize,
    *mut u8,
    usize,
) -> Searched;

fn searched(call: Searching, rule: &[u8], model: &[u8], lent: &mut Lent<'_>) -> Searched {
    let model = apart(rule, model);
    // SAFETY: the four lent slices are each borrowed alone, so they overlap neither each other nor what is read; and
    // the two that are read do not overlap.
    unsafe {
        call(
            rule.as_ptr(),
            rule.len(),
            model.as_ptr(),
            model.len(),
            lent.table.as_mut_ptr(),
            lent.table.len(),
            lent.work1.as_mut_ptr(),
            lent.work1.len(),
            lent.work2.as_mut_ptr(),
            lent.work2.len(),
            lent.run.as_mut_ptr(),
            lent.run.len(),
        )
    }
}

/// `gc_search`: the first shortest run of the model that matches the rule.
pub fn search(rule: &[u8], model: &[u8], lent: &mut Lent<'_>) -> Searched {
    searched(c::gc_search, rule, model, lent)
}

/// `gc_search_trimmed`: the same over the rule's table as it is trimmed.
pub fn search_trimmed(rule: &[u8], model: &[u8], lent: &mut Lent<'_>) -> Searched {
    searched(c::gc_search_trimmed, rule, model, lent)
}

/// `gc_trim`: the states that do no work out of a lent table.
pub fn trim(table: &mut [u64], weight: u64, finals: u64) -> Trimmed {
    // SAFETY: one slice, borrowed alone.
    unsafe { c::gc_trim(table.as_mut_ptr(), table.len(), weight, finals) }
}

/// `gc_rulecheck`: the line that the program rulecheck prints, without its newline; the answer is its length.
pub fn rulecheck(input: &[u8], out: &mut [u8]) -> u64 {
    // SAFETY: `out` is borrowed alone, so it does not overlap `input`.
    unsafe { c::gc_rulecheck(input.as_ptr(), input.len(), out.as_mut_ptr(), out.len()) }
}

/// `gc_read_text`: the bytes of a text's rule into a lent slice.
pub fn read_text(text: &[u8], out: &mut [u8]) -> Text {
    // SAFETY: `out` is borrowed alone, so it does not overlap `text`.
    unsafe { c::gc_read_text(text.as_ptr(), text.len(), out.as_mut_ptr(), out.len()) }
}

/// `gc_write_text`: the text of a rule's bytes into a lent slice.
pub fn write_text(rule: &[u8], out: &mut [u8]) -> Text {
    // SAFETY: `out` is borrowed alone, so it does not overlap `rule`.
    unsafe { c::gc_write_text(rule.as_ptr(), rule.len(), out.as_mut_ptr(), out.len()) }
}

#[cfg(test)]
mod tests {
    use super::*;

    #[test]
    fn slices_that_share_bytes_are_copied() {
        let bytes = [0x11; 8];
        assert!(matches!(apart(&bytes[..4], &bytes[4..]), Cow::Borrowed(_)));
        assert!(matches!(apart(&bytes[4..], &bytes[..4]), Cow::Borrowed(_)));
        assert!(matches!(apart(&bytes[..5], &bytes[4..]), Cow::Owned(_)));
        assert!(matches!(apart(&bytes, &bytes[2..3]), Cow::Owned(_)));
        assert_eq!(*apart(&bytes, &bytes), bytes);
        assert!(matches!(apart::<u8>(&[], &[]), Cow::Borrowed(_)));
    }

    /// The header says so; Rust's own empty slices are never null.
    #[test]
    fn null_with_the_count_0_is_a_slice() {
        use std::ptr::{null, null_mut};
        let mut lent = Lent {
            table: &mut [],
            work1: &mut [],
            work2: &mut [],
            run: &mut [],
        };
        let empty = [0x11];
        let rule = (empty.as_ptr(), empty.len());
        let (n, m) = (null(), null_mut());
        // SAFETY: NULL with the count 0 is a slice.
        unsafe {
            assert_eq!(c::gc_read_rule(n, 0), read_rule(&[]));
            assert_eq!(c::gc_build(n, 0, null_mut(), 0), build(&[], &mut []));
            let built = c::gc_build(rule.0, rule.1, null_mut(), 0);
            assert_eq!(built, build(&empty, &mut []));
            assert_eq!(c::gc_judge(rule.0, rule.1, n, 0), judge(&empty, &[]));
            let fresh = start(1);
            assert_eq!(c::gc_step(fresh, null(), 0, 0), step(fresh, &[], 0));
            let mut walker = fresh;
            let moved = c::gc_step_lent(&mut walker, null(), 0, 0);
            assert_eq!((moved.refused, walker), (21, fresh));
            assert_eq!(c::gc_follow(null(), 0, 1, n, 0), follow(&[], 1, &[]));
            assert_eq!(
                c::gc_rows_of(null(), 0, null_mut(), 0),
                rows_of(&[], &mut [])
            );
            assert_eq!(
                c::gc_table_of(null(), 0, null_mut(), 0),
                table_of(&[], &mut [])
            );
            assert_eq!(
                c::gc_step_rows(fresh, null(), 0, 0),
                step_rows(fresh, &[], 0)
            );
            assert_eq!(
                c::gc_follow_rows(null(), 0, 1, n, 0),
                follow_rows(&[], 1, &[])
            );
            assert_eq!(c::gc_read_model(n, 0), read_model(&[]));
            assert_eq!(c::gc_lasting(n, 0), lasting(&[]));
            let written = c::gc_formula_model(n, 0, null_mut(), 0);
            assert_eq!(written, formula_model(&[], &mut []));
            let (w1, w2) = (null_mut(), null_mut());
            let searched = c::gc_search(rule.0, rule.1, n, 0, null_mut(), 0, w1, 0, w2, 0, m, 0);
            assert_eq!(searched, search(&empty, &[], &mut lent));
            let (w1, w2) = (null_mut(), null_mut());
            let searched =
                c::gc_search_trimmed(rule.0, rule.1, n, 0, null_mut(), 0, w1, 0, w2, 0, m, 0);
            assert_eq!(searched, search_trimmed(&empty, &[], &mut lent));
            assert_eq!(c::gc_trim(null_mut(), 0, 1, 1), trim(&mut [], 1, 1));
            assert_eq!(c::gc_rulecheck(n, 0, m, 0), 0);
        }
        assert_eq!(judge(&empty, &[]).accepts, 1);
    }
}
