//! One trial for each call: an input goes through both libraries, and what they say and leave is compared.

use crate::expected;
use crate::lent::{self, difference, Slices};
use crate::report::{hex, Outcome, Report};
use cases::{letters, models, Draws};
use gongcollar::{raw, Lent, Refusal, Searched, Table, Walker, STATES};
use std::fmt::Debug;

/// The longest sequence that is walked and not judged.
const LONG_SEQUENCE: usize = 40;
/// The longest sequence that is followed at once.
pub const LONG_WALK: usize = 300;
/// The longest sequence that is judged.
const JUDGED: usize = 16;

/// A call that searches: by the book, as it is declared, and as it is safe.
struct Search {
    name: &'static str,
    expected: fn(&[u8], &[u8], &mut Slices) -> raw::Searched,
    raw: fn(&[u8], &[u8], &mut Lent<'_>) -> raw::Searched,
    safe: for<'a> fn(&[u8], &[u8], Lent<'a>) -> Result<Searched<'a>, Refusal>,
}

const WHOLE: Search = Search {
    name: "search",
    expected: expected::search,
    raw: raw::search,
    safe: gongcollar::search_into,
};

const TRIMMED: Search = Search {
    name: "search_trimmed",
    expected: expected::search_trimmed,
    raw: raw::search_trimmed,
    safe: gongcollar::search_trimmed_into,
};

/// Trials with draws of their own.
#[derive(Debug)]
pub struct Trials {
    /// Where inputs and junk are drawn from.
    pub draws: Draws,
    /// What came out so far.
    pub report: Report,
}

impl Trials {
    /// The trials of a seed.
    pub fn new(seed: u64) -> Trials {
        Trials {
            draws: Draws::new(seed),
            report: Report::default(),
        }
    }

    /// Reads a rule.
    pub fn read_rule(&mut self, sort: &'static str, rule: &[u8]) {
        let want = expected::read_rule(rule);
        let got = raw::read_rule(rule);
        let safe = gongcollar::read_rule(rule).map(|x| (x.weight, x.uses.bits()));
        let fault = unlike(got, want)
            .or_else(|| unlike_safe(safe, want.refused, want.place, (want.weight, want.uses)));
        let fault = fault.map(|text| format!("rule {}: {text}", hex(rule)));
        let outcome = Outcome::of(want.refused, "accepted");
        self.report.note("read_rule", sort, outcome, fault);
    }

    /// Builds a rule's table over junk.
    pub fn build(&mut self, sort: &'static str, rule: &[u8]) {
        let mut table = lent::table(&mut self.draws);
        let mut expected_table = table.clone();
        let mut safe_table = table.clone();
        let want = expected::build(rule, &mut expected_table);
        let got = raw::build(rule, &mut table);
        let safe = gongcollar::build_into(rule, &mut safe_table)
            .map(|x| ((x.weight, x.finals), x.uses.bits()));
        let fault = unlike(got, want)
            .or_else(|| difference("table", &table, &expected_table))
            .or_else(|| {
                unlike_safe(
                    safe,
                    want.refused,
                    want.place,
                    ((want.weight, want.finals), want.uses),
                )
            })
            .or_else(|| difference("safe table", &safe_table, &expected_table));
        let fault =
            fault.map(|text| format!("rule {}, {} entries: {text}", hex(rule), table.len()));
        let outcome = Outcome::of(want.refused, "built");
        self.report.note("build", sort, outcome, fault);
    }

    /// Judges letters.
    pub fn judge(&mut self, sort: &'static str, rule: &[u8], letters: &[u8]) {
        let want = expected::judge(rule, letters);
        let got = raw::judge(rule, letters);
        let safe = gongcollar::judge(rule, letters);
        let fault = unlike(got, want)
            .or_else(|| unlike_safe(safe, want.refused, want.place, want.accepts == 1));
        let fault =
            fault.map(|text| format!("rule {}, letters {}: {text}", hex(rule), hex(letters)));
        let outcome = Outcome::of(want.refused, yes_or_no(want.accepts == 1));
        self.report.note("judge", sort, outcome, fault);
    }

    /// Starts a walker.
    pub fn start(&mut self, sort: &'static str, finals: u64) {
        let want = expected::start(finals);
        let fault = unlike(raw::start(finals), want)
            .or_else(|| unlike(Walker::start(finals), want.into()))
            .map(|text| format!("finals {finals:x}: {text}"));
        let outcome = Outcome::Answer(yes_or_no(want.matched == 1));
        self.report.note("start", sort, outcome, fault);
    }

    /// Steps a walker over whatever labels are there, by value and where it stands.
    pub fn step(&mut self, sort: &'static str, walker: raw::Walker, labels: &[u64], letter: u8) {
        let want = expected::step(walker, labels, letter);
        let got = raw::step(walker, labels, letter);
        let mut lent = walker;
        let said = raw::step_lent(&mut lent, labels, letter);
        let mut safe = Walker::from(walker);
        let answer = safe.step(labels, letter);
        let by_value = Walker::from(walker).stepped(labels, letter);
        let by_value = by_value.map(|stepped| (stepped.walker, stepped.matches));
        let after = Walker::from(want.walker);
        let matches = want.matches == 1;
        let (refused, place) = (want.refused, want.place);
        let fault = unlike(got, want)
            .or_else(|| unlike(lent, want.walker))
            .or_else(|| {
                unlike(
                    [said.refused, said.place, said.matches],
                    [refused, place, want.matches],
                )
            })
            .or_else(|| unlike_safe(answer, refused, place, matches))
            .or_else(|| unlike(safe, after))
            .or_else(|| unlike_safe(by_value, refused, place, (after, matches)));
        let fault = fault.map(|text| {
            let entries = labels.len();
            let way = labels_into(walker.set, labels, got.walker.set ^ want.walker.set);
            format!("{walker:x?}, {entries} labels{way}, letter {letter:02X}: {text}")
        });
        let outcome = Outcome::of(want.refused, yes_or_no(matches));
        self.report.note("step", sort, outcome, fault);
    }

    /// Leads a fresh walker over whatever labels are there, through all the letters.
    pub fn follow(&mut self, sort: &'static str, labels: &[u64], finals: u64, letters: &[u8]) {
        let want = expected::follow(labels, finals, letters);
        let got = raw::follow(labels, finals, letters);
        let safe = gongcollar::follow(labels, finals, letters);
        let fault = unlike(got, want)
            .or_else(|| unlike_safe(safe, want.refused, want.place, want.matches == 1));
        let fault = fault.map(|text| {
            let entries = labels.len();
            let letters = hex(letters);
            format!("{entries} labels, finals {finals:x}, letters {letters}: {text}")
        });
        let outcome = Outcome::of(want.refused, yes_or_no(want.matches == 1));
        self.report.note("follow", sort, outcome, fault);
    }

    /// Reads a model.
    pub fn read_model(&mut self, sort: &'static str, model: &[u8]) {
        let want = expected::read_model(model);
        let got = raw::read_model(model);
        let safe = gongcollar::read_model(model).map(|read| read.states);
        let fault =
            unlike(got, want).or_else(|| unlike_safe(safe, want.refused, want.place, want.states));
        let fault = fault.map(|text| format!("model {}: {text}", hex(model)));
        let outcome = Outcome::of(want.refused, "accepted");
        self.report.note("read_model", sort, outcome, fault);
    }

    /// Asks which states of a model last.
    pub fn lasting(&mut self, sort: &'static str, model: &[u8]) {
        let want = expected::lasting(model);
        let got = raw::lasting(model);
        let safe = gongcollar::lasting(model).map(|x| (x.states, x.set));
        let fault = unlike(got, want)
            .or_else(|| unlike_safe(safe, want.refused, want.place, (want.states, want.lasting)));
        let fault = fault.map(|text| format!("model {}: {text}", hex(model)));
        let outcome = Outcome::of(want.refused, how_many(&want));
        self.report.note("lasting", sort, outcome, fault);
    }

    /// Searches a model over the whole table and over the trimmed one, over junk.
    pub fn search(&mut self, sort: &'static str, rule: &[u8], model: &[u8]) {
        for search in [WHOLE, TRIMMED] {
            self.search_by(&search, sort, rule, model);
        }
    }

    fn search_by(&mut self, search: &Search, sort: &'static str, rule: &[u8], model: &[u8]) {
        let mut slices = Slices::drawn(&mut self.draws);
        let mut expected_slices = slices.clone();
        let mut safe_slices = slices.clone();
        let want = (search.expected)(rule, model, &mut expected_slices);
        let got = (search.raw)(rule, model, &mut slices.lent());
        let safe = (search.safe)(rule, model, safe_slices.lent())
            .map(|x| (x.run.map(<[u8]>::to_vec), x.pairs, x.uses.bits()));
        let run = expected_run(&want, &expected_slices);
        let fault = unlike(got, want)
            .or_else(|| slices.difference(&expected_slices))
            .or_else(|| unlike_safe(safe, want.refused, want.place, (run, want.pairs, want.uses)))
            .or_else(|| safe_slices.difference(&expected_slices));
        let fault = fault.map(|text| {
            let lengths = slices.lengths();
            format!(
                "rule {}, model {}, slices {lengths:?}: {text}",
                hex(rule),
                hex(model)
            )
        });
        let outcome = Outcome::of(want.refused, if want.found == 1 { "found" } else { "none" });
        self.report.note(search.name, sort, outcome, fault);
    }

    /// Trims whatever labels are there, and what comes of it once more.
    pub fn trim(&mut self, sort: &'static str, labels: &[u64], weight: u64, finals: u64) {
        let mut table = labels.to_vec();
        let mut expected_table = table.clone();
        let mut safe_table = table.clone();
        let want = expected::trim(&mut expected_table, weight, finals);
        let got = raw::trim(&mut table, weight, finals);
        let safe = gongcollar::trim_into(&mut safe_table, weight, finals);
        let safe = safe.map(|trimmed| (trimmed.weight, trimmed.finals));
        let fault = unlike(got, want)
            .or_else(|| difference("table", &table, &expected_table))
            .or_else(|| {
                let answer = (want.weight, want.finals);
                unlike_safe(safe, want.refused, want.place, answer)
            })
            .or_else(|| difference("safe table", &safe_table, &expected_table))
            .or_else(|| {
                // What was trimmed is answered alike and stays as it is.
                let again =
                    (want.refused == 0).then(|| raw::trim(&mut table, got.weight, got.finals))?;
                unlike(again, want).or_else(|| difference("again", &table, &expected_table))
            });
        let fault = fault.map(|text| {
            let entries = labels.len();
            format!("{entries} labels, weight {weight}, finals {finals:x}: {text}")
        });
        let outcome = Outcome::of(
            want.refused,
            if want.weight < weight {
                "fewer"
            } else {
                "as many"
            },
        );
        self.report.note("trim", sort, outcome, fault);
    }

    /// Searches a model that has a run which the rule's table can follow.
    pub fn search_spelled(&mut self, sort: &'static str, rule: &[u8]) {
        let Ok(table) = Table::build(rule) else {
            return;
        };
        let (labels, finals) = (table.entries(), table.finals());
        let letters = letters::followed(&mut self.draws, labels, finals, STATES);
        let model = models::spelling(&mut self.draws, &letters);
        self.search(sort, rule, &model);
    }

    /// Has a line written, over junk.
    pub fn line(&mut self, sort: &'static str, input: &[u8]) {
        let mut out = lent::line(&mut self.draws);
        let mut expected_out = out.clone();
        let want = expected::rulecheck(input, &mut expected_out);
        let got = raw::rulecheck(input, &mut out);
        let safe = gongcollar::rulecheck(input);
        let fault = unlike(got, want)
            .or_else(|| difference("out", &out, &expected_out))
            .or_else(|| unlike(safe, plain::line(input)));
        let fault =
            fault.map(|text| format!("input {}, {} bytes lent: {text}", hex(input), out.len()));
        let outcome = Outcome::Answer(first_word(&expected_out, want));
        self.report.note("rulecheck", sort, outcome, fault);
    }

    /// Walks a sequence through a good rule's table, step by step and at once, and judges it where it is short enough;
    /// all are held to the published definition, and so is what the walker remembers.
    pub fn sequence(&mut self, sort: &'static str, rule: &[u8], letters: &[u8]) {
        let Ok(read) = plain::read_rule(rule) else {
            return;
        };
        let want = plain::accepts(&read.rule, letters);
        let first = (0..=letters.len()).find(|&n| plain::accepts(&read.rule, &letters[..n]));
        let walked = walked(rule, letters);
        let followed = Table::build(rule).and_then(|table| table.follow(letters));
        let remembered = (want, letters.len(), first);
        let fault = unlike(walked, Ok(remembered))
            .or_else(|| unlike(followed, Ok(want)))
            .or_else(|| {
                let judged = gongcollar::judge(rule, letters);
                (letters.len() <= JUDGED).then(|| unlike(judged, Ok(want)))?
            });
        let fault =
            fault.map(|text| format!("rule {}, letters {}: {text}", hex(rule), hex(letters)));
        let outcome = Outcome::Answer(yes_or_no(want));
        self.report.note("walk and judge", sort, outcome, fault);
    }

    /// Sequences for a good rule: along its table, beside it, and anywhere.
    pub fn sequences(&mut self, sort: &'static str, rule: &[u8]) {
        let Ok(table) = Table::build(rule) else {
            return;
        };
        let most = self.draws.one_of(&[JUDGED, JUDGED, LONG_SEQUENCE]);
        let along = letters::followed(&mut self.draws, table.entries(), table.finals(), most);
        let beside = letters::nearly(&mut self.draws, &along);
        let count = self.draws.below(JUDGED + 1);
        let anywhere = letters::good(&mut self.draws, count);
        for letters in [along, beside, anywhere] {
            self.sequence(sort, rule, &letters);
        }
    }
}

/// Where a walker through the rule's table ends: whether it matches, how many letters it took, and at how many it first
/// matched.
fn walked(rule: &[u8], letters: &[u8]) -> Result<(bool, usize, Option<usize>), Refusal> {
    let table = Table::build(rule)?;
    let mut walker = table.walker();
    let mut matches = walker.matches();
    for step in walker.steps(&table, letters) {
        matches = step?;
    }
    let first = walker.first_match().map(|first| first as usize);
    Ok((matches, walker.taken() as usize, first))
}

/// A walker that no start need have made: any sets, any count, near the largest now and then, and any mark.
pub fn any_walker(draws: &mut Draws) -> raw::Walker {
    let counts = [0, 1, 1000, u32::MAX - 5, u32::MAX - 1, u32::MAX];
    raw::Walker {
        set: draws.set(),
        finals: draws.set(),
        taken: draws.one_of(&counts),
        first: draws.one_of(&[0, 1, 7, u32::MAX]),
        matched: draws.one_of(&[0, 0, 1, 2, 1 << 31]),
    }
}

/// Letters, none or many, of which some may be none.
pub fn some_letters(draws: &mut Draws) -> Vec<u8> {
    let bound = draws.one_of(&[2, 16, LONG_WALK]);
    let count = draws.below(bound);
    letters::perhaps_bad(draws, count)
}

/// The labels from each member of the set into the lowest state that is in doubt, if any.
fn labels_into(set: u64, labels: &[u64], doubtful: u64) -> String {
    if doubtful == 0 {
        return String::new();
    }
    let to = doubtful.trailing_zeros() as usize;
    let members = (0..STATES).filter(|p| set >> p & 1 == 1);
    let label = |p| labels.get(STATES * p + to).copied().unwrap_or_default();
    let told: Vec<String> = members.map(|p| format!("{p}: {:x}", label(p))).collect();
    format!(" (into state {to} from {})", told.join(", "))
}

fn expected_run(want: &raw::Searched, slices: &Slices) -> Option<Vec<u8>> {
    (want.found == 1).then(|| slices.run[..want.length as usize].to_vec())
}

/// What was said, where it is not what should be.
pub(crate) fn unlike<T: PartialEq + Debug>(got: T, want: T) -> Option<String> {
    (got != want).then(|| format!("got {got:x?}, expected {want:x?}"))
}

/// The safe call says the same as the numbers do.
pub(crate) fn unlike_safe<T: PartialEq + Debug>(
    safe: Result<T, Refusal>,
    refused: u64,
    place: u64,
    answer: T,
) -> Option<String> {
    let safe = safe.map_err(|refusal| (refusal.number(), refusal.place()));
    let want = match refused {
        0 => Ok(answer),
        number => Err((number, place)),
    };
    unlike(safe, want)
}

/// Whether all states last, some or none.
fn how_many(lasts: &raw::Lasts) -> &'static str {
    match u64::from(lasts.lasting.count_ones()) {
        0 => "none",
        all if all == lasts.states => "all",
        _ => "some",
    }
}

pub(crate) fn yes_or_no(yes: bool) -> &'static str {
    if yes {
        "yes"
    } else {
        "no"
    }
}

/// What a line begins with, for counting.
fn first_word(out: &[u8], length: u64) -> &'static str {
    let words = ["found", "none", "refused"];
    match length {
        0 => "no room",
        _ => words
            .into_iter()
            .find(|word| out.starts_with(word.as_bytes()))
            .unwrap_or("another line"),
    }
}

#[cfg(test)]
mod tests {
    use super::*;

    #[test]
    fn the_labels_in_doubt_are_told() {
        let mut labels = vec![0; STATES * STATES];
        labels[STATES + 3] = 0xF0;
        assert_eq!(labels_into(0b11, &labels, 0), "");
        let told = labels_into(0b11, &labels, 0b1000);
        assert_eq!(told, " (into state 3 from 0: 0, 1: f0)");
    }

    #[test]
    fn a_difference_is_told_and_sameness_is_not() {
        assert_eq!(unlike(1, 1), None);
        assert_eq!(unlike(10, 1), Some("got a, expected 1".to_string()));
        assert_eq!(unlike_safe(Ok(3), 0, 0, 3), None);
        assert!(unlike_safe(Ok(3), 7, 0, 3).is_some());
    }
}
