//! A host's day: a record for each of many clinics with its walker in it, stepped where it stands as events come in.

use crate::report::Outcome;
use crate::trials::Trials;
use cases::Draws;
use gongcollar::{Refusal, Rows, Rule, Table, Walker};

/// How many clinics the host has.
const CLINICS: usize = 10_000;
/// How many events come in from each, in the mean: one for each quarter of an hour.
const EVENTS: usize = 96;
/// The events of one clinic in so many are held to the published definition too.
const JUDGED: usize = 100;
/// Quarter-hour values are deleted although the hourly ones were not verified after they were last written.
const RULE: &str = "{{true}[*];{p0;{{!p1}[*];p2}}}";

/// What the host keeps of a clinic.
#[derive(Debug)]
struct Clinic {
    walker: Walker,
    /// The same, stepped over the table's rows.
    by_rows: Walker,
    /// What the plain library says of the same events.
    plain: plain::Walker,
    /// The events that were taken.
    taken: Vec<u8>,
    /// The first difference.
    fault: Option<String>,
}

/// A day of events, in the order in which they come: each from any clinic.
pub fn run(trials: &mut Trials) {
    let (rule, table) = rule_and_table().expect("a good rule");
    let rows = table.rows();
    let fresh = Clinic {
        walker: table.walker(),
        by_rows: rows.walker(),
        plain: plain::start(table.finals()),
        taken: Vec::new(),
        fault: None,
    };
    let mut clinics: Vec<Clinic> = (0..CLINICS).map(|_| fresh.copy()).collect();
    for _ in 0..CLINICS * EVENTS {
        let clinic = trials.draws.below(CLINICS);
        let event = event(&mut trials.draws);
        clinics[clinic].step(&table, &rows, event);
    }
    let read = plain::read_rule(rule.bytes()).expect("a good rule").rule;
    for (number, mut clinic) in clinics.into_iter().enumerate() {
        if number % JUDGED == 0 {
            clinic.judge(&read);
        }
        let matched = match clinic.walker.first_match() {
            Some(_) => "matched",
            None => "no match",
        };
        let fault = clinic.fault.map(|text| format!("clinic {number}: {text}"));
        let outcome = Outcome::Answer(matched);
        trials
            .report
            .note("a day", "10,000 clinics", outcome, fault);
    }
}

fn rule_and_table() -> Result<(Rule, Table), Refusal> {
    let rule: Rule = RULE.parse()?;
    let table = Table::build(rule.bytes())?;
    Ok((rule, table))
}

/// Mostly nothing, or a verification; rarely what the rule speaks of, and very rarely no letter at all.
fn event(draws: &mut Draws) -> u8 {
    match draws.below(1000) {
        0 => 64,
        1..=9 => 1,
        10..=19 => 4,
        20..=299 => 2,
        _ => 0,
    }
}

impl Clinic {
    fn copy(&self) -> Clinic {
        Clinic {
            taken: Vec::new(),
            fault: None,
            ..*self
        }
    }

    /// One event for all walkers.
    fn step(&mut self, table: &Table, rows: &Rows, event: u8) {
        let by_rows = self.by_rows.step(rows, event).map_err(|x| x.number());
        let got = self.walker.step(table, event).map_err(|x| x.number());
        let want = plain::step(self.plain, table.entries(), event);
        if let Ok((walker, _)) = want {
            self.plain = walker;
            self.taken.push(event);
        }
        let want = want.map(|(_, matches)| matches).map_err(|x| x.number);
        let same = got == want && by_rows == want && self.remembers();
        if !same && self.fault.is_none() {
            let Clinic { walker, plain, .. } = self;
            self.fault = Some(format!(
                "event {event}: got {got:?}, {walker:x?}, expected {want:?}, {plain:x?}"
            ));
        }
    }

    /// The walkers hold the same.
    fn remembers(&self) -> bool {
        let (walker, plain) = (&self.walker, &self.plain);
        let first = plain.matched.then_some(plain.first);
        self.by_rows == *walker
            && (walker.set(), walker.finals()) == (plain.set, plain.finals)
            && (walker.taken(), walker.first_match()) == (plain.taken, first)
    }

    /// The first match is at the shortest beginning that Definition 2 accepts.
    fn judge(&mut self, rule: &plain::Rule) {
        let accepted = |&n: &usize| plain::accepts(rule, &self.taken[..n]);
        let first = (0..=self.taken.len()).find(accepted);
        let got = self.walker.first_match().map(|first| first as usize);
        if got != first && self.fault.is_none() {
            self.fault = Some(format!("first match {got:?}, by Definition 2 {first:?}"));
        }
    }
}
