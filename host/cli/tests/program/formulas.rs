//! Models by formulas, on generated formulas: what is read is what they say.

use gongcollar::Workspace;
use gongcollar_cli::model::{text, Model, State};
use gongcollar_cli::warnings::Surveyed;
use proptest::prelude::*;

/// A formula as it is drawn.
#[derive(Debug, Clone)]
enum Drawn {
    Is(bool),
    Now(usize),
    Next(usize),
    Not(Box<Drawn>),
    And(Box<Drawn>, Box<Drawn>),
    Or(Box<Drawn>, Box<Drawn>),
}

use Drawn::{And, Is, Next, Not, Now, Or};

const WORDS: [&str; 4] = ["written", "step", "p2", "nexts"];

/// A formula of at most 32 operands, so that two of them have room.
fn drawn(with_next: bool) -> impl Strategy<Value = Drawn> {
    let next = move |number| if with_next { Next(number) } else { Now(number) };
    let leaf = prop_oneof![
        1 => any::<bool>().prop_map(Is),
        4 => (0usize..6).prop_map(Now),
        4 => (0usize..6).prop_map(next),
    ];
    leaf.prop_recursive(5, 24, 2, |inner| {
        let two = (inner.clone(), inner.clone());
        prop_oneof![
            inner.prop_map(|one| Not(Box::new(one))),
            two.clone().prop_map(|(a, b)| And(Box::new(a), Box::new(b))),
            two.prop_map(|(a, b)| Or(Box::new(a), Box::new(b))),
        ]
    })
}

impl Drawn {
    fn holds(&self, now: usize, next: usize) -> bool {
        match self {
            Is(value) => *value,
            Now(number) => now >> number & 1 == 1,
            Next(number) => next >> number & 1 == 1,
            Not(one) => !one.holds(now, next),
            And(a, b) => a.holds(now, next) && b.holds(now, next),
            Or(a, b) => a.holds(now, next) || b.holds(now, next),
        }
    }

    fn named(&self) -> u64 {
        match self {
            Is(_) => 0,
            Now(number) | Next(number) => 1 << number,
            Not(one) => one.named(),
            And(a, b) | Or(a, b) => a.named() | b.named(),
        }
    }

    /// The text, with a blank between each two parts or with none.
    fn typed(&self, blank: &str, numbered: bool) -> String {
        let word = |number: usize| match WORDS.get(number) {
            Some(name) if !numbered => name.to_string(),
            _ => format!("p{number}"),
        };
        let typed = |part: &Drawn| part.typed(blank, numbered);
        match self {
            Is(value) => value.to_string(),
            Now(number) => word(*number),
            Next(number) => ["next", "(", &word(*number), ")"].join(blank),
            Not(one) => ["!", &typed(one)].join(blank),
            And(a, b) => ["(", &typed(a), "&", &typed(b), ")"].join(blank),
            Or(a, b) => ["(", &typed(a), "|", &typed(b), ")"].join(blank),
        }
    }

    /// The safe crate's formula.
    fn formula(&self) -> gongcollar::Formula {
        match self {
            Is(true) => gongcollar::Formula::truth(),
            Is(false) => gongcollar::Formula::falsehood(),
            Now(number) => gongcollar::Formula::now(*number as u8),
            Next(number) => gongcollar::Formula::next(*number as u8),
            Not(one) => !one.formula(),
            And(a, b) => a.formula() & b.formula(),
            Or(a, b) => a.formula() | b.formula(),
        }
    }
}

/// The states that two formulas say, each asked for by itself.
fn said(initial: &Drawn, step: &Drawn) -> Vec<State> {
    let state = |now: usize| State {
        letter: now as u8,
        initial: initial.holds(now, 0),
        successors: (0..64)
            .filter(|&next| step.holds(now, next))
            .fold(0, |set, next| set | 1 << next),
    };
    (0..64).map(state).collect()
}

fn typed(initial: &Drawn, step: &Drawn, blank: &str, numbered: bool, turned: bool) -> String {
    let line = |word: &str, formula: &Drawn| {
        let formula = formula.typed(blank, numbered);
        format!("{blank}{word}{blank}:{blank}{formula}{blank}# {word}: p0\r\n")
    };
    let (first, second) = (line("initial", initial), line("step", step));
    let names = format!("propositions {}\n\n", WORDS.join(" "));
    match turned {
        true => names + &second + &first,
        false => names + &first + &second,
    }
}

proptest! {
    #[test]
    fn what_was_typed_is_what_is_read(
        initial in drawn(false), step in drawn(true), blank in "[ \t]{0,2}", numbered: bool, turned: bool
    ) {
        let typed = typed(&initial, &step, &blank, numbered, turned);
        let model = Model::from_text("typed", &typed).expect("a model");
        prop_assert_eq!(model.states(), said(&initial, &step));
        prop_assert_eq!(model.named(), Some(initial.named() | step.named()));
        prop_assert_eq!(model.names().given(), WORDS);
        // Drawn, it is the same model.
        let again = Model::from_text("written", &text(&model)).expect("a model");
        prop_assert_eq!(again.bytes(), model.bytes());
    }

    /// The safe crate writes what is read here.
    #[test]
    fn a_system_is_written_as_it_is_read(initial in drawn(false), step in drawn(true)) {
        let system = gongcollar::System { initial: initial.formula(), step: step.formula() };
        let model = Model::from_text("system", &system.to_string()).expect("a model");
        let same = system.model().expect("a model");
        prop_assert_eq!(model.bytes(), same.bytes());
    }

    #[test]
    fn damaged_texts_are_read_or_refused(
        initial in drawn(false), step in drawn(true), at: prop::sample::Index, with in "[ :#!&|()p0é\n-]{0,2}"
    ) {
        let typed = typed(&initial, &step, " ", false, false);
        let cut = at.index(typed.len());
        let damaged = format!("{}{with}{}", &typed[..cut], &typed[cut + 1..]);
        if let Err(trouble) = Model::from_text("damaged", &damaged) {
            prop_assert!(!trouble.to_string().contains("gongcollar's own"), "{}", trouble);
        }
    }

    #[test]
    fn any_text_is_read_or_refused(
        initial in "(next|p0|p6|true|false|[ !&|():#a-b]){0,12}", step in "(next[(]p0[)]|p1|[ !&|()]){0,12}"
    ) {
        let text = format!("initial:{initial}\nstep:{step}\n");
        if let Err(trouble) = Model::from_text("any", &text) {
            prop_assert!(!trouble.to_string().contains("gongcollar's own"), "{}", trouble);
        }
    }
    /// What is told of a model by formulas, and drawn, is told of a part that says the rest.
    #[test]
    fn free_propositions_are_free(initial in drawn(false), step in drawn(true)) {
        let typed = typed(&initial, &step, "", true, false);
        let model = Model::from_text("typed", &typed).expect("a model");
        let surveyed = Surveyed::new(&model, &mut Workspace::new()).expect("a survey");
        let (states, all) = (model.states(), model.standing_for_all(0));
        let named = initial.named() | step.named();
        let has = |set: u64, state: usize| set >> state & 1 == 1;
        for (at, state) in states.iter().enumerate() {
            let other = at & named as usize;
            prop_assert!(has(all, other));
            prop_assert_eq!(has(surveyed.entered(), at), has(surveyed.entered(), other));
            prop_assert_eq!(has(surveyed.reached(), at), has(surveyed.reached(), other));
            prop_assert_eq!(has(model.lasting(), at), has(model.lasting(), other));
            prop_assert_eq!(state.initial, states[other].initial);
            prop_assert_eq!(state.successors & all, states[other].successors & all);
        }
        let warnings = surveyed.of_model();
        let warned = |kind: &str| warnings.iter().any(|warning| warning.kind == kind);
        prop_assert_eq!(warned("dead-ends"), surveyed.entered() & !model.lasting() != 0);
        prop_assert_eq!(warned("no-run"), surveyed.reached() == 0);
        prop_assert!(!warned("unreached"));
    }
}
