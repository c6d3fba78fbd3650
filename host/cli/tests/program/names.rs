//! Names in rules, and what is said of models, on generated inputs.

use cases::{models, rules, texts, Draws};
use gongcollar::{Rule, Workspace};
use gongcollar_cli::model::{Model, State};
use gongcollar_cli::names::Names;
use gongcollar_cli::rules::{argument, named, rename, Ready};
use gongcollar_cli::warnings::Surveyed;

fn names() -> Names {
    let words = ["expire", "thin", "p2", "truly", "p", "x_1"];
    Names::new(words.map(String::from).to_vec(), Vec::new())
}

/// A rule written with names is the rule.
#[test]
fn a_rule_in_names_is_the_same_rule() {
    let mut draws = Draws::new(2101);
    for _ in 0..2000 {
        let rule = Rule::from_bytes(&rules::accepted(&mut draws)).expect("a rule");
        let text = named(&rule, &names()).expect("its text in names");
        let ready = Ready::read(&argument("rule", &text), &names(), false);
        assert_eq!(ready.expect("a rule").rule, rule, "{text}");
    }
}

/// A refusal has the proved reader's number, and its place in what was typed; of a word that names nothing, where the
/// word begins.
#[test]
fn a_refusal_stands_where_the_proved_reader_has_it() {
    let mut draws = Draws::new(2102);
    let (mut refused, mut same, mut in_names) = (0, 0, 0);
    while refused < 3000 {
        let rule = Rule::from_bytes(&rules::accepted(&mut draws)).expect("a rule");
        let damaged = texts::damaged(&mut draws, rule.to_string().as_bytes());
        let Ok(damaged) = String::from_utf8(damaged) else {
            continue;
        };
        let typed = argument("rule", &damaged);
        // Blanks around a rule are no part of it, and a name before it is its own.
        if typed.text != damaged {
            continue;
        }
        let proved = Rule::from_text(&damaged);
        match (&proved, Ready::read(&typed, &Names::default(), false)) {
            (Ok(rule), Ok(ready)) => assert_eq!(ready.rule, *rule),
            (Err(proved), Err(told)) => {
                refused += 1;
                assert_eq!(told.refusal, Some(*proved), "{damaged}");
                let place = proved.place() as usize;
                same += usize::from(told.offset == place);
                let word = &damaged[told.offset..place];
                assert!(
                    word.bytes().all(|byte| byte.is_ascii_alphanumeric()),
                    "{damaged}"
                );
                in_names += usize::from(name_place(&damaged) == Some(place));
            }
            (proved, told) => panic!("{damaged}: {proved:?}, and {told:?}"),
        }
    }
    assert!(same > 2000 && in_names > 1000, "{same} {in_names}");
}

/// The place that the same text is refused at with names in it, led back to the text without.
fn name_place(damaged: &str) -> Option<usize> {
    let typed = argument("rule", &rename(damaged, &names()));
    let told = Ready::read(&typed, &names(), false).err()?;
    let before = &typed.text[..told.offset];
    (0..=damaged.len())
        .find(|&end| damaged.is_char_boundary(end) && rename(&damaged[..end], &names()) == before)
}

/// The states that runs reach, by going from the initial ones over those that last.
fn reached(states: &[State], lasting: u64) -> u64 {
    let initial = states.iter().enumerate().filter(|(_, state)| state.initial);
    let mut set = initial.fold(0, |set, (at, _)| set | 1 << at) & lasting;
    loop {
        let within = states
            .iter()
            .enumerate()
            .filter(|(at, _)| set >> at & 1 == 1);
        let next = within.fold(set, |next, (_, state)| next | state.successors & lasting);
        if next == set {
            return set;
        }
        set = next;
    }
}

#[test]
fn the_states_that_runs_reach() {
    let mut draws = Draws::new(2103);
    let mut workspace = Workspace::new();
    for _ in 0..300 {
        let bytes = models::accepted(&mut draws);
        let model = Model::from_bytes("drawn", &bytes).expect("a model");
        let lasting = plain::lasting(&bytes).expect("a model").set;
        let surveyed = Surveyed::new(&model, &mut workspace).expect("a survey");
        assert_eq!(surveyed.reached(), reached(&model.states(), lasting));
        let kinds: Vec<&str> = surveyed
            .of_model()
            .iter()
            .map(|warning| warning.kind)
            .collect();
        assert_eq!(kinds.contains(&"dead-ends"), lasting != model.all());
        let none = surveyed.reached() == 0;
        assert_eq!(kinds.contains(&"no-run"), none);
        assert_eq!(
            kinds.contains(&"unreached"),
            !none && surveyed.reached() != lasting
        );
    }
}
