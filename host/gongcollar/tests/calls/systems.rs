//! Models given by formulas: what is written, every refusal, and what becomes of the output.

use cases::hostile::nested;
use cases::rules::kind::*;
use cases::systems::{counter, system};
use gongcollar::{formula_model, formula_model_into, raw, read_model, rulecheck, Workspace};
use gongcollar::{Formula, Model, Refusal, Rule, System, FORMULAS_BYTES, MODEL_BYTES};

fn refused(formulas: &[u8], expected: Refusal, number: u64) {
    let refusal = formula_model(formulas).unwrap_err();
    assert_eq!(refusal, expected, "{formulas:x?}");
    assert_eq!(refusal.number(), number);
    // Nothing is written, and a short output says nothing before all else is well.
    for length in [0, MODEL_BYTES - 1, MODEL_BYTES, 720] {
        let mut out = vec![7; length];
        assert_eq!(formula_model_into(formulas, &mut out), Err(expected));
        assert_eq!(out, vec![7; length]);
    }
}

#[test]
fn faulty_formulas_are_refused_at_their_first_fault() {
    refused(&[0xFF; 256], Refusal::FormulasTooLong { place: 0 }, 9);
    let nots = |count| system(&nested(NOT, count, &[TRUE]), &[TRUE]);
    refused(&nots(252), Refusal::FormulasTooLong { place: 0 }, 9);
    assert_eq!(nots(251).len(), FORMULAS_BYTES);
    assert!(formula_model(&nots(251)).is_ok());
    for (formulas, place) in [(&[][..], 0), (&[0x30, 0x01], 2), (&[0x30, 0x02, 0x31], 3)] {
        refused(formulas, Refusal::RuleEnded { place }, 2);
    }
    for (formulas, place) in [(&[0x20][..], 0), (&[0x30, 0x08], 1), (&[0x30, 2, 0x1B], 2)] {
        refused(formulas, Refusal::UnknownKind { place }, 3);
    }
    for (formulas, place) in [
        (&[0x01][..], 0),
        (&[0x31], 0),
        (&[0x30, 0x07, 0x00, 0x31, 0x02], 1),
        (&[0x30, 0x1A], 1),
        (&[0x30, 0x02, 0x30], 2),
        (&[0x30, 0x02, 0x31, 0x31], 3),
    ] {
        refused(formulas, Refusal::WrongSort { place }, 4);
    }
    for (formulas, place) in [
        (&[0x30, 0x01, 0x06, 0xFF][..], 2),
        (&[0x30, 0x02, 0x31, 0x07, 0x06], 4),
    ] {
        refused(formulas, Refusal::UnknownProposition { place }, 5);
    }
    let more = [0x30, 0x02, 0x31, 0x07, 0x05, 0x31];
    refused(&more, Refusal::BytesAfterRule { place: 5 }, 6);
}

#[test]
fn a_short_output_is_refused_last() {
    for length in [0, 1, MODEL_BYTES - 1] {
        let mut out = vec![7; length];
        let refusal = formula_model_into(&counter(), &mut out).unwrap_err();
        assert_eq!(refusal, Refusal::ShortSlice { place: 0 });
        assert_eq!(out, vec![7; length]);
        let written = raw::Written {
            refused: 21,
            ..Default::default()
        };
        assert_eq!(raw::formula_model(&counter(), &mut out), written);
    }
}

#[test]
fn the_output_past_the_model_stays() {
    let mut out = [7; MODEL_BYTES + 16];
    let model = formula_model_into(&counter(), &mut out).unwrap().to_vec();
    assert_eq!(out[..MODEL_BYTES], model);
    assert!(out[MODEL_BYTES..].iter().all(|&byte| byte == 7));
    assert_eq!(formula_model(&counter()).unwrap().bytes(), model);
    assert_eq!(read_model(&model).unwrap().states, 64);
}

#[test]
fn a_counter_goes_round() {
    let model = formula_model(&counter()).unwrap();
    assert_eq!((model.states(), model.initial()), (64, 1));
    for x in 0..64 {
        assert_eq!(model.letter(x), Some(x as u8));
        assert_eq!(model.successors(x), 1 << ((x + 1) % 64));
    }
    assert_eq!((model.letter(64), model.successors(64)), (None, 0));
    // All bits set, for the first time after 64 states.
    let rule: Rule = "{{true}[*];(p0&(p1&(p2&(p3&(p4&p5)))))}".parse().unwrap();
    let mut workspace = Workspace::new();
    let found = workspace.search(rule.bytes(), model.bytes()).unwrap();
    assert!(found.run.is_some_and(|run| run.iter().copied().eq(0..64)));
}

#[test]
fn true_is_all_and_false_is_nothing() {
    let all = formula_model(&[0x30, 0x02, 0x31, 0x02]).unwrap();
    assert_eq!(all.initial(), u64::MAX);
    assert!((0..64).all(|x| all.successors(x) == u64::MAX));
    let none = formula_model(&[0x30, 0x03, 0x31, 0x03]).unwrap();
    assert_eq!(none.initial(), 0);
    assert!((0..64).all(|x| none.successors(x) == 0));
    let line = |model: &Model| rulecheck(&[&[2, 0x10, 0x02], model.bytes()].concat());
    assert_eq!(line(&all), "found 1 pairs 64: 0 uses -");
    assert_eq!(line(&none), "none pairs 0 uses -");
}

/// What the builder spells is what the bytes of the same formulas say.
#[test]
fn the_builder_spells_formulas() {
    let turns = |bit: u8| Formula::next(bit) ^ Formula::now(bit);
    let falls = |bit: u8| Formula::now(bit) & !Formula::next(bit);
    let counter = System {
        initial: Formula::all((0..6).map(|bit| !Formula::now(bit))),
        step: turns(0) & Formula::all((1..6).map(|bit| turns(bit).iff(falls(bit - 1)))),
    };
    assert!(counter.bytes().len() <= FORMULAS_BYTES);
    assert_eq!(counter.model(), formula_model(&cases::systems::counter()));
    let kept = System {
        initial: Formula::falsehood(),
        step: Formula::all((0..6).map(Formula::kept)),
    };
    let kept = kept.model().unwrap();
    assert!((0..64).all(|x| kept.successors(x) == 1 << x));
}

/// The scheduler as the README and the example in C have it.
#[test]
fn a_scheduler_of_three_flags() {
    let [written, verified, deleted] = [0, 1, 2].map(Formula::now);
    let stays = |flag| Formula::now(flag).implies(Formula::next(flag));
    let scheduler = System {
        initial: !&written & !&verified & !&deleted,
        step: Formula::all((0..3).map(stays))
            & Formula::next(1).implies(&written)
            & Formula::next(2).implies(&written),
    };
    let initial = [
        0x05, 0x05, 0x04, 0x01, 0x00, 0x04, 0x01, 0x01, 0x04, 0x01, 0x02,
    ];
    let step = [
        [0x06, 0x04, 0x01, 0x00, 0x07, 0x00],
        [0x06, 0x04, 0x01, 0x01, 0x07, 0x01],
        [0x06, 0x04, 0x01, 0x02, 0x07, 0x02],
        [0x06, 0x04, 0x07, 0x01, 0x01, 0x00],
        [0x06, 0x04, 0x07, 0x02, 0x01, 0x00],
    ];
    let step = nested(AND, 4, &step.concat());
    assert_eq!(scheduler.bytes(), system(&initial, &step));
    let rule: Rule = "{{true}[*];(p2&!p1)}".parse().unwrap();
    let line = |system: &System| {
        let length = [rule.bytes().len() as u8];
        rulecheck(&[&length, rule.bytes(), system.model().unwrap().bytes()].concat())
    };
    assert_eq!(line(&scheduler), "found 3 pairs 48: 0 1 5 uses 1 2");
    let waits = System {
        step: &scheduler.step & Formula::next(2).implies(&verified),
        ..scheduler
    };
    assert!(line(&waits).starts_with("none pairs "));
}

#[test]
fn what_no_model_has_is_refused_when_the_model_is_made() {
    let system = |initial, step| System { initial, step };
    let refused = |initial, step| system(initial, step).model().unwrap_err();
    let truth = Formula::truth;
    assert_eq!(
        refused(Formula::now(6), truth()),
        Refusal::UnknownProposition { place: 2 }
    );
    assert_eq!(
        refused(truth(), Formula::next(255)),
        Refusal::UnknownProposition { place: 4 }
    );
    assert_eq!(
        refused(Formula::next(0), truth()),
        Refusal::WrongSort { place: 1 }
    );
    let wide = Formula::all((0..100).map(|_| Formula::now(0)));
    assert_eq!(
        refused(truth(), wide),
        Refusal::FormulasTooLong { place: 0 }
    );
}

#[test]
fn a_model_is_what_its_bytes_store() {
    let bytes = crate::inputs::three_states();
    let model = Model::try_from(&bytes[..]).unwrap();
    assert_eq!(model.as_ref(), bytes);
    assert_eq!((model.info().states, model.initial()), (3, 0b001));
    let letters: Vec<_> = (0..4).map(|state| model.letter(state)).collect();
    assert_eq!(letters, [Some(1), Some(2), Some(4), None]);
    assert_eq!(
        (0..4).map(|s| model.successors(s)).collect::<Vec<_>>(),
        [2, 6, 1, 0]
    );
    let highest = crate::inputs::state(0, 0, 1 << 63).repeat(64);
    assert_eq!(Model::from_bytes(&highest).unwrap().successors(63), 1 << 63);
    assert_eq!(Model::from_bytes(&[]).unwrap().initial(), 0);
    let refusal = Model::from_bytes(&bytes[..1]).unwrap_err();
    assert_eq!(refusal, Refusal::StateCutShort { place: 1 });
}
