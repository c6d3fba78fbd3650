//! Which states of a model last, and refusals 11 to 16.

use crate::draw::Draw;
use crate::searches::can_go;
use crate::spell::*;
use plain::{lasting, read_model, Lasting};

fn hold(model: &[Spelled], set: u64) {
    let states = model.len() as u64;
    assert_eq!(lasting(&model.concat()), Ok(Lasting { states, set }));
}

#[test]
fn a_state_lasts_where_a_way_leads_round() {
    hold(&[], 0);
    hold(&[state(0, true, 0)], 0);
    hold(&[state(0, false, 1)], 1);
    // To a dead end alone; to a dead end, and round.
    hold(&[state(0, true, 2), state(0, true, 0)], 0);
    hold(&[state(0, true, 3), state(0, true, 0)], 1);
    // Into a ring of two, and out of it.
    let ring = [
        state(0, true, 2),
        state(0, false, 4),
        state(0, false, 10),
        state(0, false, 0),
    ];
    hold(&ring, 0b0111);
}

#[test]
fn a_chain_is_as_good_as_its_end() {
    let chain = |last| -> Vec<Spelled> {
        let way = |number: u64| if number < 63 { 2 << number } else { last };
        (0..64).map(|number| state(0, false, way(number))).collect()
    };
    hold(&chain(0), 0);
    hold(&chain(1 << 63), u64::MAX);
    hold(&chain(1 << 40), u64::MAX);
}

#[test]
fn a_refused_model_has_no_set() {
    assert_eq!(lasting(&[0x00]), refused(12, 0));
    assert_eq!(lasting(&state(0, true, 2)), refused(16, 3));
    assert_eq!(lasting(&state(0, true, 1).repeat(65)), refused(11, 704));
}

#[test]
fn a_state_lasts_where_as_many_steps_can_be_taken_as_there_are_states() {
    let mut draw = Draw::new(7);
    let mut some = 0;
    for _ in 0..2000 {
        let states = 1 + draw.below(64);
        let sparse = 1 + draw.below(states);
        let model = draw.model(states, 1, sparse);
        let read = read_model(&model).unwrap();
        let set = can_go(&read, states);
        let states = states as u64;
        assert_eq!(lasting(&model), Ok(Lasting { states, set }), "{model:x?}");
        let all = u64::MAX >> (64 - states);
        some += usize::from(set != 0 && set != all);
    }
    assert!(some >= 300, "{some}");
}
