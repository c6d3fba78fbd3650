//! Models given by formulas: what they mean, and refusals 9, 2 to 6 and 21.

use crate::draw::Draw;
use crate::spell::*;
use plain::{formula_model, read_model, read_system, search, Model, Refusal, MODEL_BYTES};

const TRUE: [u8; 1] = [0x02];
const FALSE: [u8; 1] = [0x03];

/// The model that the formulas are written out as.
fn model(formulas: &[u8]) -> Result<Model, Refusal> {
    let written = formula_model(formulas, MODEL_BYTES)?;
    assert_eq!(written.len(), MODEL_BYTES);
    let read = read_model(&written).expect("what is written is a model");
    assert!(read.letters.iter().copied().eq(0..64));
    assert_eq!(
        read_system(formulas).map(|system| system.model()),
        Ok(read.clone())
    );
    Ok(read)
}

/// Whether the formula holds of two letters: its bytes are gone over from the last to the first, with the values of the
/// operands that were met on the way.
fn holds(formula: &[u8], now: u8, next: u8) -> bool {
    let mut values: Vec<bool> = vec![];
    let mut last = formula.len();
    while last > 0 {
        // Seen from behind, the number of a proposition looks like a kind.
        let named = last >= 2 && matches!(formula[last - 2], 0x01 | 0x07) && is_body(formula, last);
        if named {
            let letter = if formula[last - 2] == 0x01 { now } else { next };
            values.push(letter >> formula[last - 1] & 1 == 1);
            last -= 2;
            continue;
        }
        let mut operand = || values.pop().expect("an operand");
        let value = match formula[last - 1] {
            0x02 => true,
            0x03 => false,
            0x04 => !operand(),
            0x05 => operand() & operand(),
            _ => operand() | operand(),
        };
        values.push(value);
        last -= 1;
    }
    assert_eq!(values.len(), 1);
    values[0]
}

/// Whether the byte before this place is the number of a proposition: going forward decides it.
fn is_body(formula: &[u8], end: usize) -> bool {
    let mut at = 0;
    while at + 1 < end {
        at += if matches!(formula[at], 0x01 | 0x07) {
            2
        } else {
            1
        };
    }
    at == end
}

#[test]
fn drawn_formulas_mean_what_they_say_of_every_two_letters() {
    let mut draw = Draw::new(8);
    let mut some = 0;
    for _ in 0..400 {
        let initial = draw.formula(3, 6);
        let step = draw.step_formula(4, 6);
        let read = model(&system(&initial, &step)).unwrap();
        for x in 0..64 {
            assert_eq!(read.initial >> x & 1 == 1, holds(&initial, x, 0));
            for y in 0..64 {
                let follows = read.successors[x as usize] >> y & 1 == 1;
                assert_eq!(follows, holds(&step, x, y), "{step:x?}: {x} {y}");
            }
        }
        let ways: u32 = read.successors.iter().map(|set| set.count_ones()).sum();
        some += usize::from(ways != 0 && ways != 4096);
    }
    assert!(some >= 200, "{some}");
}

#[test]
fn true_is_every_state_and_every_step() {
    let all = model(&system(&TRUE, &TRUE)).unwrap();
    assert_eq!(
        (all.initial, all.successors),
        (u64::MAX, vec![u64::MAX; 64])
    );
    let none = model(&system(&FALSE, &FALSE)).unwrap();
    assert_eq!((none.initial, none.successors), (0, vec![0; 64]));
    // No run begins, and none goes on.
    for (initial, step) in [(&FALSE, &TRUE), (&TRUE, &FALSE)] {
        let written = formula_model(&system(initial, step), MODEL_BYTES).unwrap();
        let searched = search(&anything(), &written, ENOUGH).unwrap();
        assert_eq!((searched.run, searched.pairs), (None, 0));
    }
}

#[test]
fn the_bytes_are_those_of_the_records() {
    let written = formula_model(&[0x30, 0x01, 0x05, 0x31, 0x07, 0x00], 720).unwrap();
    for (x, record) in written.chunks(11).enumerate() {
        assert_eq!(record[..3], [0x20, x as u8, u8::from(x >= 32)]);
        assert_eq!(record[3..], [0xAA; 8]);
    }
}

#[test]
fn now_is_the_state_that_is_left() {
    let left = model(&[0x30, 0x02, 0x31, 0x01, 0x02]).unwrap();
    let entered = model(&[0x30, 0x02, 0x31, 0x07, 0x02]).unwrap();
    for x in 0..64 {
        let has = if x >> 2 & 1 == 1 { u64::MAX } else { 0 };
        assert_eq!(left.successors[x], has);
        assert_eq!(entered.successors[x], 0xF0F0_F0F0_F0F0_F0F0);
    }
}

/// One of two formulas, both or neither.
fn alike(a: &[u8], b: &[u8]) -> Spelled {
    let both = node(0x05, &[a, b]);
    let neither = node(0x04, &[&node(0x06, &[a, b])]);
    node(0x06, &[&both, &neither])
}

#[test]
fn a_counter_of_six_bits_is_a_ring() {
    let differ = |bit| node(0x04, &[&alike(&next(bit), &proposition(bit))]);
    // The lowest bit turns; each other one does exactly if the one below it falls.
    let mut step = differ(0);
    for bit in 1..6 {
        let falls = node(
            0x05,
            &[&proposition(bit - 1), &node(0x04, &[&next(bit - 1)])],
        );
        step = node(0x05, &[&step, &alike(&differ(bit), &falls)]);
    }
    let mut zero = node(0x04, &[&proposition(0)]);
    for bit in 1..6 {
        zero = node(0x05, &[&zero, &node(0x04, &[&proposition(bit)])]);
    }
    let formulas = system(&zero, &step);
    assert!(formulas.len() <= 255, "{}", formulas.len());
    let ring = model(&formulas).unwrap();
    assert_eq!(ring.initial, 1);
    for x in 0..64 {
        assert_eq!(ring.successors[x], 1 << ((x + 1) % 64));
    }
}

fn refusal(formulas: &[u8]) -> Result<Model, Refusal> {
    let refused = formula_model(formulas, MODEL_BYTES).unwrap_err();
    // Before 21, whatever it is.
    for short in [0, 703] {
        assert_eq!(formula_model(formulas, short), Err(refused));
    }
    Err(refused)
}

#[test]
fn refusal_9_comes_before_all() {
    assert_eq!(refusal(&[0xFF; 256]), refused(9, 0));
    assert_eq!(refusal(&[0x30; 256]), refused(9, 0));
    assert_eq!(refusal(&[0; 70_000]), refused(9, 0));
    let nots = |times| system(&repeated(0x04, times, &TRUE), &TRUE);
    assert_eq!(nots(251).len(), 255);
    assert_eq!(model(&nots(250)).unwrap().initial, u64::MAX);
    assert_eq!(model(&nots(251)).unwrap().initial, 0);
    assert_eq!(refusal(&nots(252)), refused(9, 0));
    let nots = |times| system(&TRUE, &repeated(0x04, times, &next(0)));
    assert_eq!(
        model(&nots(250)).unwrap().successors[0],
        0xAAAA_AAAA_AAAA_AAAA
    );
    assert_eq!(refusal(&nots(251)), refused(9, 0));
}

#[test]
fn refusal_2_stands_at_the_length() {
    let whole = system(
        &node(0x05, &[&proposition(1), &TRUE]),
        &node(0x06, &[&next(1), &FALSE]),
    );
    for length in 0..whole.len() {
        assert_eq!(refusal(&whole[..length]), refused(2, length as u64));
    }
    assert!(model(&whole).is_ok());
    assert_eq!(
        refusal(&[&[0x30][..], &[0x04; 254]].concat()),
        refused(2, 255)
    );
}

/// Kinds of this request and of rules and formulas; any other byte is no kind.
fn is_kind(byte: u8) -> bool {
    matches!(byte, 0x01..=0x07 | 0x10..=0x1A | 0x30 | 0x31)
}

/// Every byte where each kind is needed.
#[test]
fn a_kind_out_of_its_place_is_4_and_no_kind_is_3() {
    let formula = |byte| matches!(byte, 0x01..=0x06);
    for byte in 0..=0xFF {
        let hold = |before: &[u8], fits: bool| {
            let bytes = [before, &[byte]].concat();
            let place = before.len() as u64;
            let want = match fits {
                // Something more is needed, or nothing is.
                true => None,
                false if is_kind(byte) => Some((4, place)),
                false => Some((3, place)),
            };
            let got = formula_model(&bytes, MODEL_BYTES).err();
            let got = got.map(|refusal| (refusal.number, refusal.place));
            let ended = [None, Some((2, place + 1))];
            assert!(got == want || fits && ended.contains(&got), "{bytes:x?}");
        };
        hold(&[], byte == 0x30);
        hold(&[0x30], formula(byte));
        hold(&[0x30, 0x05, 0x02], formula(byte));
        hold(&[0x30, 0x02], byte == 0x31);
        hold(&[0x30, 0x02, 0x31], formula(byte) || byte == 0x07);
        hold(
            &[0x30, 0x02, 0x31, 0x06, 0x02],
            formula(byte) || byte == 0x07,
        );
        if byte > 5 {
            assert_eq!(refusal(&[0x30, 0x01, byte, 0x31, 0x02]), refused(5, 2));
            assert_eq!(refusal(&[0x30, 0x02, 0x31, 0x01, byte]), refused(5, 4));
            assert_eq!(refusal(&[0x30, 0x02, 0x31, 0x07, byte]), refused(5, 4));
        } else {
            assert!(model(&[0x30, 0x01, byte, 0x31, 0x07, byte]).is_ok());
        }
        assert_eq!(refusal(&[0x30, 0x02, 0x31, 0x02, byte]), refused(6, 4));
    }
}

#[test]
fn the_listed_places() {
    assert_eq!(refusal(&[]), refused(2, 0));
    assert_eq!(refusal(&[0x01]), refused(4, 0));
    assert_eq!(refusal(&[0x20]), refused(3, 0));
    assert_eq!(refusal(&[0x19]), refused(4, 0));
    assert_eq!(refusal(&[0x1A]), refused(4, 0));
    assert_eq!(refusal(&[0x30, 0x07, 0x00, 0x31, 0x02]), refused(4, 1));
    assert_eq!(refusal(&[0x30, 0x05, 0x02, 0x07]), refused(4, 3));
    assert_eq!(refusal(&[0x31, 0x02]), refused(4, 0));
    assert_eq!(refusal(&[0x30, 0x30]), refused(4, 1));
    assert_eq!(refusal(&[0x30, 0x02, 0x30]), refused(4, 2));
    assert_eq!(refusal(&[0x30, 0x02, 0x02]), refused(4, 2));
    assert_eq!(refusal(&[0x30, 0x02, 0x31, 0x31]), refused(4, 3));
    assert_eq!(refusal(&[0x30, 0x02, 0x31, 0x02, 0x31]), refused(6, 4));
    assert_eq!(refusal(&[0x30, 0x01]), refused(2, 2));
    assert_eq!(refusal(&[0x30, 0x01, 0x06]), refused(5, 2));
    assert_eq!(refusal(&[0x30, 0x01, 0x06, 0xFF]), refused(5, 2));
    assert_eq!(refusal(&[0x30, 0x02, 0x31, 0x07, 0x06]), refused(5, 4));
    assert_eq!(refusal(&[0x30, 0x02, 0x31, 0x07]), refused(2, 4));
    assert_eq!(
        refusal(&[0x30, 0x02, 0x31, 0x07, 0x05, 0x00]),
        refused(6, 5)
    );
}

#[test]
fn refusal_21_comes_last() {
    let formulas = system(&TRUE, &TRUE);
    for short in [0, 1, 703] {
        assert_eq!(formula_model(&formulas, short), refused(21, 0));
    }
    for enough in [704, 720, 100_000] {
        assert_eq!(formula_model(&formulas, enough).map(|x| x.len()), Ok(704));
    }
}

/// In a rule the kinds of this request are no kinds.
#[test]
fn a_rule_knows_none_of_it() {
    for kind in [0x07, 0x30, 0x31] {
        let rule = plain::read_rule(&[0x10, kind]).map(|read| read.weight);
        assert_eq!(rule, refused(3, 1));
    }
}

#[test]
fn a_job_that_can_be_skipped_is_found() {
    // p0 running, p1 done: running is done next, or is given up; what is done stays.
    let (p0, p1, n0, n1) = (proposition(0), proposition(1), next(0), next(1));
    let not = |formula: &[u8]| node(0x04, &[formula]);
    let and = |a: &[u8], b: &[u8]| node(0x05, &[a, b]);
    let rest = (2..6).fold(TRUE.to_vec(), |rest, bit| {
        and(&rest, &not(&proposition(bit)))
    });
    let rest_next = (2..6).fold(TRUE.to_vec(), |rest, bit| and(&rest, &not(&next(bit))));
    let initial = and(&and(&p0, &not(&p1)), &rest);
    let ends = and(&and(&p0, &not(&n0)), &rest_next);
    let stays = and(&and(&alike(&p0, &n0), &alike(&p1, &n1)), &rest_next);
    let formulas = system(&initial, &node(0x06, &[&ends, &stays]));
    let written = formula_model(&formulas, MODEL_BYTES).unwrap();
    // Neither running nor done, after it ran.
    let given_up = letter(&and(&not(&p0), &not(&p1)));
    let searched = search(&then(&p(0), &given_up), &written, ENOUGH).unwrap();
    assert_eq!(searched.run, Some(vec![0b01, 0b00]));
    let searched = search(&then(&p(0), &p(1)), &written, ENOUGH).unwrap();
    assert_eq!(searched.run, Some(vec![0b01, 0b10]));
}
