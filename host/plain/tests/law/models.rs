//! Models: what is accepted, and refusals 11 to 16.

use crate::spell::*;
use plain::{read_model, Model};

#[test]
fn records_become_states() {
    let model = [state(1, true, 2), state(63, false, 3)].concat();
    let expected = Model {
        letters: vec![1, 63],
        initial: 1,
        successors: vec![2, 3],
    };
    assert_eq!(read_model(&model), Ok(expected));
}

#[test]
fn no_bytes_are_a_model_without_states() {
    let read = read_model(&[]).unwrap();
    assert!(read.letters.is_empty() && read.successors.is_empty());
    assert_eq!(read.initial, 0);
}

#[test]
fn sixty_four_states_may_all_be_successors() {
    let full = state(63, true, u64::MAX).repeat(64);
    let read = read_model(&full).unwrap();
    assert_eq!(read.initial, u64::MAX);
    assert_eq!(read.successors, vec![u64::MAX; 64]);
}

#[test]
fn refusal_11_is_for_a_byte_after_64_records() {
    let full = state(0, false, u64::MAX).repeat(64);
    for byte in [0x00, 0x20, 0xFF] {
        assert_eq!(read_model(&[&full[..], &[byte]].concat()), refused(11, 704));
    }
    let many = state(0, false, 0).repeat(200);
    assert_eq!(read_model(&many), refused(11, 704));
}

#[test]
fn a_fault_among_64_records_comes_before_11() {
    let mut full = state(0, false, 0).repeat(65);
    full[63 * 11] = 0x21;
    assert_eq!(read_model(&full), refused(12, 693));
}

#[test]
fn refusal_12_stands_at_the_kind() {
    assert_eq!(read_model(&[0x00]), refused(12, 0));
    assert_eq!(read_model(&[0x10, 0x02]), refused(12, 0));
    let second = [state(0, true, 1), vec![0x21]].concat();
    assert_eq!(read_model(&second), refused(12, 11));
}

#[test]
fn refusal_13_stands_at_the_length() {
    let record = state(63, true, 0xFF);
    for length in 1..11 {
        assert_eq!(read_model(&record[..length]), refused(13, length as u64));
    }
    let second = [state(0, true, 1), vec![0x20]].concat();
    assert_eq!(read_model(&second), refused(13, 12));
}

#[test]
fn refusals_14_and_15_do_not_wait_for_the_record_to_end() {
    assert_eq!(read_model(&[0x20, 0x40]), refused(14, 1));
    assert_eq!(read_model(&[0x20, 0xFF, 0x02]), refused(14, 1));
    assert_eq!(read_model(&[0x20, 0x00, 0x02]), refused(15, 2));
    let second = [state(0, true, 1), vec![0x20, 0x00, 0xFF]].concat();
    assert_eq!(read_model(&second), refused(15, 13));
}

#[test]
fn refusal_16_stands_at_the_lowest_states_successors() {
    assert_eq!(read_model(&state(0, true, 2)), refused(16, 3));
    assert_eq!(read_model(&state(0, true, 1 << 63)), refused(16, 3));
    let model = [state(0, true, 3), state(0, true, 4), state(0, true, 12)].concat();
    assert_eq!(read_model(&model), refused(16, 25));
    let last = [state(0, true, 7), state(0, true, 4), state(0, true, 8)].concat();
    assert_eq!(read_model(&last), refused(16, 25));
}

#[test]
fn a_later_records_fault_comes_before_16() {
    let missing = state(0, true, 1 << 40);
    let with = |bytes: &[u8]| read_model(&[&missing[..], bytes].concat());
    assert_eq!(with(&[]), refused(16, 3));
    assert_eq!(with(&[0x00]), refused(12, 11));
    assert_eq!(with(&[0x20]), refused(13, 12));
    assert_eq!(with(&[0x20, 0x40]), refused(14, 12));
    assert_eq!(with(&[0x20, 0x00, 0x02]), refused(15, 13));
}
