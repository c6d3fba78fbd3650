//! Rules: what is accepted, what it weighs, and refusals 1 to 8.

use crate::spell::*;
use plain::{read_rule, Formula, Refusal, Rule};

fn weight(rule: &[u8]) -> Result<u64, Refusal> {
    read_rule(rule).map(|read| read.weight)
}

#[test]
fn bytes_become_a_tree() {
    let formula = node(0x05, &[&proposition(5), &node(0x04, &[&[0x03]])]);
    let rule = node(0x14, &[&empty(), &plus(&letter(&formula))]);
    let inner = Formula::And(
        Box::new(Formula::Proposition(5)),
        Box::new(Formula::Not(Box::new(Formula::False))),
    );
    let read = read_rule(&rule).unwrap();
    let expected = Rule::Or(
        Box::new(Rule::Empty),
        Box::new(Rule::Plus(Box::new(Rule::Letter(inner)))),
    );
    assert_eq!(read.rule, expected);
    assert_eq!(read.weight, 4);
}

#[test]
fn the_worked_rule_has_its_bytes() {
    let bytes = [
        0x12, 0x10, 0x01, 0x00, 0x12, 0x17, 0x10, 0x01, 0x01, 0x10, 0x01, 0x02,
    ];
    assert_eq!(worked(), bytes);
    assert_eq!(weight(&bytes), Ok(6));
}

#[test]
fn each_operator_weighs_what_it_should() {
    let (a, b) = (then(&p(0), &empty()), p(1));
    assert_eq!(weight(&empty()), Ok(1));
    assert_eq!(weight(&b), Ok(2));
    assert_eq!(weight(&a), Ok(3));
    assert_eq!(weight(&then(&a, &b)), Ok(5));
    assert_eq!(weight(&overlap(&a, &b)), Ok(5));
    assert_eq!(weight(&or(&a, &b)), Ok(6));
    assert_eq!(weight(&equal_and(&a, &b)), Ok(6));
    assert_eq!(weight(&loose_and(&a, &b)), Ok(23));
    assert_eq!(weight(&star(&a)), Ok(3));
    assert_eq!(weight(&plus(&a)), Ok(3));
    assert_eq!(weight(&counted(2, 7, &a)), Ok(21));
    assert_eq!(weight(&counted(0, 1, &a)), Ok(3));
    assert_eq!(weight(&counted(0, 0, &a)), Ok(1));
    assert_eq!(weight(&counted(15, 15, &b)), Ok(30));
    assert_eq!(weight(&hits(0, 0, &[0x02])), Ok(2));
    assert_eq!(weight(&hits(3, 15, &[0x02])), Ok(17));
}

#[test]
fn labels_are_truth_tables() {
    let label = |formula: &[u8]| match read_rule(&letter(formula)).unwrap().rule {
        Rule::Letter(formula) => formula.label(),
        _ => panic!("one letter was spelled"),
    };
    assert_eq!(label(&proposition(0)), 0xAAAA_AAAA_AAAA_AAAA);
    assert_eq!(label(&proposition(5)), 0xFFFF_FFFF_0000_0000);
    assert_eq!(label(&[0x02]), u64::MAX);
    assert_eq!(label(&[0x03]), 0);
    assert_eq!(label(&[0x04, 0x01, 0x00]), 0x5555_5555_5555_5555);
    assert_eq!(
        label(&[0x05, 0x01, 0x00, 0x01, 0x01]),
        0x8888_8888_8888_8888
    );
    assert_eq!(
        label(&[0x06, 0x01, 0x00, 0x01, 0x01]),
        0xEEEE_EEEE_EEEE_EEEE
    );
}

#[test]
fn refusal_1_comes_before_all() {
    assert_eq!(weight(&[0xFF; 256]), refused(1, 0));
    assert_eq!(weight(&[0x17; 256]), refused(1, 0));
    assert_eq!(weight(&repeated(0x17, 254, &empty())), Ok(1));
    assert_eq!(weight(&repeated(0x17, 255, &empty())), refused(1, 0));
}

#[test]
fn refusal_2_stands_at_the_length() {
    assert_eq!(weight(&[]), refused(2, 0));
    assert_eq!(weight(&[0x10]), refused(2, 1));
    assert_eq!(weight(&[0x10, 0x01]), refused(2, 2));
    assert_eq!(weight(&[0x12, 0x11]), refused(2, 2));
    assert_eq!(weight(&[0x10, 0x05, 0x02]), refused(2, 3));
    assert_eq!(weight(&[0x17; 255]), refused(2, 255));
}

#[test]
fn refusal_3_stands_at_an_unknown_kind() {
    for kind in [0x00, 0x07, 0x0F, 0x1B, 0x1F, 0x20, 0xFF] {
        assert_eq!(weight(&[kind]), refused(3, 0));
        assert_eq!(weight(&[0x10, kind]), refused(3, 1));
        assert_eq!(weight(&[0x12, 0x11, kind]), refused(3, 2));
    }
}

#[test]
fn refusal_4_stands_at_a_kind_out_of_place() {
    for kind in 0x01..=0x06 {
        assert_eq!(weight(&[kind]), refused(4, 0));
        assert_eq!(weight(&[0x12, 0x10, 0x02, kind]), refused(4, 3));
    }
    for kind in 0x10..=0x1A {
        assert_eq!(weight(&[0x10, kind]), refused(4, 1));
        assert_eq!(weight(&[0x10, 0x06, 0x03, kind]), refused(4, 3));
    }
}

#[test]
fn refusal_5_stands_at_the_body() {
    assert_eq!(weight(&[0x10, 0x01, 0x05]), Ok(2));
    assert_eq!(weight(&[0x10, 0x01, 0x06]), refused(5, 2));
    assert_eq!(weight(&[0x12, 0x11, 0x10, 0x01, 0xFF]), refused(5, 4));
}

#[test]
fn refusal_6_stands_at_the_first_byte_too_many() {
    assert_eq!(weight(&[0x11, 0x11]), refused(6, 1));
    assert_eq!(weight(&[0x10, 0x02, 0xFF, 0xFF]), refused(6, 2));
}

#[test]
fn refusal_8_stands_at_the_first_count() {
    for kind in [0x19, 0x1A] {
        for (least, most) in [(1, 0), (15, 14), (0, 16), (16, 16), (255, 255), (0, 255)] {
            assert_eq!(weight(&[kind, least, most]), refused(8, 1));
            // Before any fault of the operand.
            assert_eq!(weight(&[kind, least, most, 0xFF]), refused(8, 1));
            assert_eq!(weight(&[0x12, 0x11, kind, least, most]), refused(8, 3));
        }
        assert_eq!(weight(&[kind]), refused(2, 1));
        assert_eq!(weight(&[kind, 0xFF]), refused(2, 2));
        assert_eq!(weight(&[kind, 15, 15]), refused(2, 3));
        assert_eq!(weight(&[kind, 0, 0]), refused(2, 3));
        assert_eq!(weight(&[kind, 0, 0, 0xFF]), refused(3, 3));
    }
    assert_eq!(weight(&[0x19, 0, 0, 0x02]), refused(4, 3));
    assert_eq!(weight(&[0x1A, 0, 0, 0x11]), refused(4, 3));
    assert_eq!(weight(&[0x1A, 0, 0, 0x01, 6]), refused(5, 4));
    assert_eq!(weight(&[0x1A, 0, 0, 0x01, 5, 0]), refused(6, 5));
    // Before 7.
    let heavy = nested(0x16, 63, &anything());
    assert_eq!(weight(&then(&heavy, &[0x1A, 2, 1])), refused(8, 193));
}

#[test]
fn no_parts_weigh_1_whatever_they_are_of() {
    for heavy in [nested(0x16, 63, &anything()), nested(0x15, 83, &anything())] {
        assert_eq!(weight(&heavy), refused(7, 0));
        assert_eq!(weight(&counted(0, 0, &heavy)), Ok(1));
        assert_eq!(weight(&counted(0, 1, &heavy)), refused(7, 0));
        assert_eq!(
            weight(&then(&p(0), &counted(0, 0, &heavy))[..3]),
            refused(2, 3)
        );
    }
    let named = read_rule(&counted(0, 0, &nested(0x16, 40, &p(4)))).unwrap();
    assert_eq!(named.rule.names(), 1 << 4);
    let named = read_rule(&then(&hits(0, 0, &proposition(5)), &p(1))).unwrap();
    assert_eq!(named.rule.names(), 0b100010);
}

#[test]
fn counts_weigh_64_and_65() {
    assert_eq!(
        weight(&then(
            &counted(0, 15, &counted(2, 2, &p(0))),
            &nested(0x12, 1, &p(0))
        )),
        Ok(64)
    );
    assert_eq!(
        weight(&counted(1, 13, &nested(0x12, 4, &empty()))),
        refused(7, 0)
    );
    assert_eq!(
        weight(&counted(1, 15, &counted(1, 15, &empty()))),
        refused(7, 0)
    );
    let ones = (0..84).fold(empty(), |rule, _| counted(1, 1, &rule));
    assert_eq!(weight(&ones), Ok(1));
    let most = (0..84).fold(empty(), |rule, _| counted(15, 15, &rule));
    assert_eq!(weight(&most), refused(7, 0));
}

#[test]
fn the_first_fault_wins() {
    assert_eq!(weight(&[0x12, 0x10, 0x07, 0x02]), refused(3, 2));
    assert_eq!(weight(&[0x12, 0x02, 0x00]), refused(4, 1));
    assert_eq!(weight(&[0x12, 0x10, 0x01, 0x09, 0x00]), refused(5, 3));
}

#[test]
fn weight_64_is_accepted_and_65_is_refusal_7() {
    let half = nested(0x12, 15, &p(0));
    assert_eq!(weight(&half), Ok(32));
    assert_eq!(weight(&nested(0x12, 31, &p(0))), Ok(64));
    assert_eq!(weight(&then(&half, &half)), Ok(64));
    assert_eq!(weight(&or(&half, &half)), refused(7, 0));
}

#[test]
fn refusal_7_comes_after_6() {
    let heavy = nested(0x12, 32, &anything());
    assert_eq!(weight(&heavy), refused(7, 0));
    let length = heavy.len() as u64;
    assert_eq!(weight(&[heavy, vec![0x00]].concat()), refused(6, length));
}

#[test]
fn no_weight_wraps_round() {
    // 2^64 states, and for `&` far more than 2^128.
    assert_eq!(weight(&nested(0x16, 63, &anything())), refused(7, 0));
    assert_eq!(weight(&nested(0x16, 84, &anything())), refused(7, 0));
    assert_eq!(weight(&nested(0x15, 84, &anything())), refused(7, 0));
    assert_eq!(weight(&nested(0x15, 127, &empty())), refused(7, 0));
}

#[test]
fn products_of_one_state_stay_light() {
    assert_eq!(weight(&nested(0x16, 127, &empty())), Ok(1));
}
