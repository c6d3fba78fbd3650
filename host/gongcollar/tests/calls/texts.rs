//! Rules as text: what is read and written, every refusal, and what becomes of the output.

use cases::texts::MOST_CHARACTERS;
use gongcollar::{read_text_into, write_text_into, Refusal, Rule, RULE_BYTES, TEXT_BYTES};

/// Texts that are no rule's, with the length of the longest beginning that some rule's has.
const BROKEN: [(&str, u64); 23] = [
    ("", 0),
    ("p0x", 2),
    ("{p0}", 4),
    ("{p0&&&p1}", 5),
    ("(p0&&p1)", 4),
    ("[*]", 2),
    ("tru", 3),
    ("p6", 1),
    (" p0", 0),
    ("p0 ", 2),
    ("p0\n", 2),
    ("{p0; p1}", 4),
    ("\u{fc}", 0),
    ("{p0}[*]x", 7),
    ("p0[", 3),
    ("p0[=2..1", 8),
    ("p0[=2..1]", 8),
    ("p0[=3..2]", 7),
    ("p0[=16", 5),
    ("p0[=01", 5),
    ("p0[=12..11]", 9),
    ("{p0}[*0]", 7),
    ("{p0}[=0..1]", 5),
];

fn refused(text: &str, number: u64, place: u64) {
    let refusal = text.parse::<Rule>().unwrap_err();
    assert_eq!(
        (refusal.number(), refusal.place()),
        (number, place),
        "{text}"
    );
}

#[test]
fn a_broken_text_is_refused_where_no_rule_text_goes_on() {
    for (text, place) in BROKEN {
        refused(text, 31, place);
    }
    for character in ["{", "!", "("] {
        refused(
            &character.repeat(MOST_CHARACTERS),
            31,
            MOST_CHARACTERS as u64,
        );
        refused(&character.repeat(MOST_CHARACTERS + 1), 30, 0);
    }
}

#[test]
fn the_limits_are_tested_in_their_order() {
    let nots = "!".repeat(254);
    refused(&format!("{nots}p0"), 1, 0);
    refused(&format!("{nots}p0x"), 31, 256);
    let row = format!("{}p0{}", "{p0;".repeat(32), "}".repeat(32));
    refused(&row, 7, 0);
    for length in [0, 2] {
        let mut out = vec![7; length];
        let refusal = read_text_into(b"p0", &mut out).unwrap_err();
        assert_eq!(refusal, Refusal::ShortOutput { place: 0 });
        assert_eq!(out, vec![7; length]);
        assert_eq!(
            read_text_into(row.as_bytes(), &mut out)
                .unwrap_err()
                .number(),
            7
        );
    }
}

#[test]
fn writing_gives_the_rules_refusals_and_then_32() {
    let mut out = [7; 3];
    for (rule, number, place) in [
        (&[][..], 2, 0),
        (&[0x10, 0x01, 0x06], 5, 2),
        (&[0x11, 0x11], 6, 1),
        (&[0x11], 32, 0),
    ] {
        let refusal = write_text_into(rule, &mut out).unwrap_err();
        assert_eq!((refusal.number(), refusal.place()), (number, place));
        assert_eq!(out, [7; 3]);
    }
}

#[test]
fn every_form_is_written_as_it_was_read() {
    for text in [
        "p0",
        "p5",
        "true",
        "false",
        "!p1",
        "(p0&p1)",
        "(p0|!(p2&true))",
        "[*0]",
        "{p0;p1}",
        "{p0:p1}",
        "{p0|p1}",
        "{p0&p1}",
        "{p0&&p1}",
        "{p0}[*]",
        "{p0}[+]",
        "{{[*0]}[+];{{p1}[*]:p2}}",
        "{p0}[*0..0]",
        "{p0}[*3..5]",
        "{[*0]}[*15..15]",
        "p0[=3..5]",
        "!(p0|true)[=0..10]",
        "{{p0[=9..10]}[*1..1];p1[=0..0]}",
    ] {
        let rule: Rule = text.parse().unwrap();
        assert_eq!(rule.to_string(), text);
        assert_eq!(Rule::from_bytes(rule.bytes()).unwrap(), rule);
        assert_eq!(Rule::try_from(rule.as_ref()).unwrap(), rule);
        assert_eq!(gongcollar::read_rule(rule.bytes()).unwrap(), rule.info());
    }
    assert_eq!(format!("{:>6}", "p0".parse::<Rule>().unwrap()), "    p0");
}

#[test]
fn the_output_past_what_is_written_stays() {
    let mut out = [7; RULE_BYTES + 1];
    let (bytes, rule) = read_text_into(b"{p0}[+]", &mut out).unwrap();
    assert_eq!((bytes, rule.weight), (&[0x18, 0x10, 0x01, 0x00][..], 2));
    assert!(out[4..].iter().all(|&byte| byte == 7));
    let mut out = [7; TEXT_BYTES + 1];
    let (text, _) = write_text_into(&[0x11], &mut out).unwrap();
    assert_eq!(text, b"[*0]");
    assert!(out[4..].iter().all(|&byte| byte == 7));
}
