//! Inputs that come to their end: at once, slowly, with interruptions, and with much after them.

use crate::inputs::{example, piped, EXAMPLE_LINE, RECORD};
use cases::hostile::{self, nested};
use cases::rules::{kind, P0};
use cases::{heavy, line_input, models};
use program::{start, start_by, start_with};
use std::io::{pipe, Write};
use std::os::fd::OwnedFd;
use std::os::unix::net::UnixStream;
use std::process::{Command, Stdio};
use std::thread;
use std::time::Duration;

/// A rule of 255 bytes and 704 or more of a model: what rulecheck keeps of an input, and beyond.
fn largest(model: &[u8]) -> Vec<u8> {
    let rule = nested(kind::STAR, 252, &P0);
    assert_eq!(rule.len(), 255);
    line_input(&rule, model)
}

#[test]
fn the_example() {
    start(piped(example())).end().says(EXAMPLE_LINE);
    let none = [
        &example()[..13 + RECORD + 3],
        &[2],
        &[0; 7],
        &[0x20, 4, 0],
        &[0; 8],
    ]
    .concat();
    start(piped(none)).end().says("none pairs 2 uses 0 1 2");
}

#[test]
fn no_bytes_at_all() {
    start(piped(vec![])).end().says("refused 2 at 0");
    start(Stdio::null()).end().says("refused 2 at 0");
}

#[test]
fn every_beginning_of_the_example() {
    let example = example();
    for long in 0..example.len() {
        let input = &example[..long];
        start(piped(input.to_vec())).end().says(&plain::line(input));
    }
}

#[test]
fn a_rule_of_255_bytes_with_704_and_705_bytes_of_model() {
    let full = models::full(64);
    let whole = largest(&full);
    assert_eq!(whole.len(), 960);
    start(piped(whole))
        .end()
        .says(&plain::line(&largest(&full)));
    for after in [0x20, 0x00, 0xFF] {
        let input = largest(&[&full[..], &[after]].concat());
        assert_eq!(input.len(), 961);
        start(piped(input)).end().says("refused 11 at 704");
    }
    // One byte less, which cuts the last state short; and a fault in the last byte but one that counts.
    let cut = largest(&full[..703]);
    start(piped(cut)).end().says("refused 13 at 703");
    let mut stray = models::full(63);
    stray[62 * RECORD + 10] = 0x80;
    start(piped(largest(&stray)))
        .end()
        .says("refused 16 at 685");
}

#[test]
fn a_hundred_megabytes() {
    let full = models::full(64);
    let mut input = largest(&full);
    input.resize(100 << 20, 0x20);
    start(piped(input)).end().says("refused 11 at 704");
}

/// Whoever writes is not cut off: all is read before anything is said.
#[test]
fn nothing_is_said_before_the_end() {
    let (reader, mut writer) = pipe().expect("a pipe");
    let (mut said, output) = pipe().expect("a pipe");
    let run = start_with(reader, output);
    let input = largest(&models::full(64));
    writer.write_all(&input).expect("the input");
    writer
        .write_all(&vec![0; 1 << 20])
        .expect("what comes after");
    drop(writer);
    let mut line = String::new();
    std::io::Read::read_to_string(&mut said, &mut line).expect("a line");
    assert_eq!(line, "refused 11 at 704\n");
    assert_eq!(run.end().stderr, "");
}

#[test]
fn a_slow_writer() {
    let (reader, mut writer) = pipe().expect("a pipe");
    let run = start(reader);
    for byte in example() {
        writer.write_all(&[byte]).expect("a byte");
        thread::sleep(Duration::from_millis(5));
    }
    drop(writer);
    run.end().says(EXAMPLE_LINE);
}

#[test]
fn a_thousand_bytes_one_by_one() {
    let (reader, mut writer) = pipe().expect("a pipe");
    let run = start(reader);
    let input = largest(&models::ring(64, Some(33)));
    for byte in &input {
        writer.write_all(&[*byte]).expect("a byte");
    }
    drop(writer);
    run.end().says(&plain::line(&input));
}

/// A socket with a time limit does not go on waiting after the process was stopped: its read fails by EINTR.
#[test]
fn a_read_that_is_interrupted_is_tried_again() {
    let (mut ours, theirs) = UnixStream::pair().expect("two sockets");
    theirs
        .set_read_timeout(Some(Duration::from_secs(60)))
        .expect("a time limit");
    let run = start(OwnedFd::from(theirs));
    for part in example().chunks(8) {
        ours.write_all(part).expect("some bytes");
        for sign in ["-STOP", "-CONT"] {
            thread::sleep(Duration::from_millis(30));
            let process = run.id().to_string();
            let sent = Command::new("kill").args([sign, &process]).status();
            assert!(sent.expect("kill").success());
        }
    }
    thread::sleep(Duration::from_millis(30));
    drop(ours);
    run.end().says(EXAMPLE_LINE);
}

#[test]
fn the_longest_line() {
    let input = line_input(&heavy::cycle_then_p0(31), &models::ring(64, Some(33)));
    let line = plain::line(&input);
    assert!(line.starts_with("found 1954 pairs 1955: 0 1 2 "));
    start(piped(input)).end().says(&line);
}

/// Deep rules on the stack that any call has to do with.
#[test]
fn a_stack_of_512_kib() {
    for rule in hostile::deep() {
        let input = line_input(&rule, &models::full(64));
        let line = plain::line(&input);
        let run = start_by("ulimit -s 512; exec \"$0\"", piped(input), Stdio::piped());
        run.end().says(&line);
    }
}
