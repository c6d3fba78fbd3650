//! Outputs that cannot be written: what is not printed whole is no verdict, and standard error says so.

use crate::inputs::{example, impatient_writer, piped};
use cases::{heavy, line_input, models};
use program::{start_by, start_with, Ended};
use std::fs::OpenOptions;
use std::io::{pipe, ErrorKind, Read, Write};
use std::process::Stdio;

const AGAIN: &str = "Resource temporarily unavailable";

#[test]
fn a_full_disk() {
    let full = OpenOptions::new().write(true).open("/dev/full");
    let run = start_with(piped(example()), full.expect("/dev/full"));
    run.end().has_no_verdict("No space left on device");
}

#[test]
fn no_standard_output() {
    let run = start_by("exec \"$0\" >&-", piped(example()), Stdio::null());
    run.end().has_no_verdict("Bad file descriptor");
}

#[test]
fn an_output_that_is_for_reading_alone() {
    let (reader, _writer) = pipe().expect("a pipe");
    let run = start_with(piped(example()), reader);
    run.end().has_no_verdict("Bad file descriptor");
}

/// Nobody reads the output: the write fails like any other, and no signal ends the process.
#[test]
fn a_reader_that_is_gone() {
    let (reader, writer) = pipe().expect("a pipe");
    drop(reader);
    let ended = start_with(piped(example()), writer).end();
    ended.has_no_verdict("Broken pipe");
}

/// The same where that signal is ignored.
#[test]
fn a_reader_that_is_gone_and_no_signal() {
    let (reader, writer) = pipe().expect("a pipe");
    drop(reader);
    let run = start_by("trap '' PIPE; exec \"$0\"", piped(example()), writer);
    run.end().has_no_verdict("Broken pipe");
}

/// A line that only fits in part is not closed by a newline, which is how to tell it from a verdict.
#[test]
fn an_output_with_room_for_a_part_of_the_line() {
    let (mut reader, writer) = pipe().expect("a pipe");
    let mut impatient = impatient_writer(&writer);
    drop(writer);
    fill(&mut impatient);
    let mut page = [0; 4096];
    reader.read_exact(&mut page).expect("a page less");
    let input = line_input(&heavy::cycle_then_p0(31), &models::ring(64, Some(33)));
    let line = plain::line(&input);
    assert!(line.len() > page.len());
    let ended: Ended = start_with(piped(input), impatient).end();
    ended.complains(AGAIN);
    let mut written = String::new();
    reader
        .read_to_string(&mut written)
        .expect("what was written");
    let part = written.trim_start_matches('\0');
    assert!(line.starts_with(part) && part.len() < line.len());
}

#[test]
fn an_output_that_is_full() {
    let (_reader, writer) = pipe().expect("a pipe");
    let mut impatient = impatient_writer(&writer);
    fill(&mut impatient);
    start_with(piped(example()), impatient)
        .end()
        .complains(AGAIN);
}

/// Writes until there is no room.
fn fill(pipe: &mut impl Write) {
    let failed = loop {
        if let Err(failed) = pipe.write(&[0; 4096]) {
            break failed;
        }
    };
    assert_eq!(failed.kind(), ErrorKind::WouldBlock);
}
