//! Inputs that cannot be read to the end. A verdict on what came before the failure would be one on another input.

use crate::inputs::{example, impatient_reader, RECORD};
use program::{start, start_by};
use std::fs::File;
use std::io::{pipe, Write};
use std::os::fd::OwnedFd;
use std::os::unix::net::UnixStream;
use std::process::Stdio;

const AGAIN: &str = "Resource temporarily unavailable";
const RESET: &str = "Connection reset by peer";

/// The last record comes after rulecheck has asked for it: without it the answer would be none.
#[test]
fn a_last_record_that_comes_late() {
    let example = example();
    let (early, late) = example.split_at(example.len() - RECORD);
    let (reader, mut writer) = pipe().expect("a pipe");
    writer.write_all(early).expect("the first records");
    let run = start(impatient_reader(&reader));
    let ended = run.end();
    writer.write_all(late).expect("the last record");
    ended.has_no_verdict(AGAIN);
}

#[test]
fn an_input_of_which_nothing_has_come_yet() {
    let (reader, _writer) = pipe().expect("a pipe");
    start(impatient_reader(&reader)).end().has_no_verdict(AGAIN);
}

/// All of it has come and no end of it: whether more would come is not known.
#[test]
fn an_input_without_its_end() {
    let (reader, mut writer) = pipe().expect("a pipe");
    writer.write_all(&example()).expect("the input");
    start(impatient_reader(&reader)).end().has_no_verdict(AGAIN);
}

/// Past the bytes that count, too, what cannot be read is not known to be there.
#[test]
fn a_failure_after_a_thousand_bytes() {
    let (reader, mut writer) = pipe().expect("a pipe");
    writer.write_all(&[0x20; 5000]).expect("the input");
    start(impatient_reader(&reader)).end().has_no_verdict(AGAIN);
}

#[test]
fn a_connection_that_breaks_in_the_middle() {
    let example = example();
    for early in [0, 1, 13, example.len() - RECORD, example.len()] {
        let (mut ours, mut theirs) = UnixStream::pair().expect("two sockets");
        // An end that is closed with something unread breaks the connection: the other end reads what was sent, and
        // then an error.
        theirs.write_all(&[0]).expect("a byte");
        ours.write_all(&example[..early]).expect("some bytes");
        drop(ours);
        let ended = start(OwnedFd::from(theirs)).end();
        ended.has_no_verdict(RESET);
    }
}

#[test]
fn no_standard_input() {
    let run = start_by("exec \"$0\" <&-", Stdio::null(), Stdio::piped());
    run.end().has_no_verdict("Bad file descriptor");
}

#[test]
fn a_directory_for_an_input() {
    let directory = File::open("/").expect("a directory");
    start(directory).end().has_no_verdict("Is a directory");
}

#[test]
fn an_input_that_is_for_writing_alone() {
    let (_reader, writer) = pipe().expect("a pipe");
    start(writer).end().has_no_verdict("Bad file descriptor");
}
